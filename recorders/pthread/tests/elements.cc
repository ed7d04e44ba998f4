// The locks of an array's elements are one class for each member, and two locks of one object are two.
#include <memory>
#include <mutex>
#include <vector>

struct Entity {
    long value = 0;
    std::mutex lock;
    std::mutex log;
};

int main() {
    std::vector<Entity> many(6);
    auto one = std::make_unique<Entity>();
    for (auto &entity : many) {
        std::lock_guard<std::mutex> first(entity.lock);
        std::lock_guard<std::mutex> second(entity.log);
    }
    std::lock_guard<std::mutex> first(one->lock);
    std::lock_guard<std::mutex> second(one->log);
}
