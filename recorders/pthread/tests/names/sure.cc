#include <memory>
#include <mutex>
#include <vector>
struct cat { long a; std::mutex m; };
struct Owner {
    std::unique_ptr<std::mutex> own = std::make_unique<std::mutex>();
    std::shared_ptr<std::mutex> shared{new std::mutex};
    std::vector<std::mutex> all{3};
    void take() { own->lock(); shared->lock(); all[1].lock(); all[1].unlock(); shared->unlock(); own->unlock(); }
};
__attribute__((noinline)) static void take(void *p) {
    auto m = (std::mutex *)((char *)p + 8);
    m->lock();
    m->unlock();
}
int main() {
    cat *c = (cat *)calloc(1, sizeof *c);
    take(c);
    Owner owner;
    owner.take();
}
