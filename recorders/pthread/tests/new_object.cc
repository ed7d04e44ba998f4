// As new_lock.c, with a std::mutex, which no call initialises: it is in an object that is allocated under another lock. With `before` the object
// is there before, and with `later` its maker takes its lock so once more when another thread has had it.
#include <memory>
#include <mutex>
#include <string>
#include <thread>

struct Session {
    std::string name = std::string(100, 'x');
    std::mutex lock;
};

static std::mutex global;
static std::unique_ptr<Session> shared;

static void make() {
    shared = std::make_unique<Session>();
    shared->name += "y";
}

static void use(bool is_first) {
    global.lock();
    if (is_first && !shared)
        make();
    if (is_first)
        shared->lock.lock();
    global.unlock();
    if (!is_first)
        shared->lock.lock();
    global.lock();
    global.unlock();
    shared->lock.unlock();
}

int main(int argc, char **argv) {
    std::string way = argc > 1 ? argv[1] : "";
    if (way == "before")
        make();
    use(true);
    std::thread(use, false).join();
    if (way == "later")
        use(true);
}
