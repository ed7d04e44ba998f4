// What each file that includes this has for itself: a type, and a function with a lock in its frame.
#include <mutex>
#include <thread>

extern std::mutex other;

template <class F> __attribute__((noinline)) void in_thread(F f) {
    std::thread thread(f);
    thread.join();
}

static inline void nest(std::mutex &outer, std::mutex &inner) {
    std::lock_guard<std::mutex> first(outer), second(inner);
}

// One of these orders is right, and the other one is that of the other file or function: nothing is taken both ways.
static inline void before(std::mutex &m) {
    in_thread([&] { nest(m, other); });
}
static inline void after(std::mutex &m) {
    in_thread([&] { nest(other, m); });
}

namespace {
struct Node {
    long at = 0;
    std::mutex m;
};
} // namespace
