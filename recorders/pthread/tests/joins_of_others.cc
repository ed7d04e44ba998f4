// Threads of std::thread and std::async that are joined with the lock held that they take.
#include <atomic>
#include <chrono>
#include <future>
#include <memory>
#include <mutex>
#include <thread>

static std::mutex by_thread, by_async;
static std::atomic<bool> was_taken;

static void take(std::mutex &lock) {
    { std::lock_guard<std::mutex> guard(lock); }
    was_taken = true;
}

template <class Work> static void join_under(std::mutex &lock, Work work) {
    was_taken = false;
    auto joined = work();
    while (!was_taken)
        std::this_thread::sleep_for(std::chrono::milliseconds(1));
    std::lock_guard<std::mutex> guard(lock);
    joined();
}

int main() {
    join_under(by_thread, [] {
        auto thread = std::make_shared<std::thread>([] { take(by_thread); });
        return [thread] { thread->join(); };
    });
    join_under(by_async, [] {
        auto future = std::make_shared<std::future<void>>(std::async(std::launch::async, [] { take(by_async); }));
        return [future] { *future = std::future<void>(); };
    });
}
