// What C++ makes of threads, conditions and routines that run once.
#include <atomic>
#include <condition_variable>
#include <future>
#include <mutex>
#include <thread>

#include "../asleep.h"

static std::mutex lock, other;
static std::condition_variable condition;
static bool is_ready;
static std::atomic<bool> is_waiting{false};
static std::once_flag flag;

static void take_other() { std::lock_guard<std::mutex> guard(other); }

static void waits() {
    std::unique_lock<std::mutex> guard(lock);
    is_waiting = true;
    condition.wait(guard, [] { return is_ready; });
    std::call_once(flag, take_other);
}

int main() {
    std::call_once(flag, take_other);
    std::thread thread(waits);
    while (!is_waiting)
        std::this_thread::yield();
    await_asleep();
    {
        std::lock_guard<std::mutex> guard(lock);
        is_ready = true;
        condition.notify_one();
    }
    thread.join();
}
