// A lock that is held from start to end, by which another thread is told to end: that one waits for it for a time only, again and again. With
// `once` a third thread waits without one, later; with `exits` the process ends meanwhile.
#include <atomic>
#include <chrono>
#include <cstring>
#include <mutex>
#include <thread>
#include <unistd.h>

static std::timed_mutex quit;
static std::mutex state;
static std::atomic<int> times; // that it has given up

static void timer() {
    std::lock_guard<std::mutex> guard(state);
    while (!quit.try_lock_for(std::chrono::milliseconds(5)))
        times++;
    quit.unlock();
}

static void waits() {
    std::lock_guard<std::mutex> guard(state);
    std::lock_guard<std::timed_mutex> end(quit);
}

int main(int argc, char **argv) {
    const char *way = argc > 1 ? argv[1] : "";
    quit.lock();
    { std::lock_guard<std::mutex> guard(state); }
    std::thread thread(timer);
    while (times < 2)
        std::this_thread::sleep_for(std::chrono::milliseconds(1));
    if (std::strcmp(way, "exits") == 0)
        _exit(0);
    quit.unlock();
    thread.join();
    if (std::strcmp(way, "once") == 0)
        std::thread(waits).join();
}
