// Routines that run once, with a lock inside; one of them throws first. A variable of a function that is made when it is reached, too.
// Under the same lock they are waited for: each of the two is an order with it in both directions.
#include <atomic>
#include <mutex>
#include <pthread.h>
#include <stdexcept>
#include <thread>
#include <unistd.h>

#include "asleep.h"

static std::mutex a;
static std::once_flag flag;
static pthread_once_t plain = PTHREAD_ONCE_INIT;
static std::atomic<bool> is_running{false};

static void take_a() { std::lock_guard<std::mutex> guard(a); }

struct Table {
    Table() {
        take_a();
        is_running = true;
        await_asleep();
    }
};

static Table &table() {
    static Table t;
    return t;
}

int main() {
    try {
        std::call_once(flag, [] { throw std::runtime_error("not yet"); });
    } catch (const std::exception &) {
    }
    std::call_once(flag, take_a);
    std::call_once(flag, take_a);
    pthread_once(&plain, take_a);
    pthread_once(&plain, take_a);
    std::thread waits([] {
        while (!is_running)
            usleep(1000);
        std::lock_guard<std::mutex> guard(a);
        table();
    });
    table();
    waits.join();
    table();
}
