// Two mutexes that are taken through many functions of the library: by a list of locks.
#include "turns.h"

#include <mutex>
#include <thread>
#include <vector>

struct Lock : std::mutex {};
static Lock a, b;

static void take(Lock &first, Lock &second) {
    std::vector<std::unique_lock<std::mutex>> held;
    held.emplace_back(first);
    held.emplace_back(second);
}

static void repeat(int thread, Lock &first, Lock &second) {
    for (int i = 0; i < ROUNDS; i++) {
        await_turn(2 * i + thread, 2);
        take(first, second);
        end_turn(2 * i + thread);
    }
}

int main() {
    std::thread one([] { repeat(0, a, b); });
    std::thread two([] { repeat(1, b, a); });
    one.join();
    two.join();
}
