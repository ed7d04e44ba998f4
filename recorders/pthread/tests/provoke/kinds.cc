// Programs in C++ whose threads can stand still, each by its name: by kinds of locks, and by how these are taken.
#include "turns.h"

#include <atomic>
#include <condition_variable>
#include <cstring>
#include <functional>
#include <initializer_list>
#include <mutex>
#include <shared_mutex>
#include <thread>
#include <vector>

static std::mutex a, b;

// Has threads run, each in a turn of its own.
static void run(std::initializer_list<std::function<void()>> works) {
    std::vector<std::thread> threads;
    int number = 0;
    for (auto &work : works) {
        threads.emplace_back([work, number, &works] {
            await_turn(number, (int)works.size());
            work();
            end_turn(number);
        });
        number++;
    }
    for (auto &thread : threads)
        thread.join();
}

template <typename first_kind, typename second_kind> static void take(first_kind &first, second_kind &second) {
    std::lock_guard<first_kind> outer(first);
    std::lock_guard<second_kind> inner(second);
}

static void once() {
    static std::once_flag flag;
    auto initialises = [] { std::lock_guard<std::mutex> inner(a); };
    run({[&] { std::call_once(flag, initialises); }, [&] {
             std::lock_guard<std::mutex> outer(a);
             std::call_once(flag, initialises);
         }});
}

static std::atomic<bool> is_being_made, is_held;

static int made_in_a() {
    is_being_made = true;
    while (!is_held)
        std::this_thread::yield();
    std::lock_guard<std::mutex> inner(a);
    return 1;
}

static int made() {
    static int variable = made_in_a();
    return variable;
}

// This stands still in the recorded run, too: who finds the variable made waits for nobody.
static void variable() {
    std::thread makes(made);
    while (!is_being_made)
        std::this_thread::yield();
    std::lock_guard<std::mutex> outer(a);
    is_held = true;
    made();
    makes.join();
}

static void shared() {
    static std::shared_timed_mutex table;
    run({[] {
             std::shared_lock<std::shared_timed_mutex> reads(table);
             std::lock_guard<std::mutex> inner(a);
         },
         [] { take(a, table); }});
}

static void recursive() {
    static std::recursive_mutex again;
    run({[] {
             std::lock_guard<std::recursive_mutex> outer(again);
             take(again, a);
         },
         [] { take(a, again); }});
}

static void kept() {
    run({[] {
             std::vector<std::unique_lock<std::mutex>> held;
             held.emplace_back(a);
             held.emplace_back(b);
         },
         [] { take(b, a); }});
}

static void relock() {
    static std::condition_variable condition;
    static bool is_woken;
    run({[] {
             std::unique_lock<std::mutex> waits(b);
             std::lock_guard<std::mutex> inner(a);
             end_turn(0);
             condition.wait(waits, [] { return is_woken; });
             end_turn(2);
         },
         [] {
             std::lock_guard<std::mutex> wakes(b);
             is_woken = true;
             condition.notify_one();
         },
         [] {
             await_turn(3, 4);
             take(b, a);
         }});
}

int main(int count, char **words) {
    struct {
        const char *name;
        void (*run)();
    } rows[] = {{"once", once}, {"variable", variable}, {"shared", shared}, {"recursive", recursive}, {"kept", kept}, {"relock", relock}};
    for (auto &row : rows)
        if (count > 1 && std::strcmp(row.name, words[1]) == 0)
            row.run();
    return 0;
}
