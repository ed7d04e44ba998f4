// Two accounts of a bank on the heap, between which money goes both ways.
#include "turns.h"

#include <memory>
#include <mutex>
#include <thread>

struct Account {
    std::mutex lock;
    long balance = 0;
};

struct Bank {
    std::mutex lock;
    Account savings, credit;
};

static void transfer(Account &from, Account &to) {
    std::lock_guard<std::mutex> first(from.lock);
    from.balance--;
    std::lock_guard<std::mutex> second(to.lock);
    to.balance++;
}

static void repeat(int thread, Account &from, Account &to) {
    for (int i = 0; i < ROUNDS; i++) {
        await_turn(2 * i + thread, 2);
        transfer(from, to);
        end_turn(2 * i + thread);
    }
}

int main() {
    auto bank = std::make_unique<Bank>();
    std::thread one([&] { repeat(0, bank->savings, bank->credit); });
    std::thread two([&] { repeat(1, bank->credit, bank->savings); });
    one.join();
    two.join();
}
