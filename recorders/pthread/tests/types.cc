/* Locks of two types, each of two objects that are made in different places. With an argument, objects of one type are nested in each
   other; else the two types are, in both orders. No two places see both orders. */
#include <memory>
#include <mutex>
#include <thread>

struct Account {
    long sum = 0;
    std::mutex m;
};

struct Journal {
    long lines = 0;
    std::mutex m;
};

typedef std::lock_guard<std::mutex> Guard;

static void pays(Account &account, Journal &journal) {
    Guard first(account.m), second(journal.m);
    account.sum -= ++journal.lines;
}

static void audits(Account &account, Journal &journal) {
    Guard first(journal.m), second(account.m);
    journal.lines += account.sum != 0;
}

static void moves(Account &from, Account &to) {
    Guard first(from.m), second(to.m);
    to.sum += from.sum;
}

int main(int argc, char **) {
    auto one = std::make_unique<Account>();
    auto first = std::make_unique<Journal>();
    auto other = std::make_unique<Account>();
    auto second = std::make_unique<Journal>();
    if (argc > 1) {
        moves(*one, *other);
        return 0;
    }
    std::thread([&] { pays(*one, *first); }).join();
    std::thread([&] { audits(*other, *second); }).join();
}
