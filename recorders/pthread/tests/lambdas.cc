// Objects with a lock that lambdas make and take, which an optimising compiler puts into the functions of the C++ library
// that call them. Two jobs of a queue make an account and a journal. They are taken in one order, and if there is an
// argument other than 0, by a thread in the other as well.
#include <cstdlib>
#include <deque>
#include <functional>
#include <memory>
#include <mutex>
#include <thread>

struct Account {
    std::mutex lock;
    long balance = 0;
};

struct Journal {
    std::mutex lock;
    long lines = 0;
};

static std::unique_ptr<Account> account;
static std::unique_ptr<Journal> journal;

int main(int count, char **words) {
    std::deque<std::function<void()>> jobs;
    jobs.push_back([] { account = std::make_unique<Account>(); });
    jobs.push_back([] { journal = std::make_unique<Journal>(); });
    for (auto &job : jobs)
        job();
    std::thread([] {
        std::lock_guard<std::mutex> first(account->lock);
        std::lock_guard<std::mutex> second(journal->lock);
        account->balance += ++journal->lines;
    }).join();
    if (count < 2 || std::atoi(words[1]) == 0)
        return 0;
    std::thread([] {
        std::lock_guard<std::mutex> first(journal->lock);
        std::lock_guard<std::mutex> second(account->lock);
        account->balance -= ++journal->lines;
    }).join();
}
