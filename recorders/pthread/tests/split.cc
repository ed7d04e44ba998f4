// Two classes with a lock each, taken in both orders, and never two objects in both: only classes can find it.
#include <memory>
#include <mutex>
#include <thread>

struct Account {
    int balance = 0;
    std::mutex lock;
};

struct Journal {
    long lines[20] = {};
    std::mutex lock;
};

static void pay(Account &account, Journal &journal) {
    std::lock_guard<std::mutex> first(account.lock);
    std::lock_guard<std::mutex> second(journal.lock);
}

static void audit(Account &account, Journal &journal) {
    std::unique_lock<std::mutex> first(journal.lock);
    std::unique_lock<std::mutex> second(account.lock);
}

__attribute__((noinline)) static std::unique_ptr<Account> new_account() { return std::make_unique<Account>(); }
__attribute__((noinline)) static std::shared_ptr<Journal> new_journal() { return std::make_shared<Journal>(); }

int main() {
    std::unique_ptr<Account> accounts[2];
    std::shared_ptr<Journal> journals[2];
    for (auto &account : accounts)
        account = new_account();
    for (auto &journal : journals)
        journal = new_journal();
    std::thread([&] { pay(*accounts[0], *journals[0]); }).join();
    std::thread([&] { audit(*accounts[1], *journals[1]); }).join();
}
