// Locks that two threads are the first to take, each by another function: on the heap, in an array, static, local in main and
// thread-local. What they are called doesn't depend on who comes first.
#include <atomic>
#include <memory>
#include <mutex>
#include <shared_mutex>
#include <thread>
#include <vector>

struct Account {
    int balance = 0;
    std::mutex lock;
    std::shared_mutex history;
};

static std::mutex common;
static thread_local std::mutex own;
static std::atomic<int> ready{0};

__attribute__((noinline)) static void use(Account &account) {
    std::lock_guard<std::mutex> guard(account.lock);
    std::shared_lock<std::shared_mutex> reader(account.history);
}

__attribute__((noinline)) static void change(Account &account) {
    std::lock_guard<std::mutex> guard(account.lock);
    std::unique_lock<std::shared_mutex> writer(account.history);
}

__attribute__((noinline)) static void enter(std::mutex &lock) { std::lock_guard<std::mutex> guard(lock); }
__attribute__((noinline)) static void visit(std::mutex &lock) { std::unique_lock<std::mutex> guard(lock); }

int main() {
    auto alone = std::make_unique<Account>();
    std::vector<Account> many(8);
    std::mutex local;
    auto meet = [] {
        ready++;
        while (ready < 2)
            ;
    };
    std::thread one([&] {
        meet();
        use(*alone);
        enter(local);
        enter(common);
        for (auto &account : many)
            use(account);
        enter(own);
    });
    std::thread two([&] {
        meet();
        change(*alone);
        visit(local);
        visit(common);
        for (auto account = many.rbegin(); account != many.rend(); account++)
            change(*account);
        visit(own);
    });
    one.join();
    two.join();
    return ready == 2 ? 0 : 1;
}
