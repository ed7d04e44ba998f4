#include <memory>
#include <mutex>
#include <tuple>
struct MutexLock { /* points to locks of others */
    explicit MutexLock(std::mutex *mu) : mu_(mu) { mu_->lock(); }
    ~MutexLock() { mu_->unlock(); }
    std::mutex *const mu_;
};
struct Lease {
    std::mutex *lk;
    std::unique_lock<std::mutex> held;
    int n = 0;
    explicit Lease(std::mutex *m) : lk(m), held(*m) {}
    __attribute__((noinline)) void use() { n++; }
};
struct Account { std::mutex m; }; /* as large as a bare mutex */
struct Entry { long a, b; std::mutex m; }; /* as large as the tuple */
int main(int argc, char **) {
    auto log = std::make_unique<std::mutex>(), config = std::make_unique<std::mutex>();
    auto plain = new std::mutex;
    auto tuple = std::make_unique<std::tuple<std::mutex, long, long>>();
    Account *account = nullptr;
    Entry entry{};
    { MutexLock a(log.get()), b(plain), c(&std::get<0>(*tuple)); }
    { Lease lease(config.get()); lease.use(); }
    if (argc > 5) account->m.lock(), entry.m.lock();
}
