// Locks that are taken by functions which pass them on to their callers. Each lock is taken alone first, elsewhere, by the same functions: then it is nothing new
// that it is taken where another one is taken under it.
#include <mutex>
#include <pthread.h>
#include <shared_mutex>
#include <thread>
#include <vector>

struct Mutex {
    pthread_mutex_t mutex = PTHREAD_MUTEX_INITIALIZER;
    void lock() { pthread_mutex_lock(&mutex); }
    void unlock() { pthread_mutex_unlock(&mutex); }
};

struct Guard {
    Mutex &mutex;
    explicit Guard(Mutex &mutex) : mutex(mutex) { mutex.lock(); }
    ~Guard() { mutex.unlock(); }
};

template <typename Lock> struct Holder {
    Lock &lock;
    explicit Holder(Lock &lock) : lock(lock) { lock.lock(); }
    ~Holder() { lock.unlock(); }
};

static void take(pthread_mutex_t *mutex) {
    pthread_mutex_lock(mutex);
    asm volatile("");
}
static void take_for_all(pthread_mutex_t *mutex) {
    take(mutex);
    asm volatile("");
}

static std::mutex guarded[2], unique[2], scoped[3], listed[2];
static std::shared_mutex shared[2];
static Mutex own[2], held[2];
static pthread_mutex_t nested[2] = {PTHREAD_MUTEX_INITIALIZER, PTHREAD_MUTEX_INITIALIZER};

using Unique = std::unique_lock<std::mutex>;
using Scoped = std::scoped_lock<std::mutex>;

static void guard_both(int first) {
    std::lock_guard<std::mutex> one(guarded[first]);
    std::lock_guard<std::mutex> other(guarded[1 - first]);
}
static void unique_both(int first) {
    Unique one(unique[first]);
    Unique other(unique[1 - first]);
}
static void share_both(int first) {
    std::shared_lock<std::shared_mutex> one(shared[first]);
    std::unique_lock<std::shared_mutex> other(shared[1 - first]);
}
static void list_both(int first) {
    std::vector<Unique> all;
    all.emplace_back(listed[first]);
    all.emplace_back(listed[1 - first]);
}
static void own_both(int first) {
    Guard one(own[first]);
    Guard other(own[1 - first]);
}
static void hold_both(int first) {
    Holder<Mutex> one(held[first]);
    Holder<Mutex> other(held[1 - first]);
}
static void nest_both(int first) {
    take_for_all(&nested[first]);
    take_for_all(&nested[1 - first]);
    pthread_mutex_unlock(&nested[1 - first]);
    pthread_mutex_unlock(&nested[first]);
}
static void take_alone(int which) {
    { std::lock_guard<std::mutex> alone(guarded[which]); }
    { Unique alone(unique[which]); }
    { std::shared_lock<std::shared_mutex> alone(shared[which]); }
    { std::unique_lock<std::shared_mutex> alone(shared[which]); }
    { std::vector<Unique> all; all.emplace_back(listed[which]); }
    { Guard alone(own[which]); }
    { Holder<Mutex> alone(held[which]); }
    take_for_all(&nested[which]);
    pthread_mutex_unlock(&nested[which]);
}

static void *take_all(void *from) {
    int first = from != nullptr;
    for (int i = 0; i < 3; i++) {
        take_alone(0);
        take_alone(1);
    }
    guard_both(first);
    unique_both(first);
    share_both(first);
    list_both(first);
    own_both(first);
    hold_both(first);
    nest_both(first);
    return nullptr;
}

int main() {
    std::thread(take_all, nullptr).join();
    std::thread(take_all, static_cast<void *>(own)).join();
}
