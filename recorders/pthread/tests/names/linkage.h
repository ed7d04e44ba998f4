// Variables that each file which includes this has for itself, in two files, and others that are one object for both. Every one of them is a
// lock that both files take.
#include <mutex>

static std::mutex own;
static std::mutex owns[2];
static thread_local std::mutex own_of_thread;
namespace space {
static std::mutex own;
}
namespace {
std::mutex hidden;
}
inline std::mutex shared;
struct Shared {
    static inline std::mutex shared;
    std::mutex &in_method() {
        static std::mutex lock;
        return lock;
    }
};
static inline std::mutex &in_own() {
    static std::mutex lock;
    return lock;
}
inline std::mutex &in_shared() {
    static std::mutex lock;
    return lock;
}
template <class T> std::mutex &in_template() {
    static std::mutex lock;
    return lock;
}

static void take(std::mutex &m) {
    m.lock();
    m.unlock();
}

static void take_all() {
    Shared object;
    take(own);
    take(owns[1]);
    take(own_of_thread);
    take(space::own);
    take(hidden);
    take(shared);
    take(Shared::shared);
    take(object.in_method());
    take(in_own());
    take(in_shared());
    take(in_template<int>());
    take(in_template<long>());
}
