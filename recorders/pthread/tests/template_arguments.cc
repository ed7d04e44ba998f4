// What a template is of says nothing of what its functions do: `block::Tree` has `lock` in its name, and `boost::*lock*::*` is a pattern of
// functions that are passed over. Two locks that one constructor makes, one under the other, are two classes by that.
#include <pthread.h>

namespace block {
struct Tree {};
}

static int made;

namespace boost {
template <class T> struct promise {
    pthread_mutex_t state, condition;
    promise();
    void set() {
        pthread_mutex_lock(&state);
        pthread_mutex_lock(&condition);
        pthread_mutex_unlock(&condition);
        pthread_mutex_unlock(&state);
    }
};
template <class T> __attribute__((noinline)) promise<T>::promise() {
    pthread_mutex_init(&state, nullptr);
    pthread_mutex_init(&condition, nullptr);
    made++; // so that this isn't the caller's call
}
template <class T> struct unique_lock {
    T *of;
    explicit unique_lock(T *taken);
};
template <class T> __attribute__((noinline)) unique_lock<T>::unique_lock(T *taken) : of(taken) {
    pthread_mutex_init(taken, nullptr);
    made++;
}
} // namespace boost

__attribute__((noinline)) static void makes() {
    boost::promise<block::Tree> promise;
    promise.set();
}

__attribute__((noinline)) static void locks() {
    pthread_mutex_t mutex;
    boost::unique_lock<pthread_mutex_t> lock(&mutex);
    pthread_mutex_lock(&mutex);
    pthread_mutex_unlock(&mutex);
}

int main() {
    makes();
    locks();
}
