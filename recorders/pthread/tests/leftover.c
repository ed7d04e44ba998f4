/* Threads that end with a lock held: by returning, by pthread_exit and by being cancelled. One that gives its lock back in a
   destructor doesn't. */
#include "common.h"
static pthread_mutex_t a = PTHREAD_MUTEX_INITIALIZER, b = PTHREAD_MUTEX_INITIALIZER, c = PTHREAD_MUTEX_INITIALIZER,
                       d = PTHREAD_MUTEX_INITIALIZER;
static pthread_key_t key;

static void give_back(void *lock) { pthread_mutex_unlock(lock); }

static void *returns(void *unused) {
    pthread_mutex_lock(&a);
    return unused;
}

static void *exits(void *unused) {
    pthread_mutex_lock(&b);
    pthread_exit(unused);
}

static void *is_cancelled(void *unused) {
    pthread_mutex_lock(&c);
    pthread_cancel(pthread_self());
    pthread_testcancel();
    return unused;
}

static void *is_clean(void *unused) {
    pthread_mutex_lock(&d);
    pthread_setspecific(key, &d);
    return unused;
}

int main(void) {
    pthread_key_create(&key, give_back);
    in_thread(returns, NULL);
    in_thread(exits, NULL);
    in_thread(is_cancelled, NULL);
    in_thread(is_clean, NULL);
}
