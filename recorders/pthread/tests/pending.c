/* Locks that are waited for in vain, by each call that can: nothing of them is left, however often. A handler that locks meanwhile
   is recorded as a thread of its own. A lock that is waited for and taken is one acquisition. */
#include "common.h"
#include "asleep.h"
static pthread_mutex_t a = PTHREAD_MUTEX_INITIALIZER, b = PTHREAD_MUTEX_INITIALIZER, taken = PTHREAD_MUTEX_INITIALIZER,
                       checking = PTHREAD_ERRORCHECK_MUTEX_INITIALIZER_NP;
static pthread_rwlock_t written = PTHREAD_RWLOCK_INITIALIZER;
static pthread_barrier_t both;
static pthread_t first;
static volatile sig_atomic_t is_handled;

static void *holds(void *unused) {
    pthread_mutex_lock(&taken);
    pthread_rwlock_wrlock(&written);
    pthread_barrier_wait(&both);
    pthread_barrier_wait(&both);
    pthread_rwlock_unlock(&written);
    await_asleep();
    pthread_kill(first, SIGALRM);
    while (!is_handled)
        usleep(1000);
    await_asleep();
    pthread_mutex_unlock(&taken);
    return unused;
}

static void handle(int number) {
    TAKE(&b);
    is_handled = number;
}

static void wait_in_vain(void) {
    struct timespec past = {1, 0};
    for (int i = 0; i < 1000; i++) {
        pthread_mutex_lock(&a);
        if (pthread_mutex_timedlock(&taken, &past) != ETIMEDOUT || pthread_rwlock_timedrdlock(&written, &past) != ETIMEDOUT ||
            pthread_rwlock_clockwrlock(&written, CLOCK_MONOTONIC, &past) != ETIMEDOUT)
            abort();
        pthread_mutex_unlock(&a);
    }
    pthread_mutex_lock(&checking);
    if (pthread_mutex_lock(&checking) != EDEADLK)
        abort();
    pthread_mutex_unlock(&checking);
}

int main(void) {
    pthread_t t;
    first = pthread_self();
    pthread_barrier_init(&both, NULL, 2);
    pthread_create(&t, NULL, holds, NULL);
    pthread_barrier_wait(&both);
    wait_in_vain();
    signal(SIGALRM, handle);
    pthread_barrier_wait(&both);
    NEST(&a, &taken);
    pthread_join(t, NULL);
}
