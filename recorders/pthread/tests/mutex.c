/* Every way to take a mutex. A timed one that gives up isn't taken, nor is a try that fails. */
#include "common.h"
static pthread_mutex_t a = PTHREAD_MUTEX_INITIALIZER, b = PTHREAD_MUTEX_INITIALIZER, c = PTHREAD_MUTEX_INITIALIZER,
                       d = PTHREAD_MUTEX_INITIALIZER, e = PTHREAD_MUTEX_INITIALIZER;

static void *gives_up(void *unused) {
    struct timespec soon = in_milliseconds(CLOCK_REALTIME, 20);
    pthread_mutex_lock(&d);
    if (pthread_mutex_timedlock(&a, &soon) != ETIMEDOUT)
        abort();
    if (pthread_mutex_trylock(&a) != EBUSY)
        abort();
    pthread_mutex_unlock(&d);
    return unused;
}

int main(void) {
    struct timespec later = in_milliseconds(CLOCK_REALTIME, 10000), then = in_milliseconds(CLOCK_MONOTONIC, 10000);
    pthread_mutex_lock(&a);
    pthread_mutex_timedlock(&b, &later);
    pthread_mutex_clocklock(&c, CLOCK_MONOTONIC, &then);
    pthread_mutex_trylock(&e);
    in_thread(gives_up, NULL);
    pthread_mutex_unlock(&e);
    pthread_mutex_unlock(&c);
    pthread_mutex_unlock(&b);
    pthread_mutex_unlock(&a);
}
