/* Every way to take a read-write lock. Readers of the default kind pass waiting writers, those of the other kind don't. */
#include "common.h"
static pthread_rwlock_t a = PTHREAD_RWLOCK_INITIALIZER, b = PTHREAD_RWLOCK_INITIALIZER, c = PTHREAD_RWLOCK_INITIALIZER,
                        d = PTHREAD_RWLOCK_INITIALIZER, e = PTHREAD_RWLOCK_INITIALIZER, f = PTHREAD_RWLOCK_INITIALIZER,
                        fair = PTHREAD_RWLOCK_WRITER_NONRECURSIVE_INITIALIZER_NP;
int main(void) {
    struct timespec later = in_milliseconds(CLOCK_REALTIME, 10000), then = in_milliseconds(CLOCK_MONOTONIC, 10000);
    pthread_rwlock_rdlock(&a);
    pthread_rwlock_rdlock(&a);
    pthread_rwlock_timedrdlock(&b, &later);
    pthread_rwlock_clockrdlock(&c, CLOCK_MONOTONIC, &then);
    pthread_rwlock_wrlock(&d);
    pthread_rwlock_timedwrlock(&e, &later);
    pthread_rwlock_clockwrlock(&f, CLOCK_MONOTONIC, &then);
    pthread_rwlock_rdlock(&fair);
    if (pthread_rwlock_tryrdlock(&b) != 0 || pthread_rwlock_trywrlock(&a) != EBUSY)
        abort();
    pthread_rwlock_unlock(&b);
    pthread_rwlock_unlock(&fair);
    pthread_rwlock_unlock(&f);
    pthread_rwlock_unlock(&e);
    pthread_rwlock_unlock(&d);
    pthread_rwlock_unlock(&c);
    pthread_rwlock_unlock(&b);
    pthread_rwlock_unlock(&a);
    pthread_rwlock_unlock(&a);
}
