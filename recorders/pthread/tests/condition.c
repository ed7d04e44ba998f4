/* Waiting on a condition releases the mutex and takes it again: the order of `other` before `m` is that of the second take. */
#include "common.h"
static pthread_mutex_t m = PTHREAD_MUTEX_INITIALIZER, other = PTHREAD_MUTEX_INITIALIZER;
static pthread_cond_t changed = PTHREAD_COND_INITIALIZER;
int main(void) {
    struct timespec soon = in_milliseconds(CLOCK_REALTIME, 20), then = in_milliseconds(CLOCK_MONOTONIC, 20);
    pthread_mutex_lock(&m);
    pthread_mutex_lock(&other);
    pthread_cond_timedwait(&changed, &m, &soon);
    pthread_cond_clockwait(&changed, &m, CLOCK_MONOTONIC, &then);
    pthread_mutex_unlock(&m);
    pthread_mutex_unlock(&other);
}
