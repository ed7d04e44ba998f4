/* A robust mutex becomes useless while a thread waits for a condition: its holder dies, and the next one releases it without mending what it
   is for. The wait doesn't take it again then, so what the thread takes later isn't under it. */
#include "common.h"
static pthread_mutex_t m, b = PTHREAD_MUTEX_INITIALIZER;
static pthread_cond_t changed = PTHREAD_COND_INITIALIZER;
static volatile int is_waiting;

static void *waits(void *unused) {
    struct timespec later = in_milliseconds(CLOCK_REALTIME, 600000);
    pthread_mutex_lock(&m);
    is_waiting = 1;
    if (pthread_cond_timedwait(&changed, &m, &later) != ENOTRECOVERABLE)
        abort();
    TAKE(&b);
    return unused;
}

static void *dies(void *unused) {
    pthread_mutex_lock(&m);
    return unused;
}

int main(void) {
    pthread_mutexattr_t robust;
    pthread_mutexattr_init(&robust);
    pthread_mutexattr_setrobust(&robust, PTHREAD_MUTEX_ROBUST);
    pthread_mutex_init(&m, &robust);
    pthread_t waiter;
    pthread_create(&waiter, NULL, waits, NULL);
    while (!is_waiting)
        usleep(1000);
    in_thread(dies, NULL);
    if (pthread_mutex_lock(&m) != EOWNERDEAD)
        abort();
    pthread_mutex_unlock(&m);
    pthread_cond_signal(&changed);
    pthread_join(waiter, NULL);
}
