/* A thread that is cancelled while it waits holds the mutex again in its clean-up. */
#include "common.h"
#include "asleep.h"
static pthread_mutex_t m = PTHREAD_MUTEX_INITIALIZER, after = PTHREAD_MUTEX_INITIALIZER;
static pthread_cond_t changed = PTHREAD_COND_INITIALIZER;

static void clean_up(void *unused) {
    TAKE(&after);
    pthread_mutex_unlock(&m);
    (void)unused;
}

static void *waits(void *unused) {
    pthread_mutex_lock(&m);
    pthread_cleanup_push(clean_up, NULL);
    for (;;)
        pthread_cond_wait(&changed, &m);
    pthread_cleanup_pop(0);
    return unused;
}

int main(void) {
    pthread_t t;
    pthread_create(&t, NULL, waits, NULL);
    await_asleep();
    pthread_cancel(t);
    pthread_join(t, NULL);
}
