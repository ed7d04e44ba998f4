/* 64 threads at once: a trace each. */
#include "common.h"
static pthread_mutex_t a = PTHREAD_MUTEX_INITIALIZER, b = PTHREAD_MUTEX_INITIALIZER;
static pthread_barrier_t all;

static void *runs(void *unused) {
    pthread_barrier_wait(&all);
    for (int i = 0; i < 1000; i++)
        NEST(&a, &b);
    return unused;
}

int main(void) {
    pthread_t t[64];
    pthread_barrier_init(&all, NULL, 64);
    for (int i = 0; i < 64; i++)
        pthread_create(&t[i], NULL, runs, NULL);
    for (int i = 0; i < 64; i++)
        pthread_join(t[i], NULL);
}
