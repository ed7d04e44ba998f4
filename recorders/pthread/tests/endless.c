/* A thread that never ends is recorded up to the end of the process. */
#include "common.h"
static pthread_mutex_t a = PTHREAD_MUTEX_INITIALIZER, b = PTHREAD_MUTEX_INITIALIZER;
static volatile int is_there;

static void *stays(void *unused) {
    pthread_mutex_lock(&a);
    pthread_mutex_lock(&b);
    is_there = 1;
    for (;;)
        pause();
    return unused;
}

int main(void) {
    pthread_t t;
    pthread_create(&t, NULL, stays, NULL);
    while (!is_there)
        usleep(1000);
    _exit(0);
}
