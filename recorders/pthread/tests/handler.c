/* A signal handler that locks is a thread of its own in the recording. */
#include "common.h"
static pthread_mutex_t a = PTHREAD_MUTEX_INITIALIZER, b = PTHREAD_MUTEX_INITIALIZER;

static void handle(int number) {
    TAKE(&b);
    (void)number;
}

int main(void) {
    signal(SIGUSR1, handle);
    pthread_mutex_lock(&a);
    raise(SIGUSR1);
    pthread_mutex_unlock(&a);
}
