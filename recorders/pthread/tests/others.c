/* A semaphore that is used as a mutex, and a stream, each under the other. */
#include "common.h"
#include <semaphore.h>
static sem_t mutex;

static APART void init_mutex(void) { sem_init(&mutex, 0, 1); }

static void *writes(void *unused) {
    flockfile(stdout);
    sem_wait(&mutex);
    puts("written");
    sem_post(&mutex);
    funlockfile(stdout);
    return unused;
}

static void *flushes(void *unused) {
    struct timespec later = in_milliseconds(CLOCK_REALTIME, 10000);
    sem_timedwait(&mutex, &later);
    flockfile(stdout);
    fflush(stdout);
    funlockfile(stdout);
    sem_post(&mutex);
    return unused;
}

int main(void) {
    init_mutex();
    in_thread(writes, NULL);
    in_thread(flushes, NULL);
    sem_wait(&mutex);
    struct timespec past = {1, 0};
    if (sem_timedwait(&mutex, &past) != -1 || errno != ETIMEDOUT || sem_trywait(&mutex) != -1 || errno != EAGAIN)
        abort();
    sem_post(&mutex);
}
