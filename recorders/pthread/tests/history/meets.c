/* Threads take locks of the heap that nobody has taken before, each lock in all of them at the same moment: meets THREADS LOCKS. */
#include <pthread.h>
#include <sched.h>
#include <stdatomic.h>
#include <stdlib.h>

#define MOST_THREADS 8

static pthread_mutex_t **locks;
static unsigned thread_count, lock_count;
static atomic_uint arrived;

static void *meets(void *unused) {
    for (unsigned i = 0; i < lock_count; i++) {
        atomic_fetch_add(&arrived, 1);
        while (atomic_load(&arrived) < thread_count * (i + 1))
            sched_yield(); /* on a busy machine another thread may have no processor */
        pthread_mutex_lock(locks[i]);
        pthread_mutex_unlock(locks[i]);
    }
    return unused;
}

int main(int count, char **words) {
    if (count < 3)
        return 2;
    thread_count = (unsigned)atoi(words[1]);
    lock_count = (unsigned)atoi(words[2]);
    locks = malloc(lock_count * sizeof *locks);
    for (unsigned i = 0; i < lock_count; i++)
        locks[i] = calloc(1, sizeof **locks);
    pthread_t threads[MOST_THREADS];
    for (unsigned i = 0; i < thread_count; i++)
        pthread_create(&threads[i], NULL, meets, NULL);
    for (unsigned i = 0; i < thread_count; i++)
        pthread_join(threads[i], NULL);
    return 0;
}
