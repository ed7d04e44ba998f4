/* A thread that holds more read locks than a recorder keeps, and gives them back, those of the rest first. Another one that reads one of
   these meanwhile holds on to it: it takes `a` under it, and later a third one takes the two the other way round. */
#include "common.h"
#define LOCKS 1100
static pthread_rwlock_t locks[LOCKS];
static pthread_mutex_t a = PTHREAD_MUTEX_INITIALIZER;
static pthread_barrier_t both;

static void *reads(void *lock) {
    pthread_rwlock_rdlock(lock);
    pthread_barrier_wait(&both);
    pthread_barrier_wait(&both);
    TAKE(&a);
    pthread_rwlock_unlock(lock);
    return NULL;
}

static void *writes_under_a(void *lock) {
    pthread_mutex_lock(&a);
    pthread_rwlock_wrlock(lock);
    pthread_rwlock_unlock(lock);
    pthread_mutex_unlock(&a);
    return NULL;
}

int main(void) {
    pthread_t reader;
    pthread_barrier_init(&both, NULL, 2);
    for (int i = 0; i < LOCKS; i++) {
        pthread_rwlock_init(&locks[i], NULL);
        pthread_rwlock_rdlock(&locks[i]);
    }
    pthread_create(&reader, NULL, reads, &locks[LOCKS - 1]);
    pthread_barrier_wait(&both);
    for (int i = LOCKS; i-- > 0;)
        pthread_rwlock_unlock(&locks[i]);
    pthread_barrier_wait(&both);
    pthread_join(reader, NULL);
    in_thread(writes_under_a, &locks[LOCKS - 1]);
}
