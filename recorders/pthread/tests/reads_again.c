/* A reader of `a` reads `b`, and then `a` again. Another thread writes `a` and then `b`. Readers of `a` pass waiting writers, so the first one
   can't wait for `a` again. With the word `queued` it reads a lock in its place whose readers queue behind them, so it can; with `anew` it has
   given `a` back by then, as often as it took it. */
#include "common.h"

static pthread_rwlock_t a = PTHREAD_RWLOCK_INITIALIZER, b = PTHREAD_RWLOCK_INITIALIZER,
                        queued = PTHREAD_RWLOCK_WRITER_NONRECURSIVE_INITIALIZER_NP;

static void *reads(void *lock) {
    pthread_rwlock_rdlock(lock);
    pthread_rwlock_rdlock(&b);
    pthread_rwlock_rdlock(lock);
    pthread_rwlock_unlock(lock);
    pthread_rwlock_unlock(&b);
    pthread_rwlock_tryrdlock(lock);
    pthread_rwlock_unlock(lock);
    pthread_rwlock_unlock(lock);
    return NULL;
}

static void *reads_anew(void *lock) {
    pthread_rwlock_rdlock(lock);
    pthread_rwlock_rdlock(lock);
    pthread_rwlock_unlock(lock);
    pthread_rwlock_unlock(lock);
    pthread_rwlock_rdlock(&b);
    pthread_rwlock_rdlock(lock);
    pthread_rwlock_unlock(lock);
    pthread_rwlock_unlock(&b);
    return NULL;
}

static void *writes(void *lock) {
    pthread_rwlock_wrlock(lock);
    pthread_rwlock_wrlock(&b);
    pthread_rwlock_unlock(&b);
    pthread_rwlock_unlock(lock);
    return NULL;
}

int main(int count, char **words) {
    const char *word = count > 1 ? words[1] : "";
    pthread_rwlock_t *lock = strcmp(word, "queued") == 0 ? &queued : &a;
    in_thread(strcmp(word, "anew") == 0 ? reads_anew : reads, lock);
    in_thread(writes, lock);
}
