/* A read lock and a mutex in both orders. With `only` both threads read, which can't hang. With `twice` a thread reads in a read lock that
   lets a writer, which is the other thread, come before further readers. */
#define _GNU_SOURCE
#include "pairs.h"

#include <stdbool.h>
#include <string.h>

static pthread_rwlock_t table = PTHREAD_RWLOCK_INITIALIZER;
static pthread_mutex_t journal = PTHREAD_MUTEX_INITIALIZER;
static pthread_rwlock_t settings = PTHREAD_RWLOCK_WRITER_NONRECURSIVE_INITIALIZER_NP;
static bool only_reads, reads_twice;

static void read_twice(void) {
    pthread_rwlock_rdlock(&settings);
    pthread_rwlock_rdlock(&settings);
    pthread_rwlock_unlock(&settings);
    pthread_rwlock_unlock(&settings);
}

static void first(void) {
    if (reads_twice) {
        read_twice();
        return;
    }
    pthread_rwlock_rdlock(&table);
    pthread_mutex_lock(&journal);
    pthread_mutex_unlock(&journal);
    pthread_rwlock_unlock(&table);
}

static void second(void) {
    if (reads_twice) {
        pthread_rwlock_wrlock(&settings);
        pthread_rwlock_unlock(&settings);
        return;
    }
    pthread_mutex_lock(&journal);
    if (only_reads)
        pthread_rwlock_tryrdlock(&table);
    else
        pthread_rwlock_wrlock(&table);
    pthread_rwlock_unlock(&table);
    pthread_mutex_unlock(&journal);
}

int main(int count, char **words) {
    only_reads = count > 1 && strcmp(words[1], "only") == 0;
    reads_twice = count > 1 && !only_reads;
    run_both();
    return 0;
}
