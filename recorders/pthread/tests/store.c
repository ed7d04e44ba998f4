/* A library that is linked into two programs, one of which takes its locks in each order. */
#include <pthread.h>

static pthread_mutex_t rows = PTHREAD_MUTEX_INITIALIZER, logs = PTHREAD_MUTEX_INITIALIZER;

void takes_in_order(int is_logs_first) {
    pthread_mutex_t *first = is_logs_first ? &logs : &rows, *second = is_logs_first ? &rows : &logs;
    pthread_mutex_lock(first);
    pthread_mutex_lock(second);
    pthread_mutex_unlock(second);
    pthread_mutex_unlock(first);
}
