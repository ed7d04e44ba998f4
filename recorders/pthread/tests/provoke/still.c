/* Two threads that always stand still: each takes a mutex, and then waits for the other one's. */
#include <pthread.h>

static pthread_mutex_t rows = PTHREAD_MUTEX_INITIALIZER, journal = PTHREAD_MUTEX_INITIALIZER;
static pthread_barrier_t both;

static void *read_rows(void *with) {
    pthread_mutex_lock(&rows);
    pthread_barrier_wait(&both);
    pthread_mutex_lock(&journal);
    return with;
}

static void *write_journal(void *with) {
    pthread_mutex_lock(&journal);
    pthread_barrier_wait(&both);
    pthread_mutex_lock(&rows);
    return with;
}

int main(void) {
    pthread_t reader, writer;
    pthread_barrier_init(&both, NULL, 2);
    pthread_create(&reader, NULL, read_rows, NULL);
    pthread_create(&writer, NULL, write_journal, NULL);
    pthread_join(reader, NULL);
    pthread_join(writer, NULL);
    return 0;
}
