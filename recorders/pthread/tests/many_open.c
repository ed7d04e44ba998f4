/* 300 threads at once, where no more than 64 files may be open: the threads take nothing away from that. */
#include "common.h"
#include <fcntl.h>
static pthread_mutex_t a = PTHREAD_MUTEX_INITIALIZER;
static pthread_barrier_t all;

static void *runs(void *unused) {
    TAKE(&a);
    pthread_barrier_wait(&all);
    pthread_barrier_wait(&all);
    return unused;
}

static int open_all(int *files) {
    int count = 0;
    while ((files[count] = open("/dev/null", O_RDONLY)) >= 0)
        count++;
    for (int i = 0; i < count; i++)
        close(files[i]);
    return count;
}

int main(void) {
    pthread_t t[300];
    int files[1024], before = open_all(files);
    pthread_barrier_init(&all, NULL, 301);
    for (int i = 0; i < 300; i++)
        pthread_create(&t[i], NULL, runs, NULL);
    pthread_barrier_wait(&all);
    int among = open_all(files);
    pthread_barrier_wait(&all);
    for (int i = 0; i < 300; i++)
        pthread_join(t[i], NULL);
    return among == before ? 0 : 1;
}
