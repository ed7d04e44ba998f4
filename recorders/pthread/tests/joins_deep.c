/* A thread that is joined with a lock held has as many locks as its argument says, of which the innermost is that lock. The thread is one more. */
#include "common.h"
#include "asleep.h"
static pthread_mutex_t locks[64], outer = PTHREAD_MUTEX_INITIALIZER;
static int count;

static void *worker(void *unused) {
    for (int i = 0; i < count - 1; i++)
        pthread_mutex_lock(&locks[i]);
    TAKE(&outer);
    for (int i = count - 1; i-- > 0;)
        pthread_mutex_unlock(&locks[i]);
    return unused;
}

int main(int argc, char **argv) {
    pthread_t thread;
    count = argc > 1 ? atoi(argv[1]) : 1;
    pthread_create(&thread, NULL, worker, NULL);
    await_asleep();
    pthread_mutex_lock(&outer);
    pthread_join(thread, NULL);
    pthread_mutex_unlock(&outer);
}
