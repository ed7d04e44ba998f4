/* A forked child is a process of its own: its trace begins with what its thread holds. A program that is run in a thread's
   place is one too. */
#include "common.h"
static pthread_mutex_t a = PTHREAD_MUTEX_INITIALIZER, b = PTHREAD_MUTEX_INITIALIZER, c = PTHREAD_MUTEX_INITIALIZER;
static pthread_mutex_t made;

static APART void init_made(void) { pthread_mutex_init(&made, NULL); }

int main(int argc, char **argv) {
    if (argc > 1) {
        pthread_mutex_lock(&c);
        return 0;
    }
    init_made();
    pthread_mutex_lock(&a);
    pid_t child = fork();
    if (child == 0) {
        TAKE(&made);
        pthread_mutex_unlock(&a);
        execl("/proc/self/exe", argv[0], "again", NULL);
        _exit(1);
    }
    waitpid(child, NULL, 0);
    TAKE(&b);
    pthread_mutex_unlock(&a);
}
