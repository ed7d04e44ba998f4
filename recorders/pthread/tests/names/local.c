/* Structures of one tag in two functions, which a compiler may inline, with a lock at the same place, and static locks of one name. */
#include <pthread.h>
#include <stdlib.h>

static void take(pthread_mutex_t *m) {
    pthread_mutex_lock(m);
    pthread_mutex_unlock(m);
}

static void first(void) {
    struct node {
        long at;
        pthread_mutex_t m;
    };
    static struct node here = {0, PTHREAD_MUTEX_INITIALIZER};
    struct node *n = calloc(1, sizeof *n);
    take(&n->m);
    take(&here.m);
    free(n);
}

static void second(void) {
    struct node {
        long at, more;
        pthread_mutex_t m;
    };
    struct node *n = calloc(1, sizeof *n);
    take(&n->m);
    free(n);
}

static void third(void) {
    static pthread_mutex_t lock = PTHREAD_MUTEX_INITIALIZER;
    take(&lock);
}

static void fourth(void) {
    static pthread_mutex_t lock = PTHREAD_MUTEX_INITIALIZER;
    take(&lock);
}

int main(void) {
    first();
    second();
    third();
    fourth();
    return 0;
}
