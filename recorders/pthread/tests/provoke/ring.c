/* A cycle through 70 locks, by threads that run one after the other. */
#include <pthread.h>

#define ROW(X, n) X(n##0) X(n##1) X(n##2) X(n##3) X(n##4) X(n##5) X(n##6) X(n##7) X(n##8) X(n##9)
#define ALL(X) ROW(X, 0) ROW(X, 1) ROW(X, 2) ROW(X, 3) ROW(X, 4) ROW(X, 5) ROW(X, 6)
#define LOCK(n) static pthread_mutex_t lock_##n = PTHREAD_MUTEX_INITIALIZER;
#define ADDRESS(n) &lock_##n,

ALL(LOCK)
static pthread_mutex_t *const locks[] = {ALL(ADDRESS)};
#define COUNT (sizeof locks / sizeof *locks)

static void *take_two(void *with) {
    pthread_mutex_t *const *first = with, *const *second = first + 1 < locks + COUNT ? first + 1 : locks;
    pthread_mutex_lock(*first);
    pthread_mutex_lock(*second);
    pthread_mutex_unlock(*second);
    pthread_mutex_unlock(*first);
    return NULL;
}

int main(void) {
    for (unsigned i = 0; i < COUNT; i++) {
        pthread_t thread;
        pthread_create(&thread, NULL, take_two, (void *)&locks[i]);
        pthread_join(thread, NULL);
    }
    return 0;
}
