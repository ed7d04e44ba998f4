/* Single locks: two of one class in both orders, by two threads; two pairs of which none is taken both ways; locks that are never
   nested; locks that come and go. */
#include "common.h"

static APART pthread_mutex_t *new_lock(void) {
    pthread_mutex_t *m = malloc(sizeof *m);
    pthread_mutex_init(m, NULL);
    return m;
}

static APART pthread_mutex_t *new_inner(void) {
    pthread_mutex_t *m = malloc(sizeof *m);
    pthread_mutex_init(m, NULL);
    return m;
}

static void drop(pthread_mutex_t *m) {
    pthread_mutex_destroy(m);
    free(m);
}

static void take(pthread_mutex_t *first, pthread_mutex_t *second) { NEST(first, second); }

static pthread_mutex_t *a, *b;

static void *one(void *unused) {
    take(a, b);
    return unused;
}

static void *two(void *unused) {
    take(b, a);
    return unused;
}

static void come_and_go(void) {
    for (int i = 0; i < 10000; i++) {
        pthread_mutex_t *outer = new_lock(), *inner = new_inner();
        take(outer, inner);
        drop(outer);
        drop(inner);
    }
}

static void take_alone(void) {
    for (int i = 0; i < 100; i++) {
        pthread_mutex_t *m = new_lock();
        TAKE(m);
    }
}

int main(void) {
    a = new_lock();
    b = new_lock();
    in_thread(one, NULL);
    in_thread(two, NULL);
    come_and_go();
    take_alone();
    for (int i = 0; i < 100; i++)
        take(new_lock(), new_inner());
}
