/* A lock that another thread releases than the one that took it: that hold ends, and no other. The lock is a mutex, or a semaphore if there is a
   second argument.
     back   two threads hand it to and fro, and then one takes it under `x`
     waits  a thread that waits for it gets it, and takes `x` under it
     twice  a semaphore is taken twice and released once by another thread, and then `x` is taken under it
     counts a semaphore is taken twice and released by its taker, and `x` is taken after each release
     anew   a semaphore is initialised while it is held, and then destroyed, and `x` is taken under nothing each time
     hides  a lock of the same place is handed over while a thread holds `second`, takes `z` under it, and another one the other way round */
#include "common.h"
#include "asleep.h"
#include <semaphore.h>
static pthread_mutex_t x = PTHREAD_MUTEX_INITIALIZER, z = PTHREAD_MUTEX_INITIALIZER;
static pthread_mutex_t mutex = PTHREAD_MUTEX_INITIALIZER;
static sem_t semaphore;
static int is_semaphore;

static void take(void) { is_semaphore ? sem_wait(&semaphore) : pthread_mutex_lock(&mutex); }
static void give(void) { is_semaphore ? sem_post(&semaphore) : pthread_mutex_unlock(&mutex); }

static void take_x(void) { TAKE(&x); }

/* Turns are given by pipes, which no recorder takes for locks. */
static int to_main[2], to_other[2];

static void tell(int *who) {
    if (write(who[1], "", 1) != 1)
        abort();
}

static void await(int *who) {
    char byte;
    if (read(who[0], &byte, 1) != 1)
        abort();
}

static void *other_end(void *unused) {
    take();
    tell(to_main);
    await(to_other);
    give();
    tell(to_main);
    return unused;
}

static void back(void) {
    pthread_t other;
    pthread_create(&other, NULL, other_end, NULL);
    await(to_main);
    give();
    take();
    tell(to_other);
    await(to_main);
    pthread_mutex_lock(&x);
    take();
    give();
    pthread_mutex_unlock(&x);
    pthread_join(other, NULL);
}

static void *gives(void *unused) {
    give();
    return unused;
}

static void *waits_and_takes_x(void *unused) {
    tell(to_main);
    take();
    take_x();
    give();
    return unused;
}

static void waits(void) {
    pthread_t other;
    take();
    pthread_create(&other, NULL, waits_and_takes_x, NULL);
    await(to_main);
    await_asleep();
    in_thread(gives, NULL);
    pthread_join(other, NULL);
    take_x();
}

static void twice(void) {
    sem_init(&semaphore, 0, 2);
    take();
    take();
    in_thread(gives, NULL);
    take_x();
    give();
    take_x();
}

static void counts(void) {
    sem_init(&semaphore, 0, 2);
    take();
    take();
    give();
    take_x();
    give();
    take_x();
}

static void anew(void) {
    take();
    sem_init(&semaphore, 0, 1);
    take_x();
    take();
    sem_destroy(&semaphore);
    take_x();
}

static pthread_mutex_t *first, *second;

static APART void make_both(void) {
    for (volatile int i = 0; i < 2; i++) {
        second = first;
        first = malloc(sizeof *first);
        pthread_mutex_init(first, NULL);
    }
}

static void *holds_second(void *unused) {
    pthread_mutex_lock(second);
    tell(to_main);
    await(to_other);
    TAKE(&z);
    pthread_mutex_unlock(second);
    return unused;
}

static void *takes_first(void *unused) {
    pthread_mutex_lock(first);
    return unused;
}

THREAD(takes_z_first, NEST(&z, second))

static void hides(void) {
    pthread_t third;
    make_both();
    pthread_create(&third, NULL, holds_second, NULL);
    await(to_main);
    in_thread(takes_first, NULL);
    pthread_mutex_unlock(first);
    tell(to_other);
    pthread_join(third, NULL);
    in_thread(takes_z_first, NULL);
}

int main(int argc, char **argv) {
    const char *way = argc > 1 ? argv[1] : "";
    is_semaphore = argc > 2;
    sem_init(&semaphore, 0, 1);
    if (pipe(to_main) != 0 || pipe(to_other) != 0)
        return 1;
    if (strcmp(way, "back") == 0)
        back();
    if (strcmp(way, "waits") == 0)
        waits();
    if (strcmp(way, "twice") == 0)
        twice();
    if (strcmp(way, "counts") == 0)
        counts();
    if (strcmp(way, "anew") == 0)
        anew();
    if (strcmp(way, "hides") == 0)
        hides();
}
