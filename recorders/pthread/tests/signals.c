/* Semaphores that aren't locks, by LOCKDEP_ALSO=sem.
     beside  `full` begins at 1, is taken by a thread under nothing and before `x`, and posted by another one under `y`; `idle` begins at 0, and
             threads wait for it when the program ends, one with `y` held; `mutex` is used as a mutex, both ways with `x`
     late    `full` was taken many times, and waited for under `x`, before somebody else posts it
     alone   there is nothing but such semaphores
     shared  processes share one: the child waits for it, the parent posts it */
#include "common.h"
#include "asleep.h"
#include <semaphore.h>
#include <sys/mman.h>
static sem_t full, idle, mutex, *both;
static pthread_mutex_t x = PTHREAD_MUTEX_INITIALIZER, y = PTHREAD_MUTEX_INITIALIZER;

static APART void make_full(unsigned value) { sem_init(&full, 0, value); }
static APART void make_idle(void) { sem_init(&idle, 0, 0); }
static APART void make_mutex(void) { sem_init(&mutex, 0, 1); }
static APART void make_both(void) { sem_init(both, 1, 0); }

static void take_x(void) { TAKE(&x); }

static void *idles(void *lock) {
    if (lock)
        pthread_mutex_lock(lock);
    sem_wait(&idle);
    return NULL;
}

static void *consumes(void *unused) {
    for (int i = 0; i < 3; i++) {
        sem_wait(&full);
        pthread_mutex_lock(&x);
        sem_wait(&mutex);
        sem_post(&mutex);
        pthread_mutex_unlock(&x);
    }
    return unused;
}

static void *takes_x_last(void *unused) {
    sem_wait(&mutex);
    take_x();
    sem_post(&mutex);
    return unused;
}

static void beside(void) {
    pthread_t consumer, idle_ones[2];
    make_full(1);
    make_idle();
    make_mutex();
    pthread_create(&consumer, NULL, consumes, NULL);
    for (int i = 0; i < 2; i++) {
        pthread_mutex_lock(&y);
        await_asleep();
        sem_post(&full);
        pthread_mutex_unlock(&y);
    }
    pthread_join(consumer, NULL);
    in_thread(takes_x_last, NULL);
    pthread_create(&idle_ones[0], NULL, idles, NULL);
    pthread_create(&idle_ones[1], NULL, idles, &y);
    await_asleep();
    _exit(0);
}

static void *waits_under_x(void *unused) {
    for (int i = 0; i < 60; i++)
        sem_wait(&full);
    pthread_mutex_lock(&x);
    sem_wait(&full);
    TAKE(&y);
    sem_wait(&full);
    pthread_mutex_unlock(&x);
    take_x();
    return unused;
}

static void late(void) {
    pthread_t other;
    make_full(60);
    pthread_create(&other, NULL, waits_under_x, NULL);
    await_asleep();
    sem_post(&full);
    sem_post(&full);
    pthread_join(other, NULL);
}

static void *waits_for_full(void *unused) {
    sem_wait(&full);
    return unused;
}

static void alone(void) {
    pthread_t other;
    make_full(0);
    pthread_create(&other, NULL, waits_for_full, NULL);
    sem_post(&full);
    pthread_join(other, NULL);
}

static void shared(void) {
    both = mmap(NULL, sizeof *both, PROT_READ | PROT_WRITE, MAP_SHARED | MAP_ANONYMOUS, -1, 0);
    make_both();
    pid_t child = fork();
    if (child == 0) {
        sem_wait(both);
        take_x();
        _exit(0);
    }
    sem_post(both);
    waitpid(child, NULL, 0);
    take_x();
}

int main(int argc, char **argv) {
    const char *way = argc > 1 ? argv[1] : "";
    if (strcmp(way, "beside") == 0)
        beside();
    if (strcmp(way, "late") == 0)
        late();
    if (strcmp(way, "alone") == 0)
        alone();
    if (strcmp(way, "shared") == 0)
        shared();
}
