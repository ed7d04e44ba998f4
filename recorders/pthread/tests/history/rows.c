/* Programs whose histories are known, each by its name: their threads take their steps one after the other. What is waited for between these is an
   atomic variable, which isn't seen. */
#define _GNU_SOURCE
#include "../asleep.h"

#include <pthread.h>
#include <sched.h>
#include <semaphore.h>
#include <signal.h>
#include <stdatomic.h>
#include <stdio.h>
#include <stdlib.h>
#include <string.h>
#include <sys/wait.h>
#include <threads.h>
#include <time.h>
#include <unistd.h>

static pthread_mutex_t a = PTHREAD_MUTEX_INITIALIZER, b = PTHREAD_MUTEX_INITIALIZER, gate = PTHREAD_MUTEX_INITIALIZER;
static pthread_cond_t condition = PTHREAD_COND_INITIALIZER;
static atomic_int turn;

static void await(int at) {
    while (turn < at)
        sched_yield();
}

static void take(pthread_mutex_t *first, pthread_mutex_t *second) {
    pthread_mutex_lock(first);
    pthread_mutex_lock(second);
    pthread_mutex_unlock(second);
    pthread_mutex_unlock(first);
}

static void *takes_ab(void *unused) {
    await(1);
    take(&a, &b);
    return unused;
}

static void *takes_ba(void *unused) {
    await(2);
    take(&b, &a);
    return unused;
}

/* Both are started, and then one runs after the other. */
static void run(void *(*first)(void *), void *(*second)(void *)) {
    pthread_t threads[2];
    pthread_create(&threads[0], NULL, first, NULL);
    pthread_create(&threads[1], NULL, second, NULL);
    turn = 1;
    pthread_join(threads[0], NULL);
    turn = 2;
    pthread_join(threads[1], NULL);
}

static void abba(void) { run(takes_ab, takes_ba); }

static void *under_gate(void *unused) {
    await(2);
    pthread_mutex_lock(&gate);
    take(&b, &a);
    pthread_mutex_unlock(&gate);
    return unused;
}

static void *first_under_gate(void *unused) {
    await(1);
    pthread_mutex_lock(&gate);
    take(&a, &b);
    pthread_mutex_unlock(&gate);
    return unused;
}

static void gates(void) { run(first_under_gate, under_gate); }

/* A thread is joined with a lock held that it has taken, another one for a time, and one that isn't waited for. */
static void *takes_a(void *unused) {
    pthread_mutex_lock(&a);
    pthread_mutex_unlock(&a);
    turn = 1;
    return unused;
}

static void joins(void) {
    pthread_t thread;
    struct timespec until = {.tv_sec = time(NULL) + 1000};
    pthread_create(&thread, NULL, takes_a, NULL);
    await(1);
    pthread_mutex_lock(&a);
    pthread_join(thread, NULL);
    pthread_mutex_unlock(&a);
    pthread_create(&thread, NULL, takes_a, NULL);
    pthread_timedjoin_np(thread, NULL, &until);
    pthread_create(&thread, NULL, takes_a, NULL);
    while (pthread_tryjoin_np(thread, NULL) != 0)
        sched_yield();
}

/* Who waits is woken by the second of two signals; a wait that gives up is woken by none, and one that began after the signal neither. */
static void *waits(void *unused) {
    struct timespec passed = {0, 0};
    pthread_mutex_lock(&a);
    pthread_cond_timedwait(&condition, &a, &passed);
    turn = 1;
    pthread_cond_wait(&condition, &a);
    pthread_mutex_unlock(&a);
    return unused;
}

static void conditions(void) {
    pthread_t thread;
    pthread_cond_signal(&condition);
    pthread_create(&thread, NULL, waits, NULL);
    await(1);
    await_asleep();
    pthread_mutex_lock(&a);
    pthread_cond_broadcast(&condition);
    pthread_mutex_unlock(&a);
    pthread_join(thread, NULL);
}

static sem_t semaphore;

static void *posts(void *unused) {
    await(1);
    sem_post(&semaphore);
    await(2);
    take(&a, &b);
    sem_post(&semaphore);
    return unused;
}

static void semaphores(void) {
    pthread_t thread;
    sem_init(&semaphore, 0, 1);
    pthread_create(&thread, NULL, posts, NULL);
    sem_wait(&semaphore); /* it begins with this one */
    turn = 1;
    sem_wait(&semaphore);
    turn = 2;
    sem_wait(&semaphore);
    pthread_join(thread, NULL);
}

static void *posts_twice(void *unused) {
    take(&a, &b);
    sem_post(&semaphore);
    await(1);
    take(&b, &a);
    sem_post(&semaphore);
    return unused;
}

/* A try takes the first post, and gets no message by it. */
static void semaphore_tried(void) {
    pthread_t thread;
    sem_init(&semaphore, 0, 0);
    pthread_create(&thread, NULL, posts_twice, NULL);
    while (sem_trywait(&semaphore) != 0)
        sched_yield();
    turn = 1;
    sem_wait(&semaphore);
    pthread_join(thread, NULL);
}

static pthread_barrier_t barrier;

static void *comes_first(void *unused) {
    pthread_mutex_lock(&a);
    pthread_mutex_unlock(&a);
    turn = 1;
    pthread_barrier_wait(&barrier);
    turn = 2;
    await(3);
    pthread_mutex_lock(&b);
    pthread_mutex_unlock(&b);
    return unused;
}

static void barriers(void) {
    pthread_t thread;
    pthread_barrier_init(&barrier, NULL, 2);
    pthread_create(&thread, NULL, comes_first, NULL);
    await(1);
    await_asleep();
    pthread_barrier_wait(&barrier);
    await(2);
    pthread_mutex_lock(&b);
    pthread_mutex_unlock(&b);
    turn = 3;
    pthread_join(thread, NULL);
}

static pthread_once_t control = PTHREAD_ONCE_INIT;

static void routine(void) { take(&a, &b); }

static void *asks(void *unused) {
    pthread_mutex_lock(&a);
    pthread_once(&control, routine);
    pthread_once(&control, routine);
    pthread_mutex_unlock(&a);
    return unused;
}

static void once(void) {
    pthread_t thread;
    pthread_once(&control, routine);
    pthread_create(&thread, NULL, asks, NULL);
    pthread_join(thread, NULL);
}

/* A plain reader takes it again, which may wait behind a writer; one that passes writers takes nothing then. */
static void read_twice(pthread_rwlock_t *lock) {
    pthread_rwlock_rdlock(lock);
    pthread_rwlock_rdlock(lock);
    pthread_rwlock_unlock(lock);
    pthread_rwlock_unlock(lock);
    pthread_rwlock_wrlock(lock);
    pthread_rwlock_unlock(lock);
}

static pthread_rwlock_t passing = PTHREAD_RWLOCK_INITIALIZER, plain = PTHREAD_RWLOCK_WRITER_NONRECURSIVE_INITIALIZER_NP;

static void readers(void) {
    read_twice(&plain);
    read_twice(&passing);
}

/* A try that fails is no step. */
static void *holds_a(void *unused) {
    pthread_mutex_lock(&a);
    turn = 1;
    await(2);
    pthread_mutex_unlock(&a);
    return unused;
}

static void tries(void) {
    pthread_t thread;
    pthread_create(&thread, NULL, holds_a, NULL);
    await(1);
    if (pthread_mutex_trylock(&a) == 0)
        abort();
    pthread_mutex_trylock(&b);
    pthread_mutex_unlock(&b);
    pthread_rwlock_tryrdlock(&plain);
    pthread_rwlock_unlock(&plain);
    pthread_rwlock_tryrdlock(&passing);
    pthread_rwlock_unlock(&passing);
    turn = 2;
    pthread_join(thread, NULL);
}

static void timed(void) {
    struct timespec until = {.tv_sec = time(NULL) + 1000};
    pthread_mutex_timedlock(&a, &until);
    pthread_rwlock_timedrdlock(&plain, &until);
    pthread_rwlock_unlock(&plain);
    pthread_rwlock_timedrdlock(&passing, &until);
    pthread_rwlock_unlock(&passing);
    pthread_rwlock_timedwrlock(&passing, &until);
    pthread_rwlock_unlock(&passing);
    pthread_mutex_unlock(&a);
}

static pthread_mutex_t recursive = PTHREAD_RECURSIVE_MUTEX_INITIALIZER_NP;

static void twice(void) {
    pthread_mutex_lock(&recursive);
    pthread_mutex_lock(&recursive);
    take(&a, &b);
    pthread_mutex_unlock(&recursive);
    pthread_mutex_unlock(&recursive);
    pthread_mutex_lock(&recursive);
    pthread_mutex_unlock(&recursive);
}

/* A child begins with what its parent held. */
static void forks(void) {
    pthread_mutex_lock(&a);
    if (fork() == 0) {
        pthread_mutex_lock(&b);
        pthread_mutex_unlock(&b);
        pthread_mutex_unlock(&a);
        _exit(0);
    }
    wait(NULL);
    pthread_mutex_unlock(&a);
}

static void handler(int number) {
    (void)number;
    pthread_mutex_lock(&b);
    pthread_mutex_unlock(&b);
}

static void handlers(void) {
    signal(SIGUSR1, handler);
    pthread_mutex_lock(&a);
    raise(SIGUSR1);
    pthread_mutex_unlock(&a);
}

/* A lock that lies where another one has lain. */
static void anew(void) {
    static pthread_mutex_t lock;
    for (int i = 0; i < 2; i++) {
        pthread_mutex_init(&lock, NULL);
        take(&a, &lock);
        pthread_mutex_destroy(&lock);
    }
}

/* A lock that another thread gives back isn't in it, and all others are. */
static pthread_spinlock_t handed;

static void *gives_back(void *unused) {
    pthread_spin_unlock(&handed);
    pthread_mutex_lock(&a);
    pthread_mutex_unlock(&a);
    return unused;
}

static void hands_over(void) {
    pthread_t thread;
    pthread_spin_init(&handed, 0);
    pthread_spin_lock(&handed);
    pthread_create(&thread, NULL, gives_back, NULL);
    pthread_join(thread, NULL);
    take(&a, &b);
}

static mtx_t lock_of_c;
static cnd_t condition_of_c;

static int waits_in_c(void *unused) {
    (void)unused;
    mtx_lock(&lock_of_c);
    turn = 1;
    cnd_wait(&condition_of_c, &lock_of_c);
    mtx_unlock(&lock_of_c);
    return 0;
}

static void of_c(void) {
    thrd_t thread;
    mtx_init(&lock_of_c, mtx_plain);
    cnd_init(&condition_of_c);
    thrd_create(&thread, waits_in_c, NULL);
    await(1);
    await_asleep();
    mtx_lock(&lock_of_c);
    cnd_signal(&condition_of_c);
    mtx_unlock(&lock_of_c);
    thrd_join(thread, NULL);
}

/* What it has done is there. */
static void killed(void) {
    take(&a, &b);
    pthread_mutex_lock(&a);
    kill(getpid(), SIGKILL);
}

/* The same steps again and again: of all but the first ones less is written. */
static void repeats(void) {
    for (int i = 0; i < 5; i++)
        take(&a, &b);
}

static void endless(void) {
    for (int i = 0; i < 200000; i++)
        take(&a, &b);
}

static void *goes_on(void *unused) {
    endless();
    return unused;
}

static void threads(void) { run(goes_on, goes_on); }

static const struct {
    const char *name;
    void (*run)(void);
} rows[] = {{"abba", abba}, {"gates", gates}, {"joins", joins}, {"conditions", conditions}, {"semaphores", semaphores}, {"semaphore_tried", semaphore_tried}, {"barriers", barriers},
            {"once", once}, {"readers", readers}, {"tries", tries}, {"timed", timed}, {"twice", twice}, {"forks", forks}, {"handlers", handlers},
            {"anew", anew}, {"hands_over", hands_over}, {"of_c", of_c}, {"killed", killed}, {"repeats", repeats}, {"endless", endless}, {"threads", threads}};

int main(int count, char **words) {
    for (size_t i = 0; count > 1 && i < sizeof rows / sizeof *rows; i++)
        if (strcmp(rows[i].name, words[1]) == 0) {
            rows[i].run();
            return 0;
        }
    return 2;
}
