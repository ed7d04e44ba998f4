#!/usr/bin/env python3
"""Prints a program of random steps, in C: threads with mutexes, which they take in one order, read-write and spin locks, conditions with a limit, semaphores,
barriers, routines that run once, threads of their own, and locks that are made and go. If the seed is even a handler comes in all the time, with a lock
that only its runs take. It always ends: random_program.py SEED."""
import random
import sys

BEGINNING = r"""#define _GNU_SOURCE
#include <pthread.h>
#include <semaphore.h>
#include <signal.h>
#include <stdlib.h>
#include <sys/time.h>
#include <time.h>
#include <unistd.h>

#define MUTEXES 8
static pthread_mutex_t mutexes[MUTEXES], recursive, handled = PTHREAD_MUTEX_INITIALIZER;
static pthread_rwlock_t rwlocks[2];
static pthread_spinlock_t spin;
static pthread_cond_t conditions[2];
static sem_t semaphores[2];
static pthread_barrier_t barrier;
static pthread_once_t controls[3];

static const struct timespec *after(long nanoseconds) {
    static __thread struct timespec until;
    clock_gettime(CLOCK_REALTIME, &until);
    until.tv_nsec += nanoseconds;
    until.tv_sec += until.tv_nsec / 1000000000;
    until.tv_nsec %= 1000000000;
    return &until;
}

static void routine(void) {
    pthread_mutex_lock(&mutexes[MUTEXES - 1]);
    pthread_mutex_unlock(&mutexes[MUTEXES - 1]);
}

static void *takes_one(void *unused) {
    pthread_mutex_lock(&mutexes[MUTEXES - 2]);
    pthread_mutex_unlock(&mutexes[MUTEXES - 2]);
    return unused;
}

static void *starts_one(int joins) {
    pthread_t thread;
    pthread_create(&thread, NULL, takes_one, NULL);
    if (joins)
        pthread_join(thread, NULL);
    else
        pthread_detach(thread);
    return NULL;
}

static void makes_one(void) {
    pthread_mutex_t *made = malloc(sizeof *made);
    pthread_mutex_init(made, NULL);
    pthread_mutex_lock(made);
    pthread_mutex_unlock(made);
    pthread_mutex_destroy(made);
    free(made);
}

static void handle(int unused) {
    (void)unused;
    pthread_mutex_lock(&handled);
    pthread_mutex_unlock(&handled);
}

static void interrupt(void) {
    struct sigaction action = {.sa_handler = handle, .sa_flags = SA_RESTART};
    struct itimerval often = {{0, 100}, {0, 100}};
    sigaction(SIGALRM, &action, NULL);
    setitimer(ITIMER_REAL, &often, NULL);
}

static void initialise(unsigned threads) {
    pthread_mutexattr_t kind;
    pthread_rwlockattr_t prefers;
    for (int i = 0; i < MUTEXES; i++)
        pthread_mutex_init(&mutexes[i], NULL);
    pthread_mutexattr_init(&kind);
    pthread_mutexattr_settype(&kind, PTHREAD_MUTEX_RECURSIVE);
    pthread_mutex_init(&recursive, &kind);
    pthread_rwlockattr_init(&prefers);
    pthread_rwlock_init(&rwlocks[0], &prefers);
    pthread_rwlockattr_setkind_np(&prefers, PTHREAD_RWLOCK_PREFER_WRITER_NONRECURSIVE_NP);
    pthread_rwlock_init(&rwlocks[1], &prefers);
    pthread_spin_init(&spin, 0);
    for (unsigned i = 0; i < 2; i++) {
        pthread_cond_init(&conditions[i], NULL);
        sem_init(&semaphores[i], 0, i);
    }
    pthread_barrier_init(&barrier, NULL, threads);
}
"""


class Program:
    def __init__(self, seed):
        self.random, self.has_handler = random.Random(seed), seed % 2 == 0
        self.threads, self.mutexes = self.random.randint(2, 6), self.random.randint(2, 5)

    def nest(self, first):
        """A mutex that is taken with others under it, which come later in their order."""
        lock = self.random.randint(first, self.mutexes - 1)
        inner = "".join(self.step(lock + 1) for _ in range(self.random.randint(0, 2)))
        return "pthread_mutex_lock(&mutexes[%d]); %spthread_mutex_unlock(&mutexes[%d]); " % (lock, inner, lock)

    def wait(self):
        return ("pthread_mutex_lock(&mutexes[0]); pthread_cond_timedwait(&conditions[%d], &mutexes[0], after(%d)); pthread_mutex_unlock(&mutexes[0]); "
                % (self.random.randrange(2), self.random.choice((0, 50000, 200000))))

    def step(self, first=0):
        """A step, with the mutexes before the first one perhaps held."""
        which, one, lock = self.random.randrange(16), self.random.randrange(2), self.random.randrange(self.mutexes)
        if which < 5 and first < self.mutexes:
            return self.nest(first)
        if which in (8, 14) and first == 0:
            return self.wait() if which == 8 else "starts_one(%d); " % one
        return {5: "pthread_rwlock_%slock(&rwlocks[%d]); pthread_rwlock_unlock(&rwlocks[%d]); " % (self.random.choice(("rd", "wr")), one, one),
                6: "if (pthread_mutex_trylock(&mutexes[%d]) == 0) pthread_mutex_unlock(&mutexes[%d]); " % (lock, lock),
                7: "pthread_cond_%s(&conditions[%d]); " % (self.random.choice(("signal", "broadcast")), one),
                9: "sem_post(&semaphores[%d]); " % one, 10: "sem_timedwait(&semaphores[%d], after(50000)); " % one,
                11: "pthread_once(&controls[%d], routine); " % self.random.randrange(3),
                12: "pthread_spin_lock(&spin); pthread_spin_unlock(&spin); ",
                13: "pthread_mutex_lock(&recursive); pthread_mutex_lock(&recursive); pthread_mutex_unlock(&recursive); "
                    "pthread_mutex_unlock(&recursive); ",
                15: "makes_one(); "}.get(which, "if (rand() % 4 == 0) usleep(rand() % 50); ")

    def text(self):
        lines = [BEGINNING]
        for thread in range(self.threads):
            steps = [self.step() for _ in range(self.random.randint(2, 20))]
            lines += ["static void *thread_%d(void *unused) {" % thread, "    for (int i = 0; i < %d; i++) {" % self.random.randint(1, 40)]
            lines += ["        " + step for step in steps]
            lines += ["    }", "    pthread_barrier_wait(&barrier);", "    pthread_barrier_wait(&barrier);", "    return unused;", "}"]
        lines += ["int main(void) {", "    pthread_t threads[%d];" % self.threads, "    initialise(%d);" % self.threads]
        lines += ["    interrupt();"] if self.has_handler else ["    (void)interrupt;"]
        lines += ["    pthread_create(&threads[%d], NULL, thread_%d, NULL);" % (thread, thread) for thread in range(self.threads)]
        lines += ["    pthread_join(threads[%d], NULL);" % thread for thread in range(self.threads)]
        return "\n".join(lines + ["    usleep(2000);", "    return 0;", "}", ""])


sys.stdout.write(Program(int(sys.argv[1])).text())
