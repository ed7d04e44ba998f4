/* What the test programs share. Their locks are static, so that a trace names them. */
#define _GNU_SOURCE
#include <errno.h>
#include <pthread.h>
#include <signal.h>
#include <stdio.h>
#include <stdlib.h>
#include <string.h>
#include <sys/wait.h>
#include <threads.h>
#include <time.h>
#include <unistd.h>

/* Not to be put into its caller, so that the place of a call is in this function. */
#define APART __attribute__((noinline))

static inline struct timespec in_milliseconds(clockid_t clock, long ms) {
    struct timespec t;
    clock_gettime(clock, &t);
    t.tv_nsec += ms * 1000000;
    t.tv_sec += t.tv_nsec / 1000000000;
    t.tv_nsec %= 1000000000;
    return t;
}

static inline void in_thread(void *(*run)(void *), void *with) {
    pthread_t t;
    pthread_create(&t, NULL, run, with);
    pthread_join(t, NULL);
}

/* Takes a mutex, and gives it back; or the second one of two under the first. A macro does so in the function and the line that it stands in. */
#define TAKE(mutex) (pthread_mutex_lock(mutex), pthread_mutex_unlock(mutex))
#define NEST(first, second) (pthread_mutex_lock(first), TAKE(second), pthread_mutex_unlock(first))

/* Nests two mutexes, of which it gets the addresses. */
static inline void *nest_pair(void *locks) {
    NEST(((pthread_mutex_t **)locks)[0], ((pthread_mutex_t **)locks)[1]);
    return NULL;
}

/* A function of a thread that does this. */
#define THREAD(name, does) \
    static void *name(void *unused) { \
        does; \
        return unused; \
    }
