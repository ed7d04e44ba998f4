/* A handler that jumps out of a call that waits for a lock, which the thread doesn't hold then: what it takes next is under nothing. First it
   comes again in a function that is called deeper, then in one at the same depth, and then in one further up. The last time it doesn't come
   again: the process ends. */
#include "common.h"
#include <setjmp.h>
#include <sys/time.h>
static pthread_mutex_t a = PTHREAD_MUTEX_INITIALIZER, b = PTHREAD_MUTEX_INITIALIZER, c = PTHREAD_MUTEX_INITIALIZER,
                       d = PTHREAD_MUTEX_INITIALIZER;
static pthread_rwlock_t r = PTHREAD_RWLOCK_INITIALIZER;
static sigjmp_buf out;

static void jump(int number) { siglongjmp(out, number); }

static void alarm_soon(void) {
    struct itimerval soon = {.it_value.tv_usec = 50000};
    setitimer(ITIMER_REAL, &soon, NULL);
}

static APART void take(pthread_mutex_t *lock) { TAKE(lock); }

static APART void take_deeper(int deeper, pthread_mutex_t *lock) {
    volatile char room[64] = {0};
    if (deeper)
        take_deeper(deeper - 1, lock);
    else
        take(lock);
    room[0] = 1;
}

static APART void wait_deep(int deeper, pthread_mutex_t *lock) {
    volatile char room[64] = {0};
    if (deeper)
        wait_deep(deeper - 1, lock);
    else
        pthread_mutex_lock(lock);
    room[0] = 1;
}

static void *holds(void *until) {
    pthread_mutex_lock(&a);
    pthread_rwlock_wrlock(&r);
    pthread_barrier_wait(until);
    pthread_barrier_wait(until);
    pthread_rwlock_unlock(&r);
    pthread_mutex_unlock(&a);
    return NULL;
}

static APART void jumps(void) {
    if (sigsetjmp(out, 1) == 0) {
        alarm_soon();
        wait_deep(0, &a);
    }
    take_deeper(20, &b);
    if (sigsetjmp(out, 1) == 0) {
        alarm_soon();
        wait_deep(2, &a);
    }
    take_deeper(2, &c);
    if (sigsetjmp(out, 1) == 0) {
        alarm_soon();
        pthread_rwlock_rdlock(&r);
    }
    take_deeper(1, &d);
    if (sigsetjmp(out, 1) == 0) {
        alarm_soon();
        wait_deep(20, &a);
    }
}

int main(void) {
    pthread_barrier_t until;
    pthread_t holder;
    sigset_t alarms;
    pthread_barrier_init(&until, NULL, 2);
    signal(SIGALRM, jump);
    sigemptyset(&alarms);
    sigaddset(&alarms, SIGALRM);
    pthread_sigmask(SIG_BLOCK, &alarms, NULL);
    pthread_create(&holder, NULL, holds, &until);
    pthread_barrier_wait(&until);
    pthread_sigmask(SIG_UNBLOCK, &alarms, NULL);
    jumps();
    take(&b);
    pthread_barrier_wait(&until);
    pthread_join(holder, NULL);
    take(&a);
    pthread_mutex_lock(&b); /* a is free, and taken under b alone */
    take(&a);
    if (sigsetjmp(out, 1) == 0) {
        alarm_soon();
        wait_deep(1, &b);
    }
}
