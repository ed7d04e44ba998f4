/* Two locks, and what a recording of them can show: schema WAY.
     crossed   two threads take them in both orders, one after the other, which only a loop sees to
     apart     the first one is joined before the second begins
     library   the same, and they are named as those of a library that the tool knows
     one       one thread does both
     joined    a thread takes a lock that another one holds as it joins it
     hung      two threads wait for each other, until a signal ends them
     told      a lock isn't held where the program says so, and locks that it numbers are taken in the wrong order
     signals   two handlers take what the code that they interrupt has, a third one never runs */
#define _GNU_SOURCE
#include <lockdep.h>
#include <pthread.h>
#include <sched.h>
#include <signal.h>
#include <stdatomic.h>
#include <string.h>
#include <unistd.h>

static pthread_mutex_t a = PTHREAD_MUTEX_INITIALIZER, b = PTHREAD_MUTEX_INITIALIZER;
static pthread_barrier_t both;
static int waits, comes_later;
static atomic_int is_done;

static void under(pthread_mutex_t *first, pthread_mutex_t *second) {
    pthread_mutex_lock(first);
    if (waits)
        pthread_barrier_wait(&both);
    pthread_mutex_lock(second);
    pthread_mutex_unlock(second);
    pthread_mutex_unlock(first);
}

static void *forward(void *unused) {
    pthread_setname_np(pthread_self(), "forward");
    under(&a, &b);
    is_done = 1;
    return unused;
}

static void *backward(void *unused) {
    while (comes_later && !is_done)
        sched_yield();
    under(&b, &a);
    return unused;
}

static void takes(pthread_mutex_t *lock) {
    pthread_mutex_lock(lock);
    pthread_mutex_unlock(lock);
}

static void *ends(void *unused) {
    takes(&a);
    is_done = 1;
    return unused;
}

static void joins(void) {
    pthread_t thread;
    pthread_create(&thread, NULL, ends, NULL);
    while (!is_done)
        sched_yield();
    pthread_mutex_lock(&a);
    pthread_join(thread, NULL);
    pthread_mutex_unlock(&a);
}

static void takes_a(int unused) {
    (void)unused;
    takes(&a);
}

static void takes_b(int unused) {
    (void)unused;
    takes(&b);
}

static void block(int how, int number) {
    sigset_t set;
    sigemptyset(&set);
    sigaddset(&set, number);
    pthread_sigmask(how, &set, NULL);
}

static void *gets_usr1(void *unused) {
    block(SIG_UNBLOCK, SIGUSR1);
    takes(&b);
    raise(SIGUSR1);
    return unused;
}

static void *gets_usr2(void *unused) {
    block(SIG_UNBLOCK, SIGUSR2);
    takes(&a);
    raise(SIGUSR2);
    return unused;
}

static void run(void *(*one)(void *), void *(*other)(void *), int is_in_turn) {
    pthread_t threads[2];
    pthread_create(&threads[0], NULL, one, NULL);
    if (is_in_turn)
        pthread_join(threads[0], NULL);
    pthread_create(&threads[1], NULL, other, NULL);
    if (!is_in_turn)
        pthread_join(threads[0], NULL);
    pthread_join(threads[1], NULL);
}

int main(int count, char **words) {
    const char *way = count > 1 ? words[1] : "crossed";
    pthread_barrier_init(&both, NULL, 2);
    if (strcmp(way, "one") == 0) {
        forward(NULL);
        backward(NULL);
    } else if (strcmp(way, "hung") == 0) {
        waits = 1;
        alarm(1);
        run(forward, backward, 0);
    } else if (strcmp(way, "told") == 0) {
        LOCKDEP_ORDERED(&a, 2);
        LOCKDEP_ORDERED(&b, 1);
        LOCKDEP_CLASS(&a, "numbered");
        LOCKDEP_CLASS(&b, "numbered");
        LOCKDEP_ASSERT_HELD(&a);
        forward(NULL);
    } else if (strcmp(way, "signals") == 0) {
        signal(SIGUSR1, takes_a);
        signal(SIGUSR2, takes_b);
        signal(SIGHUP, takes_a);
        block(SIG_BLOCK, SIGUSR1);
        block(SIG_BLOCK, SIGUSR2);
        run(gets_usr1, gets_usr2, 1);
    } else if (strcmp(way, "joined") == 0) {
        joins();
    } else {
        if (strcmp(way, "library") == 0) {
            LOCKDEP_CLASS(&a, "ncbi::CInitMutexPool::a");
            LOCKDEP_CLASS(&b, "ncbi::CInitMutexPool::b");
        }
        comes_later = 1;
        run(forward, backward, strcmp(way, "apart") == 0);
    }
    return 0;
}
