/* Signal handlers. That of SIGUSR1 takes table, which its thread may hold. If a file is there, whose name comes second, SIGUSR1 is blocked with
   `blocked` before table is taken, and with `replaced` it has another handler by then, which takes nothing. With `thread` SIGUSR1 is sent to the only
   thread, and with `threads` to one of two. With `unblocks` it is unblocked with table held, and with `by-itself` only in its own handler. With
   `recursive` table knows its owner. With `readers` both take a lock as readers, behind a writer that waits. With `inversion` the handler of SIGUSR2
   takes stats: a second thread holds stats and waits for pool, and the first one holds pool where SIGUSR2 comes in. */
#define _GNU_SOURCE
#include <pthread.h>
#include <signal.h>
#include <stdbool.h>
#include <string.h>
#include <unistd.h>

#define ROUNDS 10
#define MICROSECONDS 1000

static pthread_mutex_t table = PTHREAD_MUTEX_INITIALIZER, stats = PTHREAD_MUTEX_INITIALIZER, pool = PTHREAD_MUTEX_INITIALIZER;
static volatile long rows;

static void reload(int signal) {
    rows += signal;
    pthread_mutex_lock(&table);
    pthread_mutex_unlock(&table);
}

static void report(int signal) {
    rows -= signal;
    pthread_mutex_lock(&stats);
    pthread_mutex_unlock(&stats);
}

/* Takes table with its own signal unblocked, which is sent once more after that. */
static void reload_unblocked(int signal) {
    sigset_t own;
    sigemptyset(&own);
    sigaddset(&own, signal);
    pthread_sigmask(SIG_UNBLOCK, &own, NULL);
    reload(signal);
}

static pthread_rwlock_t queue = PTHREAD_RWLOCK_WRITER_NONRECURSIVE_INITIALIZER_NP;

static void reads(int signal) {
    rows += signal;
    pthread_rwlock_rdlock(&queue);
    pthread_rwlock_unlock(&queue);
}

static void *writes(void *unused) {
    sigset_t all;
    sigfillset(&all);
    pthread_sigmask(SIG_BLOCK, &all, NULL);
    for (int i = 0; i < ROUNDS; i++) {
        pthread_rwlock_wrlock(&queue);
        pthread_rwlock_unlock(&queue);
        usleep(MICROSECONDS);
    }
    return unused;
}

static void readers(void) {
    pthread_t thread;
    signal(SIGUSR1, reads);
    kill(getpid(), SIGUSR1);
    pthread_create(&thread, NULL, writes, NULL);
    for (int i = 0; i < ROUNDS; i++) {
        pthread_rwlock_rdlock(&queue);
        usleep(MICROSECONDS);
        pthread_rwlock_unlock(&queue);
        usleep(MICROSECONDS);
    }
    pthread_join(thread, NULL);
}

static void only_notes(int signal) { rows += signal; }

static void insert(const sigset_t *unblocked) {
    pthread_mutex_lock(&table);
    rows++;
    if (unblocked)
        pthread_sigmask(SIG_UNBLOCK, unblocked, NULL);
    pthread_mutex_unlock(&table);
}

static void *sums(void *unused) {
    sigset_t all;
    sigfillset(&all);
    pthread_sigmask(SIG_BLOCK, &all, NULL);
    for (int i = 0; i < ROUNDS; i++) {
        pthread_mutex_lock(&stats);
        pthread_mutex_lock(&pool);
        pthread_mutex_unlock(&pool);
        pthread_mutex_unlock(&stats);
        usleep(MICROSECONDS);
    }
    return unused;
}

static void inversion(void) {
    pthread_t thread;
    signal(SIGUSR2, report);
    kill(getpid(), SIGUSR2);
    pthread_create(&thread, NULL, sums, NULL);
    for (int i = 0; i < ROUNDS; i++) {
        pthread_mutex_lock(&pool);
        usleep(MICROSECONDS);
        pthread_mutex_unlock(&pool);
        usleep(MICROSECONDS);
    }
    pthread_join(thread, NULL);
}

int main(int argc, char **argv) {
    const char *how = argc > 1 ? argv[1] : "";
    if (strcmp(how, "inversion") == 0) {
        inversion();
        return 0;
    }
    if (strcmp(how, "readers") == 0) {
        readers();
        return 0;
    }
    if (strcmp(how, "recursive") == 0)
        table = (pthread_mutex_t)PTHREAD_RECURSIVE_MUTEX_INITIALIZER_NP;
    bool is_by_itself = strcmp(how, "by-itself") == 0;
    signal(SIGUSR1, is_by_itself ? reload_unblocked : reload);
    pthread_t other;
    bool is_one_of_two = strcmp(how, "threads") == 0;
    if (is_one_of_two) {
        pthread_create(&other, NULL, sums, NULL);
        pthread_join(other, NULL);
    }
    if (is_one_of_two || strcmp(how, "thread") == 0)
        raise(SIGUSR1);
    else
        kill(getpid(), SIGUSR1);
    bool is_there = argc > 2 && access(argv[2], F_OK) == 0, unblocks = strcmp(how, "unblocks") == 0;
    sigset_t one;
    sigemptyset(&one);
    sigaddset(&one, SIGUSR1);
    if ((strcmp(how, "blocked") == 0 && is_there) || unblocks || is_by_itself)
        sigprocmask(SIG_BLOCK, &one, NULL);
    if (strcmp(how, "replaced") == 0 && is_there)
        signal(SIGUSR1, only_notes);
    insert(unblocks ? &one : NULL);
    return 0;
}
