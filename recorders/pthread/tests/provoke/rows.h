/* What the programs have in common that do one thing each, by its name. In the recorded run each thread waits until its turn comes, so that nothing
   hangs, however busy the machine is; in the runs of `provoke` turns come by the time. */
#define _GNU_SOURCE
#include "turns.h"

#include <pthread.h>
#include <stdbool.h>
#include <stdio.h>
#include <string.h>
#include <sys/mman.h>
#include <sys/wait.h>
#include <time.h>

struct row {
    const char *name;
    void (*run)(void);
};

static pthread_mutex_t a = PTHREAD_MUTEX_INITIALIZER, b = PTHREAD_MUTEX_INITIALIZER;

static void take(pthread_mutex_t *first, pthread_mutex_t *second) {
    pthread_mutex_lock(first);
    pthread_mutex_lock(second);
    pthread_mutex_unlock(second);
    pthread_mutex_unlock(first);
}

typedef void *routine(void *with);

/* Has threads run, each in a turn of its own. */
static void run_threads(routine *const *routines, int count) {
    pthread_t threads[8];
    for (int i = 0; i < count; i++)
        pthread_create(&threads[i], NULL, routines[i], NULL);
    for (int i = 0; i < count; i++)
        pthread_join(threads[i], NULL);
}

#define RUN(...) run_threads((routine *const[]){__VA_ARGS__}, (int)(sizeof(routine *const[]){__VA_ARGS__} / sizeof(routine *)))

/* A thread that does this in its turn, of so many threads. */
#define IN_TURN(name, number, of, ...)                                                                                 \
    static void *name(void *with) {                                                                                    \
        await_turn(number, of);                                                                                        \
        __VA_ARGS__;                                                                                                   \
        end_turn(number);                                                                                              \
        return with;                                                                                                   \
    }

/* Two processes take two mutexes that they share, in opposite orders. */
static inline void in_process(pthread_mutex_t *shared, int number) {
    if (fork() != 0)
        return;
    usleep((number + 1) * MICROSECONDS);
    take(&shared[number], &shared[!number]);
    _exit(0);
}

static inline void run_processes(int robustness) {
    pthread_mutexattr_t attributes;
    pthread_mutex_t *shared = mmap(NULL, 2 * sizeof *shared, PROT_READ | PROT_WRITE, MAP_SHARED | MAP_ANONYMOUS, -1, 0);
    pthread_mutexattr_init(&attributes);
    pthread_mutexattr_setpshared(&attributes, PTHREAD_PROCESS_SHARED);
    pthread_mutexattr_setrobust(&attributes, robustness);
    for (int i = 0; i < 2; i++)
        pthread_mutex_init(&shared[i], &attributes);
    in_process(shared, 0);
    if (!getenv("LOCKDEP_PROVOKE_PLAN"))
        wait(NULL);
    in_process(shared, 1);
    while (wait(NULL) > 0)
        ;
}

static int run_row(const struct row *rows, size_t count, const char *name) {
    for (size_t i = 0; i < count; i++)
        if (strcmp(rows[i].name, name) == 0) {
            rows[i].run();
            puts("done");
            return 0;
        }
    return 2;
}
