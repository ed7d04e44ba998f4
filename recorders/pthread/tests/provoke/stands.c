/* Programs whose threads can stand still, each by its name: by kinds of locks and waits, and by what the order of their steps has to be. */
#include "rows.h"

#include <semaphore.h>
#include <stdatomic.h>

static pthread_mutex_t c = PTHREAD_MUTEX_INITIALIZER, gate = PTHREAD_MUTEX_INITIALIZER;

IN_TURN(takes_ab, 0, 3, take(&a, &b))
IN_TURN(takes_ba, 1, 3, take(&b, &a))
IN_TURN(takes_bc, 1, 3, take(&b, &c))
IN_TURN(takes_ca, 2, 3, take(&c, &a))

static void three(void) { RUN(takes_ab, takes_bc, takes_ca); }

/* ---- Each order once, long after each other. */

#define APART 1500000 /* microseconds */

static void *takes_ab_early(void *with) {
    take(&a, &b);
    end_turn(0);
    usleep(2 * APART);
    return with;
}

static void *takes_ba_late(void *with) {
    usleep(APART);
    await_turn(1, 2);
    take(&b, &a);
    return with;
}

static void late(void) { RUN(takes_ab_early, takes_ba_late); }

/* ---- A thread that goes on only when another one has done something, which it looks at under a lock. */

static bool is_ready;

IN_TURN(makes_ready, 0, 2, pthread_mutex_lock(&gate); is_ready = true; pthread_mutex_unlock(&gate); take(&a, &b))

static bool looks_ready(void) {
    pthread_mutex_lock(&gate);
    bool is_so = is_ready;
    pthread_mutex_unlock(&gate);
    return is_so;
}

IN_TURN(looks, 1, 2, if (looks_ready()) take(&b, &a))

static void ordered(void) { RUN(makes_ready, looks); }

static void *polls(void *with) {
    while (!looks_ready())
        usleep(1000);
    await_turn(1, 2);
    take(&b, &a);
    return with;
}

static void polling(void) { RUN(makes_ready, polls); }

/* ---- A reader between two others, behind a writer. */

static pthread_rwlock_t table = PTHREAD_RWLOCK_WRITER_NONRECURSIVE_INITIALIZER_NP;

static void read_in(pthread_mutex_t *outer) {
    if (outer)
        pthread_mutex_lock(outer);
    pthread_rwlock_rdlock(&table);
    if (!outer)
        take(&a, &c);
    pthread_rwlock_unlock(&table);
    if (outer)
        pthread_mutex_unlock(outer);
}

IN_TURN(reads_then_a, 0, 3, read_in(NULL))
IN_TURN(reads_in_a, 1, 3, read_in(&a))
IN_TURN(writes, 2, 3, pthread_rwlock_wrlock(&table); pthread_rwlock_unlock(&table))

static void behind(void) { RUN(reads_then_a, reads_in_a, writes); }

/* ---- A condition, whose lock is taken again with another one held. */

static pthread_cond_t condition = PTHREAD_COND_INITIALIZER;
static bool is_woken;

static void *sleeps(void *with) {
    pthread_mutex_lock(&b);
    pthread_mutex_lock(&a);
    end_turn(0);
    while (!is_woken)
        pthread_cond_wait(&condition, &b);
    end_turn(2);
    pthread_mutex_unlock(&a);
    pthread_mutex_unlock(&b);
    return with;
}

IN_TURN(wakes, 1, 4, pthread_mutex_lock(&b); is_woken = true; pthread_cond_signal(&condition); pthread_mutex_unlock(&b))
IN_TURN(takes_ba_last, 3, 4, take(&b, &a))

static void relock(void) { RUN(sleeps, wakes, takes_ba_last); }

/* ---- A join with a lock held that the thread takes. */

IN_TURN(takes_a, 0, 1, pthread_mutex_lock(&a); pthread_mutex_unlock(&a))

static void join(void) {
    pthread_t thread;
    pthread_create(&thread, NULL, takes_a, NULL);
    await_turn(1, 1);
    pthread_mutex_lock(&a);
    pthread_join(thread, NULL);
    pthread_mutex_unlock(&a);
}

/* ---- Spin locks. */

static pthread_spinlock_t spins[2];

static void spin_on(int first) {
    pthread_spin_lock(&spins[first]);
    pthread_spin_lock(&spins[!first]);
    pthread_spin_unlock(&spins[!first]);
    pthread_spin_unlock(&spins[first]);
}

IN_TURN(spins_first, 0, 2, spin_on(0))
IN_TURN(spins_second, 1, 2, spin_on(1))

static void spin(void) {
    pthread_spin_init(&spins[0], 0);
    pthread_spin_init(&spins[1], 0);
    RUN(spins_first, spins_second);
}

/* ---- What runs once. */

static pthread_once_t control = PTHREAD_ONCE_INIT;
static void initialise(void) { pthread_mutex_lock(&a), pthread_mutex_unlock(&a); }

IN_TURN(initialises, 0, 2, pthread_once(&control, initialise))
IN_TURN(initialises_in_a, 1, 2, pthread_mutex_lock(&a); pthread_once(&control, initialise); pthread_mutex_unlock(&a))

static void once(void) { RUN(initialises, initialises_in_a); }

/* The same, in which already the recorded run stands still. */

static pthread_barrier_t both;

static void initialise_late(void) {
    pthread_barrier_wait(&both);
    pthread_mutex_lock(&a);
    pthread_mutex_unlock(&a);
}

static void *initialises_late(void *with) {
    pthread_once(&control, initialise_late);
    return with;
}

static void *initialises_late_in_a(void *with) {
    pthread_mutex_lock(&a);
    pthread_barrier_wait(&both);
    pthread_once(&control, initialise_late);
    pthread_mutex_unlock(&a);
    return with;
}

static void hung_once(void) {
    pthread_barrier_init(&both, NULL, 2);
    RUN(initialises_late, initialises_late_in_a);
}

/* ---- Semaphores that are locks. */

static sem_t semaphores[2];

static void wait_on(int first) {
    sem_wait(&semaphores[first]);
    sem_wait(&semaphores[!first]);
    sem_post(&semaphores[!first]);
    sem_post(&semaphores[first]);
}

IN_TURN(waits_first, 0, 2, wait_on(0))
IN_TURN(waits_second, 1, 2, wait_on(1))

static void semaphore(void) {
    sem_init(&semaphores[0], 0, 1);
    sem_init(&semaphores[1], 0, 1);
    RUN(waits_first, waits_second);
}

/* ---- Two processes. */

static void processes(void) { run_processes(PTHREAD_MUTEX_STALLED); }

/* ---- Threads of threads. */

static void *starts_another(void *with) {
    RUN(takes_ba);
    return with;
}

static void nested(void) { RUN(takes_ab, starts_another); }

/* ---- One thread takes its locks only if it sees that the other one doesn't take its own, which it may begin with just then. */

static atomic_int busy;

static void *counts(void *with) {
    for (int i = 0; i < ROUNDS; i++) {
        await_turn(2 * i, 2);
        busy++;
        take(&b, &a);
        busy--;
        end_turn(2 * i);
    }
    return with;
}

static void *takes_ab_if_none(void *with) {
    for (int i = 0; i < ROUNDS; i++) {
        await_turn(2 * i + 1, 2);
        if (!busy)
            take(&a, &b);
        end_turn(2 * i + 1);
    }
    return with;
}

static void counted(void) { RUN(counts, takes_ab_if_none); }

int main(int count, char **words) {
    static const struct row rows[] = {
        {"three", three}, {"late", late}, {"ordered", ordered}, {"polling", polling}, {"behind", behind}, {"relock", relock},
        {"join", join}, {"spin", spin}, {"once", once}, {"hung-once", hung_once}, {"semaphore", semaphore}, {"processes", processes}, {"nested", nested},
        {"counted", counted},
    };
    return run_row(rows, sizeof rows / sizeof *rows, count > 1 ? words[1] : "");
}
