/* A thread that is joined with the lock held with which it has said that it is done, in ways that differ by what it does, and by what the one
   that joins it has waited for. It goes on until it is waited for, but for `before`, `earlier`, `twice`, `many` and `pool`.
     signal    it signals the condition under the lock, and the joiner waits for that
     broadcast, timed, clock, c11    the same by other calls; timed waits give up twice before
     after     it signals when it has released the lock
     nested    it has another lock besides when it signals
     first     it signals another condition after that
     again     it has signalled the condition before, with the lock held
     many      four threads, which signal one after the other, each when the joiner waits again, and are joined so too
     pool      the same, but the first one has ended before the joiner takes the lock
     deep      the lock is recursive, and both have it twice
     cleans    it takes a lock of its own after that
     crosses   the same, and another thread takes that lock, and under it the one that is held: a cycle of these two
     above     the lock that both take is another one, which the joiner takes when it has waited
     below     the same, which the joiner has while it waits: the order stays
     started   that one is held by who joins the joiner
     twice     the thread takes the lock once more after it has signalled, and has ended when a third thread ends the wait
     unheard   the joiner waits for another condition, which a third thread signals
     earlier   it signals before the joiner waits for the first time, which a third thread ends
     by_other  a third thread signals
     before    the joiner doesn't wait, since the thread is done
     retaken   the joiner has waited, and takes the lock anew
     other     the joiner has waited with another lock, which it gives back
     both      it takes two locks of its own after it has signalled
     sleeps    it waits for a semaphore after that
     handled   a signal's handler signals
     leaves    it has another lock as it ends
     shared    the lock and the condition are in memory that processes may share
     forked    as signal, in a child whose parent has waited before
     stays     the thread doesn't end */
#include "common.h"
#include "asleep.h"
#include <sched.h>
#include <semaphore.h>
#include <string.h>
#include <sys/mman.h>
#include <sys/wait.h>

struct shared {
    pthread_mutex_t state;
    pthread_cond_t changed;
};
static struct shared own_memory = {PTHREAD_MUTEX_INITIALIZER, PTHREAD_COND_INITIALIZER}, *s = &own_memory;
static pthread_mutex_t used = PTHREAD_MUTEX_INITIALIZER, own = PTHREAD_MUTEX_INITIALIZER, second = PTHREAD_MUTEX_INITIALIZER;
static pthread_cond_t other_changed = PTHREAD_COND_INITIALIZER;
static mtx_t c11_state;
static cnd_t c11_changed;
static sem_t posted;
static const char *way;
#define MOST 4
static int done, wanted = 1; /* threads that have said so, with the lock held */
static int numbers[MOST];    /* the system's */
static int is_told, has_used, may_say;
static int times_given_up;
static int come, heard = -1; /* of several: how many have begun, and of how many the joiner knows as it waits */

static int is(const char *name) { return strcmp(way, name) == 0; }

static void set(int *flag, int value) { __atomic_store_n(flag, value, __ATOMIC_SEQ_CST); }
static int get(int *flag) { return __atomic_load_n(flag, __ATOMIC_SEQ_CST); }

static void await(int *flag) {
    while (!get(flag))
        sched_yield();
}

/* Waits until the nth thread has said that it is done, and has ended. */
static void await_end(int n) {
    char folder[48];
    await(&numbers[n]);
    snprintf(folder, sizeof folder, "/proc/self/task/%d", get(&numbers[n]));
    while (access(folder, F_OK) == 0)
        sched_yield();
}

static void handler(int unused) {
    (void)unused;
    pthread_cond_signal(&s->changed);
}

/* The thread takes the lock only when it is given back to wait, unless it is to come before. */
static int comes_before(void) { return is("before") || is("earlier") || is("pool"); }

/* ---- The thread that is joined. */

static void say(void) {
    set(&numbers[done++], (int)syscall(SYS_gettid));
    if (is("handled"))
        raise(SIGUSR1);
    else if (is("broadcast"))
        pthread_cond_broadcast(&s->changed);
    else if (!is("after") && !is("by_other"))
        pthread_cond_signal(&s->changed);
    if (is("first"))
        pthread_cond_broadcast(&other_changed);
}

/* What it does when it has said so. */
static void go_on(void) {
    if (is("after"))
        pthread_cond_signal(&s->changed);
    if (is("twice"))
        TAKE(&s->state);
    if (is("cleans") || is("crosses") || is("both"))
        TAKE(&own);
    if (is("both"))
        TAKE(&second);
    if (is("sleeps"))
        sem_wait(&posted);
    if (is("leaves"))
        pthread_mutex_lock(&own);
}

/* Until what has to come before is done. */
static void await_turn(void) {
    if (is("timed") || is("clock"))
        while (get(&times_given_up) < 2)
            sched_yield();
    int turn = is("many") ? __atomic_fetch_add(&come, 1, __ATOMIC_SEQ_CST) : -1;
    while (get(&heard) < turn)
        sched_yield();
}

static void begin(void) {
    if (is("again")) {
        pthread_mutex_lock(&s->state);
        pthread_cond_signal(&s->changed);
        pthread_mutex_unlock(&s->state);
    }
    if (is("above") || is("below") || is("started") || is("other"))
        TAKE(&used);
    set(&has_used, 1);
    if (is("below"))
        await(&may_say);
    await_turn();
}

/* Until who joins the thread waits for it, and doesn't look any more whether it ends. (One that has to end before doesn't, and of several none does.) */
static void live_on(void) {
    if (wanted == 1 && !comes_before() && !is("twice"))
        await_asleep();
}

static void *worker(void *unused) {
    begin();
    if (is("nested"))
        pthread_mutex_lock(&own);
    pthread_mutex_lock(&s->state);
    if (is("deep"))
        pthread_mutex_lock(&s->state);
    say();
    if (is("deep"))
        pthread_mutex_unlock(&s->state);
    pthread_mutex_unlock(&s->state);
    if (is("nested"))
        pthread_mutex_unlock(&own);
    go_on();
    if (is("stays"))
        pause();
    live_on();
    return unused;
}

static int c11_worker(void *unused) {
    (void)unused;
    mtx_lock(&c11_state);
    set(&numbers[done++], (int)syscall(SYS_gettid));
    cnd_signal(&c11_changed);
    mtx_unlock(&c11_state);
    live_on();
    return 0;
}

/* ---- A third thread. */

/* Signals what the joiner waits for, when the other thread has said that it is done, or has ended. */
static void *signaller(void *unused) {
    if (is("unheard") || is("by_other"))
        await(&numbers[0]);
    else
        await_end(0);
    pthread_mutex_lock(&s->state);
    set(&is_told, 1);
    pthread_cond_signal(is("unheard") ? &other_changed : &s->changed);
    pthread_mutex_unlock(&s->state);
    return unused;
}

static void *poster(void *unused) {
    unsigned long times = 0;
    char thread[16];
    await(&numbers[0]);
    snprintf(thread, sizeof thread, "%d", get(&numbers[0]));
    while (!asleep_till_woken(getpid(), thread, &times))
        sched_yield();
    sem_post(&posted);
    return unused;
}

THREAD(crosser, NEST(&own, &s->state))

/* ---- The thread that joins. */

static void wait_some_time(void) {
    struct timespec end = in_milliseconds(is("clock") ? CLOCK_MONOTONIC : CLOCK_REALTIME, times_given_up < 2 ? 5 : 100000);
    int answer = is("clock") ? pthread_cond_clockwait(&s->changed, &s->state, CLOCK_MONOTONIC, &end)
                             : pthread_cond_timedwait(&s->changed, &s->state, &end);
    if (answer == ETIMEDOUT)
        set(&times_given_up, times_given_up + 1);
}

static void wait_once(void) {
    set(&heard, done);
    if (is("timed") || is("clock"))
        wait_some_time();
    else
        pthread_cond_wait(is("unheard") ? &other_changed : &s->changed, &s->state);
}

static int waits_for_third(void) { return is("unheard") || is("earlier") || is("by_other") || is("twice"); }

static pthread_t started(void *(*run)(void *)) {
    pthread_t thread;
    pthread_create(&thread, NULL, run, NULL);
    return thread;
}

static void wait_for_all(void) {
    while (waits_for_third() ? !is_told : done < wanted)
        wait_once();
    if (is("retaken")) {
        pthread_mutex_unlock(&s->state);
        pthread_mutex_lock(&s->state);
    }
    if (is("other"))
        pthread_mutex_unlock(&s->state);
    if (is("above") || is("other"))
        pthread_mutex_lock(&used);
    if (is("deep"))
        pthread_mutex_lock(&s->state);
}

static void release_all(void) {
    if (is("deep"))
        pthread_mutex_unlock(&s->state);
    if (is("above") || is("other") || is("below"))
        pthread_mutex_unlock(&used);
    if (!is("other"))
        pthread_mutex_unlock(&s->state);
}

static void start_all(pthread_t *threads, int from) {
    for (int i = from; i < wanted; i++)
        threads[i] = started(worker);
}

/* Starts the threads with the lock held, or takes it when they have ended. */
static void start_and_lock(pthread_t *threads) {
    if (comes_before()) {
        threads[0] = started(worker);
        await_end(0);
    }
    pthread_mutex_lock(&s->state);
    start_all(threads, comes_before());
}

/* The thread has taken the other lock before. */
static void start_and_lock_both(pthread_t *threads) {
    start_all(threads, 0);
    await(&has_used);
    pthread_mutex_lock(&used);
    pthread_mutex_lock(&s->state);
    set(&may_say, 1);
}

static void join_all(const pthread_t *threads) {
    for (int i = 0; i < wanted; i++)
        pthread_join(threads[i], NULL);
    release_all();
}

static void *join_waited_for(void *unused) {
    pthread_t threads[MOST], third = 0;
    if (is("below"))
        start_and_lock_both(threads);
    else
        start_and_lock(threads);
    if (waits_for_third() || is("sleeps"))
        third = started(is("sleeps") ? poster : signaller);
    wait_for_all();
    join_all(threads);
    if (third)
        pthread_join(third, NULL);
    if (is("started"))
        await_asleep();
    return unused;
}

/* ---- */

static void join_c11(void) {
    thrd_t thread;
    mtx_init(&c11_state, mtx_plain);
    cnd_init(&c11_changed);
    mtx_lock(&c11_state);
    thrd_create(&thread, c11_worker, NULL);
    while (!done)
        cnd_wait(&c11_changed, &c11_state);
    thrd_join(thread, NULL);
    mtx_unlock(&c11_state);
}

static void make_recursive(void) {
    pthread_mutexattr_t how;
    pthread_mutexattr_init(&how);
    pthread_mutexattr_settype(&how, PTHREAD_MUTEX_RECURSIVE);
    pthread_mutex_init(&s->state, &how);
}

static void make_shared(void) {
    pthread_mutexattr_t how;
    pthread_condattr_t how_changed;
    s = mmap(NULL, sizeof *s, PROT_READ | PROT_WRITE, MAP_SHARED | MAP_ANONYMOUS, -1, 0);
    pthread_mutexattr_init(&how);
    pthread_mutexattr_setpshared(&how, PTHREAD_PROCESS_SHARED);
    pthread_mutex_init(&s->state, &how);
    pthread_condattr_init(&how_changed);
    pthread_condattr_setpshared(&how_changed, PTHREAD_PROCESS_SHARED);
    pthread_cond_init(&s->changed, &how_changed);
}

static void join_in_child(void) {
    join_waited_for(NULL);
    done = 0;
    set(&numbers[0], 0);
    pid_t child = fork();
    if (child == 0) {
        join_waited_for(NULL);
        exit(0);
    }
    waitpid(child, NULL, 0);
}

static void join_started(void) {
    pthread_t joiner = started(join_waited_for);
    await(&numbers[0]);
    pthread_mutex_lock(&used);
    pthread_join(joiner, NULL);
    pthread_mutex_unlock(&used);
}

int main(int argc, char **argv) {
    way = argc > 1 ? argv[1] : "signal";
    sem_init(&posted, 0, 0);
    signal(SIGUSR1, handler);
    if (is("deep"))
        make_recursive();
    if (is("shared"))
        make_shared();
    if (is("stays"))
        end_when_asleep();
    if (is("crosses"))
        in_thread(crosser, NULL);
    wanted = is("many") || is("pool") ? MOST : 1;
    if (is("c11"))
        join_c11();
    else if (is("forked"))
        join_in_child();
    else if (is("started"))
        join_started();
    else
        join_waited_for(NULL);
}
