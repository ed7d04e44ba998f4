/* Threads that are joined, in ways that differ by what is held meanwhile:
     held     the lock that the thread takes, which goes on until it is waited for: a cycle
     made     the same, and the lock is initialised by a call
     ended    as held, but the thread ends at once, and is joined only then: that takes nothing from the order
     says     the thread says under the lock that it is done, and who joins it with the lock held waits for that
     exits    the same, and then it ends by pthread_exit, when it is waited for
     cleans   the same, but then it takes a lock of its own, when it is waited for
     queues   as cleans, and another thread has that lock, which it gives back as soon as the thread waits for it
     posted   as exits, but then it waits for a semaphore, which is posted as soon as it waits
     crosses  as cleans, and another thread takes that lock, and under it the one that is held when the thread is waited for
     two      as cleans, and it takes a second lock after that
     works    as cleans, but the lock that is held when it is waited for isn't the last that it had before
     woken    as held, and the thread waits for a condition, which comes when it is waited for, and then ends at once
     both     says, and held with other locks and threads
     again    ended, and then held with another thread
     other    another lock, which the thread doesn't take: none
     none     no lock: none
     idle     the thread's lock, but the thread takes none
     passed   a thread is joined with the lock held that joins the one that takes it: a cycle of three
     early    the joiner gives the lock back before
     timed    as held, by joins that give up
     no_time  as held, by a join that could give up, but has no time for that
     briefly  as held, and the thread takes the lock by a wait that gives up
     detached the thread isn't joined
     many     40 threads one after the other with the lock held, of which the last takes it
     hangs    as held, and the joiner is first
     made_hangs as made, and the joiner is first
     asleep   as held, but the thread gives the lock back before, and doesn't end */
#include "common.h"
#include "asleep.h"
#include <sched.h>
#include <semaphore.h>
#include <sys/time.h>

static pthread_mutex_t state = PTHREAD_MUTEX_INITIALIZER, log_lock = PTHREAD_MUTEX_INITIALIZER, made, *taken = &state;
static pthread_mutex_t own = PTHREAD_MUTEX_INITIALIZER, second = PTHREAD_MUTEX_INITIALIZER;
static sem_t is_posted;
static pthread_cond_t has_said = PTHREAD_COND_INITIALIZER;
static const char *way;
static pthread_t first;
static int is_done;                            /* what `finisher` says */
static int goes_on, has_released, is_last = 1; /* of `worker`, and whether nothing comes before its join */

static int is(const char *name) { return strcmp(way, name) == 0; }

static int is_joined, comes_to_wait;
static char number_of_finisher[16], folder_of_finisher[48]; /* the system's */

static int is_joiner_first(void) { return is("hangs") || is("made_hangs"); }

static void set(int *flag, int value) { __atomic_store_n(flag, value, __ATOMIC_SEQ_CST); }

static void await(int *flag) {
    while (!__atomic_load_n(flag, __ATOMIC_SEQ_CST))
        usleep(1000);
}

static void *worker(void *unused) {
    struct timespec until = in_milliseconds(CLOCK_REALTIME, 1000);
    if (is_joiner_first())
        await_asleep();
    if (is("briefly"))
        pthread_mutex_timedlock(taken, &until);
    else
        pthread_mutex_lock(taken);
    pthread_mutex_unlock(taken);
    set(&has_released, 1);
    if (is("asleep"))
        pause();
    await(&is_last);
    if (goes_on)
        await_asleep();
    return unused;
}

/* Waits until the first thread joins, however that waits. */
static void await_first_asleep(void) {
    unsigned long times = 0;
    char first_thread[16];
    snprintf(first_thread, sizeof first_thread, "%d", getpid());
    while (!__atomic_load_n(&is_last, __ATOMIC_SEQ_CST) || !asleep_till_woken(getpid(), first_thread, &times))
        sched_yield();
}

/* Whether the finisher goes on until it is waited for. */
static int ends_joined(void) { return !is("says") && !is("both") && !is("woken"); }

static void know_finisher(void) {
    snprintf(number_of_finisher, sizeof number_of_finisher, "%ld", (long)syscall(SYS_gettid));
    snprintf(folder_of_finisher, sizeof folder_of_finisher, "/proc/self/task/%s", number_of_finisher);
}

/* What a thread does that has said that it is done, when it is waited for. */
static void end_waited_for(void) {
    while (!__atomic_load_n(&is_joined, __ATOMIC_SEQ_CST))
        sched_yield();
    set(&comes_to_wait, 1);
    if (is("exits"))
        pthread_exit(NULL);
    if (is("posted"))
        sem_wait(&is_posted);
    else
        TAKE(&own);
    if (is("two"))
        TAKE(&second);
}

static void *finisher(void *unused) {
    know_finisher();
    if (is("works"))
        TAKE(&state);
    pthread_mutex_lock(&log_lock);
    is_done = 1;
    pthread_cond_signal(&has_said);
    pthread_mutex_unlock(&log_lock);
    if (ends_joined())
        end_waited_for();
    return unused;
}

/* Gives what the finisher waits for as soon as that waits. */
static void *giver(void *unused) {
    unsigned long times = 0;
    pthread_mutex_lock(&own);
    set(&has_released, 1);
    while (!__atomic_load_n(&comes_to_wait, __ATOMIC_SEQ_CST) || !asleep_till_woken(getpid(), number_of_finisher, &times))
        sched_yield();
    pthread_mutex_unlock(&own);
    sem_post(&is_posted);
    return unused;
}

THREAD(crosser, NEST(&own, &log_lock))

static void *idle(void *unused) { return unused; }

static void *waits_for_first(void *unused) {
    pthread_join(first, NULL);
    return unused;
}

static pthread_t started(void *(*run)(void *)) {
    pthread_t thread;
    pthread_create(&thread, NULL, run, NULL);
    if (goes_on)
        await(&has_released);
    else if (!is_joiner_first())
        await_asleep();
    return thread;
}

static void *waits_for_condition(void *unused) {
    TAKE(&state);
    pthread_mutex_lock(&log_lock);
    set(&has_released, 1);
    while (!is_done)
        pthread_cond_wait(&has_said, &log_lock);
    pthread_mutex_unlock(&log_lock);
    return unused;
}

/* Says that it is done as soon as the first thread joins. */
static void *waker(void *unused) {
    await_first_asleep();
    return finisher(unused);
}

static void join_woken(void) {
    pthread_t waits, wakes;
    set(&is_last, 0);
    pthread_create(&waits, NULL, waits_for_condition, NULL);
    await(&has_released);
    pthread_mutex_lock(&log_lock); /* it waits by now */
    pthread_mutex_unlock(&log_lock);
    pthread_create(&wakes, NULL, waker, NULL);
    pthread_mutex_lock(&state);
    set(&is_last, 1);
    pthread_join(waits, NULL);
    pthread_mutex_unlock(&state);
    pthread_join(wakes, NULL);
}

static void join_under(pthread_mutex_t *lock, pthread_t thread) {
    pthread_mutex_lock(lock);
    pthread_join(thread, NULL);
    pthread_mutex_unlock(lock);
}

/* Interrupts the joiner as it waits for the thread, and lets the thread go on: so the thread ends while it is waited for, on a busy machine too. */
static void stay(int unused) {
    (void)unused;
    set(&is_joined, 1);
    while (access(folder_of_finisher, F_OK) == 0)
        sched_yield();
}

static void stay_soon(void) {
    const struct itimerval soon = {.it_value = {.tv_usec = 500}};
    signal(SIGALRM, stay);
    setitimer(ITIMER_REAL, &soon, NULL);
}

static void join_finisher(void) {
    pthread_mutex_t *held = is("works") ? &state : &log_lock;
    pthread_t thread;
    pthread_mutex_lock(&log_lock); /* (before it starts, so that it is waited for what it says) */
    pthread_create(&thread, NULL, finisher, NULL);
    while (!is_done)
        pthread_cond_wait(&has_said, &log_lock);
    if (is("works")) {
        pthread_mutex_unlock(&log_lock);
        pthread_mutex_lock(&state);
    }
    if (ends_joined())
        stay_soon();
    pthread_join(thread, NULL);
    pthread_mutex_unlock(held);
}

static void join_given(void) {
    pthread_t gives;
    pthread_create(&gives, NULL, giver, NULL);
    await(&has_released);
    join_finisher();
    pthread_join(gives, NULL);
}

static void join_going_on(void) {
    goes_on = 1;
    set(&has_released, 0);
    join_under(taken, started(worker));
}

static void join_for_a_while(pthread_t thread) {
    struct timespec until = in_milliseconds(CLOCK_REALTIME, 1000);
    pthread_mutex_lock(&state);
    pthread_timedjoin_np(thread, NULL, is("timed") ? &until : NULL);
    pthread_mutex_unlock(&state);
}

static void join_many(void) {
    set(&is_last, 0);
    pthread_t last = started(worker);
    for (int i = 0; i < 39; i++) {
        pthread_t thread;
        pthread_create(&thread, NULL, idle, NULL);
        join_under(&state, thread);
    }
    set(&is_last, 1);
    join_under(&state, last);
}

int main(int argc, char **argv) {
    way = argc > 1 ? argv[1] : "held";
    if (is("made") || is("made_hangs")) {
        pthread_mutex_init(&made, NULL);
        taken = &made;
    }
    if (is_joiner_first() || is("asleep"))
        end_when_asleep();
    goes_on = is("passed") || is("no_time") || is("many");
    if (is("ended") || is("again") || is("briefly") || is("asleep") || is_joiner_first())
        join_under(taken, started(worker));
    if (is("woken"))
        join_woken();
    if (is("crosses"))
        in_thread(crosser, NULL);
    if (is("says") || is("exits") || is("both") || is("cleans") || is("crosses") || is("two") || is("works"))
        join_finisher();
    if (is("queues") || is("posted"))
        join_given();
    if (is("held") || is("made") || is("both") || is("again"))
        join_going_on();
    if (is("other"))
        join_under(&log_lock, started(worker));
    if (is("none") || is("early")) {
        TAKE(&log_lock);
        pthread_join(started(worker), NULL);
    }
    if (is("idle"))
        join_under(&state, started(idle));
    if (is("passed")) {
        first = started(worker);
        join_under(&state, started(waits_for_first));
    }
    if (is("timed") || is("no_time"))
        join_for_a_while(started(worker));
    if (is("detached")) {
        pthread_mutex_lock(&log_lock);
        pthread_detach(started(worker));
        pthread_mutex_unlock(&log_lock);
    }
    if (is("many"))
        join_many();
}
