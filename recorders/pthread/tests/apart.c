/* Two threads that take two locks in opposite orders, one after the other, in ways that differ by what keeps them apart:
     in_turn       the first is joined before the second is started
     together      both are there at once
     detached      the first isn't joined: it ends before the second is started, but only time says so
     by_other      another thread joins the first, and is joined itself
     unjoined      another thread joins the first, and isn't joined before the second is started
     by_child      the second is started by a thread that was started after the first was joined
     by_parent     the first starts the second, and goes on
     by_middle     the first is started and joined by a thread that is joined
     tried         the first is joined by tries
     timed         the first is joined by a wait that could give up
     c11           as in_turn, by threads of C11
     alive         while the first is alive, others are started and joined, whose numbers the second gets
     reused        the first is joined, and then others are started and joined
     after_thread  a detached thread had the number of the first
     main_thread   the first is the thread that the program began with
     alike         another thread does the same as the first, and isn't joined before the second is started
     alike_joined  the same, and it is joined before
     many          so many threads do the same as the first that only two have traces
     forked        a child starts the second, after the first was joined
     in_child      as in_turn, in a child that was forked before
     three         a cycle of three, of which the second is started after the first was joined */
#include "common.h"

#include <sched.h>
#include <stdatomic.h>

static pthread_mutex_t a = PTHREAD_MUTEX_INITIALIZER, b = PTHREAD_MUTEX_INITIALIZER, c = PTHREAD_MUTEX_INITIALIZER;
static pthread_t first;
static atomic_int is_started, is_done, may_end, is_joined;

static void await(atomic_int *state) {
    while (!*state)
        sched_yield();
}

static void *take_ab(void *unused) {
    NEST(&a, &b);
    is_done = 1;
    return unused;
}

static void *take_ab_and_stay(void *unused) {
    take_ab(unused);
    await(&may_end);
    return unused;
}

static void *take_ab_when_started(void *unused) {
    await(&is_started);
    return take_ab(unused);
}

THREAD(take_ba, NEST(&b, &a))
THREAD(take_bc, NEST(&b, &c))

static void *take_ca(void *unused) {
    NEST(&c, &a);
    is_done = 1;
    await(&may_end);
    return unused;
}

static void *do_nothing(void *unused) { return unused; }

static pthread_t started(void *(*run)(void *)) {
    pthread_t thread;
    pthread_create(&thread, NULL, run, NULL);
    return thread;
}

static void run_in_turn(void *(*run)(void *)) { pthread_join(started(run), NULL); }

static void start_detached(void *(*run)(void *)) { pthread_detach(started(run)); }

static void *join_first(void *unused) {
    pthread_join(first, NULL);
    is_joined = 1;
    await(&may_end);
    return unused;
}

THREAD(start_second, run_in_turn(take_ba))
THREAD(start_first, run_in_turn(take_ab))

static void *take_ab_and_start_second(void *unused) {
    take_ab(unused);
    return start_second(unused);
}

static int in_c11(void *run) {
    (*(void *(**)(void *))run)(NULL);
    return 0;
}

static void run_in_c11(void *(*run)(void *)) {
    thrd_t thread;
    thrd_create(&thread, in_c11, &run);
    thrd_join(thread, NULL);
}

/* Of those that end the system gives the last one's number to the next. */
static void run_others(void) {
    for (int i = 0; i < 3; i++)
        run_in_turn(do_nothing);
}

static void in_child(void (*run)(void)) {
    pid_t child = fork();
    if (child == 0) {
        run();
        exit(0);
    }
    waitpid(child, NULL, 0);
}

static void run_second(void) { run_in_turn(take_ba); }

static void run_both(void) {
    run_in_turn(take_ab);
    run_in_turn(take_ba);
}

/* ---- The ways. */

static void together(void) {
    first = started(take_ab_and_stay);
    await(&is_done);
    pthread_t second = started(take_ba);
    pthread_join(second, NULL);
    may_end = 1;
    pthread_join(first, NULL);
}

static void detached(void) {
    start_detached(take_ab);
    await(&is_done);
    run_second();
}

static void by_other(void) {
    first = started(take_ab);
    may_end = 1;
    run_in_turn(join_first);
    run_second();
}

static void unjoined(void) {
    first = started(take_ab);
    pthread_t other = started(join_first);
    await(&is_joined);
    run_second();
    may_end = 1;
    pthread_join(other, NULL);
}

static void by_child(void) {
    run_in_turn(take_ab);
    run_in_turn(start_second);
}

static void by_parent(void) { run_in_turn(take_ab_and_start_second); }

static void by_middle(void) {
    run_in_turn(start_first);
    run_second();
}

static void tried(void) {
    first = started(take_ab);
    while (pthread_tryjoin_np(first, NULL) != 0)
        sched_yield();
    run_second();
}

static void timed(void) {
    struct timespec until = in_milliseconds(CLOCK_REALTIME, 100000);
    pthread_timedjoin_np(started(take_ab), NULL, &until);
    run_second();
}

static void c11(void) {
    run_in_c11(take_ab);
    run_in_c11(take_ba);
}

static void alive(void) {
    first = started(take_ab_and_stay);
    await(&is_done);
    run_others();
    run_second();
    may_end = 1;
    pthread_join(first, NULL);
}

static void reused(void) {
    run_in_turn(take_ab);
    run_others();
    run_second();
}

static void after_thread(void) {
    start_detached(do_nothing);
    first = started(take_ab_when_started);
    is_started = 1;
    pthread_join(first, NULL);
    run_second();
}

static void main_thread(void) {
    take_ab(NULL);
    run_second();
}

static void alike(void) {
    run_in_turn(take_ab);
    is_done = 0;
    together();
}

static void alike_joined(void) {
    run_in_turn(take_ab);
    run_both();
}

static void many(void) {
    for (int i = 0; i < 4200; i++)
        run_in_turn(take_ab);
    run_second();
}

static void forked(void) {
    run_in_turn(take_ab);
    in_child(run_second);
}

static void whole_in_child(void) { in_child(run_both); }

static void three(void) {
    first = started(take_ca);
    await(&is_done);
    run_in_turn(take_ab);
    run_in_turn(take_bc);
    may_end = 1;
    pthread_join(first, NULL);
}

int main(int argc, char **argv) {
    static const struct {
        const char *name;
        void (*run)(void);
    } ways[] = {{"in_turn", run_both},   {"together", together}, {"detached", detached},         {"by_other", by_other},
                {"unjoined", unjoined},  {"by_child", by_child}, {"by_parent", by_parent},       {"by_middle", by_middle},
                {"tried", tried},        {"timed", timed},       {"c11", c11},                   {"alive", alive},
                {"reused", reused},      {"after_thread", after_thread}, {"main_thread", main_thread}, {"alike", alike},
                {"alike_joined", alike_joined}, {"many", many},  {"forked", forked},             {"in_child", whole_in_child},
                {"three", three}};
    for (size_t i = 0; i < sizeof ways / sizeof *ways; i++)
        if (argc > 1 && strcmp(argv[1], ways[i].name) == 0)
            ways[i].run();
}
