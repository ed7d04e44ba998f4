/* Programs that are possible by their locks and stand still never, each by its name: what keeps their threads apart isn't recorded, or is data. */
#include "rows.h"

#include <stdatomic.h>

#define PATIENCE 100 /* looks, a millisecond each; none is the last one in the recorded run */

static bool is_recorded(void) { return !getenv("LOCKDEP_PROVOKE_PLAN"); }

/* ---- An atomic variable, for which a thread waits for a time. */

static atomic_bool is_done;

static void *takes_ab_first(void *with) {
    take(&a, &b);
    is_done = true;
    return with;
}

static void *takes_ba_if_done(void *with) {
    for (int i = 0; (i < PATIENCE || is_recorded()) && !is_done; i++)
        usleep(1000);
    if (is_done)
        take(&b, &a);
    return with;
}

static void flag(void) { RUN(takes_ab_first, takes_ba_if_done); }

/* ---- What is looked at under a lock of the cycle itself. */

static bool is_set;

IN_TURN(sets, 0, 2, pthread_mutex_lock(&a); pthread_mutex_lock(&b); is_set = true; pthread_mutex_unlock(&b); pthread_mutex_unlock(&a))
IN_TURN(takes_a_if_set, 1, 2, pthread_mutex_lock(&b); if (is_set) pthread_mutex_lock(&a), pthread_mutex_unlock(&a); pthread_mutex_unlock(&b))

static void state(void) { RUN(sets, takes_a_if_set); }

/* ---- The same under another lock, which in the runs of `provoke` the first thread takes only when the second one waits for it no longer. */

static atomic_bool has_looked;
static pthread_mutex_t gate = PTHREAD_MUTEX_INITIALIZER;

static bool is_set_now(bool sets) {
    pthread_mutex_lock(&gate);
    is_set |= sets;
    bool is_so = is_set;
    pthread_mutex_unlock(&gate);
    return is_so;
}

IN_TURN(sets_late, 0, 2, while (!is_recorded() && !has_looked) usleep(1000); is_set_now(true); take(&a, &b))
IN_TURN(takes_ba_if_set, 1, 2, if (is_set_now(false)) take(&b, &a); has_looked = true)

static void slow(void) { RUN(sets_late, takes_ba_if_set); }

/* ---- A pipe. */

static int ends[2];

static void *takes_ab_and_writes(void *with) {
    take(&a, &b);
    return write(ends[1], "", 1) == 1 ? with : NULL;
}

static void *reads_and_takes_ba(void *with) {
    char byte;
    if (read(ends[0], &byte, 1) == 1)
        take(&b, &a);
    return with;
}

static void pipe_between(void) {
    if (pipe(ends) == 0)
        RUN(takes_ab_and_writes, reads_and_takes_ba);
}

/* ---- A thread is joined when it has said that it is done. */

static void *says_that_it_is_done(void *with) {
    pthread_mutex_lock(&a);
    is_set = true;
    pthread_mutex_unlock(&a);
    return with;
}

static void joined(void) {
    pthread_t thread;
    bool is_over = false;
    pthread_create(&thread, NULL, says_that_it_is_done, NULL);
    while (!is_over) {
        pthread_mutex_lock(&a);
        is_over = is_set && pthread_join(thread, NULL) == 0;
        pthread_mutex_unlock(&a);
    }
}

int main(int count, char **words) {
    static const struct row rows[] = {{"flag", flag}, {"state", state}, {"slow", slow}, {"pipe", pipe_between}, {"joined", joined}};
    return run_row(rows, sizeof rows / sizeof *rows, count > 1 ? words[1] : "");
}
