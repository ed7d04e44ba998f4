/* Two locks that are taken in both orders, in ways that differ by whether the steps of that can be put into an order in which the threads stand still:
     crossed    two threads do so, and nothing that is recorded keeps them apart
     gate       the same, and a third lock is held each time
     counted_gate  the same, and that is a semaphore which was opened by its name
     one        one thread does so, and there is no other
     pool       the same, and another thread of the same function runs at that time
     in_turn    the same, and it is started when the first one was joined
     sections   the one thread goes through a third lock before, when the other one has done its part with that held
     semaphore, condition, barrier   the one thread waits in this way for the other one to have done its part
     counted    one of the locks is a semaphore, and one thread does so
     counted_crossed    the same, by two threads
     handed     as crossed, and one of the locks is taken by a thread and released by another one
     late       as crossed, when more steps were taken than a history of a megabyte has
     early      as crossed, and that many steps are taken later
   With a second word so many steps are taken before, whatever the way. */
#include "common.h"
#include <fcntl.h>
#include <sched.h>
#include <semaphore.h>
#include <stdatomic.h>

#define STEPS 200000

static pthread_mutex_t a = PTHREAD_MUTEX_INITIALIZER, b = PTHREAD_MUTEX_INITIALIZER, outer = PTHREAD_MUTEX_INITIALIZER;
static pthread_cond_t has_done = PTHREAD_COND_INITIALIZER;
static pthread_barrier_t both;
static sem_t posted, own_counted, *counted = &own_counted;
static const char *way;
static atomic_int is_done, waits, is_over;

static int is(const char *name) { return strcmp(way, name) == 0; }

static void await(atomic_int *flag) {
    while (!*flag)
        sched_yield();
}

static void take_steps(void) {
    for (int i = 0; i < STEPS; i++)
        TAKE(&outer);
}

/* ---- The two orders, each within what the way says. */

static APART void forward(void) { NEST(&a, &b); }
static APART void backward(void) { NEST(&b, &a); }

static APART void forward_counted(void) {
    pthread_mutex_lock(&a);
    sem_wait(counted);
    sem_post(counted);
    pthread_mutex_unlock(&a);
}

static APART void backward_counted(void) {
    sem_wait(counted);
    TAKE(&a);
    sem_post(counted);
}

static void under(void (*run)(void)) {
    if (is("gate"))
        pthread_mutex_lock(&outer);
    if (is("counted_gate"))
        sem_wait(counted);
    run();
    if (is("counted_gate"))
        sem_post(counted);
    if (is("gate"))
        pthread_mutex_unlock(&outer);
}

/* ---- Two threads, of which each goes on until both have done their part. */

static void tell(void) {
    if (is("semaphore"))
        sem_post(&posted);
    if (is("barrier"))
        pthread_barrier_wait(&both);
    if (is("condition")) {
        await(&waits);
        pthread_mutex_lock(&outer); /* when the other thread has given it back to wait */
        is_done = 1;
        pthread_cond_signal(&has_done);
        pthread_mutex_unlock(&outer);
    }
    is_done = 1;
}

static void be_told(void) {
    if (is("semaphore"))
        sem_wait(&posted);
    if (is("barrier"))
        pthread_barrier_wait(&both);
    if (is("condition")) {
        pthread_mutex_lock(&outer);
        waits = 1;
        while (!is_done)
            pthread_cond_wait(&has_done, &outer);
        pthread_mutex_unlock(&outer);
    }
    await(&is_done);
    if (is("sections"))
        TAKE(&outer);
}

static void *first(void *unused) {
    if (is("sections"))
        pthread_mutex_lock(&outer);
    under(is("counted_crossed") ? forward_counted : forward);
    if (is("sections"))
        pthread_mutex_unlock(&outer);
    tell();
    await(&is_over);
    return unused;
}

static void *second(void *unused) {
    be_told();
    under(is("counted_crossed") ? backward_counted : backward);
    is_over = 1;
    return unused;
}

static void run_two(void) {
    pthread_t one, other;
    pthread_create(&one, NULL, first, NULL);
    pthread_create(&other, NULL, second, NULL);
    pthread_join(one, NULL);
    pthread_join(other, NULL);
}

/* ---- One thread, and one like it. */

static void *worker(void *does) {
    if (does && is("counted"))
        forward_counted(), backward_counted();
    else if (does)
        forward(), backward();
    await(&is_over);
    return NULL;
}

static void run_workers(void) {
    pthread_t one, other;
    pthread_create(&one, NULL, worker, &a);
    if (is("pool"))
        pthread_create(&other, NULL, worker, NULL);
    is_over = 1;
    pthread_join(one, NULL);
    if (is("in_turn"))
        pthread_create(&other, NULL, worker, NULL);
    if (is("pool") || is("in_turn"))
        pthread_join(other, NULL);
}

/* ---- */

THREAD(takes, pthread_mutex_lock(&b))

static void hand_over(void) {
    in_thread(takes, NULL);
    pthread_mutex_unlock(&b);
}

static void open_counted(void) {
    char name[32];
    snprintf(name, sizeof name, "/lockdep-stands.%d", (int)getpid());
    counted = sem_open(name, O_CREAT | O_EXCL, 0600, 1);
    sem_unlink(name);
    if (counted == SEM_FAILED)
        abort();
}

static APART void make_counted(void) { sem_init(counted, 0, 1); }

int main(int argc, char **argv) {
    way = argc > 1 ? argv[1] : "crossed";
    sem_init(&posted, 0, 0);
    pthread_barrier_init(&both, NULL, 2);
    if (is("counted") || is("counted_crossed"))
        make_counted();
    if (is("counted_gate"))
        open_counted();
    if (is("handed"))
        hand_over();
    if (is("late") || argc > 2)
        take_steps();
    if (is("one") || is("pool") || is("in_turn") || is("counted"))
        run_workers();
    else
        run_two();
    if (is("early"))
        take_steps();
}
