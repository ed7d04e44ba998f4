/* Programs that take two mutexes both ways and stand still never, each by its name: what threads tell one another keeps them apart, or how a lock is
   chosen. */
#include "rows.h"

#include <semaphore.h>

static void *nothing(void *with) { return with; }

/* ---- A semaphore, a barrier, a condition. */

static sem_t posted;

static void *takes_ab_and_posts(void *with) {
    take(&a, &b);
    sem_post(&posted);
    return with;
}

static void *awaits_and_takes_ba(void *with) {
    sem_wait(&posted);
    take(&b, &a);
    return with;
}

static void semaphore(void) {
    sem_init(&posted, 0, 0);
    RUN(awaits_and_takes_ba, takes_ab_and_posts);
}

static pthread_barrier_t meeting;

static void *takes_ab_and_meets(void *with) {
    take(&a, &b);
    pthread_barrier_wait(&meeting);
    return with;
}

static void *meets_and_takes_ba(void *with) {
    pthread_barrier_wait(&meeting);
    take(&b, &a);
    return with;
}

static void barrier(void) {
    pthread_barrier_init(&meeting, NULL, 2);
    RUN(takes_ab_and_meets, meets_and_takes_ba);
}

static pthread_mutex_t gate = PTHREAD_MUTEX_INITIALIZER;
static pthread_cond_t condition = PTHREAD_COND_INITIALIZER;
static bool is_waiting, is_told;

static void *is_told_and_takes_ba(void *with) {
    pthread_mutex_lock(&gate);
    is_waiting = true;
    while (!is_told)
        pthread_cond_wait(&condition, &gate);
    pthread_mutex_unlock(&gate);
    take(&b, &a);
    return with;
}

/* Tells it only when it waits. */
static void *takes_ab_and_tells(void *with) {
    take(&a, &b);
    while (!is_told) {
        pthread_mutex_lock(&gate);
        is_told = is_waiting;
        pthread_cond_signal(&condition);
        pthread_mutex_unlock(&gate);
        usleep(1000);
    }
    return with;
}

static void told(void) { RUN(is_told_and_takes_ba, takes_ab_and_tells); }

/* ---- Starts and joins. */

static void *takes_ba(void *with) {
    take(&b, &a);
    return with;
}

static void *takes_ab_and_starts(void *with) {
    take(&a, &b);
    RUN(takes_ba);
    return with;
}

static void started(void) { RUN(takes_ab_and_starts, nothing); }

/* ---- The order of addresses. */

static pthread_mutex_t several[2];

static void take_by_address(pthread_mutex_t *one, pthread_mutex_t *other) { take(one < other ? one : other, one < other ? other : one); }

IN_TURN(moves_there, 0, 2, take_by_address(&several[0], &several[1]))
IN_TURN(moves_back, 1, 2, take_by_address(&several[1], &several[0]))

static void address(void) {
    for (int i = 0; i < 2; i++)
        pthread_mutex_init(&several[i], NULL);
    RUN(moves_there, moves_back);
}

int main(int count, char **words) {
    static const struct row rows[] = {{"semaphore", semaphore}, {"barrier", barrier}, {"told", told}, {"started", started}, {"address", address}};
    return run_row(rows, sizeof rows / sizeof *rows, count > 1 ? words[1] : "");
}
