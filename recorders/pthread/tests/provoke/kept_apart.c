/* Two mutexes in both orders, which can't stand still: under a third one; with `in-turn` by threads that run one after the other; with
   `classes` others of the same two classes; with `timed` by a wait that gives up. */
#include "pairs.h"

#include <stdbool.h>
#include <stdio.h>
#include <stdlib.h>
#include <string.h>
#include <time.h>

struct outer {
    pthread_mutex_t lock;
};

struct inner {
    pthread_mutex_t lock;
};

static pthread_mutex_t gate = PTHREAD_MUTEX_INITIALIZER;
static struct outer *outers[2];
static struct inner *inners[2];
static int other; /* the place of the second thread's locks */
static bool is_gated, is_timed;

static void in_order(void) {
    pthread_mutex_lock(&outers[0]->lock);
    pthread_mutex_lock(&inners[0]->lock);
    pthread_mutex_unlock(&inners[0]->lock);
    pthread_mutex_unlock(&outers[0]->lock);
}

static void the_other_way(void) {
    struct timespec now;
    clock_gettime(CLOCK_REALTIME, &now);
    pthread_mutex_lock(&inners[other]->lock);
    if (!is_timed)
        pthread_mutex_lock(&outers[other]->lock);
    if (!is_timed || pthread_mutex_timedlock(&outers[other]->lock, &now) == 0)
        pthread_mutex_unlock(&outers[other]->lock);
    pthread_mutex_unlock(&inners[other]->lock);
}

static void gated(void (*orders)(void)) {
    if (is_gated)
        pthread_mutex_lock(&gate);
    orders();
    if (is_gated)
        pthread_mutex_unlock(&gate);
}

static void first(void) { gated(in_order); }
static void second(void) { gated(the_other_way); }

static void *only_first(void *with) {
    for (int i = 0; i < ROUNDS; i++)
        first();
    return with;
}

static void *only_second(void *with) {
    for (int i = 0; i < ROUNDS; i++)
        second();
    return with;
}

static void run_in_turn(void *(*runs)(void *with)) {
    pthread_t thread;
    pthread_create(&thread, NULL, runs, NULL);
    pthread_join(thread, NULL);
}

int main(int count, char **words) {
    const char *way = count > 1 ? words[1] : "";
    for (int i = 0; i < 2; i++) {
        outers[i] = malloc(sizeof *outers[i]);
        inners[i] = malloc(sizeof *inners[i]);
        pthread_mutex_init(&outers[i]->lock, NULL);
        pthread_mutex_init(&inners[i]->lock, NULL);
    }
    is_gated = count == 1;
    is_timed = strcmp(way, "timed") == 0;
    other = strcmp(way, "classes") == 0;
    if (strcmp(way, "in-turn") == 0) {
        run_in_turn(only_first);
        run_in_turn(only_second);
    } else {
        run_both();
    }
    puts("done");
    return 0;
}
