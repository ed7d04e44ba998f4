/* Two threads that do something in turn. */
#include "turns.h"

#include <pthread.h>

static void first(void);
static void second(void);

static void *in_first(void *with) {
    for (int i = 0; i < ROUNDS; i++) {
        await_turn(2 * i, 2);
        first();
        end_turn(2 * i);
    }
    return with;
}

static void *in_second(void *with) {
    for (int i = 0; i < ROUNDS; i++) {
        await_turn(2 * i + 1, 2);
        second();
        end_turn(2 * i + 1);
    }
    return with;
}

static void run_both(void) {
    pthread_t one, two;
    pthread_create(&one, NULL, in_first, NULL);
    pthread_create(&two, NULL, in_second, NULL);
    pthread_join(one, NULL);
    pthread_join(two, NULL);
}
