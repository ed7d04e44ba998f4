/* Two mutexes of C11 in both orders. */
#include "turns.h"

#include <threads.h>

static mtx_t a, b;

static int first(void *with) {
    for (int i = 0; i < ROUNDS; i++) {
        await_turn(2 * i, 2);
        mtx_lock(&a);
        mtx_lock(&b);
        mtx_unlock(&b);
        mtx_unlock(&a);
        end_turn(2 * i);
    }
    return with != NULL;
}

static int second(void *with) {
    for (int i = 0; i < ROUNDS; i++) {
        await_turn(2 * i + 1, 2);
        mtx_lock(&b);
        mtx_lock(&a);
        mtx_unlock(&a);
        mtx_unlock(&b);
        end_turn(2 * i + 1);
    }
    return with != NULL;
}

int main(void) {
    thrd_t one, two;
    mtx_init(&a, mtx_plain);
    mtx_init(&b, mtx_plain);
    thrd_create(&one, first, NULL);
    thrd_create(&two, second, NULL);
    thrd_join(one, NULL);
    thrd_join(two, NULL);
    return 0;
}
