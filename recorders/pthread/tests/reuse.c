/* Memory that is freed with a lock in it and becomes another object is no lock any more; nor is a frame that another function has. */
#include "common.h"
#include <stdint.h>
static pthread_mutex_t outer = PTHREAD_MUTEX_INITIALIZER;
static uintptr_t first_piece, first_local;

struct account {
    long balance;
    pthread_mutex_t lock;
};

static inline __attribute__((always_inline)) struct account *make(void) {
    struct account *a = malloc(sizeof *a);
    return a ? memset(a, 0, sizeof *a) : NULL;
}

static APART struct account *new_account(void) { return make(); }
static APART struct account *new_journal(void) { return make(); }

static APART void take_first(struct account *a) { NEST(&outer, &a->lock); }

static APART void take_last(struct account *a) { NEST(&a->lock, &outer); }

static APART void local_first(int depth) {
    struct account local = {depth, PTHREAD_MUTEX_INITIALIZER};
    first_local = (uintptr_t)&local;
    take_first(&local);
}

static APART void local_last(int depth) {
    struct account local = {depth, PTHREAD_MUTEX_INITIALIZER};
    if ((uintptr_t)&local == first_local)
        puts("the same frame");
    take_last(&local);
}

int main(void) {
    struct account *a = new_account();
    first_piece = (uintptr_t)a;
    take_first(a);
    free(a);
    a = new_journal();
    if ((uintptr_t)a == first_piece)
        puts("the same memory");
    take_last(a);
    free(a);
    local_first(1);
    local_last(2);
}
