/* A call of malloc that is made from ever new stacks, as in a program that interprets another one: first 64 pieces without room for a mutex,
   then 2,000 with room. Behind the first ones come a spin lock and a mutex, and behind all of them another mutex, in each of which one more
   lock is nested. */
#include <pthread.h>
#include <stdlib.h>

#define DEPTH 11
#define TINY_STACKS 64
#define STACKS 2000

static pthread_mutex_t inner = PTHREAD_MUTEX_INITIALIZER;
static volatile int depth_left;
static size_t bytes;
typedef void *step(unsigned choices, int left);
static step *const steps[4];

static __attribute__((noinline)) void *piece(void) { return malloc(bytes); }

#define STEP(name)                                                                              \
    static __attribute__((noinline)) void *name(unsigned choices, int left) {                   \
        void *made = left ? steps[choices & 3](choices >> 2, left - 1) : piece();                 \
        depth_left = left;                                                                      \
        return made;                                                                            \
    }
STEP(add)
STEP(call)
STEP(index_of)
STEP(list)
static step *const steps[4] = {add, call, index_of, list};

/* Only the outermost choices differ: the innermost callers are the same. */
static void *after_stacks(unsigned from, unsigned count, size_t size) {
    bytes = size;
    for (unsigned i = from; i < from + count; i++)
        free(add(i, DEPTH));
    return add(from + count, DEPTH);
}

static void take_inner(void) {
    pthread_mutex_lock(&inner);
    pthread_mutex_unlock(&inner);
}

static void spin_around(pthread_spinlock_t *lock) {
    *lock = 1; /* as pthread_spin_init leaves it */
    pthread_spin_lock(lock);
    take_inner();
    pthread_spin_unlock(lock);
}

static void lock_around(pthread_mutex_t *lock) {
    *lock = (pthread_mutex_t)PTHREAD_MUTEX_INITIALIZER;
    pthread_mutex_lock(lock);
    take_inner();
    pthread_mutex_unlock(lock);
}

int main(void) {
    spin_around(after_stacks(0, TINY_STACKS, sizeof(pthread_spinlock_t)));
    lock_around(after_stacks(TINY_STACKS + 1, 0, sizeof(pthread_mutex_t)));
    lock_around(after_stacks(TINY_STACKS + 2, STACKS, sizeof(pthread_mutex_t)));
    return 0;
}
