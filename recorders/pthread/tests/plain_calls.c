/* In a program with many stacks, a call that gives out pieces without locks: a lock in a later one is known by the innermost callers. From
   then on the call has locks, and those in further pieces are known by all its callers. */
#include "common.h"

#define STACKS 5000
#define PIECES 200
#define SIZES 7 /* so that a piece isn't where the one before it was */

static pthread_mutex_t inner = PTHREAD_MUTEX_INITIALIZER;
static volatile int deeper;

static APART void *p(size_t more) { return malloc(sizeof(pthread_mutex_t) + more); }

#define CALLS(name, next)                     \
    static APART void *name(size_t more) {    \
        void *made = next(more);              \
        deeper++;                             \
        return made;                          \
    }
CALLS(q, p)
CALLS(r, q)
CALLS(s, r)
CALLS(t, s)

static APART void from_stacks(int depth) {
    if (depth)
        from_stacks(depth - 1);
    free(malloc(sizeof(pthread_mutex_t)));
    deeper++;
}

static APART void lock_around(pthread_mutex_t *mutex) {
    *mutex = (pthread_mutex_t)PTHREAD_MUTEX_INITIALIZER;
    pthread_mutex_lock(mutex);
    TAKE(&inner);
    pthread_mutex_unlock(mutex);
}

int main(void) {
    from_stacks(STACKS);
    for (size_t i = 0; i < PIECES; i++)
        free(t(i % SIZES * 16));
    void *first = t(0);
    lock_around(first);
    void *second = t(0);
    lock_around(second);
    free(second);
    free(first);
    return 0;
}
