/* A call that gives out plenty of pieces without room for a mutex: a lock in a later one, and in a longer piece, is known by all its callers. */
#include "common.h"

#define DEPTH 10
#define PIECES 1000

static pthread_mutex_t inner = PTHREAD_MUTEX_INITIALIZER;
static volatile int deeper;

static APART void *p(size_t size) { return malloc(size); }

#define CALLS(name, next)                     \
    static APART void *name(size_t size) {    \
        void *made = next(size);              \
        deeper++;                             \
        return made;                          \
    }
CALLS(q, p)
CALLS(r, q)
CALLS(s, r)
CALLS(t, s)

/* From many stacks, as in a program of some size. */
static APART void plenty(int depth) {
    if (depth)
        plenty(depth - 1);
    for (int i = 0; i < PIECES; i++)
        free(t(sizeof(pthread_spinlock_t)));
    deeper++;
}

static void take_inner(void) { TAKE(&inner); }

static APART void spin_around(pthread_spinlock_t *lock) {
    *lock = 1; /* as pthread_spin_init leaves it */
    pthread_spin_lock(lock);
    take_inner();
    pthread_spin_unlock(lock);
}

int main(void) {
    void *pieces[3];
    plenty(DEPTH);
    for (int i = 0; i < 3; i++)
        pieces[i] = t(i < 2 ? sizeof(pthread_spinlock_t) : sizeof(pthread_mutex_t));
    spin_around(pieces[0]);
    free(pieces[1]);
    pieces[1] = t(sizeof(pthread_spinlock_t));
    spin_around(pieces[1]);
    pthread_mutex_t *mutex = pieces[2];
    *mutex = (pthread_mutex_t)PTHREAD_MUTEX_INITIALIZER;
    pthread_mutex_lock(mutex);
    take_inner();
    pthread_mutex_unlock(mutex);
    for (int i = 0; i < 3; i++)
        free(pieces[i]);
    return 0;
}
