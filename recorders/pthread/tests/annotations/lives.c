/* How long what is said of a lock holds: each part takes one lock. */
#include <lockdep.h>
#include <pthread.h>
#include <stdlib.h>

static pthread_mutex_t initialised = PTHREAD_MUTEX_INITIALIZER, destroyed;
static pthread_mutex_t early = PTHREAD_MUTEX_INITIALIZER;

static void take(pthread_mutex_t *lock) {
    pthread_mutex_lock(lock);
    pthread_mutex_unlock(lock);
}

/* Before the recorder's own start, or after it. */
__attribute__((constructor(101))) static void at_start(void) { LOCKDEP_CLASS(&early, "early"); }

/* Twice the same memory, and only the first lock has a name. */
__attribute__((noinline)) static pthread_mutex_t *new_lock(void) {
    pthread_mutex_t *lock = calloc(1, sizeof *lock);
    return lock;
}

__attribute__((noinline)) static void with_name(void) {
    pthread_mutex_t lock = PTHREAD_MUTEX_INITIALIZER;
    LOCKDEP_CLASS(&lock, "named-in-frame");
    take(&lock);
}

__attribute__((noinline)) static void without_name(void) {
    pthread_mutex_t lock = PTHREAD_MUTEX_INITIALIZER;
    take(&lock);
}

int main(void) {
    take(&early);
    LOCKDEP_CLASS(&initialised, "initialised");
    pthread_mutex_init(&initialised, NULL);
    take(&initialised);
    LOCKDEP_CLASS(&destroyed, "destroyed");
    pthread_mutex_destroy(&destroyed);
    pthread_mutex_init(&destroyed, NULL);
    take(&destroyed);
    pthread_mutex_t *first = new_lock();
    LOCKDEP_CLASS(first, "freed");
    take(first);
    free(first);
    take(new_lock());
    with_name();
    without_name();
    return 0;
}
