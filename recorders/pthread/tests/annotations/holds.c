/* Subclasses across waits and forks, a lock that is ignored, and assertions. */
#include <lockdep.h>
#include <pthread.h>
#include <sys/wait.h>
#include <time.h>
#include <unistd.h>

static pthread_mutex_t parent = PTHREAD_MUTEX_INITIALIZER, child = PTHREAD_MUTEX_INITIALIZER;
static pthread_mutex_t ignored = PTHREAD_MUTEX_INITIALIZER, asserted = PTHREAD_MUTEX_INITIALIZER;
static pthread_rwlock_t readers = PTHREAD_RWLOCK_INITIALIZER;
static pthread_cond_t condition = PTHREAD_COND_INITIALIZER;

/* The child is of the same subclass after the wait. */
static void wait_nested(void) {
    struct timespec past = {0, 0};
    LOCKDEP_CLASS(&parent, "node");
    LOCKDEP_CLASS(&child, "node");
    pthread_mutex_lock(&parent);
    LOCKDEP_NESTED(&child, 1);
    pthread_mutex_lock(&child);
    pthread_cond_timedwait(&condition, &child, &past);
    pthread_mutex_unlock(&child);
    pthread_mutex_unlock(&parent);
}

/* A recursive lock that is held already isn't taken, and when it is taken later that isn't nested. */
static void recur(void) {
    pthread_mutexattr_t how;
    pthread_mutex_t recursive;
    pthread_mutexattr_init(&how);
    pthread_mutexattr_settype(&how, PTHREAD_MUTEX_RECURSIVE);
    pthread_mutex_init(&recursive, &how);
    LOCKDEP_CLASS(&recursive, "recursive");
    pthread_mutex_lock(&recursive);
    LOCKDEP_NESTED(&recursive, 2);
    pthread_mutex_lock(&recursive);
    pthread_mutex_unlock(&recursive);
    pthread_mutex_unlock(&recursive);
    pthread_mutex_lock(&recursive);
    pthread_mutex_unlock(&recursive);
}

/* Another thread releases it, which ends nobody's hold. */
static void *release(void *lock) {
    pthread_mutex_unlock(lock);
    return NULL;
}

static void ignore(void) {
    pthread_t thread;
    LOCKDEP_IGNORE(&ignored, "of two words");
    LOCKDEP_CLASS(&ignored, "name-of-ignored");
    for (int i = 0; i < 3; i++) {
        pthread_mutex_lock(&ignored);
        LOCKDEP_ASSERT_HELD(&ignored);
        if (pthread_create(&thread, NULL, release, &ignored) == 0)
            pthread_join(thread, NULL);
    }
    if (pthread_mutex_trylock(&ignored) == 0 && pthread_mutex_trylock(&ignored) != 0)
        pthread_mutex_unlock(&ignored);
}

__attribute__((noinline)) static void assert_one(pthread_mutex_t *lock) { LOCKDEP_ASSERT_HELD(lock); }

static void assert_all(void) {
    pthread_rwlock_rdlock(&readers);
    pthread_mutex_lock(&asserted);
    LOCKDEP_ASSERT_HELD(&readers);
    LOCKDEP_ASSERT_HELD(&asserted);
    pthread_mutex_unlock(&asserted);
    for (int i = 0; i < 2; i++)
        assert_one(&asserted);
    pthread_rwlock_unlock(&readers);
}

int main(void) {
    wait_nested();
    ignore();
    assert_all();
    recur();
    pid_t forked = fork();
    if (forked == 0) {
        LOCKDEP_CLASS(&asserted, "of-the-child");
        pthread_mutex_lock(&asserted);
        pthread_mutex_unlock(&asserted);
        _exit(0);
    }
    waitpid(forked, NULL, 0);
    pthread_mutex_lock(&asserted);
    pthread_mutex_unlock(&asserted);
    return 0;
}
