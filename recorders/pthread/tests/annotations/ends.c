/* What is said of a lock's order and of its next acquisition ends with the lock. The first word says what was said of it, and the second how it
   ends: another lock comes to lie there, which has the same name and nothing else. With a third word another thread ends it. */
#include <lockdep.h>
#include <pthread.h>
#include <stdlib.h>
#include <string.h>

static pthread_mutex_t pool[2];

static void make(pthread_mutex_t *lock) {
    pthread_mutex_init(lock, NULL);
    LOCKDEP_CLASS(lock, "pool");
}

static void take_two(pthread_mutex_t *first, pthread_mutex_t *second) {
    pthread_mutex_lock(first);
    pthread_mutex_lock(second);
    pthread_mutex_unlock(second);
    pthread_mutex_unlock(first);
}

static pthread_mutex_t *end(pthread_mutex_t *lock, const char *how) {
    if (strcmp(how, "destroyed") == 0)
        pthread_mutex_destroy(lock);
    else if (strcmp(how, "said") == 0)
        LOCKDEP_DESTROYED(lock, sizeof *lock);
    else if (strcmp(how, "freed") == 0) {
        free(lock);
        return malloc(sizeof *lock);
    }
    return lock;
}

struct ending {
    pthread_mutex_t *lock;
    const char *how;
};

static void *end_elsewhere(void *of) {
    struct ending *ending = of;
    ending->lock = end(ending->lock, ending->how);
    make(ending->lock);
    return NULL;
}

static pthread_mutex_t *ended_elsewhere(pthread_mutex_t *lock, const char *how) {
    struct ending ending = {lock, how};
    pthread_t thread;
    pthread_create(&thread, NULL, end_elsewhere, &ending);
    pthread_join(thread, NULL);
    return ending.lock;
}

int main(int count, char **words) {
    const char *what = count > 2 ? words[1] : "", *how = count > 2 ? words[2] : "";
    pthread_mutex_t *lock = strcmp(how, "freed") == 0 ? malloc(sizeof *lock) : &pool[0], *before = lock;
    make(lock);
    make(&pool[1]);
    LOCKDEP_ORDERED(&pool[1], 0);
    if (strcmp(what, "nested") == 0)
        LOCKDEP_NESTED(lock, 1);
    else
        LOCKDEP_ORDERED(lock, 1);
    lock = count > 3 ? ended_elsewhere(lock, how) : end(lock, how);
    if (count <= 3)
        make(lock);
    take_two(&pool[1], lock);
    return lock != before; /* else this is no test */
}
