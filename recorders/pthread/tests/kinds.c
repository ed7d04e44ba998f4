/* A recursive mutex is taken once, an error-checking one that refuses isn't taken, and one whose owner died is. */
#include "common.h"
static pthread_mutex_t recursive = PTHREAD_RECURSIVE_MUTEX_INITIALIZER_NP, checking = PTHREAD_ERRORCHECK_MUTEX_INITIALIZER_NP,
                       inner = PTHREAD_MUTEX_INITIALIZER;
static pthread_mutex_t robust;

static void *dies(void *unused) {
    pthread_mutex_lock(&robust);
    return unused;
}

static APART void init_robust(void) {
    pthread_mutexattr_t how;
    pthread_mutexattr_init(&how);
    pthread_mutexattr_setrobust(&how, PTHREAD_MUTEX_ROBUST);
    pthread_mutex_init(&robust, &how);
}

int main(void) {
    pthread_mutex_lock(&recursive);
    NEST(&recursive, &inner);
    pthread_mutex_unlock(&recursive);
    pthread_mutex_lock(&checking);
    if (pthread_mutex_lock(&checking) != EDEADLK)
        abort();
    pthread_mutex_unlock(&checking);
    init_robust();
    in_thread(dies, NULL);
    if (pthread_mutex_lock(&robust) != EOWNERDEAD)
        abort();
    pthread_mutex_consistent(&robust);
    pthread_mutex_unlock(&robust);
}
