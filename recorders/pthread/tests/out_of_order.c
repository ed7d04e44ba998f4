/* Locks released out of order, and two of one class of which the older is released first. */
#include "common.h"
static pthread_mutex_t a = PTHREAD_MUTEX_INITIALIZER, b = PTHREAD_MUTEX_INITIALIZER, c = PTHREAD_MUTEX_INITIALIZER;
static pthread_rwlock_t two[2];
static APART void init_all(int count) {
    for (int i = 0; i < count; i++)
        pthread_rwlock_init(&two[i], NULL);
}

int main(int argc, char **argv) {
    pthread_mutex_lock(&a);
    pthread_mutex_lock(&b);
    pthread_mutex_unlock(&a);
    pthread_mutex_lock(&c);
    pthread_mutex_unlock(&b);
    pthread_mutex_unlock(&c);
    init_all(1 + argc);
    pthread_rwlock_wrlock(&two[0]);
    pthread_rwlock_rdlock(&two[1]);
    pthread_rwlock_unlock(&two[0]);
    TAKE(&a);
    pthread_rwlock_unlock(&two[1]);
    (void)argv;
}
