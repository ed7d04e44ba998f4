/* Locks that are taken with success while their last hold wasn't seen to end, since they were assigned: they are held once. Recursive ones
   that are taken again are held on. */
#include "common.h"
static pthread_mutex_t a = PTHREAD_MUTEX_INITIALIZER, plain = PTHREAD_MUTEX_INITIALIZER, tried = PTHREAD_MUTEX_INITIALIZER,
                       recursive = PTHREAD_RECURSIVE_MUTEX_INITIALIZER_NP;
static pthread_rwlock_t written = PTHREAD_RWLOCK_INITIALIZER, read_later = PTHREAD_RWLOCK_INITIALIZER,
                        read_twice = PTHREAD_RWLOCK_INITIALIZER;

static APART void take_a(void) { TAKE(&a); }

static APART void mutexes(void) {
    pthread_mutex_lock(&plain);
    plain = (pthread_mutex_t)PTHREAD_MUTEX_INITIALIZER;
    pthread_mutex_lock(&plain);
    take_a();
    pthread_mutex_unlock(&plain);
    take_a();
    pthread_mutex_lock(&tried);
    tried = (pthread_mutex_t)PTHREAD_MUTEX_INITIALIZER;
    pthread_mutex_trylock(&tried);
    pthread_mutex_unlock(&tried);
    take_a();
}

static APART void recursive_ones(void) {
    pthread_mutex_lock(&recursive);
    pthread_mutex_lock(&recursive);
    pthread_mutex_trylock(&recursive);
    pthread_mutex_unlock(&recursive);
    pthread_mutex_unlock(&recursive);
    take_a();
    recursive = (pthread_mutex_t)PTHREAD_RECURSIVE_MUTEX_INITIALIZER_NP;
    TAKE(&recursive);
    take_a();
}

static APART void rwlocks(void) {
    pthread_rwlock_wrlock(&written);
    written = (pthread_rwlock_t)PTHREAD_RWLOCK_INITIALIZER;
    pthread_rwlock_wrlock(&written);
    pthread_rwlock_unlock(&written);
    take_a();
    pthread_rwlock_wrlock(&read_later);
    read_later = (pthread_rwlock_t)PTHREAD_RWLOCK_INITIALIZER;
    pthread_rwlock_rdlock(&read_later);
    pthread_rwlock_unlock(&read_later);
    take_a();
    pthread_rwlock_rdlock(&read_twice);
    pthread_rwlock_rdlock(&read_twice);
    pthread_rwlock_unlock(&read_twice);
    take_a();
    pthread_rwlock_unlock(&read_twice);
    take_a();
}

int main(void) {
    mutexes();
    recursive_ones();
    rwlocks();
}
