/* Locks that are initialised or destroyed while they are held: the hold ends with the lock, and what is taken next is under nothing. A
   call that refuses to destroy ends nothing. */
#include "common.h"
static pthread_mutex_t a = PTHREAD_MUTEX_INITIALIZER, mutex, refused;
static pthread_rwlock_t rwlock, read_twice;
static pthread_spinlock_t spin, gone;
static mtx_t mtx;

static APART void take_a(void) { TAKE(&a); }

static APART void mutexes(void) {
    pthread_mutex_init(&mutex, NULL);
    pthread_mutex_lock(&mutex);
    pthread_mutex_init(&mutex, NULL);
    take_a();
    mtx_init(&mtx, mtx_plain);
    mtx_lock(&mtx);
    mtx_init(&mtx, mtx_plain);
    take_a();
    mtx_lock(&mtx);
    mtx_destroy(&mtx);
    take_a();
    pthread_mutex_init(&refused, NULL);
    pthread_mutex_lock(&refused);
    if (pthread_mutex_destroy(&refused) != EBUSY)
        abort();
    take_a();
    pthread_mutex_unlock(&refused);
}

static APART void rwlocks(void) {
    pthread_rwlock_init(&rwlock, NULL);
    pthread_rwlock_wrlock(&rwlock);
    pthread_rwlock_init(&rwlock, NULL);
    take_a();
    pthread_rwlock_init(&read_twice, NULL);
    pthread_rwlock_rdlock(&read_twice);
    pthread_rwlock_rdlock(&read_twice);
    pthread_rwlock_destroy(&read_twice);
    take_a();
}

static APART void spins(void) {
    pthread_spin_init(&spin, 0);
    pthread_spin_lock(&spin);
    pthread_spin_init(&spin, 0);
    take_a();
    pthread_spin_init(&gone, 0);
    pthread_spin_lock(&gone);
    pthread_spin_destroy(&gone);
    take_a();
}

int main(void) {
    mutexes();
    rwlocks();
    spins();
}
