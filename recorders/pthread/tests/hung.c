/* Each of two threads holds a lock and waits for the other's: what they wait for is their last record. A signal ends
   them. */
#include "common.h"
#include "asleep.h"
static pthread_mutex_t accounts = PTHREAD_MUTEX_INITIALIZER, journal = PTHREAD_MUTEX_INITIALIZER;
static pthread_barrier_t both;

static void *pays(void *unused) {
    pthread_mutex_lock(&accounts);
    pthread_barrier_wait(&both);
    pthread_mutex_lock(&journal);
    return unused;
}

static void *audits(void *unused) {
    pthread_mutex_lock(&journal);
    pthread_barrier_wait(&both);
    pthread_mutex_lock(&accounts);
    return unused;
}

int main(void) {
    pthread_t one;
    pthread_barrier_init(&both, NULL, 2);
    pthread_create(&one, NULL, pays, NULL);
    await_asleep();
    end_when_asleep();
    audits(NULL);
}
