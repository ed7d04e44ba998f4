/* A lock is waited for in a function that two others call, which all have frame pointers: the record has them all. */
#include "common.h"
#include "asleep.h"

static pthread_mutex_t first = PTHREAD_MUTEX_INITIALIZER, second = PTHREAD_MUTEX_INITIALIZER;

static APART void take(void) { pthread_mutex_lock(&second); }
static APART void inner(void) { take(); }
static APART void outer(void) { inner(); }

static void *waits(void *unused) {
    pthread_mutex_lock(&first);
    outer();
    pthread_mutex_unlock(&second);
    pthread_mutex_unlock(&first);
    return unused;
}

THREAD(nests, NEST(&second, &first))

int main(void) {
    pthread_t waiter;
    pthread_mutex_lock(&second);
    pthread_create(&waiter, NULL, waits, NULL);
    await_asleep();
    pthread_mutex_unlock(&second);
    pthread_join(waiter, NULL);
    in_thread(nests, NULL);
}
