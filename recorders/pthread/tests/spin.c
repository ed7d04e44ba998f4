/* A spin lock, whose class is where it is initialised. One that another thread releases isn't held any more. */
#include "common.h"
static pthread_spinlock_t a, b;
static pthread_mutex_t m = PTHREAD_MUTEX_INITIALIZER;

static void *releases_b(void *unused) {
    pthread_spin_unlock(&b);
    return unused;
}

static APART void init_a(void) { pthread_spin_init(&a, PTHREAD_PROCESS_PRIVATE); }
static APART void init_b(void) { pthread_spin_init(&b, PTHREAD_PROCESS_PRIVATE); }

int main(void) {
    init_a();
    init_b();
    pthread_spin_lock(&a);
    pthread_spin_unlock(&a);
    pthread_spin_lock(&b);
    in_thread(releases_b, NULL);
    TAKE(&m);
}
