/* As many spin locks as there is room for in 256 bytes, each taken under `a`, and two of them also over it, one of which is made again. */
#include "common.h"
#define LOCKS 64

static pthread_mutex_t a = PTHREAD_MUTEX_INITIALIZER;
static pthread_spinlock_t locks[LOCKS] __attribute__((aligned(4 * LOCKS)));

static void *take_all(void *unused) {
    for (int i = 0; i < LOCKS; i++) {
        pthread_mutex_lock(&a);
        pthread_spin_lock(&locks[i]);
        pthread_spin_unlock(&locks[i]);
        pthread_mutex_unlock(&a);
    }
    return unused;
}

static void take_over(int i) {
    pthread_spin_lock(&locks[i]);
    TAKE(&a);
    pthread_spin_unlock(&locks[i]);
}

int main(void) {
    for (int i = 0; i < LOCKS; i++)
        pthread_spin_init(&locks[i], 0);
    in_thread(take_all, NULL);
    take_over(0);
    take_over(LOCKS - 1);
    for (int i = 0; i < LOCKS; i++)
        pthread_spin_destroy(&locks[i]);
    pthread_spin_init(&locks[LOCKS - 1], 0);
    take_over(LOCKS - 1);
}
