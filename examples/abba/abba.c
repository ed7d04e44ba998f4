/* Two threads take two locks in opposite orders. The second one comes a little later, so nothing hangs unless it meets the first. */
#include <pthread.h>
#include <stddef.h>
#include <unistd.h>

static pthread_mutex_t accounts = PTHREAD_MUTEX_INITIALIZER, journal = PTHREAD_MUTEX_INITIALIZER;

static void *pays(void *unused) {
    pthread_mutex_lock(&accounts);
    pthread_mutex_lock(&journal);
    pthread_mutex_unlock(&journal);
    pthread_mutex_unlock(&accounts);
    return unused;
}

static void *audits(void *unused) {
    usleep(200000);
    pthread_mutex_lock(&journal);
    pthread_mutex_lock(&accounts);
    pthread_mutex_unlock(&accounts);
    pthread_mutex_unlock(&journal);
    return unused;
}

int main(void) {
    pthread_t payer, auditor;
    pthread_create(&payer, NULL, pays, NULL);
    pthread_create(&auditor, NULL, audits, NULL);
    pthread_join(payer, NULL);
    pthread_join(auditor, NULL);
    return 0;
}
