/* wrong: double table SIGUSR1. The handler waits for the lock by waits that give up, so it goes on in the end. */
#include "common.h"
static LOCK(table);
static void on_usr1(int s) {
    struct timespec soon; (void)s;
    clock_gettime(CLOCK_REALTIME, &soon); soon.tv_sec++;
    if (pthread_mutex_timedlock(&table, &soon) == 0) pthread_mutex_unlock(&table);
}
int main(void) { handle(SIGUSR1, on_usr1, 0); with(&table); kill(getpid(), SIGUSR1); }
