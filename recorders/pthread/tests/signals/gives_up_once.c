/* wrong: double table SIGUSR1. One handler's wait gives up, and another one's doesn't. */
#include "common.h"
static LOCK(table);
static void on_usr1(int s) {
    static int runs; struct timespec soon; (void)s;
    clock_gettime(CLOCK_REALTIME, &soon); soon.tv_sec++;
    if (runs++) with(&table);
    else if (pthread_mutex_timedlock(&table, &soon) == 0) pthread_mutex_unlock(&table);
}
int main(void) { handle(SIGUSR1, on_usr1, 0); with(&table); kill(getpid(), SIGUSR1); kill(getpid(), SIGUSR1); }
