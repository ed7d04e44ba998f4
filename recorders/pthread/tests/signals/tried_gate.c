/* The handler takes the lock only inside a gate, for which it tries. Main has the lock inside the gate alone, and, with an argument, outside too. */
#include "common.h"
static LOCK(gate); static LOCK(table);
static void on_usr1(int s) { (void)s; if (pthread_mutex_trylock(&gate) == 0) { with(&table); pthread_mutex_unlock(&gate); } }
int main(int count, char **words) {
    (void)words; handle(SIGUSR1, on_usr1, 0);
    pthread_mutex_lock(&gate); with(&table); pthread_mutex_unlock(&gate);
    if (count > 1) with(&table);
    kill(getpid(), SIGUSR1);
}
