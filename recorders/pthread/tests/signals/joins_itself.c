/* right: the handler joins the worker. If it comes in at the worker, it would join its own thread: that doesn't wait, but returns EDEADLK. Main
   takes the lock with the signal blocked. */
#include "common.h"
static LOCK(table);
static pthread_t t;
static volatile sig_atomic_t taken;
static void on_term(int s) { (void)s; pthread_join(t, NULL); }
static void *worker(void *x) { with(&table); taken = 1; return x; }
int main(void) {
    handle(SIGTERM, on_term, 0);
    pthread_create(&t, NULL, worker, NULL); block(SIGTERM); with(&table); while (!taken) usleep(1000); unblock(SIGTERM);
    kill(getpid(), SIGTERM);
}
