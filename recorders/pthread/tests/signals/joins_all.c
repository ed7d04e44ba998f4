/* wrong: inversion thread:worker table SIGTERM. The handler joins both workers. If it comes in at the first one, which has the lock, it joins that
   one in vain (EDEADLK), and then the second one, which waits for the lock. */
#include "common.h"
static LOCK(table);
static pthread_t t[2];
static pthread_barrier_t both;
static void on_term(int s) { (void)s; pthread_join(t[0], NULL); pthread_join(t[1], NULL); }
static void *worker(void *x) { if (x) block(SIGTERM); with(&table); pthread_barrier_wait(&both); return x; }
int main(void) {
    pthread_barrier_init(&both, NULL, 3); handle(SIGTERM, on_term, 0);
    pthread_create(&t[0], NULL, worker, NULL); pthread_create(&t[1], NULL, worker, "blocks");
    pthread_barrier_wait(&both); kill(getpid(), SIGTERM);
}
