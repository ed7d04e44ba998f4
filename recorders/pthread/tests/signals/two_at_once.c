/* wrong: two signals at once. First holds b with SIGUSR1 unblocked, whose handler takes a; second holds a with SIGUSR2 unblocked, whose
   handler takes b. If both signals come in, each handler waits for the other thread. No set of one signal shows it alone: the driver adds
   the orders by the other one. */
#include "common.h"
static LOCK(a); static LOCK(b);
static void on_usr1(int s) { (void)s; with(&a); }
static void on_usr2(int s) { (void)s; with(&b); }
static void *first(void *x) { block(SIGUSR2); with(&b); raise(SIGUSR1); return x; }
static void *second(void *x) { block(SIGUSR1); with(&a); raise(SIGUSR2); return x; }
int main(void) { handle(SIGUSR1, on_usr1, 0); handle(SIGUSR2, on_usr2, 0); block(SIGUSR1); block(SIGUSR2);
    pthread_t t; sigset_t one = only(SIGUSR1), two = only(SIGUSR2);
    pthread_sigmask(SIG_UNBLOCK, &one, NULL); pthread_create(&t, NULL, first, NULL); pthread_join(t, NULL); pthread_sigmask(SIG_BLOCK, &one, NULL);
    pthread_sigmask(SIG_UNBLOCK, &two, NULL); pthread_create(&t, NULL, second, NULL); pthread_join(t, NULL); }
