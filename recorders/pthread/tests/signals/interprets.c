/* interprets MAIN WORKER HANDLER1 HANDLER2 FLAGS1 FLAGS2: runs programs of two letters each: aN takes lock N, rN releases it, bN blocks and
   uN unblocks signal N (1: SIGUSR1, 2: SIGUSR2). FLAGS: n SA_NODEFER, o the other signal in sa_mask. The worker runs first, then main, then
   both signals come in. */
#include "common.h"
static pthread_mutex_t l0 = PTHREAD_MUTEX_INITIALIZER, l1 = PTHREAD_MUTEX_INITIALIZER, l2 = PTHREAD_MUTEX_INITIALIZER, l3 = PTHREAD_MUTEX_INITIALIZER;
static pthread_mutex_t *const locks[] = {&l0, &l1, &l2, &l3};
static char **words;
static void runs(const char *p) {
    for (; *p; p += 2) {
        int n = p[1] - '0';
        switch (*p) {
        case 'a': pthread_mutex_lock(locks[n]); break;
        case 'r': pthread_mutex_unlock(locks[n]); break;
        case 'b': block(n == 1 ? SIGUSR1 : SIGUSR2); break;
        case 'u': unblock(n == 1 ? SIGUSR1 : SIGUSR2); break;
        }
    }
}
static void on_usr1(int s) { (void)s; runs(words[3]); }
static void on_usr2(int s) { (void)s; runs(words[4]); }
static void *worker(void *x) { runs(words[2]); return x; }
static void install(int number, int other, void (*handler)(int), const char *flags) {
    struct sigaction a = {.sa_handler = handler, .sa_flags = strchr(flags, 'n') ? SA_NODEFER : 0};
    sigemptyset(&a.sa_mask);
    if (strchr(flags, 'o')) sigaddset(&a.sa_mask, other);
    sigaction(number, &a, NULL);
}
int main(int count, char **given) {
    if (count != 7) return 2;
    words = given;
    install(SIGUSR1, SIGUSR2, on_usr1, words[5]); install(SIGUSR2, SIGUSR1, on_usr2, words[6]);
    in_thread(worker); runs(words[1]);
    unblock(SIGUSR1); unblock(SIGUSR2);
    kill(getpid(), SIGUSR1); kill(getpid(), SIGUSR2);
}
