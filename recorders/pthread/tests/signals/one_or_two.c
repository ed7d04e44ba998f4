/* Two handlers, each of which may be interrupted by the other, and each with a lock of its own. One thread alone can't wait for itself there. Two can: one
   is in the first handler when the second signal comes in, and the other one in the second handler when the first signal does. So can one if the
   second handler unblocks the first signal, which is blocked where main holds the first lock. `nests`: main alone takes the locks in an order. `thread`:
   there is a second thread, which takes no lock. `late`: that starts when the signals have come. `unblocks`: the second handler unblocks the first
   signal. `child`: the parent shares a lock's memory with a child, which does the same. */
#include "common.h"
#include <sys/mman.h>
static LOCK(table); static LOCK(safe);
static pthread_mutex_t *first = &table, *second = &safe;
static const char *how;
static int is(const char *word) { return !strcmp(how, word); }
static void on_usr1(int s) { (void)s; with(first); }
static void on_usr2(int s) {
    (void)s;
    if (is("unblocks")) unblock(SIGUSR1);
    if (!is("nests")) with(second);
}
static volatile sig_atomic_t have_come;
static void *waits(void *x) { while (!have_come) usleep(1000); return x; }
static void start(pthread_t *t) { pthread_create(t, NULL, waits, NULL); }
static void both(void) { kill(getpid(), SIGUSR1); kill(getpid(), SIGUSR2); }
static void in_order(void) {
    block(SIGUSR1);
    pthread_mutex_lock(first); with(second); pthread_mutex_unlock(first);
    unblock(SIGUSR1);
    with(second);
}
static void unblocked_inside(void) {
    block(SIGUSR1);
    with(first);
    raise(SIGUSR2);
    unblock(SIGUSR1);
}
int main(int count, char **words) {
    pthread_t t;
    how = count > 1 ? words[1] : "";
    if (is("child")) {
        pthread_mutexattr_t shared;
        first = mmap(NULL, 2 * sizeof *first, PROT_READ | PROT_WRITE, MAP_SHARED | MAP_ANONYMOUS, -1, 0); second = first + 1;
        pthread_mutexattr_init(&shared); pthread_mutexattr_setpshared(&shared, PTHREAD_PROCESS_SHARED);
        pthread_mutex_init(first, &shared); pthread_mutex_init(second, &shared);
    }
    handle(SIGUSR1, on_usr1, 0); handle(SIGUSR2, on_usr2, 0);
    if (is("thread")) start(&t);
    if (is("nests")) in_order();
    if (is("unblocks")) unblocked_inside();
    if (is("child") && fork() == 0) { both(); _exit(0); }
    both();
    have_come = 1;
    if (is("child")) wait(NULL);
    if (is("late")) start(&t);
    if (is("thread") || is("late")) pthread_join(t, NULL);
}
