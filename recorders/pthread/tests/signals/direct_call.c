/* The mask is changed by a direct system call, which nobody sees: the run that comes then meets another mask than was known. */
#include "common.h"
#include <sys/syscall.h>
static LOCK(table);
static void on_usr1(int s) { (void)s; with(&table); }
static void on_usr2(int s) { (void)s; }
int main(void) {
    sigset_t set = only(SIGUSR2);
    handle(SIGUSR1, on_usr1, 0); handle(SIGUSR2, on_usr2, 0);
    with(&table); kill(getpid(), SIGUSR1);
    syscall(SYS_rt_sigprocmask, SIG_BLOCK, &set, NULL, 8);
    kill(getpid(), SIGUSR1);
}
