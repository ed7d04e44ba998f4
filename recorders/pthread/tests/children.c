/* Children by fork, a bare system call, vfork and posix_spawn, and one that is forked while another thread locks all the time. */
#include "common.h"
#include <spawn.h>
#include <stdatomic.h>
#include <sys/syscall.h>
static pthread_mutex_t a = PTHREAD_MUTEX_INITIALIZER, b = PTHREAD_MUTEX_INITIALIZER;
static atomic_int is_done;
extern char **environ;

static void *locks(void *unused) {
    while (!is_done)
        TAKE(&a);
    return unused;
}

static void in_child(void) {
    TAKE(&b);
    _exit(0);
}

int main(int argc, char **argv) {
    if (argc > 1)
        in_child();
    pthread_t t;
    pthread_create(&t, NULL, locks, NULL);
    for (int i = 0; i < 20; i++) {
        pid_t child = fork();
        if (child == 0)
            in_child();
        waitpid(child, NULL, 0);
    }
    long bare = syscall(SYS_clone, SIGCHLD, 0, 0, 0, 0);
    if (bare == 0)
        in_child();
    waitpid((pid_t)bare, NULL, 0);
    char *again[] = {argv[0], "again", NULL};
    pid_t child = vfork();
    if (child == 0) {
        execv("/proc/self/exe", again);
        _exit(1);
    }
    waitpid(child, NULL, 0);
    if (posix_spawn(&child, "/proc/self/exe", NULL, NULL, again, environ) != 0)
        abort();
    waitpid(child, NULL, 0);
    is_done = 1;
    pthread_join(t, NULL);
}
