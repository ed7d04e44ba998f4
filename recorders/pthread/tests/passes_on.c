/* Runs a command, and passes SIGINT on as `timeout` does, to the command and then to the whole group, but has to wait for the system in between. */
#define _DEFAULT_SOURCE
#include <signal.h>
#include <sys/wait.h>
#include <unistd.h>

static pid_t child;

static void passes_on(int number) {
    signal(number, SIG_IGN);
    kill(child, number);
    if (vfork() == 0) {
        usleep(300000);
        _exit(0);
    }
    kill(0, number);
}

int main(int count, char **words) {
    int status = 1;
    setpgid(0, 0);
    signal(SIGINT, passes_on);
    child = fork();
    if (child == 0) {
        signal(SIGINT, SIG_DFL);
        execvp(words[1], words + 1);
        _exit(count);
    }
    while (waitpid(child, &status, 0) != child)
        ;
    return status != 0;
}
