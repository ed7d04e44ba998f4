/* What `record` needs besides a shell:

     run find COMMAND                    writes the file that COMMAND is. Status 127 if there is none, 126 if it can't be run
     run lock                            locks the file that is open as number 9, for as long as anybody has it open. Status 1 if
                                         somebody else holds the lock
     run go [--no-wait] RECORD FOLDER COMMAND...
                                         runs COMMAND with the preload library, passes signals on to it, waits for what it leaves
                                         in the background, and becomes `RECORD --end FOLDER STATUS`, with `left` after it if
                                         something is still running. The library is PRELOAD of the environment */
#define _GNU_SOURCE
#include <ctype.h>
#include <dirent.h>
#include <errno.h>
#include <signal.h>
#include <stdbool.h>
#include <stdio.h>
#include <stdlib.h>
#include <string.h>
#include <sys/file.h>
#include <sys/prctl.h>
#include <sys/stat.h>
#include <sys/syscall.h>
#include <sys/wait.h>
#include <time.h>
#include <unistd.h>

#define PATH 4096

/* The open file whose lock says that a recording is under way. */
#define LOCK 9

#define NOT_FOUND 127
#define NOT_RUNNABLE 126

/* How long the end of what was left in the background is waited for without a word. */
#define PATIENCE_NANOSECONDS 500000000

/* How often it is seen at least whether a signal came to the whole group, and how long it takes from the first look to the second;
   then twice as long each time. Who sends it to this process and then to the group may have to wait for a processor in
   between: it is seen until the sender has slept, or has had so many ticks of one. */
#define WITNESS_LOOKS 5
#define WITNESS_NANOSECONDS 1000000
#define SENDER_TICKS 4

/* ---- Finding the command. */

static bool is_file(const char *path) {
    struct stat about;
    return stat(path, &about) == 0 && S_ISREG(about.st_mode);
}

/* Whether the path can be run. If it is there and can't be, `status` says so. */
static bool is_runnable(const char *path, int *status) {
    struct stat about;
    if (stat(path, &about) != 0)
        return false;
    if (is_file(path) && access(path, X_OK) == 0)
        return true;
    *status = NOT_RUNNABLE;
    return false;
}

/* Looks through the folders of PATH, an empty one being the current folder, as execvp does. */
static bool is_on_path(const char *command, char *found, int *status) {
    const char *folders = getenv("PATH");
    if (!folders)
        folders = "/bin:/usr/bin";
    for (;;) {
        size_t length = strcspn(folders, ":");
        snprintf(found, PATH, "%.*s%s%s", (int)length, folders, length ? "/" : "./", command);
        if (is_runnable(found, status))
            return true;
        if (!folders[length])
            return false;
        folders += length + 1;
    }
}

/* Who says something: the command that was typed. */
static const char *said_by(void) {
    return getenv("LOCKDEP_RUN_HOME") ? "lockdep" : "record";
}

static int find(const char *command) {
    char found[PATH];
    int status = NOT_FOUND;
    snprintf(found, sizeof found, "%s", command);
    if (strchr(command, '/') ? is_runnable(found, &status) : (*command && is_on_path(command, found, &status))) {
        puts(found);
        return 0;
    }
    fprintf(stderr, "%s: %s: %s\n", said_by(), command, status == NOT_FOUND ? "there is no such command" : "it can't be run");
    return status;
}

/* ---- Processes that are left in the background. */

/* The parent and the name of a process, from `PID (NAME) STATE PARENT`; the name may have anything in it. */
static bool read_process(const char *number, pid_t *parent, char *name, size_t room) {
    char path[300], line[512];
    snprintf(path, sizeof path, "/proc/%s/stat", number);
    FILE *file = fopen(path, "r");
    if (!file)
        return false;
    size_t length = fread(line, 1, sizeof line - 1, file);
    fclose(file);
    line[length] = 0;
    char *begin = strchr(line, '('), *end = strrchr(line, ')');
    if (!begin || !end || end < begin)
        return false;
    *end = 0;
    snprintf(name, room, "%s", begin + 1);
    char state;
    int number_of_parent;
    if (sscanf(end + 1, " %c %d", &state, &number_of_parent) != 2)
        return false;
    *parent = number_of_parent;
    return true;
}

/* Goes through the processes that came to this one when their parents ended: signals them, or names them. */
static void each_left(int signal_number, bool is_named) {
    DIR *processes = opendir("/proc");
    if (!processes)
        return;
    const char *before = " ";
    for (struct dirent *entry; (entry = readdir(processes));) {
        pid_t parent;
        char name[64];
        if (!isdigit((unsigned char)entry->d_name[0]) || !read_process(entry->d_name, &parent, name, sizeof name) ||
            parent != getpid())
            continue;
        if (signal_number)
            kill(atoi(entry->d_name), signal_number);
        if (is_named)
            fprintf(stderr, "%s%s (%s)", before, entry->d_name, name);
        before = ", ";
    }
    closedir(processes);
}

static void say_waiting(void) {
    fprintf(stderr, "%s: the command has ended; waiting for what it left in the background:", said_by());
    each_left(0, true);
    fprintf(stderr, "\n%s: a signal goes on to that, and a second one ends the recording\n", said_by());
}

static void say_left(void) {
    fprintf(stderr, "%s: still running, and recorded only up to here:", said_by());
    each_left(0, true);
    fputs("\n", stderr);
}

/* ---- Running the command. */

static const int passed_on[] = {SIGHUP, SIGINT, SIGQUIT, SIGTERM, SIGUSR1, SIGUSR2};
#define PASSED_ON (sizeof passed_on / sizeof passed_on[0])

/* What the child sees of this one's preparations: nothing but two variables. */
static void become(char **command, const sigset_t *mask, const struct sigaction *child_ended) {
    const char *preload = getenv("PRELOAD"), *others = getenv("LD_PRELOAD");
    char all[2 * PATH];
    snprintf(all, sizeof all, "%s%s%s", preload ? preload : "", others && *others ? ":" : "", others ? others : "");
    setenv("LD_PRELOAD", all, 1);
    unsetenv("PRELOAD");
    close(LOCK);
    sigaction(SIGCHLD, child_ended, NULL);
    sigprocmask(SIG_SETMASK, mask, NULL);
    execvp(command[0], command);
    int status = errno == ENOENT ? NOT_FOUND : NOT_RUNNABLE;
    fprintf(stderr, "%s: %s: %s\n", said_by(), command[0], strerror(errno));
    _exit(status);
}

/* ---- Who tells whether a signal came to the whole group. */

/* The witness is a process of this one's group that does nothing. The signals that are passed on are blocked in it, so it keeps them: one
   that it has got too was for the whole group, as `timeout` and `kill 0` send them, and the command has that already. It has no file
   open, and ends with this process, however that ends. Without it, if no process can be started, such a signal comes twice. */
static pid_t begin_witness(void) {
    pid_t maker = getpid(), witness = fork();
    if (witness != 0)
        return witness;
    prctl(PR_SET_PDEATHSIG, SIGKILL);
#ifdef SYS_close_range
    bool is_closed = syscall(SYS_close_range, 0U, ~0U, 0U) == 0;
#else
    bool is_closed = false;
#endif
    for (int file = 0; !is_closed && file < sysconf(_SC_OPEN_MAX); file++)
        close(file);
    while (getppid() == maker)
        pause();
    _exit(0);
}

static void end_witness(pid_t *witness) {
    if (*witness > 0 && kill(*witness, SIGKILL) == 0)
        waitpid(*witness, NULL, 0);
    *witness = 0;
}

/* Whether the witness has got a signal. */
static bool has_got(pid_t witness, int signal_number) {
    char path[64], line[256];
    unsigned long long pending = 0;
    snprintf(path, sizeof path, "/proc/%d/status", (int)witness);
    FILE *file = witness > 0 ? fopen(path, "r") : NULL;
    while (file && fgets(line, sizeof line, file))
        if (sscanf(line, "ShdPnd: %llx", &pending) == 1)
            break;
    if (file)
        fclose(file);
    return pending >> (signal_number - 1) & 1;
}

/* The ticks of a processor that a process has had, if it runs or waits for one, or for the system; -1 if it sleeps or is gone. */
static long ticks_if_awake(pid_t process) {
    char path[64], line[1024], state = 0;
    long of_program = 0, of_system = 0;
    snprintf(path, sizeof path, "/proc/%d/stat", (int)process);
    FILE *file = process > 0 ? fopen(path, "r") : NULL;
    const char *name_end = file && fgets(line, sizeof line, file) ? strrchr(line, ')') : NULL;
    if (file)
        fclose(file);
    if (!name_end || sscanf(name_end, ") %c %*d %*d %*d %*d %*d %*u %*u %*u %*u %*u %ld %ld", &state, &of_program, &of_system) != 3)
        return -1;
    return state == 'R' || state == 'D' ? of_program + of_system : -1;
}

/* Whether a sender that had had so many ticks may not have come to its next signal yet. */
static bool may_send_more(pid_t sender, long ticks) {
    long now = ticks < 0 ? -1 : ticks_if_awake(sender);
    return now >= 0 && now - ticks < SENDER_TICKS;
}

static void pause_for(long nanoseconds) {
    struct timespec pause = {0, nanoseconds};
    nanosleep(&pause, NULL);
}

/* Whether a signal that has just come was for the whole group. Then the next one is seen by a new witness, and what came to this process
   twice, as by `timeout`, counts once. */
static bool is_to_group(pid_t *witness, const siginfo_t *info) {
    long ticks = ticks_if_awake(info->si_pid);
    bool may_come = true, has_it = false;
    for (int i = 0; may_come && !has_it; i++) {
        may_come = i < WITNESS_LOOKS || may_send_more(info->si_pid, ticks); /* (before the look, so that there is one after it) */
        has_it = has_got(*witness, info->si_signo);
        pause_for(WITNESS_NANOSECONDS << (i < WITNESS_LOOKS ? i : 0));
    }
    if (!has_it)
        return false;
    sigset_t alike;
    struct timespec none = {0, 0};
    sigemptyset(&alike);
    sigaddset(&alike, info->si_signo);
    sigtimedwait(&alike, NULL, &none);
    end_witness(witness);
    *witness = begin_witness();
    return true;
}

/* ---- The run. */

struct run {
    pid_t command, witness;
    bool has_ended, is_waiting, has_named_left, is_over;
    int status; /* the command's, once it has ended */
    unsigned signals; /* how many came after the command's end */
    sigset_t ignored; /* what this process was started to ignore, as after nohup */
};

static int status_of(int waited) { return WIFSIGNALED(waited) ? 128 + WTERMSIG(waited) : WEXITSTATUS(waited); }

/* Takes note of every process that has ended. */
static void reap(struct run *run) {
    for (;;) {
        int waited;
        pid_t ended = waitpid(-1, &waited, WNOHANG);
        if (ended == run->command) {
            run->has_ended = true;
            run->status = status_of(waited);
            run->is_over |= !run->is_waiting;
            end_witness(&run->witness);
        }
        if (ended > 0 && ended == run->witness)
            run->witness = 0;
        if (ended == 0)
            return;
        if (ended < 0 && errno != EINTR) {
            run->is_over = true;
            return;
        }
    }
}

/* ---- Signals that the command sends to its parent, which this process is: they go to this one's parent, as if it weren't there. */

static const int never_awaited[] = {SIGKILL, SIGSTOP, SIGCHLD, SIGCONT, SIGTSTP, SIGTTIN, SIGTTOU, SIGURG, SIGWINCH, SIGSEGV, SIGBUS, SIGILL, SIGFPE};

static bool is_among(int signal_number, const int *numbers, size_t count) {
    for (size_t i = 0; i < count; i++)
        if (numbers[i] == signal_number)
            return true;
    return false;
}

static bool is_passed_on(int signal_number) { return is_among(signal_number, passed_on, PASSED_ON); }

static bool is_awaited(int signal_number) {
    bool is_of_threads = signal_number >= __SIGRTMIN && signal_number < SIGRTMIN; /* the C library keeps these for itself */
    return !is_of_threads && !is_among(signal_number, never_awaited, sizeof never_awaited / sizeof *never_awaited);
}

static pid_t parent_of(pid_t process) {
    char path[64], line[256];
    int parent = 0;
    snprintf(path, sizeof path, "/proc/%d/status", (int)process);
    FILE *file = process > 0 ? fopen(path, "r") : NULL;
    while (file && fgets(line, sizeof line, file))
        if (sscanf(line, "PPid: %d", &parent) == 1)
            break;
    if (file)
        fclose(file);
    return parent;
}

#define MOST_GENERATIONS 64

/* Which child of this process has sent a signal, or has started who did; 0 if it is from elsewhere. The command may have ended since. */
static pid_t child_that_sent(const siginfo_t *info, pid_t command) {
    pid_t sender = info->si_code <= 0 ? info->si_pid : 0;
    for (int i = 0; i < MOST_GENERATIONS && sender > 1 && sender != getpid(); i++) {
        pid_t parent = sender == command ? getpid() : parent_of(sender);
        if (parent == getpid())
            return sender;
        sender = parent;
    }
    return 0;
}

/* (another child was left to this process, whose parent wouldn't be this one's) */
static void send_to_parent(const siginfo_t *info, bool is_from_command) {
    pid_t parent = getppid();
    if (parent <= 0 || !is_from_command)
        return;
    if (info->si_code == SI_QUEUE)
        sigqueue(parent, info->si_signo, info->si_value);
    else
        kill(parent, info->si_signo);
}

/* What it would have done if it weren't awaited. */
static void heed(int signal_number) {
    sigset_t alike;
    sigemptyset(&alike);
    sigaddset(&alike, signal_number);
    raise(signal_number);
    sigprocmask(SIG_UNBLOCK, &alike, NULL);
    sigprocmask(SIG_BLOCK, &alike, NULL);
}

/* A signal of the terminal's goes to its whole foreground group, and others may: the command has it already if it is in this one's. But a
   terminal that hangs up sends SIGHUP to the leader of its session alone. */
static bool has_it_already(struct run *run, const siginfo_t *info) {
    bool is_to_leader = info->si_signo == SIGHUP && getsid(0) == getpid();
    bool is_for_it = is_to_group(&run->witness, info) || (info->si_code == SI_KERNEL && !is_to_leader);
    return is_for_it && getpgid(run->command) == getpgrp();
}

/* What this process was started to ignore is passed on too, since the command may have chosen to heed it. But it doesn't end the
   recording. */
static void pass_on(struct run *run, const siginfo_t *info) {
    pid_t child = child_that_sent(info, run->command);
    if (child) {
        if (!is_to_group(&run->witness, info))
            send_to_parent(info, child == run->command);
        return;
    }
    if (!is_passed_on(info->si_signo)) {
        heed(info->si_signo);
        return;
    }
    if (!run->has_ended) {
        if (!has_it_already(run, info))
            kill(run->command, info->si_signo);
        return;
    }
    bool is_ignored = sigismember(&run->ignored, info->si_signo) == 1;
    run->signals += !is_ignored;
    if (run->signals <= 1)
        each_left(info->si_signo, false);
    else
        run->is_over = true;
}

/* Waits for the next signal. After the command's end what is left is named once, if it doesn't end soon. */
static void step(struct run *run, const sigset_t *awaited) {
    siginfo_t info;
    struct timespec patience = {0, PATIENCE_NANOSECONDS};
    int signal_number;
    if (run->has_ended && !run->has_named_left)
        signal_number = sigtimedwait(awaited, &info, &patience);
    else
        signal_number = sigwaitinfo(awaited, &info);
    if (signal_number > 0 && signal_number != SIGCHLD)
        pass_on(run, &info);
    if (signal_number < 0 && errno == EAGAIN) {
        say_waiting();
        run->has_named_left = true;
    }
    reap(run);
}

/* Becomes `RECORD --end`, which the signals that were passed on don't disturb. */
static int end(const struct run *run, const char *record, const char *folder, bool is_left) {
    for (size_t i = 0; i < PASSED_ON; i++)
        signal(passed_on[i], SIG_IGN);
    sigset_t none, others;
    struct timespec at_once = {0, 0};
    siginfo_t info;
    sigfillset(&others);
    while (sigtimedwait(&others, &info, &at_once) > 0)
        send_to_parent(&info, child_that_sent(&info, run->command) == run->command);
    sigemptyset(&none);
    sigprocmask(SIG_SETMASK, &none, NULL);
    char status[16];
    snprintf(status, sizeof status, "%d", run->status);
    execl(record, record, "--end", folder, status, is_left ? "left" : NULL, (char *)NULL);
    fprintf(stderr, "%s: %s: %s\n", said_by(), record, strerror(errno));
    return 2;
}

/* A signal that is ignored comes all the same while it is blocked. */
static void await_signals(sigset_t *awaited, sigset_t *ignored) {
    sigemptyset(awaited);
    sigemptyset(ignored);
    sigaddset(awaited, SIGCHLD);
    for (int number = 1; number <= SIGRTMAX; number++)
        if (is_awaited(number))
            sigaddset(awaited, number);
    for (size_t i = 0; i < PASSED_ON; i++) {
        struct sigaction action;
        if (sigaction(passed_on[i], NULL, &action) == 0 && action.sa_handler == SIG_IGN)
            sigaddset(ignored, passed_on[i]);
    }
}

/* Whether a process that was left to this one is still running. */
static bool is_something_left(void) {
    pid_t ended;
    do
        ended = waitpid(-1, NULL, WNOHANG);
    while (ended > 0);
    return ended == 0;
}

static int go(bool is_waiting, const char *record, const char *folder, char **command) {
    sigset_t awaited, before;
    struct sigaction child_ended;
    struct run run = {.is_waiting = is_waiting};
    sigaction(SIGCHLD, NULL, &child_ended);
    signal(SIGCHLD, SIG_DFL);
    await_signals(&awaited, &run.ignored);
    sigprocmask(SIG_BLOCK, &awaited, &before);
    prctl(PR_SET_CHILD_SUBREAPER, 1);
    run.witness = begin_witness();
    run.command = fork();
    if (run.command < 0) {
        fprintf(stderr, "%s: no process can be started: %s\n", said_by(), strerror(errno));
        end_witness(&run.witness);
        run = (struct run){.status = NOT_RUNNABLE, .has_ended = true, .is_over = true};
    }
    if (run.command == 0)
        become(command, &before, &child_ended);
    while (!run.is_over)
        step(&run, &awaited);
    bool is_left = is_something_left();
    if (is_left)
        say_left();
    return end(&run, record, folder, is_left);
}

static int lock(void) {
    if (flock(LOCK, LOCK_EX | LOCK_NB) == 0)
        return 0;
    if (errno == EWOULDBLOCK)
        return 1;
    fprintf(stderr, "%s: the folder can't be locked: %s\n", said_by(), strerror(errno));
    return 2;
}

int main(int argc, char **argv) {
    if (argc == 3 && strcmp(argv[1], "find") == 0)
        return find(argv[2]);
    if (argc == 2 && strcmp(argv[1], "lock") == 0)
        return lock();
    bool is_waiting = argc < 3 || strcmp(argv[2], "--no-wait") != 0;
    int first = is_waiting ? 2 : 3;
    if (argc > first + 2 && strcmp(argv[1], "go") == 0)
        return go(is_waiting, argv[first], argv[first + 1], argv + first + 2);
    fputs("run: this is a part of `record`\n", stderr);
    return 2;
}
