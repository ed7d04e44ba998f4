/* Waiting for a state instead of a time, so that a test holds on a busy machine too: until threads wait for a lock, a join
   or the like. */
#ifndef ASLEEP_H
#define ASLEEP_H
#include <dirent.h>
#include <pthread.h>
#include <signal.h>
#include <stdio.h>
#include <stdlib.h>
#include <sys/syscall.h>
#include <unistd.h>

/* The thread that ends the process, which isn't waited for. */
static long asleep_ender;

/* One file of a thread's in /proc. */
static inline FILE *asleep_open(int process, const char *thread, const char *name) {
    char path[96];
    snprintf(path, sizeof path, "/proc/%d/task/%.20s/%s", process, thread, name);
    return fopen(path, "r");
}

/* Whether a thread waits in a call of the kernel's, other than for a time to pass. */
static inline int asleep_in_call(int process, const char *thread) {
    long call = -1;
    FILE *file = asleep_open(process, thread, "syscall");
    if (file) {
        if (fscanf(file, "%ld", &call) != 1) /* it is `running` */
            call = -1;
        fclose(file);
    }
    return call >= 0 && call != SYS_nanosleep && call != SYS_clock_nanosleep;
}

/* Whether a thread sleeps till it is woken, and not only till the system has done something for it, such as read a disk. How
   often it has gone to sleep is added to `times`. */
static inline int asleep_till_woken(int process, const char *thread, unsigned long *times) {
    char line[256], state = 0;
    unsigned long own = 0;
    FILE *file = asleep_open(process, thread, "status");
    while (file && fgets(line, sizeof line, file)) {
        sscanf(line, "State: %c", &state);
        if (sscanf(line, "voluntary_ctxt_switches: %lu", &own) == 1)
            break;
    }
    if (file)
        fclose(file);
    *times += own;
    return state == 'S';
}

/* Whether all threads of a process wait, but for the calling one; `times` is how often they have gone to sleep. */
static inline int asleep_now(int process, unsigned long *times) {
    char path[64];
    int are_asleep = 1;
    *times = 0;
    snprintf(path, sizeof path, "/proc/%d/task", process);
    DIR *threads = opendir(path);
    for (struct dirent *each = NULL; threads && (each = readdir(threads));) {
        long thread = atol(each->d_name);
        if (thread == 0 || thread == syscall(SYS_gettid) || thread == asleep_ender)
            continue;
        are_asleep &= asleep_in_call(process, each->d_name);
        are_asleep &= asleep_till_woken(process, each->d_name, times);
    }
    if (threads)
        closedir(threads);
    return are_asleep;
}

/* Waits until all other threads of a process wait at the same time: none has woken between two looks. */
static inline void await_asleep_in(int process) {
    unsigned long before, after;
    while (!asleep_now(process, &before) || !asleep_now(process, &after) || before != after)
        usleep(1000);
}

static inline void await_asleep(void) { await_asleep_in(getpid()); }

static inline void *end_asleep(void *unused) {
    asleep_ender = syscall(SYS_gettid);
    await_asleep();
    kill(getpid(), SIGALRM);
    return unused;
}

/* Lets SIGALRM end the process as soon as all its threads wait, as in a deadlock. */
static inline void end_when_asleep(void) {
    pthread_t ender;
    pthread_create(&ender, NULL, end_asleep, NULL);
}
#endif
