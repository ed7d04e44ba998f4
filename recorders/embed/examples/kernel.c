/* A small preemptive kernel of one processor, whose timer is a POSIX timer: its signal is the hardware interrupt. The
   interrupt counts, requests deferred work, which runs after it with interrupts on, and gives the processor to the next
   task. Locks are spin locks. One task takes `clock` as it must, with interrupts off; the other takes it with interrupts on
   as well, although the timer's interrupt takes it. This run doesn't hang, since that task does it just after a tick; if a
   tick comes at that point nevertheless, the kernel says so and ends. */
#define _GNU_SOURCE
#include <signal.h>
#include <stdio.h>
#include <stdlib.h>
#include <time.h>
#include <ucontext.h>

#define LOCKDEP_RECORD_CODE
#include "../lockdep_record.h"

#define TASKS 2
#define TICKS 20

struct task {
    ucontext_t context;
    char stack[65536];
    struct ldr_task recorded;
    char trace_bytes[1024], places_bytes[1024];
    FILE *trace, *places;
    bool is_softirq_off;
    unsigned locks; /* that it holds: it isn't preempted then */
};

static struct task tasks[TASKS], *current = &tasks[0];
static ucontext_t boot;
static volatile unsigned ticks;

/* ---- Interrupts of the processor. While they are off, one that comes in waits. */

static volatile sig_atomic_t is_off, is_pending;

static void interrupt(void);

static void set_on(void) {
    is_off = 0;
    while (is_pending) {
        is_off = 1;
        is_pending = 0;
        interrupt();
        is_off = 0;
    }
}

/* Restores them. */
static void set_back(sig_atomic_t was_off) {
    if (!was_off)
        set_on();
}

static sig_atomic_t set_off(void) {
    sig_atomic_t was_off = is_off;
    is_off = 1;
    return was_off;
}

static void on_signal(int number) {
    (void)number;
    is_pending = 1;
    if (!is_off)
        set_on();
}

/* A call of the recorder, with interrupts off so that none comes in during it. The recorder is told about the interrupts
   that the kernel turns off and on, not about these. */
#define record(call)                     \
    do {                                 \
        sig_atomic_t was_off = set_off(); \
        call;                            \
        set_back(was_off);               \
    } while (0)

/* ---- Locks. */

struct lock {
    const char *name;
    bool is_taken;
};

static struct lock clock_lock = {"clock", false}, work_lock = {"work", false};

static void take_at(struct lock *lock, const char *place, const char *function) {
    sig_atomic_t was_off = set_off();
    if (lock->is_taken) {
        fprintf(stderr, "kernel: deadlock: %s at %s waits for %s for ever\n", function, place, lock->name);
        exit(3);
    }
    lock->is_taken = true;
    current->locks++;
    ldr_acquire_at(&current->recorded, lock->name, 0, LDR_W, place, function);
    set_back(was_off);
}
#define take(lock) take_at(lock, LDR_HERE)

static void give(struct lock *lock) {
    sig_atomic_t was_off = set_off();
    ldr_release(&current->recorded, lock->name, 0);
    current->locks--;
    lock->is_taken = false;
    set_back(was_off);
}

/* What tasks turn off and on. */
static void hardirqs_off(void) {
    set_off();
    ldr_off(&current->recorded, LDR_HARDIRQ);
}

#define hardirqs_on()                               \
    do {                                            \
        ldr_on(&current->recorded, LDR_HARDIRQ);    \
        set_on();                                   \
    } while (0)

static void softirqs_off(void) {
    current->is_softirq_off = true;
    record(ldr_off(&current->recorded, LDR_SOFTIRQ));
}

static void softirqs_on(void) {
    record(ldr_on(&current->recorded, LDR_SOFTIRQ));
    current->is_softirq_off = false;
}

/* ---- The timer. */

static bool is_in_softirq;
static unsigned long work, worked, time_now;

static void tick(void) {
    take(&clock_lock);
    ticks++;
    time_now++;
    give(&clock_lock);
    work++;
}

static void do_work(void) {
    take(&work_lock);
    worked += work;
    work = 0;
    give(&work_lock);
}

static void give_processor(void) {
    struct task *last = current;
    current = &tasks[(current - tasks + 1) % TASKS];
    swapcontext(&last->context, &current->context);
}

/* Runs with the processor's interrupts off. Deferred work turns them on, and so can be interrupted. */
static void interrupt(void) {
    ldr_enter(&current->recorded, LDR_HARDIRQ);
    tick();
    ldr_leave(&current->recorded);
    if (is_in_softirq)
        return;
    if (!current->is_softirq_off) {
        is_in_softirq = true;
        ldr_enter(&current->recorded, LDR_SOFTIRQ);
        set_on();
        do_work();
        set_off();
        ldr_leave(&current->recorded);
        is_in_softirq = false;
    }
    if (current->locks == 0 && ticks < TICKS)
        give_processor();
}

/* ---- The tasks. */

static void wait_for_tick(void) {
    for (unsigned seen = ticks; ticks == seen && ticks < TICKS;) {
    }
}

static unsigned long read_clock(void) {
    hardirqs_off();
    take(&clock_lock);
    unsigned long now = time_now;
    give(&clock_lock);
    hardirqs_on();
    return now;
}

/* Wrong: the interrupt may come in here, and wait for what this holds. */
static void set_clock(unsigned long now) {
    take(&clock_lock);
    time_now = now;
    give(&clock_lock);
}

static unsigned long read_worked(void) {
    softirqs_off();
    take(&work_lock);
    unsigned long now = worked;
    give(&work_lock);
    softirqs_on();
    return now;
}

/* A task begins in the interrupt that gave it the processor. */
static void watch(void) {
    set_on();
    while (ticks < TICKS) {
        wait_for_tick();
        read_clock();
        read_worked();
    }
    setcontext(&boot);
}

static void adjust(void) {
    set_on();
    while (ticks < TICKS) {
        wait_for_tick();
        set_clock(read_clock() + 1);
    }
    setcontext(&boot);
}

/* ---- Booting. */

static int put(void *file, const char *bytes, size_t size) {
    return fwrite(bytes, 1, size, (FILE *)file) == size ? 0 : -1;
}

static FILE *open_file(const char *folder, unsigned number, const char *end) {
    char path[4096];
    snprintf(path, sizeof path, "%s/task-%04u.csv%s", folder, number, end);
    FILE *file = fopen(path, "w");
    if (!file) {
        perror(path);
        exit(2);
    }
    return file;
}

static void make_task(struct task *task, const char *folder, void (*runs)(void)) {
    unsigned number = (unsigned)(task - tasks) + 1;
    task->trace = open_file(folder, number, "");
    task->places = open_file(folder, number, ".places");
    ldr_begin(&task->recorded, task->trace_bytes, sizeof task->trace_bytes, put, task->trace);
    ldr_places(&task->recorded, task->places_bytes, sizeof task->places_bytes, put, task->places);
    getcontext(&task->context);
    task->context.uc_stack.ss_sp = task->stack;
    task->context.uc_stack.ss_size = sizeof task->stack;
    makecontext(&task->context, runs, 0);
}

static void start_timer(void) {
    struct sigaction action = {.sa_handler = on_signal, .sa_flags = SA_NODEFER | SA_RESTART};
    struct sigevent event = {.sigev_notify = SIGEV_SIGNAL, .sigev_signo = SIGALRM};
    struct itimerspec every = {{0, 2000000}, {0, 2000000}};
    timer_t timer;
    sigaction(SIGALRM, &action, NULL);
    if (timer_create(CLOCK_MONOTONIC, &event, &timer) != 0 || timer_settime(timer, 0, &every, NULL) != 0) {
        perror("timer");
        exit(2);
    }
}

int main(int argc, char **argv) {
    const char *folder = getenv("LOCKDEP_TRACES");
    if (!folder)
        folder = argc > 1 ? argv[1] : "lockdep-traces";
    make_task(&tasks[0], folder, watch);
    make_task(&tasks[1], folder, adjust);
    start_timer();
    swapcontext(&boot, &tasks[0].context);
    is_off = 1;
    for (struct task *task = tasks; task < tasks + TASKS; task++) {
        ldr_end(&task->recorded);
        fclose(task->trace);
        fclose(task->places);
    }
    printf("%u ticks\n", ticks);
    return 0;
}
