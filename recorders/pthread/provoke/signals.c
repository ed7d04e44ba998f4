/* Orders by a signal: its handler asks for the second lock of one where the signal came in with the first one held. So the signal is sent to
   the thread that has just taken that lock, or has just changed its mask with it held, if it could get it there at any moment. */
#define _GNU_SOURCE
#include "provoke.h"

#include <errno.h>
#include <pthread.h>
#include <signal.h>
#include <sys/syscall.h>
#include <time.h>
#include <unistd.h>

/* The most signals that are sent for an order. */
#define MOST_SENT 40

#define NANOSECONDS 1000000000ull /* of a second */

static struct by_signal {
    int signal; /* 0: the order is not by one */
    uintptr_t handler;
    bool is_by_timer; /* so it only comes where one is armed */
    unsigned sent;
} all[MOST_ORDERS];

static uint64_t orders;

uint64_t orders_by_signals(void) { return orders; }

void take_signal(unsigned order, int signal, uintptr_t handler, bool is_by_timer) {
    if (signal <= 0 || signal > SIGRTMAX)
        return;
    all[order].signal = signal;
    all[order].handler = handler;
    all[order].is_by_timer = is_by_timer;
    __atomic_fetch_or(&orders, 1ull << order, __ATOMIC_RELEASE);
}

/* ---- Timers: whoever could end a standstill by a signal that comes later. */

static struct timer *timer_of(uint64_t own) {
    for (int i = 0; i < MOST_TIMERS; i++)
        if (table->timers[i].process == getpid() && table->timers[i].own == own)
            return &table->timers[i];
    return NULL;
}

/* Takes a row that is nobody's, or of a process that has ended. */
static bool take_row(struct timer *timer) {
    int32_t owner = timer->process;
    return (owner == 0 || (kill(owner, 0) != 0 && errno == ESRCH)) &&
           __atomic_compare_exchange_n(&timer->process, &owner, (int32_t)getpid(), false, __ATOMIC_ACQ_REL, __ATOMIC_RELAXED);
}

static struct timer *new_timer(uint64_t own) {
    int row = 0;
    while (row < MOST_TIMERS - 1 && !take_row(&table->timers[row]))
        row++;
    struct timer *timer = &table->timers[row];
    *timer = (struct timer){.process = (int32_t)getpid(), .own = own};
    return row < MOST_TIMERS - 1 ? timer : NULL;
}

/* Which signal a timer sends. The last row is for those that have none of their own. */
void know_timer(uint64_t own, int signal) {
    int before = errno;
    struct timer *timer = timer_of(own) ? timer_of(own) : new_timer(own);
    if (timer)
        timer->signal = signal;
    else
        table->timers[MOST_TIMERS - 1] = (struct timer){.process = (int32_t)getpid(), .signal = TIMER_OTHERS, .at = UINT64_MAX};
    errno = before;
}

void forget_timer(uint64_t own) {
    struct timer *timer = timer_of(own);
    if (timer)
        __atomic_store_n(&timer->process, 0, __ATOMIC_RELEASE);
}

static bool is_armed(int signal) {
    for (int i = 0; i < MOST_TIMERS; i++)
        if (table->timers[i].process == getpid() && table->timers[i].signal == signal && table->timers[i].at)
            return true;
    return false;
}

static uint64_t nanoseconds_now(void) {
    struct timespec time;
    clock_gettime(CLOCK_MONOTONIC, &time);
    return (uint64_t)time.tv_sec * NANOSECONDS + (uint64_t)time.tv_nsec;
}

/* A timer is armed for then, or disarmed by 0. Of one for a time of a clock it isn't known when that is: it counts as armed. */
void arm_timer(uint64_t own, uint64_t in, uint64_t again, bool is_time) {
    struct timer *timer = timer_of(own);
    if (!timer)
        return;
    timer->again = again;
    timer->at = !in ? 0 : is_time ? UINT64_MAX : nanoseconds_now() + in;
}

/* ---- Sending. */

/* Whether this thread could get the signal now, and the handler is the one that was recorded. */
static bool can_come_in(const struct by_signal *by) {
    sigset_t blocked;
    struct sigaction now;
    if (sigprocmask(SIG_SETMASK, NULL, &blocked) != 0 || sigismember(&blocked, by->signal) != 0 || (by->is_by_timer && !is_armed(by->signal)))
        return false;
    return sigaction(by->signal, NULL, &now) == 0 && (uintptr_t)now.sa_handler == by->handler;
}

/* Sends this thread the signals of these orders, whose first locks it holds. Their handlers run before this returns. */
void send_signals(uint64_t holds) {
    for (uint64_t left = holds & orders; left; left &= left - 1) {
        struct by_signal *by = &all[__builtin_ctzll(left)];
        if (!can_come_in(by) || __atomic_fetch_add(&by->sent, 1, __ATOMIC_RELAXED) >= MOST_SENT)
            continue;
        __atomic_fetch_add(&table->sent[__builtin_ctzll(left)], 1, __ATOMIC_RELAXED);
        syscall(SYS_tgkill, getpid(), syscall(SYS_gettid), by->signal);
    }
}
