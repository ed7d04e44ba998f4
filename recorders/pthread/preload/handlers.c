/* Signals' handlers. Instead of each the kernel gets a stub, which tells runs.c and calls the handler. What a stub stands for never changes, so
   there is no table by signals that another thread could be writing. Calls answer what the program has set. */
#include "held.h"

#include <errno.h>
#include <signal.h>
#include <string.h>
#include <sys/syscall.h>
#include <time.h>
#include <unistd.h>

#pragma GCC diagnostic ignored "-Wdeprecated-declarations"

#define REALS(X)                                                                                                          \
    X(sigaction) X(signal) X(bsd_signal) X(ssignal) X(sysv_signal) X(sigset) X(sigignore) X(siginterrupt) X(timer_create) \
    X(sigqueue) X(pthread_sigqueue)
__sighandler_t bsd_signal(int number, __sighandler_t handler);
__sighandler_t sysv_signal(int number, __sighandler_t handler);
REALS(KNOWN_REAL)
FIND_AT_START(REALS)

struct action actions[MOST_STUBS] LARGE;
uint32_t own_id;

/* Whether this is wanted is found once: 1 no, 2 yes. */
static int wanted;

static bool is_wanted(void) {
    begin_once();
    if (UNLIKELY(!LOAD(&wanted))) {
        const char *how = is_for_libraries ? "off" : variable("LOCKDEP_SIGNALS");
        if (is_recording() && how && is_same_text(how, "all"))
            watch_malloc();
        STORE(&wanted, is_recording() && !(how && is_same_text(how, "off")) ? 2 : 1);
    }
    return LOAD(&wanted) == 2;
}

/* The C library keeps some for itself, and refuses them. */
static bool is_followed(int number) {
    return number >= 1 && number <= RAW_SIGNALS && number != SIGKILL && number != SIGSTOP && (number < 32 || number >= SIGRTMIN) && is_wanted();
}

static bool is_function(__sighandler_t handler) { return handler != SIG_DFL && handler != SIG_IGN; }

/* ---- Which stub. */

#define CLAIMED 1
#define OF_STUB (SA_SIGINFO | SA_NODEFER | SA_RESETHAND)

static bool is_same(const struct action *a, const struct action *b) {
    return a->mask == b->mask && a->flags == b->flags && a->number == b->number;
}

/* The number of a stub for it, or -1 if there is none left. One that another thread is about to use is passed over. */
static int stub_for(struct action *new, struct call call) {
    for (uint32_t i = 0; i < MOST_STUBS; i++) {
        struct action *a = &actions[i];
        uintptr_t there = LOAD(&a->handler);
        if (there == new->handler && is_same(a, new)) {
            if (UNLIKELY(is_source_gone(LOAD(&a->source))))
                STORE(&a->source, source_of(new->number, new->handler, call));
            return (int)i;
        }
        if (there || !SWAP(&a->handler, &there, CLAIMED))
            continue;
        a->mask = new->mask;
        a->blocks = new->mask | (new->flags & SA_NODEFER ? 0 : bit_of(new->number));
        a->flags = new->flags;
        a->number = new->number;
        a->is_odd = new->flags & SA_RESETHAND || may_be_continuation(new->number);
        a->source = source_of(new->number, new->handler, call);
        STORE(&a->handler, new->handler);
        return (int)i;
    }
    ADD(&arena->unfollowed_handlers, 1);
    return -1;
}

/* Puts a stub into what is to be installed. Returns its number, or -1. */
static int put_stub(int number, struct sigaction *new, struct call call) {
    struct action action = {.handler = (uintptr_t)new->sa_sigaction, .mask = *(const uint64_t *)&new->sa_mask,
                            .flags = new->sa_flags & OF_STUB, .number = number};
    int stub = action.handler > CLAIMED && number_of_stub(action.handler) < 0 ? stub_for(&action, call) : -1;
    if (stub >= 0) {
        new->sa_sigaction = (void (*)(int, siginfo_t *, void *))stub_numbered((uint32_t)stub);
        new->sa_flags |= SA_SIGINFO;
    }
    return stub;
}

/* The signals that have SA_SIGINFO only for their stub. The kernel leaves it to them when a handler with SA_RESETHAND has run. */
static uint64_t with_siginfo;

static bool has_own_siginfo(int number) { return (LOAD(&with_siginfo) & bit_of(number)) != 0; }

/* What the program had set. */
static void take_stub_out(int number, struct sigaction *old) {
    int stub = number_of_stub((uintptr_t)old->sa_sigaction);
    if (stub >= 0)
        old->sa_sigaction = (void (*)(int, siginfo_t *, void *))LOAD(&actions[stub].handler);
    if (stub >= 0 ? !(actions[stub].flags & SA_SIGINFO) : !is_function(old->sa_handler) && has_own_siginfo(number))
        old->sa_flags &= ~SA_SIGINFO;
}

/* ---- Installing. A handler is known before the signal can come in, and gone when it can't any more. A child that shares its parent's memory
   has handlers of its own, which say nothing of the parent's. */

static bool is_own_process(void) { return (uint32_t)SYSTEM(getpid) == LOAD(&own_id); }

static void note_siginfo(int number, int stub) {
    bool is_ours = stub >= 0 && !(actions[stub].flags & SA_SIGINFO);
    if (is_ours != has_own_siginfo(number) && is_own_process())
        __atomic_fetch_xor(&with_siginfo, bit_of(number), __ATOMIC_ACQ_REL);
}

static void note_installed(int number, uint32_t source, struct call call) {
    install(number, source);
    turned(call);
}

static int act(int number, const struct sigaction *new, struct sigaction *old, struct call call) {
    struct sigaction wrapped;
    int stub = -1;
    if (new && is_function(new->sa_handler)) {
        wrapped = *new;
        stub = put_stub(number, &wrapped, call);
        new = &wrapped;
    }
    uint32_t source = stub >= 0 ? actions[stub].source : 0, before = installed_source(number);
    bool is_change = new && source != before && is_own_process();
    if (is_change && source)
        note_installed(number, source, call);
    int answer = REAL(sigaction)(number, new, old);
    if (is_change && (answer != 0 || !source))
        note_installed(number, answer != 0 ? before : 0, call);
    if (answer == 0 && old)
        take_stub_out(number, old);
    if (answer == 0 && new)
        note_siginfo(number, stub);
    return answer;
}

EXPORT int sigaction(int number, const struct sigaction *new, struct sigaction *old) {
    return is_followed(number) ? act(number, new, old, HERE) : REAL(sigaction)(number, new, old);
}
EXPORT __typeof__(sigaction) __sigaction __attribute__((alias("sigaction")));

/* ---- The other ways to set one, as the C library makes them of that. */

static uint64_t interrupting; /* the signals of which siginterrupt has said that they interrupt calls */

EXPORT int siginterrupt(int number, int does) {
    int answer = REAL(siginterrupt)(number, does);
    if (answer == 0 && number >= 1 && number <= RAW_SIGNALS) {
        if (does)
            __atomic_fetch_or(&interrupting, bit_of(number), __ATOMIC_ACQ_REL);
        else
            __atomic_fetch_and(&interrupting, ~bit_of(number), __ATOMIC_ACQ_REL);
    }
    return answer;
}

static __sighandler_t set_handler(int number, __sighandler_t handler, int flags, bool masks_itself, struct call call) {
    struct sigaction new = {.sa_handler = handler, .sa_flags = flags}, old;
    if (masks_itself)
        *(uint64_t *)&new.sa_mask = bit_of(number);
    return act(number, &new, &old, call) == 0 ? old.sa_handler : SIG_ERR;
}

static __sighandler_t set_as_bsd(int number, __sighandler_t handler, struct call call) {
    return set_handler(number, handler, LOAD(&interrupting) & bit_of(number) ? 0 : SA_RESTART, true, call);
}

#define AS_BSD(name)                                                                                                   \
    EXPORT __sighandler_t name(int number, __sighandler_t handler) {                                                   \
        return handler != SIG_ERR && is_followed(number) ? set_as_bsd(number, handler, HERE) : REAL(name)(number, handler); \
    }
AS_BSD(signal)
AS_BSD(bsd_signal)
AS_BSD(ssignal)

#ifndef SA_INTERRUPT
#define SA_INTERRUPT 0x20000000
#endif

EXPORT __sighandler_t sysv_signal(int number, __sighandler_t handler) {
    if (handler == SIG_ERR || !is_followed(number))
        return REAL(sysv_signal)(number, handler);
    return set_handler(number, handler, SA_RESETHAND | SA_NODEFER | SA_INTERRUPT, false, HERE);
}
EXPORT __typeof__(sysv_signal) __sysv_signal __attribute__((alias("sysv_signal")));

EXPORT int sigignore(int number) {
    if (!is_followed(number))
        return REAL(sigignore)(number);
    return set_handler(number, SIG_IGN, 0, false, HERE) == SIG_ERR ? -1 : 0;
}

/* It also unblocks the signal, or blocks it instead, and says whether it was blocked. */
EXPORT __sighandler_t sigset(int number, __sighandler_t handler) {
    sigset_t set, before;
    if (handler == SIG_ERR || !is_followed(number))
        return REAL(sigset)(number, handler);
    sigemptyset(&set);
    sigaddset(&set, number);
    struct sigaction old;
    if (handler == SIG_HOLD) {
        if (sigprocmask(SIG_BLOCK, &set, &before) != 0)
            return SIG_ERR;
        if (sigismember(&before, number))
            return SIG_HOLD;
        return sigaction(number, NULL, &old) == 0 ? old.sa_handler : SIG_ERR;
    }
    __sighandler_t was = set_handler(number, handler, 0, false, HERE);
    if (was == SIG_ERR || sigprocmask(SIG_UNBLOCK, &set, &before) != 0)
        return SIG_ERR;
    return sigismember(&before, number) ? SIG_HOLD : was;
}

/* ---- Who sends signals that say only what they come from: a timer, a queue, or a file. */

struct sender senders[SENDERS];

static void note_sent(uint64_t *to, int number) {
    if (number >= 1 && number <= RAW_SIGNALS && !(LOAD(to) & bit_of(number)))
        __atomic_fetch_or(to, bit_of(number), __ATOMIC_ACQ_REL);
}

#ifndef SIGEV_THREAD_ID
#define SIGEV_THREAD_ID 4
#endif

static void note_timer(timer_t timer, const struct sigevent *event) {
    if (!event || event->sigev_notify != SIGEV_NONE)
        know_timer(timer, !event ? SIGALRM : event->sigev_notify == SIGEV_THREAD ? 0 : event->sigev_signo);
    if (!event || event->sigev_notify == SIGEV_SIGNAL)
        note_sent(&senders[TIMERS].to_processes, event ? event->sigev_signo : SIGALRM);
    else if (event->sigev_notify == SIGEV_THREAD_ID)
        note_sent(&senders[TIMERS].to_threads, event->sigev_signo);
}

EXPORT int timer_create(clockid_t clock, struct sigevent *event, timer_t *timer) {
    int answer = REAL(timer_create)(clock, event, timer);
    if (answer == 0)
        note_timer(*timer, event);
    return answer;
}

EXPORT int sigqueue(pid_t process, int number, const union sigval value) {
    note_sent(&senders[QUEUES].to_processes, number);
    return REAL(sigqueue)(process, number, value);
}

EXPORT int pthread_sigqueue(pthread_t thread, int number, const union sigval value) {
    note_sent(&senders[QUEUES].to_threads, number);
    return REAL(pthread_sigqueue)(thread, number, value);
}

/* A file sends SIGIO, unless F_SETSIG has given it another one, and a socket SIGURG as well. */
void note_owner(int number, bool is_thread) {
    uint64_t *to = is_thread ? &senders[OWNED_FILES].to_threads : &senders[OWNED_FILES].to_processes;
    note_sent(to, number ? number : SIGIO);
    note_sent(to, SIGURG);
}
