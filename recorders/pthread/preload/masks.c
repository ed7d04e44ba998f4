/* Which signals are blocked in a thread. What a call unblocks is noted before it, since the signal may come in meanwhile, and what it blocks
   after it. A call that unblocks, or that tells the program what was blocked before, asks the system for that, so what wasn't seen is known again
   then. To ask takes a sixth of such a call's time, so one that only blocks doesn't. */
#include "held.h"

#include <errno.h>
#include <poll.h>
#include <pthread.h>
#include <signal.h>
#include <stddef.h>
#include <sys/epoll.h>
#include <sys/select.h>
#include <ucontext.h>

#pragma GCC diagnostic ignored "-Wdeprecated-declarations"

/* (not in each glibc, or not in its headers) */
int epoll_pwait2(int epoll, struct epoll_event *events, int most, const struct timespec *time, const sigset_t *set);
int __ppoll_chk(struct pollfd *all, nfds_t count, const struct timespec *time, const sigset_t *set, size_t bytes);
int __sigpause(int signal_or_mask, int is_signal);
int __xpg_sigpause(int number);

#define REALS(X)                                                                                                       \
    X(pthread_sigmask) X(sigprocmask) X(sighold) X(sigrelse) X(sigblock) X(sigsetmask) X(sigsuspend) X(ppoll) X(__ppoll_chk) X(pselect) \
    X(epoll_pwait) X(epoll_pwait2) X(__sigpause) X(__xpg_sigpause) X(setcontext) X(swapcontext)
REALS(KNOWN_REAL)
FIND_AT_START(REALS)

static uint64_t word_of_set(const sigset_t *set) { return *(const uint64_t *)set; }

#define NEVER_BLOCKED (bit_of(SIGKILL) | bit_of(SIGSTOP))

/* A handler that unblocks a signal may do so in code that has it blocked. */
static void note_unblocked(uint64_t signals) {
    if (signals && level_of_runs() && is_recording())
        __atomic_or_fetch(&arena->unblocked_by_runs, signals, __ATOMIC_RELAXED);
}

/* What it unblocks by itself is unblocked wherever it comes in. */
static void note_opened(uint64_t signals) {
    uint32_t source = signals && is_recording() ? run_source() : 0;
    if (source)
        __atomic_or_fetch(&((struct raw_source *)part_of(RAW_SOURCES, source))->unblocks, signals, __ATOMIC_RELAXED);
}

void set_mask(uint64_t mask, struct call call) {
    uint64_t before = self.mask;
    self.mask = mask & ~NEVER_BLOCKED;
    if (!((before ^ self.mask) & LOAD(&handled)))
        return;
    note_unblocked(before & ~self.mask);
    turned(call);
}

static uint64_t mask_after(int how, uint64_t before, uint64_t set) {
    return how == SIG_BLOCK ? before | set : how == SIG_UNBLOCK ? before & ~set : set;
}

/* ---- Changing it. A handler may come in meanwhile, and change it for itself. */

static bool begin_change(void) {
    bool was_changing = self.is_changing_mask;
    self.is_changing_mask = true;
    return was_changing;
}

static void end_change(bool was_changing) { self.is_changing_mask = was_changing; }

typedef int masking(int how, const sigset_t *set, sigset_t *old);

__attribute__((noinline)) static int change_mask(masking *real, int how, const sigset_t *set, sigset_t *old, struct call call) {
    sigset_t mine;
    uint64_t new = set ? word_of_set(set) : 0;
    know_mask();
    uint64_t known = self.mask;
    bool was_changing = begin_change();
    if (set)
        set_mask(known & mask_after(how, known, new), call);
    bool is_asking = old || !set || how == SIG_UNBLOCK; /* (if all of it is set, what was before doesn't matter) */
    sigset_t *to = old ? old : is_asking ? &mine : NULL;
    int answer = real(how, set, to);
    uint64_t before = answer == 0 && is_asking ? word_of_set(to) : known;
    set_mask(answer == 0 && set ? mask_after(how, before, new) : before, call);
    note_opened(how == SIG_UNBLOCK && answer == 0 ? new : 0);
    end_change(was_changing);
    return answer;
}

#define MASKING(name)                                                                                                  \
    EXPORT int name(int how, const sigset_t *set, sigset_t *old) {                                                     \
        masking *real = REAL(name);                                                                                    \
        return is_following() ? KEEPING_FRAME(change_mask(real, how, set, old, HERE)) : real(how, set, old);           \
    }

MASKING(pthread_sigmask)
MASKING(sigprocmask)

/* Older calls, which take one signal, or a mask of the first 32. */
#define HOLDING(name, may_fail, blocked)                                                                               \
    EXPORT int name(int what) {                                                                                        \
        if (!is_following())                                                                                           \
            return REAL(name)(what);                                                                                   \
        know_mask();                                                                                                   \
        uint64_t known = self.mask, then = blocked;                                                                    \
        bool was_changing = begin_change();                                                                            \
        set_mask(known & then, HERE);                                                                                  \
        int answer = REAL(name)(what);                                                                                 \
        set_mask((may_fail) && answer < 0 ? known : then, HERE);                                                       \
        end_change(was_changing);                                                                                      \
        return answer;                                                                                                 \
    }

static uint64_t bit_if_any(int number) { return number >= 1 && number <= RAW_SIGNALS ? bit_of(number) : 0; }

HOLDING(sighold, true, known | bit_if_any(what))
HOLDING(sigrelse, true, known & ~bit_if_any(what))
HOLDING(sigblock, false, known | (uint32_t)what)
HOLDING(sigsetmask, false, (uint32_t)what)

/* ---- Waiting with another one. */

struct waiting {
    uint64_t before, waiting_before;
    uint8_t level_before;
    bool is_one;
    struct call call;
};

static struct waiting begin_wait(bool is_one, uint64_t mask, struct call call) {
    struct waiting w = {.is_one = is_one && is_following(), .call = call};
    if (!w.is_one)
        return w;
    know_mask();
    w.before = self.mask;
    w.waiting_before = self.waiting_mask;
    w.level_before = self.waiting_level;
    self.waiting_mask = mask & ~NEVER_BLOCKED;
    __atomic_signal_fence(__ATOMIC_SEQ_CST);
    self.waiting_level = (uint8_t)(level_of_runs() + 1);
    set_mask(mask, call);
    return w;
}

static void end_wait(struct waiting *w) {
    if (!w->is_one)
        return;
    bool was_changing = begin_change();
    self.waiting_level = w->level_before;
    self.waiting_mask = w->waiting_before;
    set_mask(w->before, w->call);
    end_change(was_changing);
}

/* They may be cancelled meanwhile. */
#define WAITING(name, is_one, mask, parameters, arguments)                                                             \
    EXPORT int name parameters {                                                                                       \
        struct waiting w __attribute__((cleanup(end_wait))) = begin_wait(is_one, (is_one) ? (mask) : 0, HERE);         \
        return REAL(name) arguments;                                                                                   \
    }

WAITING(sigsuspend, set, word_of_set(set), (const sigset_t *set), (set))
WAITING(ppoll, set, word_of_set(set), (struct pollfd * all, nfds_t count, const struct timespec *time, const sigset_t *set), (all, count, time, set))
WAITING(__ppoll_chk, set, word_of_set(set), (struct pollfd * all, nfds_t count, const struct timespec *time, const sigset_t *set, size_t bytes),
        (all, count, time, set, bytes))
WAITING(pselect, set, word_of_set(set), (int count, fd_set *in, fd_set *out, fd_set *odd, const struct timespec *time, const sigset_t *set),
        (count, in, out, odd, time, set))
WAITING(epoll_pwait, set, word_of_set(set), (int epoll, struct epoll_event *events, int most, int time, const sigset_t *set),
        (epoll, events, most, time, set))
WAITING(__xpg_sigpause, true, self.mask & ~bit_if_any(number), (int number), (number))
WAITING(__sigpause, true, is_signal ? self.mask & ~bit_if_any(what) : (uint32_t)what, (int what, int is_signal), (what, is_signal))

/* The header gives the name to another one. */
EXPORT int pause_with(int mask) __asm__("sigpause");
int pause_with(int mask) {
    static void *known;
    struct waiting w __attribute__((cleanup(end_wait))) = begin_wait(true, (uint32_t)mask, HERE);
    return ((int (*)(int))real_function(&known, "sigpause"))(mask);
}

/* A program may ask whether the C library has it. */
EXPORT int epoll_pwait2(int epoll, struct epoll_event *events, int most, const struct timespec *time, const sigset_t *set) {
    struct waiting w __attribute__((cleanup(end_wait))) = begin_wait(set, set ? word_of_set(set) : 0, HERE);
    __typeof__(&epoll_pwait2) real = REAL(epoll_pwait2);
    if (real)
        return real(epoll, events, most, time, set);
    errno = ENOSYS;
    return -1;
}

/* ---- Contexts, which have a mask and a stack. */

EXPORT int setcontext(const ucontext_t *to) {
    if (is_following())
        leave_for(to, HERE);
    return REAL(setcontext)(to);
}

EXPORT int swapcontext(ucontext_t *from, const ucontext_t *to) {
    if (!is_following())
        return REAL(swapcontext)(from, to);
    leave_for(to, HERE);
    int answer = REAL(swapcontext)(from, to);
    if (answer == 0)
        set_mask(word_of_set(&from->uc_sigmask), HERE);
    return answer;
}
