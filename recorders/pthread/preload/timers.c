/* Which timers are armed: a signal that only timers send doesn't come in where none is. A timer that was armed by another program before, or that there
   is no room for, isn't known: then a signal of it counts as one that others may send. */
#include "held.h"

#include <signal.h>
#include <sys/time.h>
#include <time.h>
#include <unistd.h>

#define REALS(X) X(alarm) X(setitimer) X(timer_settime) X(timer_delete)
REALS(KNOWN_REAL)
FIND_AT_START(REALS)

#define KNOWN_TIMERS 64
#define OWN_TIMERS 3 /* those of the process, by the numbers of `setitimer` */

static struct timer {
    uintptr_t which; /* 0: none; those of the process come first, and need none */
    int number;      /* of its signal */
    bool is_armed, is_repeated;
} timers[OWN_TIMERS + KNOWN_TIMERS] = {{1, SIGALRM, false, false}, {1, SIGVTALRM, false, false}, {1, SIGPROF, false, false}};

bool are_timers_untold;

void tell_timers(void) {
    uint64_t signals = 0;
    STORE(&are_timers_untold, false);
    for (int i = 0; i < OWN_TIMERS + KNOWN_TIMERS; i++)
        if (LOAD(&timers[i].which) && LOAD(&timers[i].is_armed))
            signals |= bit_of(timers[i].number);
    arm(signals);
}

static uintptr_t which_of(timer_t timer) { return (uintptr_t)timer + 2; }

static struct timer *timer_of(timer_t timer) {
    for (int i = OWN_TIMERS; i < OWN_TIMERS + KNOWN_TIMERS; i++)
        if (LOAD(&timers[i].which) == which_of(timer))
            return &timers[i];
    return NULL;
}

void know_timer(timer_t timer, int number) {
    for (int i = OWN_TIMERS; number >= 1 && number <= RAW_SIGNALS && i < OWN_TIMERS + KNOWN_TIMERS; i++) {
        uintptr_t none = 0;
        if (!SWAP(&timers[i].which, &none, which_of(timer)))
            continue;
        timers[i].number = number;
        return;
    }
}

/* What arms is noted before it, since the signal may come at once, and what disarms after it. */
static void set_timer(struct timer *timer, bool is_armed, bool is_repeated) {
    if (!timer)
        return;
    STORE(&timer->is_repeated, is_repeated);
    STORE(&timer->is_armed, is_armed);
    tell_timers();
}

/* Whether one of the known timers has sent the signal that comes in. A timer that fires once is disarmed then, but only if no other one can have sent it.
   The recorder notes that when the handler returns; a handler that jumps leaves the thread as it was. */
bool has_fired(int number, const siginfo_t *info) {
    struct timer *found = NULL;
    int count = 0;
    if (info->si_code != SI_TIMER && info->si_code != SI_KERNEL)
        return false;
    for (int i = 0; i < OWN_TIMERS + KNOWN_TIMERS; i++) {
        if (!LOAD(&timers[i].which) || timers[i].number != number || !LOAD(&timers[i].is_armed))
            continue;
        found = &timers[i];
        count++;
    }
    if (count == 1 && !LOAD(&found->is_repeated)) {
        STORE(&found->is_armed, false);
        STORE(&are_timers_untold, true);
    }
    return count != 0;
}

EXPORT unsigned alarm(unsigned seconds) {
    if (seconds)
        set_timer(&timers[ITIMER_REAL], true, false);
    unsigned left = REAL(alarm)(seconds);
    if (!seconds)
        set_timer(&timers[ITIMER_REAL], false, false);
    return left;
}

static bool is_some(struct timeval time) { return time.tv_sec || time.tv_usec; }
static bool is_some_of(struct timespec time) { return time.tv_sec || time.tv_nsec; }

EXPORT int setitimer(__itimer_which_t which, const struct itimerval *set, struct itimerval *old) {
    bool is_known = set && (unsigned)which < OWN_TIMERS, is_armed = is_known && is_some(set->it_value);
    if (is_armed)
        set_timer(&timers[which], true, is_some(set->it_interval));
    int answer = REAL(setitimer)(which, set, old);
    if (is_known && !is_armed)
        set_timer(&timers[which], false, false);
    return answer;
}

EXPORT int timer_settime(timer_t timer, int flags, const struct itimerspec *set, struct itimerspec *old) {
    bool is_armed = set && is_some_of(set->it_value);
    if (is_armed)
        set_timer(timer_of(timer), true, is_some_of(set->it_interval));
    int answer = REAL(timer_settime)(timer, flags, set, old);
    if (set && !is_armed)
        set_timer(timer_of(timer), false, false);
    return answer;
}

EXPORT int timer_delete(timer_t timer) {
    struct timer *known = timer_of(timer);
    int answer = REAL(timer_delete)(timer);
    set_timer(known, false, false);
    if (known)
        STORE(&known->which, 0);
    return answer;
}
