/* The functions that programs call instead of the C library's. */
#define _GNU_SOURCE
#include "provoke.h"

#include <dlfcn.h>
#include <errno.h>
#include <pthread.h>
#include <sched.h>
#include <semaphore.h>
#include <signal.h>
#include <stdlib.h>
#include <string.h>
#include <sys/time.h>
#include <threads.h>
#include <time.h>

#define EXPORT __attribute__((visibility("default")))
#define CALLER ((uintptr_t)__builtin_return_address(0))

/* Whether this thread is in a call of this library, so that what it takes there is passed through. */
static __thread volatile bool is_inside;
static bool is_planned;

/* The C library has two versions of functions that wait for conditions, of which programs call the second. */
#define CONDITION_VERSION "GLIBC_2.3.2"

/* What the C library writes into its locks: that a mutex is robust, that processes share it, of which kind it is, and that something has run once. */
#define ROBUST 16
#define OF_PROCESSES 128
#define KIND_OF_MUTEX 3
#define ONCE_DONE 2

static void *real_function(const char *name, const char *version) {
    void *found = version ? dlvsym(RTLD_NEXT, name, version) : NULL;
    return found ? found : dlsym(RTLD_NEXT, name);
}

#define REAL_OF(name, version)                                                                                         \
    ({                                                                                                                 \
        static void *known;                                                                                            \
        if (!known)                                                                                                    \
            known = real_function(#name, version);                                                                     \
        (__typeof__(&name))known;                                                                                      \
    })
#define REAL(name) REAL_OF(name, NULL)

int real_lock(void *lock) { return REAL(pthread_mutex_lock)(lock); }
int real_unlock(void *lock) { return REAL(pthread_mutex_unlock)(lock); }

static pthread_mutex_t signalling = PTHREAD_MUTEX_INITIALIZER; /* see below */

static void in_child(void) {
    is_inside = false;
    signalling = (pthread_mutex_t)PTHREAD_MUTEX_INITIALIZER;
    if (is_planned)
        forget_other_threads();
}

__attribute__((constructor)) static void begin(void) {
    const char *plan = getenv("LOCKDEP_PROVOKE_PLAN"), *file = getenv("LOCKDEP_PROVOKE_TABLE");
    struct stack first;
    is_inside = true;
    look_at_stack(&first, 0); /* loads what unwinds, now and not with locks held */
    if (plan && file && open_table(file) && read_plan(plan)) {
        pthread_atfork(NULL, NULL, in_child);
        is_planned = true;
    }
    is_inside = false;
}

static inline bool took(int answer) { return answer == 0 || answer == EOWNERDEAD; }

typedef int (*on_lock)(void *lock);

static bool is_passed_through(void) { return is_inside || !is_planned; }

/* A call asks for a lock, before which this thread may be held back. */
static void begin_taking(struct asked *asked) {
    is_inside = true;
    read_plan_again();
    asked->fits = look_at_call(&asked->stack, asked->caller);
    come_to(asked);
}

static void end_taking(struct asked *asked, bool is_taken) {
    if (is_taken)
        note_taken(asked);
    is_inside = false;
    if (is_taken && asked->fits.holds)
        send_signals(asked->fits.holds);
}

/* It waits from here on. */
static void begin_waiting(struct asked *asked) {
    if (!asked->stack.is_whole)
        look_at_stack(&asked->stack, asked->caller);
    begin_wait(asked);
}

/* A call that waits for a lock without an end. The lock is tried first, so that a wait is noted only if there is one. */
static int take(void *lock, struct asked asked, on_lock try, on_lock real, int busy) {
    if (is_passed_through())
        return real(lock);
    int before = errno;
    begin_taking(&asked);
    errno = before;
    int answer = try(lock);
    if (answer == busy) {
        begin_waiting(&asked);
        answer = real(lock);
        end_wait();
    }
    end_taking(&asked, took(answer));
    errno = before;
    return answer;
}

/* What is held after a call that fails at once, or waits only for a time. */
static int taken(struct asked asked, int answer) {
    if (is_passed_through() || !took(answer))
        return answer;
    int before = errno;
    is_inside = true;
    asked.fits = look_at_call(&asked.stack, asked.caller);
    end_taking(&asked, true);
    errno = before;
    return answer;
}

static void give(uint64_t lock) {
    if (!is_passed_through())
        note_given(lock);
}

/* What asks for a lock: a function for each type of locks, which the calls of these name. */
#define ASKED(number, of_mode, of_call, who)                                                                           \
    (struct asked) { .lock = number, .mode = of_mode, .call = of_call, .releasing = who, .caller = caller }
#define TAKING(asks, name, try, mode, type, busy)                                                                      \
    EXPORT int name(type *lock) { return take((void *)lock, asks(lock, mode, CALLER), (on_lock)REAL(try), (on_lock)REAL(name), busy); }
#define TRYING(asks, name, mode, parameters, arguments)                                                                \
    EXPORT int name parameters { return taken(asks(lock, mode, CALLER), REAL(name) arguments); }
#define GIVING(asks, name, type)                                                                                       \
    EXPORT int name(type *lock) {                                                                                      \
        give(asks(lock, MODE_WRITE, CALLER).lock);                                                                     \
        return REAL(name)(lock);                                                                                       \
    }

/* ---- Waits for conditions, which give the lock, and return only when they have it again. To hold a thread back before that, it waits with another
   lock, which who signals takes too: so no signal is lost. */

struct condition_wait {
    struct asked *asked;
    void *lock;
    struct held held;
    bool is_own; /* whether it waits with that lock */
};

static void begin_condition(struct condition_wait *wait) {
    int before = errno;
    struct asked *asked = wait->asked;
    wait->held = note_given(asked->lock);
    begin_taking(asked);
    begin_waiting(asked);
    wait->is_own = is_held_back(asked);
    if (wait->is_own) {
        real_lock(&signalling);
        real_unlock(wait->lock);
    }
    is_inside = false;
    errno = before;
}

/* A thread may also be cancelled in such a wait: then it has the lock, too. */
static void end_condition(struct condition_wait *wait) {
    int before = errno;
    struct asked *asked = wait->asked;
    is_inside = true;
    if (wait->is_own) {
        real_unlock(&signalling);
        come_back(asked);
        begin_wait(asked);
        real_lock(wait->lock);
    }
    end_wait();
    pass_point(count_taking(asked->caller), PASSED_TAKEN);
    note_retaken(&wait->held, asked->fits.holds);
    is_inside = false;
    errno = before;
}

#define WAITING(asks, name, version, parameters, arguments)                                                            \
    EXPORT int name parameters {                                                                                       \
        if (is_passed_through())                                                                                       \
            return REAL_OF(name, version) arguments;                                                                   \
        struct asked asked = asks(lock, MODE_WRITE, CALLER);                                                           \
        asked.call = CALL_CONDITION;                                                                                   \
        struct condition_wait wait __attribute__((cleanup(end_condition))) = {.asked = &asked, .lock = lock};          \
        begin_condition(&wait);                                                                                        \
        lock = wait.is_own ? (void *)&signalling : (void *)lock;                                                       \
        return REAL_OF(name, version) arguments;                                                                       \
    }

#define SIGNALLING(name, version, type)                                                                                \
    EXPORT int name(type *condition) {                                                                                 \
        if (is_passed_through())                                                                                       \
            return REAL_OF(name, version)(condition);                                                                  \
        real_lock(&signalling);                                                                                        \
        int answer = REAL_OF(name, version)(condition);                                                                \
        real_unlock(&signalling);                                                                                      \
        return answer;                                                                                                 \
    }

/* A change of the mask may let a signal come in while a lock is held. */
#define UNBLOCKING(name)                                                                                               \
    EXPORT int name(int how, const sigset_t *set, sigset_t *old) {                                                     \
        int answer = REAL(name)(how, set, old), before = errno;                                                        \
        if (!is_inside && is_planned && set)                                                                           \
            send_signals(held_orders());                                                                               \
        errno = before;                                                                                                \
        return answer;                                                                                                 \
    }

UNBLOCKING(pthread_sigmask)
UNBLOCKING(sigprocmask)

typedef const struct timespec *deadline;

/* ---- Mutexes. */

/* A mutex that is recursive, or looks for errors, refuses to be released by another thread than its holder. The system releases a robust one when its
   holder has ended, which others may see to. */
static struct asked mutex(const pthread_mutex_t *lock, enum mode mode, uintptr_t caller) {
    int flags = lock->__data.__kind, kind = flags & KIND_OF_MUTEX;
    bool is_strict = kind == PTHREAD_MUTEX_RECURSIVE || kind == PTHREAD_MUTEX_ERRORCHECK;
    return ASKED(flags & OF_PROCESSES ? number_of_lock(lock) : (uint64_t)(uintptr_t)lock, mode, CALL_LOCK,
                 flags & ROBUST ? RELEASED_BY_OTHERS : is_strict ? RELEASED_BY_HOLDER : RELEASED_BY_MISTAKE);
}

TAKING(mutex, pthread_mutex_lock, pthread_mutex_trylock, MODE_WRITE, pthread_mutex_t, EBUSY)
TRYING(mutex, pthread_mutex_trylock, MODE_WRITE, (pthread_mutex_t * lock), (lock))
TRYING(mutex, pthread_mutex_timedlock, MODE_WRITE, (pthread_mutex_t * lock, deadline until), (lock, until))
TRYING(mutex, pthread_mutex_clocklock, MODE_WRITE, (pthread_mutex_t * lock, clockid_t clock, deadline until), (lock, clock, until))
GIVING(mutex, pthread_mutex_unlock, pthread_mutex_t)

static struct asked of_c11(const mtx_t *lock, enum mode mode, uintptr_t caller) { return mutex((const pthread_mutex_t *)lock, mode, caller); }

TAKING(of_c11, mtx_lock, mtx_trylock, MODE_WRITE, mtx_t, thrd_busy)
TRYING(of_c11, mtx_trylock, MODE_WRITE, (mtx_t * lock), (lock))
TRYING(of_c11, mtx_timedlock, MODE_WRITE, (mtx_t *restrict lock, const struct timespec *restrict until), (lock, until))
GIVING(of_c11, mtx_unlock, mtx_t)

/* ---- Read-write locks. */

static struct asked rwlock(const pthread_rwlock_t *lock, enum mode mode, uintptr_t caller) {
    bool is_behind = lock->__data.__flags == PTHREAD_RWLOCK_PREFER_WRITER_NONRECURSIVE_NP;
    return ASKED(lock->__data.__shared ? number_of_lock(lock) : (uint64_t)(uintptr_t)lock, mode == MODE_READ && is_behind ? MODE_READ_BEHIND : mode,
                 CALL_LOCK, RELEASED_BY_MISTAKE);
}

TAKING(rwlock, pthread_rwlock_rdlock, pthread_rwlock_tryrdlock, MODE_READ, pthread_rwlock_t, EBUSY)
TRYING(rwlock, pthread_rwlock_tryrdlock, MODE_READ, (pthread_rwlock_t * lock), (lock))
TRYING(rwlock, pthread_rwlock_timedrdlock, MODE_READ, (pthread_rwlock_t * lock, deadline until), (lock, until))
TRYING(rwlock, pthread_rwlock_clockrdlock, MODE_READ, (pthread_rwlock_t * lock, clockid_t clock, deadline until), (lock, clock, until))
TAKING(rwlock, pthread_rwlock_wrlock, pthread_rwlock_trywrlock, MODE_WRITE, pthread_rwlock_t, EBUSY)
TRYING(rwlock, pthread_rwlock_trywrlock, MODE_WRITE, (pthread_rwlock_t * lock), (lock))
TRYING(rwlock, pthread_rwlock_timedwrlock, MODE_WRITE, (pthread_rwlock_t * lock, deadline until), (lock, until))
TRYING(rwlock, pthread_rwlock_clockwrlock, MODE_WRITE, (pthread_rwlock_t * lock, clockid_t clock, deadline until), (lock, clock, until))
GIVING(rwlock, pthread_rwlock_unlock, pthread_rwlock_t)

/* ---- Spin locks. Who waits for one isn't asleep. */

static struct asked spin_lock(pthread_spinlock_t *lock, enum mode mode, uintptr_t caller) {
    return ASKED(number_of_lock((const void *)lock), mode, CALL_SPIN, RELEASED_BY_MISTAKE);
}

TAKING(spin_lock, pthread_spin_lock, pthread_spin_trylock, MODE_WRITE, pthread_spinlock_t, EBUSY)
TRYING(spin_lock, pthread_spin_trylock, MODE_WRITE, (pthread_spinlock_t * lock), (lock))
GIVING(spin_lock, pthread_spin_unlock, pthread_spinlock_t)

/* ---- Semaphores, if they were recorded as locks. */

static struct asked semaphore(sem_t *lock, uintptr_t caller) { return ASKED(number_of_lock(lock), MODE_WRITE, CALL_SEMAPHORE, RELEASED_BY_ANYBODY); }

static bool are_semaphores_locks(void) {
    const char *also = getenv("LOCKDEP_ALSO");
    return also && strstr(also, "sem");
}

static int waited(sem_t *lock) { return REAL(sem_wait)(lock) == 0 ? 0 : errno; }
static int tried(sem_t *lock) { return REAL(sem_trywait)(lock) == 0 ? 0 : errno; }

static int answered(int error) {
    errno = error ? error : errno;
    return error ? -1 : 0;
}

EXPORT int sem_wait(sem_t *lock) {
    return are_semaphores_locks() ? answered(take(lock, semaphore(lock, CALLER), (on_lock)tried, (on_lock)waited, EAGAIN)) : REAL(sem_wait)(lock);
}

EXPORT int sem_trywait(sem_t *lock) {
    return are_semaphores_locks() ? answered(taken(semaphore(lock, CALLER), tried(lock))) : REAL(sem_trywait)(lock);
}

EXPORT int sem_post(sem_t *lock) {
    if (are_semaphores_locks())
        give(semaphore(lock, CALLER).lock);
    return REAL(sem_post)(lock);
}

/* ---- Conditions. */

#define CONDITION pthread_cond_t *condition, pthread_mutex_t *lock
#define CONDITION_OF_C11 cnd_t *restrict condition, mtx_t *restrict lock

WAITING(mutex, pthread_cond_wait, CONDITION_VERSION, (CONDITION), (condition, lock))
WAITING(mutex, pthread_cond_timedwait, CONDITION_VERSION, (CONDITION, deadline until), (condition, lock, until))
WAITING(mutex, pthread_cond_clockwait, NULL, (CONDITION, clockid_t clock, deadline until), (condition, lock, clock, until))
WAITING(of_c11, cnd_wait, NULL, (cnd_t * condition, mtx_t *lock), (condition, lock))
WAITING(of_c11, cnd_timedwait, NULL, (CONDITION_OF_C11, deadline until), (condition, lock, until))
SIGNALLING(pthread_cond_signal, CONDITION_VERSION, pthread_cond_t)
SIGNALLING(pthread_cond_broadcast, CONDITION_VERSION, pthread_cond_t)
SIGNALLING(cnd_signal, NULL, cnd_t)
SIGNALLING(cnd_broadcast, NULL, cnd_t)

/* ---- What runs once: who runs it holds it. */

struct once {
    struct asked *asked;
    void (*routine)(void);
};

static __thread struct once once;

static void end_once(uint64_t *lock) { give(*lock); }

static void run_once(void) {
    struct once own = once;
    uint64_t lock __attribute__((cleanup(end_once))) = own.asked->lock;
    end_wait();
    end_taking(own.asked, true);
    own.routine();
}

static int once_by(struct asked asked, pthread_once_t *control, void (*routine)(void)) {
    if (is_passed_through() || (__atomic_load_n(control, __ATOMIC_ACQUIRE) & ONCE_DONE))
        return REAL(pthread_once)(control, routine);
    begin_taking(&asked);
    begin_waiting(&asked);
    struct once before = once;
    once = (struct once){&asked, routine};
    int answer = REAL(pthread_once)(control, run_once);
    once = before;
    end_wait();
    is_inside = false;
    return answer;
}

static struct asked of_once(const void *control, uintptr_t caller) {
    return ASKED((uint64_t)(uintptr_t)control, MODE_WRITE, CALL_ONCE, RELEASED_BY_HOLDER);
}

EXPORT int pthread_once(pthread_once_t *control, void (*routine)(void)) { return once_by(of_once(control, CALLER), control, routine); }
EXPORT void call_once(once_flag *control, void (*routine)(void)) { once_by(of_once(control, CALLER), (pthread_once_t *)control, routine); }

/* ---- Variables of functions that are made when they are reached first: who makes one holds its guard. The C++ library may have been loaded for one
   library alone; if there is none, the guard is kept here. */

typedef uint8_t guard; /* the first of eight bytes: it is made; the second one: somebody makes it */

EXPORT int __cxa_guard_acquire(guard *g);
EXPORT void __cxa_guard_release(guard *g);
EXPORT void __cxa_guard_abort(guard *g);

static int acquire_here(guard *g) {
    guard nobody = 0;
    while (!__atomic_load_n(&g[0], __ATOMIC_ACQUIRE)) {
        if (__atomic_compare_exchange_n(&g[1], &nobody, 1, false, __ATOMIC_ACQ_REL, __ATOMIC_RELAXED))
            return 1;
        nobody = 0;
        sched_yield();
    }
    return 0;
}

static void abort_here(guard *g) { __atomic_store_n(&g[1], 0, __ATOMIC_RELEASE); }

static void release_here(guard *g) {
    __atomic_store_n(&g[0], 1, __ATOMIC_RELEASE);
    abort_here(g);
}

static struct guards {
    int (*acquire)(guard *);
    void (*release)(guard *), (*give_up)(guard *);
} guards;
static pthread_once_t guards_are_found = PTHREAD_ONCE_INIT;

static void find_guards(void) {
    void *library = dlopen("libstdc++.so.6", RTLD_LAZY | RTLD_NOLOAD), *of = dlsym(RTLD_NEXT, "__cxa_guard_acquire") || !library ? RTLD_NEXT : library;
    guards = (struct guards){(int (*)(guard *))dlsym(of, "__cxa_guard_acquire"), (void (*)(guard *))dlsym(of, "__cxa_guard_release"),
                             (void (*)(guard *))dlsym(of, "__cxa_guard_abort")};
    if (!guards.acquire || !guards.release || !guards.give_up)
        guards = (struct guards){acquire_here, release_here, abort_here};
}

static const struct guards *real_guards(void) {
    REAL(pthread_once)(&guards_are_found, find_guards);
    return &guards;
}

EXPORT int __cxa_guard_acquire(guard *g) {
    const struct guards *real = real_guards();
    if (is_passed_through() || __atomic_load_n(&g[0], __ATOMIC_ACQUIRE))
        return real->acquire(g);
    struct asked asked = of_once(g, CALLER);
    begin_taking(&asked);
    begin_waiting(&asked);
    int is_ours = real->acquire(g);
    end_wait();
    end_taking(&asked, is_ours);
    return is_ours;
}

EXPORT void __cxa_guard_release(guard *g) {
    give((uint64_t)(uintptr_t)g);
    real_guards()->release(g);
}

EXPORT void __cxa_guard_abort(guard *g) {
    give((uint64_t)(uintptr_t)g);
    real_guards()->give_up(g);
}

/* ---- Threads. */

struct started {
    uint64_t path;
    void *(*of_pthread)(void *);
    int (*of_c11)(void *);
    void *given;
};

static struct started begun(void *with) {
    struct started started = *(struct started *)with;
    is_inside = true;
    free(with);
    begin_path(started.path);
    if (is_followed())
        is_known_thread();
    is_inside = false;
    return started;
}

static void *begin_pthread(void *with) {
    struct started started = begun(with);
    return started.of_pthread(started.given);
}

static int begin_of_c11(void *with) {
    struct started started = begun(with);
    return started.of_c11(started.given);
}

/* What a new thread begins with; NULL if there is no memory, or if it begins without this library. */
static struct started *start_of(struct started started) {
    if (is_passed_through())
        return NULL;
    is_inside = true;
    count_start(&started.path);
    struct started *kept = malloc(sizeof *kept);
    if (kept)
        *kept = started;
    is_inside = false;
    return kept;
}

EXPORT int pthread_create(pthread_t *thread, const pthread_attr_t *attributes, void *(*routine)(void *), void *given) {
    struct started *start = start_of((struct started){.of_pthread = routine, .given = given});
    int answer = REAL(pthread_create)(thread, attributes, start ? begin_pthread : routine, start ? start : given);
    if (answer != 0)
        free(start);
    return answer;
}

EXPORT int thrd_create(thrd_t *thread, thrd_start_t routine, void *given) {
    struct started *start = start_of((struct started){.of_c11 = routine, .given = given});
    int answer = REAL(thrd_create)(thread, start ? begin_of_c11 : routine, start ? start : given);
    if (answer != thrd_success)
        free(start);
    return answer;
}

static struct asked end_of(uint64_t thread, uintptr_t caller) { return ASKED(thread, MODE_WRITE, CALL_JOIN, RELEASED_BY_HOLDER); }

/* Who joins a thread waits for what that one alone can give. */
#define JOINING(name, type, result)                                                                                    \
    EXPORT int name(type thread, result *value) {                                                                      \
        if (is_passed_through())                                                                                       \
            return REAL(name)(thread, value);                                                                          \
        struct asked asked = end_of((uint64_t)thread, CALLER);                                                         \
        begin_taking(&asked);                                                                                          \
        begin_waiting(&asked);                                                                                         \
        is_inside = false;                                                                                             \
        int answer = REAL(name)(thread, value);                                                                        \
        end_wait();                                                                                                    \
        pass_point(count_taking(asked.caller), PASSED_RELEASED);                                                       \
        return answer;                                                                                                 \
    }

JOINING(pthread_join, pthread_t, void *)
JOINING(thrd_join, thrd_t, int)

EXPORT int pthread_setcanceltype(int type, int *old) {
    is_ended_anywhere = type == PTHREAD_CANCEL_ASYNCHRONOUS;
    return REAL(pthread_setcanceltype)(type, old);
}

/* ---- Timers. */

#define OWN_OF_PROCESS 1 /* `alarm` and ITIMER_REAL are one timer */
#define OWN_BY_WORK 2    /* and two have the time in which the process runs */
#define NANOSECONDS_OF_SECOND 1000000000ull
#define NANOSECONDS_OF_MICROSECOND 1000ull

static uint64_t own_of(timer_t timer) { return 2 * OWN_BY_WORK + (uint64_t)(uintptr_t)timer; }
static uint64_t of_spec(struct timespec time) { return (uint64_t)time.tv_sec * NANOSECONDS_OF_SECOND + (uint64_t)time.tv_nsec; }
static uint64_t of_value(struct timeval time) { return (uint64_t)time.tv_sec * NANOSECONDS_OF_SECOND + (uint64_t)time.tv_usec * NANOSECONDS_OF_MICROSECOND; }

static void arm_own(__itimer_which_t which, uint64_t in, uint64_t again) {
    static const int signals[] = {[ITIMER_REAL] = SIGALRM, [ITIMER_VIRTUAL] = SIGVTALRM, [ITIMER_PROF] = SIGPROF};
    if (!is_planned || which > ITIMER_PROF)
        return;
    uint64_t own = which == ITIMER_REAL ? OWN_OF_PROCESS : OWN_BY_WORK + (which == ITIMER_PROF);
    know_timer(own, signals[which]);
    arm_timer(own, in, again, which != ITIMER_REAL);
}

EXPORT unsigned alarm(unsigned seconds) {
    arm_own(ITIMER_REAL, seconds * NANOSECONDS_OF_SECOND, 0);
    return REAL(alarm)(seconds);
}

EXPORT int setitimer(__itimer_which_t which, const struct itimerval *set, struct itimerval *old) {
    if (set)
        arm_own(which, of_value(set->it_value), of_value(set->it_interval));
    return REAL(setitimer)(which, set, old);
}

EXPORT int timer_create(clockid_t clock, struct sigevent *event, timer_t *timer) {
    int answer = REAL(timer_create)(clock, event, timer);
    if (answer == 0 && is_planned && (!event || event->sigev_notify != SIGEV_NONE))
        know_timer(own_of(*timer), !event ? SIGALRM : event->sigev_notify == SIGEV_THREAD ? TIMER_RUNS : event->sigev_signo);
    return answer;
}

EXPORT int timer_settime(timer_t timer, int flags, const struct itimerspec *set, struct itimerspec *old) {
    if (is_planned && set)
        arm_timer(own_of(timer), of_spec(set->it_value), of_spec(set->it_interval), flags & TIMER_ABSTIME);
    return REAL(timer_settime)(timer, flags, set, old);
}

EXPORT int timer_delete(timer_t timer) {
    if (is_planned)
        forget_timer(own_of(timer));
    return REAL(timer_delete)(timer);
}
