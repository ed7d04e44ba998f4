/* The functions that programs call instead of glibc's. */
#include "held.h"

#include <errno.h>
#include <pthread.h>
#include <sched.h>
#include <string.h>
#include <threads.h>
#include <time.h>

/* ---- The real functions. */

#define REALS(X)                                                                                                          \
    X(pthread_mutex_init) X(pthread_mutex_destroy) X(pthread_mutex_lock) X(pthread_mutex_trylock)                         \
    X(pthread_mutex_timedlock) X(pthread_mutex_clocklock) X(pthread_mutex_unlock) X(pthread_rwlock_init)                  \
    X(pthread_rwlock_destroy) X(pthread_rwlock_rdlock) X(pthread_rwlock_tryrdlock) X(pthread_rwlock_timedrdlock)          \
    X(pthread_rwlock_clockrdlock) X(pthread_rwlock_wrlock) X(pthread_rwlock_trywrlock) X(pthread_rwlock_timedwrlock)      \
    X(pthread_rwlock_clockwrlock) X(pthread_rwlock_unlock) X(pthread_spin_init) X(pthread_spin_destroy)                   \
    X(pthread_spin_lock) X(pthread_spin_trylock) X(pthread_spin_unlock) X(pthread_cond_wait) X(pthread_cond_timedwait)    \
    X(pthread_cond_clockwait) X(mtx_init) X(mtx_destroy) X(mtx_lock) X(mtx_timedlock) X(mtx_trylock) X(mtx_unlock)        \
    X(cnd_wait) X(cnd_timedwait) X(pthread_cond_signal) X(pthread_cond_broadcast) X(cnd_signal) X(cnd_broadcast)          \
    X(pthread_create)

REALS(KNOWN_REAL)

static int resolve_state; /* 0 not begun, 1 under way, 2 done */
/* Volatile, since the C library declares its functions as if none of them could call us. */
static EARLY_THREAD_LOCAL volatile bool resolving;

/* Whether the real functions can be found when they are called. Where that takes more than a look at what the libraries have, all are
   looked for at once, since the loader's lock may not be waited for later. That may call malloc, and a malloc of the program's own may
   lock: such a call of the thread that looks them up does nothing, nor does one by a signal's handler that interrupts it. Others wait. */
static bool look_up_all(void) {
    if (resolving)
        return false;
    resolving = true; /* before the state says so: a handler that comes then may not wait for what it has interrupted */
    int state = 0;
    if (SWAP(&resolve_state, &state, 1)) {
        REALS(FIND_REAL)
        STORE(&resolve_state, 2);
    }
    resolving = false;
    while (LOAD(&resolve_state) != 2)
        sched_yield();
    begin_once();
    return true;
}

static bool look_up(void) {
    if (!finds_quickly())
        return look_up_all();
    STORE(&resolve_state, 2);
    begin_once();
    return true;
}

__attribute__((constructor)) static void at_start(void) { look_up(); }

static inline bool resolved(void) { return LIKELY(LOAD(&resolve_state) == 2) || look_up(); }

/* The real function, if the real functions can be found; else NULL. One that is known is all that has to be looked at. */
#define READY(name) ((__typeof__(&name))ready(&real_##name, #name))
__attribute__((noinline)) static void *make_ready(void **known, const char *name) { return resolved() ? find_real(known, name) : NULL; }
static inline void *ready(void **known, const char *name) {
    void *real = LOAD(known);
    return LIKELY(real) ? real : make_ready(known, name);
}

/* ---- Acquisitions. A call has taken the lock if it returns 0, or if the owner died with a robust mutex held. */

static inline bool took(int answer) { return answer == 0 || answer == EOWNERDEAD; }

/* A call that takes a lock or fails at once. */
#define TRYING(name, mode, parameters, arguments)                                                                      \
    EXPORT int name parameters {                                                                                       \
        __typeof__(&name) real = READY(name);                                                                          \
        if (!real)                                                                                                     \
            return 0;                                                                                                  \
        int answer = real arguments;                                                                                   \
        tried((uintptr_t)lock, !took(answer), HERE);                                                                   \
        if (took(answer))                                                                                              \
            acquired((uintptr_t)lock, mode, KIND_OF(lock), HERE);                                                      \
        return answer;                                                                                                 \
    }

/* A call that may wait. The lock is tried first; only if it is taken by another is it waited for, and that is written before. What
   a call would refuse for another reason than that, it refuses as before: `is_sound` says that it may be tried. What is taken again is
   looked up right there in the calls that programs make often: that takes room in each. */
#define TAKING(name, try, taken, mode, is_sound, is_often, parameters, arguments)                                      \
    __attribute__((noinline)) static int wait_by_##name AND_MORE parameters {                                          \
        bool is_taken = answer == taken, is_pending = is_taken && begin_pending((uintptr_t)lock, mode, KIND_OF(lock), call); \
        if (is_taken)                                                                                                  \
            answer = REAL(name) arguments;                                                                             \
        if (is_pending ? !end_pending((uintptr_t)lock, took(answer), call) : took(answer))                             \
            acquired((uintptr_t)lock, mode, KIND_OF(lock), call);                                                      \
        return answer;                                                                                                 \
    }                                                                                                                  \
    LINED_UP EXPORT int name parameters {                                                                              \
        __typeof__(&try) real_try = READY(try);                                                                        \
        if (!real_try)                                                                                                 \
            return 0;                                                                                                  \
        int answer = is_sound ? real_try(lock) : taken;                                                                \
        if (UNLIKELY(answer != 0))                                                                                     \
            return KEEPING_FRAME(wait_by_##name AND_THESE arguments);                                                  \
        if (!is_often)                                                                                                 \
            acquired((uintptr_t)lock, mode, KIND_OF(lock), HERE);                                                      \
        else if (!acquired_again((uintptr_t)lock, mode, KIND_OF(lock), HERE))                                          \
            acquired_anew((uintptr_t)lock, mode, KIND_OF(lock), HERE);                                                 \
        return 0;                                                                                                      \
    }
#define AND_MORE(...) (__VA_ARGS__, int answer, struct call call)
#define AND_THESE(...) (__VA_ARGS__, answer, HERE)

#define KIND_OF(lock)                                                                                                  \
    _Generic((lock), pthread_mutex_t *: KIND_MUTEX, mtx_t *: KIND_MUTEX, pthread_rwlock_t *: KIND_RWLOCK, default: KIND_SPIN)

#define RELEASING(name, type)                                                                                          \
    __attribute__((noinline)) static int by_##name(type *lock, struct call call) {                                     \
        __typeof__(&name) real = READY(name);                                                                          \
        if (!real)                                                                                                     \
            return 0;                                                                                                  \
        if (KNOWS_OWNER(lock)) {                                                                                       \
            if (UNLIKELY(!releasing_own((uintptr_t)lock, call)))                                                       \
                return release_unseen((int (*)(void *))real, (void *)lock, call);                                      \
        } else {                                                                                                       \
            releasing((uintptr_t)lock, call);                                                                          \
        }                                                                                                              \
        return real(lock);                                                                                             \
    }                                                                                                                  \
    LINED_UP EXPORT int name(type *lock) {                                                                             \
        __typeof__(&name) real = (__typeof__(&name))LOAD(&real_##name);                                                \
        if (LIKELY(real && released_again((uintptr_t)lock, HERE)))                                                     \
            return real(lock);                                                                                         \
        return KEEPING_FRAME(by_##name(lock, HERE));                                                                   \
    }

/* A mutex that refuses to be released by a thread that didn't take it: one that is recursive, checked, robust, or lends its holder a
   priority. */
#define KNOWS_OWNER(lock) (KIND_OF(lock) == KIND_MUTEX && knows_owner((const pthread_mutex_t *)(lock)))

#define ROBUST_OR_LENDING (16 | 32)

static inline bool knows_owner(const pthread_mutex_t *lock) {
    int kind = lock->__data.__kind, basic = kind & MUTEX_KIND_BITS;
    return basic == PTHREAD_MUTEX_RECURSIVE_NP || basic == PTHREAD_MUTEX_ERRORCHECK_NP || kind & ROBUST_OR_LENDING;
}

/* Of a mutex that knows its owner, which this thread wasn't seen to be: a call that fails ends nobody's hold. */
__attribute__((noinline)) static int release_unseen(int (*release)(void *), void *lock, struct call call) {
    int answer = release(lock);
    if (answer == 0)
        released_unseen((uintptr_t)lock, call);
    return answer;
}

#define DESTROYING(name, type)                                                                                         \
    EXPORT int name(type *lock) {                                                                                      \
        if (!resolved())                                                                                               \
            return 0;                                                                                                  \
        int answer = REAL(name)(lock);                                                                                 \
        if (answer == 0)                                                                                               \
            destroyed((uintptr_t)lock, HERE);                                                                          \
        return answer;                                                                                                 \
    }

#define INITIALISING(name, type, parameter, argument)                                                                  \
    EXPORT int name(type *lock, parameter) {                                                                           \
        if (!resolved())                                                                                               \
            return 0;                                                                                                  \
        int answer = REAL(name)(lock, argument);                                                                       \
        if (answer == 0)                                                                                               \
            initialised((uintptr_t)lock, HERE);                                                                        \
        return answer;                                                                                                 \
    }

typedef const struct timespec *deadline;

INITIALISING(pthread_mutex_init, pthread_mutex_t, const pthread_mutexattr_t *how, how)
DESTROYING(pthread_mutex_destroy, pthread_mutex_t)
TAKING(pthread_mutex_lock, pthread_mutex_trylock, EBUSY, MODE_WRITE, true, true, (pthread_mutex_t * lock), (lock))
TRYING(pthread_mutex_trylock, MODE_TRY_WRITE, (pthread_mutex_t * lock), (lock))
TAKING(pthread_mutex_timedlock, pthread_mutex_trylock, EBUSY, MODE_WRITE | RAW_TIMED, true, false, (pthread_mutex_t * lock, deadline until), (lock, until))
TAKING(pthread_mutex_clocklock, pthread_mutex_trylock, EBUSY, MODE_WRITE | RAW_TIMED, IS_CLOCK(clock), false, (pthread_mutex_t * lock, clockid_t clock, deadline until), (lock, clock, until))
RELEASING(pthread_mutex_unlock, pthread_mutex_t)

/* A read-write lock of glibc lets readers pass waiting writers, unless it was made to prefer writers. */
static uint8_t reads(const pthread_rwlock_t *lock) {
    return lock->__data.__flags == PTHREAD_RWLOCK_PREFER_WRITER_NONRECURSIVE_NP ? MODE_READ : MODE_REC_READ;
}

INITIALISING(pthread_rwlock_init, pthread_rwlock_t, const pthread_rwlockattr_t *how, how)
DESTROYING(pthread_rwlock_destroy, pthread_rwlock_t)
TAKING(pthread_rwlock_rdlock, pthread_rwlock_tryrdlock, EBUSY, reads(lock), true, true, (pthread_rwlock_t * lock), (lock))
TRYING(pthread_rwlock_tryrdlock, (uint8_t)(reads(lock) + TRIES), (pthread_rwlock_t * lock), (lock))
TAKING(pthread_rwlock_timedrdlock, pthread_rwlock_tryrdlock, EBUSY, reads(lock) | RAW_TIMED, is_time(until), false, (pthread_rwlock_t * lock, deadline until), (lock, until))
TAKING(pthread_rwlock_clockrdlock, pthread_rwlock_tryrdlock, EBUSY, reads(lock) | RAW_TIMED, IS_CLOCK(clock) && is_time(until), false, (pthread_rwlock_t * lock, clockid_t clock, deadline until), (lock, clock, until))
TAKING(pthread_rwlock_wrlock, pthread_rwlock_trywrlock, EBUSY, MODE_WRITE, true, true, (pthread_rwlock_t * lock), (lock))
TRYING(pthread_rwlock_trywrlock, MODE_TRY_WRITE, (pthread_rwlock_t * lock), (lock))
TAKING(pthread_rwlock_timedwrlock, pthread_rwlock_trywrlock, EBUSY, MODE_WRITE | RAW_TIMED, is_time(until), false, (pthread_rwlock_t * lock, deadline until), (lock, until))
TAKING(pthread_rwlock_clockwrlock, pthread_rwlock_trywrlock, EBUSY, MODE_WRITE | RAW_TIMED, IS_CLOCK(clock) && is_time(until), false, (pthread_rwlock_t * lock, clockid_t clock, deadline until), (lock, clock, until))
RELEASING(pthread_rwlock_unlock, pthread_rwlock_t)

INITIALISING(pthread_spin_init, pthread_spinlock_t volatile, int shared, shared)
DESTROYING(pthread_spin_destroy, pthread_spinlock_t volatile)
TAKING(pthread_spin_lock, pthread_spin_trylock, EBUSY, MODE_WRITE, true, true, (pthread_spinlock_t volatile *lock), (lock))
TRYING(pthread_spin_trylock, MODE_TRY_WRITE, (pthread_spinlock_t volatile *lock), (lock))
RELEASING(pthread_spin_unlock, pthread_spinlock_t volatile)

/* C11's locks are the same objects, but glibc takes them without calling the functions above. */
EXPORT int mtx_init(mtx_t *lock, int kind) {
    if (!resolved())
        return thrd_success;
    int answer = REAL(mtx_init)(lock, kind);
    if (answer == thrd_success)
        initialised((uintptr_t)lock, HERE);
    return answer;
}

EXPORT void mtx_destroy(mtx_t *lock) {
    if (!resolved())
        return;
    REAL(mtx_destroy)(lock);
    destroyed((uintptr_t)lock, HERE);
}

TAKING(mtx_lock, mtx_trylock, thrd_busy, MODE_WRITE, true, true, (mtx_t * lock), (lock))
TAKING(mtx_timedlock, mtx_trylock, thrd_busy, MODE_WRITE | RAW_TIMED, true, false, (mtx_t * restrict lock, const struct timespec *restrict until), (lock, until))
TRYING(mtx_trylock, MODE_TRY_WRITE, (mtx_t * lock), (lock))
RELEASING(mtx_unlock, mtx_t)

/* ---- Waiting on a condition releases the mutex and takes it again, also if the thread is cancelled meanwhile. A wait until a time that
   is none is refused before that. A robust mutex that has become useless meanwhile isn't taken again. */

struct waiting {
    uintptr_t condition, lock;
    struct call call;
    bool is_released;
    uint32_t subclass; /* as which it is held */
};

static void begin_wait(struct waiting *w, bool is_sound) {
    NOTE_MESSAGE(STEP_WAIT, w->condition, false, w->call);
    w->is_released = is_sound && is_held_once(w->lock);
    if (w->is_released) {
        w->subclass = subclass_held(w->lock);
        releasing(w->lock, w->call);
    }
}

static void end_wait(void *value) {
    struct waiting *w = value;
    if (w->is_released) {
        if (UNLIKELY(w->subclass))
            say_subclass(w->lock, w->subclass);
        acquired(w->lock, MODE_WRITE, KIND_MUTEX, w->call);
    }
}

#define WAITING(name, is_sound, parameters, arguments)                                                                 \
    EXPORT int name parameters {                                                                                       \
        if (!resolved())                                                                                               \
            return 0;                                                                                                  \
        struct waiting w = {.condition = (uintptr_t)condition, .lock = (uintptr_t)lock, .call = HERE};                 \
        int answer;                                                                                                    \
        begin_wait(&w, is_sound);                                                                                      \
        pthread_cleanup_push(end_wait, &w);                                                                            \
        answer = REAL(name) arguments;                                                                                 \
        w.is_released = w.is_released && answer != ENOTRECOVERABLE;                                                    \
        if (answer == 0)                                                                                               \
            NOTE_MESSAGE(STEP_WOKEN, w.condition, true, w.call);                                                       \
        pthread_cleanup_pop(1);                                                                                        \
        return answer;                                                                                                 \
    }

WAITING(pthread_cond_wait, true, (pthread_cond_t * condition, pthread_mutex_t *lock), (condition, lock))
WAITING(pthread_cond_timedwait, is_time(until), (pthread_cond_t * condition, pthread_mutex_t *lock, deadline until), (condition, lock, until))
WAITING(pthread_cond_clockwait, IS_CLOCK(clock) && is_time(until), (pthread_cond_t * condition, pthread_mutex_t *lock, clockid_t clock, deadline until), (condition, lock, clock, until))
WAITING(cnd_wait, true, (cnd_t * condition, mtx_t *lock), (condition, lock))
WAITING(cnd_timedwait, is_time(until), (cnd_t *restrict condition, mtx_t *restrict lock, const struct timespec *restrict until), (condition, lock, until))

/* ---- Signalling a condition: a message to those that wait for it. */

#define SIGNALLING(name, type)                                                                                         \
    EXPORT int name(type *condition) {                                                                                 \
        __typeof__(&name) real = READY(name);                                                                          \
        if (!real)                                                                                                     \
            return 0;                                                                                                  \
        NOTE_MESSAGE(STEP_SIGNAL, (uintptr_t)condition, false, HERE);                                                  \
        return real(condition);                                                                                        \
    }

SIGNALLING(pthread_cond_signal, pthread_cond_t)
SIGNALLING(pthread_cond_broadcast, pthread_cond_t)
SIGNALLING(cnd_signal, cnd_t)
SIGNALLING(cnd_broadcast, cnd_t)

/* ---- Threads. Where the frames of their starter are is noted, since locks in them are mostly for the new thread too. */

EXPORT int pthread_create(pthread_t *thread, const pthread_attr_t *how, void *(*run)(void *), void *with) {
    if (!resolved())
        return EAGAIN;
    if (UNLIKELY(is_for_libraries))
        comes_from_library(HERE);
    if (is_recording())
        note_frames(HERE);
    struct starting starting = begin_start(HERE);
    int error = REAL(pthread_create)(thread, how, run, with);
    if (!error) {
        forget_name(*thread);
        note_start(*thread, (uintptr_t)run, starting, HERE);
    }
    return error;
}

/* ---- Names that older programs know some of these by. */

#define OLDER(name) EXPORT __typeof__(name) __##name __attribute__((alias(#name)));

OLDER(pthread_mutex_init)
OLDER(pthread_mutex_destroy)
OLDER(pthread_mutex_lock)
OLDER(pthread_mutex_trylock)
OLDER(pthread_mutex_unlock)
OLDER(pthread_rwlock_init)
OLDER(pthread_rwlock_destroy)
OLDER(pthread_rwlock_rdlock)
OLDER(pthread_rwlock_tryrdlock)
OLDER(pthread_rwlock_wrlock)
OLDER(pthread_rwlock_trywrlock)
OLDER(pthread_rwlock_unlock)
