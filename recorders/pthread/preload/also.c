/* What isn't a lock by name: routines that run once, the loader, and, if LOCKDEP_ALSO asks for them, semaphores and streams. */
#include "held.h"

#include <dlfcn.h>
#include <errno.h>
#include <pthread.h>
#include <sched.h>
#include <semaphore.h>
#include <stdio.h>
#include <stdlib.h>
#include <string.h>
#include <sys/mman.h>
#include <threads.h>
#include <time.h>

#define REALS(X)                                                                                                          \
    X(pthread_once) X(call_once) X(dlopen) X(dlmopen) X(dlclose) X(sem_init) X(sem_destroy) X(sem_wait) X(sem_timedwait)  \
    X(sem_clockwait) X(sem_trywait) X(sem_post) X(pthread_barrier_init) X(pthread_barrier_wait) X(mlockall) X(flockfile) X(ftrylockfile) X(funlockfile)

REALS(KNOWN_REAL)

FIND_AT_START(REALS)

/* ---- Routines that run once. Who runs one holds the control meanwhile, and who comes then waits for it. Who finds that it has run
   would have waited for it a little earlier, with all locks that it holds: so it takes and releases the control too. With no lock held that
   is in no order, and nothing is recorded, but in a signal's handler, which may come in while the routine runs. */

#define IS_DONE 2 /* the bit of glibc's control that says so */

struct once {
    uintptr_t control;
    struct call call;
    void (*routine)(void);
    bool is_recorded;
    struct once *before;
};

/* The routines that handlers have run, and who has asked for one of these since: the first time a thread does so, it might have run it itself. */
static struct names run_by_handlers;
static uint32_t has_handler_run_one;

static void note_run_by_handler(uintptr_t control) {
    uint32_t *slot = added_slot(&run_by_handlers, mixed(control));
    if (slot)
        STORE(slot, 1);
    STORE(&has_handler_run_one, 1);
}

static bool might_have_run(uintptr_t control) {
    if (run_source() || !name_slot(&run_by_handlers, mixed(control)))
        return false;
    uint32_t *slot = added_slot(&run_by_handlers, mixed(mixed(control) + own_system_thread())), none = 0;
    return slot && SWAP(slot, &none, 1);
}

/* In the history it is over before the control says so, and also if the routine throws. */
static void end_routine(struct once **once) { NOTE_MESSAGE(STEP_RAN, (*once)->control, false, (*once)->call); }

static void run_once(void) {
    struct once *once = self.midst.once;
    self.midst.once = once->before;
    if (UNLIKELY(run_source()))
        note_run_by_handler(once->control);
    if (once->is_recorded)
        end_pending(once->control, true, once->call);
    NOTE_MESSAGE(STEP_RUN, once->control, true, once->call);
    struct once *running __attribute__((cleanup(end_routine))) = once;
    running->routine();
}

static void end_once(struct once *once) {
    if (self.midst.once == once) {
        self.midst.once = once->before;
        put_passed(once->control, once->call);
    }
    if (!once->is_recorded)
        return;
    end_pending(once->control, true, once->call);
    releasing(once->control, once->call);
}

static inline void found_done(uintptr_t control, struct call call) {
    bool is_not_done = UNLIKELY(LOAD(&has_handler_run_one)) && might_have_run(control);
    if (LIKELY(!is_any_held() && !run_source() && !is_not_done))
        return;
    acquired(control, MODE_WRITE | (is_not_done ? 0 : RAW_DONE), KIND_ONCE, call);
    releasing(control, call);
}

/* The routine may throw. (That of the unwinder takes no lock.) */
#define ONCE(name, answer, type)                                                                                       \
    EXPORT answer name(type *control, void (*routine)(void)) {                                                         \
        begin_once();                                                                                                  \
        if (!IS_WANTED((uintptr_t)control, HERE) || !is_recording())                                                   \
            return REAL(name)(control, routine);                                                                       \
        if (*(volatile int *)control & IS_DONE) {                                                                      \
            found_done((uintptr_t)control, HERE);                                                                      \
            put_passed((uintptr_t)control, HERE);                                                                      \
            return REAL(name)(control, routine);                                                                       \
        }                                                                                                              \
        if (is_in_unwinder(CALLER))                                                                                    \
            return REAL(name)(control, routine);                                                                       \
        struct once once __attribute__((cleanup(end_once))) = {(uintptr_t)control, HERE, routine, false, self.midst.once};  \
        once.is_recorded = begin_pending(once.control, MODE_WRITE, KIND_ONCE, once.call);                              \
        self.midst.once = &once;                                                                                       \
        return REAL(name)(control, run_once);                                                                          \
    }

ONCE(pthread_once, int, pthread_once_t)
ONCE(call_once, void, once_flag)
EXPORT __typeof__(pthread_once) __pthread_once __attribute__((alias("pthread_once"))); /* as older programs know it */

/* ---- Variables of functions that are made when they are reached first. libstdc++ may have been loaded for one library alone, so it is
   looked for by its name too; if there is none, the guard is kept here. */

typedef union {
    uint64_t word;
    uint8_t bytes[8]; /* the first one: it is made; the second one: somebody makes it */
} guard;

EXPORT int __cxa_guard_acquire(guard *g);
EXPORT void __cxa_guard_release(guard *g);
EXPORT void __cxa_guard_abort(guard *g);

static int acquire_here(guard *g) {
    for (;;) {
        uint8_t nobody = 0;
        if (LOAD(&g->bytes[0]))
            return 0;
        if (SWAP(&g->bytes[1], &nobody, 1))
            return 1;
        sched_yield();
    }
}

static void release_here(guard *g) {
    STORE(&g->bytes[0], 1);
    STORE(&g->bytes[1], 0);
}

static void abort_here(guard *g) { STORE(&g->bytes[1], 0); }

static int (*real_acquire)(guard *);
static void (*real_release)(guard *), (*real_abort)(guard *);

static void *find_in_library(const char *name, const char *path, int mode) {
    void *library = REAL(dlopen)(path, mode);
    return library ? dlsym(library, name) : NULL;
}

void *find_in_libraries(const char *name) {
    static const char *const libraries[] = {"libstdc++.so.6", "libc++abi.so.1"};
    begin_once();
    void *found = dlsym(RTLD_NEXT, name);
    for (size_t i = 0; !found && i < sizeof libraries / sizeof *libraries; i++)
        found = find_in_library(name, libraries[i], RTLD_LAZY | RTLD_NOLOAD);
    return found;
}

void *find_in_unwinder(const char *name) {
    begin_once();
    void *found = dlsym(RTLD_NEXT, name);
    return found ? found : find_in_library(name, "libgcc_s.so.1", RTLD_LAZY);
}

/* Once found they stay the same, so that what is begun by one is ended by the same. */
static void find_guards(void) {
    begin_once();
    if (LIKELY(LOAD(&real_acquire)))
        return;
    void *acquire = find_in_libraries("__cxa_guard_acquire"), *release = find_in_libraries("__cxa_guard_release"),
         *give_up = find_in_libraries("__cxa_guard_abort");
    bool is_found = acquire && release && give_up;
    real_release = is_found ? (void (*)(guard *))release : release_here;
    real_abort = is_found ? (void (*)(guard *))give_up : abort_here;
    STORE(&real_acquire, is_found ? (int (*)(guard *))acquire : acquire_here);
}

EXPORT int __cxa_guard_acquire(guard *g) {
    find_guards();
    if (!IS_WANTED((uintptr_t)g, HERE) || !is_recording())
        return real_acquire(g);
    if (LOAD(&g->bytes[0])) {
        found_done((uintptr_t)g, HERE);
        put_passed((uintptr_t)g, HERE);
        return real_acquire(g);
    }
    bool is_recorded = begin_pending((uintptr_t)g, MODE_WRITE, KIND_ONCE, HERE);
    int is_ours = real_acquire(g);
    if (is_recorded) {
        end_pending((uintptr_t)g, true, HERE);
        if (!is_ours)
            releasing((uintptr_t)g, HERE);
    }
    if (is_ours)
        NOTE_MESSAGE(STEP_RUN, (uintptr_t)g, true, HERE);
    else
        put_passed((uintptr_t)g, HERE);
    return is_ours;
}

EXPORT void __cxa_guard_release(guard *g) {
    find_guards();
    if (is_recording()) {
        NOTE_MESSAGE(STEP_RAN, (uintptr_t)g, false, HERE);
        releasing((uintptr_t)g, HERE);
    }
    real_release(g);
}

EXPORT void __cxa_guard_abort(guard *g) {
    find_guards();
    if (is_recording()) {
        NOTE_MESSAGE(STEP_RAN, (uintptr_t)g, false, HERE);
        releasing((uintptr_t)g, HERE);
    }
    real_abort(g);
}

/* ---- The loader. It runs constructors with its own lock held. That lock has the name of this variable. */

static uint64_t loader;

/* Whether something was loaded after the start. */
static bool has_opened;

/* A library that is bound to itself first calls the C library's own functions. That is taken away, unless this process is recorded for its libraries
   alone: then nothing of the program is changed, and it is counted. */
static int look_at_mode(int mode) {
    if (!(mode & RTLD_DEEPBIND))
        return mode;
    if (is_for_libraries)
        begin_with_library();
    if (is_recording())
        ADD(&arena->deep_bound, 1);
    return is_for_libraries ? mode : mode & ~RTLD_DEEPBIND;
}

/* glibc looks where dlopen was called from, to know whose paths to search. So ours jumps to it, with nothing to be done afterwards:
   that it has returned is seen on the stack when the thread comes again. */
EXPORT void *dlopen(const char *name, int mode) {
    begin_once();
    mode = look_at_mode(mode);
    forget_callers();
    if (is_recording()) {
        STORE(&has_opened, true);
        enter_loader((uintptr_t)&loader, (uintptr_t)REAL(dlopen), HERE);
    }
    return REAL(dlopen)(name, mode);
}

EXPORT void *dlmopen(Lmid_t space, const char *name, int mode) {
    begin_once();
    if (space != LM_ID_BASE && is_for_libraries)
        begin_with_library();
    if (is_recording()) {
        STORE(&has_opened, true);
        if (space != LM_ID_BASE)
            ADD(&arena->namespaces, 1);
        enter_loader((uintptr_t)&loader, (uintptr_t)REAL(dlmopen), HERE);
    }
    return REAL(dlmopen)(space, name, is_for_libraries ? mode : mode & ~RTLD_DEEPBIND);
}

/* What was loaded later is known by its locks, or else at the end: `record` says which files have other locks than those of pthreads. */
__attribute__((destructor)) static void at_end(void) {
    if (LOAD(&has_opened) && is_recording())
        note_modules();
    if (is_recording()) {
        end_own_pending(HERE);
        note_waits_at_exit();
    }
}

/* A library that goes takes its addresses with it. */
EXPORT int dlclose(void *handle) {
    begin_once();
    if (!is_recording()) {
        int answer = REAL(dlclose)(handle);
        forget_callers();
        return answer;
    }
    acquired((uintptr_t)&loader, MODE_WRITE, KIND_LOADER, HERE);
    int answer = REAL(dlclose)(handle);
    releasing((uintptr_t)&loader, HERE);
    forget_callers();
    if (begin_inside(HERE)) {
        int saved = errno;
        forget_closed_modules();
        end_inside();
        errno = saved;
    }
    return answer;
}

/* ---- Memory that is kept in the machine: of the recorder's only what it uses. The system is asked to keep each page from when it is
   used first, of the program's too. */

EXPORT int mlockall(int what) {
    begin_once();
    return REAL(mlockall)(is_recording() ? what | MCL_ONFAULT : what);
}

/* ---- By option. A semaphore is taken as a mutex is. One that begins at 0, or that a thread posts that hasn't taken it, is a signal and no
   lock: who waits for it waits for an event. It is left out from then on, and at the end what was recorded of it is. */

static bool asks_for(const char *what) {
    const char *also = getenv("LOCKDEP_ALSO");
    size_t length = strlen(what);
    for (const char *p = also; p; p = strchr(p, ',') ? strchr(p, ',') + 1 : NULL)
        if (strncmp(p, what, length) == 0 && (p[length] == ',' || !p[length]))
            return is_recording() && !is_for_libraries;
    return false;
}

/* Whether it is asked for is found once: 1 no, 2 yes. */
bool is_asked(int *known, const char *what) {
    begin_once();
    if (UNLIKELY(!LOAD(known)))
        STORE(known, asks_for(what) ? 2 : 1);
    return LOAD(known) == 2;
}

static int semaphores, streams;
#define SEMAPHORES is_asked(&semaphores, "sem")
#define STREAMS is_asked(&streams, "flockfile")

static bool is_left_out(const sem_t *lock) {
    uint32_t object = lock_object((uintptr_t)lock);
    return object && is_signal(object) && !is_initialised_since(object);
}

static void took(const sem_t *lock, uint8_t mode, struct call call) {
    if (!is_left_out(lock))
        acquired((uintptr_t)lock, mode, KIND_COUNTED, call);
}

static void posting(const sem_t *lock, struct call call) {
    if (!is_left_out(lock) && !releasing_own((uintptr_t)lock, call))
        leave_out((uintptr_t)lock, call);
}

EXPORT int sem_init(sem_t *lock, int shared, unsigned value) {
    bool is_seen = SEMAPHORES;
    int answer = REAL(sem_init)(lock, shared, value);
    if (answer == 0)
        put_numbered(STEP_COUNT, (uintptr_t)lock, shared ? 0 : value + 1, HERE);
    if (is_seen && answer == 0)
        initialised((uintptr_t)lock, HERE);
    if (is_seen && answer == 0 && value == 0)
        leave_out((uintptr_t)lock, HERE);
    return answer;
}

EXPORT int sem_destroy(sem_t *lock) {
    bool is_seen = SEMAPHORES;
    int answer = REAL(sem_destroy)(lock);
    if (is_seen && answer == 0)
        destroyed((uintptr_t)lock, HERE);
    return answer;
}

/* In the history a post is a message to one of those that wait. A try takes it from them, and would have gone on without it. */
static int got_by(const sem_t *lock, bool is_try, int answer, struct call call) {
    if (answer == 0 && UNLIKELY(has_history()))
        put_message_by(STEP_GOT, is_try, (uintptr_t)lock, true, call);
    return answer;
}

static int got(const sem_t *lock, int answer, struct call call) { return got_by(lock, false, answer, call); }

/* Tries first, as with a mutex. A wait that a signal ends is withdrawn. */
#define WAITING(name, mode, is_sound, parameters, arguments)                                                           \
    EXPORT int name parameters {                                                                                       \
        if (!SEMAPHORES || !(is_sound) || is_left_out(lock))                                                           \
            return got(lock, REAL(name) arguments, HERE);                                                              \
        int saved = errno, answer = REAL(sem_trywait)(lock);                                                           \
        if (answer == 0) {                                                                                             \
            took(lock, mode, HERE);                                                                                    \
            return got(lock, 0, HERE);                                                                                 \
        }                                                                                                              \
        errno = saved;                                                                                                 \
        bool is_pending = begin_pending((uintptr_t)lock, mode, KIND_COUNTED, HERE);                                    \
        answer = REAL(name) arguments;                                                                                 \
        if (is_pending ? !end_pending((uintptr_t)lock, answer == 0, HERE) : answer == 0)                               \
            took(lock, mode, HERE);                                                                                    \
        return got(lock, answer, HERE);                                                                                \
    }

WAITING(sem_wait, MODE_WRITE, true, (sem_t * lock), (lock))
WAITING(sem_timedwait, MODE_WRITE | RAW_TIMED, is_time(until), (sem_t *restrict lock, const struct timespec *restrict until), (lock, until))
WAITING(sem_clockwait, MODE_WRITE | RAW_TIMED, IS_CLOCK(clock) && is_time(until), (sem_t *restrict lock, clockid_t clock, const struct timespec *restrict until), (lock, clock, until))

EXPORT int sem_trywait(sem_t *lock) {
    bool is_seen = SEMAPHORES && !is_left_out(lock);
    int answer = REAL(sem_trywait)(lock);
    if (is_seen)
        tried((uintptr_t)lock, answer != 0, HERE);
    if (is_seen && answer == 0)
        took(lock, MODE_TRY_WRITE, HERE);
    return got_by(lock, true, answer, HERE);
}

EXPORT int sem_post(sem_t *lock) {
    if (SEMAPHORES)
        posting(lock, HERE);
    NOTE_MESSAGE(STEP_POST, (uintptr_t)lock, false, HERE);
    return REAL(sem_post)(lock);
}

/* What processes share isn't known by one of them. */
static uint32_t waited_for_at(const pthread_barrierattr_t *how, unsigned count) {
    int shared = PTHREAD_PROCESS_PRIVATE;
    return how && (pthread_barrierattr_getpshared(how, &shared) != 0 || shared != PTHREAD_PROCESS_PRIVATE) ? 0 : count + 1;
}

EXPORT int pthread_barrier_init(pthread_barrier_t *restrict barrier, const pthread_barrierattr_t *restrict how, unsigned count) {
    int answer = REAL(pthread_barrier_init)(barrier, how, count);
    if (answer == 0)
        put_numbered(STEP_COUNT, (uintptr_t)barrier, waited_for_at(how, count), HERE);
    return answer;
}

EXPORT int pthread_barrier_wait(pthread_barrier_t *barrier) {
    NOTE_MESSAGE(STEP_ARRIVE, (uintptr_t)barrier, false, HERE);
    int answer = REAL(pthread_barrier_wait)(barrier);
    NOTE_MESSAGE(STEP_LEAVE, (uintptr_t)barrier, true, HERE);
    return answer;
}

EXPORT void flockfile(FILE *lock) {
    if (!STREAMS) {
        REAL(flockfile)(lock);
    } else if (REAL(ftrylockfile)(lock) == 0) {
        acquired((uintptr_t)lock, MODE_WRITE, KIND_RECURSIVE, HERE);
    } else {
        bool is_pending = begin_pending((uintptr_t)lock, MODE_WRITE, KIND_RECURSIVE, HERE);
        REAL(flockfile)(lock);
        if (!is_pending || !end_pending((uintptr_t)lock, true, HERE))
            acquired((uintptr_t)lock, MODE_WRITE, KIND_RECURSIVE, HERE);
    }
}

EXPORT int ftrylockfile(FILE *lock) {
    bool is_seen = STREAMS;
    int answer = REAL(ftrylockfile)(lock);
    if (is_seen && answer == 0)
        acquired((uintptr_t)lock, MODE_TRY_WRITE, KIND_RECURSIVE, HERE);
    return answer;
}

EXPORT void funlockfile(FILE *lock) {
    if (STREAMS)
        releasing((uintptr_t)lock, HERE);
    REAL(funlockfile)(lock);
}
