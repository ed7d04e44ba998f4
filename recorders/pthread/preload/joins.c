/* Threads that are waited for. A thread is a lock that it holds from its start to its end, and that whoever joins it takes and gives back
   at once. `finish` puts into the traces what of this can matter. */
#include "held.h"

#include <errno.h>
#include <pthread.h>
#include <threads.h>

#define REALS(X) X(pthread_join) X(pthread_tryjoin_np) X(pthread_timedjoin_np) X(pthread_clockjoin_np) X(thrd_create) X(thrd_join)
REALS(KNOWN_REAL)
FIND_AT_START(REALS)

FOUND_WHEN_LOADED(this_thread, pthread_self);

/* ---- Which thread was started or joined by which, one after the other. */

/* (a child that was forked without our knowledge has no number yet) */
static bool is_noting(void) { return is_recording() && *era && own_process; }

static uint32_t lives_so_far(void) { return is_noting() ? LOAD(&arena->regions[RAW_LIVES].used) : 0; }

static void note_life(uint32_t number, enum life_kind kind, pthread_t thread, uint32_t known) {
    struct raw_life *life = part_of(RAW_LIVES, number);
    life->process = own_process;
    life->by = (uint64_t)this_thread();
    life->thread = (uint64_t)thread;
    life->known = known;
    STORE(&life->kind, kind);
}

static void note_class_of_start(uint32_t number, uint32_t class) {
    if (number)
        STORE(&((struct raw_life *)part_of(RAW_LIVES, number))->class, class);
}

static uint32_t so_far(enum raw_kind kind) { return is_recording() ? LOAD(&arena->regions[kind].used) : 0; }

/* A start comes now. */
struct starting begin_start(struct call call) {
    return (struct starting){so_far(RAW_THREADS), so_far(RAW_RUNS), is_noting() ? take_part(RAW_LIVES) : 0, put_start(call)};
}

static void note_join(pthread_t thread, uint32_t known, enum life_kind kind, int error) {
    uint32_t number = error || !is_noting() ? 0 : take_part(RAW_LIVES);
    if (number)
        note_life(number, kind, thread, known);
}

/* ---- Threads as locks. */

/* What is known of a thread by its number, which another one has later: its class, how many traces there were before it started, its own
   trace, and the object as which it is joined. */
enum about { CLASS, BEFORE, TRACE, OBJECT };
static struct names lives;

static uint64_t key_of(pthread_t thread, enum about what) { return (uint64_t)thread + 2 * what; }

static uint32_t known(pthread_t thread, enum about what) {
    const uint32_t *slot = name_slot(&lives, key_of(thread, what));
    return slot ? LOAD(slot) : 0;
}

static void note(pthread_t thread, enum about what, uint32_t value) {
    uint32_t *slot = added_slot(&lives, key_of(thread, what));
    if (slot)
        __atomic_store_n(slot, value, __ATOMIC_SEQ_CST);
}

/* The part of a thread that has a trace; NULL for another. */
static struct raw_thread *part_of_life(pthread_t thread) {
    uint32_t trace = known(thread, TRACE);
    struct raw_thread *part = trace > known(thread, BEFORE) ? part_of(RAW_THREADS, trace) : NULL;
    return part && part->process == own_process ? part : NULL;
}

/* A handler may have run in the thread already, when it wasn't known yet who had started it. */
static void note_start_of_runs(pthread_t thread, uint32_t before) {
    uint32_t used = so_far(RAW_RUNS), room = arena->regions[RAW_RUNS].room, last = used < room ? used : room;
    for (uint32_t number = before + 1; number <= last; number++) {
        struct raw_run *run = part_of(RAW_RUNS, number);
        if (LOAD(&run->self) == (uint64_t)thread && run->process == own_process)
            STORE(&run->start, known(thread, CLASS));
    }
}

void note_start(pthread_t thread, uintptr_t run, struct starting starting, struct call call) {
    if (starting.life)
        note_life(starting.life, LIFE_START, thread, lives_so_far());
    if (starting.number)
        put_numbered(STEP_STARTED, thread, starting.number, call);
    if (!is_recording() || !begin_inside(call))
        return;
    int saved = errno;
    uint32_t class = class_of_threads(run, call);
    note(thread, CLASS, class);
    note_class_of_start(starting.life, class);
    note(thread, BEFORE, starting.traces);
    note(thread, OBJECT, 0);
    struct raw_thread *part = part_of_life(thread);
    if (part)
        part->start = known(thread, CLASS);
    note_start_of_runs(thread, starting.runs);
    errno = saved;
    end_inside();
}

/* The thread's trace begins. It may be joined already: one of it and the joiner sees what the other has noted. So with who has started it. */
void note_trace(struct raw_thread *part, uint32_t number) {
    part->known = lives_so_far();
    note(part->self, TRACE, number);
    part->joined = known(part->self, OBJECT);
    part->start = known(part->self, CLASS);
}

/* One of a run and who has started its thread sees what the other has noted. */
void note_run(struct raw_run *run) {
    __atomic_store_n(&run->self, (uint64_t)this_thread(), __ATOMIC_SEQ_CST);
    if (start_of_this_thread())
        STORE(&run->start, start_of_this_thread());
}

uint32_t start_of_this_thread(void) { return known(this_thread(), CLASS); }

static EARLY_THREAD_LOCAL uint32_t unused_object; /* of a thread that took no lock */

/* The object of the thread as a lock, which the thread's own trace notes too. Returns 0 if nothing is known of the thread. */
static uint32_t object_of(pthread_t thread) {
    uint32_t class = known(thread, CLASS), object = known(thread, OBJECT);
    if (!object && class) {
        object = unused_object && class_of(unused_object) == class ? unused_object : next_object(class);
        unused_object = 0;
        note(thread, OBJECT, object);
    }
    struct raw_thread *part = object ? part_of_life(thread) : NULL;
    if (part)
        STORE(&part->joined, object);
    return object;
}

static pthread_t first_thread;

__attribute__((constructor)) static void note_first_thread(void) { first_thread = this_thread(); }

/* Whether this is the thread that the program began with, for which no other waits. */
bool is_first_thread(void) { return this_thread() == first_thread; }

/* Whether it can matter that this thread joins another one: it holds something, may be joined itself, or has interrupted what may hold something.
   That it was started may not be noted yet, if who started it had to wait for a processor. */
static bool join_can_matter(void) { return is_any_held() || !is_first_thread() || run_source(); }

/* Whether it is recorded that the thread is waited for. Nothing is, if this one has no trace and runs no handler: then it holds nothing. */
static bool begin_join(pthread_t thread, uint8_t weak, struct call call) {
    if (!is_recording() || !(has_trace() || run_source()) || !join_can_matter() || !enter_recorder(call))
        return false;
    uint32_t object = object_of(thread);
    bool is_pending = object && begin_pending_end((uintptr_t)thread, object, MODE_WRITE | weak, call);
    end_inside();
    return is_pending;
}

/* In the history who has joined a thread has taken it, and given it back. */
static void put_joined(pthread_t thread, uint8_t mode, int error, struct call call) {
    if (!error)
        put_message_by(STEP_JOINED, mode, thread, true, call);
}

/* What was recorded while it was waited for is taken back: that the thread has locks may be known only now, and if it has none, nothing is
   recorded. */
static void end_join(pthread_t thread, uint8_t weak, bool is_pending, bool has_ended, struct call call) {
    if (is_pending)
        end_pending((uintptr_t)thread, false, call);
    if (!is_recording() || !has_ended)
        return;
    const struct raw_thread *part = part_of_life(thread);
    bool is_recorded = part && LOAD(&part->count) && join_can_matter();
    if ((is_recorded || has_trace()) && enter_recorder(call)) {
        pass_end((uintptr_t)thread, is_recorded ? object_of(thread) : 0, MODE_WRITE | weak, call);
        end_inside();
    }
    if (!is_recorded)
        unused_object = known(thread, OBJECT);
    note(thread, OBJECT, 0);
}

#define JOINING(name, weak, parameters, arguments)                                                                     \
    EXPORT int name parameters {                                                                                       \
        uint32_t known = lives_so_far();                                                                               \
        bool is_pending = begin_join(thread, weak, HERE);                                                              \
        NOTE_MESSAGE(STEP_JOIN, thread, false, HERE);                                                                  \
        int answer = REAL(name) arguments;                                                                             \
        note_join(thread, known, (weak) ? LIFE_REAP : LIFE_JOIN, answer);                                              \
        put_joined(thread, MODE_WRITE | (weak), answer, HERE);                                                         \
        end_join(thread, weak, is_pending, answer == 0, HERE);                                                         \
        return answer;                                                                                                 \
    }

typedef const struct timespec *deadline;

JOINING(pthread_join, 0, (pthread_t thread, void **value), (thread, value))
/* (without a time they wait until the thread has ended) */
JOINING(pthread_timedjoin_np, until ? RAW_TIMED : 0, (pthread_t thread, void **value, deadline until), (thread, value, until))
JOINING(pthread_clockjoin_np, until ? RAW_TIMED : 0, (pthread_t thread, void **value, clockid_t clock, deadline until), (thread, value, clock, until))
JOINING(thrd_join, 0, (thrd_t thread, int *value), (thread, value))

/* (it doesn't wait, and so it is no lock) */
EXPORT int pthread_tryjoin_np(pthread_t thread, void **value) {
    uint32_t known = lives_so_far();
    int answer = REAL(pthread_tryjoin_np)(thread, value);
    note_join(thread, known, LIFE_REAP, answer);
    put_joined(thread, MODE_TRY_WRITE, answer, HERE);
    return answer;
}

/* (glibc starts and joins the threads of C11 without calling the functions of pthreads) */
EXPORT int thrd_create(thrd_t *thread, thrd_start_t run, void *with) {
    if (UNLIKELY(is_for_libraries))
        comes_from_library(HERE);
    if (is_recording())
        note_frames(HERE);
    struct starting starting = begin_start(HERE);
    int answer = REAL(thrd_create)(thread, run, with);
    if (answer == thrd_success) {
        forget_name(*thread);
        note_start(*thread, (uintptr_t)run, starting, HERE);
    }
    return answer;
}
