/* What a thread holds, and the steps that it takes again and again.

   A step is a lock that is taken in some way on top of what is held. One that was taken before brings nothing new: it is looked up, and all
   that is asked is whether everything is as it was then. What is left behind is just what the long way of acquisitions.c and releases.c leaves: the
   same entry, record and counts. */
#ifndef LOCKDEP_HELD_H
#define LOCKDEP_HELD_H
#include "history.h"

#include <string.h>

enum reader { BY_OBJECTS, BY_CLASSES, READERS };

/* A lock that is held. What is the same each time that a step is taken comes first. */
struct held {
    uintptr_t lock;
    uint32_t what[READERS]; /* its object and its class, with the mode in which it was taken */
    uint32_t released; /* how often others had released the lock when it was taken */
    uint32_t depth;    /* of a recursive mutex: how often it was taken again */
    uint8_t kind;
    bool is_written; /* there is a record of it */
    bool is_pending; /* the thread still waits for it */
    uint8_t weak;    /* what of RAW_WEAK its record has besides */
    uint64_t record; /* the number of its record */
    uint64_t fresh_before; /* where the last record of something new ended then */
    uint64_t taken_at;     /* the step of the history that has taken it so; 0 of none */
    bool is_timed;         /* the wait for it gives up at a time, also if that isn't noted as weak */
};
#define SAME_OF_HELD offsetof(struct held, record)

/* The held locks as a reader of a trace knows them: there a release ends the newest of its name, so the order may be another. */
struct links {
    uint64_t hash; /* of the locks up to this one, to both readers */
    uint64_t hashes[READERS];
    uint32_t what[READERS];
};

/* The last time that a lock was taken on top of so many others. It counts only while these are held, which is_back finds out: one that is older
   than the newest of them is of an earlier time. */
struct level {
    uint64_t start; /* how many records there were before it; NO_LEVEL: none was taken yet */
    uint64_t hash;  /* of the locks that were held then */
};

/* What is known at one depth of nesting: two lines of the processor's. */
struct entry {
    struct level level;
    struct held held;
    struct links links;
} __attribute__((aligned(64)));

/* Where the callers stood of a step whose place has several: as long as they stand there it is that place. */
#define STANDING 8
struct standing {
    uintptr_t frame;
    uint32_t count, at[STANDING]; /* count 0: the place has one */
    uintptr_t callers[STANDING];
};

struct step {
    struct held held; /* of lock 0: there is none here */
    struct links links;
    uint64_t before; /* the hash of what was held before */
    uintptr_t from;  /* where it was taken, and how; of a place with several callers all bits are the other ones */
    const uint64_t *slot; /* of the table of locks */
    uint64_t word;        /* that is there as long as the lock is that object */
    uint64_t era;
    struct raw_record record;
    uint64_t missed; /* the key of the step that was looked for here last, and wasn't here */
    struct standing standing;
};

#define FIRST_STEPS 16
#define MOST_STEPS 1024

#define NO_LOCK UINTPTR_MAX
#define NO_LEVEL UINT64_MAX

#define PLACES 16
#define OWN_LOCKS 16
#define FIRST_HELD 8

/* A record of a state. */
#define TURNS 8
struct turn {
    uint64_t at; /* so many records were there before */
    uint64_t on;
    uint32_t state;
};

#define MOST_USED 8 /* (as many as fill a line of the processor's) */

/* An acquisition whose callers are compared with those of the next one, or of a release; of frame 0 if there is none. */
struct watched {
    struct call call;
    struct stack stack;
};

/* The function of the loader's that a thread is in, or was in when it came last. */
struct loading {
    uintptr_t lock; /* the loader's; 0: in none */
    uintptr_t function;
    struct call call;
};

struct thread {
    struct raw_thread *raw;
    uint64_t era;       /* when it looked at others last */
    uint64_t fresh_end; /* after the last record of something new */
    uint64_t hash; /* of the locks that are held; it holds while the thread is outside of the recorder, as the next one does */
    uint64_t is_unsettled; /* there is something that the thread has to look at on its way */
    struct entry *entries;
    uint32_t depth, room; /* so many locks are held, and so many entries there are: those here, or RAW_HELD when these weren't enough */
    struct step *steps;   /* a table of those that were taken again and again; &no_step if there are none yet */
    uint32_t steps_mask;
    uint64_t failed_under; /* how many of the locks that were held at the last try that failed are held since: the oldest ones */
    uintptr_t failed;      /* the lock of that try */
    struct loading loading;
    struct call pending; /* the call in which it waits for a lock, the outermost if a signal's handler waits too; frame 0: in none */
    struct watched watched;
    struct raw_record *records; /* the chunk that the last record came to: it has those from one number on, and so many */
    uint64_t records_from, records_room;
    struct raw_record *chunks[RAW_CHUNKS];
    uint32_t number;   /* of its trace */
    uint32_t source;   /* of whose runs it is; 0: it is a thread's own code */
    uint32_t epoch;    /* of the handlers, when its state was looked at last */
    uint32_t state;    /* which its records say */
    uint64_t on;       /* the signals that may interrupt in that */
    uint32_t turn_count;
    bool is_turned; /* it may be in another state than its records say, or its handlers have left it locks */
    bool has_lost_turns;
    bool has_allocated; /* in this state, and, of a run of a handler, in this run: that is recorded once */
    uint8_t used_count;
    uintptr_t used[MOST_USED]; /* the other locks inside the C library that it has used in the same state and run, as far as they are kept */
    struct turn turns[TURNS]; /* the last records of a state; what was taken back may still be among them */
    bool is_running;   /* of a source: a run of it is under way */
    struct thread *next_run; /* of the same thread of the system's */
    uint32_t is_taken; /* some thread has this */
    uint32_t steps_room, steps_replaced;
    struct step *all_steps; /* room for so many; NULL until it is needed */
    uint64_t *seen;     /* a set of the ways in which a lock was taken under others */
    size_t seen_mask, seen_used;
    uint32_t unnoted; /* so many holds there are without an entry */
    uint32_t *held_by_trace; /* room for restore_after_jump; NULL until it is needed */
    uintptr_t own_locks[OWN_LOCKS]; /* the last ones that were met first by it, in its frames or among its own variables; 0: none */
    uint32_t own_lock_count; /* so many there were, with those that aren't here any more */
    bool is_started;     /* by another thread, which may wait for its end, or by a signal, which has interrupted what may hold something */
    struct thread *next;
    struct {
        uintptr_t caller;
        uint32_t epoch, place;
    } places[PLACES]; /* of callers that it met last */
    struct entry first_entries[1 + FIRST_HELD + 1]; /* the one before the first is of no lock, and the last one has a level alone */
};

#ifdef __x86_64__
/* What is written when the first lock is taken lies in one line of the processor's. */
_Static_assert((offsetof(struct thread, first_entries) + sizeof(struct entry)) % 64 == 0, "the first lock's entry begins a line");
#endif

/* ---- Runs of signals' handlers. Each is a thread of its own in the recording, and what it has interrupted is kept meanwhile. */

/* What a thread is doing, of which a run begins with nothing. */
struct current {
    struct thread *thread;
    uintptr_t inside_caller, inside_frame;
    struct midst midst;
};

#define MOST_RUNS RAW_SIGNALS /* that interrupt one another; what comes on top of so many counts as called there */

struct interrupted {
    uintptr_t frame; /* of the run's function; written last, and 0 if nothing is kept here */
    struct current current; /* (its thread is NULL if that goes on as what it was) */
    uint32_t source;      /* of what runs on top of it */
    bool is_continuation; /* that is a call that it made, as it were */
    bool is_on_own_stack; /* that has a stack of its own */
    bool is_of_parent;    /* that began in the process that has forked this one */
};

/* A lock that a run has left locked: it belongs to what was interrupted. */
#define MOST_LEFT 16
struct left {
    uintptr_t lock;
    uint32_t object, level; /* which of the interrupted has it: so many runs are below that */
    uint8_t mode, kind;
};

#define KNOWN_RUNS 8

struct runs { /* of a thread of the system's; what a run that takes nothing comes to lies close together */
    uint32_t is_taken, depth;
    uint32_t left_count;
    struct thread *threads; /* of all sources that ran in it */
    struct runs *next;
    struct {
        uint32_t source;
        struct raw_run *run;
    } known[KNOWN_RUNS];
    struct interrupted interrupted[MOST_RUNS];
    struct left left[MOST_LEFT];
};

/* What each thread looks at first. */
struct self {
    union {
        struct {
            struct thread *thread; /* NULL: none yet, or not any more */
            volatile uintptr_t inside_caller, inside_frame; /* of its call of the recorder. The frame is written last, and is 0 if it is outside. */
            struct midst midst;
        };
        struct current current; /* the same at once */
    };
    uintptr_t history_at;   /* where the thread's next step goes; at the end of a chunk, and at 0, one is to be begun first; or NO_HISTORY */
    uint64_t history_epoch; /* the high part of the time that was written in full last */
    bool is_ended, is_mask_known;
    bool is_changing_mask; /* by a call that is under way */
    uint8_t destructor_rounds;
    uint8_t waiting_level; /* one more than how many runs there were when it waits with another mask; 0: it doesn't wait so */
    uint64_t mask, waiting_mask; /* which signals are blocked in it, as far as known */
    struct runs *runs; /* NULL if no handler has run in it yet */
    uint32_t system_thread;
} __attribute__((aligned(64)));
extern EARLY_THREAD_LOCAL struct self self;

QUICK void go_inside(struct call call) {
    self.inside_caller = call.caller;
    self.inside_frame = call.frame;
    __atomic_signal_fence(__ATOMIC_SEQ_CST);
}

QUICK void go_outside(void) {
    __atomic_signal_fence(__ATOMIC_SEQ_CST);
    self.inside_frame = 0;
}

/* ---- The history. The time of a step is looked at after a lock was taken, and before it is released. */

extern uint64_t has_clock; /* the processor's counter is a clock for all of its cores */
extern uint64_t counted;   /* else there is one of this process's */

QUICK uint64_t counted_time(void) { return __atomic_add_fetch(&counted, 1, __ATOMIC_SEQ_CST); }

QUICK uint64_t time_after(void) {
#ifdef __x86_64__
    if (LIKELY(has_clock)) {
        __builtin_ia32_lfence(); /* else the counter might be read before the lock is taken */
        return __builtin_ia32_rdtsc();
    }
#endif
    return counted_time();
}

/* What is written to memory after that isn't seen by others before it. */
QUICK uint64_t time_before(void) {
#ifdef __x86_64__
    if (LIKELY(has_clock))
        return __builtin_ia32_rdtsc();
#endif
    return counted_time();
}

/* What is read from memory after that isn't read before it. */
QUICK uint64_t time_before_looking(void) {
    uint64_t time = time_before();
#ifdef __x86_64__
    __builtin_ia32_lfence(); /* else memory might be read before the counter */
#endif
    return time;
}

QUICK bool has_history(void) { return self.history_at != NO_HISTORY; }

/* A step that isn't one of a lock, of a call from there. */
#define NOTE_MESSAGE(...) (UNLIKELY(has_history()) ? put_message(__VA_ARGS__) : (void)0)

/* Steps of one word. They are asked for before anything of a lock's step is changed, since else that goes the long way, which finds room. */
struct quick_step {
    uintptr_t at; /* NO_HISTORY if nothing is to be written */
    uint64_t time;
};

/* False: the long way is to be gone. */
QUICK bool begin_quick_step(struct quick_step *step, bool is_kept, uint64_t taken_at, bool is_after) {
    step->at = is_kept ? self.history_at : NO_HISTORY;
    if (LIKELY(step->at == NO_HISTORY))
        return true;
    step->time = is_after ? time_after() : time_before();
    return !is_at_end(step->at) && step->time >> RAW_EPOCH_BITS == self.history_epoch && taken_at;
}

QUICK void end_quick_step(const struct quick_step *step, enum raw_step_form form, uint64_t taken_at) {
    if (LIKELY(step->at == NO_HISTORY))
        return;
    self.history_at = step->at + sizeof(uint64_t);
    __atomic_signal_fence(__ATOMIC_RELEASE);
    *(uint64_t *)step->at = raw_first_word(step->time, form, (uint32_t)taken_at);
}

extern uint64_t is_memo_off; /* by LOCKDEP_MEMO=off, for tests: what is recorded is the same */

/* Is done whenever something of this may have changed. */
QUICK void note_unsettled(struct thread *t) {
    t->is_unsettled = t->loading.lock | t->pending.frame | t->watched.call.frame | t->failed_under | t->is_turned | is_memo_off;
}

/* ---- Steps. */

#define MODE_BITS 5
#define KIND_MASK 7
QUICK uintptr_t step_from(uintptr_t caller, uint8_t mode, enum kind kind) { return caller << 8 | (uintptr_t)kind << MODE_BITS | mode; }

QUICK uint64_t step_key(uint64_t before, uintptr_t lock, uintptr_t from) {
    return before ^ (lock ^ from) * UINT64_C(0x9e3779b97f4a7c15) >> 32;
}

QUICK struct step *step_at(const struct thread *t, uint64_t key) { return &t->steps[key & t->steps_mask]; }

/* Whether all of them stand on the stack of a call. Where its frame is the same there is memory. */
QUICK bool stand_at(const struct standing *standing, uintptr_t frame) {
    uint32_t i = 0;
    while (i < standing->count && *(const uintptr_t *)(frame + standing->at[i]) == standing->callers[i])
        i++;
    return i == standing->count;
}

extern struct step no_step;

/* Takes a lock as it was taken before. False if something isn't as it was: then nothing was done. There is room for the entry, since there was
   when the same locks were held before. */
QUICK bool take_step(struct thread *t, const struct step *s, uintptr_t lock, uintptr_t from) {
    struct raw_thread *raw = t->raw;
    uint64_t before = t->hash;
    if (t->is_unsettled || s->held.lock != lock || s->before != before || s->era != LOAD(era) || LOAD(s->slot) != s->word)
        return false;
    uint64_t count = raw->count, nth = count - t->records_from;
    struct quick_step step;
    if (nth >= t->records_room || !begin_quick_step(&step, is_in_history((enum kind)(from >> MODE_BITS & KIND_MASK)), s->held.taken_at, true))
        return false;
    struct entry *e = &t->entries[t->depth];
    memcpy(&e->held, &s->held, SAME_OF_HELD);
    e->held.record = count;
    e->held.fresh_before = t->fresh_end;
    e->links = s->links;
    e->level.start = count;
    e->level.hash = before;
    __atomic_signal_fence(__ATOMIC_RELEASE);
    t->hash = s->links.hash;
    t->depth++;
    raw->calls++;
    t->records[nth] = s->record;
    __atomic_signal_fence(__ATOMIC_RELEASE);
    raw->count = count + 1;
    e->held.taken_at = s->held.taken_at;
    end_quick_step(&step, RAW_AGAIN, s->held.taken_at);
    return true;
}

bool step_on_by_callers(struct thread *t, const struct step *first, uintptr_t lock, uintptr_t from, struct call call); /* the same of a step with several */

QUICK bool step_on(struct thread *t, uintptr_t lock, uintptr_t from, struct call call) {
    const struct step *s = step_at(t, step_key(t->hash, lock, from));
    return LIKELY(s->from == from) ? take_step(t, s, lock, from) : s->from == ~from && step_on_by_callers(t, s, lock, from, call);
}

/* Releases the newest lock if nothing new was done since it was taken: all records since then are taken back. */
QUICK bool step_back(struct thread *t, uintptr_t lock) {
    const struct entry *e = &t->entries[t->depth] - 1;
    uint64_t start = e->level.start;
    if (t->is_unsettled || e->held.lock != lock || e->held.depth || start < t->fresh_end ||
        e->level.hash != e[-1].links.hash || t->era != LOAD(era) || memcmp(e->held.what, e->links.what, sizeof e->held.what) != 0)
        return false;
    struct quick_step step;
    if (!begin_quick_step(&step, true, e->held.taken_at, false))
        return false;
    struct raw_thread *raw = t->raw;
    t->hash = e->level.hash;
    t->depth--;
    raw->calls++;
    raw->left_out.repeated += raw->count - start;
    raw->count = start;
    end_quick_step(&step, RAW_BACK, e->held.taken_at);
    return true;
}

/* Whether that was all; else it is to be recorded the long way, by acquired_anew. */
QUICK bool acquired_again(uintptr_t lock, uint8_t mode, enum kind kind, struct call call) {
    struct thread *t = self.thread;
    if (UNLIKELY(!t || self.inside_frame))
        return false;
    go_inside(call);
    bool is_done = step_on(t, lock, step_from(call.caller, mode, kind), call);
    go_outside();
    return is_done;
}

QUICK bool released_again(uintptr_t lock, struct call call) {
    struct thread *t = self.thread;
    if (UNLIKELY(!t || self.inside_frame))
        return false;
    go_inside(call);
    bool is_done = step_back(t, lock);
    go_outside();
    return is_done;
}

/* ---- library.c */

static inline void forget_uses(struct thread *t) {
    t->has_allocated = false;
    t->used_count = 0;
}

/* ---- runs.c, and what it needs of the files that write records. */

void watch_thread_end(void);
uint32_t run_source(void);              /* whose run this thread is in; 0: in none */
bool is_run_of_parent(void);            /* whether that began in the process that has forked this one */
void add_run(struct thread *t);
bool is_left_for(struct left *left);    /* the next lock that is left for what runs now */
void leave_lock(const struct held *h);  /* to what was interrupted */
void end_run(struct thread *t, struct call call);
bool is_held_below(uintptr_t lock);     /* by what was interrupted */
void drop_runs(void);                   /* the thread ends */
uint32_t level_of_runs(void);
struct thread **thread_at_level(uint32_t level);
void forget_runs_of_parent(void);

/* Whether the thread may be in another state than its records say. */
QUICK void look_at_state_later(void) {
    struct thread *t = self.thread;
    if (!t)
        return;
    t->is_turned = on_now() != t->on || t->epoch != LOAD(&handlers_epoch) || (self.runs && self.runs->left_count);
    note_unsettled(t);
}

#endif
