/* Threads: how each begins, ends, and goes on in a child. */
#include "records.h"

#include <limits.h>
#include <pthread.h>

struct step no_step;
EARLY_THREAD_LOCAL struct self self;
static pthread_key_t thread_end;
static bool has_thread_end;

/* ---- Making a thread, and its end. */

FOUND_WHEN_LOADED(set_value, pthread_setspecific);

static struct thread *threads; /* all that were made, in use or not */

static struct thread *unused_thread(void) {
    for (struct thread *t = LOAD(&threads); t; t = t->next) {
        uint32_t is_taken = LOAD(&t->is_taken);
        if (!is_taken && SWAP(&t->is_taken, &is_taken, 1))
            return t;
    }
    struct thread *t = take_private(sizeof *t);
    if (!t)
        return NULL;
    t->is_taken = 1;
    t->entries = t->first_entries + 1;
    t->entries[-1].held.lock = NO_LOCK;
    t->room = FIRST_HELD;
    t->next = LOAD(&threads);
    while (!SWAP(&threads, &t->next, t))
        continue;
    return t;
}

/* Of what joins and names know a thread by, a run has nothing. */
static void begin_raw(struct thread *t, uint32_t number, uint32_t source) {
    t->raw = part_of(RAW_THREADS, number);
    t->raw->process = own_process;
    t->raw->system_thread = own_system_thread();
    t->raw->source = source;
    t->number = number;
    if (!source) {
        begin_name(t->raw);
        note_trace(t->raw, number);
    } else {
        t->raw->start = start_of_this_thread();
        t->raw->is_of_parent = is_run_of_parent();
    }
}

static void begin_in_no_state(struct thread *t, uint32_t source) {
    t->source = source;
    t->is_running = source != 0;
    t->is_turned = is_following();
    t->epoch = 0;
    t->state = 0;
    t->on = 0;
    t->turn_count = 0;
    t->has_lost_turns = false;
    forget_uses(t);
    t->entries[-1].links = (struct links){.hash = 0};
    t->entries[0].level.start = NO_LEVEL;
}

static bool begin_trace(struct thread *t, uint32_t source) {
    uint32_t number = take_part(RAW_THREADS);
    if (!number)
        return false;
    begin_raw(t, number, source);
    begin_in_no_state(t, source);
    for (int i = 0; i < RAW_CHUNKS; i++) {
        AS_WRITTEN;
        t->chunks[i] = NULL;
    }
    t->records_room = 0;
    for (size_t i = 0; t->seen && i <= t->seen_mask; i++) {
        AS_WRITTEN;
        t->seen[i] = 0;
    }
    t->seen_used = 0;
    t->fresh_end = 0;
    t->depth = 0;
    t->failed = 0;
    t->failed_under = 0;
    t->is_started = source || !is_first_thread();
    t->loading.lock = 0;
    t->pending.frame = 0;
    t->watched.call.frame = 0;
    t->unnoted = 0;
    t->era = LOAD(era);
    t->steps = &no_step;
    t->steps_mask = 0;
    STORE(&t->raw->is_ready, 1);
    if (!source)
        take_early_name(t->raw);
    return true;
}

#define QUICK_KEYS 32 /* for so many the C library has room in each thread; for more it allocates some, which a handler may not do */

void watch_thread_end(void) {
    if (has_thread_end && thread_end < QUICK_KEYS)
        set_value(thread_end, &self);
}

static struct thread *new_thread(uint32_t source) {
    struct thread *t = unused_thread();
    if (!t || !begin_trace(t, source)) {
        if (t)
            STORE(&t->is_taken, 0);
        ADD(&arena->no_thread, 1);
        return NULL;
    }
    if (source)
        add_run(t);
    if (has_thread_end)
        set_value(thread_end, &self);
    return t;
}

/* For what runs now: the thread's own code, or a run of a handler. */
struct thread *make_thread(void) {
    self.thread = new_thread(run_source());
    return self.thread;
}

/* This memory may be reused for other locks. */
static void forget_own_locks(struct thread *t) {
    for (uint32_t i = 0; i < OWN_LOCKS; i++) {
        if (t->own_locks[i])
            forget_own_lock(t->own_locks[i]);
        t->own_locks[i] = 0;
    }
}

void note_own_lock(uintptr_t lock) {
    for (uint32_t i = 0; i < OWN_LOCKS; i++)
        if (self.thread->own_locks[i] == lock)
            return;
    self.thread->own_locks[self.thread->own_lock_count++ % OWN_LOCKS] = lock;
}

static void end_own_thread(struct thread *t) {
    end_loading(t);
    withdraw_all(t, CALLER);
    forget_own_locks(t);
    self.thread = NULL;
    STORE(&t->raw->ended, 1);
    STORE(&t->is_taken, 0);
}

static void end_threads_of_runs(void) {
    for (struct thread *t = self.runs ? self.runs->threads : NULL, *next; t; t = next) {
        next = t->next_run;
        forget_own_locks(t);
        STORE(&t->is_taken, 0);
    }
    drop_runs();
}

/* Other destructors of the thread may still lock, so the last round of them is waited for. */
static void at_thread_end(void *value) {
    if (++self.destructor_rounds < PTHREAD_DESTRUCTOR_ITERATIONS) {
        set_value(thread_end, value);
        return;
    }
    self.is_ended = true;
    if (self.thread)
        end_own_thread(self.thread);
    end_own_history();
    end_threads_of_runs();
}

/* ---- The beginning, and a fork. */

/* Whether a lock that was held at a fork isn't any more, since a handler has assigned to it: its first word is 0 then. */
static bool is_free(const struct held *h) {
    return (h->kind == KIND_MUTEX || h->kind == KIND_RWLOCK) && has_word(h->lock, 0);
}

/* What the thread holds in a child since before the fork. */
void look_at_inherited(struct call call) {
    struct thread *t = enter(call);
    if (!t)
        return;
    for (uint32_t i = t->depth; i-- > 0;)
        if (is_free(&t->entries[i].held)) {
            put_end_of_hold(&t->entries[i].held);
            release_at(t, i, call.caller);
        }
    leave();
}

/* A lock that processes share has one holder: who held it at the fork still does. Those of files are the child's as well. */
static bool is_of_parent(const struct held *h) { return h->kind <= KIND_SPIN && is_in_shared_memory(object_of(h)); }

/* Nobody waited for it in this process, so it begins as a try. */
static void put_inherited(const struct held *h) {
    if (is_in_history((enum kind)h->kind))
        put_taking(h->lock, (uint8_t)(mode_of(h) % TRIES + TRIES), 0, object_of(h));
}

static void take_over(struct thread *t, const struct held *h) {
    if (h->is_pending || is_released_by_other(h) || is_free(h) || is_of_parent(h) || !has_entry_left(t))
        return;
    push_held(t, h->lock, object_of(h), mode_with_weak(h), (enum kind)h->kind, HERE, false);
    t->entries[t->depth - 1].held.depth = h->depth;
    put_inherited(h);
}

/* A trace anew, in which the thread takes again what it held before the fork. If a handler has forked, what that has interrupted goes on in
   the child as well. */
static bool begin_anew(struct thread *t) {
    static struct held held[RAW_HELD] LARGE;
    uint32_t depth = t->depth, unnoted = t->unnoted;
    struct loading loading = t->loading;
    for (uint32_t i = 0; i < depth; i++)
        held[i] = t->entries[i].held;
    if (!begin_trace(t, t->source)) {
        ADD(&arena->no_thread, 1);
        return false;
    }
    if (t->is_turned)
        turn(t, HERE);
    for (uint32_t i = 0; i < depth; i++)
        take_over(t, &held[i]);
    t->loading = loading;
    t->unnoted = unnoted;
    settle_outside(t);
    return true;
}

static bool goes_on_in_child(const struct thread *t) {
    for (uint32_t level = 0; level <= level_of_runs(); level++)
        if (*thread_at_level(level) == t)
            return true;
    return false;
}

static void begin_in_child(void) {
    begin_inside(HERE);
    self.system_thread = 0;
    forget_runs_of_parent();
    for (struct thread *t = threads; t; t = t->next)
        if (!goes_on_in_child(t)) {
            forget_own_locks(t);
            t->is_taken = 0;
        }
    for (uint32_t level = 0; level <= level_of_runs(); level++) {
        struct thread **at = thread_at_level(level);
        if (*at && !begin_anew(*at))
            *at = NULL;
        if (*at && (*at)->source)
            add_run(*at);
    }
    end_inside();
}

void begin_threads(void) {
    begin_history();
    const char *memo = variable("LOCKDEP_MEMO");
    is_memo_off = memo && is_same_text(memo, "off");
    if (self.thread || self.runs)
        begin_in_child();
    else
        has_thread_end = has_thread_end || pthread_key_create(&thread_end, at_thread_end) == 0;
}
