/* Pending acquisitions. What a thread waits for is written before it waits, as if it had taken it. If the call fails it is withdrawn. */
#include "records.h"

static uint32_t is_exiting;

/* A thread that waits while its process exits may wait for a moment only, or for a lock that the exiting thread never releases. */
void note_waits_at_exit(void) {
    STORE(&is_exiting, 1);
    const struct raw_region *threads = &arena->regions[RAW_THREADS];
    uint32_t used = LOAD(&threads->used);
    for (uint32_t number = 1; number <= used && number <= threads->room; number++) {
        struct raw_thread *thread = part_of(RAW_THREADS, number);
        uint32_t waits = RAW_WAITS;
        if (LOAD(&thread->is_ready) && thread->process == own_process)
            __atomic_compare_exchange_n(&thread->waits, &waits, RAW_WAITS_AT_EXIT, false, __ATOMIC_RELAXED, __ATOMIC_RELAXED);
    }
}

static enum raw_waits waits_by(uint8_t mode) {
    if (mode & RAW_TIMED)
        return RAW_WAITS_FOR_A_TIME;
    return LOAD(&is_exiting) ? RAW_WAITS_AT_EXIT : RAW_WAITS;
}

static void push_pending(struct thread *t, uintptr_t lock, uint32_t object, uint8_t mode, enum kind kind, struct call call) {
    push_held(t, lock, object, mode, kind, call, true);
    if (!t->pending.frame)
        t->pending = call;
}

/* Whether the acquisition was recorded as pending; end_pending is to follow then. */
bool begin_pending(uintptr_t lock, uint8_t mode, enum kind kind, struct call call) {
    struct thread *t = IS_WANTED(lock, call) ? enter(call) : NULL;
    if (!t)
        return false;
    settle_to_take(t, call);
    enum raw_waits waits = waits_by(mode);
    t->raw->calls++;
    bool is_timed = mode & RAW_TIMED;
    uint32_t object = object_to_hold(t, lock, &mode, kind, call);
    if (object) {
        push_pending(t, lock, object, mode, kind, call);
        t->entries[t->depth - 1].held.is_timed = is_timed;
        STORE(&t->raw->waits, waits);
    } else
        t->raw->calls--;
    leave();
    return object != 0;
}

/* Whether there is room for a thread that ends among what is held. */
static bool has_room_for_end(struct thread *t, struct call call) {
    settle_to_take(t, call);
    return t->depth < RAW_HELD && has_entry_left(t);
}

static uint8_t mode_of_end(const struct thread *t, uint8_t mode) { return t->depth ? mode : MODE_WRITE; }

bool begin_pending_end(uintptr_t thread, uint32_t object, uint8_t mode, struct call call) {
    struct thread *t = self.thread;
    if (!has_room_for_end(t, call))
        return false;
    push_pending(t, thread, object, mode_of_end(t, mode), KIND_THREAD, call);
    STORE(&t->raw->waits, waits_by(mode));
    return true;
}

/* A thread that has ended is taken and given back, unless its object is 0. */
void pass_end(uintptr_t thread, uint32_t object, uint8_t mode, struct call call) {
    struct thread *t = self.thread;
    if (!has_room_for_end(t, call) || !object)
        return;
    push_held(t, thread, object, mode_of_end(t, mode), KIND_THREAD, call, false);
    release_at(t, t->depth - 1, call.caller);
}

void pass_lock(uintptr_t lock, uint8_t mode, enum kind kind, struct call call) {
    struct thread *t = self.thread;
    settle_to_take(t, call);
    uint32_t object = t->depth < RAW_HELD && has_entry_left(t) ? object_of_lock(lock, call) : 0;
    if (!object)
        return;
    push_held(t, lock, object, mode, kind, call, false);
    release_at(t, t->depth - 1, call.caller);
}

/* Nothing is left of a pending acquisition that is the newest record. Else a signal's handler has recorded something since. */
static void withdraw(struct thread *t, uint32_t i, uintptr_t caller) {
    struct held h = t->entries[i].held;
    if (i + 1 != t->depth || t->raw->count != h.record + h.is_written) {
        release_at(t, i, caller);
        return;
    }
    pop_links(t, &h);
    t->failed_under -= i < t->failed_under;
    t->depth--;
    t->raw->count = h.record;
    t->fresh_end = h.fresh_before;
}

static void end_waiting(struct thread *t) {
    t->pending.frame = 0;
    STORE(&t->raw->waits, RAW_WAITS_NOT);
}

void withdraw_all(struct thread *t, uintptr_t caller) {
    end_waiting(t);
    for (uint32_t i = t->depth; i-- > 0;)
        if (t->entries[i].held.is_pending)
            withdraw(t, i, caller);
}

/* A handler that jumps away leaves the calls that wait: their acquisitions are withdrawn when the thread comes again, or ends the process. */
void end_left_pending(struct thread *t, struct call call) {
    if (is_left(call, t->pending))
        withdraw_all(t, call.caller);
}

void end_own_pending(struct call call) {
    struct thread *t = self.thread && self.thread->pending.frame ? enter(call) : NULL;
    if (!t)
        return;
    settle(t, call);
    leave();
}

/* The newest pending acquisition of a lock, or RAW_HELD. */
static uint32_t find_pending(const struct thread *t, uintptr_t lock) {
    for (uint32_t i = t->depth; i-- > 0;)
        if (t->entries[i].held.lock == lock && t->entries[i].held.is_pending)
            return i;
    return RAW_HELD;
}

static bool has_stale(const struct thread *t, const struct held *taken) {
    for (uint32_t i = 0; taken->kind != KIND_COUNTED && i < t->depth; i++)
        if (is_stale(&t->entries[i].held, taken->lock, (uint8_t)mode_of(taken)))
            return true;
    return false;
}

/* The lock was waited for. If the thread was thought to hold it, and nobody else has released it since, that hold was stale, and the
   pending acquisition was written under it: then it is withdrawn, and the lock is to be taken anew. */
static bool fulfil(struct thread *t, uint32_t i, uintptr_t caller) {
    struct held *h = &t->entries[i].held;
    if (UNLIKELY(has_stale(t, h))) {
        t->raw->calls--;
        withdraw(t, i, caller);
        return false;
    }
    h->is_pending = false;
    h->released = releases_so_far(h->lock);
    see(t, way_at(t, i + 1));
    put_taking_of(t, h, h->is_timed, caller);
    return true;
}

/* False if the lock was taken and that isn't recorded yet. */
bool end_pending(uintptr_t lock, bool is_taken, struct call call) {
    struct thread *t = enter(call);
    if (!t)
        return true;
    if (t->pending.frame == call.frame)
        end_waiting(t);
    if (is_taken) /* else it is done at the next call, so that it is still the newest record */
        look_at_others(t, call.caller);
    uint32_t i = find_pending(t, lock);
    bool is_held = is_taken && !(i != RAW_HELD && is_signal(object_of(&t->entries[i].held))), is_recorded = !is_held;
    if (i != RAW_HELD && is_held)
        is_recorded = fulfil(t, i, call.caller);
    else if (i != RAW_HELD)
        withdraw(t, i, call.caller);
    leave();
    return is_recorded;
}
