/* Releases: by the thread that took the lock, by another one, and by a call that was left. */
#include "records.h"

void release_at(struct thread *t, uint32_t i, uintptr_t caller) {
    struct held gone = t->entries[i].held;
    bool was_newest = i + 1 == t->depth;
    t->failed_under -= i < t->failed_under;
    for (; i + 1 < t->depth; i++)
        t->entries[i].held = t->entries[i + 1].held;
    pop_links(t, &gone);
    t->depth--;
    if (was_newest && is_back(t))
        return;
    if (gone.is_written && make_room(t))
        put_record(t, raw_what(object_of(&gone), MODE_RELEASE), cached_place(t, caller));
}

/* Of locks, by their addresses: how often each was released by a thread that wasn't seen to hold it, and how many holds have ended by that.
   Such a release ends one hold that had begun before it: whose thread comes first ends it. */
struct names released_by_others;
static struct names ended_by_others;

uint32_t count_of(struct names *names, uintptr_t lock) {
    const uint32_t *slot = name_slot(names, lock);
    return slot ? LOAD(slot) : 0;
}

bool is_released_by_other(const struct held *h) {
    uint32_t released = count_of(&released_by_others, h->lock);
    uint32_t *ended = released != h->released && !h->is_pending ? added_slot(&ended_by_others, h->lock) : NULL;
    uint32_t count = ended ? LOAD(ended) : released;
    while (count != released)
        if (SWAP(ended, &count, count + 1))
            return true;
    return false;
}

/* Whether the thread is thought to hold what was found to be no lock. */
static bool is_held_signal(const struct held *h) { return h->kind == KIND_COUNTED && !h->is_pending && is_signal(object_of(h)); }

__attribute__((noinline)) void drop_released(struct thread *t, uintptr_t caller) {
    t->era = LOAD(era);
    t->is_turned |= t->epoch != LOAD(&handlers_epoch);
    for (uint32_t i = t->depth; i-- > 0;)
        if (is_held_signal(&t->entries[i].held) || is_released_by_other(&t->entries[i].held))
            release_at(t, i, caller);
}

/* What was held, or what an address meant, may be another from now on. */
void change_era(void) {
    if (LOAD(era))
        __atomic_fetch_add(era, 1, __ATOMIC_RELEASE);
}

/* Somebody releases a lock that this thread wasn't seen to take: it may be one that another thread holds. */
static void release_others(struct thread *t, uintptr_t lock) {
    t->raw->left_out.releases += !is_held_below(lock);
    put_release(lock, 0);
    uint32_t *released = added_slot(&released_by_others, lock);
    if (!released)
        return;
    ADD(released, 1);
    change_era();
}

void end_loading(struct thread *t) {
    uint32_t i = t->loading.lock ? find_held(t, t->loading.lock) : RAW_HELD;
    t->loading.lock = 0;
    if (i == RAW_HELD)
        return;
    t->entries[i].held.depth = 0;
    release_at(t, i, t->loading.call.caller);
}

static void end_loading_if_returned(struct thread *t, struct call call) {
    if (call.frame >= t->loading.call.frame || has_returned(call, t->loading.call, t->loading.function))
        end_loading(t);
}

/* What the thread was in when it came last, and has left. The loader's lock is given back when its holder comes first after that. */
__attribute__((noinline)) void end_what_is_left(struct thread *t, struct call call) {
    if (t->loading.lock)
        end_loading_if_returned(t, call);
    if (t->pending.frame)
        end_left_pending(t, call);
    if (t->watched.call.frame)
        end_watch(t, call);
}

/* Whether this thread was seen to take the lock, or ignores it. */
static bool release_own(struct thread *t, uintptr_t lock, struct call call) {
    settle(t, call);
    uint32_t i = find_held(t, lock);
    if (i == RAW_HELD && (!t->unnoted || is_ignored(lock)))
        return is_ignored(lock);
    t->raw->calls++;
    if (UNLIKELY(i == RAW_HELD))
        t->unnoted--;
    else if (t->entries[i].held.depth)
        t->entries[i].held.depth--;
    else {
        put_end_of_hold(&t->entries[i].held);
        release_at(t, i, call.caller);
    }
    return true;
}

/* Whether a release may be one of what was recorded: of a lock that this thread holds, or that such a library gives back. */
static bool is_wanted_release(uintptr_t lock, struct call call) {
    struct thread *t = self.thread;
    return LIKELY(!is_for_libraries) || (t && (t->unnoted || find_held(t, lock) != RAW_HELD)) || is_release_of_library(lock, call);
}

void releasing(uintptr_t lock, struct call call) {
    struct thread *t = is_wanted_release(lock, call) ? enter(call) : NULL;
    if (!t)
        return;
    if (!release_own(t, lock, call)) {
        t->raw->calls++;
        release_others(t, lock);
    }
    leave();
}

/* The same of a lock that only the thread that took it can release. False if this thread wasn't seen to take it: nothing is recorded of
   the call then, since it may well fail. If it doesn't, released_unseen is to follow. */
bool releasing_own(uintptr_t lock, struct call call) {
    struct thread *t = is_wanted_release(lock, call) ? enter(call) : NULL;
    if (!t)
        return true;
    bool is_seen = release_own(t, lock, call);
    leave();
    return is_seen;
}

/* A lock was released that this thread took, and wasn't seen to take; or a handler has released what the code has that it interrupted. */
void released_unseen(uintptr_t lock, struct call call) {
    struct thread *t = is_wanted_release(lock, call) ? enter(call) : NULL;
    if (!t)
        return;
    t->raw->calls++;
    if (is_held_below(lock))
        release_others(t, lock);
    else {
        t->raw->left_out.releases++;
        put_release(lock, 0);
    }
    leave();
}

/* A semaphore was found to be no lock: no thread holds it any more. */
void leave_out(uintptr_t semaphore, struct call call) {
    struct thread *t = enter(call);
    if (!t)
        return;
    t->raw->calls++;
    uint32_t object = object_of_lock(semaphore, call);
    if (object) {
        STORE(&((struct raw_object *)part_of(RAW_OBJECTS, apart(semaphore, object)))->is_signal, 1);
        change_era();
    }
    leave();
}
