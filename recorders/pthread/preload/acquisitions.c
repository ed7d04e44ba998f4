/* Acquisitions, and the steps that are noted of those that will be taken again. */
#include "records.h"

#include <string.h>

/* Of a lock that a handler takes. */
static void note_what_it_knows(uintptr_t lock, uint32_t object, enum kind kind) {
    int basic = kind == KIND_MUTEX ? ((const pthread_mutex_t *)lock)->__data.__kind & MUTEX_KIND_BITS : 0;
    bool knows_owner = kind == KIND_RECURSIVE || kind == KIND_LOADER || basic == PTHREAD_MUTEX_RECURSIVE_NP || basic == PTHREAD_MUTEX_ERRORCHECK_NP;
    enum raw_knows knows = knows_owner ? KNOWS_OWNER : kind == KIND_MUTEX ? KNOWS_NOTHING : kind == KIND_RWLOCK ? KNOWS_WRITER : IS_OTHER;
    if (knows)
        STORE(&((struct raw_object *)part_of(RAW_OBJECTS, object))->knows, knows);
}

/* A held lock is nested now: it becomes an object of its own, and so do its record and the ways that it is part of. */
static void tell_apart(struct thread *t, uint32_t i) {
    struct held *h = &t->entries[i].held;
    uint32_t before = object_of(h), object = apart(h->lock, before);
    if (object == before)
        return;
    h->what[BY_OBJECTS] = raw_what(object, h->what[BY_OBJECTS] >> RAW_OBJECT_BITS);
    if (t->source)
        note_what_it_knows(h->lock, object, (enum kind)h->kind);
    if (h->is_written)
        record_at(t, h->record)->what = what_written(h);
    uint32_t at = newest_of(t, BY_OBJECTS, before);
    if (at == RAW_HELD)
        return;
    t->entries[at].links.what[BY_OBJECTS] = h->what[BY_OBJECTS];
    rehash(t, at, t->depth);
    for (uint32_t depth = at + 1; depth <= t->depth; depth++)
        if (see(t, way_at(t, depth)))
            t->fresh_end = t->raw->count;
}

static bool write_acquisition(struct thread *t, uint32_t what, struct call call, bool is_new) {
    if (t->raw->count >= RAW_LIMIT) {
        t->raw->left_out.full++;
        return false;
    }
    if (!make_room(t)) {
        t->raw->left_out.no_room++;
        return false;
    }
    put_record(t, what, place_of_acquisition(t, call, is_new));
    return true;
}

void push_held(struct thread *t, uintptr_t lock, uint32_t object, uint8_t mode, enum kind kind, struct call call, bool is_pending) {
    if (!t->depth && kind != KIND_THREAD)
        object = apart_early(lock, object);
    else if (t->depth && !(kind == KIND_THREAD && is_pending)) { /* a thread that is waited for may have no locks */
        object = apart(lock, object);
        for (uint32_t i = 0; i < t->depth; i++)
            tell_apart(t, i);
    }
    bool is_in_any_order = t->failed == lock; /* it may be std::lock, which takes what it is given so */
    if (raw_plain(mode) < MODE_TRY_WRITE && !is_in_any_order && kind != KIND_THREAD)
        look_at_taker(class_of(object), lock, call);
    if (UNLIKELY(t->source))
        note_what_it_knows(lock, object, kind);
    uint8_t weak = mode & RAW_WEAK;
    mode ^= weak;
    uint32_t what[READERS] = {raw_what(object, mode), raw_what(class_of(object), mode)};
    uint64_t start = t->raw->count;
    struct entry *e = &t->entries[t->depth];
    e->level = (struct level){.start = start, .hash = hash_of(t, t->depth)};
    e[1].level.start = NO_LEVEL;
    e->held = (struct held){.lock = lock, .record = start, .fresh_before = t->fresh_end, .what = {what[0], what[1]},
                            .released = releases_so_far(lock), .kind = (uint8_t)kind, .is_pending = is_pending, .weak = weak};
    memcpy(e->links.what, what, sizeof what);
    rehash(t, t->depth, t->depth + 1);
    t->depth++;
    uint64_t way = way_at(t, t->depth);
    bool is_new = is_pending ? !is_seen(t, way) : see(t, way);
    e->held.is_written = write_acquisition(t, what_written(&e->held), call, is_new);
    if (is_new)
        t->fresh_end = t->raw->count;
}

/* More entries. False if there are as many as there may be, or if there is no memory. */
__attribute__((noinline)) bool add_entries(struct thread *t) {
    struct entry *all = t->room < RAW_HELD ? take_private((1 + RAW_HELD + 1) * sizeof *all) : NULL;
    if (!all)
        return false;
    for (uint32_t i = 0; i < t->depth; i++) {
        AS_WRITTEN;
        all[1 + i] = t->entries[i];
    }
    all[0] = t->entries[-1];
    all[1 + t->depth].level = t->entries[t->depth].level;
    t->entries = all + 1;
    t->room = RAW_HELD;
    return true;
}

/* The lock's object, if there is room for one more that is held; else the hold has no entry. A semaphore has one of its own before it is
   nested, since it may be found to be no lock. The program may have said something of the lock, or that it isn't to be recorded. The call is
   among the thread's already, and the lock isn't held yet. */
uint32_t object_to_hold(struct thread *t, uintptr_t lock, uint8_t *mode, enum kind kind, struct call call) {
    uint32_t object = LIKELY(t->depth < RAW_HELD) && has_entry_left(t) ? object_of_lock(lock, call) : 0;
    if (UNLIKELY(is_anything_said && object)) {
        uint8_t said = *mode; /* so that the mode itself needn't lie in memory */
        object = object_as_said(lock, object, &said, kind, call);
        *mode = said;
    }
    if (!t->depth && !t->is_started)
        *mode &= (uint8_t)~RAW_WEAK;
    return UNLIKELY(kind == KIND_COUNTED && object) ? apart(lock, object) : object;
}

static void leave_unnoted(struct thread *t, uintptr_t lock) {
    if (count_ignored(lock)) {
        t->raw->calls--;
        return;
    }
    t->unnoted++;
    if (t->depth == RAW_HELD)
        t->raw->left_out.deep++;
    else
        t->raw->left_out.no_room++;
}

static bool is_read(uint8_t mode) { return raw_plain(mode) % TRIES != MODE_WRITE; }

/* Of a mutex that this thread has just taken: it had it before. */
static bool is_recursion(const pthread_mutex_t *lock) {
    return (lock->__data.__kind & MUTEX_KIND_BITS) == PTHREAD_MUTEX_RECURSIVE_NP && lock->__data.__count > 1;
}

static bool is_passing(uint8_t mode) { return raw_plain(mode) % TRIES == MODE_REC_READ; }

/* A reader that passes waiting writers, and has the lock as such a one: it can't wait, and excludes nobody else than before. */
static bool is_read_again(const struct held *h, uint8_t mode, enum kind kind) {
    return kind == KIND_RWLOCK && !h->is_pending && is_passing((uint8_t)mode_of(h)) && is_passing(mode);
}

/* Whether what this thread has taken is what it holds already, once more. */
static bool is_same_hold(const struct held *h, uint8_t mode, enum kind kind) {
    return kind == KIND_RECURSIVE || kind >= KIND_ONCE || (kind == KIND_MUTEX && is_recursion((const pthread_mutex_t *)h->lock)) ||
           is_read_again(h, mode, kind);
}

/* Whether the thread can't have this hold any more, since it has taken the lock with success: only a reader may do that. */
bool is_stale(const struct held *h, uintptr_t lock, uint8_t mode) {
    return h->lock == lock && !h->is_pending && !(is_read((uint8_t)mode_of(h)) && is_read(mode));
}

/* A hold that ended without a call, as by an assignment to the lock. */
static void end_stale(struct thread *t, uintptr_t lock, uint8_t mode, uintptr_t caller) {
    for (uint32_t i = t->depth; i-- > 0;)
        if (is_stale(&t->entries[i].held, lock, mode)) {
            put_end_of_hold(&t->entries[i].held);
            release_at(t, i, caller);
        }
}

/* Whether a lock that is taken is only held once more. */
__attribute__((noinline)) static bool take_again(struct thread *t, uint32_t held, uint8_t mode, enum kind kind, uintptr_t caller) {
    struct held *h = &t->entries[held].held;
    bool is_same = is_same_hold(h, mode, kind);
    if (is_same) {
        h->depth++;
        end_nesting(h->lock);
    } else
        end_stale(t, h->lock, mode, caller);
    return is_same;
}

/* ---- Steps that are taken again. Nothing new comes of them, so all that is looked for is whether everything is as it was. */

uint64_t is_memo_off;

/* Takes a table of this size into use. */
static bool use_steps(struct thread *t, uint32_t size) {
    struct step *made = size > t->steps_room ? take_private(size * sizeof *made) : NULL;
    if (made) {
        t->all_steps = made;
        t->steps_room = size;
    }
    if (size > t->steps_room)
        return false;
    for (uint32_t i = 0; i < size; i++) {
        AS_WRITTEN;
        t->all_steps[i].held.lock = 0;
    }
    t->steps = t->all_steps;
    t->steps_mask = size - 1;
    t->steps_replaced = 0;
    return true;
}

/* Where a step is to be, if there is none, or it was missed there before: what is taken once or twice pushes nothing out. */
static struct step *place_of_step(struct thread *t, uint64_t key) {
    if (!t->steps_mask && (is_memo_off || !use_steps(t, FIRST_STEPS)))
        return NULL;
    struct step *s = step_at(t, key);
    bool is_missed_again = s->missed == key, is_free = !s->held.lock || s->era != t->era;
    s->missed = key;
    if (!is_missed_again && !is_free)
        return NULL;
    if (s->held.lock && ++t->steps_replaced > t->steps_mask && t->steps_mask + 1 < MOST_STEPS && use_steps(t, 8 * (t->steps_mask + 1)))
        s = step_at(t, key);
    return s;
}

/* Whether all that is held has names that stay as they are, and that no other lock has. */
static bool are_single(const struct thread *t) {
    for (uint32_t i = 0; i + 1 < t->depth; i++)
        if (!is_single(object_of(&t->entries[i].held)))
            return false;
    return true;
}

/* Where the callers stand that tell a place. False if they are too many, or if nobody knows that they stand there. */
static bool find_standing(struct standing *standing, struct call call, uint32_t place) {
    struct stack stack;
    uint32_t count = (uint32_t)((struct raw_place *)part_of(RAW_PLACES, place))->count;
    *standing = (struct standing){.frame = call.frame};
    if (count == 1)
        return true;
    if (count <= STANDING)
        take_stack(&stack, call, count);
    if (count > STANDING || !stack.is_bounded || stack.count != count)
        return false;
    memcpy(standing->at, stack.at, count * sizeof *stack.at);
    memcpy(standing->callers, stack.callers, count * sizeof *stack.callers);
    standing->count = count;
    return true;
}

/* A step that a jump leaves half written is none: `from` is never 0. */
static void write_step(struct step *s, const struct thread *t, uintptr_t from, const uint64_t *slot, uint64_t word,
                       const struct standing *standing, uint32_t place) {
    const struct entry *e = &t->entries[t->depth] - 1;
    s->from = 0;
    __atomic_signal_fence(__ATOMIC_SEQ_CST);
    s->held = e->held;
    s->links = e->links;
    s->before = e->level.hash;
    s->slot = slot;
    s->word = word;
    s->era = t->era;
    s->standing = *standing;
    s->record = (struct raw_record){what_written(&e->held), place};
    __atomic_signal_fence(__ATOMIC_SEQ_CST);
    s->from = standing->count ? ~from : from;
}

/* Whether the callers of a step stand on so much of a stack. */
static bool are_callers_of(const struct step *s, uintptr_t frame, uint64_t stack_bytes) {
    const struct standing *standing = &s->standing;
    return standing->count && standing->at[standing->count - 1] < stack_bytes && stand_at(standing, frame);
}

/* Functions for which another one takes a lock take it in several steps. Each but the first is found by what stands where the first one has its
   outermost caller, and never where the first one is. */
static uint64_t key_of_other(const struct step *first, uint64_t key, uintptr_t frame, uint64_t stack_bytes) {
    uint32_t at = first->standing.at[first->standing.count - 1];
    uint64_t outermost = at < stack_bytes ? *(const uintptr_t *)(frame + at) : 0;
    return ((outermost * UINT64_C(0x9e3779b97f4a7c15) >> 32 ^ key) | 1) ^ (key & 1);
}

/* The step with the callers of a call, if the first one's don't stand in the same frame. */
static const struct step *step_of_callers(const struct thread *t, const struct step *first, uint64_t key, struct call call) {
    uint64_t stack_bytes = stack_above(call);
    if (are_callers_of(first, call.frame, stack_bytes))
        return first;
    const struct step *other = step_at(t, key_of_other(first, key, call.frame, stack_bytes));
    return other->from == first->from && are_callers_of(other, call.frame, stack_bytes) ? other : &no_step;
}

__attribute__((noinline)) bool step_on_by_callers(struct thread *t, const struct step *first, uintptr_t lock, uintptr_t from, struct call call) {
    bool is_first = first->standing.frame == call.frame && stand_at(&first->standing, call.frame);
    return take_step(t, is_first ? first : step_of_callers(t, first, step_key(t->hash, lock, from), call), lock, from);
}

/* Whether the newest lock was taken in another step than the one that is found first. */
static bool is_other(const struct thread *t, const struct step *first, uintptr_t from, struct call call) {
    const struct entry *e = &t->entries[t->depth] - 1;
    return first->from == ~from && first->held.lock == e->held.lock && first->before == e->level.hash &&
           first->era == t->era && !are_callers_of(first, call.frame, stack_above(call));
}

/* Notes how the newest lock was taken, if that was nothing new, and will be the same again. */
static void note_step(struct thread *t, uintptr_t from, struct call call) {
    const struct held *h = &(&t->entries[t->depth] - 1)->held;
    uint64_t word, key = step_key(hash_of(t, t->depth - 1), h->lock, from);
    if (h->record < t->fresh_end || !h->is_written || h->kind == KIND_COUNTED || t->watched.call.frame)
        return;
    uint32_t place = record_at(t, h->record)->place;
    const struct step *first = step_at(t, key);
    struct step *s = place_of_step(t, is_other(t, first, from, call) ? key_of_other(first, key, call.frame, stack_above(call)) : key);
    struct standing standing;
    if (!s || *looks_left_at(raw_object(h->what[BY_CLASSES])) || !is_lasting(object_of(h), t->depth > 1) || !are_single(t))
        return;
    const uint64_t *slot = lock_slot(h->lock, object_of(h), &word);
    if (slot && find_standing(&standing, call, place))
        write_step(s, t, from, slot, word, &standing, place);
}

static void take_lock(struct thread *t, uintptr_t lock, uint8_t mode, enum kind kind, struct call call) {
    t->raw->calls++;
    settle_to_take(t, call);
    bool is_timed = mode & RAW_TIMED;
    uint32_t again = kind != KIND_COUNTED && t->depth ? find_held(t, lock) : RAW_HELD;
    if (UNLIKELY(again != RAW_HELD) && take_again(t, again, mode, kind, call.caller))
        return;
    uint32_t object = object_to_hold(t, lock, &mode, kind, call);
    if (UNLIKELY(!object)) {
        leave_unnoted(t, lock);
        return;
    }
    push_held(t, lock, object, mode, kind, call, false);
    put_taking_of(t, &t->entries[t->depth - 1].held, is_timed, call.caller);
    note_step(t, step_from(call.caller, mode, kind), call);
}

void acquired(uintptr_t lock, uint8_t mode, enum kind kind, struct call call) {
    if (!acquired_again(lock, mode, kind, call))
        acquired_anew(lock, mode, kind, call);
}

__attribute__((noinline)) void acquired_anew(uintptr_t lock, uint8_t mode, enum kind kind, struct call call) {
    struct thread *t = IS_WANTED(lock, call) ? enter(call) : NULL;
    if (!t)
        return;
    take_lock(t, lock, mode, kind, call);
    leave();
}

/* A lock was tried. One that is tried again and again, with others held all the time, is waited for in another way. Who gives those
   back before the next try doesn't wait with them held. */
void tried(uintptr_t lock, bool has_failed, struct call call) {
    struct thread *t = (has_failed || (self.thread && self.thread->failed)) && IS_WANTED(lock, call) ? enter(call) : NULL;
    if (!t)
        return;
    if (t->failed == lock && t->failed_under && !is_ignored(lock))
        t->raw->left_out.retried++;
    t->failed = has_failed ? lock : 0;
    t->failed_under = has_failed ? t->depth : 0;
    leave();
}

/* A library's constructor or destructor may load another one: the lock is held until the first call that has taken it returns. */
void enter_loader(uintptr_t loader, uintptr_t function, struct call call) {
    struct thread *t = IS_WANTED_CALL(call) ? enter(call) : NULL;
    if (!t)
        return;
    settle(t, call);
    if (find_held(t, loader) == RAW_HELD) {
        take_lock(t, loader, MODE_WRITE, KIND_LOADER, call);
        if (find_held(t, loader) != RAW_HELD)
            t->loading = (struct loading){loader, function, call};
    } else {
        t->raw->calls++;
    }
    leave();
}
