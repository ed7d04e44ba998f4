/* Locks that lie in a function's frame or among a thread's own variables.

   A thread knows its own frames. Those of another are known if it has started a thread: what its frames were then is kept, since
   a lock that several threads take mostly lies in a frame of the one that started them. */
#include "own.h"

#define NOTED 1024
#define NOTED_AT_ONCE 32

TABLE(struct span, noted, 16, NOTED);
static uint32_t noted_count;

static bool is_same(const struct span *noted, const struct span *span) {
    return noted->from == span->from && noted->to == span->to && LOAD(&noted->function) == span->function;
}

/* The function is written last, and cleared first if something older was there. */
static void note_as(uint32_t which, const struct span *span) {
    struct span *to = NTH(noted, which);
    STORE(&to->function, 0);
    to->from = span->from;
    to->to = span->to;
    STORE(&to->function, span->function);
}

static EARLY_THREAD_LOCAL struct span ended;

/* Another thread can't see that the function has returned, so it would take the next lock here for this one. What has been taken in the frame
   that is here now stays. */
static void end_lock_of_ended(uintptr_t lock) {
    uint32_t object = lock_object(lock);
    if (object && is_of_frame(object, word_of(ended.function), ended.to - lock))
        end_lock(lock);
}

/* What lies where a frame is now has ended. One that only has another depth than before goes on. */
static void put_instead(uint32_t which, const struct span *now, bool is_noted) {
    ended = *NTH(noted, which);
    bool goes_on = ended.to == now->to && ended.function == now->function;
    if (is_noted)
        STORE(&((struct span *)NTH(noted, which))->function, 0);
    else
        note_as(which, now);
    if (!goes_on)
        each_lock_between(ended.from, ended.to, end_lock_of_ended);
}

/* Each that lies where this one does is replaced by it, so there are no two that share a place. */
static void note(const struct span *span) {
    uint32_t count = LOAD(&noted_count);
    bool is_there = false;
    for (uint32_t i = 0; i < count && i < NOTED; i++) {
        const struct span *old = NTH(noted, i);
        if (is_same(old, span))
            return;
        if (LOAD(&old->function) && old->from < span->to && span->from < old->to) {
            put_instead(i, span, is_there);
            is_there = true;
        }
    }
    if (!is_there)
        note_as(ADD(&noted_count, 1) % NOTED, span);
}

void note_frames(struct call call) {
    struct span spans[NOTED_AT_ONCE];
    uint32_t count = take_spans(spans, call, NOTED_AT_ONCE);
    for (uint32_t i = 0; i < count; i++)
        if (spans[i].function)
            note(&spans[i]);
}

/* The newest that has the address in it. */
static bool find_noted(uintptr_t lock, struct span *span) {
    uint32_t count = LOAD(&noted_count);
    for (uint32_t i = 0; i < NOTED && i < count; i++) {
        uint32_t which = (count - 1 - i) % NOTED;
        const struct span *s = NTH(noted, which);
        *span = (struct span){s->from, s->to, LOAD(&s->function)};
        if (span->function && lock >= span->from && lock < span->to && LOAD(&s->function) == span->function)
            return true;
    }
    return false;
}

#define LARGEST_STACK (UINT64_C(1) << 24)

/* Whether the lock may be in a frame of this thread's. */
bool is_on_stack(uintptr_t lock, struct call call) { return lock > call.frame && lock - call.frame < LARGEST_STACK; }

/* The same without the stacks of others that lie above: a thread's own one ends where its thread pointer points to. */
bool is_below_end(uintptr_t lock, struct call call) {
    return lock - call.frame < (uintptr_t)__builtin_thread_pointer() - call.frame;
}

bool frame_with(uintptr_t lock, struct call call, uint64_t *function, uint64_t *offset) {
    struct span span;
    bool is_found = is_on_stack(lock, call) && span_around(call, lock, &span);
    if (!is_found && !find_noted(lock, &span))
        return false;
    *function = word_of(span.function);
    *offset = span.to - lock;
    return true;
}

bool own_part_with(uintptr_t lock, uint64_t *word) {
    return own_part_word((intptr_t)(lock - (uintptr_t)__builtin_thread_pointer()), word);
}
