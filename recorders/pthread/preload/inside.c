/* How a call comes into the recorder and goes out, and what is restored when a jump has left it. */
#include "records.h"

#include <errno.h>
#include <string.h>

/* ---- Inside the recorder. A signal's handler that comes meanwhile isn't recorded, unless a jump has left the call of before. */

/* Counts what isn't recorded: a handler's call, or the one that a jump has left. */
static void count_reentered(void) {
    if (self.thread)
        self.thread->raw->left_out.reentered++;
}

__attribute__((noinline)) static bool is_inside_left(struct call call) {
    if (!is_left(call, (struct call){self.inside_caller, self.inside_frame}))
        return false;
    go_inside(call);
    count_reentered();
    if (self.thread && *era)
        restore_after_jump(self.thread, call);
    return true;
}

bool is_inside(void) { return self.inside_frame != 0; }

bool begin_inside(struct call call) {
    if (UNLIKELY(self.inside_frame) && !is_inside_left(call))
        return false;
    go_inside(call);
    return true;
}

void settle_outside(struct thread *t) {
    t->hash = hash_of(t, t->depth);
    note_unsettled(t);
}

void end_inside(void) {
    if (self.thread)
        settle_outside(self.thread);
    go_outside();
}

__attribute__((noinline)) struct thread *enter_unprepared(struct call call) {
    if (self.is_ended || (!*era && !revived()))
        return NULL;
    if (!begin_inside(call)) {
        count_reentered();
        miss_step();
        return NULL;
    }
    int saved = errno;
    struct thread *t = self.thread ? self.thread : make_thread();
    errno = saved;
    if (!t)
        end_inside();
    return t;
}

bool is_recording(void) { return arena != NULL; }

bool enter_recorder(struct call call) { return enter(call) != NULL; }

/* ---- After a jump, which may leave the recorder with a record written and the entry that belongs to it not yet, or the other way round. */

/* What a reader of the trace takes to be held. */
static uint32_t read_held(struct thread *t, uint32_t *objects) {
    uint32_t depth = 0;
    for (uint64_t i = 0; i < t->raw->count; i++) {
        uint32_t what = record_at(t, i)->what, at = depth;
        if (raw_mode(what) == MODE_STATE)
            continue;
        bool is_release = raw_mode(what) == MODE_RELEASE;
        while (is_release && at > 0 && objects[at - 1] != raw_object(what))
            at--;
        if (is_release && at)
            memmove(&objects[at - 1], &objects[at], (depth-- - at) * sizeof *objects);
        else if (!is_release && depth < RAW_HELD)
            objects[depth++] = raw_object(what);
    }
    return depth;
}

/* The entries anew. One that was about to be moved may be there twice. */
static void hold_again(struct thread *t, struct call call) {
    uint32_t depth = t->depth;
    struct held before = {.lock = 0};
    t->depth = 0;
    for (uint32_t i = 0; i < depth; i++) {
        struct held h = t->entries[i].held;
        if (i > 0 && h.lock == before.lock && h.record == before.record)
            continue;
        push_held(t, h.lock, object_of(&h), mode_with_weak(&h), (enum kind)h.kind, call, h.is_pending);
        t->entries[t->depth - 1].held.depth = h.depth;
        t->entries[t->depth - 1].held.released = h.released;
        before = h;
    }
}

/* The trace releases all that it has, and takes what the thread is known to hold. */
void restore_after_jump(struct thread *t, struct call call) {
    if (!t->held_by_trace)
        t->held_by_trace = take_private(RAW_HELD * sizeof *t->held_by_trace);
    uint32_t depth = t->held_by_trace ? read_held(t, t->held_by_trace) : 0;
    t->fresh_end = t->raw->count;
    while (depth-- > 0 && make_room(t))
        put_record(t, raw_what(t->held_by_trace[depth], MODE_RELEASE), cached_place(t, call.caller));
    if (t->held_by_trace)
        hold_again(t, call);
}
