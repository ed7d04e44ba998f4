/* The records of states: which sources may interrupt. What is known of an acquisition is that too, so it is part of the hash of what is
   held. A record says from where on a thread is in a state. It is written before the next lock is taken, or, if locks are held, as soon as a signal is unblocked. */
#include "records.h"

#include <string.h>

#define NO_STATE UINT32_MAX /* it isn't known which one the records say */

static inline uint64_t hash_of_state(uint32_t state) { return state ? mixed(state) : 0; }

static void set_state(struct thread *t, uint32_t state, uint64_t on) {
    t->state = state;
    t->on = on;
    forget_uses(t);
    t->entries[-1].links.hash = hash_of_state(state);
    rehash(t, 0, t->depth);
}

/* The newest record of a state, or NULL. Those that were taken back are forgotten here. */
static struct turn *newest_turn(struct thread *t) {
    for (; t->turn_count; t->turn_count--) {
        struct turn *turn = &t->turns[t->turn_count - 1];
        if (turn->at < t->raw->count && record_at(t, turn->at)->what == raw_what(turn->state, MODE_STATE))
            return turn;
    }
    return NULL;
}

static void add_turn(struct thread *t, uint64_t at, uint32_t state, uint64_t on) {
    newest_turn(t);
    if (t->turn_count == TURNS) {
        memmove(t->turns, t->turns + 1, (TURNS - 1) * sizeof *t->turns);
        t->turn_count--;
        t->has_lost_turns = true;
    }
    t->turns[t->turn_count++] = (struct turn){at, on, state};
}

/* The state that the records say after so many of them. */
static struct turn turn_before(struct thread *t, uint64_t count) {
    newest_turn(t);
    for (uint32_t i = t->turn_count; i-- > 0;)
        if (t->turns[i].at < count)
            return t->turns[i];
    return (struct turn){.state = t->has_lost_turns ? NO_STATE : 0};
}

static void go_back_to(struct thread *t, uint64_t count) {
    struct turn turn = turn_before(t, count);
    t->raw->count = count;
    if (turn.state == t->state)
        return;
    set_state(t, turn.state, turn.on);
    t->epoch = 0;
    t->is_turned = 1;
}

/* Whether the thread holds now what it held when it took the last lock on top of that. Then all since then is taken back, unless something of it
   was new; the state may be another one, which is written again when that matters. */
bool is_back(struct thread *t) {
    const struct level *last = &t->entries[t->depth].level;
    const struct held *newest = &(&t->entries[t->depth] - 1)->held;
    if (last->start > t->raw->count || last->start < t->fresh_end || last->start < newest->record + newest->is_written)
        return false;
    uint32_t state = turn_before(t, last->start).state;
    if (state == NO_STATE || (last->hash ^ hash_of_state(state)) != (hash_of(t, t->depth) ^ hash_of_state(t->state)))
        return false;
    t->raw->left_out.repeated += t->raw->count - last->start;
    go_back_to(t, last->start);
    return true;
}

/* Nothing came of the newest record, if that is of a state: it is as if the thread hadn't been in it. */
static void undo_state_record(struct thread *t) {
    const struct turn *turn = newest_turn(t);
    if (!turn || turn->at + 1 != t->raw->count || turn->at < t->fresh_end)
        return;
    t->entries[t->depth].level.start = NO_LEVEL;
    go_back_to(t, t->raw->count - 1);
}

#define OF_STATE UINT64_C(0x5bd1e9955bd1e995) /* tells what is held in a state from the way in which the newest of it was taken */

static void write_state(struct thread *t, struct call call) {
    if (t->raw->count >= RAW_LIMIT || !make_room(t)) {
        t->raw->left_out.no_room++;
        return;
    }
    bool is_new = t->depth && see(t, way_of(hash_of(t, t->depth) ^ OF_STATE));
    add_turn(t, t->raw->count, t->state, t->on);
    put_record(t, raw_what(t->state, MODE_STATE), is_new ? place_of_call(call, RAW_FRAMES) : cached_place(t, call.caller));
    if (is_new)
        t->fresh_end = t->raw->count;
}

__attribute__((noinline)) void turn(struct thread *t, struct call call) {
    uint64_t on;
    uint32_t state = state_now(&on);
    if (state != t->state)
        is_back(t);
    if (state != t->state)
        undo_state_record(t);
    t->is_turned = 0;
    t->epoch = LOAD(&handlers_epoch);
    t->on = on;
    if (state == t->state)
        return;
    set_state(t, state, on);
    write_state(t, call);
}

/* Whether something may interrupt that couldn't when the state was looked at last. */
static bool is_turned_on(const struct thread *t) { return on_now() & ~t->on || t->epoch != LOAD(&handlers_epoch); }

/* ---- What a change of the state, or the end of a handler's run, brings. */

/* Inside the recorder, on the way of a thread that is turned: locks that its handlers have left are held by it from now on, by tries, since
   nobody waited for them here. */
__attribute__((noinline)) void look_at_turn(struct thread *t, struct call call) {
    struct left left;
    while (is_left_for(&left) && t->depth < RAW_HELD && has_entry_left(t)) {
        turn(t, call);
        push_held(t, left.lock, left.object, left.mode, (enum kind)left.kind, call, false);
        t->is_turned = 1;
    }
    if (t->depth && is_turned_on(t))
        turn(t, call);
}

void turned(struct call call) {
    struct thread *t = self.thread;
    if (!t)
        return;
    look_at_state_later();
    if (t->is_turned && t->depth && is_turned_on(t) && enter(call)) {
        turn(t, call);
        leave();
    }
}

/* A run is over, on the thread that it was recorded as. What it has left locked belongs to what it has interrupted. */
void end_run(struct thread *t, struct call call) {
    bool was_inside = self.inside_frame != 0;
    t->is_running = false;
    if (!*era || !(t->depth | t->pending.frame | t->loading.lock | was_inside))
        return;
    go_inside(call);
    if (was_inside)
        restore_after_jump(t, call);
    end_loading(t);
    withdraw_all(t, call.caller);
    while (t->depth) {
        leave_lock(&t->entries[t->depth - 1].held);
        t->entries[t->depth - 1].held.depth = 0;
        release_at(t, t->depth - 1, call.caller);
    }
    end_inside();
}
