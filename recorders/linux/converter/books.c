/* Books: what a task holds, and the events that its trace gets. */
#define _GNU_SOURCE
#include "converter.h"

#define NO_LOCK (UINT64_C(1) << 63) /* in a sum, in the place of a key and a mode */

/* Holds a lock, and writes it. */
void take(struct task *task, struct held held) {
    held.level = task->level;
    bool is_new = false;
    if (held.key != LEFT_OUT && !options.repeats) {
        uint64_t chain = mix(sum_of_flags(top(task)), (uint64_t)held.key << 8 | (uint64_t)held.mode);
        is_new = is_news(task, sum_of_held(task, task->level, chain));
    }
    task->book[task->held++] = held;
    if (held.key == LEFT_OUT)
        return;
    task->acquisitions++;
    add_event(task, (struct event){ACQ, (uint8_t)held.mode, held.key, held.place, held.number}, is_new);
}

/* Releases the lock at a place of the book, by a record if there is one. The trace releases the newest of its key in the frame: if that
   is another one, it stays in the book at the older one's place, as it does in the trace. */
void give(struct task *task, int place, const struct lr_record *record) {
    int key = task->book[place].key, newest = place;
    for (int other = place + 1; other < task->held; other++)
        if (key != LEFT_OUT && task->book[other].key == key && task->book[other].level == task->book[place].level)
            newest = other;
    task->book[place].instance = task->book[newest].instance;
    task->book[place].references = task->book[newest].references;
    task->book[place].is_nested = task->book[newest].is_nested;
    memmove(&task->book[newest], &task->book[newest + 1], (size_t)(task->held - newest - 1) * sizeof(struct held));
    task->held--;
    if (key != LEFT_OUT)
        add_event(task, (struct event){REL, 0, key, record ? record->place : 0, record ? record->number : 0}, false);
}

void set_flag(struct task *task, enum frame irq, bool is_on) {
    struct level *level = top(task);
    if (level->is_on[irq] == is_on)
        return;
    level->is_on[irq] = is_on;
    bool is_new = false;
    if (is_on && !options.repeats) {
        uint64_t none = mix(sum_of_flags(level), NO_LOCK | irq), held = sum_of_held(task, task->level, none);
        is_new = held != none && is_news(task, held);
    }
    add_event(task, (struct event){.kind = is_on ? ON : OFF, .what = (uint8_t)irq}, is_new);
}

/* Locks held in the innermost frame. */
int held_in_frame(const struct task *task) {
    int count = 0;
    for (int place = 0; place < task->held; place++)
        count += task->book[place].level == task->level;
    return count;
}

void leave(struct task *task) {
    task->level--;
    add_event(task, (struct event){.kind = LEAVE}, false);
}

/* An entry needs the flags on. */
void enter(struct task *task, enum frame irq, int depth) {
    if (irq == SOFTIRQ)
        set_flag(task, SOFTIRQ, true);
    set_flag(task, HARDIRQ, true);
    task->level++;
    *top(task) = (struct level){.frame = irq, .is_on = {false, false, irq == SOFTIRQ}, .difference = depth - task->held};
    add_event(task, (struct event){.kind = ENTER, .what = (uint8_t)irq}, false);
}

/* Releases everything, and returns to the task frame. */
void drop_all(struct task *task) {
    for (;;) {
        while (task->held && task->book[task->held - 1].level == task->level)
            give(task, task->held - 1, NULL);
        if (task->level == 0)
            break;
        leave(task);
    }
    task->held = 0;
    struct level *level = top(task);
    level->is_taking = level->is_giving = false;
    level->last = NOTHING;
}

bool has_depth(const struct lr_record *record) { return record->depth != LR_NO_DEPTH; }

/* What the task holds isn't known: nothing is written until it is. */
void go_blind(struct task *task) {
    drop_all(task);
    task->is_blind = true;
}

void mismatch(struct task *task) {
    counts.mismatches += !task->is_after_gap;
    go_blind(task);
}

/* Leaves frames that are over. False: one ended with a lock held. */
bool leave_frames(struct task *task, int state) {
    bool is_softirq_over = !(state & LR_IN_SOFTIRQ) && task->level > 0 && task->levels[1].frame == SOFTIRQ;
    if (top(task)->frame == HARDIRQ) {
        bool is_next = (state & LR_FRESH) && !held_in_frame(task);
        if ((state & LR_IN_HARDIRQ) && !is_next && !is_softirq_over)
            return true;
        if (held_in_frame(task))
            return false;
        leave(task);
    }
    if (!is_softirq_over)
        return true;
    if (held_in_frame(task))
        return false;
    leave(task);
    return true;
}

void enter_frames(struct task *task, int state, int depth) {
    if ((state & LR_IN_SOFTIRQ) && task->level == 0)
        enter(task, SOFTIRQ, depth);
    if ((state & LR_IN_HARDIRQ) && top(task)->frame != HARDIRQ)
        enter(task, HARDIRQ, depth);
}

/* Flags as the record says, so that no moment has more turned on than there was. */
void set_flags(struct task *task, int state) {
    bool is_soft = state & LR_SOFTIRQS_ON, is_hard = state & LR_HARDIRQS_ON;
    if (top(task)->frame == HARDIRQ)
        return;
    if (!is_hard)
        set_flag(task, HARDIRQ, false);
    if (top(task)->frame == TASK)
        set_flag(task, SOFTIRQ, is_soft);
    if (is_hard)
        set_flag(task, HARDIRQ, true);
}

/* An acquisition or a release is recorded a moment before lockdep's own book has it, and an interrupt may come in between, or
   another task. False: the difference is something else. */
static bool is_in_flight(struct task *task, int difference) {
    struct level *level = top(task);
    if (level->is_taking && difference == 1) {
        level->is_taking = false;
        take(task, level->taking);
    } else if (level->is_giving && difference == 1) {
        return true;
    } else if (difference == -1 && level->last == TOOK && held_in_frame(task)) {
        counts.taken_in_flight++;
        level->taking = task->book[task->held - 1];
        level->is_taking = true;
        give(task, task->held - 1, NULL);
    } else if (difference == 1 && level->last == GAVE) {
        counts.given_in_flight++;
        level->is_giving = true;
    } else {
        return false;
    }
    return true;
}

/* Nothing says any more whether a lock in flight arrived: an acquisition did, unless the task was left there for ever. */
void end_flight(struct task *task) {
    struct level *level = top(task);
    if (level->is_taking)
        take(task, level->taking);
    level->is_taking = level->is_giving = false;
}

/* Not each kind of interrupt has a tracepoint. If one came in while an operation was in flight, and that has arrived since, another one came
   in after it, though the task wasn't seen in between. */
static bool is_another_interrupt(struct task *task, int depth) {
    if (task->level == 0 || held_in_frame(task) || top(task)->is_taking)
        return false;
    return depth - task->held == task->levels[task->level - 1].difference;
}

static void begin_another_interrupt(struct task *task, int depth) {
    enum frame frame = top(task)->frame;
    counts.unmarked_interrupts++;
    leave(task);
    enter(task, frame, depth);
}

/* Whether the book has as many locks as lockdep. */
bool does_agree(struct task *task, int depth) {
    int difference = depth - task->held - top(task)->difference;
    if (difference == 0) {
        top(task)->is_giving = false;
        return true;
    }
    if (is_another_interrupt(task, depth)) {
        begin_another_interrupt(task, depth);
        return true;
    }
    return is_in_flight(task, difference);
}
