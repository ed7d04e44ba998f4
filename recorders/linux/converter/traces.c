/* Traces: one task's events, the locks that it holds in the trace, and what has been seen before. */
#define _GNU_SOURCE
#include "converter.h"

const char *const mode_names[] = {"w", "r", "rr", "tw", "tr", "trr"};
const char *const irq_names[] = {"task", "softirq", "hardirq"};

struct stretch {
    uint64_t state;
    size_t at;
    size_t barrier;
};

struct task **tasks;
size_t task_count;

struct level *top(struct task *task) { return &task->levels[task->level]; }

uint64_t sum_of_held(const struct task *task, int from_level, uint64_t sum) {
    for (int place = 0; place < task->held; place++) {
        const struct held *held = &task->book[place];
        if (held->key != LEFT_OUT && held->level >= from_level)
            sum = mix(sum, (uint64_t)held->key << 8 | (uint64_t)held->mode << 4 | (uint64_t)held->level);
    }
    return sum;
}

uint64_t sum_of_flags(const struct level *level) {
    return mix(0, (uint64_t)level->frame << 2 | (uint64_t)level->is_on[SOFTIRQ] << 1 | level->is_on[HARDIRQ]);
}

uint64_t sum_of_state(const struct task *task) {
    uint64_t sum = 1;
    for (int number = 0; number <= task->level; number++)
        sum = mix(sum, sum_of_flags(&task->levels[number]));
    return sum_of_held(task, 0, sum);
}

/* Whether a chain is new to the task; it isn't afterwards. */
bool is_news(struct task *task, uint64_t chain) {
    if (2 * task->seen_count >= task->seen_room) {
        uint64_t *old = task->seen;
        size_t old_room = task->seen_room;
        task->seen_room = old_room ? 2 * old_room : 64;
        task->seen = checked(calloc(task->seen_room, sizeof *task->seen));
        task->seen_count = 0;
        for (size_t slot = 0; slot < old_room; slot++)
            if (old[slot])
                is_news(task, old[slot]);
        free(old);
    }
    chain += !chain;
    size_t slot = chain & (task->seen_room - 1);
    while (task->seen[slot] && task->seen[slot] != chain)
        slot = (slot + 1) & (task->seen_room - 1);
    if (task->seen[slot])
        return false;
    task->seen[slot] = chain;
    task->seen_count++;
    return true;
}

/* Where a state was last seen since the barrier; the entry is replaced by the new place. */
static struct stretch *stretch_of(struct task *task, uint64_t state) {
    if (2 * task->stretch_count >= task->stretch_room) {
        free(task->stretches);
        task->stretch_room = task->stretch_room ? 2 * task->stretch_room : 64;
        task->stretches = checked(calloc(task->stretch_room, sizeof *task->stretches));
        task->stretch_count = 0;
    }
    size_t slot = state & (task->stretch_room - 1);
    while (task->stretches[slot].state && task->stretches[slot].state != state)
        slot = (slot + 1) & (task->stretch_room - 1);
    if (!task->stretches[slot].state) {
        task->stretches[slot] = (struct stretch){state, 0, SIZE_MAX};
        task->stretch_count++;
    }
    return &task->stretches[slot];
}

/* Drops a stretch that came back to the state at its start and brought nothing new. `state` is the current state. */
void take_back_repeat(struct task *task, uint64_t state) {
    struct stretch *stretch = stretch_of(task, state);
    bool is_there = stretch->barrier == task->barrier && stretch->at <= task->event_count &&
                    task->states[stretch->at] == state;
    if (is_there) {
        task->event_count = stretch->at;
        task->state_count = stretch->at + 1;
    } else {
        *stretch = (struct stretch){state, task->event_count, task->barrier};
    }
}

void push_state(struct task *task, uint64_t state) { PUSH(task->states, task->state_count, state); }

/* Adds an event, after the task was changed by it. `is_new`: it says what the task's trace hasn't said yet. */
void add_event(struct task *task, struct event event, bool is_new) {
    if (task->event_count >= MAX_EVENTS) {
        task->is_full = true;
        return;
    }
    uint64_t state = sum_of_state(task);
    state += !state;
    PUSH(task->events, task->event_count, event);
    push_state(task, state);
    if (options.repeats)
        return;
    if (is_new)
        task->barrier = task->event_count;
    take_back_repeat(task, state);
}
