/* What threads tell each other: who is started, joined, woken, or let through. Each is a message that one gives and another one gets. One that nobody
   gets is written only if it is a start: so threads can be told apart by who started them, and as which one. */
#include "history.h"

/* ---- Threads. */

static void start(struct history *h, const struct task *task, const struct step *step) {
    uint32_t number = value_of(&h->threads.by_number, step->about);
    if (!number)
        return;
    h->threads.starts[number - 1].message = give(h, task, step->place);
    h->messages[h->message_count - 1].number = 1;
    if (h->threads.starts[number - 1].thread)
        *value_at(&h->threads.latest, h->threads.starts[number - 1].thread) = number;
}

static void begin(struct history *h, struct task *task, const struct step *step) {
    uint32_t number = number_of_task(&h->threads, task);
    *value_at(&h->threads.by_self, step->about) = number;
    if (!task->start)
        return;
    get(h, task, h->threads.starts[task->start - 1].message, 0);
    task->lock = own_lock_of(&h->locks, number, task->object);
    take_lock(&h->locks.locks[task->lock - 1], number, true);
    add_line(h, WRITES_TAKE, task, task->lock, MODE_TRY_WRITE, 0);
}

static void join(struct history *h, struct task *task, const struct step *step) { task->joining = value_of(&h->threads.latest, step->about); }

/* A thread that took no step has nothing that who joins it could wait for. */
static void joined(struct history *h, struct task *task, const struct step *step) {
    uint32_t start = task->joining ? task->joining : value_of(&h->threads.latest, step->about);
    uint32_t number = start ? h->threads.starts[start - 1].task : value_of(&h->threads.by_self, step->about);
    const struct task *other = number ? &h->threads.tasks[number - 1] : NULL;
    task->joining = 0;
    if (!other || !other->lock || !other->is_over)
        return;
    add_line(h, WRITES_TAKE, task, other->lock, step->mode, step->place);
    add_line(h, WRITES_RELEASE, task, other->lock, 0, step->place);
    get(h, task, other->end, step->place);
}

/* ---- Conditions: a wait gets the last signal that came since it began. */

static void wait_for(struct history *h, struct task *task, const struct step *step) {
    task->waits_for = step->about;
    task->waits_since = h->nth;
}

static void woken(struct history *h, struct task *task, const struct step *step) {
    uint32_t signal = value_of(&h->conditions, step->about);
    if (signal && task->waits_for == step->about && h->messages[signal - 1].at > task->waits_since)
        get(h, task, signal, step->place);
    task->waits_for = 0;
}

/* ---- Semaphores and barriers. Nothing is known of those that weren't seen to be initialised, or that processes share. */

struct counted {
    bool is_known;
    uint64_t count, waits;
    uint32_t *messages; /* posts that nobody has got, or of those that have arrived in this round */
    uint32_t *tasks;    /* of a barrier: who they are */
    size_t message_count, task_count, got;
};

static struct counted *counted_at(struct history *h, uint64_t address) {
    uint32_t number = value_of(&h->counted_at, address);
    struct counted *c = number ? &h->counted[number - 1] : NULL;
    return c && c->is_known ? c : NULL;
}

static void count(struct history *h, const struct step *step) {
    uint32_t *number = value_at(&h->counted_at, step->about);
    if (!*number) {
        struct counted none = {.is_known = false};
        PUSH(h->counted, h->counted_count, none);
        *number = (uint32_t)h->counted_count;
    }
    struct counted *c = &h->counted[*number - 1];
    free(c->messages);
    free(c->tasks);
    *c = (struct counted){.is_known = step->place != 0, .count = step->place ? step->place - 1 : 0};
}

static void post(struct history *h, const struct task *task, const struct step *step) {
    struct counted *c = counted_at(h, step->about);
    if (c)
        PUSH(c->messages, c->message_count, give(h, task, step->place));
}

/* So many waits as its count was at first get nothing, and then each gets the next post. A try waits for nobody, and takes that from those who do. */
static void got(struct history *h, const struct task *task, const struct step *step) {
    struct counted *c = counted_at(h, step->about);
    if (!c || c->waits++ < c->count || c->got == c->message_count)
        return;
    uint32_t message = c->messages[c->got++];
    if (!step->mode)
        get(h, task, message, step->place);
}

/* Who comes last gets the messages of all others, and gives one that these get as they go on: so each is after all others' coming. */
static void end_round(struct history *h, struct counted *c, const struct task *last, uint32_t place) {
    for (size_t i = 0; i + 1 < c->message_count; i++)
        get(h, last, c->messages[i], place);
    uint32_t all = give(h, last, place);
    for (size_t i = 0; i + 1 < c->task_count; i++)
        h->threads.tasks[c->tasks[i] - 1].round = all;
    c->message_count = c->task_count = 0;
}

static void arrive(struct history *h, const struct task *task, const struct step *step) {
    struct counted *c = counted_at(h, step->about);
    if (!c)
        return;
    bool is_last = c->message_count + 1 >= c->count;
    PUSH(c->messages, c->message_count, is_last ? 0 : give(h, task, step->place));
    PUSH(c->tasks, c->task_count, number_of_task(&h->threads, task));
    if (is_last)
        end_round(h, c, task, step->place);
}

static void go_on(struct history *h, struct task *task, const struct step *step) {
    if (task->round)
        get(h, task, task->round, step->place);
    task->round = 0;
}

/* ---- All of them. */

void take_message(struct history *h, struct task *task, const struct step *step) {
    switch (step->verb) {
    case STEP_BEGIN: begin(h, task, step); break;
    case STEP_START: start(h, task, step); break;
    case STEP_JOIN: join(h, task, step); break;
    case STEP_JOINED: joined(h, task, step); break;
    case STEP_SIGNAL: *value_at(&h->conditions, step->about) = give(h, task, step->place); break;
    case STEP_WAIT: wait_for(h, task, step); break;
    case STEP_WOKEN: woken(h, task, step); break;
    case STEP_COUNT: count(h, step); break;
    case STEP_POST: post(h, task, step); break;
    case STEP_GOT: got(h, task, step); break;
    case STEP_ARRIVE: arrive(h, task, step); break;
    case STEP_LEAVE: go_on(h, task, step); break;
    default: break;
    }
}

void forget_messages(struct history *h) {
    for (size_t i = 0; i < h->counted_count; i++) {
        free(h->counted[i].messages);
        free(h->counted[i].tasks);
    }
    free(h->counted);
    free(h->messages);
    forget_map(&h->conditions);
    forget_map(&h->counted_at);
}
