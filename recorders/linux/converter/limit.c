/* Tasks beyond what a run takes: those that say what others said are left out, and others share a trace. */
#define _GNU_SOURCE
#include "converter.h"

/* What a task's trace can say: what it takes in which state, as `is_news` sums it up. */
struct said {
    uint64_t chain;
    unsigned times; /* how many traces say it */
};

static struct said *saids; /* by hash */
static size_t said_room;

static struct said *said_of(uint64_t chain) {
    size_t slot = chain & (said_room - 1);
    while (saids[slot].chain && saids[slot].chain != chain)
        slot = (slot + 1) & (said_room - 1);
    saids[slot].chain = chain;
    return &saids[slot];
}

static void make_saids(void) {
    size_t count = 0;
    for (size_t number = 0; number < task_count; number++)
        count += tasks[number]->seen_count;
    for (said_room = 1024; said_room < 2 * count;)
        said_room *= 2;
    saids = checked(calloc(said_room, sizeof *saids));
}

static bool says_more(const struct task *task) {
    for (size_t slot = 0; slot < task->seen_room; slot++)
        if (task->seen[slot] && said_of(task->seen[slot])->times < ALIKE)
            return true;
    return false;
}

static void note_said(const struct task *task) {
    for (size_t slot = 0; slot < task->seen_room; slot++)
        if (task->seen[slot])
            said_of(task->seen[slot])->times++;
}

bool has_trace(const struct task *task) { return task->acquisitions && !task->is_left_out; }

/* Leaves out tasks of whose acquisitions each is in two other traces: so no fact is lost, nor that several tasks say it. With
   --repeats it isn't known what a task says. */
static void leave_out_alike(void) {
    if (options.repeats)
        return;
    make_saids();
    for (size_t number = 0; number < task_count; number++) {
        struct task *task = tasks[number];
        task->is_left_out = task->acquisitions && !says_more(task);
        counts.alike += task->is_left_out;
        if (has_trace(task))
            note_said(task);
    }
    free(saids);
}

/* Whether another task's records can follow in the same trace: nothing is held at the end. */
static bool can_share(const struct task *task) {
    for (int place = 0; place < task->held; place++)
        if (task->book[place].key != LEFT_OUT)
            return false;
    return has_trace(task) && !task->is_full;
}

static int by_events(const void *a, const void *b) {
    const struct task *first = *(struct task *const *)a, *second = *(struct task *const *)b;
    if (first->event_count != second->event_count)
        return first->event_count < second->event_count ? -1 : 1;
    return first->order < second->order ? -1 : 1;
}

/* Ends a task's records as they began, so that those of another task may follow. */
static void return_to_start(struct task *task) {
    task->held = 0;
    while (task->level > 0)
        leave(task);
    set_flag(task, SOFTIRQ, true);
    set_flag(task, HARDIRQ, true);
}

/* Lets the tasks with the fewest events share traces, as many as are too many. */
static void share_traces(size_t excess) {
    struct task **sharing = NULL;
    size_t count = 0, events = 0, trace = 0;
    for (size_t number = 0; number < task_count; number++)
        if (can_share(tasks[number]))
            PUSH(sharing, count, tasks[number]);
    if (count)
        qsort(sharing, count, sizeof *sharing, by_events);
    for (size_t number = 0; number < count && excess; number++) {
        return_to_start(sharing[number]);
        bool is_first = !trace || events + sharing[number]->event_count > MAX_EVENTS;
        trace += is_first;
        events = (is_first ? 0 : events) + sharing[number]->event_count;
        excess -= !is_first;
        snprintf(sharing[number]->trace, sizeof sharing[number]->trace, "several-%04zu.csv", trace);
        counts.shared++;
    }
    free(sharing);
}

static size_t count_traces(void) {
    size_t count = 0;
    for (size_t number = 0; number < task_count; number++)
        count += has_trace(tasks[number]);
    return count;
}

void limit_traces(void) {
    if (count_traces() > options.most_traces)
        leave_out_alike();
    size_t count = count_traces();
    if (count > options.most_traces)
        share_traces(count - options.most_traces);
}
