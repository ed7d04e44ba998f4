/* Which thread is which. A thread is known by its pthread_t, which another one may have when it has ended: of the starts with that pthread_t it is the
   last one before the thread's first step. */
#include "history.h"

#include <string.h>

struct task *task_of(struct threads *t, uint32_t thread) {
    uint32_t *number = value_at(&t->by_thread, thread);
    if (!*number) {
        struct task new = {.thread = thread};
        PUSH(t->tasks, t->task_count, new);
        *number = (uint32_t)t->task_count;
    }
    return &t->tasks[*number - 1];
}

/* ---- What all steps say. */

static void note_start(struct threads *t, const struct step *step, uint64_t nth) {
    struct start new = {.at = nth};
    PUSH(t->starts, t->start_count, new);
    *value_at(&t->by_number, step->about) = (uint32_t)t->start_count;
}

static void note_started(struct threads *t, const struct step *step) {
    uint32_t start = value_of(&t->by_number, step->place);
    if (start)
        t->starts[start - 1].thread = step->about;
}

/* Whoever is joined has ended, whether or not it could say so. */
static void note_joined(struct threads *t, const struct step *step) {
    uint32_t joined = value_of(&t->by_self, step->about);
    if (joined)
        t->tasks[joined - 1].has_ended = true;
}

static void note_step(struct threads *t, const struct step *step, uint64_t nth) {
    struct task *task = task_of(t, step->thread);
    if (step->verb == STEP_END) {
        task->has_ended = true;
        return;
    }
    if (step->verb == STEP_BEGIN) {
        task->self = step->about;
        task->begun = nth;
        *value_at(&t->by_self, step->about) = (uint32_t)(task - t->tasks) + 1;
    } else if (step->verb == STEP_START)
        note_start(t, step, nth);
    else if (step->verb == STEP_STARTED)
        note_started(t, step);
    else if (step->verb == STEP_JOINED)
        note_joined(t, step);
    if (step->verb != STEP_NAME)
        task->last = nth;
}

/* ---- Who was started by which start. */

static void link_starts(struct threads *t) {
    for (size_t i = 0; i < t->start_count; i++) {
        if (!t->starts[i].thread)
            continue;
        uint32_t *latest = value_at(&t->latest, t->starts[i].thread);
        t->starts[i].before = *latest;
        *latest = (uint32_t)i + 1;
    }
}

static int by_last_begun(const void *a, const void *b) {
    const struct task *x = *(const struct task *const *)a, *y = *(const struct task *const *)b;
    return x->begun > y->begun ? -1 : x->begun < y->begun;
}

/* From the last thread to the first one, so that each start is looked at once. */
static void find_start(struct threads *t, struct task *task) {
    uint32_t *latest = value_at(&t->latest, task->self), start = *latest;
    while (start && t->starts[start - 1].at > task->begun)
        start = t->starts[start - 1].before;
    *latest = start ? t->starts[start - 1].before : 0;
    task->start = start;
    if (start)
        t->starts[start - 1].task = (uint32_t)(task - t->tasks) + 1;
}

static void find_starts(struct threads *t) {
    struct task **order = checked(calloc(t->task_count + 1, sizeof *order));
    for (size_t i = 0; i < t->task_count; i++)
        order[i] = &t->tasks[i];
    qsort(order, t->task_count, sizeof *order, by_last_begun);
    link_starts(t);
    for (size_t i = 0; i < t->task_count; i++)
        if (order[i]->self)
            find_start(t, order[i]);
    forget_map(&t->latest);
    forget_map(&t->by_self);
    free(order);
}

/* ---- Names: that of the trace of the thread's own code, if it has one, or `main` for the first thread of a process. */

static void name_by_trace(struct threads *t, const struct arena *a, uint32_t process, uint32_t n) {
    const struct raw_thread *raw = part_of(a, RAW_THREADS, n);
    uint32_t task = raw->is_ready && !raw->source && raw->process == process ? value_of(&t->by_thread, raw->system_thread) : 0;
    if (task && a->traces[n])
        snprintf(t->tasks[task - 1].name, sizeof t->tasks->name, "task-%04u", a->traces[n]);
    if (task && raw->joined && is_thread(a, raw->joined))
        t->tasks[task - 1].object = raw->joined;
}

static void name_tasks(struct threads *t, const struct arena *a, uint32_t process) {
    const struct raw_process *raw = part_of(a, RAW_PROCESSES, process);
    unsigned long unnamed = 0;
    for (uint32_t n = 1; n <= count_of(a, RAW_THREADS); n++)
        name_by_trace(t, a, process, n);
    for (size_t i = 0; i < t->task_count; i++)
        if (!t->tasks[i].name[0] && t->tasks[i].self == raw->first)
            strcpy(t->tasks[i].name, "main");
        else if (!t->tasks[i].name[0])
            snprintf(t->tasks[i].name, sizeof t->tasks->name, "thread-%lu", ++unnamed);
}

void find_threads(struct threads *t, struct arena *a, uint32_t process) {
    struct steps *steps = begin_steps(a, process);
    struct step step;
    *t = (struct threads){.task_count = 0};
    for (uint64_t nth = 1; next_step(steps, &step); nth++)
        note_step(t, &step, nth);
    end_steps(steps);
    find_starts(t);
    name_tasks(t, a, process);
}

void forget_threads(struct threads *t) {
    free(t->tasks);
    free(t->starts);
    forget_map(&t->by_thread);
    forget_map(&t->by_self);
    forget_map(&t->by_number);
    forget_map(&t->latest);
}
