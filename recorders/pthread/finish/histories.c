/* What the threads of each process did, in the order in which it came, as FOLDER/history/process-NNNN.csv. */
#include "history.h"

#include <errno.h>
#include <string.h>
#include <sys/stat.h>

static uint64_t left_out[FAULT_NOT_HELD + 1], ended; /* locks, and processes of which later steps are missing */

/* ---- Steps of locks. */

static bool is_writer(uint8_t mode) { return raw_plain(mode) % MODE_TRY_WRITE == MODE_WRITE; }

/* A plain reader who takes it once more may wait behind a writer; nobody else who has it takes anything. */
static void take(struct history *h, const struct task *task, uint32_t number, const struct step *step) {
    enum taken taken = take_lock(&h->locks.locks[number - 1], number_of_task(&h->threads, task), is_writer(step->mode));
    if (taken == TAKEN_FIRST)
        add_line(h, WRITES_TAKE, task, number, step->mode, step->place);
    else if (taken == TAKEN_AGAIN && step->mode == MODE_READ)
        add_line(h, WRITES_AGAIN, task, number, 0, step->place);
}

static void release(struct history *h, const struct task *task, uint32_t number, uint32_t place) {
    if (release_lock(&h->locks.locks[number - 1], number_of_task(&h->threads, task)))
        add_line(h, WRITES_RELEASE, task, number, 0, place);
}

/* A release has the number of the lock's object, or 0, where other steps have their place. */
static void give_back(struct history *h, const struct task *task, const struct step *step) {
    uint32_t number = lock_at(&h->locks, step->about, LOCK_PLAIN);
    if (step->place)
        be_object(&h->locks, number, step->place);
    release(h, task, number, 0);
}

static void run_once(struct history *h, const struct task *task, const struct step *step) {
    struct step taking = *step;
    taking.mode = MODE_WRITE;
    take(h, task, lock_at(&h->locks, step->about, LOCK_ONCE), &taking);
}

static void pass_once(struct history *h, const struct task *task, const struct step *step) {
    struct step taking = *step;
    uint32_t number = lock_at(&h->locks, step->about, LOCK_ONCE);
    taking.mode = MODE_REC_READ;
    take(h, task, number, &taking);
    release(h, task, number, step->place);
}

/* Who joins it gets a message from its end: nothing after the join comes before that, whoever takes the thread as a lock. */
static void end_task(struct history *h, struct task *task) {
    if (task->lock) {
        task->end = give(h, task, 0);
        release(h, task, task->lock, 0);
    }
    task->is_over = true;
}

static void take_step(struct history *h, const struct step *step) {
    struct task *task = task_of(&h->threads, step->thread);
    if (step->verb == STEP_NAME)
        name_lock_at(&h->locks, &h->threads, step->about, step->place, step->mode);
    else if (step->verb == STEP_TAKE)
        take(h, task, lock_at(&h->locks, step->about, LOCK_PLAIN), step);
    else if (step->verb == STEP_RELEASE)
        give_back(h, task, step);
    else if (step->verb == STEP_RUN)
        run_once(h, task, step);
    else if (step->verb == STEP_RAN)
        release(h, task, lock_at(&h->locks, step->about, LOCK_ONCE), step->place);
    else if (step->verb == STEP_PASS)
        pass_once(h, task, step);
    else
        take_message(h, task, step);
    if (task->has_ended && h->nth == task->last)
        end_task(h, task);
}

/* ---- A process. */

static void count_left_out(const struct history *h) {
    for (size_t i = 0; i < h->locks.count; i++)
        left_out[h->locks.locks[i].is_used ? h->locks.locks[i].fault : FAULT_NONE]++;
    ended += ((const struct raw_process *)part_of(h->arena, RAW_PROCESSES, h->process))->history_end != 0;
}

static void write_history_of(const char *folder, struct arena *a, uint32_t process) {
    struct history h = {.arena = a, .process = process};
    struct step step;
    find_threads(&h.threads, a, process);
    struct steps *steps = begin_steps(a, process);
    for (h.nth = 1; next_step(steps, &step); h.nth++)
        take_step(&h, &step);
    end_steps(steps);
    give_names(&h.locks, &h.threads, a, process);
    find_absent(&h);
    write_history(folder, &h, a->processes[process]);
    count_left_out(&h);
    forget_messages(&h);
    forget_locks(&h.locks);
    forget_threads(&h.threads);
    free(h.lines);
    free(h.absent);
}

static void make_folder(const char *folder) {
    char path[4300];
    snprintf(path, sizeof path, "%s/history", folder);
    if (mkdir(path, 0777) != 0 && errno != EEXIST)
        refuse_file("can't be made", path);
}

static void write_histories_of(const char *folder, struct arena *a) {
    bool *has_some = checked(calloc(count_of(a, RAW_PROCESSES) + 1, sizeof *has_some));
    if (processes_with_steps(a, has_some))
        make_folder(folder);
    for (uint32_t process = 1; process <= count_of(a, RAW_PROCESSES); process++)
        if (has_some[process] && a->processes[process])
            write_history_of(folder, a, process);
    free(has_some);
}

void write_histories(const char *folder) {
    for (size_t i = 0; i < arena_count; i++)
        write_histories_of(folder, &arenas[i]);
}

void write_histories_left_out(FILE *file) {
    write_loss(file, "history-ends", ended);
    write_loss(file, "history-taken-by-another", left_out[FAULT_TAKEN_BY_ANOTHER]);
    write_loss(file, "history-not-held", left_out[FAULT_NOT_HELD]);
}
