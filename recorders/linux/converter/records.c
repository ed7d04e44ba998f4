/* Records: what each of them does with its task. */
#define _GNU_SOURCE
#include "converter.h"

static enum mode mode_of(const struct lr_record *record) {
    int read = record->flags >> LR_READ_SHIFT & 3;
    return (enum mode)((read > 2 ? 2 : read) + (is_try(record) ? TRY_WRITE : WRITE));
}

struct held held_of(const struct lr_record *record) {
    size_t written = classes[class_of_record(record)].written;
    int subclass = record->flags & LR_SUBCLASS;
    bool is_written = is_writable(record) && writtens[written].is_chosen[subclass];
    int key = is_written ? (int)(written * SUBCLASSES) + subclass : LEFT_OUT;
    return (struct held){.instance = record->instance,
                         .key = key,
                         .mode = mode_of(record),
                         .class_key = base_key(record) + (uint64_t)subclass,
                         .place = record->place,
                         .number = record->number,
                         .is_nested = record->flags & LR_NEST};
}

static void count_left_out(const struct lr_record *record, const struct held *held) {
    if (held->key != LEFT_OUT)
        return;
    if (!is_checked(record))
        counts.unchecked++;
    else if (options.version == 1 && is_try(record))
        counts.tries++;
    else
        counts.not_chosen++;
}

/* Whether lockdep only counts this acquisition: it is under a nest_lock, and the newest lock is of its class. */
static bool is_counted_only(const struct task *task, const struct lr_record *record, const struct held *held) {
    return (record->flags & LR_NEST) && task->held && task->book[task->held - 1].class_key == held->class_key;
}

/* Whether an acquisition is safe by its nest_lock, so that lockdep draws no order from it: a lock of its class is held, and above it
   the nest_lock. */
static bool is_safe_by(const struct task *task, uint64_t nest_lock, uint64_t class_key) {
    bool is_under = false;
    for (int place = 0; place < task->held; place++) {
        is_under = is_under || task->book[place].instance == nest_lock;
        if (task->book[place].class_key == class_key && task->book[place].level == task->level)
            return is_under;
    }
    return false;
}

/* An acquisition that waits for nothing is written as a try, which is how the format says that; version 1 can't. */
static void make_try(struct held *held) {
    counts.nested++;
    if (options.version == 1)
        held->key = LEFT_OUT;
    else if (held->mode < TRY_WRITE)
        held->mode += TRY_WRITE;
}

static void acquire(struct task *task, const struct lr_record *record, uint64_t nest_lock) {
    struct held held = held_of(record);
    counts.acquisitions++;
    if (top(task)->taking.instance == record->instance)
        top(task)->is_taking = false; /* taken anew: the one in flight was released where nobody saw it */
    if (is_counted_only(task, record, &held)) {
        struct held *newest = &task->book[task->held - 1];
        newest->references += newest->references ? 1 : 2;
        return;
    }
    if (task->held >= MAX_HELD) {
        mismatch(task);
        return;
    }
    count_left_out(record, &held);
    if (nest_lock && held.key != LEFT_OUT && is_safe_by(task, nest_lock, held.class_key))
        make_try(&held);
    take(task, held);
}

/* When a lock is released, lockdep takes the later ones anew, so that one under a nest_lock is only counted if it then comes right
   after one of its class. */
static void merge(struct task *task, int place, const struct lr_record *record) {
    if (place < 1 || place >= task->held)
        return;
    struct held *lower = &task->book[place - 1], *upper = &task->book[place];
    if (!upper->is_nested || lower->class_key != upper->class_key)
        return;
    lower->references = (lower->references ? lower->references : 1) + (upper->references ? upper->references : 1);
    give(task, place, record);
}

/* The newest lock of the book with this address; otherwise the newest that was taken under a nest_lock, since that knows
   only its first address. -1: there is none. */
static int place_of(const struct task *task, uint64_t instance) {
    for (int place = task->held - 1; place >= 0; place--)
        if (task->book[place].instance == instance)
            return place;
    for (int place = task->held - 1; place >= 0; place--)
        if (task->book[place].references)
            return place;
    return -1;
}

/* A CPU that isn't online records nothing: its idle task may have taken a lock meanwhile, and lockdep has one more. */
static void release_unknown(struct task *task, const struct lr_record *record) {
    counts.unknown_releases++;
    if (!has_depth(record) || (task->pid == 0 && task->level == 0 && record->depth == task->held + 1))
        top(task)->is_giving = false;
    else
        mismatch(task);
}

static void release(struct task *task, const struct lr_record *record) {
    counts.releases++;
    int place = place_of(task, record->instance);
    if (place < 0) {
        release_unknown(task, record);
    } else if (task->book[place].references > 1) {
        task->book[place].references--;
    } else if (task->book[place].level != task->level) {
        mismatch(task); /* an interrupt released what was taken outside: no trace can express that */
    } else {
        give(task, place, record);
        merge(task, place, record);
    }
}

/* What the task held before a gap isn't known. Without lockdep's own account it never will be, and counts as released. */
static void forget_gap(struct task *task) {
    if (task->is_after_gap)
        drop_all(task);
    task->is_blind = task->is_after_gap = false;
}

/* The same for one without a depth, which isn't compared with anything. */
static bool prepare_uncompared(struct task *task, const struct lr_record *record) {
    counts.off++;
    forget_gap(task);
    if (!leave_frames(task, record->state))
        drop_all(task);
    enter_frames(task, record->state, task->held);
    end_flight(task);
    counts.readers += task->level == 0 && task->is_reader;
    return task->level > 0 || !task->is_reader;
}

/* Whether an operation that was in flight when a task's account began has arrived: which lock it was of isn't known. */
static bool has_arrived_unseen(const struct task *task, const struct lr_record *record) {
    return task->is_unsure && task->level == 0 && abs(record->depth - task->held) == 1;
}

/* At a record of the task itself nothing is in flight; but the end of an interrupt has one, too. */
static void end_unsure(struct task *task, const struct lr_record *record) {
    if (task->level == 0 && record->type != LR_ENABLE)
        task->is_unsure = false;
}

/* Frames and the book's length, before a record is written. False: the record isn't to be written. */
static bool prepare(struct task *task, const struct lr_record *record) {
    if (!has_depth(record))
        return prepare_uncompared(task, record);
    if (task->is_blind && record->depth == 0) {
        task->is_blind = false;
        task->is_unsure = true;
    }
    if (task->is_blind) {
        counts.blind++;
        return false;
    }
    if (!leave_frames(task, record->state)) {
        mismatch(task);
        return false;
    }
    enter_frames(task, record->state, record->depth);
    if (task->level == 0 && task->is_reader) {
        counts.readers++;
        return false;
    }
    if (task->is_reader && !held_in_frame(task) && !top(task)->is_taking)
        top(task)->difference = record->depth - task->held; /* another interrupt: what was in between isn't recorded */
    if (has_arrived_unseen(task, record)) {
        go_blind(task);
        task->is_blind = record->depth > 0;
    }
    if (task->is_blind) {
        counts.blind++;
        return false;
    }
    if (!does_agree(task, record->depth)) {
        mismatch(task);
        return false;
    }
    end_unsure(task, record);
    counts.agreed++;
    return true;
}

void step(struct task *task, const struct lr_record *record, uint64_t nest_lock) {
    task->is_new = false;
    if (task->is_full) {
        counts.beyond_limit++;
        return;
    }
    if (!prepare(task, record))
        return;
    task->is_after_gap = false;
    int state = record->state | (record->type == LR_ENABLE ? LR_HARDIRQS_ON : 0);
    set_flags(task, state);
    enum last last = NOTHING;
    if (record->type == LR_ACQUIRE) {
        acquire(task, record, nest_lock);
        last = TOOK;
    } else if (record->type == LR_RELEASE) {
        release(task, record);
        last = GAVE;
    }
    if (!task->is_blind)
        top(task)->last = last;
}
