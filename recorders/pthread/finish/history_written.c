/* The file of a history, and the places of its records. */
#include "history.h"

#include <string.h>

void add_line(struct history *h, enum verb verb, const struct task *task, uint32_t about, uint8_t mode, uint32_t place) {
    struct line new = {number_of_task(&h->threads, task), about, place, (uint8_t)verb, mode};
    PUSH(h->lines, h->line_count, new);
}

uint32_t give(struct history *h, const struct task *task, uint32_t place) {
    struct message new = {.at = h->nth};
    PUSH(h->messages, h->message_count, new);
    add_line(h, WRITES_GIVE, task, (uint32_t)h->message_count, 0, place);
    return (uint32_t)h->message_count;
}

void get(struct history *h, const struct task *task, uint32_t message, uint32_t place) {
    if (!message)
        return;
    h->messages[message - 1].number = 1;
    add_line(h, WRITES_GET, task, message, 0, place);
}

/* ---- What isn't written. */

static bool is_of_lock(const struct line *line) { return line->verb <= WRITES_RELEASE; }

static bool is_written(const struct history *h, const struct line *line) {
    return is_of_lock(line) ? !h->locks.locks[line->about - 1].fault : h->messages[line->about - 1].number != 0;
}

static void number_messages(struct history *h) {
    uint32_t number = 0;
    for (size_t i = 0; i < h->line_count; i++)
        if (h->lines[i].verb == WRITES_GIVE && is_written(h, &h->lines[i]))
            h->messages[h->lines[i].about - 1].number = ++number;
}

/* ---- A record. */

static const char *const verbs[] = {",take,", ",again,", ",release,", ",give,", ",get,"};

static void write_mode(FILE *file, uint8_t mode) {
    static const char *const modes[] = {"w", "r", "rr"};
    enum mode plain = raw_plain(mode);
    bool is_try = plain >= MODE_TRY_WRITE;
    fputs(is_try ? ",t" : mode & RAW_TIMED ? ",l" : ",", file);
    fputs(modes[plain % MODE_TRY_WRITE], file);
}

static void write_record(FILE *file, const struct history *h, const struct line *line) {
    fputs(h->threads.tasks[line->task - 1].name, file);
    fputs(verbs[line->verb], file);
    if (is_of_lock(line))
        write_name(file, h->locks.locks[line->about - 1].name);
    else
        fprintf(file, "%u", h->messages[line->about - 1].number);
    if (line->verb == WRITES_TAKE)
        write_mode(file, line->mode);
    putc('\n', file);
}

/* ---- The file. */

/* The files beside a history: the callers of each record without wrappers, and the place that its call returns to, which may be in one. */
struct beside {
    FILE *places, *calls;
};

static void write_beside(const struct beside *to, const struct history *h, uint32_t place) {
    const struct raw_place *raw = place ? part_of(h->arena, RAW_PLACES, place) : NULL;
    uint64_t word = raw && raw->count ? global_word(h->arena, raw->callers[0]) : UINT64_MAX;
    write_place(to->places, place ? place_numbered(h->arena, place) : NULL);
    fwrite(&word, sizeof word, 1, to->calls);
}

static void write_kinds(FILE *file, const struct beside *beside, const struct history *h) {
    for (size_t i = 0; i < h->locks.count; i++) {
        const struct lock *lock = &h->locks.locks[i];
        if (!lock->is_used || lock->fault || lock->kind == LOCK_PLAIN)
            continue;
        fputs(lock->kind == LOCK_THREAD ? "thread," : "once,", file);
        write_name(file, lock->name);
        putc('\n', file);
        write_beside(beside, h, 0);
    }
}

static void write_lines(FILE *file, const struct beside *beside, const struct history *h) {
    for (size_t i = 0; i < h->line_count; i++) {
        if (!is_written(h, &h->lines[i]))
            continue;
        write_record(file, h, &h->lines[i]);
        write_beside(beside, h, h->lines[i].place);
    }
}

static void write_faults(FILE *file, const struct history *h) {
    static const char *const reasons[] = {[FAULT_TAKEN_BY_ANOTHER] = "taken-by-another", [FAULT_NOT_HELD] = "not-held"};
    for (size_t i = 0; i < h->locks.count; i++)
        if (h->locks.locks[i].is_used && h->locks.locks[i].fault)
            fprintf(file, "%s %s\n", h->locks.locks[i].name, reasons[h->locks.locks[i].fault]);
}

static void write_absent(FILE *file, const struct history *h) {
    char name[MAX_OBJECT_NAME + 1];
    for (size_t i = 0; i < h->absent_count; i++) {
        tell_object(name, sizeof name, h->absent[i]);
        fprintf(file, "%s absent\n", name);
    }
}

static bool has_faults(const struct history *h) {
    for (size_t i = 0; i < h->locks.count; i++)
        if (h->locks.locks[i].is_used && h->locks.locks[i].fault)
            return true;
    return false;
}

/* The locks that are left out: NAME REASON. */
static void write_left_out(const char *path, const struct history *h) {
    if (!has_faults(h) && !h->absent_count)
        return;
    FILE *file = created(path);
    write_faults(file, h);
    write_absent(file, h);
    closed(file, path);
}

void write_history(const char *folder, struct history *h, uint32_t number) {
    char path[4400], places[4500], calls[4500], left_out[4500];
    snprintf(path, sizeof path, "%s/history/process-%04u.csv", folder, number);
    snprintf(places, sizeof places, "%s.places", path);
    snprintf(calls, sizeof calls, "%s/history/process-%04u.calls.places", folder, number);
    snprintf(left_out, sizeof left_out, "%s/history/process-%04u.left-out", folder, number);
    FILE *file = created(path);
    struct beside beside = {created(places), created(calls)};
    number_messages(h);
    fputs("history,1\n", file);
    begin_places(beside.places, (uint32_t)frames);
    begin_places(beside.calls, 1);
    write_beside(&beside, h, 0);
    write_kinds(file, &beside, h);
    write_lines(file, &beside, h);
    closed(file, path);
    closed(beside.places, places);
    closed(beside.calls, calls);
    write_left_out(left_out, h);
}
