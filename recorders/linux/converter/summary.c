/* The summary, and why a recording is incomplete. */
#define _GNU_SOURCE
#include "converter.h"

static void tell(FILE *file, unsigned long count, const char *what, bool is_always) {
    if (count || is_always)
        fprintf(file, "%s %lu\n", what, count);
}

/* Who takes a class first whose name ends with a distance. */
void tell_takers(FILE *file) {
    for (size_t number = 0; number < class_count; number++) {
        const struct class *class = &classes[number];
        bool is_by_distance = is_ambiguous(class) && class->symbol && is_nameless(class);
        const struct symbol *taker = is_by_distance ? function_at(class->taker, class->taken_at) : NULL;
        if (taker)
            fprintf(file, "class %s is first taken by %s\n", writtens[class->written].text, taker->name);
    }
}

/* Names that several classes share in the traces. */
static void tell_joined(FILE *file) {
    for (size_t number = 0; number < written_count; number++)
        if (writtens[number].other_keys > 1)
            fprintf(file, "one class, though it has %d keys: %s\n", writtens[number].other_keys, writtens[number].text);
}

void tell_summary(FILE *file) {
    size_t acquired = 0;
    for (size_t key = 0; key < written_count * SUBCLASSES; key++)
        acquired += *uses_of_key(key) != 0;
    tell(file, counts.traces, "traces", true);
    tell(file, counts.events, "events", true);
    tell(file, keys_chosen, "keys", true);
    tell(file, counts.records, "records", true);
    tell(file, counts.acquisitions, "acquisitions", true);
    tell(file, counts.releases, "releases", true);
    tell(file, counts.agreed, "records whose depth agreed", true);
    tell(file, counts.mismatches, "mismatches", true);
    tell(file, counts.lost, "lost records", true);
    tell(file, counts.gaps, "gaps", false);
    tell(file, counts.taken_in_flight, "acquisitions in flight", false);
    tell(file, counts.given_in_flight, "releases in flight", false);
    tell(file, counts.unmarked_interrupts, "interrupts that no tracepoint told of, after an operation in flight", false);
    tell(file, counts.blind, "left out: records of a task whose locks aren't known", false);
    tell(file, counts.unchecked, "left out: acquisitions that lockdep doesn't check", false);
    tell(file, counts.tries, "left out: try acquisitions, which version 1 can't say", false);
    tell(file, acquired - keys_wanted, "left out: keys that --only doesn't ask for", false);
    tell(file, keys_wanted - keys_chosen, "left out: the least used of too many keys", false);
    tell(file, counts.not_chosen, "left out: acquisitions of keys that were left out", false);
    tell(file, counts.not_looked_at, "left out: events that lockdep didn't look at", false);
    tell(file, counts.readers, "left out: records of tasks that read the recording", false);
    tell(file, counts.unknown_releases, "releases of locks that the task wasn't seen to take", false);
    tell(file, counts.beyond_limit, "left out: records of tasks whose trace is full", false);
    tell(file, counts.nested, "acquisitions under a nest_lock, by which they are safe", false);
    tell(file, counts.off, control.is_of_text ? "records without lockdep's account" : "records after lockdep turned itself off", false);
    tell(file, counts.unproven, "left out: acquisitions at an end of the text whose release may be missing", false);
    tell(file, counts.alike, "left out: tasks that do what two others do, by which nothing is lost", false);
    tell(file, counts.shared, "tasks that share a trace", false);
    tell(file, counts.before_first_task, "left out: records of a CPU before its task was told", false);
    tell_joined(file);
}

static bool is_lockdep_off(void) { return control.is_lockdep_off || (counts.off && !control.is_of_text); }

/* What a recording lacks. */
void note_incomplete(void) {
    if (counts.lost || counts.gaps)
        incomplete("lost-records", "%lu records were lost in %lu gaps: the traces may have false orders", counts.lost, counts.gaps);
    if (control.lost != counts.lost && control.is_there && !control.is_of_text)
        incomplete("other-losses", "the module lost %lu records, and its files tell of %lu: they are damaged, and the traces may have false orders",
                   control.lost, counts.lost);
    if (control.nested)
        incomplete("nested", "%lu events, as of NMIs, weren't recorded, since they came while another one was written", control.nested);
    if (*control.missing)
        incomplete("tracepoints-missing", "this kernel lacks tracepoints, so less is seen of its interrupts:%s", control.missing);
    if (counts.cut_files)
        incomplete("cut-file", "a file of the recording ends within a record");
    if (counts.absent || counts.misplaced || counts.unknown_types)
        incomplete("damaged",
                   "files of the recording are damaged: by their numbers %lu records are missing and %lu are there twice or misplaced; %lu have "
                   "no known type",
                   counts.absent, counts.misplaced, counts.unknown_types);
    if (is_lockdep_off())
        incomplete("lockdep-off", "lockdep turned itself off (dmesg says why): the %lu records since then couldn't be compared with its account",
                   counts.off);
    if (counts.after_lockdep)
        incomplete("not-looked-at", "lockdep looked at none of the last %lu events: has it turned itself off?", counts.after_lockdep);
    if (counts.before_first_task)
        incomplete("untold-task", "of %lu records it isn't known which task they are of", counts.before_first_task);
}

/* What of the recording isn't in the traces, or may be wrong there. */
void note_left_out(void) {
    size_t keys = keys_wanted - keys_chosen;
    if (counts.mismatches)
        incomplete("mismatches", "%lu times the locks held weren't as many as lockdep's: the task was left out until they were",
                   counts.mismatches);
    if (keys)
        incomplete("left-out-keys", "%zu keys were left out, the least used: nothing is known of them; `lockdep check --many` takes %d", keys,
                   DEFAULT_KEYS);
    if (counts.beyond_limit)
        incomplete("full-trace", "traces end at %d events", MAX_EVENTS);
    if (counts.traces > options.most_traces)
        incomplete("too-many-traces", "there are more than %lu traces, since tasks end with a lock held: give check a part of them",
                   options.most_traces);
    if (control.is_of_text)
        incomplete("text", "text doesn't tell subclasses, recursive readers, nest_lock or two classes of one name: there may be false cycles");
    if (control.is_without_softirqs)
        incomplete("text-softirqs", "this text doesn't tell whether softirqs are off: doubles and inversions by softirq may be false");
    if (control.is_without_interrupts)
        incomplete("text-interrupts", "this text doesn't tell what is an interrupt: only cycles are found, and those of an interrupt's locks may be false");
}

/* The reasons in SUMMARY, where `lockdep confirm` reads them. */
void tell_reasons(FILE *file) {
    for (int number = 0; number < reason_count; number++)
        fprintf(file, "incomplete %s\n", reasons[number].text);
}

/* Says on standard error what the traces lack or get wrong. Returns the status. */
int tell_faults(void) {
    for (int number = 0; number < reason_count; number++)
        fprintf(stderr, "convert: %s\n", reasons[number].text);
    if (!counts.records)
        fputs("convert: nothing was recorded\n", stderr);
    else if (!counts.traces)
        fputs("convert: no task took a lock that is asked for: there are no traces\n", stderr);
    return !counts.traces ? 2 : reason_count > 0;
}

/* Whether lockdep tells classes apart that have one name in the traces, or forgot what it knew of a class while the recording went on. */
static bool is_several(const struct class *class) { return writtens[class->written].other_keys > 1; }
static bool is_forgotten(const struct class *class) { return class->module && class->taken_at && loads_of(class->module) > 1; }

/* The names of such classes, each once. They are visible ASCII. */
static void write_names(FILE *file, const char *member, bool (*is_such)(const struct class *class)) {
    bool *is_written = checked(calloc(written_count + 1, sizeof *is_written));
    const char *between = "";
    fprintf(file, ",\"%s\":[", member);
    for (size_t number = 0; number < class_count; number++) {
        const struct class *class = &classes[number];
        if (!is_such(class) || is_written[class->written])
            continue;
        is_written[class->written] = true;
        fprintf(file, "%s\"", between);
        for (const char *byte = writtens[class->written].text; *byte; byte++)
            fprintf(file, "%s%c", *byte == '"' || *byte == '\\' ? "\\" : "", *byte);
        fputc('"', file);
        between = ",";
    }
    fputc(']', file);
    free(is_written);
}

/* What tells the driver that this is a kernel's recording, programs why it is incomplete, and both what lockdep itself could say. */
void write_json(void) {
    FILE *file = open_file("summary.json");
    fprintf(file,
            "{\"recording\":1,\"recorder\":\"linux\",\"counts\":[\n"
            "{\"code\":\"records\",\"count\":%lu},\n{\"code\":\"events\",\"count\":%lu}\n],\n",
            counts.records, counts.events);
    bool is_on = control.is_there && !control.is_of_text && !is_lockdep_off() && !counts.after_lockdep;
    fprintf(file, "\"lockdep\":{\"was\":\"%s\"", is_on ? "on" : is_lockdep_off() ? "off" : "unknown");
    write_names(file, "several", is_several);
    write_names(file, "forgotten", is_forgotten);
    fputs("},\n\"unseen\":[", file);
    for (int number = 0; number < reason_count; number++)
        fprintf(file, "%s\"%s\"", number ? "," : "", reasons[number].code);
    fputs("]}\n", file);
    close_file(file);
}
