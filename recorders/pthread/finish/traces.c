/* Traces of threads. */
#include "trace.h"

#include <errno.h>
#include <string.h>
#include <sys/stat.h>
#include <unistd.h>

struct sums sums;
static char *waiting, *held_at_end; /* of these, how they ended */

static struct late_file tasks_file;

/* ---- How a thread ended. */

/* Adds a thread to those of its kind, with what it held and, if it waited, what it waited for: as JSON, behind a comma. */
static void add_end(char **ends, const struct trace *t, const char *name) {
    char *end = NULL;
    size_t length = 0, had = *ends ? strlen(*ends) : 0;
    FILE *file = checked(open_memstream(&end, &length));
    fprintf(file, ",[\"%s\"", name);
    for (size_t i = 0; i < t->depth; i++) {
        putc(',', file);
        write_quoted(file, keys[t->held[i].key].name, SIZE_MAX);
    }
    putc(']', file);
    fclose(file);
    *ends = checked(realloc(*ends, had + length + 1));
    memcpy(*ends + had, end, length + 1);
    free(end);
}

static void write_ends(FILE *file, const char *ends) { fprintf(file, ",\"ends\":[%s]", ends + 1); }

void write_waiting(FILE *file) { write_ends(file, waiting); }
void write_held_at_end(FILE *file) { write_ends(file, held_at_end); }

/* Whether the summary names the trace. */
static bool is_in_summary(const struct trace *t) { return t->depth && (t->waits || t->raw->ended); }

static void note_end(const struct trace *t, const char *name) {
    if (t->waits && t->depth) {
        sums.waiting++;
        sums.waiting_at_exit += t->raw->waits == RAW_WAITS_AT_EXIT;
        add_end(&waiting, t, name);
    } else if (t->raw->ended && t->depth) {
        sums.held_at_end++;
        add_end(&held_at_end, t, name);
    }
}

/* ---- A trace. */

static void write_records(struct trace *t) {
    uint32_t own = own_object(t->arena, t->raw);
    t->waits = waits_for_ever(t->raw);
    if (own)
        take(t, &(struct raw_record){raw_what(own, MODE_WRITE), 0});
    for (uint64_t i = 0; i < t->raw->count; i++) {
        const struct raw_record *r = record_of(t->arena, t->raw, i), *state = r ? NULL : state_record_of(t->arena, t->raw, i);
        if (state)
            take_state(t, state);
        bool is_out = r && is_left_out(t->arena, raw_object(r->what));
        t->waits = waits_for_ever(t->raw) && !is_out && !(r && is_going_on(t->arena, raw_object(r->what)));
        if (!r || is_out)
            continue;
        if (raw_mode(r->what) == MODE_RELEASE)
            give_back(t, r);
        else
            take(t, r);
    }
    if (t->raw->waits == RAW_WAITS_FOR_A_TIME && t->depth) /* it gives up in the end */
        give_back(t, &(struct raw_record){raw_what(t->held[t->depth - 1].object, MODE_RELEASE), t->held[t->depth - 1].place});
    if (own && t->raw->ended)
        give_back(t, &(struct raw_record){raw_what(own, MODE_RELEASE), 0});
}

/* The files of a trace: by classes and by objects, and the places, which are the same for both. */
struct names {
    char trace[32], text[4300], objects[4300], places[4400], object_places[4400];
};

static void open_files(struct trace *t, const struct names *n) {
    t->text = created(n->text);
    t->objects = created(n->objects);
    t->places = created(n->places);
    fputs("lockdep,2\n", t->text);
    fputs("lockdep,2\n", t->objects);
    begin_places(t->places, (uint32_t)frames);
    write_place(t->places, NULL);
}

/* A second name for the same file, or a copy if the file system has no such names. */
static void give_second_name(const char *path, const char *second) {
    unlink(second);
    if (link(path, second) == 0)
        return;
    FILE *from = fopen(path, "r"), *to = created(second);
    char bytes[65536];
    for (size_t n; from && (n = fread(bytes, 1, sizeof bytes, from)) > 0;)
        fwrite(bytes, 1, n, to);
    if (!from || ferror(from))
        refuse_file("can't be read", path);
    fclose(from);
    closed(to, second);
}

static void close_files(struct trace *t, const struct names *n, bool is_kept) {
    closed(t->text, n->text);
    closed(t->objects, n->objects);
    closed(t->places, n->places);
    if (is_kept)
        give_second_name(n->places, n->object_places);
    else {
        unlink(n->text);
        unlink(n->objects);
        unlink(n->places);
    }
}

/* The name of a thread that has one, and the process of each if there are several. */
static void write_task(const char *folder, const struct trace *t) {
    const struct raw_process *process = part_of(t->arena, RAW_PROCESSES, t->raw->process);
    const struct raw_source *source = part_of(t->arena, RAW_SOURCES, t->raw->source);
    char text[32];
    if ((!t->raw->name[0] && !source && process_count < 2) || !process)
        return;
    FILE *tasks = begun(&tasks_file, folder, "tasks");
    if (source) {
        fprintf(tasks, "%s.csv %u handler of %s\n", t->name, process->id, tell_signal(text, sizeof text, source->signal));
        return;
    }
    fprintf(tasks, "%s.csv %u ", t->name, process->id);
    for (const char *name = t->raw->name; name < t->raw->name + RAW_CALLED && *name; name++)
        putc((unsigned char)*name < ' ' ? '?' : *name, tasks);
    putc('\n', tasks);
}

/* Returns the number of the trace's file, or 0 if it has none. */
static uint32_t write_trace(const char *folder, struct trace *t) {
    struct names n;
    snprintf(n.trace, sizeof n.trace, "task-%04lu", (unsigned long)sums.threads + 1);
    snprintf(n.text, sizeof n.text, "%s/%s.csv", folder, n.trace);
    snprintf(n.objects, sizeof n.objects, "%s/objects/%s.csv", folder, n.trace);
    snprintf(n.places, sizeof n.places, "%s.places", n.text);
    snprintf(n.object_places, sizeof n.object_places, "%s.places", n.objects);
    t->name = n.trace;
    open_files(t, &n);
    write_records(t);
    bool is_repeat = t->events && !is_in_summary(t) && is_duplicate(&t->content, (uint32_t)sums.threads + 1);
    close_files(t, &n, t->events && !is_repeat);
    write_weak(folder, t, t->events && !is_repeat);
    sums.alike += is_repeat;
    if (t->events == 0 || is_repeat)
        return 0;
    sums.threads++;
    sums.events += t->events;
    note_end(t, n.trace);
    write_task(folder, t);
    return (uint32_t)sums.threads;
}

/* A trace of a set. Nothing is held at the end of a frame. */
static void write_records_of_set(struct trace *t) {
    if (t->is_frame)
        write_word(t, "enter,hardirq", 0);
    write_records(t);
    while (t->is_frame && t->depth)
        give_back(t, &(struct raw_record){raw_what(t->held[t->depth - 1].object, MODE_RELEASE), t->held[t->depth - 1].place});
    if (t->is_frame)
        write_word(t, "leave", 0);
}

/* Returns whether it has any event besides. */
bool write_in_set(const char *folder, const struct source *source, struct arena *a, const struct raw_thread *raw, uint32_t number, bool is_frame) {
    static struct trace t;
    char name[32], path[4400], places[4500];
    snprintf(name, sizeof name, "task-%04lu", (unsigned long)number);
    snprintf(path, sizeof path, "%s/%s.csv", folder, name);
    snprintf(places, sizeof places, "%s.places", path);
    memset(&t, 0, sizeof t);
    t.name = name;
    t.arena = a;
    t.raw = raw;
    t.source = source;
    t.is_frame = is_frame;
    t.objects = created(path);
    t.places = created(places);
    fputs("lockdep,2\n", t.objects);
    begin_places(t.places, (uint32_t)frames);
    write_place(t.places, NULL);
    write_records_of_set(&t);
    closed(t.objects, path);
    closed(t.places, places);
    bool is_kept = t.events > (is_frame ? 2u : 0u);
    write_weak(folder, &t, is_kept);
    if (!is_kept) {
        unlink(path);
        unlink(places);
    }
    return is_kept;
}

void end_set(void) { end_weak(); }

static void add_left_out(const struct raw_left_out *from) {
    sums.raw.releases += from->releases;
    sums.raw.full += from->full;
    sums.raw.deep += from->deep;
    sums.raw.reentered += from->reentered;
    sums.raw.no_room += from->no_room;
    sums.raw.retried += from->retried;
    sums.raw.repeated += from->repeated;
}

static void make_folder(const char *folder) {
    char path[4300];
    snprintf(path, sizeof path, "%s/objects", folder);
    if (mkdir(path, 0777) != 0 && errno != EEXIST)
        refuse_file("can't be made", path);
}

void write_traces(const char *folder) {
    static struct trace t;
    uint64_t threads = 0;
    make_folder(folder);
    for (size_t i = 0; i < arena_count; i++)
        threads += count_of(&arenas[i], RAW_THREADS);
    expect_traces(threads);
    for (size_t i = 0; i < arena_count; i++) {
        arenas[i].traces = checked(calloc(count_of(&arenas[i], RAW_THREADS) + 1, sizeof *arenas[i].traces));
        arenas[i].has_events = checked(calloc(count_of(&arenas[i], RAW_THREADS) + 1, sizeof *arenas[i].has_events));
        for (uint32_t n = 1; n <= count_of(&arenas[i], RAW_THREADS); n++) {
            const struct raw_thread *raw = part_of(&arenas[i], RAW_THREADS, n);
            if (!raw->is_ready)
                continue;
            sums.operations += raw->calls;
            add_left_out(&raw->left_out);
            memset(&t, 0, sizeof t);
            t.arena = &arenas[i];
            t.raw = raw;
            arenas[i].traces[n] = write_trace(folder, &t);
            arenas[i].has_events[n] = t.events != 0;
        }
    }
    end_file(&tasks_file);
    end_weak();
}
