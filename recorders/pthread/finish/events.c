/* The events of a trace: what each record of a thread becomes. */
#include "trace.h"

#include <string.h>

static const char *const mode_words[] = {"w", "r", "rr", "tw", "tr", "trr"};

#define MOST_NAMED 5 /* classes that were dropped */

static bool is_try(enum mode mode) { return mode >= MODE_TRY_WRITE && mode <= MODE_TRY_REC_READ; }

/* As a field of a record. */
void write_name(FILE *file, const char *name) {
    if (!strpbrk(name, ",\"")) {
        fputs(name, file);
        return;
    }
    putc('"', file);
    for (; *name; name++) {
        if (*name == '"')
            putc('"', file);
        putc(*name, file);
    }
    putc('"', file);
}

static void write_line(FILE *file, const char *name, unsigned subclass, const char *mode) {
    if (!file)
        return;
    fputs(mode ? "acq," : "rel,", file);
    write_name(file, name);
    fputs((const char[]){',', (char)('0' + subclass), mode ? ',' : 0, 0}, file); /* one of 0 to 7 */
    fputs(mode ? mode : "", file);
    putc('\n', file);
}

static void write_event(struct trace *t, const struct held *h, const char *mode, uint32_t place) {
    struct place start;
    char object[MAX_OBJECT_NAME + 1];
    int object_key = key_of_object(t->arena, t->raw->process, h->object);
    unsigned subclass = subclass_of(t->arena, h->object);
    tell_object(object, sizeof object, object_key);
    add_content(&t->content, (uint64_t)(uint32_t)object_key << 32 | (uint32_t)h->key);
    add_content(&t->content, (uint64_t)subclass << 32 | (mode ? (uint64_t)(mode[0] | mode[1] << 8 | (mode[1] ? mode[2] << 16 : 0)) : 0));
    write_line(t->text, keys[h->key].name, subclass, mode);
    write_line(t->objects, object, subclass, mode);
    write_place(t->places, h->is_own ? start_of(t->arena, h->object, &start) : place_numbered(t->arena, place));
    t->events++;
}

#define ABOUT_INTERRUPTS 4 /* so many records of these may come with another one, and at the end */

/* Of a set: a record about interrupts. */
void write_word(struct trace *t, const char *word, uint32_t place) {
    fprintf(t->objects, "%s\n", word);
    write_place(t->places, place ? place_numbered(t->arena, place) : NULL);
    t->events++;
}

/* A trace says whether the source may interrupt before a lock is taken, and when it may with locks held. */
static void tell_interrupts(struct trace *t, uint32_t place) {
    if (!t->source || t->is_frame || t->may_interrupt != t->is_off)
        return;
    t->is_off = !t->may_interrupt;
    write_word(t, t->is_off ? "off,hardirq" : "on,hardirq", place);
}

/* Before a lock is taken. A routine that had run holds nothing that a handler would wait for. */
static void tell_interrupts_of(struct trace *t, const struct raw_record *r) {
    bool may_interrupt = t->may_interrupt;
    t->may_interrupt = may_interrupt && !raw_has(r->what, RAW_DONE);
    tell_interrupts(t, r->place);
    t->may_interrupt = may_interrupt;
}

void take_state(struct trace *t, const struct raw_record *r) {
    add_content(&t->content, UINT64_C(1) << 62 | raw_object(r->what));
    t->may_interrupt = t->source && may_interrupt(t->source, t->arena, t->raw, raw_object(r->what));
    if (t->may_interrupt && t->written && t->events + 2 + 3 * MAX_HELD + ABOUT_INTERRUPTS <= MAX_EVENTS)
        tell_interrupts(t, r->place);
}

/* What is left out is counted once, and not in each set again. */
static void count(const struct trace *t, uint64_t *sum, uint64_t more) { *sum += t->source ? 0 : more; }

/* Whether a place is in what a program has called by fork before and after. */
static bool is_forking(const struct place *place) {
    for (uint32_t i = 0; i < place->count; i++)
        if (is_in_fork(place->words[i]))
            return true;
    return false;
}

/* How often each class was the oldest that was held, and dropped. */
static uint64_t dropped[MAX_KEYS];

/* One more lock than a task may hold: the oldest is dropped, since the newest ones are those that the next orders are about. */
static void drop_oldest(struct trace *t, const struct raw_record *r) {
    size_t oldest = 0;
    while (!t->held[oldest].is_written)
        oldest++;
    bool is_in_fork_call = is_forking(place_numbered(t->arena, r->place));
    count(t, &sums.in_fork, is_in_fork_call);
    count(t, &sums.deep, !is_in_fork_call);
    count(t, &dropped[t->held[oldest].key], !is_in_fork_call);
    t->held[oldest].is_written = false;
    t->written--;
    write_event(t, &t->held[oldest], NULL, r->place);
}

static size_t most_dropped(void) {
    size_t most = 0;
    for (size_t i = 1; i < MAX_KEYS; i++)
        if (dropped[i] > dropped[most])
            most = i;
    return most;
}

/* The classes that were dropped most often, if traces dropped any. */
void write_dropped(FILE *file) {
    if (!sums.deep)
        return;
    fputs(",\"dropped\":[", file);
    size_t key = most_dropped();
    for (int i = 0; i < MOST_NAMED && dropped[key]; i++) {
        fputs(i ? ",[" : "[", file);
        write_quoted(file, keys[key].name, SIZE_MAX);
        fprintf(file, ",%lu]", (unsigned long)dropped[key]);
        dropped[key] = 0;
        key = most_dropped();
    }
    fputs(dropped[key] ? "],\"more\":true" : "]", file);
}

/* ---- Locks whose order the program says. One that comes after all of its class that are held isn't taken under these: the trace gives
   them back before, and has them taken again by tries, which wait for nobody. Version 1 of the format can't say that. */

static bool is_set_aside(const struct trace *t, const struct held *h, const struct held *new) {
    return h->is_written && h->key == new->key && subclass_of(t->arena, h->object) == subclass_of(t->arena, new->object);
}

static void set_aside(struct trace *t, const struct held *new, const struct raw_record *r) {
    for (size_t i = 0; i < t->depth; i++)
        if (is_set_aside(t, &t->held[i], new))
            write_event(t, &t->held[i], NULL, r->place);
}

static void take_back(struct trace *t, const struct held *new) {
    for (size_t i = 0; i < t->depth; i++)
        if (is_set_aside(t, &t->held[i], new))
            write_event(t, &t->held[i], mode_words[t->held[i].mode % MODE_TRY_WRITE + MODE_TRY_WRITE], t->held[i].place);
}

/* ---- Weak acquisitions: under others by a wait that gives up at a time, and the waits of a handler that comes late. They are in the trace as any
   others; a file says which they are. */

static void tell_weak(struct trace *t, const char *word) {
    if (!t->weak)
        t->weak = checked(open_memstream(&t->weak_text, &t->weak_length));
    add_content(&t->content, UINT64_C(1) << 61 | (unsigned char)*word);
    fprintf(t->weak, "%s.csv %lu %s\n", t->name, (unsigned long)t->events + 1, word);
}

static void tell_if_weak(struct trace *t, const struct raw_record *r) {
    if (raw_has(r->what, RAW_TIMED))
        tell_weak(t, "timed");
    if (t->is_frame && comes_late(t->source) && !is_try(raw_mode(r->what)))
        tell_weak(t, "late");
}

static struct late_file weak_file;

void end_weak(void) { end_file(&weak_file); }

void write_weak(const char *folder, struct trace *t, bool is_kept) {
    if (!t->weak)
        return;
    fclose(t->weak);
    if (is_kept)
        fputs(t->weak_text, begun(&weak_file, folder, "weak"));
    free(t->weak_text);
}

/* A reader that doesn't pass waiting writers waits behind one even if its own thread reads. Only a writer's acquisition in an interrupt says that:
   such a lock has no other readers, so nothing else follows from it. */
static const char *mode_word(const struct trace *t, const struct held *h) {
    return mode_words[t->is_frame && is_queued(t->arena, t->raw->process, h->object, h->mode) ? MODE_WRITE : h->mode];
}

void take(struct trace *t, const struct raw_record *r) {
    enum mode mode = raw_mode(r->what);
    bool is_in_order = raw_has(r->what, RAW_IN_ORDER);
    struct held h = {.object = raw_object(r->what), .place = r->place, .mode = mode, .is_own = raw_object(r->what) == own_object(t->arena, t->raw)};
    if (t->depth == RAW_HELD)
        return;
    h.key = class_key_of(t->arena, h.object);
    if (h.key >= MAX_KEYS)
        count(t, &sums.classes, 1);
    else if (t->events + 2 + 3 * MAX_HELD + (t->source ? ABOUT_INTERRUPTS : 0) > MAX_EVENTS) /* with a lock that is dropped, those set aside, and the releases at the end */
        count(t, &sums.raw.full, 1);
    else
        h.is_written = true;
    if (h.is_written && t->written == MAX_HELD)
        drop_oldest(t, r);
    if (h.is_written && is_in_order)
        set_aside(t, &h, r);
    if (h.is_written)
        tell_interrupts_of(t, r);
    if (h.is_written)
        write_event(t, &h, mode_word(t, &h), r->place);
    if (h.is_written)
        tell_if_weak(t, r);
    if (h.is_written && is_in_order)
        take_back(t, &h);
    t->written += h.is_written;
    t->held[t->depth++] = h;
}

/* A release ends the newest acquisition of its object. */
void give_back(struct trace *t, const struct raw_record *r) {
    size_t i = t->depth;
    while (i > 0 && t->held[i - 1].object != raw_object(r->what))
        i--;
    if (i == 0)
        return;
    struct held h = t->held[i - 1];
    if (h.is_written) {
        t->written--;
        write_event(t, &h, NULL, r->place);
    }
    memmove(&t->held[i - 1], &t->held[i], (t->depth - i) * sizeof t->held[0]);
    t->depth--;
}
