/* What the programs said of their locks by the macros of lockdep.h, and what they did against that. */
#include "finish.h"

#include <string.h>

/* ---- Subclasses. */

static const struct raw_class *nested_class(const struct arena *a, uint32_t class) {
    const struct raw_class *c = part_of(a, RAW_CLASSES, class);
    const struct raw_class *itself = c && c->kind == CLASS_NESTED ? part_of(a, RAW_CLASSES, c->place) : NULL;
    return itself && itself->kind != CLASS_NESTED ? c : NULL;
}

uint32_t class_itself(const struct arena *a, uint32_t class) {
    const struct raw_class *nested = nested_class(a, class);
    return nested ? nested->place : class;
}

uint32_t object_itself(const struct arena *a, uint32_t object) {
    const struct raw_object *o = part_of(a, RAW_OBJECTS, object);
    bool is_nested = o && !o->file && nested_class(a, o->class) && o->offset <= count_of(a, RAW_OBJECTS);
    return is_nested && class_of(a, (uint32_t)o->offset) ? (uint32_t)o->offset : object;
}

unsigned subclass_of(const struct arena *a, uint32_t object) {
    const struct raw_class *nested = nested_class(a, class_of(a, object));
    return nested ? nested->offset % 8 : 0;
}

/* ---- Texts. */

const struct raw_text *text_of(const struct arena *a, const struct raw_class *class) {
    static const struct raw_text none = {.text = "unnamed"};
    const struct raw_text *text = part_of(a, RAW_TEXTS, class->place);
    return text && text->is_ready && memchr(text->text, 0, sizeof text->text) ? text : &none;
}

/* Why locks are ignored, each reason once for all programs. */
static struct reason {
    const char *text;
    uint64_t count;
} *reasons;
static size_t reason_count;

static void add_reason(const struct raw_text *text) {
    if (!text->count || !memchr(text->text, 0, sizeof text->text))
        return;
    for (size_t i = 0; i < reason_count; i++)
        if (strcmp(reasons[i].text, text->text) == 0) {
            reasons[i].count += text->count;
            return;
        }
    struct reason new = {text->text, text->count};
    PUSH(reasons, reason_count, new);
}

uint64_t ignored_acquisitions(void) {
    uint64_t sum = 0;
    for (size_t i = 0; i < arena_count; i++)
        for (uint32_t n = 1; n <= count_of(&arenas[i], RAW_TEXTS); n++)
            add_reason(part_of(&arenas[i], RAW_TEXTS, n));
    for (size_t i = 0; i < reason_count; i++)
        sum += reasons[i].count;
    return sum;
}

void write_reasons(FILE *file) {
    fputs(",\"reasons\":[", file);
    for (size_t i = 0; i < reason_count; i++) {
        fprintf(file, "%s[%lu,", i ? "," : "", (unsigned long)reasons[i].count);
        write_quoted(file, reasons[i].text, SIZE_MAX);
        putc(']', file);
    }
    putc(']', file);
}

/* ---- Breaches, each once for all programs: of one class in one place. */

struct breach {
    const struct raw_breach *raw;
    struct arena *arena;
    int key;
    const struct place *place;
    uint64_t count;
};

static struct breach *all_breaches;
static size_t breach_count;

static bool is_same_place(const struct place *a, const struct place *b) {
    return a->count == b->count && memcmp(a->words, b->words, a->count * sizeof *a->words) == 0;
}

static void add_breach(struct breach new) {
    for (size_t i = 0; i < breach_count; i++) {
        struct breach *b = &all_breaches[i];
        if (b->raw->kind == new.raw->kind && b->key == new.key && is_same_place(b->place, new.place)) {
            b->count += new.count;
            return;
        }
    }
    PUSH(all_breaches, breach_count, new);
}

static bool is_sound(const struct arena *a, const struct raw_breach *b) {
    bool is_hold = b->kind == BREACH_OF_HOLD, is_known = is_hold || b->kind == BREACH_OF_ORDER;
    return is_known && b->count && class_of(a, b->object) && (is_hold || class_of(a, b->held_object));
}

void find_breaches(void) {
    for (size_t i = 0; i < arena_count; i++)
        for (uint32_t n = 1; n <= count_of(&arenas[i], RAW_BREACHES); n++) {
            struct arena *a = &arenas[i];
            const struct raw_breach *b = part_of(a, RAW_BREACHES, n);
            if (is_sound(a, b))
                add_breach((struct breach){b, a, class_key_of(a, b->object), place_numbered(a, b->place), b->count});
        }
}

uint64_t breaches(enum breach_kind kind) {
    uint64_t sum = 0;
    for (size_t i = 0; i < breach_count; i++)
        sum += all_breaches[i].raw->kind == kind ? all_breaches[i].count : 0;
    return sum;
}

static void tell_lock(FILE *file, const struct breach *b, uint32_t object) {
    char name[MAX_OBJECT_NAME + 1];
    tell_object(name, sizeof name, key_of_object(b->arena, b->raw->process, object));
    fputs(name, file);
}

static void tell_number(FILE *file, const struct raw_breach *b, uint64_t number) {
    fprintf(file, b->is_address ? "address 0x%lx" : "index %lu", (unsigned long)number);
}

/* `pool#1, index 2, was taken with pool#3, index 5, held`, or `journal wasn't held`. */
static void tell_breach(FILE *file, const struct breach *b) {
    tell_lock(file, b, b->raw->object);
    if (b->raw->kind == BREACH_OF_HOLD) {
        fputs(" wasn't held", file);
        return;
    }
    fputs(", ", file);
    tell_number(file, b->raw, b->raw->number);
    fputs(", was taken with ", file);
    tell_lock(file, b, b->raw->held_object);
    fputs(", ", file);
    tell_number(file, b->raw, b->raw->held_number);
    fputs(", held", file);
}

static const struct place *held_place(const struct breach *b) { return place_numbered(b->arena, b->raw->held_place); }

static void write_at(FILE *file, const char *member, const struct place *place) {
    char text[LONGEST_NAME];
    if (!place->count)
        return;
    tell_place(text, sizeof text, place, false);
    fprintf(file, ",\"%s\":", member);
    write_quoted(file, text, SIZE_MAX);
}

static void write_breach_entry(FILE *file, const struct breach *b) {
    char *text = NULL;
    size_t length = 0;
    FILE *words = checked(open_memstream(&text, &length));
    tell_breach(words, b);
    fclose(words);
    fputs("{\"what\":", file);
    write_quoted(file, text, length);
    write_at(file, "at", b->place);
    write_at(file, "since", held_place(b));
    fprintf(file, ",\"times\":%lu}", (unsigned long)b->count);
    free(text);
}

void write_breaches_of(FILE *file, enum breach_kind kind) {
    const char *before = "";
    fputs(",\"breaches\":[", file);
    for (size_t i = 0; i < breach_count; i++) {
        if (all_breaches[i].raw->kind != kind)
            continue;
        fputs(before, file);
        write_breach_entry(file, &all_breaches[i]);
        before = ",";
    }
    putc(']', file);
}

/* ---- The files that the driver reads: a line for each breach, and its places as those of two records. */

static void write_breach(FILE *text, FILE *places, const struct breach *b) {
    bool is_order = b->raw->kind == BREACH_OF_ORDER;
    fputs(is_order ? "order\t" : "hold\t", text);
    tell_lock(text, b, b->raw->object);
    putc('\t', text);
    if (is_order)
        tell_lock(text, b, b->raw->held_object);
    putc('\t', text);
    tell_breach(text, b);
    putc('\n', text);
    write_place(places, b->place);
    write_place(places, held_place(b));
}

void write_breaches(const char *folder) {
    char text[4300], places[4300];
    snprintf(text, sizeof text, "%s/breaches", folder);
    snprintf(places, sizeof places, "%s/breaches.places", folder);
    if (!breach_count)
        return;
    FILE *texts = created(text), *words = created(places);
    begin_places(words, (uint32_t)frames);
    for (size_t i = 0; i < breach_count; i++)
        write_breach(texts, words, &all_breaches[i]);
    closed(texts, text);
    closed(words, places);
}
