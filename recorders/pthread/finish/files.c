/* The files that are written, among them those of places and of classes. */
#include "trace.h"

#include <stdio_ext.h>
#include <string.h>

FILE *created(const char *path) {
    FILE *file = fopen(path, "w");
    if (!file)
        refuse_file("can't be written", path);
    __fsetlocking(file, FSETLOCKING_BYCALLER);
    return file;
}

void closed(FILE *file, const char *path) {
    bool is_bad = ferror(file);
    if (fclose(file) != 0 || is_bad)
        refuse_file("can't be written", path);
}

FILE *begun(struct late_file *late, const char *folder, const char *name) {
    snprintf(late->path, sizeof late->path, "%s/%s", folder, name);
    if (!late->file)
        late->file = created(late->path);
    return late->file;
}

void end_file(struct late_file *late) {
    if (late->file)
        closed(late->file, late->path);
    late->file = NULL;
}

/* A text as JSON has it, of so many bytes at most. */
void write_quoted(FILE *file, const char *text, size_t most) {
    putc('"', file);
    for (const char *end = text + strnlen(text, most); text < end; text++) {
        unsigned char c = (unsigned char)*text;
        if (c == '"' || c == '\\')
            fprintf(file, "\\%c", c);
        else if (c < ' ')
            fprintf(file, "\\u%04x", c);
        else
            putc(c, file);
    }
    putc('"', file);
}

/* ---- The places' file: a word, the modules, how many callers a record has, and eight bytes for each. */

void begin_places(FILE *file, uint32_t each) {
    uint32_t many = (uint32_t)module_count;
    fwrite("places1\n", 8, 1, file);
    fwrite(&many, sizeof many, 1, file);
    for (size_t i = 0; i < module_count; i++) {
        uint32_t length = (uint32_t)strlen(modules[i].path);
        fwrite(&length, sizeof length, 1, file);
        fwrite(modules[i].path, length, 1, file);
    }
    fwrite(&each, sizeof each, 1, file);
}

void write_place(FILE *file, const struct place *place) {
    uint64_t words[RAW_FRAMES];
    for (uint32_t i = 0; i < (uint32_t)frames; i++)
        words[i] = place && i < place->count ? place->words[i] : UINT64_MAX;
    fwrite(words, sizeof *words, (size_t)frames, file);
}

/* ---- The classes. */

static const char *const kind_words[CLASS_KINDS] = {
    [CLASS_NONE] = "unknown", [CLASS_INIT] = "init", [CLASS_STATIC] = "static", [CLASS_HEAP] = "heap",     [CLASS_THREAD] = "thread",
    [CLASS_TAKE] = "take",    [CLASS_FILE] = "file", [CLASS_NESTED] = "nested", [CLASS_STACK] = "stack", [CLASS_NAMED] = "named",
    [CLASS_IGNORED] = "ignored", [CLASS_RUN] = "started"};

/* A path in a line of `classes`: one that has a line break or the like is named with a question mark there, and isn't found. */
static void write_path(FILE *file, const char *path) {
    for (; *path; path++)
        putc((unsigned char)*path < ' ' ? '?' : *path, file);
}

/* Where the class is. Of code it is an address after a call, and so of a function the second one. */
static void write_class(FILE *file, const struct key *key) {
    bool is_somewhere = key->path || key->at != UINT64_MAX, is_function = key->kind == CLASS_STACK || (key->kind == CLASS_RUN && !key->made);
    uint64_t at = key->path ? key->at : is_somewhere ? raw_word_offset(key->at) + is_function : 0;
    fprintf(file, "%s\t", key->name);
    write_path(file, key->path ? key->path : is_somewhere ? modules[raw_word_module(key->at)].path : "-");
    fprintf(file, "\t%lx\t%s", (unsigned long)at, kind_words[key->kind < CLASS_KINDS ? key->kind : 0]);
    if (key->type)
        fprintf(file, "\t%s\t%s\t%s", key->type->full, key->type->rule, key->place);
    putc('\n', file);
}

void write_classes(const char *folder) {
    char path[4300], places[4300];
    snprintf(path, sizeof path, "%s/classes", folder);
    snprintf(places, sizeof places, "%s/classes.places", folder);
    FILE *file = created(path), *callers = created(places);
    begin_places(callers, (uint32_t)frames);
    for (size_t i = 0; i < key_count && i < MAX_KEYS; i++) {
        write_class(file, &keys[i]);
        write_place(callers, keys[i].made);
    }
    closed(file, path);
    closed(callers, places);
}
