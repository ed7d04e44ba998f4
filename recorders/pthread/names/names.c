/* Finds the types of locks by debug information:

     names FOLDER

   For each FOLDER/raw/PROCESS-N.arena that has none yet it writes a file PROCESS-N.names:

     unlike CLASS            its locks are of several types
     debug NUMBER            a module of the program that has debug information, as far as it was looked at
     source PATH             a source file of these, but for what comes with the system
     CLASS <tab> RULE <tab> TEXT [<tab> PATH]    PATH is of the file that TEXT begins with

     names --places MODULE

   For each address on standard input up to an empty line, of code in C or C++, it writes the address, and two lines for each function,
   inlined ones first: the symbol's name, and `PATH:LINE`, or `PATH:?` or `??:?` as far as that isn't known. Of other code it writes `??`
   and `??:0`. For each address behind the empty line, of a static variable of the module, it writes `PATH:LINE`, or `??:0`.

   Names are found once, right after the program has ended, as long as its files are still those that ran. Debug information may be
   damaged, so it is read by a process of its own: what that ends with has no names. */
#include "names.h"

#include <dirent.h>
#include <signal.h>
#include <sys/resource.h>
#include <sys/wait.h>
#include <unistd.h>

static const char *const rule_words[RULES] = {
    [RULE_NONE] = "none",           [RULE_STATIC] = "static",   [RULE_STATIC_OBJECT] = "static-object", [RULE_THIS] = "this",
    [RULE_PARAMETER] = "parameter", [RULE_VARIABLE] = "variable", [RULE_OBJECT] = "object",
    [RULE_ARGUMENT] = "argument",   [RULE_POINTER] = "pointer", [RULE_HOLDER] = "holder",
    [RULE_TEMPLATE] = "template",   [RULE_CONSTRUCTOR] = "constructor", [RULE_ALLOCATION_VARIABLE] = "allocated-for",
    [RULE_FRAME] = "frame",         [RULE_LOCAL] = "local",     [RULE_SIZE] = "size",
    [RULE_OWN_LOCK] = "own-lock",   [RULE_UNLIKE] = "unlike",
};

/* ---- One class. */

/* What is static is known by its address, also if a call initialised it. */
static bool by_address(const struct raw_class *class, struct found *found) {
    const struct loaded *in = NULL;
    if (class->kind == CLASS_STATIC || class->kind == CLASS_THREAD)
        in = loaded_numbered(raw_word_module(class->word));
    if (in && class->kind == CLASS_THREAD)
        return thread_variable(in->module, raw_word_offset(class->word), found);
    if (in)
        return static_variable(in->module, raw_word_offset(class->word), found);
    in = look ? loaded_at(look->lock) : NULL;
    return in && static_variable(in->module, look->lock - in->bias, found);
}

/* What the stack and the allocation show. A bare lock that another object holds, or that is a variable, is so only if nothing else has
   it. Where a frame has several variables, the class has locks of them all. */
static void by_look(const struct raw_class *class, struct found *found) {
    const struct raw_place *place = part_of(RAW_PLACES, (uint32_t)look->piece_place);
    struct found user = {RULE_NONE, NULL}, bare = user, allocated = user, frame = user, sized = user, doubtful = user;
    bool is_unclear = false;
    if (class->kind == CLASS_STACK && !frame_variable(class, &frame, &is_unclear) && is_unclear)
        return;
    unwind();
    search_frames(&user, &doubtful, &bare);
    bool is_sure = user.rule && user.rule != RULE_HOLDER;
    if (!is_sure && look->piece && place)
        search_allocation(place, &allocated);
    if (!user.rule && !allocated.rule && doubtful.rule && is_confirmed_by_size(place, doubtful.text))
        user = doubtful;
    if (!user.rule && !allocated.rule && look->piece && place)
        by_size(place, &sized);
    const struct found weak = {RULE_OWN_LOCK, weak_text}, *order[] = {&allocated, &user, &frame, &bare, &sized, &weak};
    *found = user;
    for (size_t i = 0; !is_sure && i < sizeof order / sizeof *order; i++)
        if (order[i]->text) {
            *found = *order[i];
            return;
        }
}

static void name_class(const struct raw_class *class, struct found *found) {
    const struct raw_look *at = part_of(RAW_LOOKS, class->look == RAW_NO_LOOK ? 0 : class->look);
    look = at && at->is_ready ? at : NULL;
    weak_text = NULL;
    if (!by_address(class, found) && look)
        by_look(class, found);
}

/* ---- One program. */

/* A text may be in any language: it stays in its line, and has none of the marks of a name. */
static void write_text(FILE *file, const char *text, size_t length) {
    for (size_t i = 0; i < length; i++)
        putc((unsigned char)text[i] < ' ' || text[i] == 0x7f ? '?' : text[i], file);
}

static void write_found(FILE *file, uint32_t class, const struct found *found) {
    const char *text = after_path(found->text);
    fprintf(file, "%u\t%s\t", class, rule_words[found->rule]);
    write_text(file, text, strlen(text));
    if (text > found->text) {
        putc('\t', file);
        write_text(file, found->text, (size_t)(text - found->text) - 1);
    }
    putc('\n', file);
}

/* Those of a module that several programs have are written once. */
static void write_sources(FILE *file, struct module *m) {
    read_sources(m);
    for (; m->sources_written < m->source_count; m->sources_written++) {
        const char *path = m->sources[m->sources_written];
        fputs("source ", file);
        write_text(file, path, strlen(path));
        putc('\n', file);
    }
}

static void write_modules(FILE *file) {
    for (uint32_t i = 1; i <= count_of(RAW_MODULES); i++) {
        const struct loaded *in = loaded_numbered(i);
        if (!in || !in->module->debug)
            continue;
        fprintf(file, "debug %u\n", i);
        if (!raw_is_of_system(in->module->path))
            write_sources(file, in->module);
    }
}

/* Whether a further lock of a class isn't of the type of the first one: it is of another one, or in a piece of another size, and of none that
   is known. A class that is a lock itself says nothing against one that has it. */
static bool is_of_another(const struct raw_class *class, const struct raw_look *further, const struct found *first) {
    const struct raw_look *before = part_of(RAW_LOOKS, class->look == RAW_NO_LOOK ? 0 : class->look);
    struct found found = {RULE_NONE, NULL};
    look = further;
    weak_text = NULL;
    by_look(class, &found);
    if (!found.text)
        return before && before->piece_bytes != further->piece_bytes;
    return found.rule != RULE_OWN_LOCK && first->rule != RULE_OWN_LOCK && strcmp(found.text, first->text) != 0;
}

/* A class whose locks are of two types has none. */
static void drop_unlike(struct found *names, uint32_t count) {
    for (uint32_t i = 1; i <= count_of(RAW_LOOKS); i++) {
        const struct raw_look *at = part_of(RAW_LOOKS, i);
        uint64_t class = at && at->is_ready ? at->further : 0;
        if (class && class <= count && names[class].text && is_of_another(part_of(RAW_CLASSES, (uint32_t)class), at, &names[class]))
            names[class] = (struct found){.rule = RULE_UNLIKE};
    }
}

static void write_names(FILE *file) {
    uint32_t count = count_of(RAW_CLASSES);
    struct found *names = checked(calloc(count + 1, sizeof *names));
    for (uint32_t i = 1; i <= count; i++) {
        const struct raw_class *class = part_of(RAW_CLASSES, i);
        if (class->kind)
            name_class(class, &names[i]);
    }
    drop_unlike(names, count);
    for (uint32_t i = 1; i <= count; i++)
        if (names[i].text)
            write_found(file, i, &names[i]);
        else if (names[i].rule == RULE_UNLIKE)
            fprintf(file, "unlike %u\n", i);
    free(names);
    write_modules(file);
}

/* The name appears when all of it is written. */
static void name_program(const char *arena, const char *names) {
    const char *unfinished = written("%s.new", names);
    if (!open_arena(arena))
        return;
    FILE *file = fopen(unfinished, "w");
    if (!file)
        return;
    write_names(file);
    bool is_bad = ferror(file);
    if (fclose(file) != 0 || is_bad || rename(unfinished, names) != 0)
        unlink(unfinished);
}

/* ---- All programs. */

#define MOST_SECONDS 60                 /* of one process of the reader */
#define MOST_MEMORY (UINT64_C(4) << 30) /* bytes, without the files that are mapped */

#define NOBODY (-1)

static void limit_process(void) {
    const struct rlimit memory = {MOST_MEMORY, MOST_MEMORY}, none = {0, 0}, seconds = {MOST_SECONDS, MOST_SECONDS};
    setrlimit(RLIMIT_DATA, &memory);
    setrlimit(RLIMIT_CORE, &none);
    setrlimit(RLIMIT_CPU, &seconds);
}

/* Of the arenas from one on. A pipe, or nobody, has the number of the one that is read, so that one that ends the reader is passed over. */
static void read_from(char **arenas, size_t count, size_t from, int pipe_end) {
    limit_process();
    for (size_t i = from; i < count; i++) {
        if (pipe_end != NOBODY && write(pipe_end, &i, sizeof i) != sizeof i)
            _exit(2);
        name_program(arenas[i], written("%.*s.names", (int)(strlen(arenas[i]) - strlen(".arena")), arenas[i]));
    }
    _exit(0);
}

/* Returns where to go on. */
static size_t read_aside(char **arenas, size_t count, size_t from) {
    int ends[2], status = 0;
    size_t last = count;
    if (pipe(ends) != 0)
        return count;
    pid_t child = fork();
    if (child == 0)
        read_from(arenas, count, from, ends[1]);
    close(ends[1]);
    for (size_t i; child > 0 && read(ends[0], &i, sizeof i) == sizeof i;)
        last = i;
    close(ends[0]);
    bool is_whole = child < 0 || waitpid(child, &status, 0) != child || status == 0;
    return is_whole ? count : last + 1;
}

static bool is_unnamed_arena(const char *raw, const char *name) {
    const char *end = strrchr(name, '.');
    if (!end || strcmp(end, ".arena") != 0)
        return false;
    return access(written("%s/%.*s.names", raw, (int)(end - name), name), F_OK) != 0;
}

int main(int argc, char **argv) {
    struct dirent **entries;
    char **arenas = NULL;
    size_t count = 0;
    if (argc == 3 && strcmp(argv[1], "--places") == 0) {
        limit_process();
        tell_code_lines(argv[2]);
        tell_lines(argv[2]);
        return 0;
    }
    if (argc != 2) {
        fputs("usage: names FOLDER, or names --places MODULE\n", stderr);
        return 2;
    }
    const char *raw = written("%s/raw", argv[1]);
    int found = scandir(raw, &entries, NULL, alphasort);
    for (int i = 0; i < found; i++)
        if (is_unnamed_arena(raw, entries[i]->d_name))
            PUSH(arenas, count, written("%s/%s", raw, entries[i]->d_name));
    for (size_t from = 0; from < count;) {
        if (count - from == 1) /* nothing comes after it, so it is read here */
            read_from(arenas, count, from, NOBODY);
        from = read_aside(arenas, count, from);
    }
    return 0;
}
