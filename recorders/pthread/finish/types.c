/* The types of locks, as `names` found them by debug information, and what of each stands in a name. */
#include "finish.h"

#include <string.h>

/* ---- Texts, each kept once. */

static struct type *types;
static size_t type_count;

/* C++ writes spaces where nobody needs them. */
static void drop_spaces(char *text) {
    char *to = text;
    for (char *from = text; *from; from++) {
        bool is_after = from > text && strchr(",<", from[-1]), is_before = from[1] && strchr(">*&", from[1]);
        if (*from != ' ' || (!is_after && !is_before))
            *to++ = *from;
    }
    *to = 0;
}

static void replace(char *text, const char *what, const char *with) {
    for (char *p; (p = strstr(text, what));) {
        memmove(p + strlen(with), p + strlen(what), strlen(p + strlen(what)) + 1);
        memcpy(p, with, strlen(with));
    }
}

/* Takes out an argument that says nothing, with the brackets that it has. */
static void drop_argument(char *text, const char *what) {
    for (char *p; (p = strstr(text, what));) {
        char *end = p + strlen(what);
        for (int depth = 1; *end && depth > 0; end++)
            depth += *end == '<' ? 1 : *end == '>' ? -1 : 0;
        memmove(p, end, strlen(end) + 1);
    }
}

/* As one writes it oneself. Nothing of it may look like what follows it in a name. */
static void tidy(char *text) {
    drop_spaces(text);
    replace(text, "std::__cxx11::basic_string<char,std::char_traits<char>,std::allocator<char>>", "std::string");
    replace(text, "std::basic_string<char,std::char_traits<char>,std::allocator<char>>", "std::string");
    replace(text, "__cxx11::", "");
    drop_argument(text, ",std::allocator<");
    fill_spaces(text);
    for (; *text; text++)
        if (*text == '#' || *text == '@')
            *text = '_';
}

/* ---- What stands in a name. */

#define MARK 9 /* the bytes of `%` and eight digits */
#define LEAST_HEAD 12

/* Where the end of a long text begins that is kept: what follows the last bracket, or else the last `::`. */
static const char *end_of(const char *full) {
    const char *bracket = strrchr(full, '>'), *colons = NULL;
    for (const char *p = full; (p = strstr(p, "::")); p += 2)
        colons = p;
    return bracket ? bracket : colons ? colons : full + strlen(full);
}

/* All of a text, or its head, `..`, its end, and a number made of all of it. */
static void shorten(char *to, const char *full, const char *mark) {
    size_t room = MAX_TYPE - strlen(mark), length = strlen(end_of(full));
    if (strlen(full) <= MAX_TYPE && strlen(mark) <= MARK) {
        strcpy(to, full);
        return;
    }
    const char *end = end_of(full);
    if (length > room - LEAST_HEAD - 2) {
        end += length - (room - LEAST_HEAD - 2);
        length = strlen(end);
    }
    snprintf(to, MAX_TYPE + 1, "%.*s..%s%s", (int)(room - 2 - length), full, end, mark);
}

static uint32_t other_hash(const char *text) {
    uint32_t hash = 5381;
    for (; *text; text++)
        hash = hash * 33 + (unsigned char)*text;
    return hash;
}

static void put_short(struct type *type, bool is_longer) {
    char mark[32];
    snprintf(mark, sizeof mark, is_longer ? "%%%08x%08x" : "%%%08x", hash_of(type->full), other_hash(type->full));
    shorten(type->text, type->full, mark);
}

static int by_text(const void *a, const void *b) {
    const struct type *const *x = a, *const *y = b;
    return strcmp((*x)->text, (*y)->text);
}

static size_t end_of_same(struct type **all, size_t count, size_t from, bool *is_one_text) {
    size_t i = from;
    *is_one_text = true;
    for (; i < count && strcmp(all[i]->text, all[from]->text) == 0; i++)
        *is_one_text &= strcmp(all[i]->full, all[from]->full) == 0;
    return i;
}

/* Two texts that are shortened to the same get longer numbers. */
static void tell_apart(struct type **all, size_t count) {
    bool is_one_text;
    if (count)
        qsort(all, count, sizeof *all, by_text);
    for (size_t i = 0, end; i < count; i = end) {
        end = end_of_same(all, count, i, &is_one_text);
        for (size_t k = is_one_text ? end : i; k < end; k++)
            put_short(all[k], true);
    }
}

/* ---- The files. A line is `unlike CLASS`, `debug MODULE` or `source PATH`, or has a class's number, the rule by which the type was found, the type, and
   the path of the source file that the type begins with, if it does. */

struct reading {
    struct arena *arena;
    size_t *of_class; /* one more than the number of its type, or UNLIKE */
};

#define UNLIKE SIZE_MAX

/* Of a class whose locks are of several types, until types are spread. */
static const struct type unlike;
static bool is_any_unlike;

static size_t type_named(const char *full, const char *rule) {
    for (size_t i = 0; i < type_count; i++)
        if (strcmp(types[i].full, full) == 0 && strcmp(types[i].rule, rule) == 0)
            return i + 1;
    struct type new = {.full = checked(strdup(full)), .rule = checked(strdup(rule))};
    new.is_variable = strcmp(rule, "static") == 0 && full[strlen(full) - 1] != ']';
    PUSH(types, type_count, new);
    return type_count;
}

struct named {
    const char *class, *rule, *text, *path;
};

static struct named split(char *line) {
    struct named named;
    named.class = strsep(&line, "\t");
    named.rule = strsep(&line, "\t");
    named.text = strsep(&line, "\t");
    named.path = line;
    return named;
}

/* In the first round the source files are noted, since what a type is called depends on all of them. */
static void read_source(const struct reading *r, char *line) {
    (void)r;
    const char *path = strncmp(line, "source ", 7) == 0 ? line + 7 : split(line).path;
    if (path && *path)
        note_source(path);
}

/* The type with as much of its file's path as tells that from others. */
static void tell_type(char *full, size_t room, const struct named *named) {
    const char *source = named->path && *named->path ? short_source(named->path) : "", *slash = strrchr(source, '/');
    int folders = slash ? (int)(slash + 1 - source) : 0;
    snprintf(full, room, "%.*s%s", folders, source, named->text);
    tidy(full);
}

static void read_line(const struct reading *r, char *line) {
    char full[2 * LONGEST_NAME];
    unsigned module, several;
    if (sscanf(line, "unlike %u", &several) == 1 && several && several <= count_of(r->arena, RAW_CLASSES)) {
        r->of_class[several] = UNLIKE;
        is_any_unlike = true;
    }
    if (sscanf(line, "debug %u", &module) == 1 && module && module <= count_of(r->arena, RAW_MODULES))
        modules[r->arena->modules[module]].has_debug = true;
    struct named named = split(line);
    unsigned long class = strtoul(named.class, NULL, 10);
    if (!named.text || !*named.text || class == 0 || class > count_of(r->arena, RAW_CLASSES))
        return;
    tell_type(full, sizeof full, &named);
    r->of_class[class] = type_named(full, named.rule);
}

static FILE *names_of(const struct arena *a) {
    char path[4400];
    snprintf(path, sizeof path, "%.*s.names", (int)(strrchr(a->path, '.') - a->path), a->path);
    return fopen(path, "r");
}

/* Whether locks are named by where they were made alone. */
static bool is_unwanted(void) {
    const char *names = getenv("LOCKDEP_NAMES");
    return names && strcmp(names, "places") == 0;
}

static uint64_t programs_without_names;

/* Whether there are any. */
static bool read_names(const struct reading *r, void (*read)(const struct reading *, char *)) {
    FILE *file = is_unwanted() ? NULL : names_of(r->arena);
    bool is_there = file;
    char *line = NULL;
    size_t room = 0;
    while (file && getline(&line, &room, file) > 0) {
        line[strcspn(line, "\n")] = 0;
        if (strlen(line) < LONGEST_NAME)
            read(r, line);
    }
    free(line);
    if (file)
        fclose(file);
    return is_there;
}

static void read_sources(void) {
    for (size_t i = 0; i < arena_count; i++) {
        struct reading r = {&arenas[i], NULL};
        programs_without_names += !read_names(&r, read_source) && !is_unwanted();
    }
}

static void put_types(struct arena *a, const size_t *of_class) {
    uint32_t count = count_of(a, RAW_CLASSES);
    a->types = checked(calloc(count + 1, sizeof *a->types));
    for (uint32_t i = 1; i <= count; i++)
        a->types[i] = of_class[i] == UNLIKE ? &unlike : of_class[i] ? &types[of_class[i] - 1] : NULL;
}

void read_types(void) {
    size_t **of_classes = checked(calloc(arena_count + 1, sizeof *of_classes));
    read_sources();
    for (size_t i = 0; i < arena_count; i++) {
        struct reading r = {&arenas[i], checked(calloc(count_of(&arenas[i], RAW_CLASSES) + 1, sizeof *r.of_class))};
        read_names(&r, read_line);
        of_classes[i] = r.of_class;
    }
    struct type **all = checked(calloc(type_count + 1, sizeof *all));
    for (size_t i = 0; i < type_count; i++) {
        all[i] = &types[i];
        put_short(all[i], false);
    }
    tell_apart(all, type_count);
    for (size_t i = 0; i < arena_count; i++)
        put_types(&arenas[i], of_classes[i]);
}

/* ---- One place makes locks of one class, such as the elements of an array. If the type of some of them is known, and it is one, the others
   have it too: else an order between them would be one between two classes. If some are known to be of several types, none has one. */

struct made {
    char *identity; /* of the place */
    const struct type **type;
};

static int by_identity(const void *a, const void *b) {
    return strcmp(((const struct made *)a)->identity, ((const struct made *)b)->identity);
}

static bool are_unlike(const struct made *made, size_t count) {
    for (size_t i = 0; i < count; i++)
        if (*made[i].type == &unlike)
            return true;
    return false;
}

/* The only type of some that were made in one place; NULL if there is none, or another one. */
static const struct type *only_type(const struct made *made, size_t count) {
    const struct type *only = NULL;
    for (size_t i = 0; i < count; i++) {
        const struct type *type = *made[i].type;
        if (only && type && strcmp(only->full, type->full) != 0)
            return NULL;
        only = only ? only : type;
    }
    return only;
}

static void spread_type(const struct made *made, size_t count) {
    bool is_none = are_unlike(made, count);
    const struct type *only = is_none ? NULL : only_type(made, count);
    for (size_t i = 0; i < count; i++)
        if (is_none || !*made[i].type)
            *made[i].type = only;
}

static void add_made(struct arena *a, struct made **made, size_t *count) {
    char identity[LONGEST_NAME];
    for (uint32_t i = 1; i <= count_of(a, RAW_CLASSES); i++) {
        const struct raw_class *class = part_of(a, RAW_CLASSES, i);
        if (!class->kind || class->kind == CLASS_NESTED)
            continue;
        tell_class(identity, sizeof identity, a, class, true);
        struct made one = {checked(strdup(identity)), &a->types[i]};
        PUSH(*made, *count, one);
    }
}

void spread_types(void) {
    struct made *made = NULL;
    size_t count = 0;
    for (size_t i = 0; i < arena_count && (type_count || is_any_unlike); i++)
        add_made(&arenas[i], &made, &count);
    if (count)
        qsort(made, count, sizeof *made, by_identity);
    for (size_t from = 0, to; from < count; from = to) {
        for (to = from + 1; to < count && by_identity(&made[from], &made[to]) == 0;)
            to++;
        spread_type(&made[from], to - from);
    }
}

/* ---- Modules whose locks have no types. */

void note_unnamed(uint32_t module) { modules[module].is_unnamed = true; }

static uint64_t count_unnamed(bool has_debug) {
    uint64_t count = 0;
    for (size_t i = 0; i < module_count; i++)
        count += modules[i].is_unnamed && modules[i].has_debug == has_debug && !raw_is_of_system(modules[i].path) &&
                 strcmp(modules[i].base, "preload.so") != 0;
    return count;
}

uint64_t unnamed_modules(void) { return count_unnamed(false); }

uint64_t unread_programs(void) { return count_unnamed(true) ? programs_without_names : 0; }
