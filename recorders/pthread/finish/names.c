/* Names of classes. */
#include "finish.h"

#include <dlfcn.h>
#include <fnmatch.h>
#include <string.h>

struct key *keys;
size_t key_count;
int frames;

/* ---- Names of functions. */

typedef char *demangler(const char *, char *, size_t *, int *);

/* libstdc++'s, if it is on the machine. */
static demangler *find_demangler(void) {
    void *library = dlopen("libstdc++.so.6", RTLD_LAZY);
    return library ? (demangler *)dlsym(library, "__cxa_demangle") : NULL;
}

/* How deep in brackets a name's byte is, going on from how deep the one before was. A `>` that ends an arrow closes nothing. */
static int deeper(int depth, const char *name, size_t i) {
    char c = name[i];
    if (c == '<' || c == '(' || c == '{' || c == '[')
        return depth + 1;
    if (c == ')' || c == '}' || c == ']' || (c == '>' && !(i > 0 && name[i - 1] == '-')))
        return depth - 1;
    return depth;
}

/* Takes off the parameters and what comes after them. */
static void cut_parameters(char *name) {
    char *end = strrchr(name, ')');
    int depth = 0;
    if (end && strncmp(end + 1, "::", 2) == 0)
        return; /* it is something in the function */
    for (char *p = end; p && p >= name; p--) {
        depth += *p == ')' ? 1 : *p == '(' ? -1 : 0;
        if (depth == 0) {
            if (p > name && strncmp(p, "(anonymous", 10) != 0)
                *p = 0;
            return;
        }
    }
}

/* Takes off the type that a template function is said to return. */
static void cut_type(char *name) {
    int depth = 0;
    char *from = name;
    if (strncmp(name, "guard variable ", 15) == 0)
        return;
    for (size_t i = 0; name[i]; i++) {
        depth = deeper(depth, name, i);
        if (depth == 0 && strncmp(&name[i], "operator", 8) == 0)
            break;
        if (depth == 0 && name[i] == ' ')
            from = &name[i + 1];
    }
    memmove(name, from, strlen(from) + 1);
}

static void replace(char *name, const char *what, const char *with) {
    for (char *p; (p = strstr(name, what));) {
        memmove(p + strlen(with), p + strlen(what), strlen(p + strlen(what)) + 1);
        memcpy(p, with, strlen(with));
    }
}

void fill_spaces(char *name) {
    replace(name, ", ", ",");
    for (; *name; name++)
        if (*name < 0x21 || *name > 0x7e)
            *name = '_';
}

/* The name of a function of the C++ library that calls a lambda becomes the lambda's, which is what the program's author knows. */
static void cut_to_lambda(char *name) {
    char *lambda = strncmp(name, "std::", 5) == 0 ? strstr(name, "::{lambda(") : NULL;
    if (!lambda)
        return;
    char *from = lambda, *end = lambda + 2;
    for (int depth = 0; from > name && (depth || !strchr("<(, ", from[-1])); from--)
        depth += strchr(")>}", from[-1]) ? 1 : strchr("(<{", from[-1]) ? -1 : 0;
    for (int depth = 0; *end; end++) {
        depth = deeper(depth, from, (size_t)(end - from));
        if (depth == 0)
            break;
    }
    if (!*end)
        return;
    end[1] = 0;
    memmove(name, from, strlen(from) + 1);
}

/* A symbol's name without parameters, with the spaces that C++ has in it, and what was cut off. */
struct called {
    char name[LONGEST_NAME], parameters[LONGEST_NAME];
};

static char *demangled(const char *symbol) {
    static demangler *demangle;
    static bool is_looked_for;
    if (!is_looked_for)
        demangle = find_demangler();
    is_looked_for = true;
    return demangle && strncmp(symbol, "_Z", 2) == 0 ? demangle(symbol, NULL, NULL, NULL) : NULL;
}

static void read_symbol(struct called *called, const char *symbol) {
    char *plain = demangled(symbol), *clone = plain ? strstr(plain, " [clone ") : NULL;
    if (clone)
        *clone = 0;
    snprintf(called->name, sizeof called->name, "%s", plain ? plain : symbol);
    called->parameters[0] = 0;
    if (plain) {
        replace(called->name, "(anonymous namespace)", "{anonymous}");
        snprintf(called->parameters, sizeof called->parameters, "%s", called->name);
        cut_parameters(called->name);
        size_t length = strlen(called->name);
        memmove(called->parameters, called->parameters + length, strlen(called->parameters + length) + 1);
        cut_type(called->name);
    }
    free(plain);
}

/* A symbol's name as one reads it, without parameters. */
void tell_symbol(char *text, size_t room, const char *symbol) {
    struct called called;
    read_symbol(&called, symbol);
    snprintf(text, room, "%s", called.name);
    fill_spaces(text);
}

/* ---- Overloaded functions: those that have the name of another one of the module but for the parameters. */

/* The last part of a name, as each symbol of that name has it. Empty of an operator. */
static void find_last_part(char *part, size_t room, const char *name) {
    size_t length = strcspn(name, "<"), from = length;
    while (from > 0 && name[from - 1] != ':')
        from--;
    bool is_operator = strncmp(name + from, "operator", 8) == 0;
    snprintf(part, room, "%.*s", is_operator || name[length] ? 0 : (int)(length - from), name + from);
}

static bool has_overload(const struct module *m, const struct called *called) {
    static struct called other;
    char part[LONGEST_NAME];
    find_last_part(part, sizeof part, called->name);
    for (size_t i = 0; i < m->symbol_count; i++) {
        const struct symbol *s = &m->symbols[i];
        if (s->kind != SYMBOL_CODE || strncmp(s->name, "_Z", 2) != 0 || !strstr(s->name, part))
            continue;
        read_symbol(&other, s->name);
        if (strcmp(other.name, called->name) == 0 && strcmp(other.parameters, called->parameters) != 0)
            return true;
    }
    return false;
}

/* All of the module's symbols are looked at, so this doesn't depend on what was recorded. */
static bool is_overloaded(const struct module *m, const struct symbol *s, const struct called *called) {
    struct symbol *own = &m->symbols[s - m->symbols];
    if (!called->parameters[0])
        return false;
    if (own->overloaded == NOT_KNOWN)
        own->overloaded = has_overload(m, called) ? IS_SO : IS_NOT_SO;
    return own->overloaded == IS_SO;
}

/* ---- Wrappers: functions that are passed over when a place is named. */

/* Patterns of functions. One that begins with `in ` is of modules, one with `not ` of functions that are none, whatever else fits, and
   one with `makes ` of functions that are passed over only where a lock is made. */
static char **wrappers;
static size_t wrapper_count;

static void read_list(const char *path) {
    FILE *file = fopen(path, "r");
    if (!file)
        return;
    char line[1024];
    while (fgets(line, sizeof line, file)) {
        line[strcspn(line, "\n")] = 0;
        if (line[0] && line[0] != '#')
            PUSH(wrappers, wrapper_count, checked(strdup(line)));
    }
    fclose(file);
}

void read_wrappers(const char *beside) {
    char path[4096];
    snprintf(path, sizeof path, "%s/wrappers", beside);
    read_list(path);
    const char *more = getenv("LOCKDEP_WRAPPERS");
    if (more && more[0])
        read_list(more);
}

/* Whether all of a module is passed over. */
static bool is_library(uint64_t word) {
    for (size_t i = 0; i < wrapper_count; i++)
        if (strncmp(wrappers[i], "in ", 3) == 0 && fnmatch(wrappers[i] + 3, modules[raw_word_module(word)].base, 0) == 0)
            return true;
    return false;
}

/* A function by its symbol and by other names, if it has some: that of C++ in plain words, with and without what its templates are of, and
   that of C without what a compiler adds for a copy or a part of the function, as in `open.constprop.0`. */
struct function {
    const char *symbol;
    char other[LONGEST_NAME];
    char bare[LONGEST_NAME];
};

/* A name without what its templates are of, which says nothing of what the function does. */
static void cut_arguments(char *bare, const char *name) {
    int depth = 0;
    for (size_t i = 0; name[i]; i++) {
        bool is_end = name[i] == '>' && depth > 0 && name[i - 1] != '-';
        depth += name[i] == '<';
        if (depth == 0)
            *bare++ = name[i];
        depth -= is_end;
    }
    *bare = 0;
}

static void read_function(struct function *f, const struct symbol *s) {
    f->symbol = s->name;
    tell_symbol(f->other, sizeof f->other, s->name);
    if (strcmp(f->other, s->name) == 0 && s->name[0] != '.')
        f->other[strcspn(f->other, ".")] = 0;
    if (strcmp(f->other, s->name) == 0)
        f->other[0] = 0;
    cut_arguments(f->bare, f->other);
}

/* A pattern that has a `<` of its own is compared with what a template is of, too. */
static bool fits(const char *pattern, const struct function *f) {
    const char *other = strchr(pattern, '<') ? f->other : f->bare;
    return fnmatch(pattern, f->symbol, 0) == 0 || (other[0] && fnmatch(pattern, other, 0) == 0);
}

static const char *behind(const char *line, const char *word) {
    size_t length = strlen(word);
    return strncmp(line, word, length) == 0 ? line + length : NULL;
}

#define MOST_OF_MAKER 2000 /* bytes of code: a longer function does more than make a lock for its caller */

static enum passing look_up(uint64_t word) {
    if (is_library(word))
        return PASSED_ALWAYS;
    const struct symbol *s = symbol_at(raw_word_module(word), raw_word_offset(word) - 1, SYMBOL_CODE);
    if (!s)
        return PASSED_NEVER;
    struct function f;
    read_function(&f, s);
    enum passing passing = PASSED_NEVER;
    for (size_t i = 0; i < wrapper_count; i++) {
        const char *kept = behind(wrappers[i], "not "), *maker = behind(wrappers[i], "makes ");
        if (kept && fits(kept, &f))
            return PASSED_NEVER;
        if (kept || passing == PASSED_ALWAYS || (maker && s->size > MOST_OF_MAKER))
            continue;
        if (fits(maker ? maker : wrappers[i], &f))
            passing = maker ? PASSED_WHERE_MADE : PASSED_ALWAYS;
    }
    return passing;
}

/* What was found of an address is kept. */
#define REMEMBERED 65536
static struct {
    uint64_t word;
    bool is_known;
    enum passing passing;
} remembered[REMEMBERED];

/* Where an address's function is passed over. */
enum passing passing_of(uint64_t word) {
    if (word == UINT64_MAX)
        return PASSED_NEVER;
    size_t slot = (word ^ word >> 16 ^ word >> 48) % REMEMBERED;
    if (!remembered[slot].is_known || remembered[slot].word != word) {
        remembered[slot].word = word;
        remembered[slot].passing = look_up(word);
        remembered[slot].is_known = true;
    }
    return remembered[slot].passing;
}

/* Whether an address is known and isn't in a library of wrappers. */
bool is_of_program(uint64_t word) { return word != UINT64_MAX && !is_library(word); }

/* The frames of the C library that begin a program or a thread. */
bool is_outermost(uint64_t word) {
    if (word == UINT64_MAX)
        return false;
    const char *base = modules[raw_word_module(word)].base;
    const struct symbol *s = symbol_at(raw_word_module(word), raw_word_offset(word) - 1, SYMBOL_CODE);
    return fnmatch("libc.so*", base, 0) == 0 || fnmatch("libc-2*", base, 0) == 0 || fnmatch("libpthread*", base, 0) == 0 ||
           fnmatch("ld-linux*", base, 0) == 0 || fnmatch("ld-2*", base, 0) == 0 || (s && strcmp(s->name, "_start") == 0);
}

static bool is_called(uint64_t word, const char *name) {
    const struct symbol *s = symbol_at(raw_word_module(word), raw_word_offset(word) - 1, SYMBOL_CODE);
    return s && strcmp(s->name, name) == 0;
}

/* What is called by fork of the C library, which has several names. */
bool is_in_fork(uint64_t word) {
    if (word == UINT64_MAX || !is_outermost(word))
        return false;
    return is_called(word, "fork") || is_called(word, "__fork") || is_called(word, "__libc_fork");
}

/* ---- A class in words. */

/* A function itself has its parameters if it is overloaded. Of a call in it the offset mostly tells that. */
static void tell_function(char *text, size_t room, const struct module *m, const struct symbol *s, bool is_call) {
    struct called called;
    read_symbol(&called, s->name);
    bool has_parameters = !is_call && s->kind == SYMBOL_CODE && is_overloaded(m, s, &called);
    cut_to_lambda(called.name);
    size_t have = (size_t)snprintf(text, room, "%s", called.name);
    if (has_parameters && have < room)
        snprintf(text + have, room - have, "%s", called.parameters);
}

/* `function+0x1c`, `object`, or `module+1c` if the module has no symbol there. A call's address is the one after it. */
static void tell_address(char *text, size_t room, uint64_t word, bool is_call, enum symbol_kind kind, bool plainly) {
    if (word == UINT64_MAX) {
        snprintf(text, room, "unknown");
        return;
    }
    uint64_t offset = raw_word_offset(word);
    const struct symbol *s = plainly ? NULL : symbol_at(raw_word_module(word), offset - is_call, kind);
    char name[LONGEST_NAME];
    if (s)
        tell_function(name, sizeof name, &modules[raw_word_module(word)], s, is_call);
    else
        snprintf(name, sizeof name, "%s", modules[raw_word_module(word)].base);
    fill_spaces(name);
    if (!s)
        snprintf(text, room, "%s+%lx", name, (unsigned long)offset);
    else if (offset == s->value)
        snprintf(text, room, "%s", name);
    else
        snprintf(text, room, "%s+0x%lx", name, (unsigned long)(offset - s->value));
}

void tell_place(char *text, size_t room, const struct place *place, bool plainly) {
    snprintf(text, room, "unknown");
    for (uint32_t i = 0; i < place->count && i < (uint32_t)frames; i++) {
        size_t have = i ? strlen(text) : 0;
        if (i && have + 1 < room)
            text[have++] = '~';
        tell_address(text + have, room - have, place->words[i], true, SYMBOL_CODE, plainly);
    }
}

/* A place where a lock is made. What passed it on isn't in the words of a name, and still tells two places apart. */
static void tell_made(char *text, size_t room, const struct place *place, bool plainly) {
    tell_place(text, room, place, plainly);
    size_t have = strlen(text);
    if (plainly && place->maker)
        snprintf(text + have, room - have, " %08x", place->maker);
}

/* What follows the place: where in its memory or frame the lock is. Of an array, where in an element. */
static void tell_offset(char *text, size_t room, struct arena *a, const struct raw_class *class) {
    text[0] = 0;
    uint64_t member = 0;
    if (class->kind == CLASS_HEAP && in_element(a, class, &member))
        snprintf(text, room, "[].m%lu", (unsigned long)member);
    else if (class->kind == CLASS_HEAP)
        snprintf(text, room, ".m%lu", (unsigned long)class->offset);
    else if (class->kind == CLASS_STACK)
        snprintf(text, room, ".s%lu", (unsigned long)class->offset);
}

static const enum symbol_kind symbol_kinds[CLASS_KINDS] = {
    [CLASS_STATIC] = SYMBOL_DATA, [CLASS_STACK] = SYMBOL_CODE, [CLASS_THREAD] = SYMBOL_THREAD, [CLASS_RUN] = SYMBOL_CODE};

static bool is_by_word(const struct raw_class *class) {
    return class->kind == CLASS_STATIC || class->kind == CLASS_STACK || class->kind == CLASS_THREAD || (class->kind == CLASS_RUN && class->word);
}

/* The file's name and where in it the lock is. What tells the file from others of that name is its number. */
static void tell_file(char *text, size_t room, struct arena *a, const struct raw_class *class, bool plainly) {
    const struct raw_file *file = part_of(a, RAW_FILES, class->place);
    const char *path = file && file->path[0] ? file->path : "file", *slash = strrchr(path, '/');
    char offset[32] = "";
    if (class->offset != RAW_WHOLE_FILE)
        snprintf(offset, sizeof offset, ".m%lu", (unsigned long)class->offset);
    if (plainly)
        snprintf(text, room, "%lx:%lx%s", file ? (unsigned long)file->device : 0, file ? (unsigned long)file->inode : 0, offset);
    else
        snprintf(text, room, "%s%s", slash ? slash + 1 : path, offset);
    fill_spaces(text);
}

#define THREAD "thread:" /* before what a thread is known by */

void tell_class(char *text, size_t room, struct arena *a, const struct raw_class *class, bool plainly) {
    char offset[32];
    if (class->kind == CLASS_NAMED) { /* no other class has a space in its words */
        snprintf(text, room, "%s%s", plainly ? "named " : "", text_of(a, class)->text);
        return;
    }
    if (class->kind == CLASS_FILE) {
        tell_file(text, room, a, class, plainly);
        return;
    }
    size_t have = (size_t)snprintf(text, room, "%s", class->kind == CLASS_RUN ? THREAD : "");
    if (is_by_word(class))
        tell_address(text + have, room - have, global_word(a, class->word), false, symbol_kinds[class->kind], plainly);
    else
        tell_made(text + have, room - have, place_numbered(a, class->place), plainly);
    tell_offset(offset, sizeof offset, a, class);
    have = strlen(text);
    snprintf(text + have, room - have, "%s", offset);
}

/* ---- Keys. */

uint32_t hash_of(const char *text) {
    uint64_t hash = UINT64_C(14695981039346656037);
    for (; *text; text++)
        hash = (hash ^ (unsigned char)*text) * UINT64_C(1099511628211);
    return (uint32_t)(hash ^ hash >> 32);
}

#define MARK 9 /* the bytes of `#` and eight digits */

/* What stands before an `@` would be read as a type, so one of a file or symbol is written as `%40`. */
static void escape(char *to, size_t room, const char *name) {
    static const char escaped[] = "%40";
    size_t length = 0;
    for (; *name && length + sizeof escaped < room; name++) {
        if (*name == '@')
            memcpy(to + length, escaped, sizeof escaped - 1);
        else
            to[length] = *name;
        length += *name == '@' ? sizeof escaped - 1 : 1;
    }
    to[length] = 0;
}

/* A name that is too long for the format is cut, and ends with a number made of all of it. */
static void put_name(char *to, const char *place, const char *all) {
    char name[LONGEST_NAME];
    escape(name, sizeof name, place);
    if (strlen(name) <= MAX_NAME && place == all)
        snprintf(to, MAX_NAME + 1, "%s", name);
    else
        snprintf(to, MAX_NAME + 1, "%.*s#%08x", MAX_NAME - MARK, name, hash_of(all));
}

/* Keys by the hash of their name: the first of each hash, and from each key the next. */
#define HASHES 4096
static int first_of[HASHES], *next_of; /* one more than the key; 0 is none */
static size_t next_count;

static int key_named(const char *name) {
    for (int i = first_of[hash_of(name) % HASHES]; i; i = next_of[i - 1])
        if (strcmp(keys[i - 1].name, name) == 0)
            return i - 1;
    return NO_KEY;
}

static int add_key(struct key key) {
    int *first = &first_of[hash_of(key.name) % HASHES];
    PUSH(keys, key_count, key);
    PUSH(next_of, next_count, *first);
    *first = (int)key_count;
    return (int)key_count - 1;
}

/* The callers that a class is known by, or NULL. */
static const struct place *callers_of(struct arena *a, const struct raw_class *class) {
    if (is_by_word(class) || class->kind == CLASS_FILE)
        return NULL;
    return place_numbered(a, class->kind == CLASS_NAMED ? text_of(a, class)->place : class->place);
}

static uint64_t first_word(struct arena *a, const struct raw_class *class) {
    if (class->kind == CLASS_THREAD)
        return UINT64_MAX; /* it is at another address in each thread */
    if (class->kind == CLASS_FILE)
        return class->offset == RAW_WHOLE_FILE ? 0 : class->offset;
    if (is_by_word(class))
        return global_word(a, class->word);
    const struct place *place = callers_of(a, class);
    return place->count ? place->words[0] : UINT64_MAX;
}

static const char *file_path(struct arena *a, const struct raw_class *class) {
    const struct raw_file *file = part_of(a, RAW_FILES, class->place);
    if (class->kind != CLASS_FILE)
        return NULL;
    return file && file->path[0] ? file->path : "-";
}

/* Whether the type tells where the class is: it is a static variable, which has one place. Of those in functions there may be several of
   one name. */
static bool tells_place(const struct type *type, const char *place) { return type->is_variable && !strpbrk(place, "+("); }

/* The name of a class: where it was made, or its type and eight digits of that. If two classes would have one name, the digits are of
   what tells them apart. */
static void put_class_name(struct key *key, const char *place, const char *all) {
    if (key->type && all == place && tells_place(key->type, place))
        snprintf(key->name, sizeof key->name, "%s", key->type->text);
    else if (key->type)
        snprintf(key->name, sizeof key->name, "%s@%08x", key->type->text, hash_of(all));
    else
        put_name(key->name, place, all);
}

/* The key of a class: that of its name, or a new one. */
static int make_key(struct arena *a, const struct raw_class *class, const struct type *type) {
    char place[LONGEST_NAME], identity[LONGEST_NAME];
    tell_class(identity, sizeof identity, a, class, true);
    tell_class(place, sizeof place, a, class, false);
    struct key key = {.at = first_word(a, class), .kind = (enum class_kind)class->kind, .path = file_path(a, class), .type = type,
                      .made = callers_of(a, class)};
    bool is_passed_on = key.made && key.made->maker; /* then there may be others, which this run doesn't show */
    put_class_name(&key, place, is_passed_on ? identity : place);
    int there = key_named(key.name);
    if (there != NO_KEY && strcmp(keys[there].identity, identity) != 0) {
        put_class_name(&key, place, identity);
        there = key_named(key.name);
    }
    if (there != NO_KEY)
        return there;
    key.identity = checked(strdup(identity));
    key.place = type ? checked(strdup(place)) : NULL;
    if (!type && !key.path && key.at != UINT64_MAX && key.kind != CLASS_NAMED && key.kind != CLASS_RUN)
        note_unnamed(raw_word_module(key.at));
    return add_key(key);
}

/* A class that has no key yet is marked by 0, and others by what is one more than their key. */
int key_of(struct arena *a, uint32_t class) {
    class = class_itself(a, class);
    if (!a->keys[class]) {
        const struct raw_class *c = part_of(a, RAW_CLASSES, class);
        a->keys[class] = make_key(a, c, a->types[class]) + 1;
    }
    return a->keys[class] - 1;
}
