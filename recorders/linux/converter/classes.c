/* Classes: a key and the name that it had. */
#define _GNU_SOURCE
#include "converter.h"

/* A key's current name: keys in memory are reused by other classes. Or the class of an instance, when it was taken last. */
struct key_use {
    uint64_t key;
    size_t class;
};

struct table {
    struct key_use *uses; /* by hash */
    size_t room, count;
};

struct name *names;
size_t name_count;
struct class *classes;
size_t class_count;
struct written *writtens;
size_t written_count;
static struct table keys, instances;

/* A key as all CPUs have it: the copies of a static per-CPU lock are one class, and become its symbol's address. */
static uint64_t shared_key(uint64_t key, bool *is_percpu) {
    *is_percpu = false;
    for (int number = 0; number < MAX_CPUS && percpu_end; number++) {
        uint64_t symbol = key - cpus[number].base;
        if (cpus[number].is_based && symbol >= percpu_start && symbol < percpu_end) {
            *is_percpu = true;
            return symbol;
        }
    }
    return key;
}

static size_t slot_of_key(const struct table *table, uint64_t key) {
    size_t slot = mix(0, key) & (table->room - 1);
    while (table->uses[slot].key && table->uses[slot].key != key)
        slot = (slot + 1) & (table->room - 1);
    return slot;
}

static void grow_table(struct table *table) {
    struct table old = *table;
    table->room = old.room ? 2 * old.room : 1024;
    table->uses = checked(calloc(table->room, sizeof *table->uses));
    for (size_t slot = 0; slot < old.room; slot++)
        if (old.uses[slot].key)
            table->uses[slot_of_key(table, old.uses[slot].key)] = old.uses[slot];
    free(old.uses);
}

/* The entry of a key (as it was recorded), or of an instance. */
static struct key_use *use_of_key(struct table *table, uint64_t key) {
    if (2 * table->count >= table->room)
        grow_table(table);
    struct key_use *use = &table->uses[slot_of_key(table, key)];
    if (!use->key) {
        use->key = key;
        use->class = SIZE_MAX;
        table->count++;
    }
    return use;
}

static size_t name_of_text(const char *text) {
    for (size_t number = 0; number < name_count; number++)
        if (!strcmp(names[number].text, text))
            return number;
    struct name name = {0};
    strcpy(name.text, text);
    PUSH(names, name_count, name);
    return name_count - 1;
}

/* The class of a key, except for its name. */
static struct class class_of_key(uint64_t recorded_key, uint64_t number) {
    struct class class = {.key = recorded_key};
    class.key = shared_key(recorded_key, &class.is_percpu);
    class.is_static = class.is_percpu || (image_end && class.key >= image_start && class.key < image_end);
    class.symbol = symbol_at(class.key, number);
    int load = class.is_static || !class.symbol ? NO_LOAD : class.symbol->load;
    if (load != NO_LOAD) {
        class.is_static = true;
        class.module = loads[load].name;
        class.key -= loads[load].start;
    }
    return class;
}

static bool is_same_key(const struct class *one, const struct class *other) {
    bool is_same_module = one->module == other->module || (one->module && other->module && !strcmp(one->module, other->module));
    return one->key == other->key && one->is_percpu == other->is_percpu && is_same_module;
}

/* The class of a key with a name, made if it isn't there. */
static size_t class_of(uint64_t recorded_key, const char *text, uint64_t number) {
    struct class class = class_of_key(recorded_key, number);
    class.name = name_of_text(text);
    for (size_t other = 0; other < class_count; other++)
        if (classes[other].name == class.name && is_same_key(&classes[other], &class))
            return other;
    *(class.is_static ? &names[class.name].static_keys : &names[class.name].other_keys) += 1;
    PUSH(classes, class_count, class);
    return class_count - 1;
}

/* A key without its subclass. A static lock that lockdep hasn't registered has none: it is its own. */
uint64_t base_key(const struct lr_record *record) {
    return record->key < SUBCLASSES ? record->instance : record->key - (record->flags & LR_SUBCLASS);
}

/* A name that is a line of a file has the path by which a module was built, which isn't the same elsewhere: only the file stays. */
static const char *without_folders(const char *text) {
    const char *last = strrchr(text, '/');
    return *text == '/' && strchr(last, '.') && strchr(last, ':') ? last + 1 : text;
}

void learn_name(const struct lr_record *record) {
    char bytes[LR_NAME_ROOM + 1];
    memcpy(bytes, record + 1, LR_NAME_ROOM);
    bytes[LR_NAME_ROOM] = 0;
    const char *text = without_folders(bytes);
    uint64_t key = record->key - (record->flags & LR_SUBCLASS);
    struct key_use *use = use_of_key(&keys, key);
    if (use->class == SIZE_MAX || strcmp(names[classes[use->class].name].text, text))
        use->class = class_of(key, text, record->number);
}

size_t class_of_record(const struct lr_record *record) {
    struct key_use *use = use_of_key(&keys, base_key(record));
    if (use->class == SIZE_MAX)
        use->class = class_of(use->key, "unnamed", record->number);
    return use->class;
}

/* Notes from when to when a class is used, and by whom first. */
void note_use(const struct lr_record *record) {
    struct key_use *use = use_of_key(&instances, record->instance);
    if (is_lock(record))
        use->class = class_of_record(record);
    if (use->class == SIZE_MAX)
        return;
    struct class *class = &classes[use->class];
    if (!class->first) {
        class->first = record->number;
        class->caller = record->place;
    }
    class->last = record->number;
}

static bool is_in_memory(const struct class *class) { return !class->is_static && class->first; }

static const char *taker_of(const struct class *class) {
    const struct symbol *taker = function_at(class->caller, class->first);
    return taker ? taker->name : "";
}

/* Whether two keys in memory of one name, which the same function takes first, are two classes, as they are to lockdep. They aren't if a module was
   unloaded after one and before the other: loaded again, it makes another key for what is the same. Keys that may not be in memory are. */
static bool is_beside(const struct class *one, const struct class *other) {
    const struct class *earlier = one->first < other->first ? one : other, *later = earlier == one ? other : one;
    return are_keys_hidden || !is_unload_between(earlier->last, later->first);
}

/* Gives the keys in memory of one name their turns. One that comes when another one is gone takes its turn. */
static void tell_turns(void) {
    for (size_t number = 0; number < class_count; number++) {
        struct class *class = &classes[number];
        if (!is_in_memory(class))
            continue;
        class->turn = 1;
        for (size_t other = 0; other < number; other++) {
            const struct class *earlier = &classes[other];
            if (earlier->name != class->name || !is_in_memory(earlier))
                continue;
            bool is_same_taker = !strcmp(taker_of(earlier), taker_of(class));
            bool is_taken = is_same_taker && is_beside(earlier, class);
            class->turn += is_taken && earlier->turn == class->turn;
            names[class->name].is_apart = names[class->name].is_apart || is_taken || !is_same_taker;
        }
    }
}

/* Whether a name needs more to tell its class from others: several keys have it, or it is that of a per-CPU variable's
   field, as `lock` often is. */
bool is_ambiguous(const struct class *class) {
    const struct name *name = &names[class->name];
    bool is_several = options.full_names || name->static_keys + name->other_keys > 1;
    return class->is_percpu || (class->is_static ? is_several : name->is_apart);
}

/* Whether the symbol of a key says nothing. */
bool is_nameless(const struct class *class) {
    return !strcmp(class->symbol->name, "__key") || !strncmp(class->symbol->name, "__key.", 6);
}

/* Appends the module and the distance from its start, or its symbol, which may be the lock itself. */
static void tell_module(const struct class *class, char *end, size_t room, bool is_own) {
    long long distance = (long long)class->key;
    if (is_nameless(class))
        snprintf(end, room, "@%s%c%llx", class->module, distance < 0 ? '-' : '+', distance < 0 ? -distance : distance);
    else
        snprintf(end, room, "@%s%s%s", class->module, is_own ? "" : ":", is_own ? "" : class->symbol->name);
}

/* Appends who takes a key in memory first, and its turn unless it is the first one. (What stands behind an `@` isn't looked at by types, as by `gather`.) */
static void tell_taker(const struct class *class, char *end, size_t room) {
    const char *taker = taker_of(class);
    char turn[16] = "";
    if (class->turn > 1)
        snprintf(turn, sizeof turn, "+%d", class->turn);
    snprintf(end, room, "%s%s%s%s", *taker || *turn ? "~" : "", *taker ? "by:" : "", taker, turn);
}

/* Appends the symbol to a name, or the distance from the kernel's start if the symbol says nothing. A lock with the same
   name as its symbol keeps its name. */
static void tell_apart(const struct class *class, char *text, size_t room) {
    size_t length = strlen(text);
    if (is_in_memory(class))
        tell_taker(class, text + length, room - length);
    if (!class->is_static || !class->symbol)
        return;
    bool is_own = !strcmp(class->symbol->name, text);
    if (class->module)
        tell_module(class, text + length, room - length, is_own);
    else if (is_nameless(class))
        snprintf(text + length, room - length, "@%llx", (unsigned long long)(class->key - image_start));
    else if (!is_own)
        snprintf(text + length, room - length, "@%s", class->symbol->name);
}

/* Spaces and invisible characters become `_`; a name that is too long is cut, and ends with a checksum of the whole. */
static void make_name_valid(char *text) {
    uint32_t sum = 2166136261u;
    for (char *byte = text; *byte; byte++) {
        if (*byte < 0x21 || *byte > 0x7e)
            *byte = '_';
        sum = (sum ^ (unsigned char)*byte) * 16777619u;
    }
    if (strlen(text) > MAX_NAME)
        snprintf(text + MAX_NAME - 9, 10, "~%08x", sum);
    if (!*text)
        strcpy(text, "_");
}

static size_t written_of_text(const char *text) {
    for (size_t number = 0; number < written_count; number++)
        if (!strcmp(writtens[number].text, text))
            return number;
    struct written written = {0};
    strcpy(written.text, text);
    PUSH(writtens, written_count, written);
    return written_count - 1;
}

void name_classes(void) {
    tell_turns();
    for (size_t number = 0; number < class_count; number++) {
        struct class *class = &classes[number];
        char text[LR_NAME_ROOM + 600];
        strcpy(text, names[class->name].text);
        if (is_ambiguous(class))
            tell_apart(class, text, sizeof text);
        make_name_valid(text);
        class->written = written_of_text(text);
        writtens[class->written].other_keys += is_in_memory(class);
        if (class->module && options.only_module && !strcmp(class->module, options.only_module))
            writtens[class->written].is_of_module = true;
    }
}

/* Forgets the current names of keys, so that the records can be gone through again. */
void forget_names(void) {
    for (size_t slot = 0; slot < keys.room; slot++)
        keys.uses[slot].class = SIZE_MAX;
}
