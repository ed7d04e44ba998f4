/* Names of single locks: the class's name with a number, and with that of the process if there are several, since each has its own.

     NAME#1, NAME#2@3   of those that were nested with others: the first ones of each class and process
     NAME#rest          all others of the class
     NAME               a static lock, which is the only one of its class, or a file; NAME#1 if it needs a mark, since there are several
                        processes or the class's own name has a `#`

   A lock that processes share has no process in its name.

   So the class's name is what stands before the last `#`, or all of a name that has none. */
#include "finish.h"

#include <string.h>

struct object_key {
    int key; /* of its class */
    uint32_t process, ordinal; /* ordinal 0: the rest; NO_PROCESS if the name doesn't tell it */
};

#define NO_PROCESS 0

static struct object_key *object_keys;
static size_t object_key_count;
static uint32_t apart = RAW_APART;
static bool tells_process = true;

/* ---- Which of a class's objects have their own number. */

/* How many of a class's objects in a process have one, by a table of both that is gone through from their hash on. */
struct counted {
    int key;
    uint32_t process, count;
    int by_ordinal[RAW_APART + 1]; /* one more than the number of the object's key */
};

#define COUNTED 65536
static struct counted *counted[COUNTED];

static struct counted *counted_of(int key, uint32_t process) {
    uint32_t i = ((uint32_t)key * 2654435761u ^ process * 40503u) % COUNTED;
    for (uint32_t tries = 0; counted[i] && (counted[i]->key != key || counted[i]->process != process); i = (i + 1) % COUNTED)
        if (++tries == COUNTED)
            refuse("has more classes and processes than can be told apart", "the recording");
    if (!counted[i]) {
        counted[i] = checked(calloc(1, sizeof **counted));
        counted[i]->key = key;
        counted[i]->process = process;
    }
    return counted[i];
}

static int object_key_of(int key, uint32_t process, bool is_apart) {
    struct counted *c = counted_of(key, tells_process && process_count > 1 ? process : NO_PROCESS);
    uint32_t ordinal = is_apart && c->count < apart ? ++c->count : 0;
    if (!c->by_ordinal[ordinal]) {
        struct object_key o = {key, c->process, ordinal};
        PUSH(object_keys, object_key_count, o);
        c->by_ordinal[ordinal] = (int)object_key_count;
    }
    return c->by_ordinal[ordinal] - 1;
}

/* ---- The key of an object in a process, found once. */

/* Whether the object is the only one of its class. Of a file that is locked its ranges aren't. */
static bool is_alone(const struct arena *a, const struct raw_object *o, int key) {
    const struct raw_class *class = part_of(a, RAW_CLASSES, o->class);
    return keys[key].kind == CLASS_STATIC || (keys[key].kind == CLASS_FILE && class->offset == o->offset);
}

static int *known_key(struct arena *a, uint32_t process, uint32_t object) {
    int **known = &a->object_keys[process];
    if (!*known)
        *known = checked(calloc(count_of(a, RAW_OBJECTS) + 1, sizeof **known));
    return &(*known)[object];
}

int key_of_object(struct arena *a, uint32_t process, uint32_t object) {
    object = object_itself(a, object);
    const struct raw_object *o = part_of(a, RAW_OBJECTS, object);
    int *shared = shared_number(a, object), key = NO_KEY;
    if (shared && *shared != NO_KEY)
        return *shared;
    if (shared) {
        key = class_key_of(a, object);
        return *shared = object_key_of(key, NO_PROCESS, !is_alone(a, o, key) && !has_later_ones(a, object));
    }
    if (process > count_of(a, RAW_PROCESSES))
        process = 0;
    int *known = known_key(a, process, object);
    if (!*known) {
        key = class_key_of(a, object);
        *known = object_key_of(key, a->processes[process], o->ordinal && !is_alone(a, o, key)) + 1;
    }
    return *known - 1;
}

void tell_object(char *text, size_t room, int number) {
    const struct object_key *o = &object_keys[number];
    const struct key *key = &keys[o->key];
    char mark[16] = "", process[16] = "";
    if (o->ordinal)
        snprintf(mark, sizeof mark, "#%u", o->ordinal);
    else if (key->kind != CLASS_STATIC && key->kind != CLASS_FILE)
        snprintf(mark, sizeof mark, "#rest");
    else if (o->process != NO_PROCESS || strchr(key->name, '#'))
        snprintf(mark, sizeof mark, "#1");
    if (o->process != NO_PROCESS)
        snprintf(process, sizeof process, "@%u", o->process);
    snprintf(text, room, "%s%s%s", key->name, mark, process);
}

/* ---- How many are told apart: as many as a run of the checker takes keys for. */

static void forget_all(void) {
    for (size_t i = 0; i < COUNTED; i++) {
        free(counted[i]);
        counted[i] = NULL;
    }
    object_key_count = 0;
    forget_shared_numbers();
    for (size_t i = 0; i < arena_count; i++)
        for (uint32_t p = 0; p <= count_of(&arenas[i], RAW_PROCESSES); p++) {
            free(arenas[i].object_keys[p]);
            arenas[i].object_keys[p] = NULL;
        }
}

static void name_objects_of(struct arena *a, const struct raw_thread *t) {
    for (uint64_t i = 0; i < t->count && object_key_count <= MAX_KEYS; i++) {
        const struct raw_record *r = record_of(a, t, i);
        if (r && raw_mode(r->what) != MODE_RELEASE && !is_left_out(a, raw_object(r->what)))
            key_of_object(a, t->process, raw_object(r->what));
    }
}

static void name_all(void) {
    for (size_t i = 0; i < arena_count; i++)
        for (uint32_t n = 1; n <= count_of(&arenas[i], RAW_THREADS); n++)
            name_objects_of(&arenas[i], part_of(&arenas[i], RAW_THREADS, n));
}

/* Fewer and fewer, then none, and at last one name for the locks of all processes. */
void name_objects(void) {
    for (size_t i = 0; i < arena_count; i++)
        arenas[i].object_keys = checked(calloc(count_of(&arenas[i], RAW_PROCESSES) + 1, sizeof *arenas[i].object_keys));
    for (;;) {
        name_all();
        if (object_key_count <= MAX_KEYS || !tells_process)
            return;
        forget_all();
        tells_process = apart > 0;
        apart /= 2;
    }
}
