/* Locks that processes share. Each process may know such a lock by something else: who initialised it, or only the file that it is in. It
   has one class in all of them, that of who initialised it if anybody did. When it is initialised again it is another lock, unless one of the
   processes didn't know of that. */
#include "finish.h"

#include <string.h>

struct shared {
    uint64_t device, inode, offset;
    uint32_t generation; /* 0 of one lock for all of them */
    struct arena *arena;
    uint32_t class;
    int key; /* NO_KEY until it is asked for */
    int number; /* of the key of the single lock, or NO_KEY */
    bool is_signal; /* as any process found */
};

static struct shared *shared;
static size_t shared_count;

/* Memory without a file has the arena and its number there. */
static struct shared identity_of(struct arena *a, const struct raw_object *o, const struct raw_file *file) {
    struct shared s = {.device = file->device, .inode = file->inode, .offset = o->offset, .generation = o->generation, .arena = a,
                       .class = class_itself(a, o->class), .is_signal = o->is_signal};
    if (file->place) {
        s.device = (uint64_t)(a - arenas);
        s.inode = UINT64_MAX - o->file;
    }
    s.key = s.number = NO_KEY;
    return s;
}

static int by_memory(const struct shared *x, const struct shared *y) {
    if (x->device != y->device)
        return x->device < y->device ? -1 : 1;
    if (x->inode != y->inode)
        return x->inode < y->inode ? -1 : 1;
    return x->offset < y->offset ? -1 : x->offset > y->offset;
}

static int by_identity(const void *a, const void *b) {
    const struct shared *x = a, *y = b;
    int memory = by_memory(x, y);
    return memory ? memory : x->generation < y->generation ? -1 : x->generation > y->generation;
}

/* Whether the second one, which comes later, is the same lock as the first. */
static bool is_same(const struct shared *first, const struct shared *s) {
    return by_memory(first, s) == 0 && (!first->generation || first->generation == s->generation);
}

static enum class_kind kind_of(const struct shared *s) {
    return (enum class_kind)((const struct raw_class *)part_of(s->arena, RAW_CLASSES, s->class))->kind;
}

/* How good a class is as a name: best is one that a program gave, and then one that somebody initialised. */
static int rank_of(const struct shared *s) { return kind_of(s) == CLASS_NAMED ? 2 : kind_of(s) == CLASS_INIT; }

/* Whether the first class is the better name, or of two that are as good the first of the alphabet. */
static bool is_better(const struct shared *a, const struct shared *b) {
    if (rank_of(a) != rank_of(b))
        return rank_of(a) > rank_of(b);
    int first = key_of(a->arena, a->class), second = key_of(b->arena, b->class); /* either may move the list */
    return strcmp(keys[first].name, keys[second].name) < 0;
}

static const struct raw_file *file_of(const struct arena *a, uint32_t object) {
    const struct raw_object *o = part_of(a, RAW_OBJECTS, object);
    const struct raw_file *file = o && o->file ? part_of(a, RAW_FILES, o->file) : NULL;
    return file && file->is_ready && class_of(a, object) ? file : NULL;
}

static void collect(struct arena *a) {
    for (uint32_t n = 1; n <= count_of(a, RAW_OBJECTS); n++) {
        const struct raw_file *file = file_of(a, n);
        if (!file)
            continue;
        struct shared s = identity_of(a, part_of(a, RAW_OBJECTS, n), file);
        PUSH(shared, shared_count, s);
    }
}

void find_shared(void) {
    size_t kept = 0;
    for (size_t i = 0; i < arena_count; i++)
        collect(&arenas[i]);
    if (shared_count)
        qsort(shared, shared_count, sizeof *shared, by_identity);
    for (size_t i = 0; i < shared_count; i++) {
        bool is_new = i == 0 || !is_same(&shared[kept - 1], &shared[i]);
        bool is_signal = shared[i].is_signal || (!is_new && shared[kept - 1].is_signal);
        uint32_t generation = shared[is_new ? i : kept - 1].generation;
        if (is_new)
            shared[kept++] = shared[i];
        else if (is_better(&shared[i], &shared[kept - 1]))
            shared[kept - 1] = shared[i];
        shared[kept - 1].is_signal = is_signal;
        shared[kept - 1].generation = generation;
    }
    shared_count = kept;
}

static struct shared *shared_of(struct arena *a, uint32_t object) {
    const struct raw_file *file = file_of(a, object);
    if (!file)
        return NULL;
    struct shared wanted = identity_of(a, part_of(a, RAW_OBJECTS, object), file), all = wanted;
    all.generation = 0;
    struct shared *found = shared_count ? bsearch(&all, shared, shared_count, sizeof *shared, by_identity) : NULL;
    return found || !shared_count ? found : bsearch(&wanted, shared, shared_count, sizeof *shared, by_identity);
}

/* Whether the object is a semaphore that was found to be no lock. */
bool is_signal(struct arena *a, uint32_t object) {
    const struct shared *s = shared_of(a, object);
    const struct raw_object *o = part_of(a, RAW_OBJECTS, object);
    return s ? s->is_signal : o && o->is_signal;
}

/* Whether nothing of it is written. */
bool is_left_out(struct arena *a, uint32_t object) { return is_signal(a, object) || is_thread_left_out(a, object); }

/* How many semaphores are. */
uint64_t signals(void) {
    uint64_t count = 0;
    for (size_t i = 0; i < arena_count; i++)
        for (uint32_t n = 1; n <= count_of(&arenas[i], RAW_OBJECTS); n++)
            count += !shared_of(&arenas[i], n) && is_signal(&arenas[i], n);
    for (size_t i = 0; i < shared_count; i++)
        count += shared[i].is_signal;
    return count;
}

/* The key of the object's class. */
int class_key_of(struct arena *a, uint32_t object) {
    struct shared *s = shared_of(a, object);
    if (!s)
        return key_of(a, class_of(a, object));
    if (s->key == NO_KEY)
        s->key = key_of(s->arena, s->class);
    return s->key;
}

/* Where the number of the single lock is kept that processes share; NULL of another lock. */
int *shared_number(struct arena *a, uint32_t object) {
    struct shared *s = shared_of(a, object);
    return s ? &s->number : NULL;
}

/* Whether it stands for all later generations of the lock. */
bool has_later_ones(struct arena *a, uint32_t object) {
    const struct shared *s = shared_of(a, object);
    return s && s->generation == RAW_GENERATIONS;
}

void forget_shared_numbers(void) {
    for (size_t i = 0; i < shared_count; i++)
        shared[i].number = NO_KEY;
}
