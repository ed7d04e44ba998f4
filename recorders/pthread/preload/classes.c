/* Classes and objects.

   A class is where a lock was initialised; else what static lock it is; else where its memory was allocated, and where in that
   memory it is; else in which function's frame it lies; else where it was first taken. An object is one of the first RAW_APART of the
   class's locks that were nested with others: all others of the class are one object. */
#include "held.h"

/* ---- What the library keeps of each class, in blocks that are made when they are needed. */

#define CLASS_BLOCK 4
#define CLASS_BLOCKS 16384

struct kept_of_class {
    uint32_t given; /* a bit for each ordinal, 1 being the lowest: a lock has it, or had it once */
    uint32_t objects[RAW_APART + 1];
};

TABLE(struct kept_of_class *, class_blocks, 8, CLASS_BLOCKS);

static void *block_at(void **at, size_t bytes) {
    void *block = LOAD(at);
    if (LIKELY(block))
        return block;
    void *made = take_private(bytes);
    return made && SWAP(at, &block, made) ? made : block;
}

static struct kept_of_class *kept_of(uint32_t class) {
    uint32_t which = class / CLASS_BLOCK % CLASS_BLOCKS;
    struct kept_of_class *block = block_at((void **)NTH(class_blocks, which), sizeof *block * CLASS_BLOCK);
    return block ? &block[class % CLASS_BLOCK] : NULL;
}

/* ---- Classes. */

static struct names classes;

static uint64_t class_key(const struct raw_class *c) {
    return mixed(mixed(mixed(c->word + c->kind) + c->offset) + c->place) | 1;
}

/* Of each class how often its locks will still be looked at when they are taken. That is done for locks in allocated memory, until
   it has brought nothing new for so long. */
#define MOST_CLASSES 65536
#define LOOKS 255
TABLE(uint8_t, looks_left, 64, MOST_CLASSES);

static uint8_t *looks_of(uint32_t class) {
    uint32_t which = class % MOST_CLASSES;
    return NTH(looks_left, which);
}

const uint8_t *looks_left_at(uint32_t class) { return looks_of(class); }

static bool is_known_by_address(uint32_t kind) { return kind == CLASS_STATIC || kind == CLASS_THREAD || kind == CLASS_FILE; }

/* By the program itself. */
static bool is_said(uint32_t kind) { return kind == CLASS_NAMED || kind == CLASS_IGNORED || kind == CLASS_NESTED; }

static uint32_t define_class(const struct raw_class *new) {
    uint32_t number = take_part(RAW_CLASSES);
    if (!number)
        return 0;
    *looks_of(number) = new->kind == CLASS_HEAP ? LOOKS : 0;
    struct raw_class *class = part_of(RAW_CLASSES, number);
    class->place = new->place;
    class->word = new->word;
    class->offset = new->offset;
    class->look = is_known_by_address(new->kind) || is_said(new->kind) || new->kind == CLASS_RUN ? RAW_NO_LOOK : 0;
    STORE(&class->kind, new->kind);
    return number;
}

static uint32_t known_class(struct raw_class class) {
    uint32_t *slot = added_slot(&classes, class_key(&class));
    if (!slot)
        return 0;
    uint32_t number = LOAD(slot);
    return number ? number : settled(slot, define_class(&class));
}

/* ---- The sizes of pieces with locks. An array's are multiples of an element's. */

static uint64_t common_part(uint64_t a, uint64_t b) {
    while (b) {
        uint64_t rest = a % b;
        a = b;
        b = rest;
    }
    return a;
}

bool is_mapped_place(uint32_t number) { return ((struct raw_place *)part_of(RAW_PLACES, number))->element == RAW_MAPPED; }

void note_size(uint32_t number, uint64_t bytes) {
    struct raw_place *place = part_of(RAW_PLACES, number);
    uint64_t first = LOAD(&place->bytes), steps = LOAD(&place->steps), new;
    if (LIKELY(first == bytes))
        return;
    if (!first && SWAP(&place->bytes, &first, bytes)) {
        note_lock_from(number);
        return;
    }
    do
        new = common_part(first > bytes ? first - bytes : bytes - first, steps);
    while (new != steps && !SWAP(&place->steps, &steps, new));
}

/* ---- Further locks of a class in allocated memory, since one place can make locks of two types. Looked at are those that are in pieces of
   another size, and those that other code takes. That is looked for anew with each of the first new locks of a class, and later each time
   that it has had twice as many. */

#define MOST_COUNTED (UINT32_C(1) << 16) /* new locks of a class, and so the threads that make them don't wait for one another any more */
#define ALL_COUNTED 16
#define MOST_SIZES 3
#define MOST_TAKERS 5

struct further {
    uint32_t locks; /* that were new; two threads may count one */
    uint32_t bytes; /* of the last piece that was of another size than the one before */
    uint8_t sizes, takers;
};
/* Of all classes, once a lock of one is in allocated memory; NULL if there is no room for it. */
static struct further *further_of(uint32_t class) {
    static struct further *all;
    struct further *there = LOAD(&all);
    if (UNLIKELY(!there)) {
        struct further *made = take_sparse(sizeof *made * MOST_CLASSES);
        if (made && SWAP(&all, &there, made))
            there = made;
    }
    return there ? &there[class % MOST_CLASSES] : NULL;
}

static bool is_one_to_look_at(struct further *f) {
    uint32_t locks = f->locks;
    if (LIKELY(locks == MOST_COUNTED))
        return false;
    f->locks = ++locks;
    return locks <= ALL_COUNTED || !(locks & (locks - 1));
}

static void note_new_lock(uint32_t class, uintptr_t lock, const struct memory *memory, struct call call) {
    struct further *f = further_of(class);
    uint32_t bytes = (uint32_t)memory->bytes;
    if (!f)
        return;
    if (is_one_to_look_at(f) && !*looks_of(class))
        *looks_of(class) = 1;
    if (LIKELY(bytes == f->bytes) || f->sizes > MOST_SIZES)
        return;
    f->bytes = bytes;
    if (f->sizes++)
        look_further(class, lock, memory, call);
}

/* The first one that takes locks of the class took the one that was looked at first. */
static void note_new_taker(uint32_t class, uintptr_t lock, struct call call) {
    struct further *f = further_of(class);
    struct memory memory;
    if (!f || f->takers > MOST_TAKERS || f->takers++ == 0 || !find_memory(lock, &memory))
        return;
    look_further(class, lock, &memory, call);
}

/* ---- Who takes a lock in allocated memory. */

static struct names takes;

#define TAKE_FRAMES 8

/* Of a class and a place, once. */
static void note_take(uint32_t class, uint32_t place, uintptr_t lock, struct call call) {
    uint32_t *slot = added_slot(&takes, mixed((uint64_t)class << 32 | place)), none = 0;
    if (!slot || LOAD(slot) || !SWAP(slot, &none, 1))
        return;
    *looks_of(class) = LOOKS;
    note_new_taker(class, lock, call);
    uint32_t number = take_part(RAW_TAKES);
    if (!number)
        return;
    struct raw_take *take = part_of(RAW_TAKES, number);
    take->place = place;
    STORE(&take->class, class);
}

void look_at_taker(uint32_t class, uintptr_t lock, struct call call) {
    uint8_t *left = looks_of(class);
    if (LIKELY(!*left))
        return;
    (*left)--;
    uint32_t place = place_of_call(call, TAKE_FRAMES);
    if (place)
        note_take(class, place, lock, call);
}

static uint32_t class_in_frame(uintptr_t lock, struct call call) {
    struct raw_class class = {.kind = CLASS_STACK};
    return frame_with(lock, call, &class.word, &class.offset) ? known_class(class) : 0;
}

/* Memory that has no file is known by where it was mapped. */
static uint32_t class_in_file(uint32_t file, uint64_t offset) {
    uint32_t place = ((struct raw_file *)part_of(RAW_FILES, file))->place;
    return known_class(place ? (struct raw_class){.kind = CLASS_HEAP, .place = place, .offset = offset}
                             : (struct raw_class){.kind = CLASS_FILE, .place = file, .offset = offset});
}

/* ---- Memory that the program gives out itself, as it says. A lock that comes to lie there isn't known by that memory. */

#define STATIC_MEMORY UINT32_MAX
static struct names given_out; /* where the program got the memory of such a lock: the place of an allocation, or STATIC_MEMORY */

/* The lock that is known here is gone, and the program may put another one here. */
void note_given_out(uintptr_t lock) {
    struct memory memory = {0, 0, 0};
    bool is_known = known_module(lock) || find_memory(lock, &memory);
    uint32_t *slot = is_known ? added_slot(&given_out, mixed(lock)) : NULL;
    if (slot)
        STORE(slot, memory.place ? memory.place : STATIC_MEMORY);
}

static bool is_given_out(uintptr_t lock, uint32_t by) {
    const uint32_t *slot = name_slot(&given_out, mixed(lock));
    return slot && LOAD(slot) == by;
}

static uint32_t place_here(struct call call) {
    struct stack stack;
    take_stack(&stack, call, RAW_FRAMES);
    return place_of(&stack);
}

static uint32_t class_by_taker(struct call call) {
    uint32_t place = place_here(call);
    return place ? known_class((struct raw_class){.kind = CLASS_TAKE, .place = place}) : 0;
}

/* The class of a lock that no call initialised. Modules that aren't known yet are looked for last, since that is slow. */
static uint32_t class_of_lock(uintptr_t lock, struct memory *memory, struct call call) {
    struct raw_class class = {.kind = CLASS_HEAP};
    uint32_t file;
    bool is_static = known_module(lock) != NULL;
    *memory = (struct memory){0, 0, 0};
    if (!is_static && find_shared(lock, &file, &class.offset))
        return class_in_file(file, class.offset);
    if (!is_static && find_memory(lock, memory)) {
        if (UNLIKELY(is_given_out(lock, memory->place)))
            return class_by_taker(call);
        class.place = memory->place;
        class.offset = lock - memory->from;
        return known_class(class);
    }
    if (is_static || module_of(lock))
        return is_given_out(lock, STATIC_MEMORY) ? class_by_taker(call)
                                                 : known_class((struct raw_class){.kind = CLASS_STATIC, .word = word_of(lock)});
    if (own_part_with(lock, &class.word)) {
        class = (struct raw_class){.kind = CLASS_THREAD, .word = class.word};
        return known_class(class);
    }
    uint32_t in_frame = class_in_frame(lock, call);
    return in_frame ? in_frame : class_by_taker(call);
}

/* ---- Objects. */

static uint32_t define_object(uint32_t class, uint32_t ordinal, uint32_t file, uint64_t offset, uint32_t generation) {
    uint32_t number = take_part(RAW_OBJECTS);
    if (!number)
        return 0;
    struct raw_object *object = part_of(RAW_OBJECTS, number);
    object->ordinal = ordinal;
    object->file = file;
    object->offset = offset;
    object->generation = generation;
    STORE(&object->class, class);
    return number;
}

static uint32_t ordinal_of(uint32_t object) { return ((struct raw_object *)part_of(RAW_OBJECTS, object))->ordinal; }

static uint32_t object_numbered(uint32_t class, uint32_t ordinal) {
    struct kept_of_class *kept = kept_of(class);
    if (!kept)
        return 0;
    uint32_t object = LOAD(&kept->objects[ordinal]);
    return object ? object : settled(&kept->objects[ordinal], define_object(class, ordinal, 0, 0, 0));
}

/* A lock that processes share is an object of its own from the first, and another one each time that it was initialised. */
static struct names shared;

static uint32_t object_in_file(uint32_t class, uint32_t file, uint64_t offset, uint32_t generation) {
    uint32_t *slot = added_slot(&shared, mixed(mixed(mixed(mixed(offset) + file) + class) + generation));
    uint32_t object = slot ? LOAD(slot) : 0;
    return object || !slot ? object : settled(slot, define_object(class, RAW_SHARED, file, offset, generation));
}

/* What is known of a lock that gets an object: it has got another name, it was met first, or it has just been initialised. */
enum coming { RENAMED, MET, INITIALISED };

static uint32_t new_object(uintptr_t lock, uint32_t class, enum coming coming, uint64_t time) {
    uint32_t file, object = 0;
    uint64_t offset;
    if (class && find_shared(lock, &file, &offset))
        object = object_in_file(class, file, offset, coming == INITIALISED ? next_generation(file, offset) : generation_of(file, offset));
    else if (class)
        object = object_numbered(class, 0);
    if (!object)
        return 0;
    if (coming == RENAMED)
        name_in_history(lock, object);
    else
        meet_in_history(lock, object, time);
    return add_lock(lock, object);
}

static enum class_kind kind_of(uint32_t class) {
    return (enum class_kind)((struct raw_class *)part_of(RAW_CLASSES, class))->kind;
}

/* Whether another lock lay there before: in a frame they come and go without a word. */
static bool is_outdated(uintptr_t lock, uint32_t object, struct call call) {
    const struct raw_class *class = part_of(RAW_CLASSES, class_of(object));
    uint64_t function, offset;
    if (LIKELY(class->kind < CLASS_STACK) || !class->word || !is_on_stack(lock, call))
        return false;
    return frame_with(lock, call, &function, &offset) && (function != class->word || offset != class->offset);
}

/* Whether the object is a lock that lay so far down in a frame of the function. */
bool is_of_frame(uint32_t object, uint64_t function, uint64_t offset) {
    const struct raw_class *class = part_of(RAW_CLASSES, class_of(object));
    return class->kind >= CLASS_STACK && class->word == function && class->offset == offset;
}

/* Whether processes share the lock in memory: files that are locked themselves are shared otherwise, and aren't initialised. */
bool is_in_shared_memory(uint32_t object) {
    const struct raw_object *o = part_of(RAW_OBJECTS, object);
    const struct raw_class *class = part_of(RAW_CLASSES, o->class);
    return UNLIKELY(o->ordinal == RAW_SHARED) && !(class->kind == CLASS_FILE && class->offset == RAW_WHOLE_FILE);
}

/* Whether any process has initialised a lock that processes share since it is known as this object. */
bool is_initialised_since(uint32_t object) {
    const struct raw_object *o = part_of(RAW_OBJECTS, object);
    return is_in_shared_memory(object) && generation_of(o->file, o->offset) != o->generation;
}

/* What the program says of it stays; else it is known by where it is, until it is known who has initialised it. */
static uint32_t object_now(uintptr_t lock, uint32_t object) {
    const struct raw_object *o = part_of(RAW_OBJECTS, object);
    uint32_t class = is_said(kind_of(o->class)) ? o->class : class_in_file(o->file, o->offset);
    uint64_t time = time_before_looking();
    uint32_t there = lock_object(lock);
    if (there && there != object)
        return there; /* another thread has found that, too */
    drop_lock(lock);
    return new_object(lock, class, MET, time);
}

/* Whether the lock ends with this thread. */
static bool is_own(uintptr_t lock, uint32_t class, struct call call) {
    enum class_kind kind = class ? kind_of(class) : CLASS_NONE;
    return kind == CLASS_THREAD || ((kind == CLASS_STACK || kind == CLASS_TAKE) && is_below_end(lock, call));
}

/* The first lock of a class is looked at. */
static void look_once(uint32_t number, uintptr_t lock, const struct memory *memory, struct call call) {
    struct raw_class *class = number ? part_of(RAW_CLASSES, number) : NULL;
    if (UNLIKELY(class && !LOAD(&class->look)))
        look_at(class, lock, memory, call);
}

uint32_t object_of_lock(uintptr_t lock, struct call call) {
    uint32_t object = lock_object(lock);
    if (LIKELY(object && !is_outdated(lock, object, call)))
        return UNLIKELY(is_initialised_since(object)) ? object_now(lock, object) : object;
    if (object)
        drop_lock(lock);
    uint64_t time = time_before_looking();
    if ((object = lock_object(lock)))
        return object; /* another thread has met it meanwhile */
    struct memory memory;
    uint32_t class = class_of_lock(lock, &memory, call);
    look_once(class, lock, &memory, call);
    if (class && memory.bytes && kind_of(class) == CLASS_HEAP)
        note_new_lock(class, lock, &memory, call);
    if (is_own(lock, class, call))
        note_own_lock(lock);
    return new_object(lock, class, MET, time);
}

/* The smallest ordinal that no object of the class has had, or 0. */
static uint32_t taken_ordinal(struct kept_of_class *kept) {
    uint32_t given = LOAD(&kept->given);
    while (~given) {
        uint32_t free = (uint32_t)__builtin_ctz(~given);
        if (SWAP(&kept->given, &given, given | UINT32_C(1) << free))
            return free + 1;
    }
    return 0;
}

/* The object of a lock that gets an ordinal, or that another thread has given one meanwhile. */
static uint32_t numbered_object(uintptr_t lock, uint32_t object, struct kept_of_class *kept) {
    uint32_t ordinal = taken_ordinal(kept), own = ordinal ? object_numbered(class_of(object), ordinal) : 0;
    uint32_t there = own ? change_lock(lock, object, own) : object;
    if (own && there == own)
        name_in_history(lock, own);
    else if (ordinal)
        __atomic_fetch_and(&kept->given, ~(UINT32_C(1) << (ordinal - 1)), __ATOMIC_ACQ_REL);
    return there;
}

/* An ordinal that a lock has had is no other's, so that orders of two locks aren't taken for those of one. */
uint32_t apart(uintptr_t lock, uint32_t object) {
    if (LIKELY(ordinal_of(object)))
        return object;
    uint32_t there = lock_object(lock), class = class_of(object);
    struct kept_of_class *kept = there == object ? kept_of(class) : NULL;
    if (kept)
        there = numbered_object(lock, object, kept);
    return there && class_of(there) == class ? there : object;
}

/* The same of a lock that isn't nested in another one: it may be held while a thread is waited for, and so may the thread that takes it. Most
   ordinals are kept for locks that are nested. */
uint32_t apart_early(uintptr_t lock, uint32_t object) {
    if (LIKELY(ordinal_of(object)))
        return object;
    struct kept_of_class *kept = kept_of(class_of(object));
    return kept && __builtin_popcount(LOAD(&kept->given)) < RAW_EARLY ? apart(lock, object) : object;
}

/* Whether the object is of one lock alone, at one address, and stays so. */
bool is_single(uint32_t object) {
    uint32_t ordinal = ordinal_of(object);
    return ordinal && ordinal != RAW_SHARED;
}

/* Whether a lock stays this object as long as the table of locks says so, wherever it is taken. */
bool is_lasting(uint32_t object, bool is_nested) {
    uint32_t class = class_of(object);
    if (kind_of(class) == CLASS_STACK || ordinal_of(object) == RAW_SHARED)
        return false;
    if (!is_nested || is_single(object))
        return true;
    const struct kept_of_class *kept = kept_of(class);
    return !ordinal_of(object) && kept && !~LOAD(&kept->given); /* no lock of the class becomes an object of its own any more */
}

/* ---- Locks that are initialised, and those that are no more. */

/* The name that the program gives to the lock, or that it ignores it, stays when it is initialised. 0 if it says neither. */
static uint32_t class_that_stays(uintptr_t lock, struct call call) {
    uint32_t object = lock_object(lock);
    return object && kind_of(class_of(object)) > CLASS_STACK && !is_outdated(lock, object, call) ? class_of(object) : 0;
}

/* What a call has initialised is destroyed by one. */
void forget_own_lock(uintptr_t lock) {
    uint32_t object = lock_object(lock);
    if (object && kind_of(class_of(object)) != CLASS_INIT)
        end_lock(lock);
}

/* The memory that the lock is in is marked, so that it is forgotten with that. */
void know_by_place(uintptr_t lock, struct call call) {
    struct memory memory;
    uint32_t class = class_that_stays(lock, call), place = class ? 0 : place_here(call);
    drop_lock(lock);
    find_memory(lock, &memory);
    if (place)
        class = known_class((struct raw_class){.kind = CLASS_INIT, .place = place});
    look_once(class, lock, &memory, call);
    new_object(lock, class, INITIALISED, time_before());
}

/* What the program says the lock is, which is more than what else is known of it. */
void know_by_text(uintptr_t lock, enum class_kind kind, uint32_t text, struct call call) {
    uint32_t object = object_of_lock(lock, call), before = object ? class_of(object) : 0;
    if (!before || kind_of(before) == CLASS_IGNORED)
        return;
    const struct raw_class *old = part_of(RAW_CLASSES, before);
    struct raw_class new = {.kind = kind, .place = text};
    if (old->kind >= CLASS_STACK) {
        new.word = old->word;
        new.offset = old->offset;
    }
    uint32_t class = known_class(new);
    if (!class || class == before)
        return;
    drop_lock(lock);
    new_object(lock, class, RENAMED, time_before());
}

/* Why the program ignores the lock, as the number of a text; 0 if it doesn't. */
uint32_t reason_to_ignore(uint32_t object) {
    const struct raw_class *class = part_of(RAW_CLASSES, class_of(object));
    return class->kind == CLASS_IGNORED ? class->place : 0;
}

static struct names nested;

/* A lock's object as one of a subclass; the same one if there is no room. */
uint32_t object_of_subclass(uintptr_t lock, uint32_t object, uint32_t subclass) {
    uint32_t itself = apart(lock, object), *slot = added_slot(&nested, mixed((uint64_t)itself << 32 | subclass));
    uint32_t known = slot ? LOAD(slot) : 0;
    if (known || !slot)
        return known ? known : itself;
    const struct raw_object *o = part_of(RAW_OBJECTS, itself);
    uint32_t class = known_class((struct raw_class){.kind = CLASS_NESTED, .place = o->class, .offset = subclass});
    uint32_t made = class ? settled(slot, define_object(class, o->ordinal, o->file, o->file ? o->offset : itself, o->generation)) : 0;
    return made ? made : itself;
}

/* A lock of a file, of which a class is all of it. */
void know_by_file(uintptr_t lock, uint32_t file, uint64_t offset) {
    uint32_t class = known_class((struct raw_class){.kind = CLASS_FILE, .place = file, .offset = RAW_WHOLE_FILE});
    uint32_t object = class ? object_in_file(class, file, offset, 0) : 0;
    if (object)
        add_lock(lock, object);
}

/* ---- Threads that are joined. The threads of C++, and of other libraries, run one function of the library: these are known by where they were
   started. */

uint32_t class_of_threads(uintptr_t run, struct call call) {
    const struct module *module = module_of(run);
    bool is_of_program = module && module->number && !raw_is_of_system(((struct raw_module *)part_of(RAW_MODULES, module->number))->path);
    return known_class(is_of_program ? (struct raw_class){.kind = CLASS_RUN, .word = word_of(run)}
                                     : (struct raw_class){.kind = CLASS_RUN, .place = place_of_call(call, RAW_FRAMES)});
}

uint32_t next_object(uint32_t class) {
    struct kept_of_class *kept = kept_of(class);
    return object_numbered(class, kept ? taken_ordinal(kept) : 0);
}
