/* What a program says of its own locks by the macros of lockdep.h. All of it comes through one function, so that a program with a newer
   header runs with an older recorder. */
#define LOCKDEP_OFF
#include "../lockdep.h"
#include "held.h"
#include "own.h"

#define MOST_SUBCLASS 7

uint32_t is_anything_said;

/* From now on each lock is taken the long way: how a step was taken before doesn't tell what is said of it now. */
static void heed_words(void) {
    STORE(&is_anything_said, 1);
    STORE(&is_memo_off, 1);
}

static void refuse(uint64_t *count) { ADD(count, 1); }

/* ---- Texts. */

static struct names texts;

static bool is_name(const char *text) {
    size_t length = 0;
    while (text && length <= RAW_NAME && text[length] > ' ' && text[length] <= '~')
        length++;
    return text && length >= 1 && length <= RAW_NAME && !text[length];
}

static uint64_t text_key(const char *text, enum class_kind kind) {
    uint64_t key = kind;
    for (size_t i = 0; text[i] && i < RAW_TEXT; i++)
        key = mixed(key) + (unsigned char)text[i];
    return mixed(key);
}

static uint32_t define_text(const char *text, struct call call) {
    uint32_t number = take_part(RAW_TEXTS);
    if (!number)
        return 0;
    struct raw_text *made = part_of(RAW_TEXTS, number);
    for (size_t i = 0; text[i] && i < RAW_TEXT; i++)
        made->text[i] = text[i] >= ' ' && text[i] <= '~' ? text[i] : '?';
    made->place = place_of_call(call, RAW_FRAMES);
    STORE(&made->is_ready, 1);
    return number;
}

/* The number of a text, or 0 if there is no room. Of two that are put at once the first counts. */
static uint32_t text_numbered(const char *text, enum class_kind kind, struct call call) {
    uint32_t *slot = added_slot(&texts, text_key(text, kind)), number = slot ? LOAD(slot) : 0;
    if (number || !slot)
        return number;
    uint32_t made = define_text(text, call);
    return made && SWAP(slot, &number, made) ? made : number;
}

void name_lock(uintptr_t lock, const char *text, struct call call) {
    uint32_t number = text_numbered(text, CLASS_NAMED, call);
    if (number)
        know_by_text(lock, CLASS_NAMED, number, call);
}

/* ---- The order of locks of one class. */

struct order {
    uint64_t number;
    uint32_t class; /* the lock's class then: one of another class lies there now if it is another one */
    bool is_address;
};

#define MOST_ORDERS 65536
static struct order *orders; /* made when it is needed first: the library itself stays below two megabytes (own.h) */
static struct names orders_of_locks;
static uint32_t order_count;

static struct order *all_orders(void) {
    struct order *there = LOAD(&orders), *made = there ? there : take_private(MOST_ORDERS * sizeof *made);
    return there || !made || SWAP(&orders, &there, made) ? made : there;
}

/* Where the order of a lock is kept, or NULL if there is no room. */
static struct order *new_order(uintptr_t lock) {
    uint32_t *slot = added_slot(&orders_of_locks, mixed(lock)), number = slot ? LOAD(slot) : 0;
    if (!number && slot && LOAD(&order_count) < MOST_ORDERS && all_orders()) {
        uint32_t made = ADD(&order_count, 1) + 1;
        number = made <= MOST_ORDERS && SWAP(slot, &number, made) ? made : number;
    }
    return number && number <= MOST_ORDERS ? &orders[number - 1] : NULL;
}

/* The class of a lock that is taken as one of a subclass is that of the lock. */
static uint32_t class_itself(uint32_t class) {
    const struct raw_class *c = part_of(RAW_CLASSES, class);
    return c->kind == CLASS_NESTED ? c->place : class;
}

static struct order *order_kept(uintptr_t lock) {
    const uint32_t *slot = LOAD(&order_count) ? name_slot(&orders_of_locks, mixed(lock)) : NULL;
    uint32_t number = slot ? LOAD(slot) : 0;
    return number ? &orders[number - 1] : NULL;
}

static struct order *order_of(uintptr_t lock, uint32_t class) {
    struct order *order = order_kept(lock);
    return order && order->class == class_itself(class) ? order : NULL;
}

/* ---- What contradicts the program's own words. */

static struct names breaches;

#define TELLING_FRAMES 3 /* so many callers tell one breach from another */

/* Once for a lock's class and where it was taken or wasn't held. */
static struct raw_breach *breach_of(const struct raw_breach *new, struct call call) {
    uint64_t key = mixed(mixed(new->kind) + class_of(new->object)) + place_of_call(call, TELLING_FRAMES);
    uint32_t *slot = added_slot(&breaches, mixed(key)), number = slot ? LOAD(slot) : 0;
    uint32_t made = slot && !number ? take_part(RAW_BREACHES) : 0;
    if (!made)
        return number ? part_of(RAW_BREACHES, number) : NULL;
    struct raw_breach *breach = part_of(RAW_BREACHES, made);
    *breach = *new;
    breach->kind = BREACH_NONE;
    STORE(&breach->kind, new->kind);
    return SWAP(slot, &number, made) ? breach : part_of(RAW_BREACHES, number);
}

static void note_breach(struct raw_breach new, struct call call) {
    new.process = own_process;
    new.place = place_of_call(call, RAW_FRAMES);
    struct raw_breach *breach = breach_of(&new, call);
    if (breach)
        ADD(&breach->count, 1);
}

/* ---- How a lock is recorded that is taken. */

/* What the thread says of its next acquisition of a lock (own.h); 0: of none. The lock's object tells whether that lock has ended meanwhile, as
   by another thread; it is 0 if the lock wasn't known yet. */
void say_subclass(uintptr_t lock, uint32_t subclass) {
    uint32_t object = lock_object(lock);
    self.midst.nested_lock = lock;
    self.midst.next_subclass = subclass;
    self.midst.nested_object = object ? apart(lock, object) : 0;
}

/* This thread has given the lock another object, by its name or by initialising it again. */
void keep_nesting(uintptr_t lock) {
    if (UNLIKELY(self.midst.nested_lock == lock))
        self.midst.nested_object = lock_object(lock);
}

/* That acquisition of the lock is here. Returns whether it is still the same lock. */
bool end_nesting(uintptr_t lock) {
    uint32_t object = self.midst.nested_object;
    if (self.midst.nested_lock != lock)
        return false;
    self.midst.nested_lock = 0;
    return !object || !is_single(object) || lock_object(lock) == object;
}

void forget_words(uintptr_t lock) {
    struct order *order = lock_object(lock) ? order_kept(lock) : NULL;
    end_nesting(lock);
    if (order)
        order->class = 0;
}

static uint32_t with_subclass(uintptr_t lock, uint32_t object) {
    return end_nesting(lock) && self.midst.next_subclass ? object_of_subclass(lock, object, self.midst.next_subclass) : object;
}

uint32_t subclass_held(uintptr_t lock) {
    uint32_t object = LOAD(&is_anything_said) ? held_object(lock) : 0;
    const struct raw_class *class = object ? part_of(RAW_CLASSES, class_of(object)) : NULL;
    return class && class->kind == CLASS_NESTED ? (uint32_t)class->offset : 0;
}

/* Two locks of a class are compared only if both have a number, and of one kind. */
static bool are_comparable(const struct order *a, const struct order *b) { return a && b && a->is_address == b->is_address; }

/* Locks of one name are of one class, which the recorder has several of if they lie in frames. */
static bool are_of_one_class(uint32_t a, uint32_t b) {
    const struct raw_class *one = part_of(RAW_CLASSES, a), *other = part_of(RAW_CLASSES, b);
    if (a == b || one->kind != other->kind)
        return a == b;
    if (one->kind == CLASS_NESTED)
        return one->offset == other->offset && are_of_one_class(one->place, other->place);
    return one->kind == CLASS_NAMED && one->place == other->place;
}

/* Whether a lock comes after all of its class that the thread holds, if there are any. If it comes before one, that is noted. */
static bool is_in_order(uintptr_t lock, uint32_t object, struct call call) {
    const struct order *own = order_of(lock, class_of(object));
    struct held_lock held;
    bool is_any = false;
    for (uint32_t n = 0; own && nth_held(n, &held); n++) {
        if (!are_of_one_class(class_of(held.object), class_of(object)))
            continue;
        const struct order *other = order_of(held.lock, class_of(held.object));
        if (!are_comparable(own, other))
            return false;
        if (own->number <= other->number) {
            note_breach((struct raw_breach){.kind = BREACH_OF_ORDER, .object = apart(lock, object), .number = own->number,
                                            .held_object = apart(held.lock, held.object), .held_place = held.place,
                                            .held_number = other->number, .is_address = own->is_address}, call);
            return false;
        }
        is_any = true;
    }
    return is_any;
}

uint32_t object_as_said(uintptr_t lock, uint32_t object, uint8_t *mode, enum kind kind, struct call call) {
    if (reason_to_ignore(object))
        return 0;
    if (kind == KIND_COUNTED)
        return object;
    uint32_t said = with_subclass(lock, object);
    if (raw_plain(*mode) < MODE_TRY_WRITE && is_in_order(lock, said, call))
        *mode |= RAW_IN_ORDER;
    return said;
}

bool is_ignored(uintptr_t lock) {
    uint32_t object = LOAD(&is_anything_said) ? lock_object(lock) : 0;
    return object && reason_to_ignore(object);
}

bool count_ignored(uintptr_t lock) {
    if (!is_ignored(lock))
        return false;
    ADD(&((struct raw_text *)part_of(RAW_TEXTS, reason_to_ignore(lock_object(lock))))->count, 1);
    return true;
}

/* ---- The annotations. */

/* The order that was given to the lock before stays. */
static void give_text(uintptr_t lock, enum class_kind kind, const char *text, struct call call) {
    uint32_t number = text_numbered(text, kind, call), object = object_of_lock(lock, call);
    struct order *order = object ? order_of(lock, class_of(object)) : NULL;
    if (number)
        know_by_text(lock, kind, number, call);
    else
        refuse(&arena->refused_annotations);
    object = lock_object(lock);
    if (order && object)
        order->class = class_of(object);
    keep_nesting(lock);
}

static void give_name(uintptr_t lock, const char *name, struct call call) {
    if (is_name(name))
        give_text(lock, CLASS_NAMED, name, call);
    else
        refuse(&arena->refused_names);
}

static void ignore(uintptr_t lock, const char *reason, struct call call) {
    give_text(lock, CLASS_IGNORED, reason && *reason ? reason : "no reason is given", call);
    heed_words();
}

static void nest(uintptr_t lock, unsigned long subclass) {
    if (subclass > MOST_SUBCLASS) {
        refuse(&arena->refused_annotations);
        return;
    }
    say_subclass(lock, (uint32_t)subclass);
    heed_words();
}

static void give_order(uintptr_t lock, unsigned long number, const char *text, struct call call) {
    uint32_t object = object_of_lock(lock, call);
    struct order *order = object ? new_order(lock) : NULL;
    if (!order) {
        refuse(&arena->refused_annotations);
        return;
    }
    *order = (struct order){number, class_of(object), text && *text};
    heed_words();
}

static void assert_held(uintptr_t lock, struct call call) {
    ADD(&arena->asserted, 1);
    if (may_hold(lock) || is_ignored(lock))
        return;
    uint32_t object = object_of_lock(lock, call);
    if (object)
        note_breach((struct raw_breach){.kind = BREACH_OF_HOLD, .object = object}, call);
}

static void end_locks(uintptr_t from, unsigned long bytes, struct call call) {
    if (!bytes || from + bytes < from) {
        refuse(&arena->refused_annotations);
        return;
    }
    end_own_holds(from, from + bytes, call);
    if (self.midst.nested_lock - from < bytes)
        end_nesting(self.midst.nested_lock);
    each_lock_between(from, from + bytes, note_given_out);
    drop_locks_between(from, from + bytes);
}

static void take_annotation(unsigned what, uintptr_t lock, unsigned long number, const char *text, struct call call) {
    switch (what) {
    case LOCKDEP_CLASS_: give_name(lock, text, call); break;
    case LOCKDEP_NEST_: nest(lock, number); break;
    case LOCKDEP_ORDER_: give_order(lock, number, text, call); break;
    case LOCKDEP_IGNORE_: ignore(lock, text, call); break;
    case LOCKDEP_HELD_: assert_held(lock, call); break;
    case LOCKDEP_DESTROYED_: end_locks(lock, number, call); break;
    default: refuse(&arena->unknown_annotations);
    }
}

#define LOCK_ALIGNMENT 4 /* no lock of the C library lies otherwise */

static bool is_place_of_lock(uintptr_t lock) { return lock && lock % LOCK_ALIGNMENT == 0; }

EXPORT void lockdep_annotate_v1(unsigned what, const volatile void *lock, unsigned long number, const char *text) {
    struct call call = HERE;
    begin_once();
    if (!IS_WANTED((uintptr_t)lock, call) || !enter_recorder(call))
        return;
    if (is_place_of_lock((uintptr_t)lock) || (lock && what == LOCKDEP_DESTROYED_))
        take_annotation(what, (uintptr_t)lock, number, text, call);
    else
        refuse(&arena->refused_annotations);
    end_inside();
}
