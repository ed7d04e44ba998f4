/* Types: where in one a lock is. */
#include "names.h"

static bool is_lock_name(const char *name) {
    static const char *const names[] = {"pthread_mutex_t", "pthread_rwlock_t", "pthread_spinlock_t", "mtx_t", "pthread_once_t",
                                        "once_flag",       "sem_t",            "__gthread_mutex_t",  "__gthread_once_t"};
    for (size_t i = 0; name && i < sizeof names / sizeof *names; i++)
        if (strcmp(name, names[i]) == 0)
            return true;
    return false;
}

#define LONGEST_CHAIN 20 /* of typedefs */

bool peel(Dwarf_Die *type, bool *is_lock) {
    *is_lock = false;
    for (int i = 0; i < LONGEST_CHAIN; i++) {
        int tag = dwarf_tag(type);
        Dwarf_Die next;
        if (tag == DW_TAG_typedef && is_lock_name(name_of(type))) {
            *is_lock = true;
            return true;
        }
        if (tag != DW_TAG_typedef && tag != DW_TAG_const_type && tag != DW_TAG_volatile_type && tag != DW_TAG_atomic_type)
            return true;
        if (!type_of(type, &next))
            return false;
        if (tag == DW_TAG_typedef && is_class(dwarf_tag(&next)) && !name_of(&next))
            note_typedef(&next, type);
        *type = next;
    }
    return false;
}

uint64_t size_of(Dwarf_Die *type) {
    Dwarf_Word size;
    return dwarf_aggregate_size(type, &size) == 0 ? size : 0;
}

/* A type may be only declared in a unit: then it has a signature, or is found by its name. */
bool define(Dwarf_Die *type) {
    Dwarf_Attribute signature;
    Dwarf_Die whole;
    if (!is_class(dwarf_tag(type)) || !dwarf_hasattr(type, DW_AT_declaration))
        return true;
    if (dwarf_attr(type, DW_AT_signature, &signature) && dwarf_formref_die(&signature, &whole)) {
        *type = whole;
        return true;
    }
    return index_die(type);
}

/* ---- The way to a lock. */

static bool find_in(Dwarf_Die type, uint64_t offset, bool is_whole, struct path *path);

static bool find_in_array(Dwarf_Die type, uint64_t offset, struct path *path) {
    Dwarf_Die element, peeled;
    bool is_lock;
    if (!type_of(&type, &element))
        return false;
    peeled = element;
    if (!peel(&peeled, &is_lock) || !define(&peeled))
        return false;
    uint64_t size = is_lock ? size_of(&element) : size_of(&peeled), all = size_of(&type);
    if (!size || (all && offset >= all))
        return false;
    if (path->count)
        path->steps[path->count - 1].is_array = true;
    return find_in(element, offset % size, true, path);
}

/* Bytes in which the C++ library has an object of its argument. */
static bool is_buffer(const char *name) {
    return name && (strncmp(name, "__aligned_membuf", 16) == 0 || strncmp(name, "__aligned_buffer", 16) == 0);
}

static bool is_part(Dwarf_Die *die) {
    int tag = dwarf_tag(die);
    return (tag == DW_TAG_member || tag == DW_TAG_inheritance) && !flag_of(die, DW_AT_external) && !flag_of(die, DW_AT_declaration);
}

/* Where a member is. The place of a virtual base is an expression, which would need the object. */
static bool place_of_part(Dwarf_Die *part, uint64_t *at) {
    Dwarf_Attribute a;
    Dwarf_Word word = 0;
    if (dwarf_attr(part, DW_AT_data_member_location, &a) && dwarf_formudata(&a, &word) != 0)
        return false;
    *at = word;
    return true;
}

static bool find_in_part(Dwarf_Die type, Dwarf_Die *part, uint64_t offset, struct path *path) {
    Dwarf_Die part_type;
    uint64_t at;
    if (!is_part(part) || !place_of_part(part, &at) || at > offset || !type_of(part, &part_type))
        return false;
    bool is_base = dwarf_tag(part) == DW_TAG_inheritance;
    path->steps[path->count++] = (struct step){type, is_base ? "" : name_of(part), false};
    return find_in(part_type, offset - at, !is_base, path);
}

static bool is_same_text(const char *a, const char *b) { return a && b ? strcmp(a, b) == 0 : a == b; }

bool is_union_unclear;

/* Of a union nothing says which member is there, so all that have a lock there have to give one text. */
static bool find_in_class(Dwarf_Die type, uint64_t offset, struct path *path) {
    bool is_union = dwarf_tag(&type) == DW_TAG_union_type, is_found = false;
    struct path found = *path;
    Dwarf_Die part;
    if (dwarf_child(&type, &part) != 0)
        return false;
    do {
        struct path one = *path;
        if (!find_in_part(type, &part, offset, &one))
            continue;
        if (is_found && !is_same_text(text_of(&found), text_of(&one))) {
            is_union_unclear = true;
            return false;
        }
        found = one;
        is_found = true;
    } while ((is_union || !is_found) && dwarf_siblingof(&part, &part) == 0);
    *path = found;
    return is_found;
}

struct virtual_base {
    Dwarf_Die type;
    bool is_there, is_alone; /* not beside another one */
};

#define DEEPEST_BASE 3

/* Looks for the virtual bases of a class and of its bases. */
static void note_virtual_bases(Dwarf_Die type, struct virtual_base *found, int depth) {
    Dwarf_Die part, base;
    bool is_lock;
    if (depth > DEEPEST_BASE)
        found->is_alone = false;
    if (depth > DEEPEST_BASE || dwarf_child(&type, &part) != 0)
        return;
    do {
        if (dwarf_tag(&part) != DW_TAG_inheritance || !type_of(&part, &base) || !peel(&base, &is_lock) || is_lock || !define(&base))
            continue;
        if (number_of(&part, DW_AT_virtuality, 0)) {
            found->is_alone = found->is_alone && (!found->is_there || found->type.addr == base.addr);
            found->type = base;
            found->is_there = true;
        }
        note_virtual_bases(base, found, depth + 1);
    } while (dwarf_siblingof(&part, &part) == 0);
}

/* Virtual bases are the last parts of an object that isn't a base itself. If there is only one, it ends where the object ends. */
static bool find_in_virtual_base(Dwarf_Die type, uint64_t offset, struct path *path) {
    struct virtual_base base = {.is_alone = true};
    note_virtual_bases(type, &base, 0);
    if (!base.is_there || !base.is_alone)
        return false;
    uint64_t size = size_of(&base.type), at = size_of(&type) - size;
    if (!size || offset < at || path->count == DEEPEST_PATH)
        return false;
    path->steps[path->count++] = (struct step){type, "", false};
    return find_in(base.type, offset - at, false, path);
}

/* A whole object is one that isn't a base of a larger one. */
static bool find_in(Dwarf_Die type, uint64_t offset, bool is_whole, struct path *path) {
    Dwarf_Die argument;
    bool is_lock;
    if (!peel(&type, &is_lock))
        return false;
    if (is_lock)
        return offset == 0;
    if (dwarf_tag(&type) == DW_TAG_array_type)
        return find_in_array(type, offset, path);
    if (!is_class(dwarf_tag(&type)) || !define(&type) || offset >= size_of(&type) || path->count == DEEPEST_PATH)
        return false;
    if (is_buffer(name_of(&type)))
        return template_argument(&type, &argument) && find_in(argument, offset, true, path);
    return find_in_class(type, offset, path) || (is_whole && find_in_virtual_base(type, offset, path));
}

bool find_lock(Dwarf_Die type, uint64_t offset, struct path *path) { return find_in(type, offset, false, path); }

bool find_lock_in_whole(Dwarf_Die type, uint64_t offset, struct path *path) { return find_in(type, offset, true, path); }

/* ---- Classes that are locks themselves. */

#define DEEPEST_CLASS 6

static int count_locks(Dwarf_Die type, int depth);

static int count_in_class(Dwarf_Die type, int depth) {
    Dwarf_Die part, part_type;
    int locks = 0;
    if (dwarf_child(&type, &part) != 0)
        return 0;
    do
        if (is_part(&part) && type_of(&part, &part_type))
            locks += count_locks(part_type, depth + 1);
    while (dwarf_siblingof(&part, &part) == 0);
    return locks;
}

/* Two of an array, which isn't one. */
static int count_locks(Dwarf_Die type, int depth) {
    Dwarf_Die element;
    bool is_lock;
    if (depth > DEEPEST_CLASS || !peel(&type, &is_lock))
        return 0;
    if (is_lock)
        return 1;
    if (dwarf_tag(&type) == DW_TAG_array_type)
        return type_of(&type, &element) ? 2 * count_locks(element, depth + 1) : 0;
    return is_class(dwarf_tag(&type)) && define(&type) ? count_in_class(type, depth) : 0;
}

static bool takes_a_lock(const char *method) {
    static const char *const names[] = {"lock",      "Lock",      "acquire", "Acquire", "enter",    "Enter",         "lock_exclusive",
                                        "WriteLock", "writeLock", "wrlock",  "Wait",    "ReadLock", "LockExclusive", "enterCriticalSection"};
    for (size_t i = 0; method && i < sizeof names / sizeof *names; i++)
        if (strcmp(method, names[i]) == 0)
            return true;
    return false;
}

/* Its own or an inherited one. */
static bool has_method(Dwarf_Die *type, int depth) {
    Dwarf_Die child, base;
    bool is_lock;
    if (depth > DEEPEST_BASE || !define(type) || dwarf_child(type, &child) != 0)
        return false;
    do {
        if (dwarf_tag(&child) == DW_TAG_subprogram && takes_a_lock(name_of(&child)))
            return true;
        if (dwarf_tag(&child) == DW_TAG_inheritance && type_of(&child, &base) && peel(&base, &is_lock) && !is_lock &&
            has_method(&base, depth + 1))
            return true;
    } while (dwarf_siblingof(&child, &child) == 0);
    return false;
}

#define LARGEST_LOCK 136
#define LARGEST_BY_NAME 64

static bool looks_like_lock(Dwarf_Die type) {
    const char *name = class_name(&type);
    uint64_t size = size_of(&type);
    if (!name || size > LARGEST_LOCK || count_locks(type, 0) != 1)
        return false;
    return has_method(&type, 0) || (size <= LARGEST_BY_NAME && is_called_lock(name));
}

#define KEPT_ANSWERS 4096

bool is_lock_class(Dwarf_Die type) {
    static struct {
        const void *at;
        bool is_one;
    } kept[KEPT_ANSWERS];
    size_t slot = ((uintptr_t)type.addr * UINT64_C(0x9e3779b97f4a7c15)) >> 52;
    if (kept[slot].at != type.addr) {
        bool is_one = looks_like_lock(type);
        kept[slot].at = type.addr;
        kept[slot].is_one = is_one;
    }
    return kept[slot].is_one;
}
