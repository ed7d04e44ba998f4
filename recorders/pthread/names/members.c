/* Locks that members of variables point to: those of closures, smart pointers, and of objects on the stack. */
#include "names.h"

#define DEEPEST 7
#define MOST_ELEMENTS 16
#define BARE_LOCK 40 /* bytes */

struct search {
    const struct value *value; /* the object whose members are looked at */
    bool is_old;               /* a pointer on the way there may have been written before the memory was allocated */
    struct found *found;
    int hops; /* how many more pointers may be followed */
    bool *is_unclear; /* members don't agree: one of them points to what was there before */
};

struct holder {
    const char *text; /* the member that is gone through; NULL if it is none */
    bool is_owner;    /* what it points to is its own: it is of a class of the C++ library that frees it */
};

static void search_at(Dwarf_Die type, uint64_t offset, const struct search *s, struct holder holder, int depth);

static void note(const struct search *s, enum rule rule, const char *text, bool is_old) {
    bool is_doubtful = is_old && rule == RULE_POINTER;
    *s->is_unclear |= s->found->text && strcmp(s->found->text, text) != 0;
    if (!s->found->text)
        *s->found = (struct found){rule, text, NULL, is_doubtful};
    s->found->is_doubtful &= is_doubtful;
}

/* The memory of one lock, or of an array of them, is held by the member. Of bare locks the member has to be the owner: a guard, for
   example, points to locks of others. */
static bool is_held(Dwarf_Die to, uint64_t word, struct holder holder, const struct search *s, bool is_old) {
    struct path path = {.count = 0};
    Dwarf_Die peeled = to;
    bool is_lock;
    if (!holder.text || !look->piece || word != look->piece || look->lock < word || look->lock - word >= look->piece_bytes ||
        !peel(&peeled, &is_lock) || !define(&peeled))
        return false;
    uint64_t size = is_lock ? BARE_LOCK : size_of(&peeled);
    if (!size || !find_lock(to, (look->lock - word) % size, &path))
        return false;
    const char *text = text_of(&path);
    if (text)
        note(s, RULE_POINTER, text, is_old);
    else if (holder.is_owner)
        note(s, RULE_HOLDER, written("%s%s", holder.text, look->piece_bytes > size ? "[]" : ""), is_old);
    return text || holder.is_owner;
}

static void search_pointer(Dwarf_Die type, uint64_t offset, const struct search *s, struct holder holder, int depth) {
    struct value object = {.kind = IN_MEMORY};
    struct search inner = *s;
    struct found one = {RULE_NONE, NULL, NULL};
    Dwarf_Die to;
    uint64_t probe;
    bool unused;
    if (!word_of_value(s->value, offset, &object.at) || !object.at || !type_of(&type, &to))
        return;
    inner.value = &object;
    inner.hops--;
    inner.is_old |= !holder.is_owner && may_be_old(s->value, offset); /* an owner has no pointer any more to what it freed */
    if (has_lock(to, object.at, &one, &unused))
        note(s, RULE_POINTER, one.text, inner.is_old);
    else if (!is_held(to, object.at, holder, s, inner.is_old) && s->hops > 0 && read_word(object.at, &probe))
        search_at(to, 0, &inner, (struct holder){NULL, false}, depth + 1);
}

static void search_array(Dwarf_Die type, uint64_t offset, const struct search *s, struct holder holder, int depth) {
    Dwarf_Die element, peeled;
    bool is_lock;
    if (!type_of(&type, &element))
        return;
    peeled = element;
    if (!peel(&peeled, &is_lock) || is_lock)
        return;
    uint64_t size = is_pointer(dwarf_tag(&peeled)) ? sizeof(uint64_t) : size_of(&peeled), all = size_of(&type);
    for (uint64_t at = 0; size && at < all && at < MOST_ELEMENTS * size; at += size)
        search_at(element, offset + at, s, holder, depth + 1);
}

static bool is_owner(const char *class) {
    static const char *const owners[] = {"std::unique_ptr", "std::shared_ptr", "std::vector"};
    for (size_t i = 0; i < sizeof owners / sizeof *owners; i++) {
        size_t length = strlen(owners[i]);
        if (strncmp(class, owners[i], length) == 0 && (class[length] == '<' || !class[length]))
            return true;
    }
    return false;
}

/* The member of the innermost class with a name. */
static struct holder holder_of(Dwarf_Die *type, Dwarf_Die *member, struct holder outer) {
    const char *name = qualified(type);
    if (is_owner(name))
        return (struct holder){outer.text, true};
    if (!class_name(type) || is_of_library(name) || is_lock_class(*type) || strncmp(class_name(type), "<lambda", 7) == 0 ||
        dwarf_tag(member) != DW_TAG_member || !name_of(member))
        return outer;
    return (struct holder){written("%s%s::%s", file_mark(type, name), without_anonymous(distinct_name(type)), name_of(member)), false};
}

static void search_class(Dwarf_Die type, uint64_t offset, const struct search *s, struct holder holder, int depth) {
    Dwarf_Die part, part_type;
    Dwarf_Attribute a;
    if (dwarf_child(&type, &part) != 0)
        return;
    do {
        int tag = dwarf_tag(&part);
        Dwarf_Word at = 0;
        if ((tag != DW_TAG_member && tag != DW_TAG_inheritance) || flag_of(&part, DW_AT_external) ||
            (dwarf_attr(&part, DW_AT_data_member_location, &a) && dwarf_formudata(&a, &at) != 0) || !type_of(&part, &part_type))
            continue;
        search_at(part_type, offset + at, s, holder_of(&type, &part, holder), depth + 1);
    } while (dwarf_siblingof(&part, &part) == 0);
}

/* All members are looked at, since one may point to what was there before. */
static void search_at(Dwarf_Die type, uint64_t offset, const struct search *s, struct holder holder, int depth) {
    bool is_lock;
    if (depth > DEEPEST || !peel(&type, &is_lock) || is_lock)
        return;
    int tag = dwarf_tag(&type);
    if (is_pointer(tag))
        search_pointer(type, offset, s, holder, depth);
    else if (tag == DW_TAG_array_type)
        search_array(type, offset, s, holder, depth);
    else if (is_class(tag) && define(&type))
        search_class(type, offset, s, holder, depth);
}

bool search_members(Dwarf_Die type, const struct value *value, struct found *found, int hops, bool *is_unclear) {
    struct search s = {value, false, found, hops, is_unclear};
    search_at(type, 0, &s, (struct holder){NULL, false}, 0);
    return found->text != NULL;
}
