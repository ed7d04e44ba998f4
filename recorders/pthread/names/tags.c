/* Structures of C that have one name in several headers, which the language allows. Those whose members differ are types of their own. The
   name is the tag, or that of a typedef of a structure without one. */
#include "names.h"

#define C17 0x2c /* a language that an older header doesn't know */

static bool is_of_c(Dwarf_Die *die) {
    Dwarf_Die unit;
    if (!dwarf_diecu(die, &unit, NULL, NULL))
        return false;
    switch (dwarf_srclang(&unit)) {
    case DW_LANG_C:
    case DW_LANG_C89:
    case DW_LANG_C99:
    case DW_LANG_C11:
    case C17:
        return true;
    default:
        return false;
    }
}

static bool is_same_name(const char *a, const char *b) { return a && b ? strcmp(a, b) == 0 : a == b; }

static bool is_same_member(Dwarf_Die *a, Dwarf_Die *b) {
    return is_same_name(name_of(a), name_of(b)) &&
           number_of(a, DW_AT_data_member_location, 0) == number_of(b, DW_AT_data_member_location, 0);
}

/* By their sizes, and by their members' names and places. */
static bool is_same_layout(Dwarf_Die *a, Dwarf_Die *b) {
    Dwarf_Die x, y;
    int end_of_x = dwarf_child(a, &x), end_of_y = dwarf_child(b, &y);
    if (size_of(a) != size_of(b))
        return false;
    while (end_of_x == 0 && end_of_y == 0) {
        if (!is_same_member(&x, &y))
            return false;
        end_of_x = dwarf_siblingof(&x, &x);
        end_of_y = dwarf_siblingof(&y, &y);
    }
    return end_of_x == end_of_y;
}

/* All of a module that have the name of one. */
struct namesakes {
    const struct indexed_type *list;
    size_t count;
};

static struct namesakes namesakes_of(struct module *m, Dwarf_Die *type) {
    const char *name = class_name(type);
    index_module(m);
    const struct indexed_type *all = name_of(type) ? m->types : m->typedefs;
    size_t count = name_of(type) ? m->type_count : m->typedef_count, first = first_named(all, count, name);
    struct namesakes found = {all + first, 0};
    while (first + found.count < count && strcmp(found.list[found.count].name, name) == 0)
        found.count++;
    return found;
}

/* Whether another one is a type of its own: it has other members, and is in another header. */
static bool is_another(Dwarf_Die *type, const char *header, Dwarf_Die other) {
    if (!is_of_c(&other) || is_same_layout(type, &other) || (name_of(type) && strcmp(qualified(&other), qualified(type)) != 0))
        return false;
    const char *path = header_of(&other);
    return path && strcmp(path, header) != 0;
}

/* Notes each header that declares one, whichever the program used: files of one name are told apart by their folders. */
static void note_headers(struct module *m, struct namesakes all) {
    for (size_t i = 0; i < all.count; i++) {
        Dwarf_Die die = all.list[i].die;
        const char *path = is_of_c(&die) ? header_of(&die) : NULL;
        if (path)
            add_source(m, path);
    }
}

/* Looks at the whole module, so that the answer doesn't depend on what the program did. */
static bool look_for_others(Dwarf_Die *type) {
    struct module *m = module_of_die(type);
    const char *header = m && class_name(type) && is_of_c(type) ? header_of(type) : NULL;
    if (!header || (!name_of(type) && strstr(qualified(type), "::")))
        return false;
    struct namesakes all = namesakes_of(m, type);
    size_t i = 0;
    while (i < all.count && !is_another(type, header, all.list[i].die))
        i++;
    if (i < all.count)
        note_headers(m, all);
    return i < all.count;
}

#define KEPT_ANSWERS 4096

bool is_one_of_several(Dwarf_Die *type) {
    static struct {
        const void *at;
        bool is_one;
    } kept[KEPT_ANSWERS];
    size_t slot = ((uintptr_t)type->addr * UINT64_C(0x9e3779b97f4a7c15)) >> 52;
    if (kept[slot].at != type->addr) {
        bool is_one = look_for_others(type);
        kept[slot].at = type->addr;
        kept[slot].is_one = is_one;
    }
    return kept[slot].is_one;
}
