/* Debugging entries: their attributes, and their names with scopes. */
#include "names.h"

const char *name_of(Dwarf_Die *die) {
    Dwarf_Attribute a;
    return dwarf_attr_integrate(die, DW_AT_name, &a) ? dwarf_formstring(&a) : NULL;
}

bool type_of(Dwarf_Die *die, Dwarf_Die *type) {
    Dwarf_Attribute a;
    return dwarf_attr_integrate(die, DW_AT_type, &a) && dwarf_formref_die(&a, type);
}

bool flag_of(Dwarf_Die *die, unsigned attribute) {
    Dwarf_Attribute a;
    bool is_set = false;
    return dwarf_attr_integrate(die, attribute, &a) && dwarf_formflag(&a, &is_set) == 0 && is_set;
}

uint64_t number_of(Dwarf_Die *die, unsigned attribute, uint64_t none) {
    Dwarf_Attribute a;
    Dwarf_Word number;
    return dwarf_attr_integrate(die, attribute, &a) && dwarf_formudata(&a, &number) == 0 ? number : none;
}

bool is_class(int tag) { return tag == DW_TAG_structure_type || tag == DW_TAG_class_type || tag == DW_TAG_union_type; }

bool is_pointer(int tag) {
    return tag == DW_TAG_pointer_type || tag == DW_TAG_reference_type || tag == DW_TAG_rvalue_reference_type;
}

static bool referred(Dwarf_Die *die, unsigned attribute, Dwarf_Die *to) {
    Dwarf_Attribute a;
    return dwarf_attr(die, attribute, &a) && dwarf_formref_die(&a, to);
}

#define LONGEST_CHAIN 4

/* The declaration, which stands in the class or namespace. */
Dwarf_Die declaration_of(Dwarf_Die die) {
    Dwarf_Die next;
    for (int i = 0; i < LONGEST_CHAIN; i++) {
        if (!referred(&die, DW_AT_specification, &next) && !referred(&die, DW_AT_abstract_origin, &next))
            break;
        die = next;
    }
    return die;
}

bool template_argument(Dwarf_Die *die, Dwarf_Die *type) {
    Dwarf_Die child;
    if (dwarf_child(die, &child) != 0)
        return false;
    do
        if (dwarf_tag(&child) == DW_TAG_template_type_parameter && type_of(&child, type))
            return true;
    while (dwarf_siblingof(&child, &child) == 0);
    return false;
}

/* ---- Parents. An entry doesn't say what it is in, so a unit is gone through once. */

struct parent {
    Dwarf_Die die, parent;
};
struct unit {
    Dwarf_CU *cu;
    struct parent *parents; /* by address, as they stand in the file */
    size_t count;
};
static struct unit *units;
static size_t unit_count;

#define DEEPEST_SCOPE 30

static bool is_scope(int tag) {
    return is_class(tag) || tag == DW_TAG_namespace || tag == DW_TAG_subprogram || tag == DW_TAG_lexical_block;
}

static void note_parents(struct unit *unit, Dwarf_Die *die, int depth) {
    Dwarf_Die child;
    if (depth > DEEPEST_SCOPE || dwarf_child(die, &child) != 0)
        return;
    do {
        int tag = dwarf_tag(&child);
        struct parent p = {child, *die};
        if (is_scope(tag) || tag == DW_TAG_variable || tag == DW_TAG_member)
            PUSH(unit->parents, unit->count, p);
        if (is_scope(tag))
            note_parents(unit, &child, depth + 1);
    } while (dwarf_siblingof(&child, &child) == 0);
}

static struct unit *unit_of(Dwarf_Die *die) {
    static size_t last;
    Dwarf_Die top;
    if (last < unit_count && units[last].cu == die->cu)
        return &units[last];
    for (last = 0; last < unit_count; last++)
        if (units[last].cu == die->cu)
            return &units[last];
    if (!dwarf_diecu(die, &top, NULL, NULL))
        return NULL;
    struct unit new = {die->cu, NULL, 0};
    note_parents(&new, &top, 0);
    PUSH(units, unit_count, new);
    return &units[last];
}

bool parent_of(Dwarf_Die *die, Dwarf_Die *parent) {
    const struct unit *unit = unit_of(die);
    size_t low = 0, high = unit ? unit->count : 0;
    while (low < high) {
        size_t middle = (low + high) / 2;
        if (unit->parents[middle].die.addr < die->addr)
            low = middle + 1;
        else
            high = middle;
    }
    if (!unit || low == unit->count || unit->parents[low].die.addr != die->addr)
        return false;
    *parent = unit->parents[low].parent;
    return true;
}

/* ---- Classes without a name of their own, as C has them: `typedef struct {..} queue;` */

#define TYPEDEFS 65536

static struct {
    const void *at;
    const char *name;
} typedefs[TYPEDEFS];
static size_t typedef_count;

static size_t typedef_slot(const void *at) {
    size_t slot = ((uintptr_t)at * UINT64_C(0x9e3779b97f4a7c15)) >> 48;
    while (typedefs[slot].at && typedefs[slot].at != at)
        slot = (slot + 1) % TYPEDEFS;
    return slot;
}

void note_typedef(const Dwarf_Die *type, Dwarf_Die *name) {
    size_t slot = typedef_slot(type->addr);
    if (typedefs[slot].at || typedef_count > TYPEDEFS / 2)
        return;
    typedefs[slot].at = type->addr;
    typedefs[slot].name = name_of(name);
    typedef_count++;
}

const char *class_name(Dwarf_Die *type) {
    const char *name = name_of(type);
    return name ? name : typedefs[typedef_slot(type->addr)].name;
}

/* ---- Names with scopes. Inline namespaces and blocks are left out. A namespace without a name is marked as an inline one, too. */

static bool is_left_out(Dwarf_Die *die) {
    int tag = dwarf_tag(die);
    return tag == DW_TAG_lexical_block || (tag == DW_TAG_namespace && name_of(die) && flag_of(die, DW_AT_export_symbols));
}

const char *own_name(Dwarf_Die *die) {
    const char *name = class_name(die);
    if (!name)
        return dwarf_tag(die) == DW_TAG_namespace ? "{anonymous}" : "{unnamed}";
    return strncmp(name, "<lambda", 7) == 0 || strncmp(name, "._anon", 6) == 0 ? "{lambda}" : name;
}

bool named_scope(Dwarf_Die declared, Dwarf_Die *scope) {
    bool has_scope = false;
    while ((has_scope = parent_of(&declared, scope)) && is_left_out(scope))
        declared = *scope;
    return has_scope && is_scope(dwarf_tag(scope));
}

static const char *put_together(Dwarf_Die *die) {
    Dwarf_Die declared = declaration_of(*die), scope;
    if (dwarf_tag(&declared) == DW_TAG_subprogram && !name_of(&declared))
        return name_of_nameless(&declared);
    if (!named_scope(declared, &scope))
        return own_name(&declared);
    return written("%s::%s", qualified(&scope), own_name(&declared));
}

#define KEPT_NAMES 65536

const char *qualified(Dwarf_Die *die) {
    static struct {
        const void *at;
        const char *name;
    } kept[KEPT_NAMES];
    size_t slot = ((uintptr_t)die->addr * UINT64_C(0x9e3779b97f4a7c15)) >> 48;
    if (kept[slot].at != die->addr) {
        const char *name = put_together(die);
        kept[slot].at = die->addr;
        kept[slot].name = name;
    }
    return kept[slot].name;
}

bool is_of_library(const char *qualified_name) {
    static const char *const prefixes[] = {"std::", "__gnu_cxx::", "__gnu_debug"};
    for (size_t i = 0; i < sizeof prefixes / sizeof *prefixes; i++)
        if (strncmp(qualified_name, prefixes[i], strlen(prefixes[i])) == 0)
            return true;
    return false;
}
