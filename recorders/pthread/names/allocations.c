/* Locks by where their memory was allocated: by the template that did it, the variable that keeps it, or the size alone. */
#include "names.h"

#include <semaphore.h>

static uint64_t element; /* of an array that was asked for as one; else 0 */

static bool fits_piece(uint64_t size) { return size && size <= look->piece_bytes + 15 && (!element || element == size); }

bool lock_in_piece(Dwarf_Die type, struct path *path) {
    uint64_t offset = look->lock - look->piece;
    bool is_lock;
    if (!peel(&type, &is_lock) || is_lock || !define(&type) || !is_class(dwarf_tag(&type)))
        return false;
    uint64_t size = size_of(&type);
    bool is_whole = size && look->piece_bytes % size == 0;
    return fits_piece(size) && (offset < size || is_whole) && (is_whole ? find_lock_in_whole : find_lock)(type, offset % size, path);
}

static bool fits(Dwarf_Die type, struct found *found, enum rule rule) {
    struct path path = {.count = 0};
    if (!lock_in_piece(type, &path))
        return false;
    found->text = text_of(&path);
    if (!found->text && rule == RULE_TEMPLATE)
        found->text = weak_text_of(&path);
    found->rule = found->text ? rule : RULE_NONE;
    return found->text != NULL;
}

/* ---- The template that allocated it. */

static bool begins_with_one(const char *name, const char *const *prefixes) {
    for (; name && *prefixes; prefixes++)
        if (strncmp(name, *prefixes, strlen(*prefixes)) == 0)
            return true;
    return false;
}

static bool by_template(Dwarf_Die *scope, struct found *found) {
    static const char *const of_class[] = {"allocate", "_M_allocate", "_M_get_node", "_M_create_node", "__allocate_guarded", NULL};
    static const char *const of_function[] = {"make_unique", "make_shared", "allocate_shared", "construct", NULL};
    Dwarf_Die declared = declaration_of(*scope), class, type, origin = *scope;
    Dwarf_Attribute a;
    const char *name = name_of(&declared);
    bool is_allocator = begins_with_one(name, of_class) && strcmp(name, "allocate_shared") != 0;
    if (is_allocator && parent_of(&declared, &class) && is_class(dwarf_tag(&class)) && template_argument(&class, &type) &&
        fits(type, found, RULE_TEMPLATE))
        return true;
    if (dwarf_attr(scope, DW_AT_abstract_origin, &a))
        dwarf_formref_die(&a, &origin);
    return begins_with_one(name, of_function) && (template_argument(&origin, &type) || template_argument(&declared, &type)) &&
           fits(type, found, RULE_TEMPLATE);
}

/* What the allocators of the C++ library allocate, in words: `<T>::allocate`. NULL of another function. */
static const char *allocated_by(const char *function) {
    static const char *const prefixes[] = {"std::allocator<", "std::__new_allocator<", "__gnu_cxx::new_allocator<", NULL};
    return begins_with_one(function, prefixes) ? strchr(function, '<') : NULL;
}

/* The allocators that are inlined into one another have to be of one type: a compiler merges such functions of several types before it
   inlines them. */
static bool is_of_one_type(Dwarf_Die *scopes, int count) {
    const char *first = NULL;
    for (int i = 0; i < count; i++) {
        const char *type = dwarf_tag(&scopes[i]) == DW_TAG_lexical_block ? NULL : allocated_by(qualified(&scopes[i]));
        if (first && type && strcmp(first, type) != 0)
            return false;
        first = first ? first : type;
    }
    return true;
}

static void by_templates(Dwarf_Die *scopes, int count, struct found *found) {
    for (int i = 0; i < count && !found->rule && is_of_one_type(scopes, count); i++)
        if (dwarf_tag(&scopes[i]) != DW_TAG_lexical_block)
            by_template(&scopes[i], found);
}

/* ---- The variable that it is the first value of: the only one that is declared on the line of the call, and a pointer to such an object. */

struct declared {
    int line, count; /* how many variables are declared there */
    Dwarf_Die variable;
};

static void note_declared(Dwarf_Die *scope, struct declared *d) {
    Dwarf_Die child;
    if (dwarf_child(scope, &child) != 0)
        return;
    do {
        int tag = dwarf_tag(&child);
        if (tag == DW_TAG_lexical_block)
            note_declared(&child, d);
        if (tag != DW_TAG_variable || (int)number_of(&child, DW_AT_decl_line, 0) != d->line)
            continue;
        d->variable = child;
        d->count++;
    } while (dwarf_siblingof(&child, &child) == 0);
}

/* What a variable points to is a class of that size. */
static bool class_behind(Dwarf_Die *variable, Dwarf_Die *type) {
    Dwarf_Die pointer;
    bool is_lock;
    return type_of(variable, &pointer) && peel(&pointer, &is_lock) && !is_lock && is_pointer(dwarf_tag(&pointer)) &&
           type_of(&pointer, type) && peel(type, &is_lock) && !is_lock && is_class(dwarf_tag(type)) && define(type) &&
           size_of(type) == (element ? element : look->piece_bytes);
}

/* The function whose own code asked for the memory, past those of the C++ library that are inlined in it, and the line there. */
static int asking_function(Dwarf_Die *scopes, int count, int *line) {
    for (int i = 0; i < count; i++) {
        if (dwarf_tag(&scopes[i]) == DW_TAG_lexical_block)
            continue;
        if (!is_of_library(qualified(&scopes[i])))
            return i;
        *line = (int)number_of(&scopes[i], DW_AT_call_line, 0);
    }
    return count;
}

/* The only variable that is declared on the line of the call. */
static bool variable_there(struct module *m, Dwarf_Die *scopes, int count, uint64_t after, Dwarf_Die *variable) {
    struct declared d = {.count = 0};
    Dwarf_Attribute a;
    int column;
    if (!line_at(m, after - 1, &d.line, &column))
        return false;
    int asking = asking_function(scopes, count, &d.line);
    if (asking == count || !d.line)
        return false;
    Dwarf_Die function = scopes[asking]; /* or, where that is a copy, the one with all variables */
    if (dwarf_attr(&scopes[asking], DW_AT_abstract_origin, &a))
        dwarf_formref_die(&a, &function);
    note_declared(&function, &d);
    *variable = d.variable;
    return d.count == 1;
}

static bool by_variable(struct module *m, Dwarf_Die *scopes, int count, uint64_t after, struct found *found) {
    Dwarf_Die variable, type;
    return variable_there(m, scopes, count, after, &variable) && class_behind(&variable, &type) && fits(type, found, RULE_ALLOCATION_VARIABLE);
}

/* ---- All callers of the allocation, the innermost first. */

#define MOST_CALLERS 12
#define MOST_FOR_CONSTRUCTOR 4
#define MOST_OF_PROGRAM 3

struct searched {
    struct found template, constructor, variable;
    int of_program; /* functions of the program that were looked at */
};

static void search_caller(uint64_t word, uint64_t depth, bool is_asking, struct searched *s) {
    static Dwarf_Die scopes[SCOPES];
    const struct loaded *in = loaded_numbered(raw_word_module(word));
    uint64_t after = raw_word_offset(word);
    int count = in ? scopes_at(in->module, after - 1, scopes) : 0;
    if (!count || is_merged(in->module, after - 1))
        return;
    by_templates(scopes, count, &s->template);
    if (!s->constructor.rule && depth < MOST_FOR_CONSTRUCTOR)
        by_constructor(in->module, scopes, count, after, &s->constructor);
    if (is_asking)
        by_variable(in->module, scopes, count, after, &s->variable);
    s->of_program += !is_of_library(function_name(scopes, count, 0));
}

/* The callers where memory was allocated, and which of them asked for it, which isn't what is `operator new` itself. */
struct asking {
    uint64_t callers[RAW_FRAMES + 1]; /* and a word of no module */
    uint64_t count, which;
};

static struct asking asking_at(const struct raw_place *place) {
    struct asking a = {.which = 0};
    const struct loaded *in;
    a.count = callers_of(place, a.callers);
    while (a.which < a.count && (in = loaded_numbered(raw_word_module(a.callers[a.which]))) &&
           strncmp(base_of(in->module->path), "libstdc++", 9) == 0)
        a.which++;
    return a;
}

bool search_allocation(const struct raw_place *place, struct found *found) {
    struct searched s = {.of_program = 0};
    struct asking a = asking_at(place);
    element = place->element > RAW_MAPPED ? place->element : 0;
    for (uint64_t i = 0; i < a.count && i < MOST_CALLERS && s.of_program < MOST_OF_PROGRAM && !s.template.rule; i++)
        search_caller(a.callers[i], i, i == a.which, &s);
    *found = s.template.rule ? s.template : s.constructor.rule ? s.constructor : s.variable;
    return found->rule != RULE_NONE;
}

/* ---- The only type of that size. */

/* clang leaves out types that are defined elsewhere. */
static bool has_all_types(Dwarf_Die *unit) {
    Dwarf_Attribute a;
    const char *producer = dwarf_attr(unit, DW_AT_producer, &a) ? dwarf_formstring(&a) : NULL;
    return producer && !strstr(producer, "clang");
}

/* The module of the code that allocated, and its unit, if that has debug information with all types that it uses. */
static struct module *allocating_module(const struct asking *a, Dwarf_Die *unit) {
    uint64_t caller = a->callers[a->which];
    const struct loaded *in = loaded_numbered(raw_word_module(caller));
    Dwarf_Die function;
    if (!in || !function_at(in->module, raw_word_offset(caller) - 1, &function) || !dwarf_diecu(&function, unit, NULL, NULL))
        return NULL;
    return has_all_types(unit) ? in->module : NULL;
}

/* Memory of the size of a bare lock, or of several, may have no class in it at all. */
static bool may_be_bare(void) {
    static const uint64_t sizes[] = {sizeof(pthread_mutex_t), sizeof(pthread_rwlock_t), sizeof(pthread_spinlock_t), sizeof(sem_t)};
    uint64_t offset = look->lock - look->piece, bytes = look->piece_bytes;
    for (size_t i = 0; i < sizeof sizes / sizeof *sizes; i++)
        if (bytes == sizes[i] && offset == 0)
            return true;
    return bytes % sizeof(pthread_mutex_t) == 0 && offset % sizeof(pthread_mutex_t) == 0;
}

/* All types of that size with a lock there have to give one text, those of the C++ library included, and one has to be in the unit, if one is
   given. */
bool only_of_size(struct module *m, Dwarf_Die *unit, bool is_unit_alone, const char **text) {
    bool is_in_unit = false;
    *text = NULL;
    if (may_be_bare())
        return false;
    index_module(m);
    is_union_unclear = false;
    for (size_t i = 0; i < m->type_count && !is_union_unclear; i++) {
        struct path path = {.count = 0};
        Dwarf_Die type = m->types[i].die;
        if (m->types[i].size != look->piece_bytes || (is_unit_alone && type.cu != unit->cu) || !lock_in_piece(type, &path))
            continue;
        const char *one = text_of(&path);
        if (!one || (*text && strcmp(*text, one) != 0))
            return false;
        *text = one;
        is_in_unit |= !unit || type.cu == unit->cu;
    }
    return is_in_unit && !is_union_unclear;
}

/* Bytes, and the like. */
static bool is_for_no_class(Dwarf_Die *variable) {
    Dwarf_Die pointer, type;
    bool is_lock;
    if (!type_of(variable, &pointer) || !peel(&pointer, &is_lock) || is_lock || !is_pointer(dwarf_tag(&pointer)))
        return false;
    return !type_of(&pointer, &type) || !peel(&type, &is_lock) || is_lock || !is_class(dwarf_tag(&type));
}

#define OPERATOR_NEW 1 /* its frames */

/* Memory that locks are put into by hand: an array is one of bytes, what the C++ library allocates is for what its templates say, and what
   is kept in a pointer to no class is for none. */
static bool may_be_raw(struct module *m, const struct raw_place *place, const struct asking *a) {
    static Dwarf_Die scopes[SCOPES];
    uint64_t after = raw_word_offset(a->callers[a->which]);
    int count = scopes_at(m, after - 1, scopes);
    Dwarf_Die variable;
    return place->element == RAW_ARRAY || a->which > OPERATOR_NEW || is_of_library(function_name(scopes, count, 0)) ||
           (variable_there(m, scopes, count, after, &variable) && is_for_no_class(&variable));
}

/* Only of what `operator new` gave: what C code asks for may have no type at all. */
bool by_size(const struct raw_place *place, struct found *found) {
    Dwarf_Die unit;
    struct asking a = asking_at(place);
    struct module *m = a.which ? allocating_module(&a, &unit) : NULL;
    const char *only;
    element = 0;
    if (!m || may_be_raw(m, place, &a) || !only_of_size(m, &unit, false, &only))
        return false;
    *found = (struct found){RULE_SIZE, only};
    return true;
}

/* What may be of before is not, if nothing else can be there. */
bool is_confirmed_by_size(const struct raw_place *place, const char *text) {
    struct asking a = asking_at(place);
    const struct loaded *in = loaded_numbered(raw_word_module(a.callers[a.which]));
    const char *only;
    element = 0;
    return in && only_of_size(in->module, NULL, false, &only) && strcmp(only, text) == 0;
}
