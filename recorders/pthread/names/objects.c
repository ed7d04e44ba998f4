/* Locks in what the variables of running functions are or point to. */
#include "names.h"

/* Whether an object of the type, if it is at that address, has the lock exactly where it is. Of a bare lock, or one in nothing but a
   class that is a lock itself, there is no text. */
bool has_lock(Dwarf_Die type, uint64_t at, struct found *found, bool *is_bare) {
    struct path path = {.count = 0};
    bool is_lock;
    *is_bare = false;
    if (at > look->lock || !peel(&type, &is_lock))
        return false;
    if (is_lock) {
        *is_bare = at == look->lock;
        return false;
    }
    uint64_t size = define(&type) ? size_of(&type) : 0;
    bool is_whole = at == look->piece && size == look->piece_bytes;
    if (look->lock - at >= size || !(is_whole ? find_lock_in_whole : find_lock)(type, look->lock - at, &path))
        return false;
    found->text = text_of(&path);
    found->member = found->text ? NULL : member_without_class(&path);
    if (!found->text && !weak_text)
        weak_text = weak_text_of(&path);
    *is_bare = !found->text;
    return found->text != NULL;
}

/* ---- One variable. */

struct scopes {
    Dwarf_Die list[SCOPES];
    int lines[SCOPES]; /* where the code that runs is in each; 0 if that isn't known */
    int count;
    bool is_merged;
};

struct variable_here {
    Dwarf_Die die, type, peeled;
    struct value value;
    const char *name;
};

/* What is declared further down than the code that runs isn't set yet. */
static bool is_declared(Dwarf_Die *die, int line) {
    return line == 0 || dwarf_tag(die) == DW_TAG_formal_parameter || number_of(die, DW_AT_decl_line, 0) <= (uint64_t)line;
}

static bool is_variable(Dwarf_Die *die) {
    int tag = dwarf_tag(die);
    return tag == DW_TAG_formal_parameter || tag == DW_TAG_variable;
}

/* Its value where the frame is. */
static bool read_variable(struct variable_here *v, int frame, uint64_t address) {
    Dwarf_Attribute a;
    Dwarf_Op *operations;
    size_t count;
    bool is_lock;
    v->name = name_of(&v->die);
    if (!type_of(&v->die, &v->type) || !dwarf_attr_integrate(&v->die, DW_AT_location, &a) ||
        dwarf_getlocation_addr(&a, address, &operations, &count, 1) != 1 || !count ||
        !evaluate(&a, operations, count, frame, &v->value, 0))
        return false;
    v->peeled = v->type;
    return peel(&v->peeled, &is_lock);
}

static bool points_to_it(struct variable_here *v, struct found *found) {
    uint64_t word;
    Dwarf_Die to;
    bool is_bare;
    if (!word_of_value(&v->value, 0, &word) || !type_of(&v->peeled, &to) || !has_lock(to, word, found, &is_bare))
        return false;
    bool is_parameter = dwarf_tag(&v->die) == DW_TAG_formal_parameter;
    found->rule = v->name && strcmp(v->name, "this") == 0 ? RULE_THIS : is_parameter ? RULE_PARAMETER : RULE_VARIABLE;
    return true;
}

/* A bare lock is a variable of the function, if that is the program's. */
static void note_bare(struct variable_here *v, struct scopes *s, int scope, const char *member, struct found *bare) {
    const char *function = function_name(s->list, s->count, scope);
    if (bare->rule || !v->name || is_of_library(function))
        return;
    bare->text = written("%s:%s%s%s", distinct_function(function_around(s->list, s->count, scope)), distinct_variable(&v->die), dwarf_tag(&v->peeled) == DW_TAG_array_type ? "[]" : "", member ? member : "");
    bare->rule = RULE_LOCAL;
}

static bool is_it(struct variable_here *v, struct scopes *s, int scope, struct found *found, struct found *bare) {
    bool is_bare;
    if (is_pointer(dwarf_tag(&v->peeled)))
        return points_to_it(v, found);
    if (v->value.kind != IN_MEMORY)
        return false;
    if (has_lock(v->type, v->value.at, found, &is_bare)) {
        found->rule = RULE_OBJECT;
        return true;
    }
    if (is_bare)
        note_bare(v, s, scope, found->member, bare);
    return false;
}

/* What its members point to, or those of the object that it points to. */
static bool leads_to_it(struct variable_here *v, struct found *found, int hops, bool *is_unclear) {
    struct value object = {.kind = IN_MEMORY};
    Dwarf_Die to;
    if (!is_pointer(dwarf_tag(&v->peeled)))
        return search_members(v->type, &v->value, found, hops, is_unclear);
    if (!word_of_value(&v->value, 0, &object.at) || !object.at || !type_of(&v->peeled, &to))
        return false;
    return search_members(to, &object, found, hops, is_unclear);
}

/* ---- All variables of a scope. In the first round they are the object or point to it, in the next ones their members do. */

#define ROUNDS 3

struct round {
    int number, frame;
    uint64_t address;
    struct found *found, *doubtful, *bare;
    bool *is_unclear; /* variables of one scope don't agree: one of them points to what was there before */
};

/* What one variable says. If it isn't of now, it may be of what was there before: what an object in memory has may have been set since, and what
   a pointer leads to as well. */
static bool look_at_variable(const struct round *r, struct scopes *s, int scope, struct variable_here *v, struct found *found) {
    if (!is_variable(&v->die) || !is_declared(&v->die, s->lines[scope]) || !read_variable(v, r->frame, r->address))
        return false;
    bool is_of_now = is_pointer(dwarf_tag(&v->peeled)) ? r->number > 0 : v->value.kind == IN_MEMORY;
    bool is_found = r->number == 0 ? is_it(v, s, scope, found, r->bare) : leads_to_it(v, found, r->number - 1, r->is_unclear);
    enum age age = is_found && !is_of_now ? age_of(&v->die, &s->list[scope], r->frame, r->address, &v->value) : IS_OF_NOW;
    found->is_doubtful |= age == MAY_BE_STALE;
    return is_found && age != IS_STALE;
}

/* What is doubtful counts only if nothing else is found. */
static bool is_set_aside(const struct round *r) {
    if (*r->is_unclear || !r->found->is_doubtful)
        return false;
    if (!r->doubtful->text)
        *r->doubtful = *r->found;
    *r->found = (struct found){RULE_NONE, NULL, NULL, false};
    return true;
}

static bool search_scope(const struct round *r, struct scopes *s, int scope) {
    struct variable_here v;
    if (dwarf_child(&s->list[scope], &v.die) != 0)
        return false;
    do {
        struct found found = {RULE_NONE, NULL, NULL};
        if (!look_at_variable(r, s, scope, &v, &found))
            continue;
        *r->is_unclear |= r->found->text && strcmp(r->found->text, found.text) != 0;
        if (!r->found->text || !found.is_doubtful)
            *r->found = found;
    } while (!*r->is_unclear && dwarf_siblingof(&v.die, &v.die) == 0);
    return r->found->text && !is_set_aside(r);
}

/* At the call of the recorder the first argument is still the lock, which serves variables that end with the call. */
static bool search_at_call(const struct round *r, struct scopes *s, int scope) {
    struct frame *f = &frames[r->frame], kept = *f;
    struct round before = *r;
    before.address--;
    f->registers[RDI] = look->lock;
    f->known |= UINT32_C(1) << RDI;
    bool is_found = search_scope(&before, s, scope);
    *f = kept;
    return is_found;
}

/* The arguments of the call that a frame is in, for a function that left by a tail call, or whose variables are gone. */
static bool search_arguments(int frame, struct found *found) {
    static const int registers[] = {RDI, 4, 1, 2, 8, 9};
    size_t argument = 0;
    Dwarf_Die site, function, parameter, type, to;
    uint64_t word;
    bool unused;
    if (is_in_allocating_call(frame) || !site_of(frame, &site) || !called_by(&site, &function) || dwarf_child(&function, &parameter) != 0)
        return false;
    do {
        if (dwarf_tag(&parameter) != DW_TAG_formal_parameter || argument == sizeof registers / sizeof *registers)
            continue;
        int reg = registers[argument++];
        if (!type_of(&parameter, &type) || !peel(&type, &unused) || !is_pointer(dwarf_tag(&type)) || !type_of(&type, &to) ||
            !site_argument(frame, &site, reg, &word, 0) || !has_lock(to, word, found, &unused))
            continue;
        found->rule = RULE_ARGUMENT;
        return true;
    } while (dwarf_siblingof(&parameter, &parameter) == 0);
    return false;
}

/* ---- All frames. */

static struct scopes scopes[FRAMES];
static int first_of_program;

/* The line of an inlined function is its own, and that of the one around it where it is called. */
static void read_lines(struct scopes *s, struct module *m, uint64_t address) {
    int line = 0, column = 0;
    if (!line_at(m, address, &line, &column))
        line = 0;
    for (int i = 0; i < s->count; i++) {
        s->lines[i] = line;
        if (dwarf_tag(&s->list[i]) == DW_TAG_inlined_subroutine)
            line = (int)number_of(&s->list[i], DW_AT_call_line, 0);
    }
}

static void read_scopes(void) {
    first_of_program = 0;
    for (int i = 0; i < frame_count; i++) {
        struct module *m = frames[i].in->module;
        scopes[i].count = 0;
        if (is_recorder(m)) {
            first_of_program = i + 1;
            continue;
        }
        scopes[i].count = scopes_at(m, address_in(&frames[i]), scopes[i].list);
        read_lines(&scopes[i], m, address_in(&frames[i]));
        scopes[i].is_merged = scopes[i].count && is_merged(m, address_in(&frames[i]));
    }
}

static bool search_frame(const struct round *r) {
    struct scopes *s = &scopes[r->frame];
    if (!s->count || s->is_merged)
        return false;
    for (int i = 0; i < s->count; i++)
        if ((r->number == 0 && r->frame == first_of_program && search_at_call(r, s, i)) || search_scope(r, s, i))
            return true;
    return r->number == 0 && search_arguments(r->frame, r->found);
}

bool search_frames(struct found *found, struct found *doubtful, struct found *bare) {
    read_scopes();
    find_active_frames();
    bool is_unclear = false;
    for (int i = 0; i < ROUNDS * frame_count && !found->text; i++) {
        int frame = i % frame_count;
        struct round r = {i / frame_count, frame, address_in(&frames[frame]), found, doubtful, bare, &is_unclear};
        if (frame >= first_of_program)
            search_frame(&r);
    }
    if (is_unclear)
        *found = *doubtful = (struct found){RULE_NONE, NULL, NULL, false};
    return found->text != NULL;
}
