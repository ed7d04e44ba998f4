/* Locks in variables that are known by where they are: static ones, thread-local ones, and those of a function's frame. */
#include "names.h"

const char *weak_text;

#define MOST_NESTED 40 /* variables that may begin between one and an address in it */

/* What a type has at an offset: a text, or a bare lock, of which `found` has none. */
static bool lock_in(Dwarf_Die type, uint64_t offset, struct found *found) {
    struct path path = {.count = 0};
    Dwarf_Die peeled = type;
    bool is_lock;
    if (!peel(&peeled, &is_lock) || !define(&peeled))
        return false;
    uint64_t size = is_lock ? 1 : size_of(dwarf_tag(&peeled) == DW_TAG_array_type ? &type : &peeled);
    if (offset >= size || !find_lock_in_whole(type, offset, &path))
        return false;
    found->text = text_of(&path);
    found->member = found->text ? NULL : member_without_class(&path);
    return true;
}

static bool is_array(Dwarf_Die type) {
    bool is_lock;
    return peel(&type, &is_lock) && dwarf_tag(&type) == DW_TAG_array_type;
}

static const char *text_of_variable(Dwarf_Die *die, Dwarf_Die type, const char *member) {
    return written("%s%s%s%s", file_mark(die, qualified(die)), without_anonymous(distinct_name(die)), is_array(type) ? "[]" : "", member ? member : "");
}

static bool variable_at(const struct variable *list, size_t count, uint64_t at, struct found *found) {
    size_t low = 0, high = count;
    while (low < high) {
        size_t middle = (low + high) / 2;
        if (list[middle].at <= at)
            low = middle + 1;
        else
            high = middle;
    }
    for (size_t i = low; i-- > 0 && low - i <= MOST_NESTED;) {
        Dwarf_Die die = list[i].die, type;
        if (!type_of(&die, &type) || !lock_in(type, at - list[i].at, found))
            continue;
        found->rule = found->text ? RULE_STATIC_OBJECT : RULE_STATIC;
        if (!found->text)
            found->text = text_of_variable(&die, type, found->member);
        return true;
    }
    return false;
}

bool static_variable(struct module *m, uint64_t at, struct found *found) {
    index_module(m);
    return variable_at(m->variables, m->variable_count, at, found);
}

bool thread_variable(struct module *m, uint64_t at, struct found *found) {
    index_module(m);
    return variable_at(m->thread_variables, m->thread_variable_count, at, found);
}

/* ---- Where they are declared. */

static const char *line_of_variable(struct module *m, uint64_t at) {
    size_t i = 0;
    while (i < m->variable_count && m->variables[i].at != at)
        i++;
    Dwarf_Die die = i < m->variable_count ? m->variables[i].die : (Dwarf_Die){0};
    const char *path = die.addr ? path_of(&die) : NULL;
    return path ? written("%s:%u", path, (unsigned)number_of(&die, DW_AT_decl_line, 0)) : "??:0";
}

void tell_lines(const char *module) {
    struct module *m = module_named(module);
    char line[64];
    for (bool is_indexed = false; fgets(line, sizeof line, stdin); is_indexed = true) {
        if (!is_indexed)
            index_module(m);
        puts(line_of_variable(m, strtoull(line, NULL, 16)));
    }
}

/* ---- Of a frame. */

struct wanted {
    Dwarf_Die function, called; /* it, or the function that is inlined there */
    int64_t at, base; /* from the frame's end on: of the lock, and from where variables are counted */
};

#define SAVED_BYTES 16 /* between the frame's end and where rbp points to */

/* The same stack pointer everywhere between a function's first and last instructions, as it is unless it pushes something for a call. */
static bool base_by_stack_pointer(const struct loaded *in, Dwarf_Die *function, int64_t *base) {
    Dwarf_Addr from, to;
    int64_t first, middle, last;
    if (dwarf_lowpc(function, &from) != 0 || dwarf_highpc(function, &to) != 0 || to <= from ||
        !stack_pointer_at(in, from + (to - from) / 4, &first) || !stack_pointer_at(in, from + (to - from) / 2, &middle) ||
        !stack_pointer_at(in, from + (to - from) / 4 * 3, &last))
        return false;
    *base = -middle;
    return first == middle && middle == last;
}

/* How far from the frame's end variables are counted. */
static bool base_of_frame(const struct loaded *in, Dwarf_Die *function, int64_t *base) {
    Dwarf_Attribute a;
    Dwarf_Op *operations;
    size_t count;
    if (!dwarf_attr_integrate(function, DW_AT_frame_base, &a) || dwarf_getlocation(&a, &operations, &count) != 0 || count != 1)
        return false;
    if (operations[0].atom == DW_OP_reg7)
        return base_by_stack_pointer(in, function, base);
    *base = operations[0].atom == DW_OP_reg6 ? -SAVED_BYTES : 0;
    return operations[0].atom == DW_OP_reg6 || operations[0].atom == DW_OP_call_frame_cfa;
}

static bool is_at(Dwarf_Die *variable, Dwarf_Die type, const struct wanted *wanted, struct found *found) {
    Dwarf_Attribute a;
    Dwarf_Op *operations;
    size_t count;
    Dwarf_Addr start = 0, from, to;
    ptrdiff_t next = 0;
    if (!dwarf_attr_integrate(variable, DW_AT_location, &a))
        return false;
    while ((next = dwarf_getlocations(&a, next, &start, &from, &to, &operations, &count)) > 0) {
        int64_t at = count == 1 && operations[0].atom == DW_OP_fbreg ? (int64_t)operations[0].number + wanted->base : INT64_MAX;
        if (wanted->at >= at && lock_in(type, (uint64_t)(wanted->at - at), found))
            return true;
    }
    return false;
}

static const char *text_in_frame(Dwarf_Die *variable, struct wanted *wanted) {
    struct found found = {RULE_NONE, NULL, NULL};
    Dwarf_Die type;
    if (!type_of(variable, &type) || !is_at(variable, type, wanted, &found))
        return NULL;
    if (!found.text && name_of(variable))
        return written("%s:%s%s%s", distinct_function(&wanted->called), distinct_variable(variable), is_array(type) ? "[]" : "", found.member ? found.member : "");
    return found.text;
}

/* All variables are looked at, since those of two blocks may share a place. */
static void search_frame(Dwarf_Die *scope, struct wanted wanted, struct found *found, bool *is_unclear) {
    Dwarf_Die child;
    if (dwarf_child(scope, &child) != 0)
        return;
    do {
        int tag = dwarf_tag(&child);
        struct wanted inner = wanted;
        if (tag == DW_TAG_inlined_subroutine)
            inner.called = child;
        if (tag == DW_TAG_lexical_block || tag == DW_TAG_inlined_subroutine)
            search_frame(&child, inner, found, is_unclear);
        const char *text = tag == DW_TAG_variable || tag == DW_TAG_formal_parameter ? text_in_frame(&child, &wanted) : NULL;
        *is_unclear |= text && found->text && strcmp(text, found->text) != 0;
        if (text)
            *found = (struct found){RULE_FRAME, text, NULL};
    } while (dwarf_siblingof(&child, &child) == 0);
}

bool frame_variable(const struct raw_class *class, struct found *found, bool *is_unclear) {
    const struct loaded *in = loaded_numbered(raw_word_module(class->word));
    struct wanted wanted = {.at = -(int64_t)class->offset};
    if (!in || !function_at(in->module, raw_word_offset(class->word), &wanted.function) ||
        !base_of_frame(in, &wanted.function, &wanted.base))
        return false;
    wanted.called = wanted.function;
    search_frame(&wanted.function, wanted, found, is_unclear);
    return found->text && !*is_unclear;
}
