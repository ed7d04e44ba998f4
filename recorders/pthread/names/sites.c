/* Calls: what a caller says of the arguments, and where a function's variables are counted from. */
#include "names.h"

#define DEEPEST 6

static bool word_of(const struct value *v, uint64_t *word) {
    *word = v->at;
    if (v->kind == IN_BYTES)
        memcpy(word, v->bytes, sizeof *word);
    return true;
}

/* Where the variables of the frame's function are counted from. */
bool frame_base(int frame, uint64_t *at, int depth) {
    struct frame *f = &frames[frame];
    Dwarf_Die function;
    Dwarf_Attribute a;
    Dwarf_Op *operations;
    size_t count;
    struct value v;
    return function_at(f->in->module, address_in(f), &function) && dwarf_attr_integrate(&function, DW_AT_frame_base, &a) &&
           dwarf_getlocation_addr(&a, address_in(f), &operations, &count, 1) == 1 &&
           evaluate(&a, operations, count, frame, &v, depth) && word_of(&v, at);
}

static bool is_site(Dwarf_Die *die, uint64_t after) {
    int tag = dwarf_tag(die);
    Dwarf_Attribute a;
    Dwarf_Addr address;
    return (tag == DW_TAG_call_site || tag == DW_TAG_GNU_call_site) &&
           (dwarf_attr(die, DW_AT_call_return_pc, &a) || dwarf_attr(die, DW_AT_low_pc, &a)) && dwarf_formaddr(&a, &address) == 0 &&
           address == after;
}

static bool find_site(Dwarf_Die *scope, uint64_t after, Dwarf_Die *site) {
    Dwarf_Die child;
    if (dwarf_child(scope, &child) != 0)
        return false;
    do {
        int tag = dwarf_tag(&child);
        if (is_site(&child, after)) {
            *site = child;
            return true;
        }
        if ((tag == DW_TAG_lexical_block || tag == DW_TAG_inlined_subroutine) && find_site(&child, after, site))
            return true;
    } while (dwarf_siblingof(&child, &child) == 0);
    return false;
}

/* The call that the frame is in. */
bool site_of(int frame, Dwarf_Die *site) {
    struct frame *f = &frames[frame];
    Dwarf_Die function;
    return f->is_call && function_at(f->in->module, address_in(f), &function) && find_site(&function, address_in(f) + 1, site);
}

/* The function that a call names. */
bool called_by(Dwarf_Die *site, Dwarf_Die *function) {
    Dwarf_Attribute a;
    return (dwarf_attr(site, DW_AT_call_origin, &a) || dwarf_attr(site, DW_AT_abstract_origin, &a)) && dwarf_formref_die(&a, function);
}

static bool is_argument(Dwarf_Die *die, int reg) {
    int tag = dwarf_tag(die);
    Dwarf_Attribute a;
    Dwarf_Op *operations;
    size_t count;
    return (tag == DW_TAG_call_site_parameter || tag == DW_TAG_GNU_call_site_parameter) && dwarf_attr(die, DW_AT_location, &a) &&
           dwarf_getlocation(&a, &operations, &count) == 0 && count == 1 && operations[0].atom == DW_OP_reg0 + reg;
}

/* What the call passed in a register. */
bool site_argument(int frame, Dwarf_Die *site, int reg, uint64_t *word, int depth) {
    Dwarf_Die child;
    Dwarf_Attribute a;
    Dwarf_Op *operations;
    size_t count;
    struct value v;
    if (dwarf_child(site, &child) != 0)
        return false;
    while (!is_argument(&child, reg))
        if (dwarf_siblingof(&child, &child) != 0)
            return false;
    return (dwarf_attr(&child, DW_AT_call_value, &a) || dwarf_attr(&child, DW_AT_GNU_call_site_value, &a)) &&
           dwarf_getlocation(&a, &operations, &count) == 0 && evaluate(&a, operations, count, frame, &v, depth) && word_of(&v, word);
}

static const char *linkage_name(Dwarf_Die *die) {
    Dwarf_Attribute a;
    bool has_one = dwarf_attr_integrate(die, DW_AT_linkage_name, &a) || dwarf_attr_integrate(die, DW_AT_MIPS_linkage_name, &a);
    return has_one ? dwarf_formstring(&a) : name_of(die);
}

/* Whether the call names another function than the one that runs: it left by a tail call. */
static bool calls_another(Dwarf_Die *site, const struct frame *callee) {
    Dwarf_Die named, running;
    if (!called_by(site, &named) || !function_at(callee->in->module, address_in(callee), &running))
        return false;
    const char *a = linkage_name(&named), *b = linkage_name(&running);
    return a && b && strcmp(a, b) != 0;
}

/* What a register had when the frame's function was called. */
bool entry_value(int frame, int reg, uint64_t *word, int depth) {
    Dwarf_Die site;
    if (frame + 1 >= frame_count || depth > DEEPEST || !site_of(frame + 1, &site) || calls_another(&site, &frames[frame]))
        return false;
    return site_argument(frame + 1, &site, reg, word, depth + 1);
}
