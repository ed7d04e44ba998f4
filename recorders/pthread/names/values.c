/* Expressions of debug information, evaluated in a frame of a look. */
#include "names.h"

#define STACK 64
#define DEEPEST 8

struct machine {
    uint64_t stack[STACK];
    int count;
    int frame, depth;
    const uint64_t *cfa; /* of a rule, which is about the frame's own end; NULL: that is known already */
    Dwarf_Attribute *attribute;
    bool is_register, is_value, has_pieces;
    uint64_t piece_at;
    struct value *value;
};

static bool push(struct machine *m, uint64_t word) {
    if (m->count >= STACK - 1)
        return false;
    m->stack[m->count++] = word;
    return true;
}

static bool push_register(struct machine *m, uint64_t reg, uint64_t offset) {
    const struct frame *f = &frames[m->frame];
    return reg < REGISTERS && f->known >> reg & 1 && push(m, f->registers[reg] + offset);
}

/* ---- Operations by what they need. */

static bool is_constant(uint8_t atom) { return atom >= DW_OP_const1u && atom <= DW_OP_consts; }

static bool push_indirect(struct machine *m, const Dwarf_Op *o) {
    Dwarf_Attribute a;
    Dwarf_Addr address;
    return m->attribute && dwarf_getlocation_attr(m->attribute, o, &a) == 0 && dwarf_formaddr(&a, &address) == 0 &&
           push(m, address + frames[m->frame].in->bias);
}

static bool push_frame_end(struct machine *m) {
    const struct frame *f = &frames[m->frame];
    if (m->cfa)
        return push(m, *m->cfa);
    return f->has_cfa && push(m, f->cfa);
}

static bool push_from_base(struct machine *m, uint64_t offset) {
    uint64_t base;
    return frame_base(m->frame, &base, m->depth) && push(m, base + offset);
}

static bool push_entry_value(struct machine *m, const Dwarf_Op *o) {
    Dwarf_Attribute a;
    Dwarf_Op *entry;
    size_t count;
    uint64_t word;
    return m->attribute && dwarf_getlocation_attr(m->attribute, o, &a) == 0 && dwarf_getlocation(&a, &entry, &count) == 0 &&
           count == 1 && entry->atom >= DW_OP_reg0 && entry->atom <= DW_OP_reg16 &&
           entry_value(m->frame, entry->atom - DW_OP_reg0, &word, m->depth) && push(m, word);
}

static bool load(struct machine *m, uint64_t bytes) {
    uint64_t word = 0;
    if (m->count < 1 || bytes > sizeof word || !read_stack(m->stack[m->count - 1], &word, bytes))
        return false;
    m->stack[m->count - 1] = word;
    return true;
}

static bool rearrange(struct machine *m, const Dwarf_Op *o) {
    uint64_t back = o->atom == DW_OP_over ? 1 : o->atom == DW_OP_pick ? o->number : 0;
    if (o->atom == DW_OP_swap) {
        if (m->count < 2)
            return false;
        uint64_t top = m->stack[m->count - 1];
        m->stack[m->count - 1] = m->stack[m->count - 2];
        m->stack[m->count - 2] = top;
        return true;
    }
    if (back >= (uint64_t)m->count)
        return false;
    if (o->atom != DW_OP_drop)
        return push(m, m->stack[m->count - 1 - (int)back]);
    m->count--;
    return true;
}

static bool combine(struct machine *m, uint8_t atom) {
    if (m->count < 2)
        return false;
    uint64_t b = m->stack[--m->count], *a = &m->stack[m->count - 1];
    switch (atom) {
    case DW_OP_plus: *a += b; return true;
    case DW_OP_minus: *a -= b; return true;
    case DW_OP_mul: *a *= b; return true;
    case DW_OP_and: *a &= b; return true;
    case DW_OP_or: *a |= b; return true;
    case DW_OP_xor: *a ^= b; return true;
    case DW_OP_shl: *a <<= b & 63; return true;
    case DW_OP_shr: *a >>= b & 63; return true;
    case DW_OP_shra: *a = (uint64_t)((int64_t)*a >> (b & 63)); return true;
    default: return false;
    }
}

static bool change(struct machine *m, const Dwarf_Op *o) {
    if (m->count < 1)
        return false;
    uint64_t *top = &m->stack[m->count - 1];
    *top = o->atom == DW_OP_plus_uconst ? *top + o->number : o->atom == DW_OP_neg ? -*top : ~*top;
    return true;
}

/* ---- Pieces: parts of an object that are apart. What isn't known of it stays so. */

static void put_piece(struct machine *m, uint64_t bytes) {
    struct value *v = m->value;
    uint64_t at = m->piece_at, word = m->count ? m->stack[--m->count] : 0;
    if (at > VALUE_BYTES || bytes > VALUE_BYTES - at)
        return;
    if (m->is_register || m->is_value)
        memcpy(v->bytes + at, &word, bytes < sizeof word ? bytes : sizeof word);
    else if (!read_stack(word, v->bytes + at, bytes))
        return;
    for (uint64_t i = 0; i + sizeof word <= bytes; i += sizeof word)
        v->known |= UINT64_C(1) << ((at + i) / sizeof word);
}

static bool end_piece(struct machine *m, uint64_t bytes) {
    m->has_pieces = true;
    if (m->count)
        put_piece(m, bytes);
    m->piece_at += bytes;
    m->is_register = m->is_value = false;
    return true;
}

static bool name_register(struct machine *m, const Dwarf_Op *o, bool is_of_piece) {
    if (!push_register(m, (uint64_t)(o->atom - DW_OP_reg0), 0))
        return is_of_piece;
    m->is_register = true;
    return true;
}

/* ---- */

static bool run_other(struct machine *m, const Dwarf_Op *o) {
    switch (o->atom) {
    case DW_OP_addr: return push(m, o->number + frames[m->frame].in->bias);
    case DW_OP_addrx: case DW_OP_GNU_addr_index: case DW_OP_constx: case DW_OP_GNU_const_index: return push_indirect(m, o);
    case DW_OP_fbreg: return push_from_base(m, o->number);
    case DW_OP_bregx: return push_register(m, o->number, o->number2);
    case DW_OP_call_frame_cfa: return push_frame_end(m);
    case DW_OP_entry_value: case DW_OP_GNU_entry_value: return push_entry_value(m, o);
    case DW_OP_deref: return load(m, sizeof(uint64_t));
    case DW_OP_deref_size: return load(m, o->number);
    case DW_OP_dup: case DW_OP_drop: case DW_OP_over: case DW_OP_pick: case DW_OP_swap: return rearrange(m, o);
    case DW_OP_plus_uconst: case DW_OP_neg: case DW_OP_not: return change(m, o);
    case DW_OP_nop: return true;
    case DW_OP_stack_value: return m->is_value = true;
    case DW_OP_piece: return end_piece(m, o->number);
    default: return combine(m, o->atom);
    }
}

static bool run_one(struct machine *m, const Dwarf_Op *o, bool is_of_piece) {
    if (o->atom >= DW_OP_lit0 && o->atom <= DW_OP_lit31)
        return push(m, (uint64_t)(o->atom - DW_OP_lit0));
    if (o->atom >= DW_OP_breg0 && o->atom <= DW_OP_breg31)
        return push_register(m, (uint64_t)(o->atom - DW_OP_breg0), o->number);
    if (o->atom >= DW_OP_reg0 && o->atom <= DW_OP_reg31)
        return name_register(m, o, is_of_piece);
    return is_constant(o->atom) ? push(m, o->number) : run_other(m, o);
}

static bool run(struct machine *m, const Dwarf_Op *operations, size_t count) {
    for (size_t i = 0; i < count; i++)
        if (!run_one(m, &operations[i], i + 1 < count && operations[i + 1].atom == DW_OP_piece))
            return false;
    return true;
}

static bool finish(struct machine *m) {
    struct value *v = m->value;
    if (m->has_pieces) {
        v->kind = IN_BYTES;
        return v->known != 0;
    }
    if (m->count < 1)
        return false;
    v->kind = m->is_register || m->is_value ? IN_BYTES : IN_MEMORY;
    v->at = m->stack[m->count - 1];
    if (v->kind == IN_BYTES) {
        memcpy(v->bytes, &v->at, sizeof v->at);
        v->known = 1;
    }
    return true;
}

bool evaluate(Dwarf_Attribute *attribute, Dwarf_Op *operations, size_t count, int frame, struct value *value, int depth) {
    struct machine m = {.frame = frame, .depth = depth + 1, .attribute = attribute, .value = value};
    memset(value, 0, sizeof *value);
    return depth <= DEEPEST && run(&m, operations, count) && finish(&m);
}

/* A rule of unwinding: `cfa` is the frame's end, or NULL if that is what the rule is about. */
bool evaluate_rule(Dwarf_Op *operations, size_t count, int frame, const uint64_t *cfa, uint64_t *word, bool *is_address) {
    struct value value = {.kind = IN_MEMORY};
    struct machine m = {.frame = frame, .cfa = cfa, .value = &value};
    if (!run(&m, operations, count) || !finish(&m))
        return false;
    *word = value.at;
    *is_address = value.kind == IN_MEMORY;
    return !m.has_pieces;
}

bool word_of_value(const struct value *value, uint64_t offset, uint64_t *word) {
    if (value->kind == IN_MEMORY)
        return read_word(value->at + offset, word);
    if (offset % sizeof *word || offset + sizeof *word > VALUE_BYTES || !(value->known >> (offset / sizeof *word) & 1))
        return false;
    memcpy(word, value->bytes + offset, sizeof *word);
    return true;
}
