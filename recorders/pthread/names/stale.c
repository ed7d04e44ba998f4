/* Variables that point to what lay at the lock's address before. In a function that was running when the lock's memory was allocated, what
   was set before that call can't point to that memory, only to what was freed there. A function that was called since can. */
#include "names.h"

struct active {
    bool is_active;         /* when the memory was allocated */
    uint64_t at, allocated; /* the frame's code, and in the same function the address after the call that allocated */
};

static struct active active[FRAMES + 1];
static bool is_allocation_known;

/* The callers of the allocation. A function is known by where its entry is, and is NULL without debug information. */
struct callers {
    const void *functions[RAW_FRAMES];
    uint64_t after[RAW_FRAMES];
    uint64_t count;
    bool is_whole; /* up to what begins a program or a thread, which has no debug information */
};

static const void *entry_of(const struct loaded *in, uint64_t address) {
    Dwarf_Die function;
    return in && function_at(in->module, address, &function) ? function.addr : NULL;
}

static void read_callers(const struct raw_place *place, struct callers *c) {
    uint64_t words[RAW_FRAMES];
    c->count = callers_of(place, words);
    for (uint64_t i = 0; i < c->count; i++) {
        c->after[i] = raw_word_offset(words[i]);
        c->functions[i] = entry_of(loaded_numbered(raw_word_module(words[i])), c->after[i] - 1);
    }
    c->is_whole = c->count && !c->functions[c->count - 1];
}

/* A function that calls itself has several frames: a frame's call is as far out among them. What has more of them was called since. */
static bool find_caller(const struct callers *c, const void *function, int rank, uint64_t *after) {
    bool is_found = false;
    for (uint64_t i = c->count; i-- > 0 && rank > 0;) {
        if (!function || c->functions[i] != function)
            continue;
        is_found = true;
        *after = c->after[i];
        rank--;
    }
    return is_found && (rank == 0 || !c->is_whole);
}

/* The functions of the frames. */
static const void *functions[FRAMES + 1];

static int rank_of(int frame) {
    int rank = 0;
    for (int i = frame; i < frame_count; i++)
        rank += functions[i] == functions[frame];
    return rank;
}

/* What is further out than a function that was running was running too, in the call that it is still in. */
static void find_active(const struct callers *callers) {
    bool is_active = false;
    for (int i = 0; i < frame_count; i++) {
        struct active *a = &active[i];
        a->allocated = a->at = address_in(&frames[i]) + frames[i].is_call;
        is_active |= find_caller(callers, functions[i], rank_of(i), &a->allocated);
        a->is_active = is_active;
    }
}

void find_active_frames(void) {
    const struct raw_place *place = look->piece ? part_of(RAW_PLACES, (uint32_t)look->piece_place) : NULL;
    struct callers callers;
    memset(active, 0, sizeof active);
    is_allocation_known = place != NULL;
    if (!place)
        return;
    read_callers(place, &callers);
    for (int i = 0; i < frame_count; i++)
        functions[i] = entry_of(frames[i].in, address_in(&frames[i]));
    find_active(&callers);
}

/* What a call passes in which the memory was allocated was there before. */
bool is_in_allocating_call(int frame) { return active[frame].is_active && active[frame].at == active[frame].allocated; }

/* ---- Instructions, as far as one has to know them: those of 64 bits whose operands are a register and another one, or memory. */

struct instruction {
    unsigned char code;
    int reg, other, mode; /* the other register says where memory is, unless the mode is REGISTERS_ONLY; -1 if two do */
    int32_t distance;     /* of memory from that register */
};

#define LEAST_BYTES 4
#define WIDE 0x48
#define STORE 0x89
#define LOAD 0x8b
#define TAKE_ADDRESS 0x8d
#define REGISTERS_ONLY 3
#define WITH_BYTE 1
#define WITH_WORD 2
#define RSP_IN_CODE 4 /* memory by this one, and by r12, has one more byte, which is the next one if there is no second register */
#define NO_SECOND 0x24

static bool read_instruction(const unsigned char *bytes, uint64_t count, struct instruction *i) {
    if (count < LEAST_BYTES || (bytes[0] & 0xf8) != WIDE)
        return false;
    *i = (struct instruction){.code = bytes[1], .mode = bytes[2] >> 6};
    i->reg = (bytes[2] >> 3 & 7) | (bytes[0] & 4) << 1;
    i->other = (bytes[2] & 7) | (bytes[0] & 1) << 3;
    bool has_more = i->mode != REGISTERS_ONLY && (bytes[2] & 7) == RSP_IN_CODE;
    size_t at = has_more ? 4 : 3;
    if (has_more && bytes[3] != NO_SECOND)
        i->other = -1;
    if (i->mode == WITH_BYTE && count > at)
        i->distance = (int8_t)bytes[at];
    if (i->mode == WITH_WORD && count >= at + sizeof i->distance)
        memcpy(&i->distance, bytes + at, sizeof i->distance);
    return true;
}

typedef bool wanted(const struct instruction *i, int64_t what);

/* Whether code has such an instruction. What begins within another one is taken for one too. */
static bool has_instruction(struct module *m, uint64_t from, uint64_t to, wanted *is_wanted, int64_t what) {
    struct code code = {m, from, to - from, to > from && to - from <= MOST_CODE ? malloc(to - from) : NULL};
    bool is_found = false, is_read = code.bytes && read_code(&code);
    struct instruction one;
    for (uint64_t i = 0; is_read && !is_found && i < code.size; i++)
        is_found = read_instruction(code.bytes + i, code.size - i, &one) && is_wanted(&one, what);
    free(code.bytes);
    return is_found;
}

static bool sets_register(const struct instruction *i, int64_t reg) {
    return (i->code == STORE && i->mode == REGISTERS_ONLY && i->other == reg) ||
           ((i->code == LOAD || i->code == TAKE_ADDRESS) && i->reg == reg);
}

#define RBP_IN_CODE 5

static bool is_of_frame(const struct instruction *i, int64_t distance) {
    return (i->mode == WITH_BYTE || i->mode == WITH_WORD) && i->other == RBP_IN_CODE && i->distance == distance;
}

static bool stores(const struct instruction *i, int64_t distance) { return i->code == STORE && is_of_frame(i, distance); }

static bool takes_address(const struct instruction *i, int64_t distance) { return i->code == TAKE_ADDRESS && is_of_frame(i, distance); }

/* ---- A word in memory was set since if the code after the allocation stores to it, by a register that calls keep and that still has what it
   had then. */

/* As code has them, and debug information. */
static const struct {
    int64_t in_code;
    int number;
} kept[] = {{3, 3}, {RSP_IN_CODE, RSP}, {RBP_IN_CODE, RBP}, {12, 12}, {13, 13}, {14, 14}, {15, 15}};

#define CODE_REGISTERS 16

/* The register and the distance are one number. */
static bool stores_at(const struct instruction *i, int64_t what) {
    bool is_by_register = i->mode != REGISTERS_ONLY && i->other >= 0 && (i->mode != 0 || (i->other & 7) != RBP_IN_CODE);
    return i->code == STORE && is_by_register && i->distance * (int64_t)CODE_REGISTERS + i->other == what;
}

static bool is_stored_in(int frame, uint64_t at) {
    const struct frame *f = &frames[frame];
    const struct active *a = &active[frame];
    for (size_t i = 0; i < sizeof kept / sizeof *kept; i++) {
        int64_t distance = (int64_t)(at - f->registers[kept[i].number]);
        if (f->known >> kept[i].number & 1 && distance == (int32_t)distance &&
            has_instruction(f->in->module, a->allocated, a->at, stores_at, distance * CODE_REGISTERS + kept[i].in_code) &&
            !has_instruction(f->in->module, a->allocated, a->at, sets_register, kept[i].in_code))
            return true;
    }
    return false;
}

static bool is_stored_since(uint64_t at) {
    for (int i = 0; i < frame_count; i++)
        if (active[i].is_active && active[i].at > active[i].allocated && is_stored_in(i, at))
            return true;
    return false;
}

/* Whether it lies in a frame that was there then, or further out than what is known. */
static bool is_in_active_frame(uint64_t at) {
    for (int i = 0; i < frame_count && frames[i].has_cfa; i++)
        if (at < frames[i].cfa)
            return active[i].is_active;
    return true;
}

/* Whether a word may have been written before the memory was allocated. What isn't in memory is as old as its variable. */
bool may_be_old(const struct value *object, uint64_t offset) {
    uint64_t at = object->at + offset;
    return is_allocation_known && object->kind == IN_MEMORY && is_in_active_frame(at) && !is_stored_since(at);
}

/* ---- A variable that has different places in different parts of the code was set before a call if it has one in it that isn't a constant, or
   after it what the function was called with, or what a register has that calls keep and that nothing set since. */

static bool is_constant(const Dwarf_Op *operations, size_t count) {
    uint8_t atom = count ? operations[0].atom : DW_OP_lit0;
    return (atom >= DW_OP_lit0 && atom <= DW_OP_lit31) || (atom >= DW_OP_addr && atom <= DW_OP_consts && atom != DW_OP_deref) ||
           atom == DW_OP_implicit_value;
}

/* The number that code has for a register that calls keep; -1 of another one. */
static int kept_register(const Dwarf_Op *operation) {
    int reg = operation->atom - DW_OP_reg0;
    bool is_kept = reg == 3 || reg == RBP || (reg >= 12 && reg <= 15);
    return !is_kept ? -1 : reg == RBP ? RBP_IN_CODE : reg;
}

static bool is_set_before(Dwarf_Attribute *location, int frame, uint64_t address) {
    const struct active *a = &active[frame];
    Dwarf_Op *operations;
    size_t count;
    if (dwarf_getlocation_addr(location, a->allocated - 1, &operations, &count, 1) == 1 && !is_constant(operations, count))
        return true;
    if (dwarf_getlocation_addr(location, address, &operations, &count, 1) != 1 || !count)
        return true;
    int reg = kept_register(&operations[0]);
    return operations[0].atom == DW_OP_entry_value || operations[0].atom == DW_OP_GNU_entry_value ||
           (reg >= 0 && !has_instruction(frames[frame].in->module, a->allocated, a->at, sets_register, reg));
}

/* ---- One that has the same place everywhere is in the frame without optimisation, where an instruction sets it. With optimisation it is there
   because something has its address, which may set it. */

#define FRAME_HEAD 16 /* bytes between where rbp points to and the frame's end */

static enum age age_in_frame(int frame, const struct value *value) {
    const struct frame *f = &frames[frame];
    const struct active *a = &active[frame];
    Dwarf_Die function;
    Dwarf_Addr entry;
    int64_t distance = (int64_t)(value->at - f->registers[RBP]);
    if (value->kind != IN_MEMORY || !function_at(f->in->module, address_in(f), &function) || dwarf_entrypc(&function, &entry) != 0)
        return IS_STALE;
    bool is_by_rbp = f->has_cfa && f->known >> RBP & 1 && f->cfa == f->registers[RBP] + FRAME_HEAD;
    if (is_by_rbp && has_instruction(f->in->module, a->allocated, a->at, stores, distance))
        return IS_OF_NOW;
    return !is_by_rbp || has_instruction(f->in->module, entry, a->at, takes_address, distance) ? MAY_BE_STALE : IS_STALE;
}

/* ---- */

/* Whether a variable is what was there before, as far as that can be. A block that the allocation wasn't in came later, and code before the
   allocation comes round to it again. */
enum age age_of(Dwarf_Die *variable, Dwarf_Die *scope, int frame, uint64_t address, const struct value *value) {
    const struct active *a = &active[frame];
    Dwarf_Attribute location;
    if (!a->is_active || a->at < a->allocated || dwarf_haspc(scope, a->allocated - 1) <= 0)
        return IS_OF_NOW;
    if (!dwarf_attr_integrate(variable, DW_AT_location, &location))
        return IS_STALE;
    unsigned form = dwarf_whatform(&location);
    if (form == DW_FORM_sec_offset || form == DW_FORM_loclistx || form == DW_FORM_data4)
        return is_set_before(&location, frame, address) ? IS_STALE : IS_OF_NOW;
    return age_in_frame(frame, value);
}
