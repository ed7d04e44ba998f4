/* The stack of a look: its memory, and the frames that it shows. */
#include "names.h"

const struct raw_look *look;
struct frame frames[FRAMES + 1];
int frame_count;

/* An address after a call belongs to what follows it. */
uint64_t address_in(const struct frame *f) { return f->registers[RIP] - f->in->bias - (f->is_call ? 1 : 0); }

bool read_stack(uint64_t at, void *to, uint64_t bytes) {
    uint64_t from = look->registers[RAW_RSP], there = look->bytes < RAW_LOOK_STACK ? look->bytes : RAW_LOOK_STACK;
    if (at < from || at - from > there || bytes > there - (at - from))
        return false;
    memcpy(to, look->stack + (at - from), bytes);
    return true;
}

bool read_word(uint64_t at, uint64_t *word) { return read_stack(at, word, sizeof *word); }

static void set(struct frame *f, int reg, uint64_t word) {
    f->registers[reg] = word;
    f->known |= UINT32_C(1) << reg;
}

static bool knows(const struct frame *f, int reg) { return f->known >> reg & 1; }

/* What the caller had in a register. */
static void restore(int at, Dwarf_Frame *rules, uint64_t cfa, int reg) {
    const struct frame *f = &frames[at];
    Dwarf_Op space[3], *operations;
    size_t count;
    uint64_t word;
    bool is_address;
    if (dwarf_frame_register(rules, reg, space, &operations, &count) != 0)
        return;
    if (count == 0) {
        if (!operations && knows(f, reg))
            set(&frames[at + 1], reg, f->registers[reg]);
        return;
    }
    if (!evaluate_rule(operations, count, at, &cfa, &word, &is_address))
        return;
    if (!is_address || read_word(word, &word))
        set(&frames[at + 1], reg, word);
}

static Dwarf_Frame *rules_at(const struct loaded *in, uint64_t address) {
    Dwarf_Addr bias;
    Dwarf_Frame *rules = NULL;
    Dwarf_CFI *cfi = dwfl_module_eh_cfi(in->module->file, &bias);
    if (cfi && dwarf_cfi_addrframe(cfi, address, &rules) == 0)
        return rules;
    cfi = dwfl_module_dwarf_cfi(in->module->file, &bias);
    return cfi && dwarf_cfi_addrframe(cfi, address, &rules) == 0 ? rules : NULL;
}

bool stack_pointer_at(const struct loaded *in, uint64_t address, int64_t *below) {
    Dwarf_Frame *rules = rules_at(in, address);
    Dwarf_Op *operations;
    size_t count;
    bool is_known = rules && dwarf_frame_cfa(rules, &operations, &count) == 0 && count == 1 &&
                    operations[0].atom == DW_OP_bregx && operations[0].number == RSP;
    *below = is_known ? (int64_t)operations[0].number2 : 0;
    free(rules);
    return is_known;
}

static bool set_frame_end(int at, Dwarf_Frame *rules) {
    Dwarf_Op *operations;
    size_t count;
    bool is_address;
    struct frame *f = &frames[at];
    f->has_cfa = dwarf_frame_cfa(rules, &operations, &count) == 0 && count &&
                 evaluate_rule(operations, count, at, NULL, &f->cfa, &is_address);
    return f->has_cfa;
}

static bool go_to_caller(int at) {
    struct frame *f = &frames[at], *caller = &frames[at + 1];
    Dwarf_Frame *rules = f->in->module->file ? rules_at(f->in, address_in(f)) : NULL;
    memset(caller, 0, sizeof *caller);
    if (rules && set_frame_end(at, rules))
        for (int reg = 0; reg < REGISTERS; reg++)
            restore(at, rules, f->cfa, reg);
    free(rules);
    if (!f->has_cfa || !knows(caller, RIP) || !caller->registers[RIP])
        return false;
    set(caller, RSP, f->cfa);
    caller->is_call = true;
    caller->in = loaded_at(caller->registers[RIP] - 1);
    return caller->in != NULL;
}

void unwind(void) {
    static const int numbers[RAW_REGISTERS] = {
        [RAW_RBX] = 3, [RAW_RBP] = RBP, [RAW_RSP] = RSP, [RAW_R12] = 12, [RAW_R13] = 13, [RAW_R14] = 14, [RAW_R15] = 15, [RAW_RIP] = RIP};
    memset(frames, 0, sizeof frames);
    frame_count = 0;
    for (int i = 0; i < RAW_REGISTERS; i++)
        set(&frames[0], numbers[i], look->registers[i]);
    frames[0].in = look->bytes ? loaded_at(look->registers[RAW_RIP]) : NULL;
    if (!frames[0].in)
        return;
    frame_count = 1;
    while (frame_count < FRAMES && go_to_caller(frame_count - 1))
        frame_count++;
}
