/* The rules of return addresses on x86-64, as the modules' .eh_frame sections have them. Each one is kept when it was read. */
#include "rules.h"

#include <string.h>

#ifdef __x86_64__

static const struct rule no_rule = {BASE_NONE, 0, SAVED_NOT, 0};

/* ---- Reading of .eh_frame. */

static int32_t s32(const uint8_t *p) {
    int32_t n;
    memcpy(&n, p, sizeof n);
    return n;
}

static uint32_t u32(const uint8_t *p) { return (uint32_t)s32(p); }

static uint64_t read_unsigned(const uint8_t **p) {
    uint64_t n = 0;
    for (int shift = 0;; shift += 7) {
        uint8_t byte = *(*p)++;
        n |= shift < 64 ? (uint64_t)(byte & 0x7f) << shift : 0;
        if (!(byte & 0x80))
            return n;
    }
}

static int64_t read_signed(const uint8_t **p) {
    uint64_t n = 0;
    int shift = 0;
    uint8_t byte;
    do {
        byte = *(*p)++;
        n |= shift < 64 ? (uint64_t)(byte & 0x7f) << shift : 0;
        shift += 7;
    } while (byte & 0x80);
    if (shift < 64 && byte & 0x40)
        n |= ~UINT64_C(0) << shift;
    return (int64_t)n;
}

#define POINTER_RELATIVE_4 0x1b /* four bytes, relative to where they stand */
#define COUNT_4 0x03
#define TABLE_RELATIVE_4 0x3b

struct description { /* of a function, and of what it has in common with others */
    uintptr_t from, to;
    const uint8_t *common, *common_end, *own, *own_end;
    uint64_t code_step;
    int64_t data_step;
};

/* The entry of the last function that begins at the address or before it. */
static const uint8_t *entry_of(const uint8_t *table, uintptr_t address) {
    if (table[0] != 1 || table[1] != POINTER_RELATIVE_4 || table[2] != COUNT_4 || table[3] != TABLE_RELATIVE_4)
        return NULL;
    const uint8_t *rows = table + 12;
    size_t low = 0, high = u32(table + 8);
    while (low < high) {
        size_t middle = (low + high) / 2;
        if ((uintptr_t)table + (uintptr_t)(intptr_t)s32(rows + middle * 8) <= address)
            low = middle + 1;
        else
            high = middle;
    }
    return low ? table + s32(rows + (low - 1) * 8 + 4) : NULL;
}

/* What several functions have in common. False if it is of a kind that isn't followed, as a signal's frame. */
static bool read_common(const uint8_t *p, struct description *d, bool *has_lengths) {
    uint32_t length = u32(p);
    if (length == 0 || length == UINT32_MAX || u32(p + 4) != 0)
        return false;
    d->common_end = p + 4 + length;
    uint8_t version = p[8];
    const char *kinds = (const char *)p + 9;
    p = (const uint8_t *)kinds + length_of(kinds) + 1;
    d->code_step = read_unsigned(&p);
    d->data_step = read_signed(&p);
    if (version == 1)
        p++;
    else
        read_unsigned(&p);
    *has_lengths = kinds[0] == 'z';
    const uint8_t *after = p;
    if (*has_lengths) {
        uint64_t more = read_unsigned(&p);
        after = p + more;
    }
    bool is_right = false;
    for (const char *kind = kinds; *kind; kind++) {
        if (*kind == 'S' || (*kind == 'P' && (*p & 0x0f) != 0x0b && (*p & 0x0f) != 0x0c && (*p & 0x0f) != 0x03 && *p != 0))
            return false;
        if (*kind == 'R')
            is_right = *p++ == POINTER_RELATIVE_4;
        else if (*kind == 'L')
            p++;
        else if (*kind == 'P')
            p += 1 + ((*p & 0x0f) == 0x0c || *p == 0 ? 8 : 4);
    }
    d->common = after;
    return is_right;
}

static bool describe(uintptr_t address, struct description *d) {
    const struct module *m = module_of(address);
    const uint8_t *entry = m && m->unwinding ? entry_of(m->unwinding, address) : NULL;
    if (!entry)
        return false;
    uint32_t length = u32(entry);
    if (length == 0 || length == UINT32_MAX)
        return false;
    bool has_lengths;
    if (!read_common(entry + 4 - u32(entry + 4), d, &has_lengths))
        return false;
    const uint8_t *p = entry + 8;
    d->from = (uintptr_t)p + (uintptr_t)(intptr_t)s32(p);
    d->to = d->from + u32(p + 4);
    p += 8;
    if (has_lengths) {
        uint64_t more = read_unsigned(&p);
        p += more;
    }
    d->own = p;
    d->own_end = entry + 4 + length;
    return address < d->to;
}

/* ---- The instructions of .eh_frame, as far as they tell a frame's end and rbp. */

#define BP 6
#define SP 7
#define RETURN 16
#define KEPT 8

struct machine {
    struct rule now, first, kept[KEPT];
    uint32_t kept_count;
    uintptr_t at;
    bool is_lost; /* something that isn't followed, or the outermost frame */
};

static void set_saved(struct machine *m, uint64_t reg, enum saved saved, int64_t at) {
    if (reg == BP) {
        m->now.saved = saved;
        m->now.saved_at = (int32_t)at;
    }
}

static void set_base(struct machine *m, uint64_t reg) {
    m->now.base = reg == SP ? BASE_SP : reg == BP ? BASE_BP : BASE_NONE;
}

/* rbp plus a number, which is what a function writes down that aligns its stack. */
static bool read_expression(const uint8_t **p, bool is_address, int64_t *offset) {
    uint64_t length = read_unsigned(p);
    const uint8_t *block = *p, *end = block + length;
    *p = end;
    if (length < 2 || block[0] != 0x70 + BP)
        return false;
    block++;
    *offset = read_signed(&block);
    return is_address ? block == end : block + 1 == end && *block == 0x06;
}

static void end_by_expression(struct machine *m, const uint8_t **p) {
    int64_t offset = 0;
    m->now.base = read_expression(p, false, &offset) ? BASE_AT_BP : BASE_NONE;
    m->now.offset = (int32_t)offset;
}

static void save_by_expression(struct machine *m, const uint8_t **p) {
    uint64_t reg = read_unsigned(p);
    int64_t offset = 0;
    bool is_followed = read_expression(p, true, &offset);
    if (reg == BP && !is_followed)
        m->is_lost = true;
    set_saved(m, reg, SAVED_AT_BP, offset);
}

static void restore(struct machine *m, uint64_t reg) { set_saved(m, reg, m->first.saved, m->first.saved_at); }

static void keep(struct machine *m) {
    if (m->kept_count < KEPT)
        m->kept[m->kept_count++] = m->now;
    else
        m->is_lost = true;
}

static void give_kept(struct machine *m) {
    if (m->kept_count)
        m->now = m->kept[--m->kept_count];
    else
        m->is_lost = true;
}

static void run_base(struct machine *m, uint8_t code, const uint8_t **p, const struct description *d) {
    if (code != 0x0e && code != 0x13)
        set_base(m, read_unsigned(p));
    if (code == 0x0c || code == 0x0e)
        m->now.offset = (int32_t)read_unsigned(p);
    else if (code == 0x12 || code == 0x13)
        m->now.offset = (int32_t)(read_signed(p) * d->data_step);
}

static void run_saved(struct machine *m, uint8_t code, const uint8_t **p, const struct description *d) {
    uint64_t reg = read_unsigned(p);
    int64_t at = code == 0x11 ? read_signed(p) : (int64_t)read_unsigned(p);
    set_saved(m, reg, SAVED_IN_FRAME, at * d->data_step);
}

static void run_odd(struct machine *m, uint8_t code, const uint8_t **p) {
    uint64_t reg = code == 0x2e ? 0 : read_unsigned(p);
    if (code == 0x07)
        m->is_lost |= reg == RETURN || reg == BP;
    else if (code == 0x08)
        set_saved(m, reg, SAVED_NOT, 0);
    else if (code == 0x2e)
        read_unsigned(p);
    else
        m->is_lost = true;
}

static void run_long(struct machine *m, uint8_t code, const uint8_t **p, const struct description *d) {
    switch (code) {
    case 0x00: break;
    case 0x02: m->at += *(*p)++ * d->code_step; break;
    case 0x03: m->at += (uint32_t)((*p)[0] | (*p)[1] << 8) * d->code_step, *p += 2; break;
    case 0x04: m->at += u32(*p) * d->code_step, *p += 4; break;
    case 0x05: case 0x11: run_saved(m, code, p, d); break;
    case 0x06: restore(m, read_unsigned(p)); break;
    case 0x0a: keep(m); break;
    case 0x0b: give_kept(m); break;
    case 0x0c: case 0x0d: case 0x0e: case 0x12: case 0x13: run_base(m, code, p, d); break;
    case 0x0f: end_by_expression(m, p); break;
    case 0x10: save_by_expression(m, p); break;
    default: run_odd(m, code, p);
    }
}

static void run(struct machine *m, const uint8_t *p, const uint8_t *end, const struct description *d, uintptr_t address) {
    while (p < end && m->at <= address && !m->is_lost) {
        uint8_t code = *p++;
        if (code >> 6 == 1)
            m->at += (code & 0x3f) * d->code_step;
        else if (code >> 6 == 2)
            set_saved(m, code & 0x3f, SAVED_IN_FRAME, (int64_t)read_unsigned(&p) * d->data_step);
        else if (code >> 6 == 3)
            restore(m, code & 0x3f);
        else
            run_long(m, code, &p, d);
    }
}

static struct rule read_rule(uintptr_t address) {
    struct description d;
    if (!describe(address, &d))
        return no_rule;
    struct machine m;
    m.now = m.first = no_rule;
    m.kept_count = 0;
    m.at = d.from;
    m.is_lost = false;
    run(&m, d.common, d.common_end, &d, UINTPTR_MAX);
    m.first = m.now;
    m.at = d.from;
    run(&m, d.own, d.own_end, &d, address);
    return m.is_lost ? no_rule : m.now;
}

/* ---- Rules that were read. A word and the address mixed with it are written one after the other: a reader that finds a half of
   each finds that they don't fit. */

#define RULES 8192
#define FIRST_RULES 64
struct known_rule {
    uint64_t word, check;
};
TABLE(struct known_rule, rules, FIRST_RULES, RULES);

/* So many of them are used: all when so many were read that the first ones don't suffice. */
static uint32_t rules_in_use = FIRST_RULES, rules_read;

#define FIELD_BITS 29
#define FIELD_MASK ((UINT64_C(1) << FIELD_BITS) - 1)

static uint64_t packed(struct rule r) {
    return (uint64_t)r.base << 62 | (uint64_t)r.saved << 60 | ((uint64_t)(uint32_t)r.offset & FIELD_MASK) << FIELD_BITS |
           ((uint64_t)(uint32_t)r.saved_at & FIELD_MASK);
}

static int32_t field(uint64_t word) { return (int32_t)(uint32_t)(word << (32 - FIELD_BITS)) >> (32 - FIELD_BITS); }

static struct rule unpacked(uint64_t word) {
    return (struct rule){(enum base)(word >> 62), field(word >> FIELD_BITS & FIELD_MASK), (enum saved)(word >> 60 & 3),
                         field(word & FIELD_MASK)};
}

struct rule rule_of(uintptr_t caller) {
    uint64_t key = (caller << 16 ^ LOAD(&rules_epoch)) | 1;
    size_t slot = (caller ^ caller >> 11) & (__atomic_load_n(&rules_in_use, __ATOMIC_RELAXED) - 1);
    struct known_rule *known = NTH(rules, slot);
    uint64_t word = __atomic_load_n(&known->word, __ATOMIC_RELAXED);
    if (LIKELY((__atomic_load_n(&known->check, __ATOMIC_RELAXED) ^ word) == key))
        return unpacked(word);
    struct rule rule = read_rule(caller - 1);
    if (UNLIKELY(ADD(&rules_read, 1) == FIRST_RULES))
        STORE(&rules_in_use, RULES);
    word = packed(rule);
    __atomic_store_n(&known->word, word, __ATOMIC_RELAXED);
    __atomic_store_n(&known->check, word ^ key, __ATOMIC_RELAXED);
    return rule;
}

/* Where the function begins that goes on at `caller`, whose rule was read. */
uintptr_t function_of(uintptr_t caller) {
    struct description d;
    return describe(caller - 1, &d) ? d.from : 0;
}

#endif
