/* Locks by the constructor that follows the allocation: of a class as large as the memory, inlined there or called next. A compiler may make
   one allocation of several, so it counts only if all constructors of that size that the function calls give one text. */
#include "names.h"

#include <fcntl.h>
#include <unistd.h>

struct constructors {
    struct found found; /* what those that were met have in common */
    bool is_unclear;    /* they don't */
};

/* Whether a function is a constructor, and its class. */
static bool constructed(Dwarf_Die function, Dwarf_Die *class) {
    Dwarf_Die declared = declaration_of(function);
    const char *name = name_of(&declared);
    if (!name || !parent_of(&declared, class) || !is_class(dwarf_tag(class)) || !name_of(class))
        return false;
    size_t length = strcspn(name_of(class), "<");
    return strlen(name) == length && strncmp(name, name_of(class), length) == 0 && define(class) && size_of(class) == look->piece_bytes;
}

/* What has no lock there isn't what has the lock. */
static void note_constructor(Dwarf_Die function, struct constructors *c) {
    struct path path = {.count = 0};
    Dwarf_Die class;
    if (!constructed(function, &class) || !lock_in_piece(class, &path))
        return;
    const char *text = text_of(&path);
    c->is_unclear |= !text || (c->found.text && strcmp(c->found.text, text) != 0);
    c->found = (struct found){RULE_CONSTRUCTOR, text};
}

/* ---- Those that are inlined. */

static void note_inlined(Dwarf_Die *scope, struct constructors *c) {
    Dwarf_Die child, called;
    if (dwarf_child(scope, &child) != 0)
        return;
    do {
        int tag = dwarf_tag(&child);
        if (tag == DW_TAG_inlined_subroutine)
            note_constructor(child, c);
        if (tag == DW_TAG_inlined_subroutine || tag == DW_TAG_lexical_block)
            note_inlined(&child, c);
        if ((tag == DW_TAG_call_site || tag == DW_TAG_GNU_call_site) && called_by(&child, &called))
            note_constructor(called, c);
    } while (dwarf_siblingof(&child, &child) == 0);
}

/* Whether one is inlined in a function's own code, on the line of the call and no further to the left. */
static bool is_inlined_at(Dwarf_Die *scope, int line, int column) {
    Dwarf_Die child, class;
    if (dwarf_child(scope, &child) != 0)
        return false;
    do {
        int tag = dwarf_tag(&child);
        if (tag == DW_TAG_lexical_block && is_inlined_at(&child, line, column))
            return true;
        if (tag == DW_TAG_inlined_subroutine && (int)number_of(&child, DW_AT_call_line, 0) == line &&
            (int)number_of(&child, DW_AT_call_column, 0) >= column && constructed(child, &class))
            return true;
    } while (dwarf_siblingof(&child, &child) == 0);
    return false;
}

/* Of constructors that do the same the compiler keeps one, and nothing tells which others there were. */
static bool is_only_in_unit(struct module *m, Dwarf_Die *function) {
    Dwarf_Die unit;
    const char *only;
    return dwarf_diecu(function, &unit, NULL, NULL) && only_of_size(m, &unit, true, &only);
}

/* ---- Those that are called. */

#define NEXT_BYTES 96
#define CALL 0xe8
#define CALL_BYTES 5
#define CALL_BY_TABLE 0xff /* and the next byte */
#define BY_TABLE 0x15

bool read_code(struct code *code) {
    GElf_Phdr part;
    size_t count;
    bool is_read = false;
    int file = code->module->elf && elf_getphdrnum(code->module->elf, &count) == 0 ? open(code->module->path, O_RDONLY | O_CLOEXEC) : -1;
    if (file < 0)
        return false;
    for (size_t i = 0; i < count && !is_read; i++)
        if (gelf_getphdr(code->module->elf, (int)i, &part) && part.p_type == PT_LOAD && code->at >= part.p_vaddr &&
            code->at - part.p_vaddr + code->size <= part.p_filesz)
            is_read = pread(file, code->bytes, code->size, (off_t)(code->at - part.p_vaddr + part.p_offset)) == (ssize_t)code->size;
    close(file);
    return is_read;
}

/* Whether a call may begin there, and where it leads to, or 0 if that isn't seen. */
static bool is_call(const struct code *code, uint64_t i, uint64_t *to) {
    int32_t distance;
    *to = 0;
    if (i + CALL_BYTES > code->size)
        return false;
    if (code->bytes[i] == CALL_BY_TABLE)
        return code->bytes[i + 1] == BY_TABLE;
    memcpy(&distance, code->bytes + i + 1, sizeof distance);
    *to = code->at + i + CALL_BYTES + (uint64_t)(int64_t)distance;
    return code->bytes[i] == CALL && *to >= code->module->from && *to < code->module->to;
}

static bool function_from(struct module *m, uint64_t address, Dwarf_Die *function) {
    Dwarf_Addr entry;
    return function_at(m, address, function) && dwarf_entrypc(function, &entry) == 0 && entry == address;
}

/* The first call after the allocation is the constructor's. */
static bool is_called_next(struct module *m, uint64_t after) {
    unsigned char bytes[NEXT_BYTES];
    struct code code = {m, after, NEXT_BYTES, bytes};
    Dwarf_Die function, class;
    uint64_t to;
    if (!read_code(&code))
        return false;
    for (uint64_t i = 0; i < code.size; i++)
        if (is_call(&code, i, &to))
            return to && function_from(m, to, &function) && constructed(function, &class);
    return false;
}

static void note_calls_in(struct code *code, struct constructors *c) {
    Dwarf_Die function;
    uint64_t to;
    for (uint64_t i = 0; i < code->size; i++)
        if (is_call(code, i, &to) && to && function_from(code->module, to, &function))
            note_constructor(function, c);
}

static void note_called(struct module *m, Dwarf_Die *function, struct constructors *c) {
    Dwarf_Addr base = 0, from, end;
    ptrdiff_t at = 0;
    while ((at = dwarf_ranges(function, at, &base, &from, &end)) > 0) {
        struct code code = {m, from, end - from, end - from <= MOST_CODE ? malloc(end - from) : NULL};
        bool is_read = code.bytes && read_code(&code);
        c->is_unclear |= !is_read;
        if (is_read)
            note_calls_in(&code, c);
        free(code.bytes);
    }
}

bool by_constructor(struct module *m, Dwarf_Die *scopes, int count, uint64_t after, struct found *found) {
    struct constructors c = {.is_unclear = false};
    int innermost = 0, line, column;
    while (innermost + 1 < count && dwarf_tag(&scopes[innermost]) == DW_TAG_lexical_block)
        innermost++;
    bool is_inlined = line_at(m, after - 1, &line, &column) && line && is_inlined_at(&scopes[innermost], line, column);
    if (is_inlined ? !is_only_in_unit(m, &scopes[count - 1]) : !is_called_next(m, after))
        return false;
    note_inlined(&scopes[count - 1], &c);
    note_called(m, &scopes[count - 1], &c);
    if (c.is_unclear || !c.found.text)
        return false;
    *found = c.found;
    return true;
}
