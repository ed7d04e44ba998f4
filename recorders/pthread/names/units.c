/* Code by address: units, functions, and what is inlined there. */
#include "names.h"

/* ---- Units by address, from the ranges of each, since not every compiler writes a table of them.

   GNU ld points what a unit says of a function that was thrown away as a copy at the copy that was kept, though other things may be
   inlined there. So several units can claim an address: the first of them in the file is the one whose code it is. */

/* Those that are sorted after others are looked at before them. */
static int by_range(const void *a, const void *b) {
    const struct unit_range *x = a, *y = b;
    if (x->from != y->from)
        return x->from < y->from ? -1 : 1;
    return x->unit.addr < y->unit.addr ? 1 : x->unit.addr > y->unit.addr ? -1 : 0;
}

static void add_ranges(struct module *m, Dwarf_Die *unit, Dwarf_Die *whole) {
    Dwarf_Addr base = 0, from, to;
    ptrdiff_t at = 0;
    while ((at = dwarf_ranges(unit, at, &base, &from, &to)) > 0) {
        struct unit_range range = {from, to, *whole};
        PUSH(m->ranges, m->range_count, range);
    }
}

static void read_ranges(struct module *m) {
    Dwarf_CU *cu = NULL;
    Dwarf_Die unit, part;
    uint8_t kind;
    Dwarf_Half version;
    m->has_ranges = true;
    while (dwarf_get_units(m->debug, cu, &cu, &version, &kind, &unit, &part) == 0)
        if (kind == DW_UT_compile || kind == DW_UT_skeleton || kind == DW_UT_partial)
            add_ranges(m, &unit, whole_unit(&unit, kind, &part));
    if (m->range_count)
        qsort(m->ranges, m->range_count, sizeof *m->ranges, by_range);
}

/* How many ranges begin at the address or before it. */
static size_t ranges_before(const struct module *m, uint64_t address) {
    size_t low = 0, high = m->range_count;
    while (low < high) {
        size_t middle = (low + high) / 2;
        if (m->ranges[middle].from <= address)
            low = middle + 1;
        else
            high = middle;
    }
    return low;
}

#define MOST_NESTED 64 /* ranges that may begin between one and an address in it */

/* ---- The functions of a unit. */

#define DEEPEST_NAMESPACE 12

static void add_function(struct unit_functions *to, Dwarf_Die *die) {
    Dwarf_Addr base = 0, from, end;
    ptrdiff_t at = 0;
    while ((at = dwarf_ranges(die, at, &base, &from, &end)) > 0) {
        struct function f = {from, end, *die};
        PUSH(to->list, to->count, f);
    }
}

static bool is_scope_of_functions(int tag) { return tag == DW_TAG_subprogram || tag == DW_TAG_lexical_block || is_class(tag); }

static void collect_functions(struct unit_functions *to, Dwarf_Die *die, int depth) {
    bool is_nested = to->has_nested;
    Dwarf_Die child;
    if (depth > DEEPEST_NAMESPACE || dwarf_child(die, &child) != 0)
        return;
    do {
        int tag = dwarf_tag(&child);
        if (tag == DW_TAG_subprogram)
            add_function(to, &child);
        if (tag == DW_TAG_namespace || (is_nested && is_scope_of_functions(tag)))
            collect_functions(to, &child, depth + 1);
    } while (dwarf_siblingof(&child, &child) == 0);
}

static const struct unit_functions *functions_of(struct module *m, Dwarf_Die *unit, bool has_nested) {
    for (size_t i = 0; i < m->unit_count; i++)
        if (m->units[i].unit == unit->addr && m->units[i].has_nested == has_nested)
            return &m->units[i];
    struct unit_functions new = {unit->addr, has_nested, NULL, 0};
    collect_functions(&new, unit, 0);
    PUSH(m->units, m->unit_count, new);
    return &m->units[m->unit_count - 1];
}

static bool function_in(const struct unit_functions *unit, uint64_t address, Dwarf_Die *function) {
    for (size_t i = 0; i < unit->count; i++)
        if (address >= unit->list[i].from && address < unit->list[i].to) {
            *function = unit->list[i].die;
            return true;
        }
    return false;
}

static bool function_of_units(struct module *m, uint64_t address, bool has_nested, Dwarf_Die *function) {
    if (!m || !has_debug(m))
        return false;
    if (!m->has_ranges)
        read_ranges(m);
    size_t last = ranges_before(m, address);
    for (size_t i = last; i-- > 0 && last - i <= MOST_NESTED;)
        if (address < m->ranges[i].to && function_in(functions_of(m, &m->ranges[i].unit, has_nested), address, function))
            return true;
    return false;
}

bool function_at(struct module *m, uint64_t address, Dwarf_Die *function) { return function_of_units(m, address, false, function); }

/* ---- What is inlined. */

static bool scope_within(Dwarf_Die *outer, uint64_t address, Dwarf_Die *inner) {
    Dwarf_Die child;
    if (dwarf_child(outer, &child) != 0)
        return false;
    do {
        int tag = dwarf_tag(&child);
        if ((tag == DW_TAG_lexical_block || tag == DW_TAG_inlined_subroutine) && dwarf_haspc(&child, address) > 0) {
            *inner = child;
            return true;
        }
    } while (dwarf_siblingof(&child, &child) == 0);
    return false;
}

/* The function is the last of the scopes. */
static int scopes_of_function(uint64_t address, Dwarf_Die *scopes) {
    int count = 1;
    while (count < SCOPES && scope_within(&scopes[SCOPES - count], address, &scopes[SCOPES - count - 1]))
        count++;
    memmove(scopes, &scopes[SCOPES - count], (size_t)count * sizeof *scopes);
    return count;
}

int scopes_at(struct module *m, uint64_t address, Dwarf_Die *scopes) {
    return function_at(m, address, &scopes[SCOPES - 1]) ? scopes_of_function(address, scopes) : 0;
}

int nested_scopes_at(struct module *m, uint64_t address, Dwarf_Die *scopes) {
    return function_of_units(m, address, true, &scopes[SCOPES - 1]) ? scopes_of_function(address, scopes) : 0;
}

Dwarf_Die *function_around(Dwarf_Die *scopes, int count, int from) {
    for (int i = from; i < count; i++)
        if (dwarf_tag(&scopes[i]) != DW_TAG_lexical_block)
            return &scopes[i];
    return NULL;
}

const char *function_name(Dwarf_Die *scopes, int count, int from) {
    Dwarf_Die *function = function_around(scopes, count, from);
    return function ? qualified(function) : "?";
}

bool line_at(struct module *m, uint64_t address, int *line, int *column) {
    size_t last = ranges_before(m, address);
    for (size_t i = last; i-- > 0 && last - i <= MOST_NESTED;) {
        if (address >= m->ranges[i].to)
            continue;
        Dwarf_Line *found = dwarf_getsrc_die(&m->ranges[i].unit, address);
        return found && dwarf_lineno(found, line) == 0 && dwarf_linecol(found, column) == 0;
    }
    return false;
}

/* ---- Functions that were merged since their code is the same, by the compiler or the linker: their address has several symbols. */

static int by_symbol(const void *a, const void *b) {
    const struct symbol *x = a, *y = b;
    return x->at != y->at ? (x->at < y->at ? -1 : 1) : strcmp(x->name, y->name);
}

static void read_symbols(struct module *m) {
    int count = dwfl_module_getsymtab(m->file);
    m->has_symbols = true;
    for (int i = 0; i < count; i++) {
        GElf_Sym symbol;
        GElf_Addr value;
        GElf_Word section;
        const char *name = dwfl_module_getsym_info(m->file, i, &symbol, &value, &section, NULL, NULL);
        struct symbol s = {symbol.st_value, name};
        if (name && strncmp(name, "_Z", 2) == 0 && GELF_ST_TYPE(symbol.st_info) == STT_FUNC && section != SHN_UNDEF && !strchr(name, '@'))
            PUSH(m->symbols, m->symbol_count, s);
    }
    if (m->symbol_count)
        qsort(m->symbols, m->symbol_count, sizeof *m->symbols, by_symbol);
}

/* How a constructor's or destructor's variant is marked. These have one address anyhow. */
static size_t variant_at(const char *name) {
    return (name[0] == 'C' || name[0] == 'D') && name[1] >= '0' && name[1] <= '4' ? 2 : 0;
}

static bool is_same_function(const char *a, const char *b) {
    while (*a && *b) {
        size_t skipped = variant_at(a) && variant_at(b) && *a == *b ? 2 : 1;
        if (skipped == 1 && *a != *b)
            return false;
        a += skipped;
        b += skipped;
    }
    return *a == *b;
}

static size_t first_symbol(const struct module *m, uint64_t at) {
    size_t low = 0, high = m->symbol_count;
    while (low < high) {
        size_t middle = (low + high) / 2;
        if (m->symbols[middle].at < at)
            low = middle + 1;
        else
            high = middle;
    }
    return low;
}

bool is_merged(struct module *m, uint64_t address) {
    Dwarf_Die function;
    Dwarf_Addr entry;
    if (!function_at(m, address, &function) || dwarf_entrypc(&function, &entry) != 0)
        return false;
    if (!m->has_symbols)
        read_symbols(m);
    size_t first = first_symbol(m, entry);
    for (size_t i = first + 1; i < m->symbol_count && m->symbols[i].at == entry; i++)
        if (!is_same_function(m->symbols[first].name, m->symbols[i].name))
            return true;
    return false;
}
