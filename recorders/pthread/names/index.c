/* All static variables and types of a module. */
#include "names.h"

#define DEEPEST 20

/* A location that isn't a list: the address of a static variable, or the offset of a thread-local one. */
static bool has_plain_location(Dwarf_Die *die, Dwarf_Attribute *a) {
    if (!dwarf_attr(die, DW_AT_location, a))
        return false;
    unsigned form = dwarf_whatform(a);
    return form != DW_FORM_sec_offset && form != DW_FORM_loclistx && form != DW_FORM_data4;
}

static bool address_of(Dwarf_Attribute *a, Dwarf_Op *operation, uint64_t *at) {
    Dwarf_Attribute indirect;
    Dwarf_Addr address;
    *at = operation->number;
    if (operation->atom == DW_OP_addr)
        return true;
    if (operation->atom != DW_OP_addrx && operation->atom != DW_OP_GNU_addr_index)
        return false;
    if (dwarf_getlocation_attr(a, operation, &indirect) != 0 || dwarf_formaddr(&indirect, &address) != 0)
        return false;
    *at = address;
    return true;
}

static bool is_thread_address(const Dwarf_Op *operation) {
    return operation->atom == DW_OP_form_tls_address || operation->atom == DW_OP_GNU_push_tls_address;
}

/* Of a split file it is in a table: from clang the offset, and from gcc the address. What may be either is neither. */
static bool thread_offset_in_table(const struct module *m, uint64_t word, uint64_t *at) {
    GElf_Phdr part;
    size_t count = 0;
    bool is_offset = false, is_address = false;
    if (!m->elf || elf_getphdrnum(m->elf, &count) != 0)
        return false;
    for (size_t i = 0; i < count; i++) {
        if (!gelf_getphdr(m->elf, (int)i, &part) || part.p_type != PT_TLS)
            continue;
        is_offset = word < part.p_memsz;
        is_address = word - part.p_vaddr < part.p_memsz;
        *at = is_address ? word - part.p_vaddr : word;
    }
    return is_offset != is_address;
}

static bool thread_offset_of(const struct module *m, Dwarf_Attribute *a, Dwarf_Op *operation, uint64_t *at) {
    Dwarf_Attribute indirect;
    Dwarf_Word word;
    *at = operation->number;
    if (operation->atom != DW_OP_constx && operation->atom != DW_OP_GNU_const_index)
        return true;
    return dwarf_getlocation_attr(a, operation, &indirect) == 0 && dwarf_formudata(&indirect, &word) == 0 &&
           thread_offset_in_table(m, word, at);
}

static void index_variable(struct module *m, Dwarf_Die *die) {
    Dwarf_Attribute a;
    Dwarf_Op *operations;
    size_t count;
    struct variable v = {0, *die};
    if (!has_plain_location(die, &a) || dwarf_getlocation(&a, &operations, &count) != 0)
        return;
    if (count == 2 && is_thread_address(&operations[1])) {
        if (thread_offset_of(m, &a, operations, &v.at))
            PUSH(m->thread_variables, m->thread_variable_count, v);
    } else if (count == 1 && address_of(&a, operations, &v.at) && v.at)
        PUSH(m->variables, m->variable_count, v);
}

bool address_of_variable(Dwarf_Die *die, uint64_t *at) {
    Dwarf_Attribute a;
    Dwarf_Op *operations;
    size_t count;
    return has_plain_location(die, &a) && dwarf_getlocation(&a, &operations, &count) == 0 && count == 1 && address_of(&a, operations, at);
}

/* A class without a name may have that of a typedef, but is only a part of a class that it is in. */
static void index_type(struct module *m, Dwarf_Die *die, bool is_in_class) {
    Dwarf_Attribute a;
    const char *name = dwarf_attr(die, DW_AT_name, &a) ? dwarf_formstring(&a) : NULL;
    struct indexed_type type = {name ? name : "", number_of(die, DW_AT_byte_size, 0), *die};
    if ((name || !is_in_class) && !dwarf_hasattr(die, DW_AT_declaration))
        PUSH(m->types, m->type_count, type);
}

/* The name that a typedef gives to a class of the file that has none of its own. */
static void index_typedef(struct module *m, Dwarf_Die *die) {
    Dwarf_Die class;
    if (!name_of(die) || !type_of(die, &class) || !is_class(dwarf_tag(&class)) || name_of(&class))
        return;
    struct indexed_type type = {name_of(die), number_of(&class, DW_AT_byte_size, 0), class};
    PUSH(m->typedefs, m->typedef_count, type);
}

/* What is only a copy of another entry isn't noted. */
static void index_function(struct module *m, Dwarf_Die *die) {
    struct indexed_type function = {name_of(die), 0, *die};
    if (function.name && !dwarf_hasattr(die, DW_AT_abstract_origin))
        PUSH(m->functions, m->function_count, function);
}

static void index_below(struct module *m, Dwarf_Die *die, int depth) {
    Dwarf_Die child;
    if (depth > DEEPEST || dwarf_child(die, &child) != 0)
        return;
    do {
        int tag = dwarf_tag(&child);
        if (tag == DW_TAG_variable)
            index_variable(m, &child);
        if (is_class(tag))
            index_type(m, &child, is_class(dwarf_tag(die)));
        if (tag == DW_TAG_subprogram)
            index_function(m, &child);
        if (tag == DW_TAG_typedef && depth == 0)
            index_typedef(m, &child);
        if (is_class(tag) || tag == DW_TAG_namespace || tag == DW_TAG_lexical_block ||
            (tag == DW_TAG_subprogram && !dwarf_hasattr(&child, DW_AT_declaration)))
            index_below(m, &child, depth + 1);
    } while (dwarf_siblingof(&child, &child) == 0);
}

static int by_address(const void *a, const void *b) {
    const struct variable *x = a, *y = b;
    if (x->at != y->at)
        return x->at < y->at ? -1 : 1;
    return x->die.addr < y->die.addr ? -1 : x->die.addr > y->die.addr;
}

static int by_name(const void *a, const void *b) {
    const struct indexed_type *x = a, *y = b;
    int order = strcmp(x->name, y->name);
    return order ? order : x->die.addr < y->die.addr ? -1 : x->die.addr > y->die.addr;
}

static void sort(void *list, size_t count, size_t size, int (*order)(const void *, const void *)) {
    if (count)
        qsort(list, count, size, order);
}

void index_module(struct module *m) {
    Dwarf_CU *cu = NULL;
    Dwarf_Die unit, part;
    uint8_t kind;
    Dwarf_Half version;
    if (m->is_indexed || !has_debug(m))
        return;
    m->is_indexed = true;
    while (dwarf_get_units(m->debug, cu, &cu, &version, &kind, &unit, &part) == 0)
        index_below(m, whole_unit(&unit, kind, &part), 0);
    sort(m->variables, m->variable_count, sizeof *m->variables, by_address);
    sort(m->thread_variables, m->thread_variable_count, sizeof *m->thread_variables, by_address);
    sort(m->types, m->type_count, sizeof *m->types, by_name);
    sort(m->typedefs, m->typedef_count, sizeof *m->typedefs, by_name);
    sort(m->functions, m->function_count, sizeof *m->functions, by_name);
}

size_t first_named(const struct indexed_type *types, size_t count, const char *name) {
    size_t low = 0, high = count;
    while (low < high) {
        size_t middle = (low + high) / 2;
        if (strcmp(types[middle].name, name) < 0)
            low = middle + 1;
        else
            high = middle;
    }
    return low;
}

static bool defined_in(struct module *m, const char *name, const char *wanted, Dwarf_Die *type) {
    index_module(m);
    for (size_t i = first_named(m->types, m->type_count, name); i < m->type_count && strcmp(m->types[i].name, name) == 0; i++) {
        Dwarf_Die die = m->types[i].die;
        if (strcmp(qualified(&die), wanted) == 0) {
            *type = die;
            return true;
        }
    }
    return false;
}

#define C_PLUS_PLUS_17 0x2a /* languages that an older header doesn't know */
#define C_PLUS_PLUS_20 0x2b

/* Whether a class of that name is the same one in all modules of a program: one of C++ that isn't a file's own. */
static bool is_of_all_modules(Dwarf_Die *type, const char *wanted) {
    Dwarf_Die unit;
    if (strstr(wanted, ANONYMOUS) || !dwarf_diecu(type, &unit, NULL, NULL))
        return false;
    switch (dwarf_srclang(&unit)) {
    case DW_LANG_C_plus_plus:
    case DW_LANG_C_plus_plus_03:
    case DW_LANG_C_plus_plus_11:
    case DW_LANG_C_plus_plus_14:
    case C_PLUS_PLUS_17:
    case C_PLUS_PLUS_20:
        return true;
    default:
        return false;
    }
}

/* A library may define what the program only declares. Definitions that differ are none. */
static bool defined_elsewhere(const struct module *m, const char *name, const char *wanted, Dwarf_Die *type) {
    Dwarf_Die found;
    uint64_t size = 0;
    for (uint32_t i = 1; i <= count_of(RAW_MODULES); i++) {
        const struct loaded *in = loaded_numbered(i);
        if (!in || in->module == m || is_recorder(in->module) || !defined_in(in->module, name, wanted, &found))
            continue;
        if (size && size_of(&found) != size)
            return false;
        size = size_of(&found);
    }
    if (size)
        *type = found;
    return size != 0;
}

bool index_die(Dwarf_Die *type) {
    struct module *m = module_of_die(type);
    const char *name = name_of(type);
    if (!m || !name)
        return false;
    const char *wanted = qualified(type);
    return defined_in(m, name, wanted, type) || (is_of_all_modules(type, wanted) && defined_elsewhere(m, name, wanted, type));
}
