/* Where code is in the source: its function, and the callers that this was inlined into, as `addr2line -a -f -i` writes them.

   Of some line tables of DWARF 5 addr2line takes another file than the right one, and it doesn't read split files. */
#include "names.h"

static const char unknown[] = "??";

/* Languages that are newer than some versions of libdw. */
enum { CPLUSPLUS_17 = 0x2a, CPLUSPLUS_20 = 0x2b, C_17 = 0x2c };

/* Of another language the names are written in another way, which is left to addr2line. */
static bool is_c(Dwarf_Die *unit) {
    switch (dwarf_srclang(unit)) {
    case DW_LANG_C:
    case DW_LANG_C89:
    case DW_LANG_C99:
    case DW_LANG_C11:
    case DW_LANG_C_plus_plus:
    case DW_LANG_C_plus_plus_03:
    case DW_LANG_C_plus_plus_11:
    case DW_LANG_C_plus_plus_14:
    case CPLUSPLUS_17:
    case CPLUSPLUS_20:
    case C_17:
        return true;
    default:
        return false;
    }
}

/* A function's mangled name, which has its parameters. */
static const char *mangled(Dwarf_Die *function) {
    Dwarf_Attribute a;
    bool is_said = dwarf_attr_integrate(function, DW_AT_linkage_name, &a) || dwarf_attr_integrate(function, DW_AT_MIPS_linkage_name, &a);
    return is_said ? dwarf_formstring(&a) : NULL;
}

/* gcc doesn't say the mangled name of what has a local type, as a lambda. That of a function which isn't inlined is its symbol. */
static const char *mangled_symbol(struct module *m, Dwarf_Die *function) {
    Dwarf_Addr entry, bias;
    GElf_Off offset;
    GElf_Sym symbol;
    bool is_whole = dwarf_tag(function) == DW_TAG_subprogram && dwarf_entrypc(function, &entry) == 0;
    if (!is_whole || !dwfl_module_getelf(m->file, &bias))
        return NULL;
    const char *name = dwfl_module_addrinfo(m->file, entry + bias, &offset, &symbol, NULL, NULL, NULL);
    return name && offset == 0 && strncmp(name, "_Z", 2) == 0 ? name : NULL;
}

static const char *name_of_code(struct module *m, Dwarf_Die *function) {
    const char *name = mangled(function);
    if (!name)
        name = mangled_symbol(m, function);
    if (!name)
        name = qualified(function);
    return strstr(name, "{unnamed}") && name_of(function) ? name_of(function) : name;
}

/* As a line, which a path or a name with a line's end would break. */
static void write_line(const char *text) {
    for (; *text; text++)
        putchar((unsigned char)*text < ' ' ? '?' : *text);
    putchar('\n');
}

static void write_frame(const char *name, const char *path, unsigned line) {
    write_line(name);
    write_line(line ? written("%s:%u", path ? path : unknown, line) : written("%s:?", path ? path : unknown));
}

/* What the line table says of an address, which libdw also finds for the unit of a split file. */
static const char *path_at(Dwarf_Die *unit, uint64_t address, unsigned *line) {
    Dwarf_Line *found = dwarf_getsrc_die(unit, address);
    int number = 0;
    const char *path = found && dwarf_lineno(found, &number) == 0 ? dwarf_linesrc(found, NULL, NULL) : NULL;
    *line = number > 0 ? (unsigned)number : 0;
    return path ? absolute_path(unit, path) : NULL;
}

/* Where an inlined function is called. */
static const char *path_of_call(Dwarf_Die *unit, Dwarf_Die *inlined, unsigned *line) {
    Dwarf_Files *files;
    size_t count;
    uint64_t file = number_of(inlined, DW_AT_call_file, UINT64_MAX);
    *line = (unsigned)number_of(inlined, DW_AT_call_line, 0);
    if (dwarf_getsrcfiles(unit, &files, &count) != 0 || file >= count)
        return NULL;
    const char *path = dwarf_filesrc(files, file, NULL, NULL);
    return path ? absolute_path(unit, path) : NULL;
}

static void write_frames(struct module *m, Dwarf_Die *unit, Dwarf_Die *scopes, int count, uint64_t address) {
    unsigned line;
    const char *path = path_at(unit, address, &line);
    for (int i = 0; i < count; i++) {
        if (dwarf_tag(&scopes[i]) == DW_TAG_lexical_block)
            continue;
        write_frame(name_of_code(m, &scopes[i]), path, line);
        if (dwarf_tag(&scopes[i]) == DW_TAG_inlined_subroutine)
            path = path_of_call(unit, &scopes[i], &line);
    }
}

static void tell_frames(struct module *m, uint64_t address) {
    Dwarf_Die scopes[SCOPES], unit;
    int count = scopes_at(m, address, scopes);
    if (!count)
        count = nested_scopes_at(m, address, scopes);
    printf("0x%016llx\n", (unsigned long long)address);
    if (count && dwarf_diecu(&scopes[count - 1], &unit, NULL, NULL) && is_c(&unit))
        write_frames(m, &unit, scopes, count, address);
    else
        printf("%s\n%s:0\n", unknown, unknown);
}

void tell_code_lines(const char *module) {
    struct module *m = module_named(module);
    char line[64];
    while (fgets(line, sizeof line, stdin) && *line != '\n')
        tell_frames(m, strtoull(line, NULL, 16));
}
