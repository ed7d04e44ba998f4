/* Functions without a name. clang has a function all of whose calls are inlined twice: once with its name, and once without one, with its
   types and static variables. The symbols of these variables have its name, and its own variables lead to these types. */
#include "names.h"

#include <ctype.h>

/* ---- By a static variable's symbol, such as `first.lock`, `_ZZ5firstvE4lock` and `_ZZN5space5firstEvE4lock`. */

static const char *symbol_of(struct module *m, uint64_t at) {
    int count = m ? dwfl_module_getsymtab(m->file) : 0;
    for (int i = 0; i < count; i++) {
        GElf_Sym symbol;
        GElf_Addr value;
        GElf_Word section;
        const char *name = dwfl_module_getsym_info(m->file, i, &symbol, &value, &section, NULL, NULL);
        if (name && symbol.st_value == at && GELF_ST_TYPE(symbol.st_info) == STT_OBJECT && section != SHN_UNDEF)
            return name;
    }
    return NULL;
}

/* The next part of a name of C++, or NULL if there is none that is just a word. */
static const char *next_word(const char **mangled) {
    static const char anonymous[] = "_GLOBAL__N_1";
    char *word;
    unsigned long length = isdigit((unsigned char)**mangled) ? strtoul(*mangled, &word, 10) : 0;
    if (!length || length > strlen(word))
        return NULL;
    *mangled = word + length;
    bool is_anonymous = length == sizeof anonymous - 1 && strncmp(word, anonymous, length) == 0;
    return is_anonymous ? "{anonymous}" : written("%.*s", (int)length, word);
}

/* NULL of a function of a template or the like. */
static const char *function_of_cpp(const char *mangled) {
    bool is_nested = mangled[0] == 'N';
    mangled += is_nested;
    mangled += strspn(mangled, "rVKL");
    const char *name = next_word(&mangled), *word;
    while (is_nested && name && (word = next_word(&mangled)))
        name = written("%s::%s", name, word);
    bool is_whole = is_nested ? mangled[0] == 'E' : mangled[0] && !strchr("IB", mangled[0]);
    return is_whole ? name : NULL;
}

static const char *function_of_symbol(const char *symbol, const char *variable) {
    size_t length = strcspn(symbol, "."), rest = strlen(variable);
    if (strncmp(symbol, "_ZZ", 3) == 0)
        return function_of_cpp(symbol + 3);
    bool is_it = symbol[length] == '.' && strncmp(symbol + length + 1, variable, rest) == 0 && strchr(".", symbol[length + 1 + rest]);
    return is_it ? written("%.*s", (int)length, symbol) : NULL;
}

/* The function's parameters in a static variable's symbol in plain words, as `(int)` in `space::of(int)::m`. */
static const char *parameters_in(const char *plain) {
    const char *end = strrchr(plain, ')'), *from = end;
    int depth = 0;
    for (; from && from >= plain; from--) {
        depth += *from == ')' ? 1 : *from == '(' ? -1 : 0;
        if (depth == 0)
            break;
    }
    bool is_const = end && strncmp(end, ") const::", 9) == 0;
    return from && from >= plain ? written("%.*s%s", (int)(end + 1 - from), from, is_const ? " const" : "") : "";
}

const char *parameters_of_nameless(Dwarf_Die *function) {
    struct module *m = module_of_die(function);
    const char *symbol, *plain;
    uint64_t at;
    Dwarf_Die child;
    for (int end = dwarf_child(function, &child); m && end == 0; end = dwarf_siblingof(&child, &child))
        if (dwarf_tag(&child) == DW_TAG_variable && address_of_variable(&child, &at) && (symbol = symbol_of(m, at)))
            return (plain = demangled(symbol)) ? parameters_in(plain) : written("{%s}", symbol);
    return "";
}

static bool is_other_overload(const char *symbol, const char *name, const char *parameters) {
    const char *function = strncmp(symbol, "_ZZ", 3) == 0 ? function_of_cpp(symbol + 3) : NULL;
    const char *plain = function && strcmp(function, name) == 0 ? demangled(symbol) : NULL;
    return plain && strcmp(parameters_in(plain), parameters) != 0;
}

/* Functions that are inlined everywhere may be left in nothing but such symbols. */
bool has_overload_in_symbols(struct module *m, const char *name, const char *parameters) {
    int count = m ? dwfl_module_getsymtab(m->file) : 0;
    for (int i = 0; i < count; i++) {
        GElf_Sym symbol;
        const char *text = dwfl_module_getsym(m->file, i, &symbol, NULL);
        if (text && is_other_overload(text, name, parameters))
            return true;
    }
    return false;
}

static const char *by_symbol(Dwarf_Die *function) {
    const char *name = NULL, *symbol;
    uint64_t at;
    Dwarf_Die child;
    if (dwarf_child(function, &child) != 0)
        return NULL;
    do
        if (dwarf_tag(&child) == DW_TAG_variable && name_of(&child) && address_of_variable(&child, &at) &&
            (symbol = symbol_of(module_of_die(&child), at)))
            name = function_of_symbol(symbol, name_of(&child));
    while (!name && dwarf_siblingof(&child, &child) == 0);
    return name;
}

/* ---- By a variable whose type it has. */

#define DEEPEST_SCOPE 12

static bool is_pointer_or_array(int tag) { return is_pointer(tag) || tag == DW_TAG_array_type; }

#define LONGEST_CHAIN 20 /* of pointers */

static bool leads_to(Dwarf_Die variable, const Dwarf_Die *function) {
    Dwarf_Die type, scope;
    bool is_lock, is_behind = type_of(&variable, &type) && peel(&type, &is_lock) && !is_lock;
    for (int i = 0; is_behind && is_pointer_or_array(dwarf_tag(&type)); i++) {
        Dwarf_Die next;
        is_behind = i < LONGEST_CHAIN && type_of(&type, &next) && peel(&next, &is_lock) && !is_lock;
        type = is_behind ? next : type;
    }
    return is_behind && is_class(dwarf_tag(&type)) && parent_of(&type, &scope) && scope.addr == function->addr;
}

static bool has_variable(Dwarf_Die *scope, const Dwarf_Die *function, int depth) {
    Dwarf_Die child;
    if (depth > DEEPEST_SCOPE || dwarf_child(scope, &child) != 0)
        return false;
    do
        if ((dwarf_tag(&child) == DW_TAG_variable && leads_to(child, function)) ||
            (dwarf_tag(&child) == DW_TAG_lexical_block && has_variable(&child, function, depth + 1)))
            return true;
    while (dwarf_siblingof(&child, &child) == 0);
    return false;
}

static bool is_in(Dwarf_Die die, const Dwarf_Die *function) {
    Dwarf_Die outer;
    while (parent_of(&die, &outer) && outer.addr != function->addr)
        die = outer;
    return parent_of(&die, &outer);
}

/* Methods of its own types aren't it. */
static bool may_be_it(Dwarf_Die *die, const Dwarf_Die *function) {
    return dwarf_tag(die) == DW_TAG_subprogram && dwarf_hasattr(die, DW_AT_inline) && name_of(die) && has_variable(die, function, 0) &&
           !is_in(declaration_of(*die), function);
}

struct owner {
    const char *name;
    bool is_unclear; /* several have such variables */
};

static void search_owner(Dwarf_Die *scope, const Dwarf_Die *function, struct owner *owner, int depth) {
    Dwarf_Die child;
    if (depth > DEEPEST_SCOPE || dwarf_child(scope, &child) != 0)
        return;
    do {
        if (dwarf_tag(&child) == DW_TAG_namespace)
            search_owner(&child, function, owner, depth + 1);
        if (!may_be_it(&child, function))
            continue;
        const char *name = qualified(&child);
        owner->is_unclear |= owner->name && strcmp(owner->name, name) != 0;
        owner->name = name;
    } while (dwarf_siblingof(&child, &child) == 0);
}

static const char *by_variable(Dwarf_Die *function) {
    struct owner owner = {NULL, false};
    Dwarf_Die unit;
    if (dwarf_diecu(function, &unit, NULL, NULL))
        search_owner(&unit, function, &owner, 0);
    return owner.is_unclear ? NULL : owner.name;
}

#define DEEPEST_NAMELESS 4

/* If nothing tells, it isn't another one of that module at least. Units of split files have the same numbers. */
const char *name_of_nameless(Dwarf_Die *function) {
    static int depth;
    Dwarf_Die unit;
    const char *name = by_symbol(function);
    depth++;
    if (!name && depth <= DEEPEST_NAMELESS)
        name = by_variable(function);
    depth--;
    const char *source = !name && dwarf_diecu(function, &unit, NULL, NULL) ? name_of(&unit) : NULL;
    return name ? name : written("{function %lx of %s}", (unsigned long)dwarf_dieoffset(function), source ? base_of(source) : "?");
}
