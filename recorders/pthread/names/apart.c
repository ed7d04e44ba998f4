/* What tells functions, variables and classes of one name apart: overloaded functions by their parameters, functions that two files have for
   themselves by the file, templates of variables by what they are of, and what several blocks of a function have by a number. It is looked up in
   all of the module, so the answer doesn't depend on what the program did. */
#include "names.h"

#include <dlfcn.h>

/* ---- Symbols in plain words. */

typedef char *demangler(const char *, char *, size_t *, int *);

/* libstdc++'s, if it is on the machine. */
const char *demangled(const char *symbol) {
    static demangler *demangle;
    static void *library;
    if (!library && (library = dlopen("libstdc++.so.6", RTLD_LAZY)))
        demangle = (demangler *)dlsym(library, "__cxa_demangle");
    return demangle ? demangle(symbol, NULL, NULL, NULL) : NULL;
}

/* ---- Types of parameters, as symbols in plain words have them. */

#define DEEPEST_TYPE 12

static const char *type_text(Dwarf_Die *die, int depth);

static const char *behind_type(Dwarf_Die *type, const char *before, const char *after, int depth) {
    Dwarf_Die to;
    return written("%s%s%s", before, type_of(type, &to) ? type_text(&to, depth + 1) : "void", after);
}

/* As one writes it: compilers have several words for the same. */
static const char *plain_type(const char *name) {
    static const char *const words[][2] = {
        {"long int", "long"},           {"long unsigned int", "unsigned long"},           {"short int", "short"},
        {"long long int", "long long"}, {"long long unsigned int", "unsigned long long"}, {"short unsigned int", "unsigned short"},
    };
    for (size_t i = 0; i < sizeof words / sizeof *words; i++)
        if (strcmp(name, words[i][0]) == 0)
            return words[i][1];
    return name;
}

static const char *type_text(Dwarf_Die *type, int depth) {
    if (depth > DEEPEST_TYPE)
        return "?";
    switch (dwarf_tag(type)) {
    case DW_TAG_typedef:
    case DW_TAG_atomic_type:
    case DW_TAG_restrict_type:
        return behind_type(type, "", "", depth);
    case DW_TAG_const_type:
        return behind_type(type, "", " const", depth);
    case DW_TAG_volatile_type:
        return behind_type(type, "", " volatile", depth);
    case DW_TAG_pointer_type:
        return behind_type(type, "", "*", depth);
    case DW_TAG_reference_type:
        return behind_type(type, "", "&", depth);
    case DW_TAG_rvalue_reference_type:
        return behind_type(type, "", "&&", depth);
    case DW_TAG_subroutine_type:
        return behind_type(type, "", "()", depth);
    default:
        return is_class(dwarf_tag(type)) || name_of(type) ? plain_type(without_anonymous(qualified(type))) : "?";
    }
}

/* Whether it is a method that leaves its object as it is. gcc has a constant pointer for `this`. */
static bool is_const_method(Dwarf_Die *self) {
    Dwarf_Die type;
    bool is_typed = type_of(self, &type) && (dwarf_tag(&type) != DW_TAG_const_type || type_of(&type, &type));
    return is_typed && type_of(&type, &type) && dwarf_tag(&type) == DW_TAG_const_type;
}

/* That a parameter itself is constant makes no other function. */
static bool type_of_parameter(Dwarf_Die *parameter, Dwarf_Die *type) {
    bool is_known = type_of(parameter, type);
    while (is_known && (dwarf_tag(type) == DW_TAG_const_type || dwarf_tag(type) == DW_TAG_volatile_type))
        is_known = type_of(type, type);
    return is_known;
}

static const char *parameters_of(Dwarf_Die function) {
    const char *text = "", *after = "";
    Dwarf_Die child, type;
    for (int end = dwarf_child(&function, &child); end == 0; end = dwarf_siblingof(&child, &child)) {
        if (dwarf_tag(&child) == DW_TAG_unspecified_parameters)
            text = written("%s%s...", text, text[0] ? "," : "");
        if (dwarf_tag(&child) != DW_TAG_formal_parameter)
            continue;
        if (flag_of(&child, DW_AT_artificial))
            after = is_const_method(&child) ? " const" : after;
        else
            text = written("%s%s%s", text, text[0] ? "," : "", type_of_parameter(&child, &type) ? type_text(&type, 0) : "?");
    }
    return written("(%s)%s", text, after);
}

/* ---- Functions of one name. */

/* All of the module that have a function's name. */
struct namesakes {
    const struct indexed_type *list;
    size_t count;
};

static struct namesakes namesakes_in(struct module *m, const char *name) {
    if (!m || !name)
        return (struct namesakes){NULL, 0};
    index_module(m);
    size_t first = first_named(m->functions, m->function_count, name), end = first;
    while (end < m->function_count && strcmp(m->functions[end].name, name) == 0)
        end++;
    return (struct namesakes){m->functions + first, end - first};
}

static struct namesakes namesakes_of(Dwarf_Die *function) { return namesakes_in(module_of_die(function), name_of(function)); }

static bool is_called_the_same(Dwarf_Die *a, Dwarf_Die *b) { return strcmp(qualified(a), qualified(b)) == 0; }

static bool is_overloaded(Dwarf_Die *function) {
    struct namesakes all = namesakes_of(function);
    const char *parameters = parameters_of(*function);
    for (size_t i = 0; i < all.count; i++) {
        Dwarf_Die other = all.list[i].die;
        if (is_called_the_same(function, &other) && strcmp(parameters_of(declaration_of(other)), parameters) != 0)
            return true;
    }
    return false;
}

/* Whether a function that has no name of its own is one of several that have the name that it was given. */
static bool is_one_of_overloaded(struct module *m, const char *name) {
    const char *colons = strrchr(name, ':');
    struct namesakes all = namesakes_in(m, colons ? colons + 1 : name);
    for (size_t i = 0; i < all.count; i++) {
        Dwarf_Die one = all.list[i].die;
        if (strcmp(qualified(&one), name) == 0 && is_overloaded(&one))
            return true;
    }
    return false;
}

static const char *distinct_nameless(Dwarf_Die *function) {
    struct module *m = module_of_die(function);
    const char *name = name_of_nameless(function), *parameters = name[0] == '{' ? "" : parameters_of_nameless(function);
    bool is_one = parameters[0] && (is_one_of_overloaded(m, name) || has_overload_in_symbols(m, name, parameters));
    return is_one ? written("%s%s", name, parameters) : name;
}

static bool is_of_file(Dwarf_Die *function) {
    return !flag_of(function, DW_AT_external) || strstr(qualified(function), ANONYMOUS);
}

/* Whether another file of the module has one for itself. */
static bool is_in_several_files(Dwarf_Die *function) {
    struct namesakes all = is_of_file(function) ? namesakes_of(function) : (struct namesakes){NULL, 0};
    const char *mark = source_mark(function);
    for (size_t i = 0; i < all.count; i++) {
        Dwarf_Die other = all.list[i].die;
        if (is_called_the_same(function, &other) && strcmp(source_mark(&other), mark) != 0)
            return true;
    }
    return false;
}

const char *distinct_function(Dwarf_Die *function) {
    Dwarf_Die declared = declaration_of(*function);
    return written("%s%s", is_in_several_files(&declared) ? source_mark(&declared) : "", distinct_name(&declared));
}

/* ---- What a function has several of: variables of one name and type in its blocks, and classes without a name. */

static bool is_alike(Dwarf_Die *a, Dwarf_Die *b) {
    Dwarf_Die x, y;
    if (is_class(dwarf_tag(a)))
        return is_class(dwarf_tag(b)) && strcmp(own_name(a), own_name(b)) == 0;
    return dwarf_tag(b) == DW_TAG_variable && name_of(b) && strcmp(name_of(a), name_of(b)) == 0 && type_of(a, &x) && type_of(b, &y) &&
           x.addr == y.addr;
}

/* By where they are declared, as far as that is known, and as they stand in the debug information. */
static bool is_before(Dwarf_Die *a, Dwarf_Die *b) {
    static const unsigned attributes[] = {DW_AT_decl_line, DW_AT_decl_column};
    for (size_t i = 0; i < sizeof attributes / sizeof *attributes; i++) {
        uint64_t x = number_of(a, attributes[i], 0), y = number_of(b, attributes[i], 0);
        if (x != y)
            return x < y;
    }
    return a->addr < b->addr;
}

static unsigned count_before(Dwarf_Die *scope, Dwarf_Die *die, int depth) {
    Dwarf_Die child;
    unsigned count = 0;
    if (depth > DEEPEST_TYPE || dwarf_child(scope, &child) != 0)
        return 0;
    do {
        count += is_alike(die, &child) && is_before(&child, die);
        if (dwarf_tag(&child) == DW_TAG_lexical_block)
            count += count_before(&child, die, depth + 1);
    } while (dwarf_siblingof(&child, &child) == 0);
    return count;
}

/* The first has no number. */
static const char *with_number(const char *name, Dwarf_Die *die, Dwarf_Die *scope) {
    unsigned before = dwarf_tag(scope) == DW_TAG_subprogram ? count_before(scope, die, 0) : 0;
    size_t length = strlen(name);
    if (!before)
        return name;
    return name[0] == '{' ? written("%.*s_%u}", (int)length - 1, name, before + 1) : written("%s{%u}", name, before + 1);
}

const char *distinct_variable(Dwarf_Die *variable) {
    Dwarf_Die declared = declaration_of(*variable), scope;
    const char *name = name_of(variable);
    return name && named_scope(declared, &scope) ? with_number(name, &declared, &scope) : name;
}

/* ---- */

/* What a template of variables is of. gcc has that only in the symbol, as in `_Z5tableIiE`. */
static const char *arguments_of(Dwarf_Die *variable, const char *name) {
    Dwarf_Attribute a;
    const char *symbol = dwarf_attr_integrate(variable, DW_AT_linkage_name, &a) ? dwarf_formstring(&a) : NULL;
    if (!symbol || !strstr(symbol, written("%zu%sI", strlen(name), name)))
        return "";
    const char *plain = demangled(symbol), *from = plain ? strstr(plain, written("%s<", name)) : NULL;
    return from ? written("%s", from + strlen(name)) : written("{%s}", symbol);
}

static const char *own_distinct_name(Dwarf_Die *declared, Dwarf_Die *scope) {
    const char *name = own_name(declared);
    int tag = dwarf_tag(declared);
    bool is_nameless = is_class(tag) && name[0] == '{';
    if (tag == DW_TAG_subprogram && !(scope && is_class(dwarf_tag(scope)) && own_name(scope)[0] == '{') && is_overloaded(declared))
        return written("%s%s", name, parameters_of(*declared));
    if (tag == DW_TAG_variable && !strchr(name, '<'))
        name = written("%s%s", name, arguments_of(declared, name));
    return scope && (tag == DW_TAG_variable || is_nameless) ? with_number(name, declared, scope) : name;
}

const char *distinct_name(Dwarf_Die *die) {
    Dwarf_Die declared = declaration_of(*die), scope;
    if (dwarf_tag(&declared) == DW_TAG_subprogram && !name_of(&declared))
        return distinct_nameless(&declared);
    if (!named_scope(declared, &scope))
        return own_distinct_name(&declared, NULL);
    return written("%s::%s", distinct_name(&scope), own_distinct_name(&declared, &scope));
}
