/* The source file in a name, where another file may have a type or variable of that name too. */
#include "names.h"

/* Where the entry that has the attribute stands: its file's number is that of that unit. */
static bool unit_with_file(Dwarf_Die *die, Dwarf_Die *unit, Dwarf_Word *file) {
    Dwarf_Attribute a;
    Dwarf_Die holder = *die, next;
    for (int i = 0; i < 4 && !dwarf_hasattr(&holder, DW_AT_decl_file); i++) {
        if ((!dwarf_attr(&holder, DW_AT_specification, &a) && !dwarf_attr(&holder, DW_AT_abstract_origin, &a)) ||
            !dwarf_formref_die(&a, &next))
            return false;
        holder = next;
    }
    return dwarf_attr(&holder, DW_AT_decl_file, &a) && dwarf_formudata(&a, file) == 0 && dwarf_diecu(&holder, unit, NULL, NULL);
}

/* The attribute and the table are read here, since libdw's own function knows no file 0, which clang uses. */
static const char *file_of(Dwarf_Die *die, Dwarf_Die *unit) {
    Dwarf_Files *files;
    Dwarf_Word file;
    size_t count;
    if (!unit_with_file(die, unit, &file) || dwarf_getsrcfiles(unit, &files, &count) != 0 || file >= count)
        return NULL;
    return dwarf_filesrc(files, file, NULL, NULL);
}

static bool is_source(const char *file) {
    static const char *const ends[] = {".c", ".cc", ".cpp", ".cxx", ".C", ".c++", ".cp", ".m", ".mm"};
    const char *dot = strrchr(file, '.');
    for (size_t i = 0; dot && i < sizeof ends / sizeof *ends; i++)
        if (strcmp(dot, ends[i]) == 0)
            return true;
    return false;
}

/* ---- Paths of files. Where two programs or libraries have files of one name, `finish` tells these apart by their folders. */

/* Takes out `.`, and `..` with the folder before it. */
static void tidy(char *path) {
    char *to = path;
    for (const char *from = path; *from;) {
        size_t length = strcspn(from + 1, "/") + 1;
        bool is_back = length == 3 && strncmp(from, "/..", 3) == 0, is_here = length == 2 && strncmp(from, "/.", 2) == 0;
        while (is_back && to > path && *--to != '/') {
        }
        if (!is_back && !is_here) {
            memmove(to, from, length);
            to += length;
        }
        from += length;
    }
    *to = 0;
}

/* From the root, where the unit was compiled. */
const char *absolute_path(Dwarf_Die *unit, const char *name) {
    Dwarf_Attribute a;
    const char *folder = dwarf_attr(unit, DW_AT_comp_dir, &a) ? dwarf_formstring(&a) : NULL;
    char *path = name[0] == '/' || !folder ? written("%s", name) : written("%s/%s", folder, name);
    if (path[0] == '/')
        tidy(path);
    return path;
}

void read_sources(struct module *m) {
    Dwarf_CU *cu = NULL;
    Dwarf_Die unit, part;
    uint8_t kind;
    Dwarf_Half version;
    if (m->has_sources)
        return;
    m->has_sources = true;
    while (dwarf_get_units(m->debug, cu, &cu, &version, &kind, &unit, &part) == 0) {
        Dwarf_Die *whole = whole_unit(&unit, kind, &part);
        const char *name = name_of(whole);
        if (name)
            PUSH(m->sources, m->source_count, absolute_path(dwarf_hasattr(whole, DW_AT_comp_dir) ? whole : &unit, name));
    }
}

void add_source(struct module *m, const char *path) {
    size_t i = 0;
    while (i < m->source_count && strcmp(m->sources[i], path) != 0)
        i++;
    if (i == m->source_count)
        PUSH(m->sources, m->source_count, path);
}

const char *path_of(Dwarf_Die *die) {
    Dwarf_Die unit;
    const char *path = file_of(die, &unit);
    return path ? absolute_path(&unit, path) : NULL;
}

const char *header_of(Dwarf_Die *die) {
    const char *path = path_of(die);
    return path && !is_source(path) ? path : NULL;
}

/* A text is `PATH MARK base name:the rest`. */
#define AFTER_PATH '\x1f'

static const char *with_path(Dwarf_Die *unit, const char *file) {
    const char *path = absolute_path(unit, file);
    return written("%s%c%s:", path, AFTER_PATH, base_of(path));
}

const char *after_path(const char *text) {
    const char *mark = strchr(text, AFTER_PATH);
    return mark ? mark + 1 : text;
}

/* Whether each unit that has the variable's file has one of its own. One of a function is as that function is. */
static bool is_of_unit(Dwarf_Die *variable, const char *qualified_name) {
    Dwarf_Die scope = declaration_of(*variable), next;
    bool is_shared = flag_of(variable, DW_AT_external);
    while (!is_shared && parent_of(&scope, &next)) {
        is_shared = dwarf_tag(&next) == DW_TAG_subprogram && flag_of(&next, DW_AT_external);
        scope = next;
    }
    return !is_shared || strstr(qualified_name, ANONYMOUS);
}

const char *source_mark(Dwarf_Die *die) {
    Dwarf_Die unit;
    return dwarf_diecu(die, &unit, NULL, NULL) && name_of(&unit) ? with_path(&unit, name_of(&unit)) : "";
}

/* A type of a header is the same in all files, unless another header has one of that name in C, or it is in an anonymous namespace. A static
   variable never is. What has internal linkage has its unit's source for a file, since a header gives one to each. */
const char *file_mark(Dwarf_Die *die, const char *qualified_name) {
    Dwarf_Die unit;
    const char *path = file_of(die, &unit);
    bool is_variable = dwarf_tag(die) == DW_TAG_variable, is_anonymous = strstr(qualified_name, ANONYMOUS);
    if (path && (is_variable ? is_of_unit(die, qualified_name) : is_anonymous && !is_source(path)) && name_of(&unit))
        path = name_of(&unit);
    bool is_local = path && (is_source(path) || is_variable || is_anonymous || is_one_of_several(die));
    return is_local ? with_path(&unit, path) : "";
}

const char *without_anonymous(const char *qualified_name) {
    if (!strstr(qualified_name, ANONYMOUS))
        return qualified_name;
    char *name = written("%s", qualified_name);
    for (char *p; (p = strstr(name, ANONYMOUS));)
        memmove(p, p + strlen(ANONYMOUS), strlen(p + strlen(ANONYMOUS)) + 1);
    return name;
}
