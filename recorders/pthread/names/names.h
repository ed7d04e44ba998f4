/* What the parts of `names` share.

   `names` finds out by debug information what the type of each class's locks is, after the program has ended. No name is better than a
   wrong one: what isn't certain is left out. */
#ifndef LOCKDEP_NAMES_H
#define LOCKDEP_NAMES_H
#ifndef _GNU_SOURCE
#define _GNU_SOURCE
#endif

#include "../raw.h"

#include <dwarf.h>
#include <elfutils/libdw.h>
#include <elfutils/libdwfl.h>
#include <gelf.h>
#include <stdbool.h>
#include <stddef.h>
#include <stdint.h>
#include <stdio.h>
#include <stdlib.h>
#include <string.h>

void *checked(void *p);
char *written(const char *format, ...) __attribute__((format(printf, 1, 2))); /* never given back: the reader is short-lived */

/* A list's room, doubled as it grows. */
#define PUSH(list, count, value)                                                                                       \
    do {                                                                                                               \
        if (((count) & ((count)-1)) == 0)                                                                              \
            (list) = checked(realloc((list), ((count) ? 2 * (count) : 1) * sizeof *(list)));                           \
        (list)[(count)++] = (value);                                                                                   \
    } while (0)

/* ---- modules.c: programs and libraries, and where a process had them. */

struct unit_range {
    uint64_t from, to;
    Dwarf_Die unit;
};
struct function {
    uint64_t from, to;
    Dwarf_Die die;
};
struct unit_functions {
    void *unit;
    bool has_nested; /* also those that stand in another function's entry, as gcc writes lambdas */
    struct function *list;
    size_t count;
};
struct variable {
    uint64_t at; /* of a thread-local one in the module's thread-local part */
    Dwarf_Die die;
};
struct indexed_type {
    const char *name;
    uint64_t size;
    Dwarf_Die die;
};
struct symbol {
    uint64_t at;
    const char *name;
};

struct module {
    const char *path;
    Dwfl_Module *file; /* NULL if it can't be read */
    Dwarf *debug;      /* by has_debug; NULL if it has no debug information */
    Dwarf **parts;     /* its split files */
    size_t part_count;
    Elf *elf;
    uint64_t from, to; /* its addresses in the file */
    bool is_debug_known, has_ranges, is_indexed, has_symbols, has_sources;
    struct unit_range *ranges;
    size_t range_count;
    struct unit_functions *units;
    size_t unit_count;
    struct variable *variables, *thread_variables;
    size_t variable_count, thread_variable_count;
    struct indexed_type *types, *typedefs; /* the second of classes that have no other name */
    struct indexed_type *functions; /* those that are declared in a class, too */
    size_t type_count, typedef_count, function_count;
    struct symbol *symbols;
    size_t symbol_count;
    const char **sources; /* the source files of its units, and headers that have types of one name */
    size_t source_count, sources_written;
};

struct loaded { /* a module where a process had it */
    struct module *module;
    uint64_t bias;
};

bool open_arena(const char *path); /* what the next five tell of */
uint32_t count_of(enum raw_kind kind);
const void *part_of(enum raw_kind kind, uint32_t number);
uint32_t callers_of(const struct raw_place *place, uint64_t *callers); /* as raw_callers */
const struct loaded *loaded_at(uint64_t address);      /* NULL also if it isn't clear which */
const struct loaded *loaded_numbered(uint32_t number); /* of the arena's modules */
bool has_debug(struct module *m); /* opens its debug information, which may take long */
Dwarf_Die *whole_unit(Dwarf_Die *unit, uint8_t kind, Dwarf_Die *part); /* a unit, or what a split file has of it */
struct module *module_named(const char *path); /* which may have changed since, if no arena is open */
bool is_recorder(const struct module *m);
struct module *module_of_die(Dwarf_Die *die);
const char *base_of(const char *path);

/* ---- dies.c: what a debugging entry says. */

const char *name_of(Dwarf_Die *die);
bool type_of(Dwarf_Die *die, Dwarf_Die *type);
bool flag_of(Dwarf_Die *die, unsigned attribute);
uint64_t number_of(Dwarf_Die *die, unsigned attribute, uint64_t none);
bool is_class(int tag);
void note_typedef(const Dwarf_Die *type, Dwarf_Die *name); /* which leads to a type */
const char *class_name(Dwarf_Die *type);                   /* of a class without one that of the typedef that leads to it */
bool is_pointer(int tag);
bool parent_of(Dwarf_Die *die, Dwarf_Die *parent);
Dwarf_Die declaration_of(Dwarf_Die die);
bool template_argument(Dwarf_Die *die, Dwarf_Die *type);
const char *own_name(Dwarf_Die *die);
bool named_scope(Dwarf_Die declared, Dwarf_Die *scope); /* what it is in, if that has a name of its own in names */
const char *qualified(Dwarf_Die *die); /* the name with its scopes */
bool is_of_library(const char *qualified_name);

/* ---- apart.c */

const char *demangled(const char *symbol); /* NULL if it can't be */

const char *distinct_name(Dwarf_Die *die);            /* as qualified, with what tells apart those of one name */
const char *distinct_variable(Dwarf_Die *variable); /* of a function, without that */
const char *distinct_function(Dwarf_Die *function); /* and with its file's mark, if another file of the module has one of its own of that name */

/* ---- nameless.c */

const char *name_of_nameless(Dwarf_Die *function); /* of one without a name, with its scopes */
bool has_overload_in_symbols(struct module *m, const char *name, const char *parameters);
const char *parameters_of_nameless(Dwarf_Die *function); /* if a static variable tells them, else empty */

/* ---- files.c */

const char *file_mark(Dwarf_Die *die, const char *qualified_name); /* `store.cpp:` after its path, where another file may use the name too, else empty */
const char *source_mark(Dwarf_Die *die); /* that of the source file in whose unit it is; empty if that isn't known */
const char *after_path(const char *text); /* the text without that path */
const char *absolute_path(Dwarf_Die *unit, const char *name); /* of a file that a unit names */
const char *path_of(Dwarf_Die *die); /* of the file that declares it; NULL if that isn't known */
const char *header_of(Dwarf_Die *die); /* the path of the header that declares it; NULL if that is no header */
void read_sources(struct module *m);
void add_source(struct module *m, const char *path);
#define ANONYMOUS "{anonymous}::" /* the scope of what is a file's own, in a name */
const char *without_anonymous(const char *qualified_name);

/* ---- tags.c */

bool is_one_of_several(Dwarf_Die *type); /* another header of the module has one of that name that isn't the same */

/* ---- types.c */

#define DEEPEST_PATH 24
struct step { /* a class on the way to a lock, and its member there */
    Dwarf_Die type;
    const char *member;
    bool is_array;
};
struct path {
    struct step steps[DEEPEST_PATH];
    int count;
};

bool peel(Dwarf_Die *type, bool *is_lock); /* takes off typedefs and the like */
bool define(Dwarf_Die *type);              /* finds the definition of what is only declared */
uint64_t size_of(Dwarf_Die *type);
bool find_lock(Dwarf_Die type, uint64_t offset, struct path *path); /* the lock that begins exactly there */
bool find_lock_in_whole(Dwarf_Die type, uint64_t offset, struct path *path); /* in an object that isn't a base of a larger one */
extern bool is_union_unclear; /* set if several members of a union have locks there, and so none was found */

/* ---- texts.c */

bool is_lock_class(Dwarf_Die type); /* it is a lock itself, as a class Mutex */
const char *text_of(const struct path *path);      /* NULL: no class on the path gives a name */
bool is_called_lock(const char *name);
const char *member_without_class(const struct path *path);
const char *weak_text_of(const struct path *path); /* a class that is a lock itself, without a name that says so */

/* ---- index.c: what a module has. */

void index_module(struct module *m);
size_t first_named(const struct indexed_type *types, size_t count, const char *name); /* where those of that name begin */
bool index_die(Dwarf_Die *type); /* finds the definition of a declared type by its name */
bool address_of_variable(Dwarf_Die *die, uint64_t *at); /* of a static one */

/* ---- units.c: code by address. */

#define SCOPES 40
bool function_at(struct module *m, uint64_t address, Dwarf_Die *function);
int scopes_at(struct module *m, uint64_t address, Dwarf_Die *scopes); /* from the innermost one to the function */
int nested_scopes_at(struct module *m, uint64_t address, Dwarf_Die *scopes); /* the function may stand in another one's entry */
Dwarf_Die *function_around(Dwarf_Die *scopes, int count, int from); /* NULL if there is none */
const char *function_name(Dwarf_Die *scopes, int count, int from);
bool is_merged(struct module *m, uint64_t address); /* its code is that of several functions, so its types may be another one's */
bool line_at(struct module *m, uint64_t address, int *line, int *column);

/* ---- frames.c: the stack of a look. */

#define REGISTERS 17
#define RDI 5
#define RBP 6
#define RSP 7
#define RIP 16
#define FRAMES 40
struct frame {
    uint64_t registers[REGISTERS], cfa;
    uint32_t known; /* a bit for each register */
    bool is_call, has_cfa;
    const struct loaded *in;
};
extern const struct raw_look *look;
extern struct frame frames[FRAMES + 1];
extern int frame_count;

uint64_t address_in(const struct frame *f); /* in the module's file, in the call that the frame is in */
bool read_stack(uint64_t at, void *to, uint64_t bytes);
bool read_word(uint64_t at, uint64_t *word);
void unwind(void);
bool stack_pointer_at(const struct loaded *in, uint64_t address, int64_t *below); /* so far below the frame's end, by what is said of there */

/* ---- sites.c: what a call says of its arguments. */

bool site_of(int frame, Dwarf_Die *site);
bool called_by(Dwarf_Die *site, Dwarf_Die *function);
bool site_argument(int frame, Dwarf_Die *site, int reg, uint64_t *word, int depth);
bool entry_value(int frame, int reg, uint64_t *word, int depth);
bool frame_base(int frame, uint64_t *at, int depth);

/* ---- values.c */

#define VALUE_BYTES 128
struct value {
    enum { IN_MEMORY, IN_BYTES } kind;
    uint64_t at;
    unsigned char bytes[VALUE_BYTES];
    uint64_t known; /* of the bytes, a bit for each word */
};
bool evaluate(Dwarf_Attribute *attribute, Dwarf_Op *operations, size_t count, int frame, struct value *value, int depth);
bool evaluate_rule(Dwarf_Op *operations, size_t count, int frame, const uint64_t *cfa, uint64_t *word, bool *is_address);
bool word_of_value(const struct value *value, uint64_t offset, uint64_t *word);

/* ---- The rules, and what one of them found. */

enum rule {
    RULE_NONE,
    RULE_STATIC,
    RULE_STATIC_OBJECT,
    RULE_THIS,
    RULE_PARAMETER,
    RULE_VARIABLE,
    RULE_OBJECT,
    RULE_ARGUMENT,
    RULE_POINTER,
    RULE_HOLDER,
    RULE_TEMPLATE,
    RULE_CONSTRUCTOR,
    RULE_ALLOCATION_VARIABLE,
    RULE_FRAME,
    RULE_LOCAL,
    RULE_SIZE,
    RULE_OWN_LOCK,
    RULE_UNLIKE, /* the locks of the class are of several types */
    RULES
};
struct found {
    enum rule rule;
    const char *text;
    const char *member; /* of a lock without a text, in a structure without a name: how a variable leads to it, such as `.in`; else NULL */
    bool is_doubtful;   /* what says so may have been written before the memory was allocated */
};

void tell_lines(const char *module); /* where the static variables are declared whose addresses are on standard input */
void tell_code_lines(const char *module); /* where the code is whose addresses are on standard input, up to an empty line */

/* variables.c: by what is in the module or in a frame, wherever it was met. */
bool static_variable(struct module *m, uint64_t at, struct found *found);
bool thread_variable(struct module *m, uint64_t at, struct found *found);
bool frame_variable(const struct raw_class *class, struct found *found, bool *is_unclear); /* several variables share the place */

/* objects.c: by the variables of the functions that were running. */
bool has_lock(Dwarf_Die type, uint64_t at, struct found *found, bool *is_bare);
bool search_frames(struct found *found, struct found *doubtful, struct found *bare);

/* stale.c: variables that point to what lay there before. */
void find_active_frames(void);
bool is_in_allocating_call(int frame);
enum age { IS_OF_NOW, MAY_BE_STALE, IS_STALE };
enum age age_of(Dwarf_Die *variable, Dwarf_Die *scope, int frame, uint64_t address, const struct value *value);
bool may_be_old(const struct value *object, uint64_t offset);

/* constructors.c */
#define MOST_CODE (UINT64_C(1) << 18) /* bytes of a function that are looked through */
struct code {
    struct module *module;
    uint64_t at, size;
    unsigned char *bytes;
};
bool read_code(struct code *code);
bool by_constructor(struct module *m, Dwarf_Die *scopes, int count, uint64_t after, struct found *found);

/* members.c */
bool search_members(Dwarf_Die type, const struct value *value, struct found *found, int hops, bool *is_unclear);

/* allocations.c: by where the memory was allocated. */
bool lock_in_piece(Dwarf_Die type, struct path *path); /* an object of the type, or an array of them, in that memory has the lock where it is */
bool search_allocation(const struct raw_place *place, struct found *found);
bool by_size(const struct raw_place *place, struct found *found);
bool is_confirmed_by_size(const struct raw_place *place, const char *text); /* nothing else that has a lock there is as long */
bool only_of_size(struct module *m, Dwarf_Die *unit, bool is_unit_alone, const char **text); /* all types of that size that have a lock there give it */
extern const char *weak_text; /* of the last path without a name: a class that is a lock itself */

#endif
