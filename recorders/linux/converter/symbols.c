/* Symbols: those of the kernel's image and of modules, by address. A module's are there from one record to another. */
#define _GNU_SOURCE
#include "converter.h"

struct symbol *symbols;
static size_t symbol_count;
struct load *loads;
static size_t load_count;
bool are_keys_hidden;
uint64_t image_start, image_end, percpu_start, percpu_end, no_validate;

static int by_address(const void *a, const void *b) {
    const struct symbol *first = a, *second = b;
    if (first->address != second->address)
        return first->address < second->address ? -1 : 1;
    return first->line < second->line ? -1 : first->line > second->line;
}

static void note_bound(const char *name, uint64_t address) {
    if (!strcmp(name, "_text"))
        image_start = address;
    else if (!strcmp(name, "_end"))
        image_end = address;
    else if (!strcmp(name, "__per_cpu_start"))
        percpu_start = address;
    else if (!strcmp(name, "__per_cpu_end"))
        percpu_end = address;
    else if (!strcmp(name, "__lockdep_no_validate__"))
        no_validate = address;
}

/* The newest load of a module, or NO_LOAD. */
static int load_of(const char *name) {
    for (size_t number = load_count; number-- > 0;)
        if (!strcmp(loads[number].name, name))
            return (int)number;
    return NO_LOAD;
}

/* How often a module was loaded, as far as the recording goes. */
int loads_of(const char *name) {
    int count = 0;
    for (size_t number = 0; number < load_count; number++)
        count += !strcmp(loads[number].name, name);
    return count;
}

/* Whether a module was unloaded behind one record, and not behind another. */
bool is_unload_between(uint64_t from, uint64_t until) {
    for (size_t number = 0; number < load_count; number++)
        if (loads[number].until >= from && loads[number].until < until)
            return true;
    return false;
}

static int begin_load(const char *name, uint64_t from) {
    struct load load = {.name = name, .from = from, .until = UINT64_MAX};
    PUSH(loads, load_count, load);
    return (int)load_count - 1;
}

static bool is_load_line(const char *line) { return !strncmp(line, "load ", 5) || !strncmp(line, "unload ", 7); }

/* `load NUMBER NAME` or `unload NUMBER NAME`. */
static void note_load(char *line) {
    const char *word = strsep(&line, " "), *number = strsep(&line, " ");
    if (!line)
        return;
    if (!strcmp(word, "load"))
        begin_load(line, strtoull(number, NULL, 10));
    else if (load_of(line) != NO_LOAD)
        loads[load_of(line)].until = strtoull(number, NULL, 10);
}

/* Which load of its module a symbol is of. The module's name follows the symbol's, in brackets. */
static int load_of_symbol(char *module) {
    module[strcspn(module, "]")] = 0;
    int load = load_of(module);
    return load == NO_LOAD ? begin_load(module, 0) : load;
}

/* Where a section of a module begins or ends, which may be where a variable lies. */
static bool is_mark(const char *name) { return !strncmp(name, "__start_", 8) || !strncmp(name, "__stop_", 7); }

/* A line in the format of /proc/kallsyms: an address, a kind, a name, and perhaps a module. */
static void add_symbol(char *line) {
    char *address = strsep(&line, " "), *kind = strsep(&line, " "), *name = strsep(&line, "\t");
    char *module = line && *line == '[' ? line + 1 : NULL;
    if (!name || !kind || !*name || strchr(name, ' ') || (module && is_mark(name)))
        return;
    struct symbol symbol = {strtoull(address, NULL, 16), symbol_count, name, module ? load_of_symbol(module) : NO_LOAD};
    if (!module)
        note_bound(name, symbol.address);
    else if (!strcmp(name, "__this_module"))
        loads[symbol.load].start = symbol.address;
    PUSH(symbols, symbol_count, symbol);
}

/* Reads symbols. False: all of their addresses are 0, as they are for who mayn't see them, and none is kept. */
static bool read_symbols(char *text) {
    size_t before = symbol_count;
    bool is_seen = false;
    for (char *line; (line = strsep(&text, "\n"));)
        if (is_load_line(line))
            note_load(line);
        else
            add_symbol(line);
    for (size_t number = before; number < symbol_count; number++)
        is_seen = is_seen || symbols[number].address;
    is_seen = is_seen || symbol_count == before;
    symbol_count = is_seen ? symbol_count : before;
    return is_seen;
}

/* Compares the size of a file of the recording with what `control` says of it. */
static void compare_size(const char *name, const char *code, size_t size, size_t written) {
    if (written == NOT_SAID)
        incomplete(code, "the recording doesn't say how large `%s` was, so it isn't known whether all of it is there", name);
    else if (size != written)
        incomplete(code, "`%s` had %zu bytes, and %zu are there: classes and callers may be wrong", name, written, size);
}

static bool has_landmark(const struct landmark *landmark) {
    for (size_t number = 0; number < symbol_count; number++)
        if (symbols[number].address == landmark->address && symbols[number].load == NO_LOAD && !strcmp(symbols[number].name, landmark->name))
            return true;
    return false;
}

/* A symbol that isn't where the recorded kernel had it. NULL: there is none. */
static const struct landmark *misplaced(void) {
    for (size_t number = 0; number < control.landmark_count; number++)
        if (!has_landmark(&control.landmarks[number]))
            return &control.landmarks[number];
    return NULL;
}

static void forget_symbols(void) {
    symbol_count = load_count = 0;
    image_start = image_end = percpu_start = percpu_end = no_validate = 0;
}

/* Symbols of another kernel would give classes and callers wrong names: then none is better. */
static void compare_landmarks(void) {
    const struct landmark *other = misplaced();
    if (other) {
        incomplete("other-symbols",
                   "the symbols aren't those of the kernel that was recorded, or not all of them, and aren't used: %s isn't at %llx there", other->name,
                   (unsigned long long)other->address);
        forget_symbols();
    } else if (!control.landmark_count) {
        incomplete("other-symbols",
                   "the recording doesn't say where any symbol was, so it isn't known whether these symbols are of its kernel");
    }
}

/* Symbols of the image and of modules that were loaded before. */
static void load_image(void) {
    size_t size;
    const char *name = options.symbols ? options.symbols : "the recording's `symbols`";
    char *text = options.symbols ? read_file(options.symbols, &size) : read_raw("symbols", &size);
    if (!text && options.symbols)
        refuse(options.symbols, "can't be opened");
    if (text && control.is_there && !control.is_of_text && !options.symbols)
        compare_size("symbols", "symbols-cut", size, control.symbols);
    if (text && !read_symbols(text))
        refuse(name, "hides all addresses, as with kptr_restrict=2: `--symbols /dev/null` converts the recording without symbols");
    if (symbol_count && !image_start)
        refuse(name, "has no _text");
    are_keys_hidden = !symbol_count && !control.is_of_text;
    if (!symbol_count && !control.is_of_text)
        incomplete("no-symbols", "there are no symbols: classes of one name are told apart by their keys alone, which other recordings don't have");
    else if (control.is_there && !control.is_of_text)
        compare_landmarks();
}

/* Symbols of modules that were loaded later. */
static void load_modules(void) {
    size_t size;
    char *text = read_raw("modules", &size);
    bool is_seen = !text || read_symbols(text);
    are_keys_hidden = are_keys_hidden || !is_seen;
    if (!is_seen)
        incomplete("modules-hidden", "`modules` hides all addresses: classes of one name in modules are told apart by their keys alone, which other "
                                     "recordings don't have");
    else if (!text && control.is_there && !control.is_of_text)
        incomplete("modules-cut", "`modules` isn't there: classes of one name in modules are joined, and their callers aren't known");
    if (text && control.is_there && !control.is_of_text)
        compare_size("modules", "modules-cut", size, control.modules);
}

void load_symbols(void) {
    load_image();
    load_modules();
    if (symbol_count)
        qsort(symbols, symbol_count, sizeof *symbols, by_address);
}

/* Whether a symbol was there at a record. */
static bool was_there(const struct symbol *symbol, uint64_t number) {
    return symbol->load == NO_LOAD || (loads[symbol->load].from <= number && number <= loads[symbol->load].until);
}

/* The symbol that contains an address at a record: the last that isn't above it. Those of modules don't reach far. */
const struct symbol *symbol_at(uint64_t address, uint64_t number) {
    size_t low = 0, high = symbol_count;
    while (low < high) {
        size_t middle = (low + high) / 2;
        if (symbols[middle].address <= address)
            low = middle + 1;
        else
            high = middle;
    }
    size_t last = low > SYMBOLS_AROUND ? low - SYMBOLS_AROUND : 0;
    while (low > last && !was_there(&symbols[low - 1], number))
        low--;
    if (low == last)
        return NULL;
    const struct symbol *symbol = &symbols[low - 1];
    return symbol->load != NO_LOAD && address - symbol->address > MODULE_REACH ? NULL : symbol;
}

/* The function that a caller is in, of the image or of a module. */
const struct symbol *function_at(uint64_t place, uint64_t number) {
    const struct symbol *symbol = symbol_at(place, number);
    bool is_in_image = place >= image_start && place < image_end;
    return symbol && (symbol->load != NO_LOAD || is_in_image) ? symbol : NULL;
}

/* The load whose module contains an address at a record, or NO_LOAD. */
int load_at(uint64_t address, uint64_t number) {
    const struct symbol *symbol = load_count ? symbol_at(address, number) : NULL;
    return symbol ? symbol->load : NO_LOAD;
}
