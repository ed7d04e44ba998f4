/* What a program left, and the modules that it had. Modules are opened once for all programs of a recording. */
#include "names.h"

#include <fcntl.h>
#include <stdarg.h>
#include <sys/mman.h>
#include <sys/stat.h>
#include <unistd.h>

void *checked(void *p) {
    if (!p)
        _exit(2);
    return p;
}

char *written(const char *format, ...) {
    char *text = NULL;
    va_list words;
    va_start(words, format);
    int length = vasprintf(&text, format, words);
    va_end(words);
    return checked(length < 0 ? NULL : text);
}

const char *base_of(const char *path) {
    const char *slash = strrchr(path, '/');
    return slash ? slash + 1 : path;
}

/* ---- The arena. */

static const struct raw_arena *arena;
static uint64_t arena_bytes;
static struct loaded *loaded;
static uint32_t loaded_count;

uint32_t count_of(enum raw_kind kind) {
    const struct raw_region *region = &arena->regions[kind];
    return region->used < region->room ? region->used : region->room;
}

const void *part_of(enum raw_kind kind, uint32_t number) {
    if (number == 0 || number > count_of(kind))
        return NULL;
    return (const char *)arena + raw_at(&arena->regions[kind], kind, number);
}

static bool is_sound(void) {
    if (arena_bytes < sizeof *arena || arena->magic != RAW_MAGIC)
        return false;
    for (int kind = 0; kind < RAW_KINDS; kind++) {
        const struct raw_region *region = &arena->regions[kind];
        uint64_t size = raw_size((enum raw_kind)kind);
        if (region->from > arena_bytes || region->room * size > arena_bytes - region->from || region->first_from > arena_bytes ||
            region->first * size > arena_bytes - region->first_from)
            return false;
    }
    return true;
}

/* ---- Modules. */

static struct module **modules;
static size_t module_count;

static char *debug_path;
static const Dwfl_Callbacks callbacks = {.find_elf = dwfl_build_id_find_elf,
                                         .find_debuginfo = dwfl_standard_find_debuginfo,
                                         .section_address = dwfl_offline_section_address,
                                         .debuginfo_path = &debug_path};

static void find_bounds(struct module *m) {
    size_t count = 0;
    GElf_Phdr part;
    m->from = UINT64_MAX;
    if (!m->elf || elf_getphdrnum(m->elf, &count) != 0)
        return;
    for (size_t i = 0; i < count; i++) {
        if (!gelf_getphdr(m->elf, (int)i, &part) || part.p_type != PT_LOAD)
            continue;
        m->from = part.p_vaddr < m->from ? part.p_vaddr : m->from;
        m->to = part.p_vaddr + part.p_memsz > m->to ? part.p_vaddr + part.p_memsz : m->to;
    }
}

/* What was built after the program ran isn't what ran. */
static bool is_as_it_ran(const char *path) {
    struct stat about;
    if (stat(path, &about) != 0 || !S_ISREG(about.st_mode))
        return false;
    return !arena || (uint64_t)about.st_mtim.tv_sec * 1000000000 + (uint64_t)about.st_mtim.tv_nsec < arena->started;
}

static void open_module(struct module *m) {
    Dwarf_Addr bias;
    Dwfl *session = is_as_it_ran(m->path) ? dwfl_begin(&callbacks) : NULL;
    if (!session)
        return;
    dwfl_report_begin(session);
    m->file = dwfl_report_offline(session, m->path, m->path, -1);
    dwfl_report_end(session, NULL, NULL);
    m->elf = m->file ? dwfl_module_getelf(m->file, &bias) : NULL;
    if (!m->elf)
        m->file = NULL;
    find_bounds(m);
}

Dwarf_Die *whole_unit(Dwarf_Die *unit, uint8_t kind, Dwarf_Die *part) { return kind == DW_UT_skeleton && part->addr ? part : unit; }

static void find_parts(struct module *m) {
    Dwarf_CU *cu = NULL;
    Dwarf_Die unit, part;
    uint8_t kind;
    Dwarf_Half version;
    while (dwarf_get_units(m->debug, cu, &cu, &version, &kind, &unit, &part) == 0)
        if (whole_unit(&unit, kind, &part) == &part)
            PUSH(m->parts, m->part_count, dwarf_cu_getdwarf(part.cu));
}

bool has_debug(struct module *m) {
    Dwarf_Addr bias;
    if (m->is_debug_known)
        return m->debug;
    m->is_debug_known = true;
    m->debug = m->file ? dwfl_module_getdwarf(m->file, &bias) : NULL;
    if (m->debug)
        find_parts(m);
    return m->debug;
}

struct module *module_named(const char *path) {
    for (size_t i = 0; i < module_count; i++)
        if (strcmp(modules[i]->path, path) == 0)
            return modules[i];
    struct module *m = checked(calloc(1, sizeof *m));
    m->path = written("%s", path);
    open_module(m);
    PUSH(modules, module_count, m);
    return m;
}

static void read_modules(void) {
    free(loaded);
    loaded_count = count_of(RAW_MODULES);
    loaded = checked(calloc(loaded_count + 1, sizeof *loaded));
    for (uint32_t i = 1; i <= loaded_count; i++) {
        const struct raw_module *raw = part_of(RAW_MODULES, i);
        char path[RAW_PATH + 1] = "";
        if (raw->is_ready)
            memcpy(path, raw->path, RAW_PATH);
        loaded[i] = (struct loaded){module_named(path), raw->bias};
    }
}

bool open_arena(const char *path) {
    int file = open(path, O_RDONLY | O_CLOEXEC);
    struct stat about;
    if (file < 0)
        return false;
    if (arena)
        munmap((void *)(uintptr_t)arena, arena_bytes);
    arena = NULL;
    arena_bytes = fstat(file, &about) == 0 ? (uint64_t)about.st_size : 0;
    void *mapped = arena_bytes ? mmap(NULL, arena_bytes, PROT_READ, MAP_PRIVATE, file, 0) : MAP_FAILED;
    close(file);
    if (mapped == MAP_FAILED)
        return false;
    arena = mapped;
    madvise(mapped, arena_bytes, MADV_RANDOM); /* else holes are read ahead */
    if (!is_sound())
        return false;
    read_modules();
    return true;
}

uint32_t callers_of(const struct raw_place *place, uint64_t *callers) { return raw_callers(arena, place, callers); }

const struct loaded *loaded_numbered(uint32_t number) {
    return number && number <= loaded_count && loaded[number].module->file ? &loaded[number] : NULL;
}

/* Two of them at one address were there one after the other. */
const struct loaded *loaded_at(uint64_t address) {
    const struct loaded *found = NULL;
    for (uint32_t i = 1; i <= loaded_count; i++) {
        const struct module *m = loaded[i].module;
        uint64_t at = address - loaded[i].bias;
        if (!m->file || at < m->from || at >= m->to)
            continue;
        if (found)
            return NULL;
        found = &loaded[i];
    }
    return found;
}

bool is_recorder(const struct module *m) { return strcmp(base_of(m->path), "preload.so") == 0; }

static bool has_part(const struct module *m, const Dwarf *debug) {
    for (size_t i = 0; i < m->part_count; i++)
        if (m->parts[i] == debug)
            return true;
    return m->debug == debug;
}

/* The units of split files are another's than the module's. */
struct module *module_of_die(Dwarf_Die *die) {
    const Dwarf *debug = dwarf_cu_getdwarf(die->cu);
    for (size_t i = 0; i < module_count; i++)
        if (modules[i]->debug && has_part(modules[i], debug))
            return modules[i];
    return NULL;
}
