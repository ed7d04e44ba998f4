/* Modules and their symbols, from their files. */
#include "finish.h"

#include <elf.h>
#include <fcntl.h>
#include <string.h>
#include <sys/mman.h>
#include <sys/stat.h>
#include <unistd.h>

struct module *modules;
size_t module_count;

static int by_value(const void *a, const void *b) {
    const struct symbol *x = a, *y = b;
    return x->value != y->value ? (x->value < y->value ? -1 : 1) : strcmp(x->name, y->name);
}

/* The name may stand in a trace: visible ASCII, and no mark of a symbol's version. */
static bool is_plain(const char *name) {
    if (!*name)
        return false;
    for (; *name; name++)
        if (*name < 0x21 || *name > 0x7e)
            return false;
    return true;
}

/* A module's file, mapped. */
struct file {
    const char *from;
    size_t size;
};

static const Elf64_Shdr *sections_of(const struct file *file, uint16_t *count) {
    const Elf64_Ehdr *head = (const Elf64_Ehdr *)file->from;
    *count = 0;
    if (file->size < sizeof *head || memcmp(head->e_ident, ELFMAG, SELFMAG) != 0 || head->e_ident[EI_CLASS] != ELFCLASS64 ||
        head->e_shoff > file->size || head->e_shnum * sizeof(Elf64_Shdr) > file->size - head->e_shoff)
        return NULL;
    *count = head->e_shnum;
    return (const Elf64_Shdr *)(file->from + head->e_shoff);
}

static bool is_inside(const struct file *file, const Elf64_Shdr *part) {
    return part->sh_offset <= file->size && part->sh_size <= file->size - part->sh_offset;
}

static bool takes_lock(const char *name) {
    static const char *const prefixes[] = {"pthread_mutex_", "pthread_rwlock_", "pthread_spin_", "mtx_"};
    for (size_t i = 0; i < sizeof prefixes / sizeof *prefixes; i++)
        if (strncmp(name, prefixes[i], strlen(prefixes[i])) == 0 && strstr(name, "lock"))
            return true;
    return false;
}

static void add_symbols(struct module *m, const struct file *file, const Elf64_Shdr *table, const Elf64_Shdr *names) {
    if (!is_inside(file, table) || !is_inside(file, names) || !names->sh_size || names->sh_type == SHT_NOBITS)
        return;
    const Elf64_Sym *symbols = (const Elf64_Sym *)(file->from + table->sh_offset);
    for (size_t i = 0; i < table->sh_size / sizeof *symbols; i++) {
        if (symbols[i].st_name >= names->sh_size)
            continue;
        const char *name = file->from + names->sh_offset + symbols[i].st_name;
        int type = ELF64_ST_TYPE(symbols[i].st_info);
        bool is_code = type == STT_FUNC || type == STT_GNU_IFUNC;
        if (symbols[i].st_shndx == SHN_UNDEF)
            m->takes_locks |= takes_lock(name);
        else if ((is_code || type == STT_OBJECT || type == STT_TLS) && is_plain(name)) {
            enum symbol_kind kind = is_code ? SYMBOL_CODE : type == STT_TLS ? SYMBOL_THREAD : SYMBOL_DATA;
            struct symbol s = {symbols[i].st_value, symbols[i].st_size, name, kind, NOT_KNOWN};
            PUSH(m->symbols, m->symbol_count, s);
        }
    }
}

/* Go's linker leaves a section of its own, and Rust's compiler a comment. */
static void tell_language(struct module *m, const struct file *file, const Elf64_Shdr *part, const char *name) {
    m->has_debug |= strcmp(name, ".debug_info") == 0 || strcmp(name, ".zdebug_info") == 0;
    m->is_go |= strcmp(name, ".note.go.buildid") == 0 || strcmp(name, ".gopclntab") == 0;
    if (strcmp(name, ".comment") == 0 && is_inside(file, part) && part->sh_type != SHT_NOBITS)
        m->is_rust |= memmem(file->from + part->sh_offset, part->sh_size, "rustc version", 13) != NULL;
}

static void read_sections(struct module *m, const struct file *file) {
    uint16_t count;
    const Elf64_Shdr *parts = sections_of(file, &count);
    uint16_t names = parts ? ((const Elf64_Ehdr *)file->from)->e_shstrndx : 0;
    for (int i = 0; i < count; i++) {
        if ((parts[i].sh_type == SHT_SYMTAB || parts[i].sh_type == SHT_DYNSYM) && parts[i].sh_link < count)
            add_symbols(m, file, &parts[i], &parts[parts[i].sh_link]);
        if (names < count && is_inside(file, &parts[names]) && parts[i].sh_name < parts[names].sh_size)
            tell_language(m, file, &parts[i], file->from + parts[names].sh_offset + parts[i].sh_name);
    }
    qsort(m->symbols, m->symbol_count, sizeof *m->symbols, by_value);
}

static bool map_file(const char *path, struct file *file) {
    int fd = open(path, O_RDONLY);
    struct stat about;
    void *from = MAP_FAILED;
    if (fd < 0)
        return false;
    if (fstat(fd, &about) == 0 && S_ISREG(about.st_mode) && (size_t)about.st_size > sizeof(Elf64_Ehdr)) {
        from = mmap(NULL, (size_t)about.st_size, PROT_READ, MAP_PRIVATE, fd, 0);
        *file = (struct file){from, (size_t)about.st_size};
    }
    close(fd);
    return from != MAP_FAILED;
}

/* ---- Symbols in a file of their own, which a stripped one names in a section: its name, and a sum of what is in it. */

static const Elf64_Shdr *section_named(const struct file *file, const char *wanted) {
    uint16_t count;
    const Elf64_Shdr *parts = sections_of(file, &count);
    uint16_t names = parts ? ((const Elf64_Ehdr *)file->from)->e_shstrndx : 0;
    for (int i = 0; i < count && names < count && is_inside(file, &parts[names]); i++)
        if (parts[i].sh_name < parts[names].sh_size && is_inside(file, &parts[i]) &&
            strcmp(file->from + parts[names].sh_offset + parts[i].sh_name, wanted) == 0)
            return &parts[i];
    return NULL;
}

/* The sum CRC-32. */
static uint32_t sum_of(const struct file *file) {
    uint32_t table[256], sum = UINT32_MAX;
    for (uint32_t i = 0; i < 256 * 8; i++) {
        uint32_t before = i % 8 ? table[i / 8] : i / 8;
        table[i / 8] = before >> 1 ^ (before & 1 ? UINT32_C(0xedb88320) : 0);
    }
    for (size_t i = 0; i < file->size; i++)
        sum = sum >> 8 ^ table[(sum ^ (unsigned char)file->from[i]) & 255];
    return ~sum;
}

/* Beside the module, in `.debug` there, or below the system's folder for such files. */
static void read_linked(struct module *m, const char *name, uint32_t sum) {
    static const char *const forms[] = {"%.*s%s", "%.*s.debug/%s", "/usr/lib/debug%.*s%s"};
    struct file file;
    char path[2 * 4096];
    for (size_t i = 0; i < sizeof forms / sizeof *forms; i++) {
        snprintf(path, sizeof path, forms[i], (int)(m->base - m->path), m->path, name);
        if (!map_file(path, &file))
            continue;
        if (sum_of(&file) == sum) {
            read_sections(m, &file);
            return;
        }
        munmap((void *)(uintptr_t)file.from, file.size);
    }
}

static bool has_symbols(const struct file *file) {
    uint16_t count;
    const Elf64_Shdr *parts = sections_of(file, &count);
    for (int i = 0; i < count; i++)
        if (parts[i].sh_type == SHT_SYMTAB)
            return true;
    return false;
}

/* Names of what comes with the system don't depend on whether such files are there. */
static void follow_link(struct module *m, const struct file *file) {
    const Elf64_Shdr *link = has_symbols(file) || raw_is_of_system(m->path) ? NULL : section_named(file, ".gnu_debuglink");
    uint32_t sum;
    if (!link || link->sh_type == SHT_NOBITS || link->sh_size < sizeof sum + 1)
        return;
    const char *name = file->from + link->sh_offset;
    if (!memchr(name, 0, link->sh_size - sizeof sum))
        return;
    memcpy(&sum, name + link->sh_size - sizeof sum, sizeof sum);
    read_linked(m, name, sum);
}

static void read_module(struct module *m) {
    struct file file;
    if (!map_file(m->path, &file))
        return;
    read_sections(m, &file);
    follow_link(m, &file);
}

/* The module of this path, among all recordings. */
uint32_t module_named(const char *path) {
    for (size_t i = 0; i < module_count; i++)
        if (strcmp(modules[i].path, path) == 0)
            return (uint32_t)i;
    struct module m = {.path = checked(strdup(path))};
    const char *slash = strrchr(m.path, '/');
    m.base = slash ? slash + 1 : m.path;
    read_module(&m);
    PUSH(modules, module_count, m);
    return (uint32_t)(module_count - 1);
}

#define MOST_NESTED 64 /* symbols that may begin between one and an address in it */

/* The symbol of a kind that has the address in it. */
const struct symbol *symbol_at(uint32_t module, uint64_t offset, enum symbol_kind kind) {
    const struct module *m = &modules[module];
    size_t low = 0, high = m->symbol_count;
    while (low < high) {
        size_t middle = (low + high) / 2;
        if (m->symbols[middle].value <= offset)
            low = middle + 1;
        else
            high = middle;
    }
    for (size_t i = low; i-- > 0 && low - i < MOST_NESTED;)
        if (m->symbols[i].kind == kind && offset < m->symbols[i].value + m->symbols[i].size)
            return &m->symbols[i];
    return NULL;
}
