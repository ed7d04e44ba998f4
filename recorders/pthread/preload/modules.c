/* Modules: what is mapped where. They are found when the program starts, when a library is loaded, and else by the loader's own
   table, which is read without a lock if it is that of glibc 2.35 or later. */
#include "own.h"

#include <dlfcn.h>
#include <elf.h>
#include <errno.h>
#include <fcntl.h>
#include <link.h>
#include <string.h>
#include <sys/syscall.h>
#include <unistd.h>

#ifdef __GLIBC_PREREQ
#if __GLIBC_PREREQ(2, 35)
#define HAS_FIND_OBJECT
#endif
#endif

static struct module *modules;
static bool is_started; /* those that were there at the start are known */

#define EACH_MODULE(m) for (struct module *m = LOAD(&modules); m; m = LOAD(&m->next))

const struct module *known_module(uintptr_t address) {
    EACH_MODULE(m)
        if (address >= m->from && address < m->to && !LOAD(&m->is_gone))
            return m;
    return NULL;
}

static const char *recorded_path(const struct module *m) {
    return ((struct raw_module *)part_of(RAW_MODULES, m->number))->path;
}

static bool has_slash(const char *name) {
    while (*name && *name != '/')
        name++;
    return *name;
}

/* ---- The program's path. /proc/self/exe has it, but to look there is one of the dearest things that a short process does at its start:
   the system makes the process's folder for that, and takes it away when the process ends. So the name by which the program was
   started is taken, if it is clear that it is the same. */

extern void *__libc_stack_end; /* where the program's first thread began */

/* The name by which the system started the program, or NULL. The system leaves it on the stack, behind the words and the environment.
   That of a script is the script's, and its interpreter finds it among its words. */
static const char *started_name(void) {
    uintptr_t count = *(const uintptr_t *)__libc_stack_end;
    char **words = (char **)__libc_stack_end + 1, **end = environ;
    if (end != words + count + 1)
        return NULL;
    while (*end)
        end++;
    const ElfW(auxv_t) *said = (const ElfW(auxv_t) *)(end + 1);
    while (said->a_type != AT_EXECFN && said->a_type != AT_NULL)
        said++;
    const char *name = said->a_type == AT_EXECFN ? (const char *)said->a_un.a_val : NULL;
    for (uintptr_t i = 1; name && i < count; i++)
        if (!words[i] || is_same_text(words[i], name))
            return NULL;
    return name;
}

static bool is_no_link(const char *path) {
    char to;
    return SYSTEM(readlinkat, AT_FDCWD, path, &to, 1) < 0 && errno == EINVAL;
}

/* One folder or file after the other, none of which may be a symbolic link. */
static bool put_parts(char *path, char *end, const char *name) {
    while (*name) {
        const char *from = name;
        while (*name && *name != '/')
            name++;
        size_t length = (size_t)(name - from);
        name += *name == '/';
        if (length == 0 || (length == 1 && from[0] == '.'))
            continue;
        if ((length == 2 && from[0] == '.' && from[1] == '.') || length + 1 > (size_t)(path + RAW_PATH - end))
            return false;
        *end++ = '/';
        end = put_text(end, from, length);
        if (!is_no_link(path))
            return false;
    }
    return end > path;
}

static bool put_started_path(char *path) {
    const char *name = started_name();
    if (!name)
        return false;
    char *end = path;
    if (name[0] != '/') {
        if (SYSTEM(getcwd, path, RAW_PATH) < 0 || path[0] != '/')
            return false;
        end += path[1] ? length_of(path) : 0;
    }
    return put_parts(path, end, name);
}

static void put_program_path(char *path) {
    if (put_started_path(path))
        return;
    long length = SYSTEM(readlinkat, AT_FDCWD, "/proc/self/exe", path, RAW_PATH);
    path[length > 0 ? length : 0] = 0;
}

/* The path from the root, as far as there is room. The program itself has no name among the loader's. */
static void put_path(char *path, const char *name) {
    path[0] = 0;
    if (!name[0]) {
        put_program_path(path);
        return;
    }
    char *to = path;
    if (name[0] != '/' && has_slash(name) && getcwd(path, RAW_PATH - 1))
        to = put_text(path + length_of(path), "/", 1);
    put_text(to, name, RAW_PATH - 1 - (size_t)(to - path));
}

/* They are linked in the order in which they are found: the program comes first. */
static void add_module(const struct module *new, const char *path) {
    struct module *m = take_private(sizeof *m), **end = &modules, *there = NULL;
    uint32_t number = m ? take_part(RAW_MODULES) : 0;
    if (!number)
        return;
    struct raw_module *raw = part_of(RAW_MODULES, number);
    raw->process = own_process;
    raw->bias = new->bias;
    put_text(raw->path, path, RAW_PATH);
    STORE(&raw->is_ready, 1);
    *m = *new;
    m->number = number;
    for (; !SWAP(end, &there, m); there = NULL)
        end = &there->next;
}

/* Notes a module. One that was closed and lies at the same place again is known already. */
static void note_module(const struct module *new, const char *name) {
    const struct module *there = known_module(new->from);
    if (there && there->bias == new->bias && there->to == new->to)
        return;
    char path[RAW_PATH + 4];
    int saved = errno;
    put_path(path, name);
    errno = saved;
    EACH_MODULE(m)
        if (LOAD(&m->is_gone) && m->from == new->from && m->to == new->to && is_same_text(recorded_path(m), path)) {
            STORE(&m->is_gone, false);
            return;
        }
    add_module(new, path);
}

/* Its segments as the loader tells them. */
static struct module module_in(const struct dl_phdr_info *info) {
    struct module m = {.from = UINTPTR_MAX, .bias = info->dlpi_addr};
    for (int i = 0; i < info->dlpi_phnum; i++) {
        const ElfW(Phdr) *part = &info->dlpi_phdr[i];
        uintptr_t from = info->dlpi_addr + part->p_vaddr, to = from + part->p_memsz;
        if (part->p_type == PT_TLS && info->dlpi_tls_data && !LOAD(&is_started)) {
            m.own_from = (uintptr_t)info->dlpi_tls_data - (uintptr_t)__builtin_thread_pointer();
            m.own_bytes = part->p_memsz;
        }
        if (part->p_type == PT_GNU_EH_FRAME)
            m.unwinding = (const uint8_t *)from;
        if (part->p_type != PT_LOAD)
            continue;
        m.from = from < m.from ? from : m.from;
        m.to = to > m.to ? to : m.to;
    }
    return m;
}

static int note_loaded(struct dl_phdr_info *info, size_t size, void *unused) {
    (void)size, (void)unused;
    struct module m = module_in(info);
    if (m.from < m.to)
        note_module(&m, info->dlpi_name);
    return 0;
}

/* At the start: what is loaded then has its thread-local part at the same distance from the pointer of each thread. What begins later doesn't know
   which that was. */
void note_modules(void) {
    STORE(&is_started, is_started || is_for_libraries);
    dl_iterate_phdr(note_loaded, NULL);
    STORE(&is_started, true);
}

/* The thread-local lock that is so far from the thread pointer, as a module and an offset in its thread-local part. */
bool own_part_word(intptr_t from_pointer, uint64_t *word) {
    EACH_MODULE(m)
        if ((uintptr_t)from_pointer - m->own_from < m->own_bytes) {
            *word = raw_word(m->number, (uintptr_t)from_pointer - m->own_from);
            return true;
        }
    return false;
}

#ifdef HAS_FIND_OBJECT

FOUND_WHEN_LOADED(find_object, _dl_find_object);

static bool is_mapped(const struct module *m) {
    struct dl_find_object found;
    return find_object((void *)m->from, &found) == 0 && found.dlfo_link_map->l_addr == m->bias &&
           (uintptr_t)found.dlfo_map_end >= m->to;
}

static void look_for_module(uintptr_t address) {
    struct dl_find_object found;
    if (find_object((void *)address, &found) != 0)
        return;
    struct module m = {.from = (uintptr_t)found.dlfo_map_start, .to = (uintptr_t)found.dlfo_map_end,
                       .bias = found.dlfo_link_map->l_addr, .unwinding = found.dlfo_eh_frame};
    note_module(&m, found.dlfo_link_map->l_name);
}

#else

/* Without that table the loader is asked, which takes a lock of its own. It counts what it loads, so it goes through its modules
   only if there are other ones than before. */
static unsigned long long last_added, last_removed;

static int note_if_changed(struct dl_phdr_info *info, size_t size, void *unused) {
    if (info->dlpi_adds == last_added && info->dlpi_subs == last_removed)
        return 1;
    return note_loaded(info, size, unused);
}

static int note_counters(struct dl_phdr_info *info, size_t size, void *unused) {
    (void)size, (void)unused;
    last_added = info->dlpi_adds;
    last_removed = info->dlpi_subs;
    return 1;
}

static void look_for_module(uintptr_t address) {
    (void)address;
    dl_iterate_phdr(note_if_changed, NULL);
    dl_iterate_phdr(note_counters, NULL);
}

static int is_same_module(struct dl_phdr_info *info, size_t size, void *module) {
    (void)size;
    struct module there = module_in(info);
    return there.bias == ((const struct module *)module)->bias && there.to == ((const struct module *)module)->to;
}

static bool is_mapped(const struct module *m) { return dl_iterate_phdr(is_same_module, (void *)m) != 0; }

#endif

/* The library that exceptions and the ends of threads go through. */
static bool is_unwinder(const char *path) {
    static const char name[] = "libgcc_s.so";
    const char *slash = strrchr(path, '/');
    return strncmp(slash ? slash + 1 : path, name, sizeof name - 1) == 0;
}

/* (nothing has to be recorded for that) */
#ifdef HAS_FIND_OBJECT

bool is_in_unwinder(uintptr_t address) {
    struct dl_find_object found;
    return find_object((void *)address, &found) == 0 && is_unwinder(found.dlfo_link_map->l_name);
}

bool put_path_of(uintptr_t address, char *path) {
    struct dl_find_object found;
    if (find_object((void *)address, &found) != 0)
        return false;
    put_text(path, found.dlfo_link_map->l_name, RAW_PATH);
    return true;
}

#else

struct sought {
    uintptr_t address;
    char *path;
};

static int put_if_there(struct dl_phdr_info *info, size_t size, void *what) {
    (void)size;
    struct sought *sought = what;
    struct module m = module_in(info);
    bool is_there = sought->address >= m.from && sought->address < m.to;
    if (is_there)
        put_text(sought->path, info->dlpi_name, RAW_PATH);
    return is_there;
}

static int is_there_unwinder(struct dl_phdr_info *info, size_t size, void *address) {
    (void)size;
    struct module m = module_in(info);
    return (uintptr_t)address >= m.from && (uintptr_t)address < m.to && is_unwinder(info->dlpi_name);
}

bool is_in_unwinder(uintptr_t address) { return dl_iterate_phdr(is_there_unwinder, (void *)address) != 0; }

bool put_path_of(uintptr_t address, char *path) {
    return dl_iterate_phdr(put_if_there, &(struct sought){address, path}) != 0;
}

#endif

const struct module *module_of(uintptr_t address) {
    const struct module *m = known_module(address);
    if (UNLIKELY(!m)) {
        look_for_module(address);
        m = known_module(address);
    }
    return m;
}

uint64_t word_of(uintptr_t address) {
    const struct module *m = module_of(address);
    return m ? raw_word(m->number, address - m->bias) : raw_word(RAW_NOWHERE, address);
}

/* What was known of addresses in a library that is closed isn't known any more, since another may come to lie there. */
void forget_closed_modules(void) {
    bool is_any = false;
    EACH_MODULE(m) {
        if (LOAD(&m->is_gone) || is_mapped(m))
            continue;
        STORE(&m->is_gone, true);
        drop_locks_between(m->from, m->to);
        is_any = true;
    }
    if (!is_any)
        return;
    forget_rules();
    forget_places_in_closed_modules();
    forget_passing();
}

bool is_gone(uint32_t number) {
    EACH_MODULE(m)
        if (m->number == number)
            return LOAD(&m->is_gone);
    return false;
}
