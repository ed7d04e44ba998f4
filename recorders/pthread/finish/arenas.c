/* What the preload library left: one file for each program that was run. */
#include "finish.h"

#include <dirent.h>
#include <fcntl.h>
#include <signal.h>
#include <string.h>
#include <sys/mman.h>
#include <sys/stat.h>
#include <unistd.h>

struct arena *arenas;
size_t arena_count;
uint64_t process_count, refused_count;

uint32_t count_of(const struct arena *a, enum raw_kind kind) {
    const struct raw_region *region = &a->raw->regions[kind];
    return region->used < region->room ? region->used : region->room;
}

const void *part_of(const struct arena *a, enum raw_kind kind, uint32_t number) {
    if (number == 0 || number > count_of(a, kind))
        return NULL;
    return (const char *)a->raw + raw_at(&a->raw->regions[kind], kind, number);
}

/* ---- Reading a file. */

static bool is_sound(const struct arena *a) {
    if (a->bytes < sizeof *a->raw || a->raw->magic != RAW_MAGIC)
        return false;
    for (int kind = 0; kind < RAW_KINDS; kind++) {
        const struct raw_region *region = &a->raw->regions[kind];
        uint64_t size = raw_size((enum raw_kind)kind);
        if (region->from > a->bytes || region->room * size > a->bytes - region->from || region->first_from > a->bytes ||
            region->first * size > a->bytes - region->first_from)
            return false;
    }
    return true;
}

/* A process that was killed while it noted a module may have left one that isn't ready. */
static void read_modules(struct arena *a) {
    uint32_t count = count_of(a, RAW_MODULES);
    a->modules = checked(calloc(count + 1, sizeof *a->modules));
    for (uint32_t i = 1; i <= count; i++) {
        const struct raw_module *m = part_of(a, RAW_MODULES, i);
        char path[RAW_PATH + 1] = "unknown";
        if (m->is_ready)
            memcpy(path, m->path, RAW_PATH);
        a->modules[i] = module_named(path);
    }
}

/* On a full disk of memory (tmpfs) a page that nothing was written to can't be looked at: the system has no page for it, and raises
   SIGBUS. There is nothing but zeros in it, so a page of zeros takes its place. */
static void put_zeros(int signal_number, siginfo_t *info, void *context) {
    (void)context;
    size_t page = (size_t)sysconf(_SC_PAGESIZE);
    char *at = (char *)((uintptr_t)info->si_addr & ~(page - 1));
    if (info->si_code != BUS_ADRERR || mmap(at, page, PROT_READ, MAP_PRIVATE | MAP_ANONYMOUS | MAP_FIXED, -1, 0) == MAP_FAILED)
        signal(signal_number, SIG_DFL);
}

static void read_holes_as_zeros(void) {
    struct sigaction action = {.sa_sigaction = put_zeros, .sa_flags = SA_SIGINFO};
    sigaction(SIGBUS, &action, NULL);
}

/* A part of the recording that can't be read may not be passed over: without it the rest could seem clean. */
static void *mapped_file(int fd, size_t bytes, const char *path) {
    void *p = mmap(NULL, bytes, PROT_READ, MAP_PRIVATE, fd, 0);
    if (p == MAP_FAILED)
        refuse_file("can't be read", path);
    madvise(p, bytes, MADV_RANDOM); /* else holes are read ahead */
    return p;
}

static void open_arena(const char *path) {
    int fd = open(path, O_RDONLY);
    struct stat about;
    if (fd < 0 || fstat(fd, &about) != 0)
        refuse_file("can't be read", path);
    struct arena a = {.bytes = (uint64_t)about.st_size, .path = checked(strdup(path))};
    if (a.bytes)
        a.raw = mapped_file(fd, a.bytes, path);
    close(fd);
    if (is_sound(&a))
        PUSH(arenas, arena_count, a);
    else
        refused_count++;
}

/* Where its locks are made: there functions that only do that for their caller are passed over, and not where a lock is taken. */
static void mark_making(struct arena *a) {
    uint32_t places = count_of(a, RAW_PLACES);
    for (uint32_t n = 1; n <= count_of(a, RAW_CLASSES); n++) {
        const struct raw_class *class = part_of(a, RAW_CLASSES, n);
        if ((class->kind == CLASS_INIT || class->kind == CLASS_HEAP) && class->place <= places)
            a->places[class->place].is_of_making = true;
    }
}

/* A program is a process, and so is each of its forked children that locked something. Others have no number. */
static void number_processes(struct arena *a) {
    a->processes = checked(calloc(count_of(a, RAW_PROCESSES) + 2, sizeof *a->processes));
    a->processes[1] = (uint32_t)++process_count;
    for (uint32_t n = 1; n <= count_of(a, RAW_THREADS); n++) {
        const struct raw_thread *t = part_of(a, RAW_THREADS, n);
        if (t->calls && part_of(a, RAW_PROCESSES, t->process) && !a->processes[t->process])
            a->processes[t->process] = (uint32_t)++process_count;
    }
}

static int by_start(const void *a, const void *b) {
    const struct arena *x = a, *y = b;
    return x->raw->started < y->raw->started ? -1 : x->raw->started > y->raw->started;
}

static bool ends_with(const char *name, const char *end) {
    size_t n = strlen(name), m = strlen(end);
    return n >= m && strcmp(name + n - m, end) == 0;
}

void read_arenas(const char *folder) {
    read_holes_as_zeros();
    char raw[4096];
    snprintf(raw, sizeof raw, "%s/raw", folder);
    struct dirent **names;
    int n = scandir(raw, &names, NULL, alphasort);
    if (n < 0)
        refuse_file("can't be read", raw);
    for (int i = 0; i < n; i++) {
        char path[4096 + 300];
        snprintf(path, sizeof path, "%s/%s", raw, names[i]->d_name);
        if (ends_with(path, ".arena"))
            open_arena(path);
        refused_count += ends_with(path, ".refused");
    }
    if (arena_count)
        qsort(arenas, arena_count, sizeof *arenas, by_start);
    for (size_t i = 0; i < arena_count; i++) {
        struct arena *a = &arenas[i];
        read_modules(a);
        a->places = checked(calloc(count_of(a, RAW_PLACES) + 1, sizeof *a->places));
        a->keys = checked(calloc(count_of(a, RAW_CLASSES) + 1, sizeof *a->keys));
        mark_making(a);
        number_processes(a);
    }
}

/* ---- What the programs had on their stacks. `names` has read it, and nobody else is to. */

static void forget_looks_of(const struct arena *a) {
    static const char zeros[sizeof(struct raw_look)];
    const struct raw_region *region = &a->raw->regions[RAW_LOOKS];
    uint32_t count = count_of(a, RAW_LOOKS);
    int fd = count ? open(a->path, O_RDWR | O_CLOEXEC) : -1;
    if (fd < 0)
        return;
    bool is_punched = fallocate(fd, FALLOC_FL_PUNCH_HOLE | FALLOC_FL_KEEP_SIZE, (off_t)raw_at(region, RAW_LOOKS, 1),
                                (off_t)(count * sizeof(struct raw_look))) == 0;
    for (uint32_t i = 1; i <= count && !is_punched; i++)
        if (pwrite(fd, zeros, sizeof zeros, (off_t)raw_at(region, RAW_LOOKS, i)) != (ssize_t)sizeof zeros)
            break;
    close(fd);
}

void forget_looks(void) {
    for (size_t i = 0; i < arena_count; i++)
        forget_looks_of(&arenas[i]);
}

/* ---- Places. */

/* An address with the module's number among all recordings; UINT64_MAX if it is in none. */
uint64_t global_word(const struct arena *a, uint64_t raw) {
    uint32_t module = raw_word_module(raw);
    if (module == 0 || module > count_of(a, RAW_MODULES) || a->modules[module] >= RAW_NOWHERE)
        return UINT64_MAX;
    return raw_word(a->modules[module], raw_word_offset(raw));
}

/* The first of callers that is of the program itself; the first of all if none is. */
static uint32_t first_of_program(const struct arena *a, const uint64_t *callers, uint32_t last) {
    for (uint32_t i = 0; i < last; i++)
        if (is_of_program(global_word(a, callers[i])))
            return i;
    return 0;
}

static bool is_start(uint64_t word) { return is_outermost(word) || (word != UINT64_MAX && !is_of_program(word)); }

static bool is_passed(const struct place *place, uint64_t word) {
    enum passing passing = passing_of(word);
    return passing == PASSED_ALWAYS || (passing == PASSED_WHERE_MADE && place->is_of_making);
}

/* Two locks that such a function makes for one caller, each by a call of its own, aren't made in one place. */
static void note_maker(struct place *place, uint64_t word) {
    char text[LONGEST_NAME];
    if (passing_of(word) != PASSED_WHERE_MADE)
        return;
    snprintf(text, sizeof text, "%x %s+%lx", place->maker, modules[raw_word_module(word)].base, (unsigned long)raw_word_offset(word));
    place->maker = hash_of(text);
}

/* The callers without the frames that start a thread or a program, and without the innermost wrappers. */
static void read_place(struct arena *a, struct place *to, const struct raw_place *from) {
    uint64_t callers[RAW_FRAMES];
    uint32_t last = raw_callers(a->raw, from, callers), first = 0;
    while (last > 1 && is_start(global_word(a, callers[last - 1])))
        last--;
    while (first + 1 < last && is_passed(to, global_word(a, callers[first])))
        first++;
    if (first + 1 == last && is_passed(to, global_word(a, callers[first])))
        first = first_of_program(a, callers, last);
    for (uint32_t i = 0; i < first; i++)
        note_maker(to, global_word(a, callers[i]));
    for (uint32_t i = first; i < last; i++)
        to->words[to->count++] = global_word(a, callers[i]);
}

const struct place *place_numbered(struct arena *a, uint32_t number) {
    static const struct place none;
    const struct raw_place *raw = part_of(a, RAW_PLACES, number);
    if (!raw)
        return &none;
    struct place *place = &a->places[number];
    if (!place->is_read)
        read_place(a, place, raw);
    place->is_read = true;
    return place;
}

/* ---- Records. */

static const struct raw_record *record_at(const struct arena *a, const struct raw_thread *t, uint64_t index) {
    uint32_t chunk = raw_chunk(index);
    uint64_t in = index - raw_chunk_start(chunk), from = chunk < RAW_CHUNKS ? t->chunks[chunk] : 0;
    if (!from || from > a->bytes || raw_chunk_room(chunk) * sizeof(struct raw_record) > a->bytes - from)
        return NULL;
    return (const struct raw_record *)((const char *)a->raw + from) + in;
}

const struct raw_record *record_of(const struct arena *a, const struct raw_thread *t, uint64_t index) {
    const struct raw_record *r = record_at(a, t, index);
    return r && raw_mode(r->what) <= MODE_RELEASE && class_of(a, raw_object(r->what)) ? r : NULL;
}

const struct raw_record *state_record_of(const struct arena *a, const struct raw_thread *t, uint64_t index) {
    const struct raw_record *r = record_at(a, t, index);
    return r && raw_mode(r->what) == MODE_STATE ? r : NULL;
}

uint32_t class_of(const struct arena *a, uint32_t object) {
    const struct raw_object *o = part_of(a, RAW_OBJECTS, object);
    return o && part_of(a, RAW_CLASSES, o->class) ? o->class : 0;
}
