/* Memory that the program maps itself. What it shares with other processes is noted by what it is for all of them: a file and an offset
   in it, or, if there is no file, a number that is inherited by forked children. The rest is noted as malloc's is. */
#include "own.h"

#include <errno.h>
#include <fcntl.h>
#include <stdarg.h>
#include <stdio.h>
#include <stdlib.h>
#include <string.h>
#include <sys/mman.h>
#include <sys/shm.h>
#include <sys/stat.h>
#include <sys/syscall.h>
#include <sys/sysmacros.h>
#include <unistd.h>

#define REALS(X) X(mmap) X(munmap) X(mremap) X(shmat) X(shmdt)
REALS(KNOWN_REAL)
FIND_AT_START(REALS)

void *map_own(size_t bytes, int how, int file) {
    return REAL(mmap)(NULL, bytes, PROT_READ | PROT_WRITE, how, file, 0);
}

void unmap_own(void *from, size_t bytes) { REAL(munmap)(from, bytes); }

/* ---- Files. */

static struct names files;

static uint32_t define_file(const struct raw_file *new) {
    uint32_t number = take_part(RAW_FILES);
    if (!number)
        return 0;
    struct raw_file *file = part_of(RAW_FILES, number);
    file->place = new->place;
    file->device = new->device;
    file->inode = new->inode;
    memcpy(file->path, new->path, sizeof file->path);
    STORE(&file->is_ready, 1);
    return number;
}

/* The number of a file of this name, or of one that was known before. */
static uint32_t known_file(const struct raw_file *file) {
    uint32_t *slot = added_slot(&files, mixed(mixed(file->device) ^ file->inode)), none = 0;
    if (!slot || LOAD(slot))
        return slot ? LOAD(slot) : 0;
    uint32_t number = define_file(file);
    return SWAP(slot, &none, number) ? number : none;
}

/* The system puts this behind the name of a file that has none any more. */
#define DELETED " (deleted)"

/* Cuts that off. Whether it was there. */
static bool cut_deleted(char *path) {
    size_t length = strlen(path), end = length > strlen(DELETED) ? length - strlen(DELETED) : 0;
    bool is_deleted = end && strcmp(path + end, DELETED) == 0;
    if (is_deleted)
        path[end] = 0;
    return is_deleted;
}

uint32_t file_of(int descriptor) {
    struct stat about;
    struct raw_file file = {.place = 0};
    char link[40];
    if (fstat(descriptor, &about) != 0)
        return 0;
    file.device = about.st_dev;
    file.inode = about.st_ino;
    snprintf(link, sizeof link, "/proc/self/fd/%d", descriptor);
    ssize_t length = readlink(link, file.path, RAW_PATH);
    file.path[length > 0 ? length : 0] = 0;
    cut_deleted(file.path);
    return known_file(&file);
}

/* Memory without a file: it is another one each time. */
static uint32_t new_memory(struct call call) {
    struct raw_file file = {.place = place_of_call(call, RAW_FRAMES)};
    return define_file(&file);
}

/* System V's has a number while it is there, and a key by which programs find it. */
static uint32_t numbered_memory(int number, unsigned key) {
    struct raw_file file = {.device = RAW_SYSTEM_V, .inode = (uint64_t)number};
    snprintf(file.path, sizeof file.path, "shm-%x", key);
    return known_file(&file);
}

/* ---- Where memory that is shared lies. A region is taken, filled, and then has its number. */

#define REGIONS 1024
static struct region {
    uint32_t is_taken, file;
    uintptr_t from, to;
    uint64_t offset; /* of `from` */
} regions[REGIONS] LARGE;
static uint32_t region_count; /* so many were ever in use at once */

static void put_region(uintptr_t from, uintptr_t to, uint32_t file, uint64_t offset) {
    begin_generations();
    for (uint32_t i = 0; i < REGIONS; i++) {
        uint32_t none = 0;
        if (LOAD(&regions[i].is_taken) || !SWAP(&regions[i].is_taken, &none, 1))
            continue;
        regions[i].from = from;
        regions[i].to = to;
        regions[i].offset = offset;
        STORE(&regions[i].file, file);
        uint32_t count = LOAD(&region_count);
        while (count < i + 1 && !SWAP(&region_count, &count, i + 1))
            continue;
        return;
    }
    ADD(&arena->unknown, 1);
}

bool find_shared(uintptr_t lock, uint32_t *file, uint64_t *offset) {
    for (uint32_t i = 0; i < LOAD(&region_count); i++) {
        const struct region *r = &regions[i];
        *file = LOAD(&r->file);
        if (*file && lock >= r->from && lock < r->to) {
            *offset = lock - r->from + r->offset;
            return true;
        }
    }
    return false;
}

/* A part of a region may go: what stays are up to two. */
static void drop_regions(uintptr_t from, uintptr_t to) {
    for (uint32_t i = 0; i < LOAD(&region_count); i++) {
        struct region r = regions[i];
        if (!r.file || r.from >= to || r.to <= from)
            continue;
        STORE(&regions[i].file, 0);
        STORE(&regions[i].is_taken, 0);
        if (r.from < from)
            put_region(r.from, from, r.file, r.offset);
        if (r.to > to)
            put_region(to, r.to, r.file, r.offset + (to - r.from));
    }
}

/* ---- What was shared before, where the recording waits for a library to begin: the system's list of what is mapped tells it. In a line of that are
   two addresses, rights, an offset, a device, an inode and a path. */

struct list { /* of which a part has been read */
    int file;
    size_t at, end;
    char text[1024];
};

struct mapping {
    uintptr_t from, to;
    bool is_shared; /* and may be written */
    uint64_t offset;
    struct raw_file file;
};

/* 0 at the end. */
static char next_character(struct list *list) {
    if (list->at == list->end) {
        long length = SYSTEM(read, list->file, list->text, sizeof list->text);
        list->at = 0;
        list->end = length > 0 ? (size_t)length : 0;
    }
    return list->end ? list->text[list->at++] : 0;
}

/* With what ends it. */
static uint64_t next_number(struct list *list, unsigned base) {
    for (uint64_t number = 0;;) {
        char c = next_character(list);
        unsigned digit = c >= '0' && c <= '9' ? (unsigned)(c - '0') : c >= 'a' && c <= 'f' ? (unsigned)(c - 'a') + 10 : base;
        if (digit >= base)
            return number;
        number = number * base + digit;
    }
}

/* The rest of a line, without the spaces before it. */
static void put_next_path(struct list *list, char *path) {
    size_t length = 0;
    for (char c = next_character(list); c && c != '\n'; c = next_character(list))
        if (length < RAW_PATH && (length || c != ' '))
            path[length++] = c;
    path[length] = 0;
}

static bool next_mapping(struct list *list, struct mapping *m) {
    char rights[5];
    *m = (struct mapping){.from = next_number(list, 16)};
    m->to = next_number(list, 16);
    for (size_t i = 0; i < sizeof rights; i++)
        rights[i] = next_character(list);
    m->is_shared = rights[1] == 'w' && rights[3] == 's';
    m->offset = next_number(list, 16);
    unsigned major = (unsigned)next_number(list, 16), minor = (unsigned)next_number(list, 16);
    m->file.device = makedev(major, minor);
    m->file.inode = next_number(list, 10);
    put_next_path(list, m->file.path);
    return m->to != 0;
}

/* Before the key, in the name that System V's memory has there. Its number stands for an inode. */
#define SYSTEM_V "/SYSV"
/* What memory without a file is called there, and here. */
#define NO_FILE "/dev/zero"
#define SHARED_MEMORY "shared-memory"

/* Memory without a file has an inode too, which no other one has. Some file systems tell another device there than to who asks for that of a file, as
   processes do that map it later. */
static uint32_t file_of_mapping(struct raw_file *file) {
    struct stat about;
    bool is_deleted = cut_deleted(file->path);
    if (is_deleted && strncmp(file->path, SYSTEM_V, strlen(SYSTEM_V)) == 0)
        return numbered_memory((int)file->inode, (unsigned)strtoul(file->path + strlen(SYSTEM_V), NULL, 16));
    if (is_deleted && strcmp(file->path, NO_FILE) == 0)
        strcpy(file->path, SHARED_MEMORY);
    if (!is_deleted && stat(file->path, &about) == 0 && about.st_ino == file->inode)
        file->device = about.st_dev;
    return known_file(file);
}

/* What another thread has mapped since is noted already; nobody's locks lie in the recorder's own file. */
static void note_shared(struct mapping *m) {
    uint32_t file;
    uint64_t offset;
    if (m->from == (uintptr_t)arena || find_shared(m->from, &file, &offset))
        return;
    uint32_t number = file_of_mapping(&m->file);
    if (number)
        put_region(m->from, m->to, number, m->offset);
}

void note_shared_before(void) {
    struct list list = {.file = (int)SYSTEM(openat, AT_FDCWD, "/proc/self/maps", O_RDONLY | O_CLOEXEC)};
    struct mapping m;
    while (list.file >= 0 && next_mapping(&list, &m))
        if (m.is_shared)
            note_shared(&m);
    if (list.file >= 0)
        SYSTEM(close, list.file);
}

/* ---- Mapping. */

#define PAGE 4096
static size_t whole_pages(size_t bytes) { return (bytes + PAGE - 1) & ~(size_t)(PAGE - 1); }

static void forget_mapped(uintptr_t from, size_t bytes) {
    drop_locks_between(from, from + bytes);
    drop_regions(from, from + bytes);
    drop_piece(from, bytes);
}

static void note_mapped(void *at, size_t bytes, int rights, int how, int file, uint64_t offset, struct call call) {
    if (how & MAP_FIXED)
        forget_mapped((uintptr_t)at, bytes);
    if (!(rights & PROT_WRITE) || (how & MAP_STACK))
        return;
    bool is_shared = (how & MAP_TYPE) == MAP_SHARED || (how & MAP_TYPE) == MAP_SHARED_VALIDATE;
    if (!is_shared) {
        drop_piece((uintptr_t)at, SIZE_MAX); /* of which only a part was unmapped */
        note_piece(at, bytes, RAW_MAPPED, call);
        return;
    }
    uint32_t number = how & MAP_ANONYMOUS ? new_memory(call) : file_of(file);
    if (number)
        put_region((uintptr_t)at, (uintptr_t)at + bytes, number, offset);
}

/* Whether this call is to be noted. A signal's handler that comes meanwhile isn't. */
static bool begin_note(struct call call) { return arena && begin_inside(call); }

static void end_note(int saved) {
    end_inside();
    errno = saved;
}

/* After locks' memory was given back, by a call that has succeeded. */
static inline void end_holds(uintptr_t from, size_t bytes, uintptr_t caller) {
    if (UNLIKELY(is_any_held()))
        given_back(from, from + bytes, caller);
}

static void *mapped(void *at, size_t bytes, int rights, int how, int file, off_t offset, struct call call) {
    void *made = REAL(mmap)(at, bytes, rights, how, file, offset);
    int saved = errno;
    if (made != MAP_FAILED && begin_note(call)) {
        note_mapped(made, whole_pages(bytes), rights, how, file, (uint64_t)offset, call);
        end_note(saved);
    }
    if (made != MAP_FAILED && (how & MAP_FIXED))
        end_holds((uintptr_t)made, whole_pages(bytes), call.caller);
    return made;
}

EXPORT void *mmap(void *at, size_t bytes, int rights, int how, int file, off_t offset) {
    return KEEPING_FRAME(mapped(at, bytes, rights, how, file, offset, HERE));
}

EXPORT void *mmap64(void *at, size_t bytes, int rights, int how, int file, off64_t offset) {
    return KEEPING_FRAME(mapped(at, bytes, rights, how, file, offset, HERE));
}

/* What is unmapped is forgotten first, since the memory may be another thread's at once. */
EXPORT int munmap(void *from, size_t bytes) {
    if (begin_note(HERE)) {
        forget_mapped((uintptr_t)from, whole_pages(bytes));
        end_note(errno);
    }
    int answer = REAL(munmap)(from, bytes);
    if (answer == 0)
        end_holds((uintptr_t)from, whole_pages(bytes), CALLER);
    return answer;
}

/* The locks in memory that is moved are known anew when they are taken next; shared memory stays what it is. */
static void note_moved(uintptr_t from, size_t had, uintptr_t made, size_t bytes, struct call call) {
    uint32_t file;
    uint64_t offset;
    bool is_shared = find_shared(from, &file, &offset);
    if (made != from)
        forget_mapped(from, had);
    if (is_shared) {
        drop_regions(made, made + bytes);
        put_region(made, made + bytes, file, offset);
    } else if (made != from) {
        note_piece((void *)made, bytes, RAW_MAPPED, call);
    }
}

EXPORT void *mremap(void *from, size_t had, size_t bytes, int how, ...) {
    va_list more;
    va_start(more, how);
    void *to = how & MREMAP_FIXED ? va_arg(more, void *) : NULL;
    va_end(more);
    void *made = REAL(mremap)(from, had, bytes, how, to);
    int saved = errno;
    if (made != MAP_FAILED && begin_note(HERE)) {
        note_moved((uintptr_t)from, whole_pages(had), (uintptr_t)made, whole_pages(bytes), HERE);
        end_note(saved);
    }
    if (made != MAP_FAILED && made != from)
        end_holds((uintptr_t)from, whole_pages(had), CALLER);
    return made;
}

EXPORT void *shmat(int number, const void *at, int how) {
    void *made = REAL(shmat)(number, at, how);
    int saved = errno;
    struct shmid_ds about;
    if (made != (void *)-1 && begin_note(HERE)) {
        uint32_t file = shmctl(number, IPC_STAT, &about) == 0 ? numbered_memory(number, (unsigned)about.shm_perm.__key) : 0;
        if (file)
            put_region((uintptr_t)made, (uintptr_t)made + whole_pages(about.shm_segsz), file, 0);
        end_note(saved);
    }
    return made;
}

static uintptr_t region_end(uintptr_t from) {
    for (uint32_t i = 0; i < LOAD(&region_count); i++)
        if (LOAD(&regions[i].file) && regions[i].from == from)
            return regions[i].to;
    return from;
}

EXPORT int shmdt(const void *from) {
    uintptr_t end = region_end((uintptr_t)from);
    if (end > (uintptr_t)from && begin_note(HERE)) {
        forget_mapped((uintptr_t)from, end - (uintptr_t)from);
        end_note(errno);
    }
    int answer = REAL(shmdt)(from);
    if (answer == 0)
        end_holds((uintptr_t)from, end - (uintptr_t)from, CALLER);
    return answer;
}
