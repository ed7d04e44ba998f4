/* The file of a recorded program and the library's own memory: both are mapped once, before the program begins. */
#include "history.h"

#include <errno.h>
#include <fcntl.h>
#include <pthread.h>
#include <stdlib.h>
#include <string.h>
#include <sys/mman.h>
#include <sys/resource.h>
#include <sys/stat.h>
#include <sys/statfs.h>
#include <sys/syscall.h>
#include <time.h>
#include <unistd.h>

struct raw_arena *arena;
uint32_t own_process;

static volatile uint64_t not_alive;
volatile uint64_t *era = &not_alive;

/* ---- Parts of the file. */

uint32_t take_part(enum raw_kind kind) {
    struct raw_region *region = &arena->regions[kind];
    if (LOAD(&region->used) < region->room) {
        uint32_t number = ADD(&region->used, 1) + 1;
        if (number <= region->room)
            return number;
    }
    ADD(&region->refused, 1);
    return 0;
}

struct raw_record *take_chunk(uint32_t chunk) {
    uint64_t bytes = raw_chunk_room(chunk) * sizeof(struct raw_record);
    if (LOAD(&arena->first_records) + bytes <= arena->first_records_end) {
        uint64_t from = ADD(&arena->first_records, bytes);
        if (from + bytes <= arena->first_records_end)
            return (struct raw_record *)((char *)arena + from);
    }
    if (LOAD(&arena->records_used) + bytes <= arena->records_end) {
        uint64_t from = ADD(&arena->records_used, bytes);
        if (from + bytes <= arena->records_end)
            return (struct raw_record *)((char *)arena + from);
    }
    ADD(&arena->records_refused, 1);
    return NULL;
}

/* How the file is shared out: of each kind a share of it in 64ths, and no more than so many, the first of them close together. The rest
   is for records. What a small program needs of all that has room in two pages. */
static const struct {
    uint32_t share, most, first;
} plan[RAW_KINDS] = {
    [RAW_PROCESSES] = {1, 1 << 16, 2}, [RAW_CLASSES] = {4, 0xffff, 16},   [RAW_OBJECTS] = {2, 1 << 22, 16},
    [RAW_TAKES] = {2, 1 << 20, 16},    [RAW_THREADS] = {8, 1 << 20, 3},   [RAW_FILES] = {1, 1 << 12, 0},
    [RAW_PROGRAMS] = {1, 1 << 10, 0},  [RAW_LOOKS] = {1, 0xffff, 0},      [RAW_TEXTS] = {1, 1 << 12, 0},
    [RAW_BREACHES] = {1, 1 << 12, 0},  [RAW_LIVES] = {1, 1 << 20, 0},  [RAW_SOURCES] = {1, 1 << 10, 0},
    [RAW_RUNS] = {1, 1 << 20, 0},      [RAW_STATES] = {1, 1 << 14, 0},
    [RAW_MODULES] = {10, 1 << 13, 5},  [RAW_PLACES] = {12, (1 << 21) - 1, 56},
};

/* In which order the first ones lie, and which kinds come after the first records. Places are last, since of them most are unused. */
static const enum raw_kind order[RAW_KINDS] = {RAW_PROCESSES, RAW_THREADS, RAW_CLASSES, RAW_OBJECTS, RAW_TAKES,
                                               RAW_FILES, RAW_PROGRAMS, RAW_LOOKS, RAW_TEXTS, RAW_BREACHES, RAW_LIVES,
                                               RAW_SOURCES, RAW_RUNS, RAW_STATES, RAW_MODULES, RAW_PLACES};
#define AFTER_RECORDS RAW_MODULES

static uint64_t rounded(uint64_t n, uint64_t to) { return (n + to - 1) / to * to; }

#define FIRST_RECORDS (3 * RAW_FIRST_CHUNK * sizeof(struct raw_record)) /* bytes of records that come among the first parts */

static uint64_t place_first(struct raw_arena *a, uint64_t at) {
    for (int i = 0; i < RAW_KINDS; i++) {
        enum raw_kind kind = order[i];
        if (kind == AFTER_RECORDS) {
            a->first_records = at;
            a->first_records_end = at += FIRST_RECORDS;
        }
        a->regions[kind].first = plan[kind].first;
        a->regions[kind].first_from = at;
        at = rounded(at + (uint64_t)plan[kind].first * raw_size(kind), 64);
    }
    return at;
}

/* Regions begin at a page of their own, unless the file is so small that this would waste it. Records begin among the first parts, and
   go on after all regions. */
static void share_out(struct raw_arena *a, uint64_t bytes) {
    bool is_small = bytes < RAW_SMALL;
    uint64_t page = is_small ? 64 : 4096, at = rounded(sizeof *a, 64);
    if (!is_small)
        at = rounded(place_first(a, at), page);
    for (int kind = 0; kind < RAW_KINDS; kind++) {
        uint64_t room = bytes * plan[kind].share / 64 / raw_size((enum raw_kind)kind);
        a->regions[kind].room = room < plan[kind].most ? (uint32_t)room : plan[kind].most;
        a->regions[kind].from = at;
        at = rounded(at + (uint64_t)a->regions[kind].room * raw_size((enum raw_kind)kind), page);
    }
    a->history_from = a->history_used = (bytes - (is_small ? 0 : bytes / RAW_HISTORY_SHARE)) / RAW_STEP_CHUNK * RAW_STEP_CHUNK;
    a->history_to = bytes;
    a->records_used = at;
    a->records_end = a->history_from;
    a->bytes = bytes;
}

/* ---- Limits. */

static struct rlimit limits_of(int which) {
    struct rlimit limit;
    return SYSTEM(prlimit64, 0, which, NULL, &limit) == 0 ? limit : (struct rlimit){RLIM_INFINITY, RLIM_INFINITY};
}

static uint64_t least(uint64_t a, uint64_t b) { return a < b ? a : b; }

/* Valgrind's tools take note of each byte of a mapping, whether it is used or not. */
#define BYTES_UNDER_VALGRIND (UINT64_C(128) << 20)

static bool is_under_valgrind(void) {
    const char *preloaded = variable("LD_PRELOAD");
    return preloaded && has_text(preloaded, "/vgpreload_");
}

/* Of the memory that the program may have, the recorder takes no more than a sixteenth for each of its mappings. */
static uint64_t allowed_memory(void) {
    uint64_t allowed = least(limits_of(RLIMIT_AS).rlim_cur, limits_of(RLIMIT_DATA).rlim_cur) / 16;
    return is_under_valgrind() ? least(allowed, BYTES_UNDER_VALGRIND) : allowed;
}

/* No more than half of what is free on the disk, since a file with holes needs its room when they are written. */
static uint64_t allowed_on_disk(int file) {
    struct statfs disk;
    if (SYSTEM(fstatfs, file, &disk) != 0 || disk.f_blocks == 0)
        return UINT64_MAX;
    return (uint64_t)disk.f_bavail * (uint64_t)disk.f_bsize / 2;
}

/* Gives the file its size. A limit that the program was given for itself is lifted meanwhile, as far as it can be. */
static bool extend(int file, uint64_t bytes) {
    struct rlimit limit = limits_of(RLIMIT_FSIZE), lifted = {limit.rlim_max, limit.rlim_max};
    bool is_lifted = limit.rlim_cur < bytes && limit.rlim_max > limit.rlim_cur && setrlimit(RLIMIT_FSIZE, &lifted) == 0;
    bool is_allowed = (is_lifted ? limit.rlim_max : limit.rlim_cur) >= bytes; /* a file beyond it would be the program's death */
    bool is_extended = is_allowed && SYSTEM(ftruncate, file, (off_t)bytes) == 0;
    if (is_lifted)
        setrlimit(RLIMIT_FSIZE, &limit);
    return is_extended;
}

/* ---- The library's own memory. */

#define PAGE 4096

#define PRIVATE_BYTES (UINT64_C(8) << 30)
#define PRIVATE_LEAST (UINT64_C(1) << 20)

static char *private_from;
static uint64_t private_room, private_used, private_used_above;

/* The second half of the mapping is for large tables that only a program with much memory needs. These are in huge pages, if the system has
   such: a table that is read at random is dear in small ones, and so is the first use of each of them. A mapping that a limit has made small
   has no such half. */
#define HUGE_PAGE (UINT64_C(1) << 21)
#define LEAST_WITH_SPARE (8 * HUGE_PAGE)
static char *spare_from;
static uint64_t spare_room, spare_used;

/* So much is what every program uses of the file, and of the library's variables from the life page on. The system makes these pages in one go,
   which is cheaper than one by one. */
#define USED_OF_FILE 8192
#define USED_OF_VARIABLES 16384

static bool advise(void *from, uint64_t bytes, int what) { return SYSTEM(madvise, from, bytes, what) == 0; }

#ifdef MADV_POPULATE_WRITE
static void populate(void *from, uint64_t bytes, uint64_t room) { advise(from, least(bytes, room), MADV_POPULATE_WRITE); }
#else
static void populate(void *from, uint64_t bytes, uint64_t room) { (void)from, (void)bytes, (void)room; }
#endif

static void share_private(char *from, uint64_t bytes) {
    uint64_t half = rounded((uintptr_t)from + bytes / 2, HUGE_PAGE) - (uintptr_t)from;
    private_from = from;
    private_room = bytes < LEAST_WITH_SPARE ? bytes : half;
    spare_from = from + private_room;
    spare_room = bytes - private_room;
    advise(from, private_room, MADV_NOHUGEPAGE); /* else the first use of it takes two megabytes */
    advise(spare_from, spare_room, MADV_HUGEPAGE);
}

static void map_private(uint64_t allowed) {
    uint64_t bytes = least(PRIVATE_BYTES, allowed);
    for (; bytes >= PRIVATE_LEAST; bytes /= 2) {
        void *p = map_own(bytes, MAP_PRIVATE | MAP_ANONYMOUS | MAP_NORESERVE, -1);
        if (p == MAP_FAILED)
            continue;
        advise(p, bytes, MADV_DONTDUMP);
        share_private(p, bytes);
        return;
    }
}

/* What is large comes from the end, so that what is small lies close together at the beginning. The first of it lies among the library's
   variables, so that a small program doesn't use the mapping at all. */
#define MUCH 16384
/* A linker puts what is aligned most first, so this lies between what is LARGE and the small variables. */
#define NEARBY 11520
static char nearby[NEARBY] __attribute__((aligned(2048)));
static uint64_t nearby_used;

/* Of what lies nearby, the first whole page. */
static void *life_page(void) { return (void *)(((uintptr_t)nearby + PAGE - 1) & ~(uintptr_t)(PAGE - 1)); }

static void *take_nearby(size_t bytes) {
    if (bytes > NEARBY || LOAD(&nearby_used) > NEARBY - bytes)
        return NULL;
    uint64_t from = ADD(&nearby_used, bytes);
    return from <= NEARBY - bytes ? nearby + from : NULL;
}

void *take_private(size_t bytes) {
    bytes = rounded(bytes, 64);
    void *near = bytes <= MUCH ? take_nearby(bytes) : NULL;
    if (near)
        return near;
    if (LOAD(&private_used) + LOAD(&private_used_above) + bytes > private_room)
        return NULL;
    bool is_much = bytes > MUCH;
    uint64_t others = is_much ? LOAD(&private_used) : LOAD(&private_used_above);
    uint64_t used = ADD(is_much ? &private_used_above : &private_used, bytes) + bytes;
    if (used + others > private_room)
        return NULL;
    return is_much ? private_from + private_room - used : private_from + used - bytes;
}

/* In whole huge pages. */
void *take_spare(size_t bytes) {
    bytes = rounded(bytes, HUGE_PAGE);
    if (bytes > spare_room || LOAD(&spare_used) > spare_room - bytes)
        return NULL;
    uint64_t from = ADD(&spare_used, bytes);
    return from <= spare_room - bytes ? spare_from + from : NULL;
}

/* Of the first half no more than a fourth is for such. */
void *take_sparse(size_t bytes) { return LOAD(&private_used_above) + bytes <= spare_room / 4 ? take_private(bytes) : take_spare(bytes); }

static void *or_private(void *made, size_t bytes) { return made ? made : take_private(bytes); }
void *take_table(size_t bytes) { return or_private(bytes < HUGE_PAGE ? NULL : take_spare(bytes), bytes); }
void *take_sparse_table(size_t bytes) { return or_private(take_sparse(bytes), bytes); }

/* ---- The beginning. */

static struct raw_arena *map_file(int file, uint64_t allowed) {
    uint64_t bytes = least(least(RAW_BYTES, allowed), allowed_on_disk(file));
    for (; bytes >= RAW_LEAST; bytes /= 2) {
        bytes &= ~UINT64_C(4095);
        if (!extend(file, bytes))
            continue;
        void *p = map_own(bytes, MAP_SHARED | MAP_NORESERVE, file);
        if (p == MAP_FAILED)
            continue;
        advise(p, bytes, MADV_DONTDUMP);
        advise(p, bytes, MADV_RANDOM); /* else the system fills the holes around each page that is written */
        populate(p, USED_OF_FILE, bytes);
        share_out(p, bytes);
        return p;
    }
    return NULL;
}

#define MOST_PROGRAMS 100000 /* that one process runs, one after the other */

static void put_file_name(char *path, const char *folder, uint32_t id, unsigned n) {
    char *end = put_text(path, folder, SIZE_MAX);
    *end++ = '/';
    end = put_number(end, id);
    *end++ = '-';
    put_text(put_number(end, n), ".arena", SIZE_MAX);
}

/* The user's alone, since it has pieces of the stack. */
#define RIGHTS 0600

/* Whatever the program's mask for new files says. */
static void set_rights(int file) {
#ifdef SYS_fstat
    struct stat about;
    if (SYSTEM(fstat, file, &about) == 0 && (about.st_mode & 07777) == RIGHTS)
        return;
#endif
    fchmod(file, RIGHTS);
}

static void leave_refusal(char *path) {
    strcpy(strrchr(path, '.'), ".refused");
    mknod(path, S_IFREG | 0644, 0); /* it needs no descriptor */
}

/* Makes the process's file. The name has the process's number, and how many programs that process has run before. Without memory of
   its own the library can't use it, and says so by the file that it leaves. */
static struct raw_arena *make_file(const char *folder, uint32_t id, uint64_t allowed) {
    char path[length_of(folder) + 64];
    int file = -1;
    for (unsigned n = 0; n < MOST_PROGRAMS; n++) {
        put_file_name(path, folder, id, n);
        file = (int)SYSTEM(openat, AT_FDCWD, path, O_RDWR | O_CREAT | O_EXCL | O_CLOEXEC, RIGHTS);
        if (file >= 0 || errno != EEXIST)
            break;
    }
    struct raw_arena *made = NULL;
    if (file >= 0) {
        set_rights(file);
        made = private_from ? map_file(file, allowed) : NULL;
        SYSTEM(close, file);
        if (!made)
            unlink(path);
    }
    if (!made)
        leave_refusal(path);
    return made;
}

/* What the variable of the environment says may be another thing later. */
static char *kept_folder;

static void keep_folder(const char *folder) {
    kept_folder = take_private(length_of(folder) + 1);
    if (kept_folder)
        put_text(kept_folder, folder, SIZE_MAX);
}

void *map_common(const char *name, size_t bytes) {
    char path[(kept_folder ? length_of(kept_folder) : 0) + length_of(name) + 2];
    if (!kept_folder)
        return NULL;
    char *end = put_text(path, kept_folder, SIZE_MAX);
    *end++ = '/';
    put_text(end, name, SIZE_MAX);
    int saved = errno, file = (int)SYSTEM(openat, AT_FDCWD, path, O_RDWR | O_CREAT | O_CLOEXEC, RIGHTS);
    bool is_there = file >= 0 && least(allowed_memory(), allowed_on_disk(file)) >= bytes && extend(file, bytes);
    void *p = is_there ? map_own(bytes, MAP_SHARED, file) : MAP_FAILED;
    if (file >= 0)
        SYSTEM(close, file);
    errno = saved;
    return p == MAP_FAILED ? NULL : p;
}

static uint32_t process_id(void) { return (uint32_t)SYSTEM(getpid); }

FOUND_WHEN_LOADED(this_thread, pthread_self);

void say_refused(void) {
    char path[MOST_OF_FOLDER + 64];
    put_file_name(path, folder_of_libraries, process_id(), 0);
    leave_refusal(path);
}

static void note_process(uint32_t id, uint32_t parent) {
    STORE(&own_id, id);
    own_process = take_part(RAW_PROCESSES);
    if (!own_process)
        return;
    struct raw_process *process = part_of(RAW_PROCESSES, own_process);
    process->parent = parent;
    process->first = (uint64_t)this_thread();
    STORE(&process->id, id);
}

/* A system that can't make the page empty in a child has to have a handler of forks called there, before the program's own ones. */
static void begin_life(void) {
    if (!advise(life_page(), PAGE, MADV_WIPEONFORK))
        pthread_atfork(NULL, NULL, begin_in_fork);
    era = life_page();
    *era = 1;
}

/* A child goes on in its parent's file, and knows what its parent knew. */
static void after_fork_in_child(void) {
    *era = 1;
    note_process(process_id(), own_process);
    begin_threads();
}

/* In a child that was forked without our knowledge. */
bool revived(void) {
    if (!arena || era == &not_alive)
        return false;
    after_fork_in_child();
    return true;
}

/* In a child. If one of the program's own handlers of forks has taken a lock before, the child has begun already, and others may have
   assigned to locks since. */
void begin_in_fork(void) {
    if (era == &not_alive)
        return;
    struct raw_process *process = own_process ? part_of(RAW_PROCESSES, own_process) : NULL;
    if (!process || process->id != process_id())
        after_fork_in_child();
    else
        look_at_inherited(HERE);
}

static void begin(void) {
    if (waits_for_library())
        return;
    const char *folder = is_for_libraries ? folder_of_libraries : variable("LOCKDEP_RECORD");
    if (!folder || !folder[0] || length_of(folder) >= MOST_OF_FOLDER)
        return;
    populate(life_page(), USED_OF_VARIABLES, USED_OF_VARIABLES); /* before any of these is written to */
    nearby_used = (uint64_t)((char *)life_page() + PAGE - nearby);
    uint64_t allowed = allowed_memory();
    map_private(allowed);
    keep_folder(folder);
    uint32_t id = process_id();
    struct raw_arena *made = make_file(folder, id, allowed);
    if (!made)
        return;
    struct timespec now;
    SYSTEM(clock_gettime, CLOCK_REALTIME, &now);
    made->started = (uint64_t)now.tv_sec * 1000000000 + (uint64_t)now.tv_nsec;
    arena = made;
    note_process(id, 0);
    want_history();
    note_modules();
    if (is_for_libraries)
        note_shared_before();
    begin_threads();
    begin_life();
    STORE(&made->magic, RAW_MAGIC);
}

/* The first call of a library for which alone this process is recorded. */
void begin_for_library(void) {
    int saved = errno;
    begin_inside(HERE);
    begin();
    end_inside();
    errno = saved;
}

/* It isn't 0, so that it lies in the page that the loader has written already: the others aren't there yet. */
int begin_state = BEGIN_NOT;

/* Whoever comes first begins. A call that comes meanwhile isn't recorded. */
void begin_now(void) {
    int state = BEGIN_NOT;
    if (!SWAP(&begin_state, &state, BEGIN_UNDER_WAY))
        return;
    int saved = errno;
    begin_inside(HERE);
    begin();
    end_inside();
    errno = saved;
    STORE(&begin_state, BEGIN_DONE);
}
