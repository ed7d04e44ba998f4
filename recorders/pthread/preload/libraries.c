/* With LOCKDEP_LIBRARIES instead of LOCKDEP_RECORD: what is recorded are the locks of the C libraries that a program in Python or Java has loaded,
   and nothing else. The process is as if there was no recorder until such a library calls for the first time. From then on a lock is recorded if such
   a library has made or taken it, whoever takes it later. Those of the interpreter, of the virtual machine and of the system's libraries aren't. */
#include "own.h"

#include <fcntl.h>
#include <sched.h>
#include <sys/syscall.h>
#include <unistd.h>

uint32_t is_for_libraries;

enum { WAITING = 1, BEGINNING, BEGUN, NEVER };
static uint32_t state;

/* ---- Which program this is. */

static char program[RAW_PATH + 1]; /* its path */

static void know_program(void) {
    long length = SYSTEM(readlinkat, AT_FDCWD, "/proc/self/exe", program, RAW_PATH);
    program[length > 0 ? length : 0] = 0;
}

static bool begins_with(const char *text, const char *first) {
    for (; *first; first++)
        if (*text++ != *first)
            return false;
    return true;
}

static const char *name_in(const char *path) {
    const char *name = path;
    for (; *path; path++)
        name = *path == '/' ? path + 1 : name;
    return name;
}

static bool is_version(const char *text) {
    while (*text == '.' || (*text >= '0' && *text <= '9'))
        text++;
    return !*text;
}

/* (the recorders of Python and Java know by the same rule whether the libraries of a process are looked at here) */
static bool is_interpreter(const char *name) {
    return is_same_text(name, "java") || (begins_with(name, "python") && is_version(name + 6)) || (begins_with(name, "pypy") && is_version(name + 4));
}

char folder_of_libraries[MOST_OF_FOLDER]; /* the environment may be another one later */

/* At the start of a process: whether it waits for a library. */
bool waits_for_library(void) {
    const char *record = variable("LOCKDEP_RECORD"), *folder = variable("LOCKDEP_LIBRARIES");
    if (state || (record && record[0]) || !folder || length_of(folder) >= MOST_OF_FOLDER)
        return false;
    put_text(folder_of_libraries, folder, MOST_OF_FOLDER);
    know_program();
    STORE(&state, is_interpreter(name_in(program)) ? WAITING : NEVER);
    STORE(&is_for_libraries, 1);
    return true;
}

/* ---- Whose a module is. */

/* Whether a path lies in the folder of the virtual machine, of which the program is `bin/java`. */
static bool is_of_machine(const char *path) {
    const char *name = name_in(program);
    size_t length = (size_t)(name - program);
    if (!is_same_text(name, "java") || length < 5 || !begins_with(name - 5, "/bin/"))
        return false;
    for (size_t i = 0; i < length - 4; i++)
        if (path[i] != program[i])
            return false;
    return true;
}

static bool is_of_system(const char *path) {
    static const char *const folders[] = {"/lib/", "/lib32/", "/lib64/", "/libx32/", "/usr/lib/", "/usr/lib32/", "/usr/lib64/", "/usr/libx32/",
                                          "/usr/libexec/", "/bin/", "/sbin/", "/usr/bin/", "/usr/sbin/"};
    for (size_t i = 0; i < sizeof folders / sizeof *folders; i++)
        if (begins_with(path, folders[i]))
            return true;
    return false;
}

static const char *after_version(const char *text) {
    while (*text == '.' || (*text >= '0' && *text <= '9'))
        text++;
    return *text == 't' ? text + 1 : text; /* as python3.13t */
}

/* A library as libpython3.11.so, or a module in a folder as python3.11/lib-dynload. */
static bool is_of_interpreter(const char *path) {
    const char *name = name_in(path);
    if (begins_with(name, "libpython"))
        return name[9] >= '0' && name[9] <= '9';
    if (begins_with(name, "libpypy"))
        return name[7] == '-' || (name[7] >= '0' && name[7] <= '9');
    for (const char *at = path; *at; at++)
        if ((begins_with(at, "/python") && begins_with(after_version(at + 7), "/lib-dynload/")) ||
            (begins_with(at, "/pypy") && begins_with(after_version(at + 5), "/lib-dynload/")))
            return true;
    return false;
}

/* Of what is loaded, the program itself has no path. */
static bool is_of_program(const char *path) {
    static char own[RAW_PATH + 1];
    if (!own[0])
        put_path_of((uintptr_t)waits_for_library, own);
    return name_in(path) != path && !is_of_system(path) && !is_of_interpreter(path) && !is_same_text(path, own) && !is_of_machine(path);
}

/* Whose a place in memory is. Code of nobody's is what a virtual machine has compiled, and libffi calls for others: neither takes locks for itself,
   so what seems to be called there was left by a jump of the function that a library ends with. Memory of nobody's is what was allocated. */
enum whose { OF_OTHERS, OF_LIBRARY, OF_NOBODY, OF_FFI };

/* What is known of callers and of locks: each is an address, and in its lowest bits whose it is, so that one word says all. When a library is opened
   or closed all is forgotten, since another one may come to lie there. */
#define KNOWN 256
static uint64_t callers[KNOWN], locks[KNOWN];

void forget_callers(void) {
    for (size_t i = 0; is_for_libraries && i < KNOWN; i++) {
        STORE(&callers[i], 0);
        STORE(&locks[i], 0);
    }
}

__attribute__((noinline)) static enum whose look_at_place(uintptr_t address) {
    char path[RAW_PATH + 1];
    if (!put_path_of(address, path))
        return OF_NOBODY;
    return is_of_program(path) ? OF_LIBRARY : begins_with(name_in(path), "libffi") ? OF_FFI : OF_OTHERS;
}

static enum whose whose(uint64_t *known, uintptr_t address) {
    uint64_t *at = &known[mixed(address) % KNOWN], there = LOAD(at);
    if (LIKELY(there >> 2 == address && there))
        return (enum whose)(there & 3);
    enum whose found = look_at_place(address);
    STORE(at, (uint64_t)address << 2 | found);
    return found;
}

/* ---- The beginning. */

static uint32_t beginner; /* the process in which it began */

/* Whether this process was forked meanwhile, by another thread than the one that begins: then nobody goes on with it here. */
static bool is_left_alone(void) { return LOAD(&beginner) && LOAD(&beginner) != (uint32_t)SYSTEM(getpid); }

/* Another thread that comes meanwhile waits, since it would else be seen to release what it wasn't seen to take. */
bool begin_with_library(void) {
    uint32_t there = WAITING, beginning = BEGINNING;
    if (is_inside() || LOAD(&state) == NEVER)
        return false;
    if (SWAP(&state, &there, BEGINNING)) {
        STORE(&beginner, (uint32_t)SYSTEM(getpid));
        begin_for_library();
        STORE(&state, BEGUN);
    }
    while (LOAD(&state) == BEGINNING) {
        if (is_left_alone() && SWAP(&state, &beginning, NEVER))
            say_refused();
        sched_yield();
    }
    return LOAD(&state) == BEGUN && is_recording();
}

static bool has_begun(void) { return LIKELY(LOAD(&state) == BEGUN) ? is_recording() : begin_with_library(); }

bool comes_from_library(struct call call) { return LOAD(&state) != NEVER && whose(callers, call.caller) == OF_LIBRARY && has_begun(); }

/* Also if a library has the lock, or has come to it before, or if nobody seems to call about one that nobody's module has. */
bool is_of_library(uintptr_t lock, struct call call) {
    if (LOAD(&state) == NEVER)
        return false;
    enum whose caller = whose(callers, call.caller);
    if (caller != OF_LIBRARY) {
        if (is_recording() && lock_object(lock))
            return true;
        enum whose in = whose(locks, lock);
        if (in != OF_LIBRARY && (in != OF_NOBODY || caller == OF_OTHERS))
            return false;
    }
    return has_begun();
}

/* A release of what this thread wasn't seen to take. */
bool is_release_of_library(uintptr_t lock, struct call call) {
    if (LOAD(&state) == NEVER)
        return false;
    enum whose caller = whose(callers, call.caller);
    return caller == OF_LIBRARY ? has_begun() : caller != OF_OTHERS && is_recording() && lock_object(lock);
}
