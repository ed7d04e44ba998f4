/* Processes that the program forks, and programs that it starts: which, how often, and whether this library goes along with them. `record`
   looks at the files of these at the end, since one that is linked statically or that gets other rights isn't recorded. Nothing of what is
   started is changed. */
#include "own.h"

#include <errno.h>
#include <fcntl.h>
#include <pty.h>
#include <spawn.h>
#include <stdarg.h>
#include <string.h>
#include <unistd.h>

/* (glibc has it since 2.34) */
int execveat(int folder, const char *path, char *const words[], char *const with[], int how);

#define REALS(X)                                                                                                       \
    X(fork) X(daemon) X(forkpty) X(execve) X(execv) X(execvp) X(execvpe) X(fexecve) X(execveat) X(posix_spawn) X(posix_spawnp)
REALS(KNOWN_REAL)
FIND_AT_START(REALS)

/* ---- Forks. A handler of pthread_atfork would be told of the same ones, but to register it makes two pages that most programs don't have
   otherwise. A child that is forked in another way is known when it takes a lock. */

EXPORT pid_t fork(void) {
    use_allocator_in_fork(HERE);
    pid_t child = REAL(fork)();
    if (child == 0)
        begin_in_fork();
    return child;
}

EXPORT __typeof__(fork) __fork __attribute__((alias("fork")));

EXPORT int daemon(int stays, int keeps) {
    int answer = REAL(daemon)(stays, keeps);
    if (answer == 0)
        begin_in_fork();
    return answer;
}

EXPORT int forkpty(int *terminal, char *name, const struct termios *how, const struct winsize *size) {
    int child = REAL(forkpty)(terminal, name, how, size);
    if (child == 0)
        begin_in_fork();
    return child;
}

/* ---- Which program. */

static bool has(char *const *environment, const char *name, const char *text) {
    size_t length = strlen(name);
    for (; environment && *environment; environment++)
        if (strncmp(*environment, name, length) == 0 && strstr(*environment + length, text))
            return true;
    return false;
}

static bool goes_along(char *const *environment) {
    return has(environment, "LD_PRELOAD=", "preload.so") && has(environment, "LOCKDEP_RECORD=", "/");
}

static uint64_t key_of(const char *path, bool is_along) {
    uint64_t key = is_along;
    for (; *path; path++)
        key = mixed(key + (uint8_t)*path);
    return key;
}

static uint32_t define_program(const char *path, bool is_along) {
    uint32_t number = take_part(RAW_PROGRAMS);
    if (!number)
        return 0;
    struct raw_program *program = part_of(RAW_PROGRAMS, number);
    strncpy(program->path, path, RAW_PATH);
    STORE(&program->state, is_along ? PROGRAM_ALONG : PROGRAM_ALONE);
    return number;
}

static struct names programs;

static void count_path(const char *path, char *const *environment, uint64_t by) {
    bool is_along = goes_along(environment);
    uint32_t *slot = added_slot(&programs, key_of(path, is_along)), number = slot ? LOAD(slot) : 0, none = 0;
    if (slot && !number) {
        number = define_program(path, is_along);
        if (number && !SWAP(slot, &none, number))
            number = none;
    }
    if (number)
        ADD(&((struct raw_program *)part_of(RAW_PROGRAMS, number))->starts, by);
}

/* A link that is another file to each process, as /proc/self/exe: `record` would find its own. */
static bool is_own_link(const char *path) { return strncmp(path, "/proc/", 6) == 0 || strncmp(path, "/dev/fd/", 8) == 0; }

/* What such a link leads to. */
__attribute__((noinline)) static void count_link(const char *link, char *const *environment, uint64_t by) {
    char path[RAW_PATH + 1];
    int saved = errno;
    ssize_t length = readlink(link, path, RAW_PATH);
    errno = saved;
    if (length > 0)
        path[length] = 0;
    count_path(length > 0 ? path : link, environment, by);
}

/* Counts a start; `by` is -1 if it has failed. A child of vfork may be what starts. */
static void count_start(const char *path, char *const *environment, uint64_t by) {
    forget_mask();
    if (!arena || !path)
        return;
    if (is_own_link(path))
        count_link(path, environment, by);
    else
        count_path(path, environment, by);
}

#define FAILED ((uint64_t)-1)

/* ---- Starting. A call that succeeds doesn't return, but for posix_spawn. */

#define STARTING(name, parameters, arguments, environment)                                                             \
    EXPORT int name parameters {                                                                                       \
        count_start(path, environment, 1);                                                                             \
        int answer = REAL(name) arguments, saved = errno;                                                              \
        if (answer != 0)                                                                                               \
            count_start(path, environment, FAILED);                                                                    \
        errno = saved;                                                                                                 \
        return answer;                                                                                                 \
    }

STARTING(execve, (const char *path, char *const words[], char *const with[]), (path, words, with), with)
STARTING(execv, (const char *path, char *const words[]), (path, words), environ)
STARTING(execvp, (const char *path, char *const words[]), (path, words), environ)
STARTING(execvpe, (const char *path, char *const words[], char *const with[]), (path, words, with), with)
STARTING(posix_spawn,
         (pid_t * process, const char *path, const posix_spawn_file_actions_t *files, const posix_spawnattr_t *how,
          char *const words[], char *const with[]),
         (process, path, files, how, words, with), with)
STARTING(posix_spawnp,
         (pid_t * process, const char *path, const posix_spawn_file_actions_t *files, const posix_spawnattr_t *how,
          char *const words[], char *const with[]),
         (process, path, files, how, words, with), with)

/* The forms that are told an open file. What it is called is asked for before, since the call closes it if it succeeds. */
static const char *path_of_file(int file, char *path) {
    char link[32] = "/proc/self/fd/";
    put_number(link + strlen(link), (unsigned)file);
    int saved = errno;
    ssize_t length = readlink(link, path, RAW_PATH);
    errno = saved;
    if (length <= 0)
        return NULL;
    path[length] = 0;
    return path;
}

EXPORT int fexecve(int file, char *const words[], char *const with[]) {
    char room[RAW_PATH + 1];
    const char *path = path_of_file(file, room);
    count_start(path, with, 1);
    int answer = REAL(fexecve)(file, words, with), saved = errno;
    count_start(path, with, FAILED);
    errno = saved;
    return answer;
}

/* The path is of the file itself if it is empty, and else of one in that folder. */
EXPORT int execveat(int folder, const char *path, char *const words[], char *const with[], int how) {
    char room[2 * RAW_PATH + 2];
    const char *whole = path;
    if (path && path[0] != '/' && folder != AT_FDCWD && (whole = path_of_file(folder, room)) && path[0]) {
        size_t length = strlen(room);
        room[length] = '/';
        put_text(room + length + 1, path, RAW_PATH);
    }
    count_start(whole, with, 1);
    int answer = REAL(execveat)(folder, path, words, with, how), saved = errno;
    count_start(whole, with, FAILED);
    errno = saved;
    return answer;
}

/* The forms whose words are arguments, up to a null pointer; the environment may follow that. */
static size_t count_words(va_list words) {
    size_t count = 1;
    while (va_arg(words, char *))
        count++;
    return count;
}

#define LISTING(name, start, environment)                                                                              \
    EXPORT int name(const char *path, const char *word, ...) {                                                         \
        va_list list;                                                                                                  \
        va_start(list, word);                                                                                          \
        char *words[(word ? count_words(list) : 0) + 1];                                                               \
        va_end(list);                                                                                                  \
        va_start(list, word);                                                                                          \
        words[0] = (char *)word;                                                                                       \
        for (size_t i = 0; words[i]; i++)                                                                              \
            words[i + 1] = va_arg(list, char *);                                                                       \
        char *const *with = environment;                                                                               \
        va_end(list);                                                                                                  \
        return start;                                                                                                  \
    }

LISTING(execl, execve(path, words, with), environ)
LISTING(execle, execve(path, words, with), va_arg(list, char *const *))
LISTING(execlp, execvpe(path, words, with), environ)
