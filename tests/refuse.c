/* A preloaded library that refuses one request of a program or all from one on, or makes its reads and writes short.

   REFUSE      memory, thread, read, write or open: which kind of request
   REFUSE_AT   the number of the request that is refused, counted from 1
   REFUSE_ON   if set, all later requests of the kind are refused too
   REFUSE_TOLD a file that is made when the request is refused
   SHORT       if set, each read and write is of one byte

   Every other request goes through. */
#define _GNU_SOURCE
#include <dlfcn.h>
#include <errno.h>
#include <fcntl.h>
#include <pthread.h>
#include <stdarg.h>
#include <stdatomic.h>
#include <stdbool.h>
#include <stdlib.h>
#include <string.h>
#include <sys/syscall.h>
#include <unistd.h>

static const char *kind = "", *told;
static long at;
static bool goes_on;
static bool is_short;
static atomic_long count;

__attribute__((constructor)) static void begin(void) {
    const char *number = getenv("REFUSE_AT");
    told = getenv("REFUSE_TOLD");
    goes_on = getenv("REFUSE_ON") != NULL;
    is_short = getenv("SHORT") != NULL;
    at = number ? atol(number) : 0;
    kind = getenv("REFUSE") ? getenv("REFUSE") : "";
}

/* Whether this request is the one, or a later one where these are refused too. */
static bool is_refused(const char *what) {
    if (strcmp(kind, what) != 0)
        return false;
    long number = atomic_fetch_add(&count, 1) + 1;
    if (number < at || (number > at && !goes_on))
        return false;
    if (told && number == at) {
        long file = syscall(SYS_openat, AT_FDCWD, told, O_WRONLY | O_CREAT, 0666);
        syscall(SYS_close, file);
    }
    return true;
}

extern void *__libc_malloc(size_t size);
extern void *__libc_realloc(void *old, size_t size);

void *malloc(size_t size) {
    if (is_refused("memory")) {
        errno = ENOMEM;
        return NULL;
    }
    return __libc_malloc(size);
}

void *realloc(void *old, size_t size) {
    if (is_refused("memory")) {
        errno = ENOMEM;
        return NULL;
    }
    return __libc_realloc(old, size);
}

int pthread_create(pthread_t *thread, const pthread_attr_t *attributes, void *(*run)(void *), void *with) {
    static int (*next)(pthread_t *, const pthread_attr_t *, void *(*)(void *), void *);
    if (is_refused("thread"))
        return EAGAIN;
    if (!next)
        next = (int (*)(pthread_t *, const pthread_attr_t *, void *(*)(void *), void *))dlsym(RTLD_NEXT, "pthread_create");
    return next(thread, attributes, run, with);
}

ssize_t read(int file, void *into, size_t size) {
    if (is_refused("read")) {
        errno = EIO;
        return -1;
    }
    return syscall(SYS_read, file, into, is_short && size > 1 ? 1 : size);
}

ssize_t write(int file, const void *from, size_t size) {
    if (is_refused("write")) {
        errno = EIO;
        return -1;
    }
    return syscall(SYS_write, file, from, is_short && size > 1 ? 1 : size);
}

int open(const char *name, int flags, ...) {
    va_list more;
    va_start(more, flags);
    mode_t mode = flags & O_CREAT ? va_arg(more, mode_t) : 0;
    va_end(more);
    if (is_refused("open")) {
        errno = EACCES;
        return -1;
    }
    return (int)syscall(SYS_openat, AT_FDCWD, name, flags, mode);
}
