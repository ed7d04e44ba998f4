/* By option: locks of files, of flock, lockf and fcntl's waiting commands. A file is a class. A range of its bytes is known by where it
   begins: all ranges that begin at one byte are one lock, and what begins at the first is the lock of the file itself.

   A lock is given up when it is unlocked, and when its file is closed: flock's and that of an open file description by the
   descriptor that took it, another by any of the file. */
#include "own.h"

#include <errno.h>
#include <fcntl.h>
#include <stdarg.h>
#include <stdio.h>
#include <sys/file.h>
#include <unistd.h>

#define REALS(X) X(flock) X(fcntl) X(lockf) X(close) X(fclose)
REALS(KNOWN_REAL)
FIND_AT_START(REALS)

static int is_wanted;
#define FILES is_asked(&is_wanted, "flock")

/* ---- Files' locks. The address of an entry stands for the lock. */

#define FILE_LOCKS 4096
static struct file_lock {
    uint32_t is_taken, file; /* the file is written last */
    uint32_t held;           /* how often it was taken and not given up */
    int descriptor;          /* by which it is held, or ANY */
    uint64_t from;
} locks[FILE_LOCKS] LARGE;

#define ANY (-1)

static EARLY_THREAD_LOCAL uint32_t held_here; /* so many locks of files this thread took */

static bool fits(const struct file_lock *lock, uint32_t file, uint64_t from, uint64_t to) {
    return LOAD(&lock->file) == file && lock->from >= from && lock->from < to;
}

static struct file_lock *lock_at(uint32_t file, uint64_t from) {
    for (uint32_t i = 0; i < FILE_LOCKS; i++) {
        struct file_lock *lock = &locks[i];
        uint32_t none = 0;
        if (fits(lock, file, from, from + 1))
            return lock;
        if (LOAD(&lock->is_taken) || !SWAP(&lock->is_taken, &none, 1))
            continue;
        lock->from = from;
        know_by_file((uintptr_t)lock, file, from ? from : RAW_WHOLE_FILE);
        STORE(&lock->file, file);
        return lock;
    }
    ADD(&arena->unknown, 1);
    return NULL;
}

/* The lock of a descriptor's file. It asks the system, with errno as it was. */
static uint32_t known_file_of(int descriptor) {
    int saved = errno;
    uint32_t file = is_inside() ? 0 : file_of(descriptor);
    errno = saved;
    return file;
}

static struct file_lock *lock_of(int descriptor, uint64_t from) {
    uint32_t file = known_file_of(descriptor);
    return file ? lock_at(file, from) : NULL;
}

static void give_up(struct file_lock *lock, struct call call) {
    if (!LOAD(&lock->held))
        return;
    STORE(&lock->held, 0);
    held_here -= held_here > 0;
    releasing((uintptr_t)lock, call);
}

/* All of a file's that begin in a range; of a descriptor that is closed what it keeps. */
static void give_up_between(uint32_t file, uint64_t from, uint64_t to, int closed, struct call call) {
    for (uint32_t i = 0; i < FILE_LOCKS && LOAD(&locks[i].is_taken); i++)
        if (fits(&locks[i], file, from, to) && (closed == ANY || locks[i].descriptor == ANY || locks[i].descriptor == closed))
            give_up(&locks[i], call);
}

/* Who has a lock already gets another in its place. */
static void begin_taking(struct file_lock *lock, struct call call) {
    if (is_held_once((uintptr_t)lock))
        give_up(lock, call);
}

static void note_taken(struct file_lock *lock, int descriptor) {
    lock->descriptor = descriptor;
    STORE(&lock->held, 1);
    held_here++;
}

/* ---- Taking. What may wait is tried first, and written before it waits. */

struct request {
    struct file_lock *lock;
    int descriptor; /* by which it will be held, or ANY */
    bool is_write, may_wait;
    struct call call;
    bool is_pending;
};

static uint8_t mode_of(const struct request *r) {
    uint8_t mode = r->is_write ? MODE_WRITE : MODE_READ;
    return r->may_wait ? mode : (uint8_t)(mode + (MODE_TRY_WRITE - MODE_WRITE));
}

/* After the try. Whether the lock is to be waited for. */
static bool end_try(struct request *r, bool is_taken) {
    if (is_taken) {
        acquired((uintptr_t)r->lock, mode_of(r), KIND_RECURSIVE, r->call);
        note_taken(r->lock, r->descriptor);
        return false;
    }
    bool is_busy = errno == EAGAIN || errno == EACCES;
    if (!r->may_wait || !is_busy)
        return false;
    r->is_pending = begin_pending((uintptr_t)r->lock, mode_of(r), KIND_RECURSIVE, r->call);
    return true;
}

static void end_wait(const struct request *r, bool is_taken) {
    if (r->is_pending)
        end_pending((uintptr_t)r->lock, is_taken, r->call);
    if (is_taken)
        note_taken(r->lock, r->descriptor);
}

/* ---- flock. */

static int take_whole(int descriptor, int what, struct call call) {
    struct request r = {.lock = lock_of(descriptor, 0), .descriptor = descriptor, .is_write = (what & LOCK_EX) != 0,
                        .may_wait = !(what & LOCK_NB), .call = call};
    if (!r.lock)
        return REAL(flock)(descriptor, what);
    begin_taking(r.lock, call);
    int answer = REAL(flock)(descriptor, what | LOCK_NB);
    if (!end_try(&r, answer == 0))
        return answer;
    answer = REAL(flock)(descriptor, what);
    end_wait(&r, answer == 0);
    return answer;
}

EXPORT int flock(int descriptor, int what) {
    if (!FILES)
        return REAL(flock)(descriptor, what);
    if (what & (LOCK_EX | LOCK_SH))
        return KEEPING_FRAME(take_whole(descriptor, what, HERE));
    uint32_t file = held_here ? known_file_of(descriptor) : 0;
    if (file && what & LOCK_UN)
        give_up_between(file, 0, 1, descriptor, HERE);
    return REAL(flock)(descriptor, what);
}

/* ---- fcntl and lockf. */

/* Where a range begins, as far as that doesn't depend on the file's length. */
static uint64_t start_of(int descriptor, const struct flock *range) {
    off_t base = range->l_whence == SEEK_CUR ? lseek(descriptor, 0, SEEK_CUR) : 0;
    off_t from = base + range->l_start + (range->l_len < 0 ? range->l_len : 0);
    return from > 0 ? (uint64_t)from : 0;
}

static uint64_t end_of(uint64_t from, const struct flock *range) {
    return range->l_len == 0 ? UINT64_MAX : from + (uint64_t)(range->l_len < 0 ? -range->l_len : range->l_len);
}

static int take_range(int descriptor, int command, struct flock *range, struct call call) {
    bool is_own = command == F_OFD_SETLK || command == F_OFD_SETLKW;
    struct request r = {.lock = lock_of(descriptor, start_of(descriptor, range)), .descriptor = is_own ? descriptor : ANY,
                        .is_write = range->l_type == F_WRLCK, .may_wait = command == F_SETLKW || command == F_OFD_SETLKW, .call = call};
    if (!r.lock)
        return REAL(fcntl)(descriptor, command, range);
    begin_taking(r.lock, call);
    int answer = REAL(fcntl)(descriptor, is_own ? F_OFD_SETLK : F_SETLK, range);
    if (!end_try(&r, answer == 0))
        return answer;
    answer = REAL(fcntl)(descriptor, command, range);
    end_wait(&r, answer == 0);
    return answer;
}

static int set_range(int descriptor, int command, struct flock *range, struct call call) {
    if (range->l_type != F_UNLCK)
        return take_range(descriptor, command, range, call);
    uint32_t file = held_here ? known_file_of(descriptor) : 0;
    if (file) {
        uint64_t from = start_of(descriptor, range);
        give_up_between(file, from, end_of(from, range), ANY, call);
    }
    return REAL(fcntl)(descriptor, command, range);
}

static bool is_of_ranges(int command) {
    return command == F_SETLK || command == F_SETLKW || command == F_OFD_SETLK || command == F_OFD_SETLKW;
}

/* Whether it says which signal a file sends, or to whom. */
static bool is_of_signals(int command) { return command == F_SETSIG || command == F_SETOWN || command == F_SETOWN_EX; }

static void note_owner_of(int descriptor) {
    struct f_owner_ex owner;
    int saved = errno, number = REAL(fcntl)(descriptor, F_GETSIG);
    if (number >= 0 && REAL(fcntl)(descriptor, F_GETOWN_EX, &owner) == 0 && owner.pid)
        note_owner(number, owner.type == F_OWNER_TID);
    errno = saved;
}

/* What comes after the command is at most a pointer. */
#define CONTROLLING(name)                                                                                              \
    EXPORT int name(int descriptor, int command, ...) {                                                                \
        va_list more;                                                                                                  \
        va_start(more, command);                                                                                       \
        void *with = va_arg(more, void *);                                                                             \
        va_end(more);                                                                                                  \
        if (UNLIKELY(is_of_ranges(command) && with && FILES))                                                          \
            return KEEPING_FRAME(set_range(descriptor, command, with, HERE));                                          \
        int answer = REAL(fcntl)(descriptor, command, with);                                                           \
        if (UNLIKELY(is_of_signals(command)) && answer == 0 && is_recording())                                         \
            note_owner_of(descriptor);                                                                                 \
        return answer;                                                                                                 \
    }

CONTROLLING(fcntl)
CONTROLLING(fcntl64)

static int lock_from_here(int descriptor, int what, off_t length, struct call call) {
    struct flock range = {.l_type = what == F_ULOCK ? F_UNLCK : F_WRLCK, .l_whence = SEEK_CUR, .l_len = length};
    if (what != F_LOCK && what != F_TLOCK && what != F_ULOCK)
        return REAL(lockf)(descriptor, what, length);
    return set_range(descriptor, what == F_LOCK ? F_SETLKW : F_SETLK, &range, call);
}

#define LOCKING(name)                                                                                                  \
    EXPORT int name(int descriptor, int what, off_t length) {                                                          \
        return FILES ? KEEPING_FRAME(lock_from_here(descriptor, what, length, HERE)) : REAL(lockf)(descriptor, what, length); \
    }

LOCKING(lockf)
LOCKING(lockf64)

/* ---- Closing. */

static void give_up_closed(int descriptor, struct call call) {
    uint32_t file = known_file_of(descriptor);
    if (file)
        give_up_between(file, 0, UINT64_MAX, descriptor, call);
}

EXPORT int close(int descriptor) {
    if (UNLIKELY(held_here && FILES))
        give_up_closed(descriptor, HERE);
    return REAL(close)(descriptor);
}

EXPORT int fclose(FILE *stream) {
    if (UNLIKELY(held_here && FILES))
        give_up_closed(fileno(stream), HERE);
    return REAL(fclose)(stream);
}
