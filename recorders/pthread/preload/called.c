/* What the program calls its threads, by pthread_setname_np or prctl. The system isn't asked. */
#include "own.h"

#include <pthread.h>
#include <stdarg.h>
#include <sys/prctl.h>

#define REALS(X) X(pthread_setname_np) X(prctl)
REALS(KNOWN_REAL)
FIND_AT_START(REALS)

FOUND_WHEN_LOADED(this_thread, pthread_self);

static EARLY_THREAD_LOCAL struct raw_thread *own_part; /* of its newest trace, if it has any */
static EARLY_THREAD_LOCAL char own_name[RAW_CALLED];

#define LOOKED_AT 4096 /* a thread that is named by another one is looked for among so many traces: those that began last */

/* Names that threads got from others before they have taken a lock. If there are more than these, the oldest ones are forgotten. */
#define EARLY_NAMES 64
static struct early_name {
    pthread_t thread; /* written last; 0: none */
    char name[RAW_CALLED];
} early_names[EARLY_NAMES];
static uint32_t early_count;

static void copy_name(char *to, const char *name) {
    for (int i = 0; i < RAW_CALLED - 1 && (to[i] = name[i]); i++)
        AS_WRITTEN;
}

static struct early_name *early_name_of(pthread_t thread) {
    for (struct early_name *early = early_names; early < early_names + EARLY_NAMES; early++)
        if (LOAD(&early->thread) == thread)
            return early;
    return NULL;
}

/* A new thread isn't called as an earlier one that had its number and never took a lock. */
void forget_name(pthread_t thread) {
    struct early_name *early = early_name_of(thread);
    if (early)
        STORE(&early->thread, 0);
}

/* The trace of this thread begins. */
void begin_name(struct raw_thread *part) {
    own_part = part;
    part->self = this_thread();
    copy_name(part->name, own_name);
}

/* The trace of this thread has begun, so who names the thread from now on finds it. One who didn't has kept the name before, or looks once more. */
void take_early_name(struct raw_thread *part) {
    __atomic_thread_fence(__ATOMIC_SEQ_CST);
    struct early_name *early = early_name_of(part->self);
    if (!early)
        return;
    copy_name(part->name, early->name);
    STORE(&early->thread, 0);
}

static bool is_of(const struct raw_thread *part, pthread_t thread) {
    return part && LOAD(&part->is_ready) && part->process == own_process && part->self == thread && !part->ended;
}

/* The part of a thread that has a trace; NULL for another. */
static struct raw_thread *part_of_thread(pthread_t thread) {
    if (is_of(own_part, thread))
        return own_part;
    uint32_t used = LOAD(&arena->regions[RAW_THREADS].used), room = arena->regions[RAW_THREADS].room;
    uint32_t last = used < room ? used : room;
    for (uint32_t number = last; number > 0 && number + LOOKED_AT > last; number--)
        if (is_of(part_of(RAW_THREADS, number), thread))
            return part_of(RAW_THREADS, number);
    return NULL;
}

/* Its trace may begin meanwhile. */
static void keep_name(pthread_t thread, const char *name) {
    forget_name(thread);
    struct early_name *early = &early_names[ADD(&early_count, 1) % EARLY_NAMES];
    STORE(&early->thread, 0);
    copy_name(early->name, name);
    STORE(&early->thread, thread);
    __atomic_thread_fence(__ATOMIC_SEQ_CST);
    struct raw_thread *part = part_of_thread(thread);
    if (part)
        copy_name(part->name, name);
}

/* A thread has a name, which may be given by another one. */
static void take_name(pthread_t thread, const char *name) {
    struct raw_thread *part = part_of_thread(thread);
    bool is_own = thread == this_thread();
    if (part)
        copy_name(part->name, name);
    else if (!is_own)
        keep_name(thread, name);
    if (is_own)
        copy_name(own_name, name);
}

/* What waits for a library knows how each thread calls itself meanwhile. */
static void heed_name(pthread_t thread, const char *name) {
    if (is_recording())
        take_name(thread, name);
    else if (is_for_libraries && thread == this_thread())
        copy_name(own_name, name);
}

EXPORT int pthread_setname_np(pthread_t thread, const char *name) {
    int error = REAL(pthread_setname_np)(thread, name);
    if (!error)
        heed_name(thread, name);
    return error;
}

/* It takes as many words as the option needs, and the C library passes on four in any case. */
EXPORT int prctl(int option, ...) {
    unsigned long words[4];
    va_list rest;
    va_start(rest, option);
    for (int i = 0; i < 4; i++)
        words[i] = va_arg(rest, unsigned long);
    va_end(rest);
    int result = REAL(prctl)(option, words[0], words[1], words[2], words[3]);
    if (option == PR_SET_NAME && result == 0)
        heed_name(this_thread(), (const char *)words[0]);
    return result;
}
