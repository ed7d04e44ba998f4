/* What the C library locks inside, with LOCKDEP_SIGNALS=all: a handler that calls malloc or printf may have interrupted another such call of its own
   thread. Those are locks of names such as libc:malloc. A run of a handler takes one, once in each run; other code has it as by a try, once in each
   state, so that no order leads into it: two threads mostly do so beside each other. */
#include "held.h"

#include <errno.h>

static uint32_t allocator; /* its address stands for the lock */
static uint32_t is_named;

static uint8_t mode_of_use(void) { return self.thread->source ? MODE_WRITE : MODE_TRY_WRITE; }

static void pass_allocator(struct call call) {
    uint32_t not_yet = 0;
    if (UNLIKELY(!LOAD(&is_named)) && SWAP(&is_named, &not_yet, 1))
        name_lock((uintptr_t)&allocator, "libc:malloc", call);
    if (lock_object((uintptr_t)&allocator))
        pass_lock((uintptr_t)&allocator, mode_of_use(), KIND_SPIN, call);
    self.thread->has_allocated = true;
}

void use_allocator(struct call call) {
    const struct thread *t = self.thread;
    if (!is_following() || is_inside() || (t && t->has_allocated && !t->is_turned))
        return;
    int saved = errno;
    if (enter_recorder(call)) {
        pass_allocator(call);
        end_inside();
    }
    errno = saved;
}

extern char __libc_single_threaded __attribute__((weak)); /* (glibc has it since 2.32) */

/* It is locked in a fork if there is a second thread. */
void use_allocator_in_fork(struct call call) {
    if (UNLIKELY(watches_malloc()) && &__libc_single_threaded && !__libc_single_threaded)
        use_allocator(call);
}

/* ---- The others, which a library of its own tells, the folder `library`. A stream knows its owner. */

static bool is_used(const struct thread *t, uintptr_t lock) {
    for (uint32_t i = 0; i < t->used_count; i++)
        if (t->used[i] == lock)
            return true;
    return false;
}

static void pass_library(uintptr_t lock, const char *name, bool is_stream, struct call call) {
    struct thread *t = self.thread;
    if (!lock_object(lock))
        name_lock(lock, name, call);
    if (lock_object(lock))
        pass_lock(lock, mode_of_use(), is_stream ? KIND_RECURSIVE : KIND_SPIN, call);
    if (t->used_count == MOST_USED)
        t->used_count = 0;
    t->used[t->used_count++] = lock;
}

EXPORT void lockdep_use_library(const void *lock, const char *name, int is_stream, void *caller, void *frame);
void lockdep_use_library(const void *lock, const char *name, int is_stream, void *caller, void *frame) {
    struct thread *t = self.thread;
    struct call call = {(uintptr_t)caller, (uintptr_t)frame};
    if (!is_following() || is_inside() || (t && is_used(t, (uintptr_t)lock) && !t->is_turned))
        return;
    int saved = errno;
    if (enter_recorder(call)) {
        pass_library((uintptr_t)lock, name, is_stream, call);
        end_inside();
    }
    errno = saved;
}
