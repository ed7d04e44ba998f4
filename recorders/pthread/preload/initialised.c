/* Locks that are initialised, and those that are no more: with a lock its thread's holds of it end. */
#include "records.h"

static void end_holds_between(struct thread *t, uintptr_t from, uintptr_t to, uintptr_t caller) {
    for (uint32_t i = t->depth; i-- > 0;)
        if (t->entries[i].held.lock >= from && t->entries[i].held.lock < to) {
            put_end_of_hold(&t->entries[i].held);
            release_at(t, i, caller);
        }
}

void end_own_holds(uintptr_t from, uintptr_t to, struct call call) { end_holds_between(self.thread, from, to, call.caller); }

void initialised(uintptr_t lock, struct call call) {
    struct thread *t = IS_WANTED(lock, call) ? enter(call) : NULL;
    if (!t)
        return;
    end_holds_between(t, lock, lock + 1, call.caller);
    know_by_place(lock, call);
    keep_nesting(lock);
    leave();
}

void destroyed(uintptr_t lock, struct call call) {
    struct thread *t = IS_WANTED(lock, call) ? enter(call) : NULL;
    if (!t)
        return;
    end_holds_between(t, lock, lock + 1, call.caller);
    end_lock(lock);
    leave();
}

/* Memory is given back by a call from there, while the thread holds something. */
__attribute__((noinline)) void given_back(uintptr_t from, uintptr_t to, uintptr_t caller) {
    struct thread *t = enter(HERE);
    if (!t)
        return;
    end_holds_between(t, from, to, caller);
    leave();
}
