/* How many callers tell where a lock is taken. A function that returns with a lock held, as a guard's constructor does, passes it on to its caller.
   So the callers up to the first function that goes on with the lock held tell the place: what takes a lock for others has the same lines
   for all of them.

   If the lock is taken in a new way, or by functions that aren't known yet, the whole stack is followed. When the thread takes or releases a
   lock the next time, it is seen which of these functions have returned. */
#include "records.h"

enum passing { NOT_KNOWN, HOLDS, PASSES };

static struct names of_functions; /* by where they begin */
static struct names of_callers;   /* of the functions that go on there */
static uint64_t changes;          /* so many functions were found to pass locks on that were thought to hold them */

static enum passing passing_of(uintptr_t caller) {
    uint32_t *slot = added_slot(&of_callers, mixed(caller));
    if (!slot || LOAD(slot))
        return slot ? LOAD(slot) : HOLDS;
    const uint32_t *known = name_slot(&of_functions, mixed(function_around(caller)));
    uint32_t passing = known ? LOAD(known) : NOT_KNOWN;
    STORE(slot, passing);
    return passing;
}

/* So many callers of a stack tell the place; 0 if that isn't known yet. */
static uint32_t telling(const struct stack *stack) {
    uint32_t i = 0;
    while (i + 1 < stack->count && passing_of(stack->callers[i]) == PASSES)
        i++;
    return passing_of(stack->callers[i]) == NOT_KNOWN ? 0 : i + 1;
}

/* Of what isn't new; 0 if that isn't known yet. */
static uint32_t place_again(struct thread *t, struct call call) {
    enum passing passing = passing_of(call.caller);
    if (passing == HOLDS)
        return cached_place(t, call.caller);
    return passing == PASSES ? place_of_some(call, UINT64_MAX - LOAD(&changes), telling) : 0;
}

uint32_t place_of_acquisition(struct thread *t, struct call call, bool is_new) {
    uint32_t place = is_new ? 0 : place_again(t, call);
    if (place)
        return place;
    take_stack(&t->watched.stack, call, RAW_FRAMES);
    t->watched.call = call;
    return place_of(&t->watched.stack);
}

static void forget(uint32_t *value) { STORE(value, NOT_KNOWN); }

static void note_passing(uintptr_t caller, enum passing passing) {
    uint32_t *slot = added_slot(&of_functions, mixed(function_around(caller))), before = NOT_KNOWN;
    while (slot && before < passing && !SWAP(slot, &before, passing))
        continue;
    if (before == HOLDS && passing == PASSES) {
        each_name(&of_callers, forget);
        ADD(&changes, 1);
        change_era();
    }
}

/* The call of the watched acquisition itself may come here again. */
void end_watch(struct thread *t, struct call call) {
    struct watched *w = &t->watched;
    if (w->call.frame == call.frame && w->call.caller == call.caller)
        return;
    uint32_t returned = returned_callers(&w->stack, w->call.frame, call);
    for (uint32_t i = 0; i < returned; i++)
        note_passing(w->stack.callers[i], PASSES);
    note_passing(w->stack.callers[returned], HOLDS);
    w->call.frame = 0;
}

/* A library was closed: other functions may come to be there. */
void forget_passing(void) {
    each_name(&of_functions, forget);
    each_name(&of_callers, forget);
    ADD(&changes, 1);
}
