/* What signals' handlers are installed, and which of them may interrupt a thread: those of signals that it has unblocked. The kernel's table of
   handlers is the one that counts; this one says what the recorder knows of it. */
#include "held.h"

#include <signal.h>
#include <sys/syscall.h>
#include <unistd.h>

uint64_t handled, armed;
uint32_t handlers_epoch;

static uint32_t installed[RAW_SIGNALS]; /* of each signal the source; 0: no handler */

/* All threads look at their states anew. */
static void change_states(void) {
    __atomic_fetch_add(&handlers_epoch, 1, __ATOMIC_ACQ_REL);
    change_era();
}

void arm(uint64_t signals) {
    if (__atomic_exchange_n(&armed, signals, __ATOMIC_ACQ_REL) != signals && LOAD(&handled))
        change_states();
}

void install(int number, uint32_t source) {
    uint32_t *at = &installed[number - 1];
    if (LOAD(at) == source)
        return;
    STORE(at, source);
    if (source)
        __atomic_fetch_or(&handled, bit_of(number), __ATOMIC_ACQ_REL);
    else
        __atomic_fetch_and(&handled, ~bit_of(number), __ATOMIC_ACQ_REL);
    change_states();
}

uint32_t installed_source(int number) { return LOAD(&installed[number - 1]); }

/* ---- Sources. */

static struct names sources;

static uint32_t define_source(int number, uintptr_t handler) {
    uint32_t made = take_part(RAW_SOURCES);
    if (!made)
        return 0;
    struct raw_source *source = part_of(RAW_SOURCES, made);
    source->handler = word_of(handler);
    STORE(&source->signal, (uint32_t)number);
    return made;
}

/* Whether the handler was in a library that is closed: another one may lie at its address. */
bool is_source_gone(uint32_t source) {
    const struct raw_source *s = source ? part_of(RAW_SOURCES, source) : NULL;
    return s && raw_word_module(s->handler) != RAW_NOWHERE && is_gone(raw_word_module(s->handler));
}

uint32_t source_of(int number, uintptr_t handler, struct call call) {
    if (!begin_inside(call))
        return 0;
    uint32_t *slot = added_slot(&sources, mixed(handler) + (uint64_t)number * 2);
    uint32_t there = slot ? LOAD(slot) : 0, source = there;
    if (slot && (!there || is_source_gone(there))) {
        source = define_source(number, handler);
        if (source && !SWAP(slot, &there, source))
            source = there;
    }
    end_inside();
    return source;
}

/* ---- The runs of a source in a thread. */

uint32_t own_system_thread(void) {
    if (!self.system_thread)
        self.system_thread = __atomic_add_fetch(&arena->system_threads, 1, __ATOMIC_RELAXED);
    return self.system_thread;
}

static struct names runs;

static uint32_t define_run(uint32_t source) {
    uint32_t number = take_part(RAW_RUNS);
    if (!number)
        return 0;
    struct raw_run *run = part_of(RAW_RUNS, number);
    run->process = own_process;
    run->system_thread = own_system_thread();
    run->calls = *thread_at_level(0) ? (*thread_at_level(0))->raw->calls : 0;
    note_run(run);
    STORE(&run->source, source);
    return number;
}

struct raw_run *run_of(uint32_t source) {
    uint32_t *slot = added_slot(&runs, mixed((uint64_t)own_system_thread() << 32 | source)), none = 0;
    uint32_t number = slot ? LOAD(slot) : 0;
    if (slot && !number) {
        number = define_run(source);
        if (number && !SWAP(slot, &none, number))
            number = none;
    }
    return number ? part_of(RAW_RUNS, number) : NULL;
}

/* ---- States. */

static struct names states;

/* The sources that may interrupt. A handler without a source isn't followed. */
static uint64_t fill(uint16_t *to, uint64_t on) {
    uint64_t key = 0, timed = LOAD(&armed);
    for (int number = 1; number <= RAW_SIGNALS; number++) {
        uint32_t source = on & bit_of(number) ? LOAD(&installed[number - 1]) : 0;
        if (source && !(timed & bit_of(number)))
            source |= RAW_UNARMED;
        to[number - 1] = (uint16_t)source;
        if (source)
            key = mixed(key) + source;
    }
    return key;
}

static uint32_t define_state(const uint16_t *sources_on) {
    uint32_t number = take_part(RAW_STATES);
    if (!number)
        return 0;
    struct raw_state *state = part_of(RAW_STATES, number);
    for (int i = 0; i < RAW_SIGNALS; i++)
        state->sources[i] = sources_on[i];
    STORE(&state->is_ready, 1);
    return number;
}

static uint32_t state_of(uint64_t on) {
    uint16_t sources_on[RAW_SIGNALS];
    uint64_t key = fill(sources_on, on);
    uint32_t *slot = key ? added_slot(&states, mixed(key)) : NULL, none = 0;
    uint32_t number = slot ? LOAD(slot) : 0;
    if (slot && !number) {
        number = define_state(sources_on);
        if (number && !SWAP(slot, &none, number))
            number = none;
    }
    return number;
}

/* The system is asked once for each thread, and only if there is a handler. */
void know_mask(void) {
    uint64_t mask = 0;
    if (self.is_mask_known)
        return;
    SYSTEM(rt_sigprocmask, SIG_BLOCK, NULL, &mask, sizeof mask);
    self.mask = mask;
    self.is_mask_known = true;
}

/* It is asked for again. A child of vfork has this process's memory until it becomes another program, but not its mask: what it has blocked isn't
   blocked in its parent. */
void forget_mask(void) {
    self.is_mask_known = false;
    if (!self.thread)
        return;
    self.thread->is_turned = true;
    note_unsettled(self.thread);
}

uint64_t on_now(void) {
    uint64_t all = LOAD(&handled);
    if (all)
        know_mask();
    return all & ~self.mask;
}

uint32_t state_now(uint64_t *on) {
    *on = on_now();
    return *on ? state_of(*on) : 0;
}
