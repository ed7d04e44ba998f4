/* The history of this process: chunks, and the steps that aren't those of locks. raw.h says what is written. */
#include "records.h"

#include <errno.h>

#ifdef __x86_64__
#include <cpuid.h>
#endif

EARLY_THREAD_LOCAL struct own_history own_history;

FOUND_WHEN_LOADED(this_thread, pthread_self);

/* ---- The time. */

uint64_t has_clock;
uint64_t counted __attribute__((aligned(64)));

#ifdef __x86_64__
#define POWER_LEAF 0x80000007u
#define INVARIANT (1u << 8) /* the counter runs at one speed, whatever the processor does */
static bool finds_clock(void) {
    unsigned a, b, c, d;
    return __get_cpuid(POWER_LEAF, &a, &b, &c, &d) && d & INVARIANT;
}
#else
static bool finds_clock(void) { return false; }
#endif

/* ---- How much is kept. */

#define HISTORY_MEGABYTES 64 /* of a process, if nothing else was asked for */
#define MOST_HISTORY_MEGABYTES 1024
#define MEGABYTE (UINT64_C(1) << 20)
#define OFF "off"

static uint64_t wanted;      /* bytes, of each process */
static uint64_t chunks_left; /* of this one */

static uint64_t number_in(const char *text) {
    uint64_t number = 0;
    for (; *text >= '0' && *text <= '9' && number <= MOST_HISTORY_MEGABYTES; text++)
        number = 10 * number + (uint64_t)(*text - '0');
    return *text ? 0 : number;
}

static uint64_t bytes_wanted(void) {
    const char *asked = variable("LOCKDEP_HISTORY");
    uint64_t megabytes = asked && asked[0] ? number_in(asked) : HISTORY_MEGABYTES;
    if (is_for_libraries || (asked && is_same_text(asked, OFF)) || megabytes > MOST_HISTORY_MEGABYTES)
        return 0;
    return megabytes * MEGABYTE;
}

void want_history(void) {
    wanted = bytes_wanted();
    has_clock = finds_clock();
}

static bool is_child;

/* A child has a history of its own, of which its thread, which is another one than before, has written nothing. */
void begin_history(void) {
    is_child = own_process && ((struct raw_process *)part_of(RAW_PROCESSES, own_process))->parent != 0;
    STORE(&chunks_left, wanted / RAW_STEP_CHUNK);
    own_history = (struct own_history){.has_begun = false};
    self.history_at = 0;
    self.system_thread = 0;
}

/* ---- Chunks. */

static bool takes_one_of_those_left(void) {
    uint64_t left = LOAD(&chunks_left);
    while (left && !SWAP(&chunks_left, &left, left - 1))
        continue;
    return left != 0;
}

/* A chunk that nobody has, or NULL. */
static uint64_t *take_words(void) {
    if (!own_process || !takes_one_of_those_left() || LOAD(&arena->history_used) + RAW_STEP_CHUNK > arena->history_to)
        return NULL;
    uint64_t from = ADD(&arena->history_used, RAW_STEP_CHUNK);
    return from + RAW_STEP_CHUNK <= arena->history_to ? (uint64_t *)((char *)arena + from) : NULL;
}

/* The first step that there was no room for ends the history of all threads, as of that time. */
static void end_history(uint64_t time) {
    self.history_at = NO_HISTORY;
    if (!own_process || !wanted)
        return;
    uint64_t *end = &((struct raw_process *)part_of(RAW_PROCESSES, own_process))->history_end, there = LOAD(end);
    while ((!there || there > time) && !SWAP(end, &there, time))
        continue;
    STORE(&chunks_left, 0);
}

void miss_step(void) {
    if (has_history())
        end_history(time_before());
}

/* What is written last says what the step is. */
static void put_words(uint64_t *at, uint64_t first, uint64_t second) {
    at[0] = first;
    __atomic_signal_fence(__ATOMIC_RELEASE);
    at[1] = second;
}

/* Returns where its first step goes, or NULL. A handler that comes in between has a chunk of its own. */
static uint64_t *begin_chunk(uint64_t time) {
    uint64_t *chunk = take_words();
    if (!chunk)
        return NULL;
    bool is_first = !own_history.has_begun;
    own_history.has_begun = true;
    put_words(chunk, raw_first_word(own_process, RAW_LONG, own_system_thread()), raw_second_word(STEP_CHUNK, 0, time));
    if (is_first)
        put_words(chunk + 2, raw_first_word(time, RAW_LONG, 0), raw_second_word(STEP_BEGIN, 0, (uint64_t)this_thread()));
    self.history_epoch = time >> RAW_EPOCH_BITS;
    if (is_first && !self.thread)
        watch_thread_end();
    return chunk + (is_first ? 4 : 2);
}

/* Whether there is room for two words: one may be left unused at a chunk's end. */
static bool has_room(uintptr_t at) { return !is_at_end(at) && !is_at_end(at + sizeof(uint64_t)); }

/* Where a step of two words goes, or NULL. What a handler leaves as the next place is looked at no more: it has a chunk of its own. */
static uint64_t *next_words(uint64_t time) {
    uintptr_t next = self.history_at;
    uint64_t *at = has_room(next) ? (uint64_t *)next : begin_chunk(time);
    if (at)
        self.history_at = (uintptr_t)(at + 2);
    else
        end_history(time);
    return at;
}

/* A step of two words. */
static uint64_t *put_step_of(uint64_t time, uint64_t second, uint32_t place) {
    uint64_t *at = next_words(time);
    if (at && time >> RAW_EPOCH_BITS != self.history_epoch) {
        self.history_epoch = time >> RAW_EPOCH_BITS;
        put_words(at, raw_first_word(time, RAW_LONG, 0), raw_second_word(STEP_TIME, 0, time));
        at = next_words(time);
    }
    if (at)
        put_words(at, raw_first_word(time, RAW_LONG, place), second);
    return at;
}

static uint64_t *put_step(uint64_t second, uint32_t place, bool is_after) {
    return has_history() ? put_step_of(is_after ? time_after() : time_before(), second, place) : NULL;
}

/* What a lock is called isn't written again in a child that knows it since before. */
uint32_t put_taking(uintptr_t lock, uint8_t mode, uint32_t place, uint32_t object) {
    if (UNLIKELY(is_child))
        name_in_history(lock, object);
    const uint64_t *at = put_step(raw_second_word(STEP_TAKE, mode, lock), place, true);
    return at ? (uint32_t)(((uintptr_t)at - (uintptr_t)arena - arena->history_from) / sizeof *at) : 0;
}

void put_release(uintptr_t lock, uint32_t object) { put_step(raw_second_word(STEP_RELEASE, 0, lock), object, false); }

void forget_chunk(void) {
    if (has_history())
        self.history_at = 0;
}

/* The chunk that goes on now may lack the time of the run. */
void forget_epoch(void) { self.history_epoch = NO_EPOCH; }

/* ---- Steps that aren't those of locks. */

void name_in_history(uintptr_t lock, uint32_t object) { put_step(raw_second_word(STEP_NAME, false, lock), object, false); }

/* Two threads that meet a lock at once both write this. It has the time of the look at which the lock wasn't known, which is before either takes the lock. */
void meet_in_history(uintptr_t lock, uint32_t object, uint64_t time) {
    if (has_history())
        put_step_of(time, raw_second_word(STEP_NAME, true, lock), object);
}

static bool begin_step(struct call call) {
    if (self.is_ended || !arena || (!*era && !revived()) || !has_history())
        return false;
    bool is_inside = begin_inside(call);
    if (!is_inside)
        miss_step();
    return is_inside;
}

#define MESSAGE_FRAMES 4 /* enough to come out of a header, as that of std::condition_variable, in unoptimised code */

/* Threads are started and joined at places that are known by all of their callers, as other steps are if they are rare. */
static uint32_t place_of_message(enum raw_verb verb, struct call call) {
    return place_of_call(call, verb == STEP_START || verb == STEP_JOINED ? RAW_FRAMES : MESSAGE_FRAMES);
}

__attribute__((noinline)) void put_message_by(enum raw_verb verb, uint8_t mode, uintptr_t about, bool is_after, struct call call) {
    int saved = errno;
    if (!begin_step(call))
        return;
    put_step(raw_second_word(verb, mode, about), place_of_message(verb, call), is_after);
    end_inside();
    errno = saved;
}

void put_message(enum raw_verb verb, uintptr_t about, bool is_after, struct call call) { put_message_by(verb, 0, about, is_after, call); }

void put_numbered(enum raw_verb verb, uintptr_t about, uint32_t number, struct call call) {
    int saved = errno;
    if (!begin_step(call))
        return;
    put_step(raw_second_word(verb, 0, about), number, true);
    end_inside();
    errno = saved;
}

/* When a thread finds again that a routine has run, with the same locks held, that is nothing new. */
static bool has_passed(uintptr_t control) {
    uint64_t way = mixed(control ^ (self.thread ? self.thread->hash : 0)), *passed = &own_history.passed[way % KNOWN_PASSED];
    bool has = *passed == way;
    *passed = way;
    return has;
}

void put_passed(uintptr_t control, struct call call) {
    if (has_history() && !has_passed(control))
        put_message(STEP_PASS, control, true, call);
}

uint32_t put_start(struct call call) {
    if (!has_history() || !is_recording())
        return 0;
    uint32_t number = ADD(&arena->starts, 1) + 1;
    put_message(STEP_START, number, false, call);
    return number;
}

void end_own_history(void) {
    if (own_history.has_begun && has_history() && begin_inside(HERE)) {
        put_step(raw_second_word(STEP_END, 0, 0), 0, false);
        end_inside();
    }
    self.history_at = NO_HISTORY;
}
