/* The schedule: what threads take before they stand still, and where each of them stands then. A point is the n-th taking of a thread by a call; a
   thread is known by who started it, and as which one. */
#define _GNU_SOURCE
#include "provoke.h"

#include <stdlib.h>
#include <string.h>
#include <sys/syscall.h>
#include <unistd.h>

#define MOST_STEPPING 64 /* threads of a schedule */
#define MOST_CALLS 256 /* by which they take locks */

static struct point {
    uintptr_t address;
    uint32_t nth, stepping;
    uint32_t stop;   /* the order at which its thread stands there; 0: it doesn't */
    uint32_t before; /* whose lock has to be released first; 0: none */
    long pause;      /* for how many milliseconds its thread is held back there at most */
    uint8_t passed;  /* in this process */
} points[MOST_POINTS + 1]; /* from 1 on */

static struct stepping {
    uint64_t path;
    bool has_ended;
    uint32_t first, last; /* of its points */
    uint32_t counts[MOST_CALLS];
} all[MOST_STEPPING + 1];

static uintptr_t calls[MOST_CALLS];
static uint32_t point_count, stepping_count, call_count;

static __thread uint64_t path;
static __thread uint32_t started;
static __thread struct stepping *mine;
static __thread bool is_looked_up;

/* ---- The plan. It is read again when modules are loaded, and says the same then. */

void forget_points(void) { point_count = stepping_count = 0; }

static uint64_t path_of_start(uint64_t parent, uint64_t number) { return (parent + number) * UINT64_C(0x9E3779B97F4A7C15) ^ (parent >> 29) ^ number; }

/* The numbers of starts, from the process's first thread on. */
void take_thread(const char *numbers) {
    uint64_t own = 0;
    char *end;
    for (unsigned long number = strtoul(numbers, &end, 10); end != numbers; number = strtoul(numbers, &end, 10)) {
        own = path_of_start(own, number);
        numbers = end;
    }
    if (stepping_count == MOST_STEPPING)
        return;
    all[++stepping_count].path = own;
    all[stepping_count].first = point_count + 1;
    all[stepping_count].last = point_count;
}

static void know_call(uintptr_t address) {
    for (uint32_t i = 0; i < call_count; i++)
        if (calls[i] == address)
            return;
    if (address && call_count < MOST_CALLS)
        calls[call_count++] = address;
}

void take_point(unsigned nth, uintptr_t address) {
    if (point_count == MOST_POINTS || !stepping_count)
        return;
    struct point *point = &points[++point_count];
    point->address = address;
    point->nth = nth;
    point->stepping = stepping_count;
    all[stepping_count].last = point_count;
    know_call(address);
}

void take_stop(unsigned order, long pause) {
    points[point_count].stop = order;
    points[point_count].pause = pause;
}

void take_after(unsigned point, unsigned before, long pause) {
    if (point > point_count || before > point_count)
        return;
    points[point].before = before;
    points[point].pause = pause;
}

bool has_points(void) { return point_count != 0; }

/* ---- Threads. */

/* A thread that was started without this library has the path of the first one, and isn't known. */
static struct stepping *own(void) {
    if (is_looked_up)
        return mine;
    is_looked_up = true;
    bool is_known = path || syscall(SYS_gettid) == getpid();
    for (uint32_t i = 1; is_known && i <= stepping_count && !mine; i++)
        mine = all[i].path == path ? &all[i] : NULL;
    return mine;
}

/* Whether this thread has points. */
bool is_followed(void) { return own() != NULL; }

/* This thread starts another one, whose path that is. */
void count_start(uint64_t *of_new) { *of_new = path_of_start(path, ++started); }

void begin_path(uint64_t of_new) {
    path = of_new;
    started = 0;
    is_looked_up = false;
    mine = NULL;
}

/* In the child of a fork: its one thread is the first one of its process, and nothing was passed. */
void begin_child(void) {
    for (uint32_t i = 1; i <= stepping_count; i++) {
        all[i].has_ended = false;
        memset(all[i].counts, 0, sizeof all[i].counts);
    }
    for (uint32_t i = 1; i <= point_count; i++)
        points[i].passed = PASSED_NOT;
    begin_path(0);
}

void end_path(void) {
    if (own())
        mine->has_ended = true;
}

/* ---- Points. */

static uint32_t number_of_call(uintptr_t caller) {
    for (uint32_t i = 0; i < call_count; i++)
        if (calls[i] == caller)
            return i + 1;
    return 0;
}

/* Whether this thread has points at such a call. */
bool is_at_point(uintptr_t caller) { return point_count && own() && number_of_call(caller); }

/* The point that the next taking by this call is; 0 if it is none. */
uint32_t next_point(uintptr_t caller) {
    uint32_t call = is_at_point(caller) ? number_of_call(caller) : 0;
    for (uint32_t i = call ? mine->first : 1; i <= (call ? mine->last : 0); i++)
        if (points[i].address == caller && points[i].nth == mine->counts[call - 1] + 1)
            return i;
    return 0;
}

/* This thread has taken a lock by this call. The result is the point that this was. */
uint32_t count_taking(uintptr_t caller) {
    uint32_t point = next_point(caller);
    if (is_at_point(caller))
        mine->counts[number_of_call(caller) - 1]++;
    return point;
}

void pass_point(uint32_t point, enum passed how) {
    if (!point)
        return;
    __atomic_store_n(&points[point].passed, how, __ATOMIC_RELEASE);
    table->passed[point] = (uint8_t)how;
}

uint32_t order_of_stop(uint32_t point) { return points[point].stop; }
uint32_t point_before(uint32_t point) { return points[point].before; }
long pause_at(uint32_t point) { return points[point].pause; }
bool has_passed(uint32_t point, enum passed how) { return __atomic_load_n(&points[point].passed, __ATOMIC_ACQUIRE) >= how; }

/* Whether the thread of a point has ended, so that it comes to no more. */
bool is_over(uint32_t point) { return all[points[point].stepping].has_ended; }

/* Whether it is a point of a thread that stands at a later one. */
bool is_before_stop(uint32_t point) { return point && !points[point].stop && points[all[points[point].stepping].last].stop; }

/* Whether a thread can't come to its stop any more: it has ended before, or gone on there. */
bool is_schedule_over(void) {
    for (uint32_t i = 1; i <= point_count; i++)
        if (points[i].stop && (has_passed(i, PASSED_TAKEN) || (is_over(i) && !has_passed(i, PASSED_ASKED))))
            return true;
    return false;
}
