/* The plan: for each order of a finding the places where its first lock is taken and where its second one is asked for. */
#define _GNU_SOURCE
#include "provoke.h"

#include <limits.h>
#include <link.h>
#include <pthread.h>
#include <stdio.h>
#include <stdlib.h>
#include <string.h>
#include <unistd.h>
#include <unwind.h>

/* Places by their addresses. */
#define SLOTS 1024
#define LOOKS 16

static struct place {
    uintptr_t address;
    struct fits fits;
} places[SLOTS];

static unsigned slot_of(uintptr_t address) { return (unsigned)((address * 0x9E3779B97F4A7C15u) >> 32) % SLOTS; }

static struct place *place_at(uintptr_t address, bool is_new) {
    for (unsigned look = 0; look < LOOKS; look++) {
        struct place *place = &places[(slot_of(address) + look) % SLOTS];
        if (place->address == address)
            return place;
        if (place->address == 0) {
            if (is_new)
                place->address = address;
            return is_new ? place : NULL;
        }
    }
    return NULL;
}

/* ---- Modules. */

struct sought {
    const char *path;
    uintptr_t base;
};

static int is_sought(struct dl_phdr_info *module, size_t size, void *with) {
    struct sought *sought = with;
    char own[PATH_MAX], path[PATH_MAX];
    const char *name = *module->dlpi_name ? module->dlpi_name : "/proc/self/exe";
    (void)size;
    if (!realpath(name, own) || !realpath(sought->path, path) || strcmp(own, path) != 0)
        return 0;
    sought->base = module->dlpi_addr;
    return 1;
}

/* The plan's file, if there were places in modules that weren't loaded, and how many modules had been loaded when it was read. */
static char plan_path[PATH_MAX];
static bool is_incomplete;
static long first_pauses[MOST_ORDERS];
static unsigned long long loads;
static pthread_mutex_t reading = PTHREAD_MUTEX_INITIALIZER;

static int take_loads(struct dl_phdr_info *module, size_t size, void *with) {
    (void)size;
    *(unsigned long long *)with = module->dlpi_adds;
    return 1;
}

/* Where a place of a module is, 0 if the module isn't loaded. */
static uintptr_t address_of(uintptr_t offset, const char *path) {
    struct sought sought = {path, 0};
    if (dl_iterate_phdr(is_sought, &sought))
        return sought.base + offset;
    is_incomplete = true;
    return 0;
}

/* A line `hold OFFSET MODULE`, `want OFFSET MODULE` or `signal-NUMBER OFFSET MODULE`, with the handler's place, of the order that was named
   last (`timer-NUMBER` of a signal that timers alone send), or `take-NTH OFFSET MODULE`, of the thread. */
static void take_place(const char *line, unsigned order) {
    uintptr_t offset;
    char word[16], path[PATH_MAX];
    int signal;
    unsigned nth;
    if (sscanf(line, "%15s %lx %4095[^\n]", word, &offset, path) != 3)
        return;
    uintptr_t address = address_of(offset, path);
    if (sscanf(word, "take-%u", &nth) == 1) {
        take_point(nth, address);
        return;
    }
    if (address == 0)
        return;
    bool is_by_timer = sscanf(word, "timer-%d", &signal) == 1;
    if (is_by_timer || sscanf(word, "signal-%d", &signal) == 1) {
        take_signal(order, signal, address, is_by_timer);
        return;
    }
    struct place *place = place_at(address, true);
    if (!place)
        return;
    if (strcmp(word, "hold") == 0)
        place->fits.holds |= 1ull << order;
    else
        place->fits.wants |= 1ull << order;
}

/* A line `order NUMBER PAUSE`: of this many milliseconds, if there is one, is the first pause at it. */
static void take_order(const char *line, unsigned order) {
    if (order < MOST_ORDERS)
        sscanf(line, "order %*u %ld", &first_pauses[order]);
}

long first_pause_at(unsigned order) { return first_pauses[order]; }

/* A line of the schedule that names no place: `thread NUMBER..`, `stop ORDER PAUSE` of the point before, or `after POINT POINT PAUSE`. */
static bool take_word(const char *line) {
    unsigned number, before;
    long pause;
    if (strncmp(line, "thread", strlen("thread")) == 0)
        take_thread(line + strlen("thread"));
    else if (sscanf(line, "stop %u %ld", &number, &pause) == 2)
        take_stop(number, pause);
    else if (sscanf(line, "after %u %u %ld", &number, &before, &pause) == 3)
        take_after(number, before, pause);
    else
        return false;
    return true;
}

/* Whether there is a plan with an order. */
bool read_plan(const char *path) {
    FILE *file = fopen(path, "re");
    if (!file)
        return false;
    is_incomplete = false;
    forget_points();
    dl_iterate_phdr(take_loads, &loads);
    if (path != plan_path)
        snprintf(plan_path, sizeof plan_path, "%s", path);
    char line[PATH_MAX + 64];
    unsigned orders = 0;
    while (fgets(line, sizeof line, file)) {
        if (strncmp(line, "order", 5) == 0)
            take_order(line, orders++);
        else if (!take_word(line) && orders > 0 && orders <= MOST_ORDERS)
            take_place(line, orders - 1);
    }
    fclose(file);
    return orders > 0;
}

/* ---- Stacks. */

/* The frames of this library come first, and are none of the program's. */
static _Unwind_Reason_Code take_frame(struct _Unwind_Context *context, void *with) {
    struct stack *stack = with;
    int is_before = 0;
    uintptr_t caller = _Unwind_GetIPInfo(context, &is_before);
    stack->is_in_handler |= is_before != 0;
    if (caller == 0 || stack->depth == MOST_CALLERS)
        return _URC_END_OF_STACK;
    if (stack->depth || caller == stack->callers[0])
        stack->callers[stack->depth++] = caller;
    return _URC_NO_REASON;
}

void look_at_stack(struct stack *stack, uintptr_t caller) {
    stack->depth = 0;
    stack->callers[0] = caller;
    stack->is_whole = true;
    stack->is_in_handler = false;
    _Unwind_Backtrace(take_frame, stack);
    stack->depth += !stack->depth; /* nobody knows who called that */
}

/* The place of a call is its innermost caller, but for wrappers: so any of the callers may be planned. */
static struct fits fits_of(const struct stack *stack) {
    struct fits fits = {0, 0};
    for (int i = 0; i < stack->depth; i++) {
        const struct place *place = place_at(stack->callers[i], false);
        if (!place)
            continue;
        fits.holds |= place->fits.holds;
        fits.wants |= place->fits.wants;
    }
    return fits;
}

int first_planned(const struct stack *stack) {
    int i = 0;
    while (i < stack->depth && !place_at(stack->callers[i], false))
        i++;
    return i < stack->depth ? i : 0;
}

/* ---- Calls. */

/* A stack takes time to look at. Of a caller that fitted no place so often, only each so many-th call is looked at. */
#define CALLERS 4096
#define OFTEN 256
#define SELDOM 16

static struct caller {
    uintptr_t address;
    uint32_t unfit; /* how many of its calls fitted no place */
    bool is_fit;    /* whether one did */
} callers[CALLERS];

static bool is_worth_a_look(struct caller *caller, uintptr_t address) {
    if (caller->address != address)
        *caller = (struct caller){address, 0, false};
    return caller->is_fit || caller->unfit < OFTEN || caller->unfit++ % SELDOM == 0;
}

/* Reads the plan once more if modules have been loaded and it has places in others than there were. The loader's lock is waited for, so this
   thread may hold none. */
void read_plan_again(void) {
    unsigned long long now = 0;
    if (!is_incomplete || !holds_nothing())
        return;
    dl_iterate_phdr(take_loads, &now);
    if (now == loads)
        return;
    real_lock(&reading);
    if (now != loads && read_plan(plan_path))
        memset(callers, 0, sizeof callers);
    real_unlock(&reading);
}

/* The stack of a call with this innermost caller, and the orders that it belongs to. Several threads may write at once what is kept of a
   caller: it only says how often to look. */
struct fits look_at_call(struct stack *stack, uintptr_t address) {
    struct caller *caller = &callers[slot_of(address) * (CALLERS / SLOTS) + (address >> 4) % (CALLERS / SLOTS)];
    if (!is_worth_a_look(caller, address) && !place_at(address, false) && !is_at_point(address)) {
        *stack = (struct stack){.depth = 1, .callers = {address}};
        return (struct fits){0, 0};
    }
    look_at_stack(stack, address);
    struct fits fits = fits_of(stack);
    if (fits.holds || fits.wants)
        caller->is_fit = true;
    else
        caller->unfit++;
    return fits;
}
