/* Which thread started and joined which, in an order in which it happened: what keeps threads apart. The system gives a thread's number to
   another one later, so which thread had it at a time is found by the starts and joins before. Where that isn't certain, nothing is said. */
#include "finish.h"

#include <string.h>

/* A start or a join by its number, and for each start the one before it of the same pthread_t. */
struct life {
    uint32_t before; /* 0 if there is none */
    uint32_t until;  /* when the calls of all those before had returned */
    uint32_t joined; /* by which join; 0 if none */
    uint32_t by, of; /* the threads of this, each as the number of its start, or as one of those below */
    uint32_t trace;  /* of the thread, or SEVERAL if it isn't of this one alone; 0 if it has none */
};

#define UNKNOWN 0
#define SEVERAL UINT32_MAX

/* A pthread_t of a process, with its last start, and the number of a thread that had it before all of these. */
struct number {
    uint32_t process, start, first;
    uint64_t thread;
};

/* What is worked on: an arena, and all of its numbers in a table with room for a power of two. */
static struct arena *arena;
static struct life *lives;
static uint32_t life_count, all_count; /* starts and joins, and threads that weren't seen to be started, which are numbered after them */
static struct number *numbers;
static uint64_t number_room;
static uint32_t *owners; /* of the recorded threads: which thread each is, or UNKNOWN */

static const struct raw_life *raw_of(uint32_t life) { return part_of(arena, RAW_LIVES, life); }

static struct number *number_of(uint32_t process, uint64_t thread) {
    uint64_t i = ((thread >> 6 ^ process) * UINT64_C(0x9e3779b97f4a7c15) >> 20) & (number_room - 1);
    while (numbers[i].process && (numbers[i].process != process || numbers[i].thread != thread))
        i = (i + 1) & (number_room - 1);
    numbers[i].process = process;
    numbers[i].thread = thread;
    return &numbers[i];
}

/* A start that was under way while a thread of the same number was started, or before the last one of it was joined, may be of either. */
static bool is_certain(uint32_t start, uint64_t at) {
    const struct life *l = &lives[start], *before = &lives[l->before];
    bool is_after = !l->before || (before->joined && before->joined < start);
    return l->until <= start && (is_after || raw_of(start)->known <= at);
}

/* The thread that had a number when there were so many starts and joins. */
static uint32_t thread_at(uint32_t process, uint64_t thread, uint64_t at) {
    struct number *n = number_of(process, thread);
    uint32_t start = n->start;
    while (start > at)
        start = lives[start].before;
    if (!start) {
        n->first = n->first ? n->first : ++all_count;
        return n->first;
    }
    bool is_over = lives[start].joined && lives[start].joined <= at;
    return !is_over && is_certain(start, at) ? start : UNKNOWN;
}

static void take_start(uint32_t number, const struct raw_life *raw) {
    struct number *n = number_of(raw->process, raw->thread);
    struct life *l = &lives[number], *before = &lives[n->start];
    uint64_t known = n->start ? raw_of(n->start)->known : 0;
    l->before = n->start;
    l->until = known > before->until ? (uint32_t)known : before->until;
    l->of = n->start = number;
}

/* Of a thread that wasn't seen to be started nothing is noted: another one that wasn't may have its number later. */
static void take_join(uint32_t number, const struct raw_life *raw) {
    uint32_t thread = thread_at(raw->process, raw->thread, raw->known);
    if (thread == UNKNOWN || thread > life_count)
        return;
    lives[number].of = thread;
    lives[thread].joined = number;
}

static void take_life(uint32_t number) {
    const struct raw_life *raw = raw_of(number);
    struct life *l = &lives[number];
    if (raw->kind == LIFE_NONE)
        return;
    l->by = thread_at(raw->process, raw->by, number);
    if (raw->kind == LIFE_START)
        take_start(number, raw);
    else
        take_join(number, raw);
}

/* ---- Traces, each when the starts and joins before it are taken. */

static const struct raw_thread *thread_numbered(uint32_t n) { return part_of(arena, RAW_THREADS, n); }

static int by_known(const void *a, const void *b) {
    uint32_t x = thread_numbered(*(const uint32_t *)a)->known, y = thread_numbered(*(const uint32_t *)b)->known;
    return x < y ? -1 : x > y;
}

static void take_trace(uint32_t n) {
    const struct raw_thread *t = thread_numbered(n);
    uint32_t trace = t->source ? 0 : arena->traces[n], thread = trace && t->process ? thread_at(t->process, t->self, t->known) : UNKNOWN;
    owners[n] = thread;
    if (thread)
        lives[thread].trace = lives[thread].trace || stands_for_others(trace) ? SEVERAL : trace;
}

static void take_all(void) {
    uint32_t count = count_of(arena, RAW_THREADS), taken = 0, *order = checked(calloc(count + 1, sizeof *order));
    for (uint32_t n = 0; n < count; n++)
        order[n] = n + 1;
    qsort(order, count, sizeof *order, by_known);
    for (uint32_t number = 1; number <= life_count + 1; number++) {
        for (; taken < count && thread_numbered(order[taken])->known < number; taken++)
            take_trace(order[taken]);
        if (number <= life_count)
            take_life(number);
    }
    free(order);
}

/* ---- The file. */

/* A thread is called as its trace, and one without a trace by a number of its own. */
static void tell_thread(FILE *file, uint32_t thread, uint64_t before) {
    uint32_t trace = lives[thread].trace;
    if (thread == UNKNOWN)
        fputs("unknown", file);
    else if (trace && trace != SEVERAL)
        fprintf(file, "task-%04u", trace);
    else
        fprintf(file, "other-%lu", (unsigned long)(before + thread));
}

static const char *const verbs[] = {[LIFE_START] = " starts ", [LIFE_JOIN] = " joins ", [LIFE_REAP] = " reaps "};

/* That a thread was started is said also if it isn't certain by which. */
static bool is_told(uint32_t number) {
    const struct life *l = &lives[number];
    return l->of && (l->by || raw_of(number)->kind == LIFE_START);
}

/* Ends the line with how the thread was started that has the number of this start or join. */
static void end_line(FILE *file, uint32_t number) {
    bool is_start = number && number <= life_count && raw_of(number)->kind == LIFE_START;
    uint32_t way = is_start ? way_of_start(arena, raw_of(number)->class) : 0;
    if (way)
        fprintf(file, " %u", way);
    putc('\n', file);
}

static void write_life(FILE *file, uint32_t number, uint64_t before) {
    tell_thread(file, lives[number].by, before);
    fputs(verbs[raw_of(number)->kind], file);
    tell_thread(file, lives[number].of, before);
    end_line(file, number);
}

/* Whether it is told of a thread with a trace that it was started; nobody has started the one that a process began with. */
static bool is_start_told(uint32_t n, uint32_t trace) {
    const struct raw_thread *t = thread_numbered(n);
    const struct raw_process *process = part_of(arena, RAW_PROCESSES, t->process);
    bool is_first = process && process->first == t->self, is_seen = owners[n] && owners[n] <= life_count && lives[owners[n]].trace == trace;
    return is_first || is_seen;
}

/* The other threads with a trace, so that each has a line. When they were started isn't known: these lines come first. */
static void write_other_starts(FILE *file) {
    for (uint32_t n = 1; n <= count_of(arena, RAW_THREADS); n++) {
        uint32_t trace = thread_numbered(n)->source ? 0 : arena->traces[n];
        if (!trace || is_start_told(n, trace))
            continue;
        fprintf(file, "unknown starts task-%04u", trace);
        end_line(file, owners[n]);
    }
}

static void begin_arena(struct arena *a) {
    arena = a;
    life_count = all_count = count_of(a, RAW_LIVES);
    uint64_t most = 3 * (uint64_t)life_count + count_of(a, RAW_THREADS) + 1;
    for (number_room = 1; number_room < 2 * most;)
        number_room *= 2;
    lives = checked(calloc(most, sizeof *lives));
    numbers = checked(calloc(number_room, sizeof *numbers));
    owners = checked(calloc(count_of(a, RAW_THREADS) + 1, sizeof *owners));
}

static void write_lives_of(FILE *file, struct arena *a, uint64_t before) {
    begin_arena(a);
    take_all();
    write_other_starts(file);
    for (uint32_t number = 1; number <= life_count; number++)
        if (is_told(number))
            write_life(file, number, before);
    free(lives);
    free(numbers);
    free(owners);
}

static bool have_room(void) {
    for (size_t i = 0; i < arena_count; i++)
        if (arenas[i].raw->regions[RAW_LIVES].refused)
            return false;
    return true;
}

/* An empty file says that no thread was started, and none that this isn't known: there was no room for all starts and joins. */
void write_lives(const char *folder) {
    char path[4300];
    uint64_t before = 0;
    snprintf(path, sizeof path, "%s/lives", folder);
    FILE *file = have_room() ? created(path) : NULL;
    for (size_t i = 0; file && i < arena_count; i++) {
        write_lives_of(file, &arenas[i], before);
        before += all_count;
    }
    if (file)
        closed(file, path);
}
