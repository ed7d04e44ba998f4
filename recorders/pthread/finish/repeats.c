/* Traces that say the same. A run of `check` takes 4,096 traces, and a server may start more threads than that. If there are more, each
   trace is written twice at most: a second one shows that more than one thread did it, and of further ones only their number is new. */
#include "finish.h"

#include <string.h>

#define MAX_TRACES 4096
#define ALIKE 2

static struct known {
    struct content content;
    uint32_t times, trace; /* the last one that is written */
    size_t stand_in;       /* where that is in the list, if it stands for others */
} *contents;
static uint64_t room; /* a power of two; 0 if all traces are written */

/* Traces that stand for others. */
static struct stand_in {
    uint32_t trace, others;
} *stand_ins;
static size_t stand_in_count;

void expect_traces(uint64_t count) {
    if (count <= MAX_TRACES)
        return;
    for (room = 1; room < 2 * count; room *= 2)
        continue;
    contents = checked(calloc(room, sizeof *contents));
}

static uint64_t mixed(uint64_t x) {
    x = (x ^ x >> 31) * UINT64_C(0x9e3779b97f4a7c15);
    return x ^ x >> 29;
}

void add_content(struct content *content, uint64_t what) {
    content->sums[0] = mixed(content->sums[0] ^ mixed(what + 1));
    content->sums[1] = mixed(content->sums[1] + 3 * mixed(what + 2));
}

static struct known *entry_of(const struct content *content) {
    uint64_t i = content->sums[0] & (room - 1);
    while (contents[i].times && memcmp(&contents[i].content, content, sizeof *content) != 0)
        i = (i + 1) & (room - 1);
    contents[i].content = *content;
    return &contents[i];
}

static void count_other(struct known *known) {
    if (known->times == ALIKE) {
        struct stand_in new = {known->trace, 0};
        known->stand_in = stand_in_count;
        PUSH(stand_ins, stand_in_count, new);
    }
    stand_ins[known->stand_in].others++;
}

bool is_duplicate(const struct content *content, uint32_t trace) {
    if (!room)
        return false;
    struct known *known = entry_of(content);
    bool is_more = known->times >= ALIKE;
    if (is_more)
        count_other(known);
    else
        known->trace = trace;
    known->times++;
    return is_more;
}

bool stands_for_others(uint32_t trace) {
    for (size_t i = 0; i < stand_in_count; i++)
        if (stand_ins[i].trace == trace)
            return true;
    return false;
}

void write_stand_ins(FILE *file) {
    fputs(",\"stand_ins\":[", file);
    for (size_t i = 0; i < stand_in_count; i++)
        fprintf(file, "%s[\"task-%04u\",%u]", i ? "," : "", stand_ins[i].trace, stand_ins[i].others);
    putc(']', file);
}
