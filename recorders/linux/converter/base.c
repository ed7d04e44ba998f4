/* What went wrong, and what is counted. */
#define _GNU_SOURCE
#include "converter.h"

#include <stdarg.h>

struct options options = {.folder = "traces", .version = 2, .keys = DEFAULT_KEYS, .most_traces = MAX_TRACES};

struct counts counts;

struct reason reasons[MAX_REASONS];
int reason_count;

__attribute__((format(printf, 2, 3))) void incomplete(const char *code, const char *format, ...) {
    va_list words;
    if (reason_count == MAX_REASONS)
        return;
    struct reason *reason = &reasons[reason_count++];
    reason->code = code;
    va_start(words, format);
    vsnprintf(reason->text, sizeof reason->text, format, words);
    va_end(words);
}

_Noreturn void refuse(const char *what, const char *why) {
    fprintf(stderr, "convert: %s: %s\n", what, why);
    exit(2);
}

void *checked(void *memory) {
    if (!memory)
        refuse("memory", "there is none left");
    return memory;
}

/* What is small isn't mixed with what is small: two such pairs may have one sum. */
uint64_t mix(uint64_t sum, uint64_t word) {
    sum = ((sum ^ word) + UINT64_C(0xd1b54a32d192ed03)) * UINT64_C(0x9e3779b97f4a7c15);
    return sum ^ sum >> 29;
}
