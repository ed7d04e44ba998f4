/* The recorder's own table of locks, beside a plain list: 60,000 locks in a few regions of the memory, in which ranges are forgotten.
   Writes how many lookups were wrong. */
#include "../preload/tables.c"

#include <stdio.h>
#include <stdlib.h>

#define LOCKS 60000
#define REGIONS 7

static uintptr_t addresses[LOCKS];
static bool is_known[LOCKS];

void *take_table(size_t bytes) { return calloc(1, bytes); }
void *take_sparse_table(size_t bytes) { return take_table(bytes); }

/* Nothing is said of these locks. */
uint32_t is_anything_said;
void forget_words(uintptr_t lock) { (void)lock; }

static uint64_t random_number(void) {
    static uint64_t state = 88172645463325252u;
    state ^= state << 13;
    state ^= state >> 7;
    state ^= state << 17;
    return state;
}

/* Each lock has 64 bytes of its own, one after the other or anywhere in a region, so no address comes twice. */
static void choose_addresses(void) {
    for (uint32_t i = 0; i < LOCKS; i++) {
        uintptr_t region = UINT64_C(0x7f0000000000) / REGIONS * (i % REGIONS) + 0x10000;
        uintptr_t at = i % 2 ? (uintptr_t)i * 64 : (uintptr_t)i * 4096;
        addresses[i] = region + (i % 2 ? 0 : UINT64_C(1) << 32) + at + random_number() % 8 * 4;
    }
}

static uint32_t count_wrong(void) {
    uint32_t wrong = 0;
    for (uint32_t i = 0; i < LOCKS; i++)
        wrong += lock_object(addresses[i]) != (is_known[i] ? i + 1 : 0);
    return wrong;
}

static void forget(uintptr_t from, uintptr_t to) {
    for (uint32_t i = 0; i < LOCKS; i++)
        is_known[i] &= addresses[i] < from || addresses[i] >= to;
    drop_locks_between(from, to);
}

int main(void) {
    uint32_t wrong = 0;
    choose_addresses();
    for (uint32_t i = 0; i < LOCKS; i++) {
        wrong += add_lock(addresses[i], i + 1) != i + 1;
        is_known[i] = true;
    }
    wrong += count_wrong();
    for (int round = 0; round < 60; round++) {
        uintptr_t from = addresses[random_number() % LOCKS] - random_number() % 100;
        forget(from, from + (round % 2 ? random_number() % 60000 : 70000 + random_number() % 1000000));
        wrong += round % 10 == 9 ? count_wrong() : 0;
    }
    uint32_t left = 0;
    for (uint32_t i = 0; i < LOCKS; i++)
        left += is_known[i];
    printf("%u wrong, %s forgotten\n", wrong, left > 0 && left < LOCKS ? "some" : "none or all");
    return wrong != 0;
}
