/* How often locks that processes share were initialised. One that is initialised again is another lock from then on, for whoever takes it. So
   the processes of a recording count that together, in a table in a file of its folder, which each of them maps when it first maps memory that
   it shares. Where that can't be had, as below another root, generations aren't known. */
#include "own.h"

#define FILE_NAME "generations"
#define SLOTS 65536
#define PROBES 64 /* slots, from the one of the lock's own on */

struct slot {
    uint64_t key; /* 0: of none. It is never taken out. */
    uint32_t count, unused;
};

static struct slot *slots;
static uint32_t is_missing; /* the table can't be had */

void begin_generations(void) {
    struct slot *none = NULL;
    if (LOAD(&slots) || LOAD(&is_missing))
        return;
    struct slot *mapped = map_common(FILE_NAME, SLOTS * sizeof *mapped);
    if (!mapped)
        STORE(&is_missing, 1);
    else if (!SWAP(&slots, &none, mapped))
        unmap_own(mapped, SLOTS * sizeof *mapped); /* another thread was first */
}

/* What the lock is for all processes of the recording. Memory without a file is known by the number that it has in this process's file, in which
   those processes go on that inherit it. */
static uint64_t key_of(uint32_t number, uint64_t offset) {
    const struct raw_file *file = part_of(RAW_FILES, number);
    const struct raw_process *first = part_of(RAW_PROCESSES, 1);
    uint64_t device = file->place ? arena->started : file->device;
    uint64_t inode = file->place ? (uint64_t)first->id << 32 | number : file->inode;
    return mixed(mixed(mixed(device) ^ inode) ^ offset) | 1;
}

/* The slot of a key, or the empty one where it isn't yet; NULL: no room. */
static struct slot *slot_of(struct slot *from, uint64_t key) {
    for (uint64_t i = 0; i < PROBES; i++) {
        struct slot *slot = &from[(mixed(key) + i) % SLOTS];
        uint64_t there = LOAD(&slot->key);
        if (there == key || !there)
            return slot;
    }
    return NULL;
}

static struct slot *added_slot_of(struct slot *from, uint64_t key) {
    for (;;) {
        struct slot *slot = slot_of(from, key);
        uint64_t none = 0;
        if (!slot || LOAD(&slot->key) == key || SWAP(&slot->key, &none, key) || none == key)
            return slot;
    }
}

uint32_t generation_of(uint32_t file, uint64_t offset) {
    struct slot *from = LOAD(&slots);
    uint64_t key = key_of(file, offset);
    const struct slot *slot = from ? slot_of(from, key) : NULL;
    if (!slot)
        return 0;
    return LOAD(&slot->key) == key ? 1 + LOAD(&slot->count) : 1;
}

uint32_t next_generation(uint32_t file, uint64_t offset) {
    struct slot *from = LOAD(&slots), *slot = from ? added_slot_of(from, key_of(file, offset)) : NULL;
    uint32_t count = slot ? LOAD(&slot->count) : 0;
    while (slot && count + 1 < RAW_GENERATIONS && !SWAP(&slot->count, &count, count + 1))
        continue;
    return slot ? generation_of(file, offset) : 0;
}
