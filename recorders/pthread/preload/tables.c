/* Tables that are read and changed without a lock. Each has levels of lines of some slots; a key has one line in each level. A level
   is made when a line of the one before is full. */
#include "own.h"

/* ---- Names: from a number to a number. Nothing is ever taken out, so a line's slots are filled one after the other. A level is made for the
   first few that the one before has no room for. Each of them would use a page of a large one, so one that isn't larger comes in between. */

#define NAMES_WAYS 8
struct names_line { /* of the processor's; after all lines of a level come their values */
    uint64_t keys[NAMES_WAYS];
};

static const uint32_t names_bits[NAMES_LEVELS] = {2, 7, 11, 11, 14, 12, 14, 16, 18}; /* of the number of lines */

static uint64_t line_count(int level) { return UINT64_C(1) << names_bits[level]; }

static uint32_t *values_of(struct names_line *lines, int level) { return (uint32_t *)(lines + line_count(level)); }

static struct names_line *names_level(struct names *names, int level, bool make) {
    struct names_line *lines = LOAD(&names->levels[level]);
    if (lines || !make)
        return lines;
    struct names_line *made = take_sparse_table((sizeof *made + NAMES_WAYS * sizeof(uint32_t)) << names_bits[level]);
    if (made && SWAP(&names->levels[level], &lines, made))
        return made;
    return lines;
}

static uint32_t *find_name(struct names *names, uint64_t key, bool add) {
    uint64_t hash = mixed(key) >> 7;
    for (int level = 0; level < NAMES_LEVELS; level++, hash >>= 4) {
        struct names_line *lines = names_level(names, level, add);
        if (!lines)
            return NULL;
        uint64_t which = hash & (line_count(level) - 1);
        for (int i = 0; i < NAMES_WAYS; i++) {
            uint64_t *at = &lines[which].keys[i], there = LOAD(at);
            if (!there && !add)
                return NULL;
            if ((!there && SWAP(at, &there, key)) || there == key)
                return values_of(lines, level) + which * NAMES_WAYS + i;
        }
    }
    return NULL;
}

uint32_t *name_slot(struct names *names, uint64_t key) { return find_name(names, key | 1, false); }
uint32_t *added_slot(struct names *names, uint64_t key) { return find_name(names, key | 1, true); }

void each_name(struct names *names, void (*visit)(uint32_t *value)) {
    for (int level = 0; level < NAMES_LEVELS && names->levels[level]; level++) {
        uint32_t *values = values_of(names->levels[level], level);
        for (uint64_t i = 0; i < NAMES_WAYS * line_count(level); i++)
            if (LOAD(&values[i]))
                visit(&values[i]);
    }
}

/* ---- Locks: from an address to an object, in one word, so that a slot can be emptied and used again. An address is that of at
   least four bytes, and has 47 bits. Its 39 bits from BLOCK_BITS on are that of a block of memory, which chooses the line; the
   lowest five of them are known by the line, and the slot has the 40 other bits of the address, and an object of 24 bits. */

#define LOCK_WAYS 8 /* the bytes of a line of the processor's */
#define LOCK_LEVELS 5
#define SPREAD (LOCK_LEVELS - 1) /* the level of what the lines of its block had no room for: each eighth of a block has a line there */
#define FEWEST_BITS 5
#define IN_BLOCK_BITS (BLOCK_BITS - 2)
#define BLOCK_MASK ((UINT64_C(1) << (47 - BLOCK_BITS)) - 1)
#define OBJECT_BITS 24

static const uint32_t lock_bits[LOCK_LEVELS] = {FEWEST_BITS, 13, 17, 21, 13};
static uint64_t *lock_levels[LOCK_LEVELS];

/* What the slot has of the address. */
static uint64_t key_of(uintptr_t lock) {
    uint64_t in_block = lock >> 2 & ((UINT64_C(1) << IN_BLOCK_BITS) - 1);
    return (lock >> BLOCK_BITS & BLOCK_MASK) >> FEWEST_BITS << IN_BLOCK_BITS | in_block;
}

/* The address that such a key has in a line: the rest is what has to be added to come to that line. */
static uintptr_t address_of(uint64_t key, int level, uint64_t line) {
    uint64_t block = key >> IN_BLOCK_BITS << FEWEST_BITS;
    uint64_t rest = (line - block_line(block, lock_bits[level])) & ((UINT64_C(1) << FEWEST_BITS) - 1);
    return (block | rest) << BLOCK_BITS | (key & ((UINT64_C(1) << IN_BLOCK_BITS) - 1)) << 2;
}

static uint64_t *lock_level(int level, bool make) {
    uint64_t *slots = LOAD(&lock_levels[level]);
    if (slots || !make)
        return slots;
    uint64_t *made = take_table(sizeof *made * LOCK_WAYS << lock_bits[level]);
    if (made && SWAP(&lock_levels[level], &slots, made))
        return made;
    return slots;
}

/* (The lines of a block's parts differ in what isn't known by the line.) */
static uint64_t *lock_line(uint64_t *slots, int level, uintptr_t lock) {
    uint64_t line = block_line(lock >> BLOCK_BITS & BLOCK_MASK, lock_bits[level]);
    if (UNLIKELY(level == SPREAD))
        line = (line + (own_way(lock) << FEWEST_BITS)) & ((UINT64_C(1) << lock_bits[level]) - 1);
    return &slots[line * LOCK_WAYS];
}

/* No lock has key 0, so an empty slot is of none. */
static inline bool is_of(uint64_t word, uint64_t key) { return word >> OBJECT_BITS == key; }
static inline uint32_t object_in(uint64_t word) { return (uint32_t)(word & ((UINT64_C(1) << OBJECT_BITS) - 1)); }

static int lock_main;
static uint64_t lock_overflows;

static inline uint64_t *find_in_line(uint64_t *line, uintptr_t lock) {
    uint64_t key = key_of(lock), *own = &line[own_way(lock)];
    if (LIKELY(is_of(__atomic_load_n(own, __ATOMIC_RELAXED), key)))
        return own;
    UNROLLED
    for (int i = 0; i < LOCK_WAYS; i++)
        if (is_of(__atomic_load_n(&line[i], __ATOMIC_RELAXED), key))
            return &line[i];
    return NULL;
}

static uint64_t *find_lock(uintptr_t lock) {
    uint64_t *found = NULL;
    int main_level = LOAD(&lock_main);
    for (int n = 0; !found && n < LOCK_LEVELS; n++) {
        int level = nth_level(main_level, n);
        uint64_t *slots = lock_level(level, false);
        found = slots ? find_in_line(lock_line(slots, level, lock), lock) : NULL;
    }
    return found;
}

uint32_t lock_object(uintptr_t lock) {
    uint64_t *slot = find_lock(lock);
    return slot ? object_in(LOAD(slot)) : 0;
}

const uint64_t *lock_slot(uintptr_t lock, uint32_t object, uint64_t *word) {
    const uint64_t *slot = find_lock(lock);
    *word = slot ? LOAD(slot) : 0;
    return slot && object_in(*word) == object ? slot : NULL;
}

static bool fill_in_level(int level, uintptr_t lock, uint64_t word) {
    uint64_t *slots = lock_level(level, true), *line = slots ? lock_line(slots, level, lock) : NULL, empty = 0;
    if (LIKELY(line && SWAP(&line[own_way(lock)], &empty, word)))
        return true;
    for (int i = 0; line && i < LOCK_WAYS; i++) {
        empty = LOAD(&line[i]);
        if (!empty && SWAP(&line[i], &empty, word))
            return true;
    }
    return false;
}

static uint64_t word_with(uintptr_t lock, uint32_t object) { return key_of(lock) << OBJECT_BITS | object; }

static bool fill_lock(uintptr_t lock, uint32_t object) {
    uint64_t word = word_with(lock, object);
    int main_level = LOAD(&lock_main);
    if (LIKELY(fill_in_level(main_level, lock, word)))
        return true;
    if (main_level + 1 < SPREAD && is_crowded(ADD(&lock_overflows, 1), lock_bits[main_level])) {
        STORE(&lock_overflows, 0);
        STORE(&lock_main, main_level + 1);
    }
    for (int level = main_level + 1; level < LOCK_LEVELS; level++)
        if (fill_in_level(level, lock, word))
            return true;
    return false;
}

/* ---- Which parts of the memory have had a lock, in parts of a megabyte. Several parts share a bit. */

#define PART_BITS 20
#define PARTS 4096
static uint64_t parts[PARTS / 64];

static void mark_part(uintptr_t lock) {
    uint64_t part = (lock >> PART_BITS) % PARTS, bit = UINT64_C(1) << part % 64;
    if (!(LOAD(&parts[part / 64]) & bit))
        __atomic_fetch_or(&parts[part / 64], bit, __ATOMIC_ACQ_REL);
}

static bool has_marked_part(uintptr_t from, uintptr_t to) {
    uint64_t last = (to - 1) >> PART_BITS;
    if (last - (from >> PART_BITS) >= PARTS)
        return true;
    for (uint64_t part = from >> PART_BITS; part <= last; part++)
        if (LOAD(&parts[part % PARTS / 64]) >> part % 64 & 1)
            return true;
    return false;
}

/* ---- Putting locks in, and taking them out. */

/* Unless another thread was first. */
uint32_t change_lock(uintptr_t lock, uint32_t before, uint32_t object) {
    uint64_t *slot = find_lock(lock), there = word_with(lock, before);
    return slot && SWAP(slot, &there, word_with(lock, object)) ? object : lock_object(lock);
}

/* Two threads that put the same lock at once may each fill a slot: the first slot counts, and both find that. */
uint32_t add_lock(uintptr_t lock, uint32_t object) {
    mark_part(lock);
    return fill_lock(lock, object) ? lock_object(lock) : 0;
}

/* Unless somebody else emptied it meanwhile. */
static void empty_slot(uint64_t *slot, uint64_t key) {
    uint64_t there = LOAD(slot);
    while (is_of(there, key) && !SWAP(slot, &there, 0))
        continue;
}

static inline void drop_in_line(uint64_t *line, uint64_t key) {
    UNROLLED
    for (int i = 0; i < LOCK_WAYS; i++)
        if (UNLIKELY(is_of(__atomic_load_n(&line[i], __ATOMIC_RELAXED), key)))
            empty_slot(&line[i], key);
}

void drop_lock(uintptr_t lock) {
    uint64_t key = key_of(lock);
    for (int level = 0; level < LOCK_LEVELS; level++) {
        uint64_t *slots = lock_level(level, false);
        if (slots)
            drop_in_line(lock_line(slots, level, lock), key);
    }
}

void end_lock(uintptr_t lock) {
    if (UNLIKELY(is_anything_said))
        forget_words(lock);
    drop_lock(lock);
}

static void drop_in_level(int level, uintptr_t from, uintptr_t to) {
    uint64_t lines = UINT64_C(1) << lock_bits[level];
    for (uint64_t i = 0; i < lines * LOCK_WAYS; i++) {
        uint64_t there = LOAD(&lock_levels[level][i]);
        if (!there)
            continue;
        uintptr_t lock = address_of(there >> OBJECT_BITS, level, i / LOCK_WAYS);
        if (lock >= from && lock < to)
            end_lock(lock);
    }
}

#define FEW_BYTES 65536 /* up to so many are gone through by address, more by what the table has */

void drop_locks_between(uintptr_t from, uintptr_t to) {
    if (from >= to || !has_marked_part(from, to))
        return;
    if (to - from <= FEW_BYTES) {
        for (uintptr_t lock = from & ~(uintptr_t)3; lock < to; lock += 4)
            end_lock(lock);
        return;
    }
    for (int level = 0; level < LOCK_LEVELS; level++)
        if (lock_level(level, false))
            drop_in_level(level, from, to);
}

static void each_in_level(int level, uintptr_t from, uintptr_t to, void (*visit)(uintptr_t lock)) {
    uint64_t lines = UINT64_C(1) << lock_bits[level];
    for (uint64_t i = 0; i < lines * LOCK_WAYS; i++) {
        uint64_t there = LOAD(&lock_levels[level][i]);
        uintptr_t lock = there ? address_of(there >> OBJECT_BITS, level, i / LOCK_WAYS) : 0;
        if (there && lock >= from && lock < to)
            visit(lock);
    }
}

void each_lock_between(uintptr_t from, uintptr_t to, void (*visit)(uintptr_t lock)) {
    if (from >= to || !has_marked_part(from, to))
        return;
    bool is_few = to - from <= FEW_BYTES;
    for (uintptr_t lock = from & ~(uintptr_t)3; is_few && lock < to; lock += 4)
        if (lock_object(lock))
            visit(lock);
    for (int level = 0; !is_few && level < LOCK_LEVELS; level++)
        if (lock_level(level, false))
            each_in_level(level, from, to, visit);
}
