/* Short pieces of memory in a program that has more than a few: of each 32 bytes of memory there is a word of 32 bits, which says what is noted of the
   piece that begins there, or is 0. Two pieces of less than 17 bytes may begin there, as those of some mallocs do: the second one is in the table, and so
   are the locks of a piece. The words of each 16 megabytes, an area, are made when they are needed: in a huge page if those of two areas beside it are
   there, since then all of it is used soon, and not at the beginning of each of malloc's arenas. Where there is no room for these, and of addresses
   that no malloc gives out, there is no word. */
#ifndef LOCKDEP_SHORT_H
#define LOCKDEP_SHORT_H
#include "own.h"

/* What a word has: a place, the size, whether the piece begins at the second half of the 32 bytes, and whether the table has locks of it. */
#define PLACE_BITS 21
#define SHORT_SIZE_BITS 9
#define SHORT_PIECE (1 << SHORT_SIZE_BITS) /* bytes: words lie too far apart for longer ones */
#define HALF_BIT 30
#define HAS_MARKS (UINT32_C(1) << 31)

#define ALIGNMENT_BITS 4 /* of what malloc gives out */
#define HALF (1 << ALIGNMENT_BITS) /* bytes: only if two pieces are no longer, both can begin in one word's 32 */
#define GRAIN_BITS 5
#define AREA_BITS 24
#define FIELD_OF_AREAS_BITS 36
#define ADDRESS_BITS 47
#define AREA_BYTES (UINT64_C(1) << AREA_BITS)
#define AREA_WORDS (AREA_BYTES >> GRAIN_BITS)
#define AREAS (UINT64_C(1) << (FIELD_OF_AREAS_BITS - AREA_BITS))
#define FIELDS (UINT64_C(1) << (ADDRESS_BITS - FIELD_OF_AREAS_BITS))

static uint32_t **fields_of_areas[FIELDS] LARGE;
static bool are_short_apart;

static void begin_short(void) { STORE(&are_short_apart, true); }

static inline uint32_t half_of(uintptr_t address) { return (uint32_t)(address >> ALIGNMENT_BITS & 1) << HALF_BIT; }

static inline uint32_t short_from(uintptr_t address, uint64_t size, uint32_t place) {
    return half_of(address) | (uint32_t)size << PLACE_BITS | place;
}
static inline uint64_t short_size(uint32_t word) { return word >> PLACE_BITS & (SHORT_PIECE - 1); }
static inline uint32_t short_place(uint32_t word) { return word & ((UINT32_C(1) << PLACE_BITS) - 1); }

/* Whether it is of a piece that begins at the address, which is one of the word's. */
static inline bool is_short_at(uint32_t word, uintptr_t address) {
    return LIKELY(word) && LIKELY((word & UINT32_C(1) << HALF_BIT) == half_of(address));
}

/* Whether the word's piece and another one at an address of the word share a byte. */
static bool is_short_over(uint32_t word, uintptr_t address, uint64_t size) {
    return is_short_at(word, address) || (half_of(address) ? short_size(word) : size) > HALF;
}

static inline uint32_t *nth_short(uint32_t *area, uintptr_t address) {
    return LIKELY(area) ? &area[address >> GRAIN_BITS & (AREA_WORDS - 1)] : NULL;
}

static inline bool may_be_short(uintptr_t address) { return LIKELY(!(address >> ADDRESS_BITS || address & ((1 << ALIGNMENT_BITS) - 1))); }

/* The word of an address at which a piece may begin, if it was made. */
static inline uint32_t *short_word(uintptr_t address) {
    if (!LOAD(&are_short_apart) || !may_be_short(address))
        return NULL;
    uint32_t **areas = LOAD(&fields_of_areas[address >> FIELD_OF_AREAS_BITS]);
    return areas ? nth_short(LOAD(&areas[address >> AREA_BITS & (AREAS - 1)]), address) : NULL;
}

static void *made_at(void *at, void *made) {
    void *there = NULL;
    return made && SWAP((void **)at, &there, made) ? made : there;
}

static uint32_t *made_words(uintptr_t address) {
    bool is_after_two = short_word(address - AREA_BYTES) && short_word(address - 2 * AREA_BYTES);
    bool is_before_two = short_word(address + AREA_BYTES) && short_word(address + 2 * AREA_BYTES);
    size_t bytes = AREA_WORDS * sizeof(uint32_t);
    return is_after_two || is_before_two ? take_spare(bytes) : take_sparse(bytes);
}

static __attribute__((noinline)) uint32_t *new_short_word(uintptr_t address) {
    if (!may_be_short(address))
        return NULL;
    uint32_t ***field = &fields_of_areas[address >> FIELD_OF_AREAS_BITS], **areas = LOAD(field);
    if (!areas)
        areas = made_at(field, take_private(AREAS * sizeof *areas));
    if (!areas)
        return NULL;
    uint32_t **area = &areas[address >> AREA_BITS & (AREAS - 1)], *words = LOAD(area);
    return nth_short(words ? words : made_at(area, made_words(address)), address);
}

static inline uint32_t *made_short_word(uintptr_t address) {
    uint32_t *word = short_word(address);
    return LIKELY(word || !LOAD(&are_short_apart)) ? word : new_short_word(address);
}

#endif
