/* Memory: for each live piece that malloc and its like have given out, and that has room for a lock, where that was and how long
   it is. The operators `new` of C++ call malloc, so their callers are among the callers of that.

   Pieces are kept by address, in lines of some slots, in levels of which each has more lines than the one before. Of a program that
   has many, short ones are kept in words of short.h instead. What finds the callers is compiled here too: calls from file to file would add a
   twentieth to what each malloc takes. */
#include "held.h"
#include "places.h"
#include "short.h"

#include <errno.h>
#include <malloc.h>
#include <stdlib.h>
#include <string.h>

#define LEAST_LOCK 4 /* the bytes of a spin lock */

/* ---- The table. */

#define WAYS 8
#define LEVELS 6

struct slot {
    uint64_t address; /* 0: empty; 1: about to be filled */
    uint64_t about;
};

static const uint32_t bits[LEVELS] = {3, 9, 13, 17, 20, 23}; /* of the number of lines */
static struct slot *levels[LEVELS];
static int main_level_of_pieces;
static uint64_t overflows;

/* What is noted of a piece: its place, the locks that are known in it, and its size. Of one lock that isn't far in, it is one more than
   a fourth of its offset; of others it is SOME_LOCKS. */
#define LOCKS_BITS 8
#define SIZE_SHIFT (PLACE_BITS + LOCKS_BITS)
#define SOME_LOCKS ((UINT64_C(1) << LOCKS_BITS) - 1)
#define ALL_LOCKS (SOME_LOCKS << PLACE_BITS)

static uint64_t locks_of(uint64_t about) { return about >> PLACE_BITS & SOME_LOCKS; }
static inline uint32_t place_in_about(uint64_t about) { return (uint32_t)(about & ((UINT64_C(1) << PLACE_BITS) - 1)); }

static struct slot *level_at(int level) {
    struct slot *slots = LOAD(&levels[level]);
    if (LIKELY(slots))
        return slots;
    struct slot *made = take_table(sizeof *made * WAYS << bits[level]);
    return made && SWAP(&levels[level], &slots, made) ? made : slots;
}

static inline struct slot *line_of(struct slot *slots, int level, uintptr_t address) {
    return &slots[block_line(address >> BLOCK_BITS, bits[level]) * WAYS];
}

/* An empty slot of the line, or NULL; it is taken. The piece's own one is taken without a look at it: if nothing was ever written
   to its page, what is read first would have that made twice. */
static inline struct slot *taken_slot(struct slot *line, uintptr_t address) {
    struct slot *own = &line[own_way(address)];
    uint64_t empty = 0;
    if (LIKELY(SWAP(&own->address, &empty, 1)))
        return own;
    for (int i = 0; i < WAYS; i++) {
        empty = __atomic_load_n(&line[i].address, __ATOMIC_RELAXED);
        if (!empty && SWAP(&line[i].address, &empty, 1))
            return &line[i];
    }
    return NULL;
}

static bool put_in_level(int level, uintptr_t address, uint64_t about) {
    struct slot *slots = level_at(level);
    struct slot *slot = slots ? taken_slot(line_of(slots, level, address), address) : NULL;
    if (!slot)
        return false;
    __atomic_store_n(&slot->about, about, __ATOMIC_RELAXED);
    STORE(&slot->address, address);
    return true;
}

/* From this level on short pieces are kept apart. */
#define MANY_LEVEL 1

/* ... of a piece whose line is full in the main level. */
static __attribute__((noinline)) void put_in_next_level(int level, uintptr_t address, uint64_t about) {
    if (level + 1 < LEVELS && is_crowded(ADD(&overflows, 1), bits[level])) {
        STORE(&overflows, 0);
        STORE(&main_level_of_pieces, level + 1);
        if (level + 1 == MANY_LEVEL)
            begin_short();
    }
    while (++level < LEVELS)
        if (put_in_level(level, address, about))
            return;
    ADD(&arena->unknown, 1);
}

static inline void put_piece(uintptr_t address, uint64_t about) {
    int level = LOAD(&main_level_of_pieces);
    if (UNLIKELY(!put_in_level(level, address, about)))
        put_in_next_level(level, address, about);
}

/* Where a search goes on: in which level, as they are gone through, and in its line. */
struct search {
    int main_level, n, way;
};

static struct search new_search(void) { return (struct search){LOAD(&main_level_of_pieces), 0, 0}; }

/* The next slot of a key; there may be several. */
static struct slot *next_slot(uint64_t key, struct search *search) {
    for (; search->n < LEVELS; search->n++, search->way = 0) {
        int level = nth_level(search->main_level, search->n);
        struct slot *slots = LOAD(&levels[level]);
        struct slot *line = slots ? line_of(slots, level, key) : NULL;
        while (line && search->way < WAYS) {
            struct slot *slot = &line[search->way++];
            if (__atomic_load_n(&slot->address, __ATOMIC_RELAXED) == key)
                return slot;
        }
    }
    return NULL;
}

static inline struct slot *find_in_line(struct slot *line, uintptr_t address) {
    struct slot *own = &line[own_way(address)];
    if (LIKELY(__atomic_load_n(&own->address, __ATOMIC_RELAXED) == address))
        return own;
    UNROLLED
    for (int i = 0; i < WAYS; i++)
        if (__atomic_load_n(&line[i].address, __ATOMIC_RELAXED) == address)
            return &line[i];
    return NULL;
}

static struct slot *find_slot(uintptr_t address) {
    struct slot *found = NULL;
    int main_level = LOAD(&main_level_of_pieces);
    for (int n = 0; !found && n < LEVELS; n++) {
        int level = nth_level(main_level, n);
        struct slot *slots = LOAD(&levels[level]);
        found = slots ? find_in_line(line_of(slots, level, address), address) : NULL;
    }
    return found;
}

/* ---- Long pieces are also known by what they touch of the memory as it is cut into parts of their own size, rounded down to a
   power of two: that is one to three parts. */

#define LONG_BITS 12
#define LONG_PIECE (UINT64_C(1) << LONG_BITS)
#define MOST_BITS 35 /* of a size that is noted: 64 less what else is noted with it */

static uint64_t part_key(int size_bits, uint64_t part) { return UINT64_C(1) << 63 | (uint64_t)size_bits << 56 | part << BLOCK_BITS; }

static int bits_of(uint64_t size) { return 63 - __builtin_clzll(size); }

static __attribute__((noinline)) void put_parts(uintptr_t start, uint64_t size) {
    int size_bits = bits_of(size);
    for (uint64_t part = start >> size_bits; part <= (start + size - 1) >> size_bits; part++)
        put_piece(part_key(size_bits, part), start);
}

static void take_part_out(uint64_t key, uintptr_t start) {
    struct search search = new_search();
    for (struct slot *slot; (slot = next_slot(key, &search));)
        if (LOAD(&slot->about) == start) {
            STORE(&slot->address, 0);
            return;
        }
}

static void take_parts_out(uintptr_t start, uint64_t size) {
    int size_bits = bits_of(size);
    for (uint64_t part = start >> size_bits; part <= (start + size - 1) >> size_bits; part++)
        take_part_out(part_key(size_bits, part), start);
}

/* ---- Pieces that come and go. */

static inline bool is_noted_size(size_t size) { return LIKELY(size - LEAST_LOCK < (UINT64_C(1) << MOST_BITS) - LEAST_LOCK); }

static inline uint64_t short_about(uint32_t word) { return short_size(word) << SIZE_SHIFT | short_place(word); }

/* The locks that the table has of a short piece, which are taken out. */
static __attribute__((noinline)) uint64_t taken_marks(uintptr_t address) {
    uint64_t all = ALL_LOCKS, about = 0;
    for (struct slot *slot; all == ALL_LOCKS && (slot = find_slot(address)); STORE(&slot->address, 0)) {
        about |= LOAD(&slot->about);
        all = about & ALL_LOCKS;
    }
    return about & ALL_LOCKS;
}

/* A word that an earlier piece left, whose end wasn't seen, says nothing any more. Whether the word is free then: else it is of another piece. */
static __attribute__((noinline)) bool is_left_behind(uint32_t *at, uintptr_t address, uint64_t size) {
    uint32_t word = LOAD(at);
    if (!word || !is_short_over(word, address, size))
        return !word;
    if (word & HAS_MARKS)
        taken_marks(is_short_at(word, address) ? address : address ^ HALF);
    STORE(at, 0);
    return true;
}

static inline void put_long(uintptr_t address, uint64_t about) {
    uint32_t *word = short_word(address);
    if (UNLIKELY(word && LOAD(word)))
        is_left_behind(word, address, about >> SIZE_SHIFT);
    put_piece(address, about);
    if (UNLIKELY(about >> SIZE_SHIFT >= LONG_PIECE))
        put_parts(address, about >> SIZE_SHIFT);
}

/* Whether the word is this piece's now, and not one's that another thread has got beside it. */
static inline bool put_short(uint32_t *at, uintptr_t address, uint64_t size, uint32_t place) {
    uint32_t none = 0, word = short_from(address, size, place);
    if (UNLIKELY(LOAD(at)) && !is_left_behind(at, address, size))
        return false;
    if (size <= HALF)
        return SWAP(at, &none, word);
    STORE(at, word);
    return true;
}

static inline void put_anywhere(uintptr_t address, uint64_t about) {
    uint32_t *word = about >> SIZE_SHIFT < SHORT_PIECE ? made_short_word(address) : NULL;
    if (UNLIKELY(!word || !put_short(word, address, about >> SIZE_SHIFT, place_in_about(about))))
        put_long(address, about);
}

/* A piece in a word, by which it is seen whether it has ended: its address, and some of what is noted of it but for locks. */
#define MARK_BITS 16
static inline uint64_t mark_of(uintptr_t address, uint64_t about) {
    return (uint64_t)address << MARK_BITS | mixed(about & ~ALL_LOCKS) >> (64 - MARK_BITS);
}

static inline void put_from(void *piece, size_t size, uint32_t place) {
    put_anywhere((uintptr_t)piece, (uint64_t)size << SIZE_SHIFT | place);
}

static inline void put_noted(void *piece, size_t size, const struct asked *asked) {
    uint32_t place = place_of_piece(asked);
    put_from(piece, size, place);
    if (UNLIKELY(asked->mark))
        __atomic_store_n(asked->mark, mark_of((uintptr_t)piece, (uint64_t)size << SIZE_SHIFT | place), __ATOMIC_RELAXED);
}

static __attribute__((noinline)) uint64_t taken_from_slot(uintptr_t address) {
    struct slot *slot = find_slot(address);
    if (!slot)
        return 0;
    uint64_t about = LOAD(&slot->about);
    STORE(&slot->address, 0);
    if (UNLIKELY(about >> SIZE_SHIFT >= LONG_PIECE))
        take_parts_out(address, about >> SIZE_SHIFT);
    return about;
}

/* What was known of a piece, which is taken out; 0 if nothing was. */
static inline uint64_t taken_piece(uintptr_t address) {
    uint32_t *at = short_word(address), word = at ? LOAD(at) : 0;
    if (UNLIKELY(!is_short_at(word, address)))
        return taken_from_slot(address);
    STORE(at, 0);
    return UNLIKELY(word & HAS_MARKS) ? short_about(word) | taken_marks(address) : short_about(word);
}

/* What is noted of a piece, but for the locks of a short one; 0 if nothing is. */
static uint64_t noted_of(uintptr_t address) {
    const uint32_t *at = short_word(address);
    uint32_t word = at ? LOAD(at) : 0;
    const struct slot *slot = is_short_at(word, address) ? NULL : find_slot(address);
    return slot ? LOAD(&slot->about) : is_short_at(word, address) ? short_about(word) : 0;
}

bool has_ended(uint64_t mark) {
    uint64_t about = noted_of(mark >> MARK_BITS);
    return !about || mark_of(mark >> MARK_BITS, about) != mark;
}

void note_piece(void *piece, size_t size, uint64_t element, struct call call) {
    if (!is_noted_size(size))
        return;
    uint64_t key = key_of_call(call, size, element);
    uint32_t place = key ? place_of_plain(key) : 0;
    if (LIKELY(place)) {
        put_from(piece, size, place);
        return;
    }
    struct asked asked;
    ask_for_piece(&asked, call, size, element, key);
    put_noted(piece, size, &asked);
}

/* A piece that ends where it was told to. */
void drop_piece(uintptr_t address, size_t size) {
    uint64_t about = noted_of(address);
    if (about && about >> SIZE_SHIFT <= size)
        taken_piece(address);
}

static void forget_locks(uintptr_t address, uint64_t about) {
    uint64_t locks = locks_of(about);
    if (locks == SOME_LOCKS)
        drop_locks_between(address, address + (about >> SIZE_SHIFT));
    else if (locks)
        end_lock(address + (locks - 1) * 4);
}

/* What the thread holds of the locks in memory that it gives back, from `kept` bytes on. */
static void end_holds(uintptr_t address, size_t kept, uint64_t about, uintptr_t caller) {
    if (locks_of(about) && is_any_held() && kept < about >> SIZE_SHIFT)
        given_back(address + kept, address + (about >> SIZE_SHIFT), caller);
}

__attribute__((noinline)) static void end_locks(uintptr_t address, uint64_t about, uintptr_t caller) {
    forget_locks(address, about);
    end_holds(address, 0, about, caller);
}

/* ---- The piece of a lock. */

#define ALIGNMENT 16

/* A piece in which a lock is: where it begins, and what is noted of it. */
struct piece {
    uintptr_t from;
    uint64_t about;
};

static bool is_piece_at(uintptr_t start, uintptr_t lock, struct piece *piece) {
    *piece = (struct piece){start, start <= lock ? noted_of(start) : 0};
    return lock - start < piece->about >> SIZE_SHIFT;
}

static bool is_in_long_piece(uint64_t key, uintptr_t lock, struct piece *piece) {
    struct search search = new_search();
    for (struct slot *part; (part = next_slot(key, &search));)
        if (is_piece_at(LOAD(&part->about), lock, piece))
            return true;
    return false;
}

/* A short piece is found by going back from the lock through all addresses at which one can begin. */
static bool find_piece_around(uintptr_t lock, struct piece *piece) {
    uintptr_t last = lock & ~(uintptr_t)(ALIGNMENT - 1);
    bool is_found = false;
    for (uintptr_t back = 0; !is_found && back < LONG_PIECE && back <= last; back += ALIGNMENT)
        is_found = is_piece_at(last - back, lock, piece);
    for (int size_bits = LONG_BITS; !is_found && size_bits < MOST_BITS; size_bits++)
        is_found = is_in_long_piece(part_key(size_bits, lock >> size_bits), lock, piece);
    return is_found;
}

/* What is noted of the locks of a piece, with one more. */
static void mark_slot(struct slot *slot, uint64_t own) {
    uint64_t about = LOAD(&slot->about), mark, new;
    do {
        mark = locks_of(about) && locks_of(about) != own ? SOME_LOCKS : own;
        new = (about & ~ALL_LOCKS) | mark << PLACE_BITS;
    } while (about != new && !SWAP(&slot->about, &about, new));
}

/* Two threads that find the first lock of a short piece at once both put it in the table: the later one makes that SOME_LOCKS, of which all are taken out. */
static void put_marks(uint32_t *word, const struct piece *piece, uint64_t own) {
    struct search search = new_search();
    put_piece(piece->from, piece->about | own << PLACE_BITS);
    if (__atomic_fetch_or(word, HAS_MARKS, __ATOMIC_ACQ_REL) & HAS_MARKS)
        for (struct slot *slot; (slot = next_slot(piece->from, &search));)
            mark_slot(slot, SOME_LOCKS);
}

/* Notes in the table that the piece has a lock so far in. */
static void mark_lock(const struct piece *piece, uint64_t offset) {
    uint32_t *at = short_word(piece->from), word = at ? LOAD(at) : 0;
    uint64_t own = offset / 4 + 1 < SOME_LOCKS ? offset / 4 + 1 : SOME_LOCKS;
    bool is_first = is_short_at(word, piece->from) && !(word & HAS_MARKS);
    struct slot *slot = is_first ? NULL : find_slot(piece->from);
    if (is_first)
        put_marks(at, piece, own);
    else if (slot)
        mark_slot(slot, own);
}

/* Of memory that a program maps itself only the beginning is known by that: further on its own allocator gives out what it likes. */
#define KNOWN_OF_MAPPED 4096

/* Whether the lock is in a piece that is known, and where that was allocated. The piece is marked as one with locks. */
bool find_memory(uintptr_t lock, struct memory *memory) {
    struct piece piece;
    *memory = (struct memory){0, 0, 0};
    if (!find_piece_around(lock, &piece))
        return false;
    uint64_t from = piece.from, about = piece.about;
    uint32_t place = place_in_about(about);
    mark_lock(&piece, lock - from);
    if (!place || (lock - from >= KNOWN_OF_MAPPED && is_mapped_place(place)))
        return false;
    *memory = (struct memory){from, about >> SIZE_SHIFT, place};
    note_size(place, memory->bytes);
    return true;
}

/* ---- The real functions. Looking them up may itself need memory, which comes from a few pages of our own. */

#define REALS(X) X(malloc) X(calloc) X(realloc) X(free)
#define RARE_REALS(X) X(memalign) X(aligned_alloc) X(posix_memalign)
#define DECLARE(name) static __typeof__(&name) real_##name;
REALS(DECLARE)
RARE_REALS(KNOWN_REAL)

static int resolve_state; /* 0 not begun, 1 under way, then DONE or WATCHED */
enum { DONE = 2, WATCHED };
static bool is_watched;

#define EARLY_BYTES 65536
static char early[EARLY_BYTES] LARGE;
static size_t early_used;

static void *early_memory(size_t size) {
    size_t from = ADD(&early_used, (size + 31) & ~(size_t)15);
    if (from + size + 16 > EARLY_BYTES)
        return NULL;
    memcpy(early + from, &size, sizeof size);
    return early + from + 16;
}

static bool is_early(const void *p) { return (const char *)p >= early && (const char *)p < early + EARLY_BYTES; }

#define FIND(name) real_##name = (__typeof__(&name))find_next(#name);

/* Whether the real functions are known. What is to be recorded of each call comes this way too, so that other calls have nothing to do for it. */
__attribute__((noinline)) static bool look_up(struct call call) {
    int state = LOAD(&resolve_state);
    if (!state && SWAP(&resolve_state, &state, 1)) {
        REALS(FIND)
        if (!finds_quickly()) {
            RARE_REALS(FIND_REAL)
        }
        STORE(&resolve_state, is_watched ? WATCHED : DONE);
    }
    state = LOAD(&resolve_state);
    if (state == WATCHED && call.frame)
        use_allocator(call);
    return state >= DONE;
}

bool watches_malloc(void) { return is_watched; }

void watch_malloc(void) {
    int state = DONE;
    is_watched = true;
    SWAP(&resolve_state, &state, WATCHED);
}

static inline bool resolved_for(struct call call) { return LIKELY(LOAD(&resolve_state) == DONE) || look_up(call); }

#define NO_CALL ((struct call){0, 0})
#define resolved() resolved_for(HERE)

static inline uint64_t asked_element(size_t size) {
    uint64_t element = 0;
    if (UNLIKELY(self.midst.array_asked_for)) {
        element = self.midst.array_asked_for == size ? RAW_ARRAY : 0;
        self.midst.array_asked_for = 0;
    }
    return element;
}

static inline void *noted(void *piece, size_t size, struct call call) {
    uint64_t element = asked_element(size);
    if (LIKELY(piece && arena))
        note_piece(piece, size, element, call);
    return piece;
}

/* ---- malloc and its like. */

/* ... of a call that isn't plain. */
static __attribute__((noinline)) void *malloc_by_stack(size_t size, uint64_t element, uint64_t key, struct call call) {
    struct asked asked;
    ask_for_piece(&asked, call, size, element, key);
    void *piece = real_malloc(size);
    if (LIKELY(piece))
        put_noted(piece, size, &asked);
    return piece;
}

/* What most calls do is in one function, since programs call it more than anything else. */
LINED_UP EXPORT __attribute__((flatten)) void *malloc(size_t size) {
    if (!resolved())
        return early_memory(size);
    uint64_t element = asked_element(size);
    if (UNLIKELY(!is_noted_size(size) || !arena))
        return real_malloc(size);
    uint64_t key = key_of_call(HERE, size, element);
    uint32_t place = LIKELY(key) ? place_of_plain(key) : 0;
    if (UNLIKELY(!place)) {
        void *piece = malloc_by_stack(size, element, key, HERE);
        AS_WRITTEN; /* so that this frame is there until then: the stack is followed from it */
        return piece;
    }
    void *piece = real_malloc(size);
    if (LIKELY(piece))
        put_from(piece, size, place);
    return piece;
}

/* The size of an array's elements, or 0 if it is one object or one of bytes. */
static uint64_t element_of(size_t count, size_t size) { return count > 1 && size >= LEAST_LOCK ? size : 0; }

EXPORT void *calloc(size_t count, size_t size) {
    if (resolved()) {
        void *piece = real_calloc(count, size);
        if (LIKELY(piece && arena))
            note_piece(piece, count * size, element_of(count, size), HERE);
        return piece;
    }
    return size && count > EARLY_BYTES / size ? NULL : early_memory(count * size);
}

static inline uint64_t taken_if_noted(void *piece) { return arena && piece ? taken_piece((uintptr_t)piece) : 0; }

LINED_UP EXPORT void free(void *piece) {
    if (UNLIKELY(is_early(piece)) || !resolved_for(piece ? HERE : NO_CALL))
        return;
    uint64_t about = taken_if_noted(piece);
    if (UNLIKELY(locks_of(about)))
        end_locks((uintptr_t)piece, about, CALLER);
    real_free(piece);
}

static void *grown_early(void *piece, size_t size) {
    size_t had;
    memcpy(&had, (char *)piece - 16, sizeof had);
    void *made = malloc(size);
    return made ? memcpy(made, piece, had < size ? had : size) : NULL;
}

/* The locks in it are forgotten first, since the memory may be another thread's as soon as it is given back. What isn't given back may
   have one that this thread holds. */
static void *reallocated(void *piece, size_t size, uint64_t element, struct call call) {
    uint64_t about = taken_if_noted(piece);
    forget_locks((uintptr_t)piece, about);
    void *made = real_realloc(piece, size);
    if (made || !size)
        end_holds((uintptr_t)piece, made == piece ? size : 0, about, call.caller);
    if (!made && size && about) {
        put_anywhere((uintptr_t)piece, about & ~ALL_LOCKS);
    }
    if (LIKELY(made && arena))
        note_piece(made, size, element, call);
    return made;
}

EXPORT void *realloc(void *piece, size_t size) {
    if (UNLIKELY(is_early(piece)))
        return grown_early(piece, size);
    return resolved() ? KEEPING_FRAME(reallocated(piece, size, 0, HERE)) : early_memory(size);
}

EXPORT void *reallocarray(void *piece, size_t count, size_t size) {
    size_t bytes;
    if (__builtin_mul_overflow(count, size, &bytes)) {
        errno = ENOMEM;
        return NULL;
    }
    return resolved() ? KEEPING_FRAME(reallocated(piece, bytes, element_of(count, size), HERE)) : NULL;
}

EXPORT void *memalign(size_t alignment, size_t size) {
    return resolved() ? KEEPING_FRAME(noted(REAL(memalign)(alignment, size), size, HERE)) : NULL;
}

EXPORT void *aligned_alloc(size_t alignment, size_t size) {
    return resolved() ? KEEPING_FRAME(noted(REAL(aligned_alloc)(alignment, size), size, HERE)) : NULL;
}

EXPORT int posix_memalign(void **piece, size_t alignment, size_t size) {
    if (!resolved())
        return ENOMEM;
    int answer = REAL(posix_memalign)(piece, alignment, size);
    if (answer == 0)
        noted(*piece, size, HERE);
    return answer;
}
