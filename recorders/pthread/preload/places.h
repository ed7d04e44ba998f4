/* Places: the callers of a call. Each has a number, by which classes and pieces of memory say where they come from. */
#include "stacks.h"

static struct names places;

/* A key of callers is begun with the first one, and goes on with those from one to another. */
static uint64_t begun_key(const struct stack *stack) { return mixed(stack->element) ^ stack->callers[0]; }

static uint64_t longer_key(uint64_t key, const struct stack *stack, uint32_t from, uint32_t to) {
    for (uint32_t i = from; i < to; i++)
        key = mixed(key) ^ stack->callers[i];
    return key;
}

static uint64_t stack_key(const struct stack *stack) { return mixed(longer_key(begun_key(stack), stack, 1, stack->count)); }

/* ... of the callers from one on. */
static uint32_t define_place_from(const struct stack *stack, uint32_t from, uint32_t rest) {
    uint32_t number = take_part(RAW_PLACES), count = stack->count - from;
    if (!number)
        return 0;
    struct raw_place *place = part_of(RAW_PLACES, number);
    for (uint32_t i = 0; i < count && i < RAW_NEAR; i++)
        place->callers[i] = word_of(stack->callers[from + i]);
    place->rest = rest;
    place->element = from ? 0 : stack->element;
    STORE(&place->count, count);
    return number;
}

/* From the outermost callers on. */
static uint32_t define_place(const struct stack *stack) {
    uint32_t rest = 0;
    for (uint32_t from = (stack->count - 1) / RAW_NEAR * RAW_NEAR; from; from -= RAW_NEAR) {
        uint32_t to = from + RAW_NEAR < stack->count ? from + RAW_NEAR : stack->count;
        uint32_t *slot = added_slot(&places, mixed(longer_key(rest, stack, from, to)));
        if (!slot)
            return 0;
        uint32_t known = LOAD(slot);
        rest = known ? known : settled(slot, define_place_from(stack, from, rest));
        if (!rest)
            return 0;
    }
    return define_place_from(stack, 0, rest);
}

uint32_t place_of(const struct stack *stack) {
    uint32_t *slot = added_slot(&places, stack_key(stack));
    if (!slot)
        return 0;
    uint32_t place = LOAD(slot);
    return LIKELY(place) ? place : settled(slot, define_place(stack));
}

uint32_t place_of_caller(uintptr_t caller) {
    struct stack stack;
    stack.element = 0;
    stack.count = 1;
    stack.callers[0] = caller;
    return place_of(&stack);
}

/* ---- Stacks that were met before, so that they aren't followed again: if all return addresses of one still stand where they were
   found, it is the same. One sum tells that of all of them, and tells a reader that comes while it is written. A memo is a line of the
   processor's. */

#define FIRST_MEMOS 4
#define MORE_MEMOS 4096
#define MOST_MEMOS 65536
#define MEMO_WAYS 4

#define PIECE_FRAMES 12 /* of a piece of memory */
#define FEW_FRAMES 6

struct memo {
    uintptr_t frame; /* of the call: a stack of the program's own making may end closely above another one */
    uint64_t sum;
    uint32_t place;
    uint16_t count, last; /* of `at`: how many, and the farthest */
    uint16_t at[RAW_FRAMES]; /* in words; after the last one again where the first one is */
} __attribute__((aligned(64)));

/* They are kept in one of three tables, the next one if so many stacks had to be followed again that one doesn't suffice. Its size is to be read before
   where it is. */
static struct memo first_memos[FIRST_MEMOS];
static struct memo more_memos[MORE_MEMOS] LARGE;
static struct memo *memos = first_memos;
static uint64_t memos_in_use = FIRST_MEMOS, stacks_followed_again;

static bool are_many_memos(void) { return __atomic_load_n(&memos_in_use, __ATOMIC_RELAXED) > FIRST_MEMOS; }
static inline bool are_most_memos(void) { return __atomic_load_n(&memos_in_use, __ATOMIC_RELAXED) > MORE_MEMOS; }

/* One table comes after the other, so there is never a larger size than that of the table that is there. */
static void use_memos(struct memo *full, struct memo *next, uint64_t count) {
    if (next && SWAP(&memos, &full, next))
        STORE(&memos_in_use, count);
}

static __attribute__((noinline)) void count_followed_again(void) {
    uint64_t count = ADD(&stacks_followed_again, 1) + 1;
    if (count == FIRST_MEMOS)
        use_memos(first_memos, more_memos, MORE_MEMOS);
    else if (count == MORE_MEMOS)
        use_memos(more_memos, take_spare(MOST_MEMOS * sizeof *memos), MOST_MEMOS);
}

/* What a caller counts for, by how far out it is: odd numbers that have nothing to do with each other. */
static const uint64_t weights[RAW_FRAMES] = {
    0x1d52490575ffc53d, 0xe2a214e8bbe9c675, 0x186c39e8c7bb69f7, 0xf3aa3897fcf4c6b7, 0x64d4748ca3c77ebf, 0x5c22c46963e968fd,
    0x8c656018eee38dc1, 0xb2609a0bdd2b7551, 0x3b9be05d0e8e2329, 0x5bd0f521be84762b, 0xa4e0689e1888df21, 0x7ea3ef27e2e90529,
    0x7b81e5e0309e6043, 0x5c3981a844ab26d9, 0x99ba695ab78d8387, 0x2bcc0d1cd5a93145,
};

/* What tells two calls with one stack apart: what they make. */
static inline uint64_t salt_of(uint64_t element, bool is_tiny) { return element << 1 | is_tiny; }

static inline bool is_tiny(size_t size) { return size < sizeof(pthread_mutex_t); }

static uint64_t sum_start(uint32_t count, uint32_t place, uint64_t salt) {
    return ((uint64_t)LOAD(&rules_epoch) << 48 ^ (uint64_t)count << 32 ^ (place << 1 ^ salt)) + 1;
}

/* Of the words where the memo has a caller. They lie in the stack, whatever another thread writes to the memo meanwhile. */
QUICK uint64_t sum_of(const struct memo *memo, uintptr_t frame, uint32_t last, uint32_t count) {
    uint64_t sum = 0;
    _Pragma("GCC unroll 16") for (uint32_t i = 0; i < count; i++) {
        uint32_t at = __atomic_load_n(&memo->at[i], __ATOMIC_RELAXED);
        sum += weights[i] * ((const uintptr_t *)frame)[at < last ? at : last];
    }
    return sum;
}

/* A memo has one of three numbers of words, so that each is gone through without a loop. */
static inline uint32_t summed(uint32_t count) {
    return count <= FEW_FRAMES ? FEW_FRAMES : count <= PIECE_FRAMES ? PIECE_FRAMES : RAW_FRAMES;
}

QUICK uint64_t sum_there(const struct memo *memo, uintptr_t frame, uint32_t last, uint32_t count) {
    if (count <= FEW_FRAMES)
        return sum_of(memo, frame, last, FEW_FRAMES);
    return LIKELY(count <= PIECE_FRAMES) ? sum_of(memo, frame, last, PIECE_FRAMES) : sum_of(memo, frame, last, RAW_FRAMES);
}

/* The place of the call if its stack is the memo's, of no more than so many callers; else 0. Where its callers were once, with the same
   frame, there is memory. */
static inline uint32_t place_in(const struct memo *memo, const struct asked *asked, uint32_t most) {
    uint32_t count = __atomic_load_n(&memo->count, __ATOMIC_RELAXED), last = __atomic_load_n(&memo->last, __ATOMIC_RELAXED);
    uint32_t place = __atomic_load_n(&memo->place, __ATOMIC_RELAXED);
    if (__atomic_load_n(&memo->frame, __ATOMIC_RELAXED) != asked->call.frame || count > most || last * WORD >= asked->stack_bytes)
        return 0;
    uint64_t sum = sum_there(memo, asked->call.frame, last, count) + sum_start(count, place, asked->salt);
    return sum == LOAD(&memo->sum) ? place : 0;
}

static void write_memo(struct memo *memo, uintptr_t frame, const struct stack *stack, uint64_t salt, uint32_t place) {
    uint64_t sum = sum_start(stack->count, place, salt);
    STORE(&memo->frame, 0);
    STORE(&memo->sum, 0);
    for (uint32_t i = 0; i < summed(stack->count); i++) {
        uint32_t which = i < stack->count ? i : 0;
        AS_WRITTEN;
        memo->at[i] = (uint16_t)(stack->at[which] / WORD);
        sum += weights[i] * stack->callers[which];
    }
    memo->place = place;
    memo->last = (uint16_t)(stack->at[stack->count - 1] / WORD);
    STORE(&memo->count, (uint16_t)stack->count);
    STORE(&memo->frame, frame);
    STORE(&memo->sum, sum);
}

/* The last ones that were met are kept, the last one first. */
static void make_first(struct memo *memos, uint32_t which) {
    struct memo first = memos[which];
    for (uint32_t i = which; i > 0; i--) {
        AS_WRITTEN;
        memos[i] = memos[i - 1];
    }
    memos[0] = first;
}

static uint32_t last_place(void) { return LOAD(&arena->regions[RAW_PLACES].used); }

/* A stack that is spread out too far isn't kept. One whose place is none after the last place of before it was followed had been followed earlier. */
static void remember(const struct asked *asked, const struct stack *stack, uint32_t place, uint32_t last) {
    if (!place || !stack->is_bounded || stack->count == 1 || stack->at[stack->count - 1] / WORD - 1 >= UINT16_MAX)
        return;
    if (place <= last)
        count_followed_again();
    make_first(asked->memos, MEMO_WAYS - 1);
    write_memo(asked->memos, asked->call.frame, stack, asked->salt, place);
}

/* What tells a call from others. The operators of C++ all call malloc from one place, so the caller behind it counts as well. */
static inline uint64_t site_key(struct call call, uintptr_t outer, uint64_t salt) {
    return (call.caller ^ outer << 17 ^ salt ^ (uint64_t)LOAD(&rules_epoch) << 48) * weights[0];
}

static inline struct memo *memos_of(uint64_t site, uintptr_t frame) {
    uint64_t mask = LOAD(&memos_in_use) - MEMO_WAYS;
    return LOAD(&memos) + ((site ^ frame * weights[1]) >> 40 & mask);
}

static struct asked ask(struct call call, uint64_t salt) {
    uint64_t stack_bytes = stack_above(call);
    struct memo *memos_of_call = memos_of(site_key(call, outer_caller(call, stack_bytes), salt), call.frame);
    return (struct asked){.call = call, .stack_bytes = stack_bytes, .memos = memos_of_call, .salt = salt};
}

/* ... in one of the memos behind the first one. */
static uint32_t remembered_before(const struct asked *asked, uint32_t most) {
    for (uint32_t i = 1; i < MEMO_WAYS; i++) {
        uint32_t place = place_in(asked->memos + i, asked, most);
        if (place) {
            make_first(asked->memos, i);
            return place;
        }
    }
    return 0;
}

static uint32_t remembered(const struct asked *asked, uint32_t most) {
    uint32_t place = place_in(asked->memos, asked, most);
    return LIKELY(place) ? place : remembered_before(asked, most);
}

static uint32_t remembered_from_now(const struct asked *asked, const struct stack *stack) {
    uint32_t last = last_place(), place = place_of(stack);
    remember(asked, stack, place, last);
    return place;
}

uint32_t place_of_call(struct call call, uint32_t most) {
    struct asked asked = ask(call, most);
    uint32_t place = remembered(&asked, most);
    if (LIKELY(place))
        return place;
    struct stack stack;
    take_stack(&stack, call, most);
    return remembered_from_now(&asked, &stack);
}

/* By so many callers as `telling` says, always in the same way for one salt; 0 if that says none. */
uint32_t place_of_some(struct call call, uint64_t salt, uint32_t (*telling)(const struct stack *stack)) {
    struct asked asked = ask(call, salt);
    uint32_t place = remembered(&asked, RAW_FRAMES);
    if (LIKELY(place))
        return place;
    struct stack stack;
    take_stack(&stack, call, RAW_FRAMES);
    stack.count = telling(&stack);
    return stack.count ? remembered_from_now(&asked, &stack) : 0;
}

/* ---- Places that were met, each in a word: its key, and the place in the lowest bits. */

#define PLACE_MASK ((UINT64_C(1) << 21) - 1) /* more than there are places */

static inline uint32_t place_at(const uint64_t *word, uint64_t key) {
    uint64_t known = __atomic_load_n(word, __ATOMIC_RELAXED);
    return (known ^ key) <= PLACE_MASK ? (uint32_t)(known & PLACE_MASK) : 0;
}

static inline void put_place_at(uint64_t *word, uint64_t key, uint32_t place) {
    __atomic_store_n(word, (key & ~PLACE_MASK) | place, __ATOMIC_RELAXED);
}

/* ---- The place of a piece of memory. A call whose stacks vary, as in a program that interprets another one, may have been met with the
   same innermost callers. If these were met in many stacks they alone tell the call: to follow and keep ever new stacks takes several times
   what malloc does. Fewer stacks are many for a piece that has no room for a mutex: most pieces are such, and hardly any of them has a lock. */

#define MOST_STACKS 256
#define MOST_TINY_STACKS 32
#define MET_STACKS 65536

static struct names stacks_of_calls; /* how many stacks were met after the first one, by the innermost callers */
static uint64_t met_stacks[MET_STACKS] LARGE;

static uint64_t *met_stack(uint64_t key) { return &met_stacks[(key >> 32) % MET_STACKS]; }

/* Whether innermost callers were met before. Most are met once, so they have a bit alone; those who share one with others are counted once too often. */
#define ONCE_BITS 19
static uint64_t met_once[(1 << ONCE_BITS) / 64] LARGE;

static bool were_met(uint64_t inner) {
    uint64_t which = inner >> (64 - ONCE_BITS), bit = UINT64_C(1) << which % 64;
    return __atomic_fetch_or(&met_once[which / 64], bit, __ATOMIC_RELAXED) & bit;
}

/* The place of a stack with this key, which is counted if it is new. */
static uint32_t counted_place(const struct stack *stack, uint64_t key, uint32_t *met) {
    uint32_t *slot = added_slot(&places, key);
    if (!slot)
        return 0;
    uint32_t place = LOAD(slot);
    if (LIKELY(place))
        return place;
    if (met)
        ADD(met, 1);
    return settled(slot, define_place(stack));
}

/* ... of a stack that isn't among those that were met last, by its key and that of its innermost callers. If these tell the call, the stack
   has no others any more. */
static __attribute__((noinline)) uint32_t place_of_varied(const struct asked *asked, struct stack *stack, uint64_t whole, uint64_t inner) {
    uint32_t *met = were_met(inner) ? added_slot(&stacks_of_calls, inner) : NULL;
    if (stack->count <= INNERMOST || !met || LOAD(met) + 1 < (asked->is_tiny ? MOST_TINY_STACKS : MOST_STACKS))
        return counted_place(stack, whole, met);
    stack->count = INNERMOST;
    return counted_place(stack, inner, met);
}

/* By a place and the size of an element: the place of arrays. */
static struct names arrays;

static uint32_t place_of_array(uint32_t plain, struct stack *stack, uint64_t element) {
    uint32_t *slot = plain ? added_slot(&arrays, mixed(mixed(plain) ^ element)) : NULL;
    uint32_t place = slot ? LOAD(slot) : 0;
    if (LIKELY(place || !slot))
        return place;
    stack->element = element;
    place = settled(slot, place_of(stack));
    stack->element = 0;
    return place;
}

/* What tells the innermost callers of a call. */
static inline uint64_t key_of_few(const struct few *few, uint64_t salt) {
    uint64_t key = sum_start(INNERMOST, 0, salt) * weights[INNERMOST];
    UNROLLED
    for (uint32_t i = 0; i < INNERMOST; i++)
        key += few->callers[i] * weights[i];
    return key;
}

static uint64_t key_of_stack(const struct stack *stack, uint64_t salt) {
    struct few few;
    for (uint32_t i = 0; i < INNERMOST; i++)
        few.callers[i] = stack->callers[i];
    return key_of_few(&few, salt);
}

/* Of a stack that wasn't met in a memo. */
static uint32_t place_of_stack(const struct asked *asked, struct stack *stack) {
    uint32_t count = stack->count, inner_count = count < INNERMOST ? count : INNERMOST;
    uint64_t few = inner_count == INNERMOST ? key_of_stack(stack, asked->salt) : 0;
    uint32_t place = few ? place_at(met_stack(few), few) : 0;
    if (place) {
        stack->count = INNERMOST;
        return place;
    }
    uint64_t begun = longer_key(begun_key(stack), stack, 1, inner_count);
    uint64_t inner = mixed(begun), whole = mixed(longer_key(begun, stack, inner_count, count));
    uint64_t all = whole ^ mixed(LOAD(&rules_epoch)) ^ mixed(asked->element);
    place = place_at(met_stack(all), all);
    if (place)
        return place;
    place = place_of_varied(asked, stack, whole, inner);
    if (asked->element)
        place = place_of_array(place, stack, asked->element);
    uint64_t key = stack->count < count ? few : all;
    if (place && are_many_memos())
        put_place_at(met_stack(key), key, place);
    return place;
}

/* The place of a tiny piece whose innermost callers are known at once, and tell it; else 0. */
static inline uint32_t quick_place(const struct asked *asked) {
    struct few few;
    if (!quick_callers(asked->call, asked->stack_bytes, &few))
        return 0;
    uint64_t key = key_of_few(&few, asked->salt);
    return place_at(met_stack(key), key);
}

/* ... of a call whose stack isn't the first memo's. */
static __attribute__((noinline)) uint32_t place_of_followed(const struct asked *asked) {
    uint32_t place = remembered_before(asked, PIECE_FRAMES);
    if (!place && asked->is_tiny && are_many_memos())
        place = quick_place(asked);
    if (LIKELY(place))
        return place;
    struct stack stack;
    uint32_t last = last_place();
    take_stack(&stack, asked->call, PIECE_FRAMES);
    place = place_of_stack(asked, &stack);
    remember(asked, &stack, place, last);
    return place;
}

/* ---- Calls whose pieces have no locks. If some pieces of a call were given back and none had a lock, the call is plain: its innermost callers
   alone tell its pieces, until a lock is found in one. A call is met by these callers, in a word: its key, and, if it is plain, the place of
   its pieces. Else one of some pieces is marked, and seen to have ended or not when the next one is marked; the word counts both. */

#define CALLS 16384
#define IS_PLAIN (PLACE_MASK + 1)
#define ABOUT_CALL (IS_PLAIN | PLACE_MASK)
#define EACH_MARKED 4 /* one of so many pieces */
#define ENDED EACH_MARKED
#define MOST_ENDED 4
#define HAS_LOCKS (ENDED * 16)

static uint64_t calls[CALLS] LARGE;
static uint64_t marked_pieces[CALLS] LARGE; /* of those that aren't plain */
static struct names calls_with_locks;      /* by the words of the innermost callers */

static inline bool is_call(uint64_t word, uint64_t key) { return ((word ^ key) & ~ABOUT_CALL) == 0; }

_Static_assert(INNERMOST <= RAW_NEAR, "a place has all innermost callers itself");

static uint64_t key_of_words(const uint64_t *words) {
    uint64_t key = 0;
    for (uint32_t i = 0; i < INNERMOST; i++)
        key = mixed(key) ^ words[i];
    return mixed(key);
}

static bool has_locks(const struct stack *stack) {
    uint64_t words[INNERMOST];
    for (uint32_t i = 0; i < INNERMOST; i++)
        words[i] = word_of(stack->callers[i]);
    return name_slot(&calls_with_locks, key_of_words(words)) != NULL;
}

static __attribute__((noinline)) void make_plain(uint64_t *word, uint64_t key, const struct asked *asked) {
    struct few few;
    struct stack stack = {.element = 0, .count = INNERMOST};
    if (!quick_callers(asked->call, asked->stack_bytes, &few))
        return;
    for (uint32_t i = 0; i < INNERMOST; i++)
        stack.callers[i] = few.callers[i];
    uint32_t place = has_locks(&stack) ? 0 : place_of(&stack);
    if (place && asked->element)
        place = place_of_array(place, &stack, asked->element);
    __atomic_store_n(word, key | (place ? IS_PLAIN | place : HAS_LOCKS), __ATOMIC_RELAXED);
}

/* A lock was found in a piece from there. */
void note_lock_from(uint32_t place) {
    const struct raw_place *from = part_of(RAW_PLACES, place);
    uint32_t *slot = LOAD(&from->count) < INNERMOST ? NULL : added_slot(&calls_with_locks, key_of_words(from->callers));
    if (slot)
        STORE(slot, 1);
    if (!are_most_memos() || from->count != INNERMOST)
        return;
    for (uint32_t i = 0; i < CALLS; i++)
        if ((__atomic_load_n(&calls[i], __ATOMIC_RELAXED) & ABOUT_CALL) == (IS_PLAIN | place))
            __atomic_store_n(&calls[i], 0, __ATOMIC_RELAXED);
}

static inline uint64_t *other_word(uint64_t *word) { return calls + ((word - calls) ^ 1); }

static inline uint64_t *first_word(uint64_t key) { return &calls[(key >> 40) % CALLS]; }

/* What tells the calls of a piece of memory; 0 if that isn't known at once. */
uint64_t key_of_call(struct call call, size_t size, uint64_t element) {
    struct few few;
    if (LIKELY(!are_most_memos()) || UNLIKELY(!quick_callers(call, stack_above(call), &few)))
        return 0;
    return key_of_few(&few, salt_of(element, is_tiny(size))) & ~ABOUT_CALL;
}

/* The place of the pieces of a plain call; else 0. */
uint32_t place_of_plain(uint64_t key) {
    uint64_t *first = first_word(key), word = __atomic_load_n(first, __ATOMIC_RELAXED);
    if (UNLIKELY(!is_call(word, key)))
        word = __atomic_load_n(other_word(first), __ATOMIC_RELAXED);
    return LIKELY((word & ~PLACE_MASK) == (key | IS_PLAIN)) ? word & PLACE_MASK : 0;
}

/* A call that has no word gets one of its two, that of a plain one last. */
static void begin_call(uint64_t *word, uint64_t key) {
    uint64_t *other = other_word(word);
    bool is_other = __atomic_load_n(word, __ATOMIC_RELAXED) & IS_PLAIN && !(__atomic_load_n(other, __ATOMIC_RELAXED) & IS_PLAIN);
    __atomic_store_n(is_other ? other : word, key, __ATOMIC_RELAXED);
}

/* The piece that is given out now is marked. */
static void mark_piece(struct asked *asked, uint64_t *at, uint64_t key) {
    uint64_t *marked = &marked_pieces[at - calls], before = __atomic_load_n(marked, __ATOMIC_RELAXED);
    uint64_t word = __atomic_load_n(at, __ATOMIC_RELAXED) & ~(uint64_t)(EACH_MARKED - 1);
    asked->mark = marked;
    if (before && has_ended(before))
        word += ENDED;
    if ((word & PLACE_MASK) == MOST_ENDED * ENDED)
        make_plain(at, key, asked);
    else
        __atomic_store_n(at, word, __ATOMIC_RELAXED);
}

/* A call that isn't plain gives out one more piece. */
static void count_piece(struct asked *asked, uint64_t key) {
    uint64_t *at = first_word(key), word = __atomic_load_n(at, __ATOMIC_RELAXED);
    if (!is_call(word, key))
        word = __atomic_load_n(at = other_word(at), __ATOMIC_RELAXED);
    if (!is_call(word, key))
        begin_call(first_word(key), key);
    else if ((word & (EACH_MARKED - 1)) == EACH_MARKED - 1)
        mark_piece(asked, at, key);
    else if (!(word & (IS_PLAIN | HAS_LOCKS)))
        __atomic_store_n(at, word + 1, __ATOMIC_RELAXED);
}

/* What is looked for is in the processor's cache by the time that the piece is there. */
void ask_for_piece(struct asked *asked, struct call call, size_t size, uint64_t element, uint64_t key) {
    asked->call = call;
    asked->element = element;
    asked->stack_bytes = stack_above(call);
    asked->is_tiny = is_tiny(size);
    asked->salt = salt_of(element, asked->is_tiny);
    asked->mark = NULL;
    asked->memos = memos_of(site_key(call, outer_caller(call, asked->stack_bytes), asked->salt), call.frame);
    __builtin_prefetch(asked->memos);
    if (key)
        count_piece(asked, key);
}

uint32_t place_of_piece(const struct asked *asked) {
    uint32_t known = place_in(asked->memos, asked, PIECE_FRAMES);
    return LIKELY(known) ? known : place_of_followed(asked);
}

/* ---- A library was closed: places in it are to be defined anew if the same addresses come again. */

static bool is_place_gone(uint32_t number) {
    const struct raw_place *place = part_of(RAW_PLACES, number);
    for (uint32_t i = 0; i < place->count && i < RAW_NEAR; i++)
        if (is_gone(raw_word_module(place->callers[i])))
            return true;
    return place->rest && is_place_gone(place->rest);
}

static void forget_gone_place(uint32_t *value) {
    if (is_place_gone(*value))
        STORE(value, 0);
}

void forget_places_in_closed_modules(void) {
    each_name(&places, forget_gone_place);
    each_name(&arrays, forget_gone_place);
}
