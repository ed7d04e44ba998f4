/* Stacks: who called one of our functions, and who called that.

   On x86-64 the frames are followed by what the modules' .eh_frame sections say, with the rule of each return address kept, so a
   frame costs some nanoseconds, takes no lock and needs no other library. On other processors glibc's backtrace does it. */
#include "rules.h"

#include <errno.h>
#include <linux/futex.h>
#include <signal.h>
#include <sys/syscall.h>
#include <unistd.h>

uint32_t rules_epoch;

void forget_rules(void) {
    ADD(&rules_epoch, 1);
    change_era();
}

/* Whether a word stands there, in memory that may be unmapped: the system looks, by a wait for another word that may take no time. */
bool has_word(uintptr_t address, uint32_t word) {
    static const struct timespec no_time = {0, 0};
    int saved = errno;
    bool is_other = SYSTEM(futex, address, FUTEX_WAIT_PRIVATE, word, &no_time, NULL, 0) != 0 && (errno == EAGAIN || errno == EFAULT);
    errno = saved;
    return !is_other;
}

#define WORD sizeof(uintptr_t)

#ifdef __x86_64__

/* ---- Following. */

#define LARGEST_FRAME (UINT64_C(16) << 20)
#define LARGEST_STACK (UINT64_C(1) << 30)

struct frame {
    uintptr_t caller, sp, bp; /* the function that goes on at `caller`, and its registers there */
    uintptr_t limit;          /* the stack ends here at the latest */
};

static uintptr_t word_at(uintptr_t address) { return *(const uintptr_t *)address; }

extern void *__libc_stack_end; /* of the program's first thread */

/* No frame ends beyond this. A thread's stack ends where its thread pointer points to. */
static uintptr_t known_stack_end(uintptr_t sp) {
    uintptr_t pointer = (uintptr_t)__builtin_thread_pointer(), first = (uintptr_t)__libc_stack_end;
    if (first >= sp && first - sp < LARGEST_FRAME)
        return first;
    return pointer >= sp && pointer - sp < LARGEST_STACK ? pointer : 0;
}

static uintptr_t stack_end(uintptr_t sp) {
    uintptr_t end = known_stack_end(sp);
    return end ? end : sp + LARGEST_FRAME;
}

uint64_t stack_above(struct call call) {
    uintptr_t end = known_stack_end(call.frame);
    return end ? end - call.frame : 0;
}

/* Where the return address behind another one is, by that one: a word has its 48 bits, and how far away the other one is, in words; 0 if
   that isn't a constant. Its highest bits say that the function keeps its caller's rbp in its frame, or that it does so where rbp points to,
   behind which the return address is: then that tells how far away it is. */
#define OUTER 512
#define FURTHER 4096
#define OUTER_BITS 16
#define BY_BP (1 << 15)
#define KEEPS_BP (1 << 14)
#define OUTER_WORDS (KEEPS_BP - 1)
static uint64_t outer[OUTER];           /* of callers of ours */
static uint64_t further[FURTHER] LARGE; /* and of their callers */

#define END_BEHIND_BP 16 /* the function's own rbp, and its return address */

static uint64_t step_by(struct rule rule) {
    bool is_in_frame = rule.saved == SAVED_IN_FRAME;
    if (rule.base == BASE_BP && rule.offset == END_BEHIND_BP && is_in_frame && rule.saved_at == -END_BEHIND_BP)
        return BY_BP;
    uint64_t words = rule.base == BASE_SP && rule.offset > 0 ? (uint64_t)rule.offset / WORD : 0;
    return words && words <= OUTER_WORDS && (is_in_frame || rule.saved == SAVED_NOT) ? words | (is_in_frame ? KEEPS_BP : 0) : 0;
}

static __attribute__((noinline)) uint64_t new_step(uintptr_t caller, uint64_t key, uint64_t *word) {
    *word = key << OUTER_BITS | step_by(rule_of(caller));
    return *word;
}

static inline uint64_t step_of(uintptr_t caller, uint64_t key, uint64_t *at) {
    uint64_t word = __atomic_load_n(at, __ATOMIC_RELAXED);
    if (UNLIKELY(word >> OUTER_BITS != key))
        word = new_step(caller, key, at);
    return word & ((1 << OUTER_BITS) - 1);
}

/* It is only a hint, so nothing tells that a library was closed. */
uintptr_t outer_caller(struct call call, uint64_t stack_bytes) {
    uint64_t step = step_of(call.caller, call.caller, &outer[(call.caller ^ call.caller >> 9) % OUTER]);
    uint64_t behind = (step & OUTER_WORDS) * WORD;
    return LIKELY(behind && behind + WORD < stack_bytes) ? word_at(call.frame + behind + WORD) : 0;
}

/* The callers themselves count here, so the key is another one if a library was closed. */
bool quick_callers(struct call call, uint64_t stack_bytes, struct few *few) {
    uint64_t epoch = (uint64_t)LOAD(&rules_epoch) << 32, at = WORD; /* from the call's frame on */
    uintptr_t bp = word_at(call.frame), inner = call.caller;
    UNROLLED
    for (uint32_t i = 0; i < INNERMOST - 1; i++) {
        few->callers[i] = inner;
        uint64_t step = step_of(inner, (inner ^ epoch) & UINT64_MAX >> OUTER_BITS, &further[(inner ^ inner >> 12) % FURTHER]);
        uint64_t before = at;
        at = UNLIKELY(step & BY_BP) ? bp + WORD - call.frame : at + (step & OUTER_WORDS) * WORD;
        if (UNLIKELY(at <= before || at >= stack_bytes))
            return false;
        if (UNLIKELY(step & (BY_BP | KEEPS_BP)))
            bp = step & BY_BP ? word_at(bp) : 0;
        inner = word_at(call.frame + at);
    }
    few->callers[INNERMOST - 1] = inner;
    return true;
}

static bool is_near(const struct frame *f, uintptr_t address) {
    return address >= f->sp && address <= f->limit && (address & 7) == 0;
}

static struct frame first_frame(struct call call) {
    return (struct frame){call.caller, call.frame + 16, word_at(call.frame), stack_end(call.frame)};
}

/* Where the frame ends, or 0 if that isn't known. */
static uintptr_t end_of(const struct frame *f, struct rule rule) {
    uintptr_t end = 0;
    if (rule.base == BASE_SP)
        end = f->sp + (uintptr_t)(intptr_t)rule.offset;
    else if (rule.base == BASE_BP)
        end = f->bp + (uintptr_t)(intptr_t)rule.offset;
    else if (rule.base == BASE_AT_BP && is_near(f, f->bp + (uintptr_t)(intptr_t)rule.offset))
        end = word_at(f->bp + (uintptr_t)(intptr_t)rule.offset);
    return end > f->sp && is_near(f, end) ? end : 0;
}

static bool to_caller(struct frame *f) {
    struct rule rule = rule_of(f->caller);
    uintptr_t end = end_of(f, rule);
    if (!end)
        return false;
    uintptr_t at = rule.saved == SAVED_IN_FRAME ? end + (uintptr_t)(intptr_t)rule.saved_at
                                                : f->bp + (uintptr_t)(intptr_t)rule.saved_at;
    if (rule.saved != SAVED_NOT)
        f->bp = is_near(f, at) ? word_at(at) : 0;
    f->caller = word_at(end - 8);
    f->sp = end;
    return f->caller != 0;
}

void take_stack(struct stack *stack, struct call call, uint32_t most) {
    struct frame f = first_frame(call);
    stack->element = 0;
    stack->count = 0;
    stack->is_bounded = known_stack_end(call.frame) != 0;
    do {
        uintptr_t at = f.sp - 8 - call.frame;
        stack->at[stack->count] = at <= UINT32_MAX ? (uint32_t)at : 0;
        stack->callers[stack->count++] = f.caller;
    } while (stack->count < most && to_caller(&f));
}

/* Up to where the stack of a call could be followed, from where the call was made for so many bytes or a little more. What lies before
   that is there: on a stack of the program's own making nothing else says where it ends. */
uintptr_t followed_to(struct call call, uintptr_t most) {
    struct frame f = first_frame(call);
    while (f.sp - call.frame < most && to_caller(&f)) {
    }
    return f.sp;
}

/* ---- Which function's frame is where. */

#define DEEPEST 64
uint32_t take_spans(struct span *spans, struct call call, uint32_t most) {
    struct frame f = first_frame(call);
    uint32_t count = 0;
    while (count < most) {
        uintptr_t caller = f.caller, from = f.sp;
        if (!to_caller(&f))
            break;
        spans[count++] = (struct span){from, f.sp, function_of(caller)};
    }
    return count;
}

bool span_around(struct call call, uintptr_t address, struct span *span) {
    struct frame f = first_frame(call);
    for (int depth = 0; depth < DEEPEST; depth++) {
        uintptr_t caller = f.caller, from = f.sp;
        if (!to_caller(&f))
            return false;
        if (address < f.sp) {
            *span = (struct span){from, f.sp, function_of(caller)};
            return address >= from && span->function;
        }
    }
    return false;
}

/* ---- Whether a function that was called earlier has returned. */

enum met { MET, MET_NOT, MET_NOBODY_KNOWS };

/* If the stack can be followed to where the return address was, the function has returned unless that is met there, behind a function of
   the same module: one of another module was called later at the same place. */
static enum met meets(struct call call, struct call earlier, uintptr_t function) {
    uintptr_t end = earlier.frame + 16, inner;
    struct frame f = first_frame(call);
    do {
        inner = f.caller;
        if (!to_caller(&f))
            return MET_NOBODY_KNOWS;
    } while (f.sp < end);
    return f.sp > end || f.caller != earlier.caller || module_of(inner) != module_of(function) ? MET_NOT : MET;
}

/* If it can't be followed, another word there tells it. That stack may be unmapped by now, as a coroutine's is. */
bool has_returned(struct call call, struct call earlier, uintptr_t function) {
    enum met met = meets(call, earlier, function);
    return met == MET_NOBODY_KNOWS ? !has_word(earlier.frame + 8, (uint32_t)earlier.caller) : met == MET_NOT;
}

/* ---- Whether a jump has left a function of ours. Else who comes now is a signal's handler, perhaps on a stack of its own. */

static bool is_on_stack_of(uintptr_t sp, uintptr_t address) { return address >= sp && address < known_stack_end(sp); }

/* That stack may be a variable of a function's further up. */
static bool is_on_signal_stack(void) {
    stack_t now = {.ss_flags = 0};
    int saved = errno;
    SYSTEM(sigaltstack, NULL, &now);
    errno = saved;
    return now.ss_flags & SS_ONSTACK;
}

bool is_left(struct call call, struct call earlier) {
    if (call.frame >= earlier.frame)
        return is_on_stack_of(earlier.frame, call.frame) && !is_on_signal_stack();
    if (!is_on_stack_of(call.frame, earlier.frame))
        return false;
    return word_at(earlier.frame + 8) != earlier.caller || meets(call, earlier, (uintptr_t)is_left) == MET_NOT;
}

/* Up to the frame that begins behind a word of the stack, or behind what follows. */
static bool follow_to(struct frame *f, uintptr_t at) {
    while (f->sp - 8 < at)
        if (!to_caller(f))
            return false;
    return true;
}

/* Where the return addresses stand as they did, from the outermost on, the functions that they return to go on. The innermost of these has called
   another function since. 0 if none of them stands: it may be another stack. */
uint32_t returned_callers(const struct stack *earlier, uintptr_t frame, struct call call) {
    struct frame f = first_frame(call);
    uint32_t returned = 0;
    for (uint32_t i = 0; i < earlier->count; i++) {
        uintptr_t at = frame + earlier->at[i];
        if (!follow_to(&f, at))
            return 0;
        if (f.sp - 8 != at || f.caller != earlier->callers[i])
            returned = i;
    }
    return returned + 1 < earlier->count ? returned : 0;
}

uintptr_t function_around(uintptr_t caller) {
    uintptr_t function = function_of(caller);
    return function ? function : caller;
}

#else

#include <execinfo.h>

#define OWN_FRAMES 8

void take_stack(struct stack *stack, struct call call, uint32_t most) {
    void *all[RAW_FRAMES + OWN_FRAMES];
    int count = backtrace(all, RAW_FRAMES + OWN_FRAMES), first = 0;
    while (first < count && (uintptr_t)all[first] != call.caller)
        first++;
    stack->element = 0;
    stack->count = 1;
    stack->is_bounded = false;
    stack->callers[0] = call.caller;
    while (stack->count < most && first + (int)stack->count < count) {
        stack->callers[stack->count] = (uintptr_t)all[first + (int)stack->count];
        stack->count++;
    }
}

uint64_t stack_above(struct call call) {
    (void)call;
    return 0;
}

uintptr_t outer_caller(struct call call, uint64_t stack_bytes) {
    (void)call, (void)stack_bytes;
    return 0;
}

bool quick_callers(struct call call, uint64_t stack_bytes, struct few *few) {
    (void)call, (void)stack_bytes, (void)few;
    return false;
}

uintptr_t followed_to(struct call call, uintptr_t most) {
    (void)call, (void)most;
    return 0;
}

uint32_t take_spans(struct span *spans, struct call call, uint32_t most) {
    (void)spans, (void)call, (void)most;
    return 0;
}

bool span_around(struct call call, uintptr_t address, struct span *span) {
    (void)call, (void)address, (void)span;
    return false;
}

/* It is known when the stack ends above the call. */
bool has_returned(struct call call, struct call earlier, uintptr_t function) {
    (void)call, (void)earlier, (void)function;
    return false;
}

bool is_left(struct call call, struct call earlier) {
    return call.frame >= earlier.frame && call.frame < (uintptr_t)__builtin_thread_pointer();
}

/* To follow the stack again takes too long here. */
uint32_t returned_callers(const struct stack *earlier, uintptr_t frame, struct call call) {
    (void)earlier, (void)frame, (void)call;
    return 0;
}

uintptr_t function_around(uintptr_t caller) { return caller; }

#endif
