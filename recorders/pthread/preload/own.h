/* What the parts of the preload library share.

   The rules that keep a recorder out of its program's way:
   - No descriptor is kept. After a thread's start no system call is made for recording, apart from what dlopen and dlclose bring.
   - No lock is taken. What threads share is changed by single atomic operations, so a signal handler that jumps away, a fork, or
     a thread that dies leaves nothing locked. If a jump leaves the recorder itself, the thread's next call restores its records.
   - No memory is taken from malloc. The library's own is among its variables, and in one mapping that is made at the start.
   - A signal handler is recorded as a thread of its own, so it may interrupt the recorder anywhere. Without signals (runs.c) one that
     interrupts it and takes a lock is passed through and counted.
   - errno is left as it was. */
#ifndef LOCKDEP_OWN_H
#define LOCKDEP_OWN_H
#ifndef _GNU_SOURCE
#define _GNU_SOURCE
#endif

#include "../raw.h"

#include <pthread.h>
#include <signal.h>
#include <stdbool.h>
#include <stddef.h>
#include <stdint.h>
#include <time.h>
#include <ucontext.h>

#define CALLER ((uintptr_t)__builtin_return_address(0))
#define FRAME ((uintptr_t)__builtin_frame_address(0))
#define EXPORT __attribute__((visibility("default")))
#define LIKELY(x) __builtin_expect(!!(x), 1)
#define UNLIKELY(x) __builtin_expect(!!(x), 0)
/* Of an array that most programs don't use. It has pages of its own, so that what every program uses lies close together: the first use
   of each page is dear for a program that lives for half a millisecond. All of the library must stay below two megabytes: the system puts
   a larger one where such a page would begin, and then each signal that comes in takes 30 ns more. */
#define LARGE __attribute__((aligned(4096)))
/* An array of which mostly only the first entries are used: these lie apart, close to what else every program uses. */
#define TABLE(type, name, first, all)                                                                                  \
    static type name##_first[first];                                                                                   \
    static type name##_rest[all] LARGE
#define NTH(name, i) (LIKELY((i) < sizeof name##_first / sizeof *name##_first) ? &name##_first[i] : &name##_rest[i])
#define UNROLLED _Pragma("GCC unroll 8")
/* Keeps a loop from being made a call of the C library's, which would have to be found first. */
#define AS_WRITTEN __asm__ volatile("")
/* Begins a line of the processor's, so that how its code lies in the lines doesn't change with what is before it. That is a fourth of the
   time of a lock that is taken again. */
#define LINED_UP __attribute__((aligned(64)))
#define QUICK static inline __attribute__((always_inline)) /* a step of the way that calls go which bring nothing new */
#define EARLY_THREAD_LOCAL __thread __attribute__((tls_model("initial-exec")))

#define LOAD(at) __atomic_load_n(at, __ATOMIC_ACQUIRE)
#define STORE(at, value) __atomic_store_n(at, value, __ATOMIC_RELEASE)
#define ADD(at, value) __atomic_fetch_add(at, value, __ATOMIC_RELAXED)

/* Puts `value` where `*expected` was; if something else is there, that is put into *expected. */
#define SWAP(at, expected, value)                                                                                      \
    __atomic_compare_exchange_n(at, expected, value, false, __ATOMIC_ACQ_REL, __ATOMIC_ACQUIRE)

/* A system call. The C library has a function for each of these, but it looks for each one when it is called first, and has it in a page
   that isn't there yet: one for all is cheaper at a program's start. */
#define SYSTEM(name, ...) syscall(SYS_##name, ##__VA_ARGS__)

/* A function of the C library that a thread's first lock may call, and nothing before it. By a pointer it is found when this library is
   loaded. Else the loader would look for it then, and that takes some two kilobytes of a stack that may be small. */
#define FOUND_WHEN_LOADED(pointer, name) static __typeof__(&name) volatile pointer = name

/* Of some calls the C library looks at the clock and the time before it does anything, and refuses others than these. It takes no time for
   an endless one, though its header says that there is one, so the compiler isn't to know what this is about. */
#define IS_CLOCK(clock) ((clock) == CLOCK_REALTIME || (clock) == CLOCK_MONOTONIC)
static inline bool is_time(const struct timespec *until) {
    __asm__("" : "+r"(until));
    return !until || (unsigned long)until->tv_nsec < 1000000000;
}

/* ---- texts.c: of the C library's it is the same. */

size_t length_of(const char *text);
bool is_same_text(const char *a, const char *b);
bool has_text(const char *in, const char *text); /* anywhere */
char *put_text(char *to, const char *text, size_t most); /* with a zero behind it, to which it returns a pointer */
char *put_number(char *to, unsigned number);
const char *variable(const char *name); /* of the environment */

/* ---- arena.c */

extern struct raw_arena *arena; /* NULL if nothing is recorded */
extern uint32_t own_process;    /* the number of this process in it */

/* Not 0 while this process is recorded, and another number when a lock was released by a thread that wasn't seen to hold it, when a semaphore
   was found to be no lock, or when a library was closed. The system makes it 0 in a child, whichever way it was forked. */
extern volatile uint64_t *era;
bool revived(void); /* whether the process is recorded after all */
void begin_in_fork(void);

enum begin_state { BEGIN_NOT = 1, BEGIN_UNDER_WAY, BEGIN_DONE };
extern int begin_state;
void begin_now(void);
void begin_for_library(void);
void say_refused(void); /* that this process isn't recorded */
static inline void begin_once(void) {
    if (UNLIKELY(LOAD(&begin_state) != BEGIN_DONE))
        begin_now();
}
uint32_t take_part(enum raw_kind kind); /* the number of a new part, or 0 */
static inline void *part_of(enum raw_kind kind, uint32_t number) {
    return (char *)arena + raw_at(&arena->regions[kind], kind, number);
}
struct raw_record *take_chunk(uint32_t chunk);
void *take_private(size_t bytes); /* zeroed memory that is never given back, or NULL */
void *take_spare(size_t bytes); /* the same, for a large table that can be done without */
void *take_sparse(size_t bytes); /* the same, for one of which little may be used: in small pages, while there is much room for these */
void *take_table(size_t bytes); /* as take_spare, for one that can't be done without */
void *take_sparse_table(size_t bytes); /* as take_sparse, for such a one */
void *map_common(const char *name, size_t bytes); /* a file of the folder, which all processes of the recording map; NULL: it can't be had */

/* ---- tables.c */

static inline uint64_t mixed(uint64_t x) {
    x ^= x >> 31;
    x *= UINT64_C(0x9e3779b97f4a7c15);
    return x ^ x >> 29;
}

/* The line of a block of memory, in a table of so many lines: blocks that follow each other have lines that do, so that what is
   allocated one after the other stays together, and each part of the memory begins anywhere. */
#define BLOCK_BITS 8
static inline uint64_t block_line(uint64_t block, uint32_t line_bits) {
    return (block + (mixed(block >> line_bits) >> 20)) & ((UINT64_C(1) << line_bits) - 1);
}

/* Where in its line of eight slots something is looked for first: no two pieces that malloc gives out of one block have the same. */
static inline uint64_t own_way(uint64_t address) { return address >> (BLOCK_BITS - 3) & 7; }

#define NAMES_LEVELS 9
struct names; /* from a number, the lowest bit of which doesn't matter, to a number, for what is defined once */
struct names_line;
struct names {
    struct names_line *levels[NAMES_LEVELS];
};
uint32_t *name_slot(struct names *names, uint64_t key);  /* the value of a key that is there, or NULL */
uint32_t *added_slot(struct names *names, uint64_t key); /* the same, with value 0 if it wasn't there; NULL: no room */
/* The value of a slot, or the new one if it has none. Of two that are put at once the first counts. */
static inline uint32_t settled(uint32_t *slot, uint32_t new) {
    uint32_t there = 0;
    return !new || SWAP(slot, &there, new) ? new : there;
}
void each_name(struct names *names, void (*visit)(uint32_t *value));

/* New entries go to one level, the main one, and to the next ones only if their line is full there. When that has happened often enough
   the next level is the main one. Entries are looked for in the main level, then in the ones before it, and then after it. */
static inline int nth_level(int main_level, int n) { return n <= main_level ? main_level - n : n; }
static inline bool is_crowded(uint64_t overflows, uint32_t line_bits) { return overflows > UINT64_C(1) << line_bits >> 3; }

uint32_t lock_object(uintptr_t lock); /* the object of a lock, or 0 */
const uint64_t *lock_slot(uintptr_t lock, uint32_t object, uint64_t *word); /* what says so, and with which word; NULL: it isn't */
uint32_t add_lock(uintptr_t lock, uint32_t object); /* of a lock that isn't there: the object that it is then, or 0 if there is no room */
uint32_t change_lock(uintptr_t lock, uint32_t before, uint32_t object); /* the object that a lock is then which was another one */
void drop_lock(uintptr_t lock);
void end_lock(uintptr_t lock); /* the same, and what was said of it has ended too */
void drop_locks_between(uintptr_t from, uintptr_t to);
void each_lock_between(uintptr_t from, uintptr_t to, void (*visit)(uintptr_t lock));

/* ---- modules.c */

struct module {
    uintptr_t from, to; /* all segments, the zeroed data after the file's included */
    uintptr_t bias;     /* an address less this is an address in the file */
    const uint8_t *unwinding; /* its .eh_frame_hdr, or NULL */
    uint32_t number;
    bool is_gone;
    uintptr_t own_from, own_bytes; /* of its thread-local part, where that begins from the thread pointer on; 0 bytes: none, or not
                                      always there */
    struct module *next;
};

void note_modules(void);
const struct module *known_module(uintptr_t address); /* of those that were found, or NULL */
const struct module *module_of(uintptr_t address);
uint64_t word_of(uintptr_t address);
void forget_closed_modules(void);
bool is_gone(uint32_t module);
bool own_part_word(intptr_t from_pointer, uint64_t *word);
bool is_in_unwinder(uintptr_t address);
bool put_path_of(uintptr_t address, char *path); /* of the module that has it, empty for the program itself; false: there is none */

/* ---- stacks.h */

/* Where one of our functions was called. */
struct call {
    uintptr_t caller, frame;
};
#define HERE ((struct call){CALLER, FRAME})

/* The value of a call with HERE among its arguments, if that is all that is left to do: the frame has to stay meanwhile, since the caller's rbp lies
   there. */
#define KEEPING_FRAME(expression)                                                                                      \
    ({                                                                                                                 \
        __typeof__(expression) value = (expression);                                                                   \
        __asm__ volatile("");                                                                                          \
        value;                                                                                                         \
    })

struct stack {
    uint64_t element; /* of an array that is allocated there, as in raw_place */
    uint32_t count;
    bool is_bounded; /* the end of the stack's memory is known */
    uintptr_t callers[RAW_FRAMES];
    uint32_t at[RAW_FRAMES]; /* where each was found, from the first frame on; nothing of the first, 0 of one that is too far */
};

void take_stack(struct stack *stack, struct call call, uint32_t most);
uintptr_t followed_to(struct call call, uintptr_t most);
struct span { /* the frame of a function that was called */
    uintptr_t from, to, function;
};
uint32_t take_spans(struct span *spans, struct call call, uint32_t most);
bool span_around(struct call call, uintptr_t address, struct span *span);
void forget_rules(void);
extern uint32_t rules_epoch; /* changes when a library is closed */
uint64_t stack_above(struct call call); /* the bytes of the stack from the call's frame on; 0 if that isn't known */
uintptr_t outer_caller(struct call call, uint64_t stack_bytes); /* of the function that made the call; 0 if that isn't known at once */
#define INNERMOST 4 /* the callers that a name has, and an operator of C++ */
struct few {
    uintptr_t callers[INNERMOST]; /* the innermost first */
};
bool quick_callers(struct call call, uint64_t stack_bytes, struct few *few); /* whether they are known at once */
bool has_returned(struct call call, struct call earlier, uintptr_t function); /* which was called there, further up on the stack */
bool is_left(struct call call, struct call earlier); /* a jump has left that call of a function of ours */
uint32_t returned_callers(const struct stack *earlier, uintptr_t frame, struct call call); /* so many of its functions have returned by now */
uintptr_t function_around(uintptr_t caller); /* where the function begins that goes on there; the same address if that isn't known */
bool has_word(uintptr_t address, uint32_t word);

/* ---- libraries.c: with LOCKDEP_LIBRARIES, only the locks of C libraries that a program in Python or Java has loaded */

#define MOST_OF_FOLDER 4032 /* bytes of its path, so that there is room for the name of a file */
extern uint32_t is_for_libraries;
extern char folder_of_libraries[MOST_OF_FOLDER];
bool waits_for_library(void);
bool comes_from_library(struct call call); /* the first such call begins the recording */
bool begin_with_library(void);
bool is_of_library(uintptr_t lock, struct call call); /* or the lock is a library's */
bool is_release_of_library(uintptr_t lock, struct call call);
void forget_callers(void);
/* Whether the call is to be recorded, of that lock, or whatever lock it is about. */
#define IS_WANTED(lock, call) (LIKELY(!is_for_libraries) || is_of_library(lock, call))
#define IS_WANTED_CALL(call) (LIKELY(!is_for_libraries) || comes_from_library(call))

/* ---- frames.c */

void note_frames(struct call call);
bool frame_with(uintptr_t lock, struct call call, uint64_t *function, uint64_t *offset);
bool own_part_with(uintptr_t lock, uint64_t *word);
bool is_on_stack(uintptr_t lock, struct call call);
bool is_below_end(uintptr_t lock, struct call call);

/* ---- heap.c */

void watch_malloc(void); /* its calls are to be recorded as those of a lock */
bool watches_malloc(void);
bool has_ended(uint64_t mark); /* the piece that was marked so */
void note_piece(void *piece, size_t size, uint64_t element, struct call call);
void drop_piece(uintptr_t address, size_t size);
struct memory { /* the piece that a lock is in */
    uint64_t from, bytes;
    uint32_t place; /* where it was allocated; 0 if that isn't known */
};
bool find_memory(uintptr_t lock, struct memory *memory);

/* ---- generations.c: of a lock that processes share */

void begin_generations(void); /* the process has mapped such memory */
uint32_t generation_of(uint32_t file, uint64_t offset);
uint32_t next_generation(uint32_t file, uint64_t offset); /* when it has just been initialised */

/* ---- mapped.c */

void *map_own(size_t bytes, int how, int file);
void unmap_own(void *from, size_t bytes);
uint32_t file_of(int descriptor);
bool find_shared(uintptr_t lock, uint32_t *file, uint64_t *offset);
void note_shared_before(void); /* what was mapped before the recording began */

/* ---- symbols.c */

void *find_next(const char *name); /* the function of this name that ours takes the place of, or NULL */
void *find_real(void **known, const char *name); /* the same, for the next time too */
bool finds_quickly(void);

/* The real function of this name. It is looked for when it is called first, since a program calls few of them. */
#define KNOWN_REAL(name) static void *real_##name;
#define FIND_REAL(name) find_real(&real_##name, #name);
/* The recorder begins before, whichever of these comes first: it makes the pages. Where it takes more than a look at what the libraries
   have, all are looked for at the start, since the loader's lock may not be waited
   for later. */
#define FIND_AT_START(REALS)                                                                                           \
    __attribute__((constructor)) static void at_start(void) {                                                          \
        begin_once();                                                                                                  \
        if (!finds_quickly()) {                                                                                        \
            REALS(FIND_REAL)                                                                                           \
        }                                                                                                              \
    }
#define REAL(name) ((__typeof__(&name))real_function(&real_##name, #name))
static inline void *real_function(void **known, const char *name) {
    void *real = LOAD(known);
    return LIKELY(real) ? real : find_real(known, name);
}

/* ---- also.c */

void *find_in_libraries(const char *name); /* of those of C++ */
void *find_in_unwinder(const char *name);
bool is_asked(int *known, const char *what); /* by LOCKDEP_ALSO */

/* ---- called.c */

void begin_name(struct raw_thread *part);
void take_early_name(struct raw_thread *part);
void forget_name(pthread_t thread);

/* ---- places.h */

uint32_t place_of(const struct stack *stack);
uint32_t place_of_caller(uintptr_t caller);
uint32_t place_of_call(struct call call, uint32_t most);
uint32_t place_of_some(struct call call, uint64_t salt, uint32_t (*telling)(const struct stack *stack));
struct memo;
struct asked { /* a call, what it makes, where its place is looked for, and how much of the stack there is */
    struct call call;
    uint64_t element; /* of an array, as in raw_place */
    uint64_t stack_bytes;
    struct memo *memos;
    uint64_t salt;
    bool is_tiny; /* without room for a mutex */
    uint64_t *mark; /* where what is given out is to be marked, or NULL */
};
uint64_t key_of_call(struct call call, size_t size, uint64_t element);
uint32_t place_of_plain(uint64_t key);
void ask_for_piece(struct asked *asked, struct call call, size_t size, uint64_t element, uint64_t key); /* before the piece is there */
uint32_t place_of_piece(const struct asked *asked);
void note_lock_from(uint32_t place); /* that a piece from there has one, when it is known of a place first */
void forget_places_in_closed_modules(void);
void forget_passing(void); /* (callers.c) */

/* ---- classes.c */

uint32_t object_of_lock(uintptr_t lock, struct call call); /* makes one of a new lock; 0: no room */
uint32_t apart(uintptr_t lock, uint32_t object); /* an object of its own for a nested lock, or the same */
uint32_t apart_early(uintptr_t lock, uint32_t object);
bool is_of_frame(uint32_t object, uint64_t function, uint64_t offset);
static inline uint32_t class_of(uint32_t object) { return ((struct raw_object *)part_of(RAW_OBJECTS, object))->class; }
/* Whether the object is a semaphore that was found to be no lock. */
static inline bool is_signal(uint32_t object) { return LOAD(&((struct raw_object *)part_of(RAW_OBJECTS, object))->is_signal); }
bool is_single(uint32_t object);
bool is_initialised_since(uint32_t object); /* the lock isn't this object any more */
bool is_in_shared_memory(uint32_t object);
bool is_lasting(uint32_t object, bool is_nested);
const uint8_t *looks_left_at(uint32_t class);
bool is_mapped_place(uint32_t place);
void note_size(uint32_t place, uint64_t bytes);
void look_at_taker(uint32_t class, uintptr_t lock, struct call call);
void know_by_place(uintptr_t lock, struct call call);
void know_by_text(uintptr_t lock, enum class_kind kind, uint32_t text, struct call call);
uint32_t reason_to_ignore(uint32_t object);
uint32_t class_of_threads(uintptr_t run, struct call call); /* that run a function */
uint32_t next_object(uint32_t class);
void note_given_out(uintptr_t lock);
uint32_t object_of_subclass(uintptr_t lock, uint32_t object, uint32_t subclass);
void know_by_file(uintptr_t lock, uint32_t file, uint64_t offset);
void forget_own_lock(uintptr_t lock); /* whose thread has ended */

/* ---- looks.c */

void look_at(struct raw_class *class, uintptr_t lock, const struct memory *memory, struct call call);
void look_further(uint32_t class, uintptr_t lock, const struct memory *memory, struct call call);

/* ---- threads.c */

#define TRIES (MODE_TRY_WRITE - MODE_WRITE) /* from a mode to that of a try */

/* What is taken, which says what it means if its thread has it already. A mutex says itself whether it is recursive. */
#define MUTEX_KIND_BITS 3 /* of what a mutex says */
enum kind {
    KIND_MUTEX,
    KIND_RWLOCK,
    KIND_SPIN,
    KIND_RECURSIVE, /* it is the same hold, once more (up to here what a thread takes and releases by calls of its own) */
    KIND_COUNTED,   /* each time is a hold of its own */
    KIND_THREAD,    /* the same, of a thread that ends */
    KIND_ONCE,      /* as a recursive one, of a routine that runs once: it doesn't know who runs it */
    KIND_LOADER,    /* as a recursive one, which the loader releases without a word */
};

void note_own_lock(uintptr_t lock);
void begin_threads(void);
void look_at_inherited(struct call call);

/* ---- inside.c */

bool begin_inside(struct call call);
void end_inside(void);
bool is_inside(void);
bool is_recording(void);
bool enter_recorder(struct call call); /* if so, end_inside is to follow */

/* ---- records.c */

struct held_lock {
    uintptr_t lock;
    uint32_t object, place;
};
bool nth_held(uint32_t n, struct held_lock *held); /* of this thread, the newest first */
uint32_t held_object(uintptr_t lock); /* as which this thread holds it; 0 if it doesn't */
bool is_held_once(uintptr_t lock);
bool is_any_held(void);
bool may_hold(uintptr_t lock);
bool has_trace(void);

/* ---- state_records.c */

void turned(struct call call); /* a signal was blocked or unblocked, or has got or lost its handler */

/* ---- releases.c */

void releasing(uintptr_t lock, struct call call);
bool releasing_own(uintptr_t lock, struct call call);
void released_unseen(uintptr_t lock, struct call call);
void leave_out(uintptr_t semaphore, struct call call);
void change_era(void);

/* ---- acquisitions.c */

void acquired(uintptr_t lock, uint8_t mode, enum kind kind, struct call call);
void acquired_anew(uintptr_t lock, uint8_t mode, enum kind kind, struct call call); /* without looking up whether it repeats */
void tried(uintptr_t lock, bool has_failed, struct call call);
void enter_loader(uintptr_t loader, uintptr_t function, struct call call);

/* ---- pending.c */

bool begin_pending(uintptr_t lock, uint8_t mode, enum kind kind, struct call call);
bool end_pending(uintptr_t lock, bool is_taken, struct call call);
bool begin_pending_end(uintptr_t thread, uint32_t object, uint8_t mode, struct call call); /* inside the recorder; end_pending is to follow */
void pass_end(uintptr_t thread, uint32_t object, uint8_t mode, struct call call); /* inside the recorder */
void pass_lock(uintptr_t lock, uint8_t mode, enum kind kind, struct call call); /* inside the recorder: it is taken and given back */
void end_own_pending(struct call call);
void note_waits_at_exit(void);

/* ---- initialised.c */

void initialised(uintptr_t lock, struct call call);
void destroyed(uintptr_t lock, struct call call);
void given_back(uintptr_t from, uintptr_t to, uintptr_t caller);
void end_own_holds(uintptr_t from, uintptr_t to, struct call call); /* inside the recorder */

/* ---- states.c */

extern uint64_t handled;       /* the signals that have a handler, as a mask */
extern uint32_t handlers_epoch; /* changes with it, and with which handlers these are; 0: none was ever installed */
QUICK bool is_following(void) { return __atomic_load_n(&handlers_epoch, __ATOMIC_RELAXED) != 0; }
QUICK uint64_t bit_of(int number) { return UINT64_C(1) << (number - 1); }
extern uint64_t armed; /* the signals that timers will send, as a mask */
void arm(uint64_t signals);
void install(int number, uint32_t source); /* 0: none */
uint32_t installed_source(int number);
uint32_t source_of(int number, uintptr_t handler, struct call call);
bool is_source_gone(uint32_t source);
uint32_t state_now(uint64_t *on);               /* of this thread, as it runs now */
uint64_t on_now(void);                          /* the signals that have a handler and are unblocked */
void know_mask(void);
void forget_mask(void);
struct raw_run *run_of(uint32_t source);        /* of the runs of a source in this thread, or NULL */
uint32_t own_system_thread(void);

/* ---- masks.c */

void set_mask(uint64_t mask, struct call call);

/* ---- runs.c: of signals' handlers. */

/* What a thread is in the midst of, besides what threads.c has. A signal's handler begins with nothing of it. */
struct midst {
    size_t array_asked_for; /* the size of an array that C++ asks for, from its operator `new[]` to the malloc that this comes to */
    struct once *once;      /* the routine that is about to run once */
    uintptr_t nested_lock;  /* what it says of its next acquisition of a lock (annotations.c) */
    uint32_t next_subclass, nested_object;
};

#ifdef __x86_64__
#define MOST_STUBS 512
#else
#define MOST_STUBS 64
#endif
struct action { /* what a stub stands for; all of it stays as it is once the handler is there, but for the source of one that is gone */
    uintptr_t handler; /* written last */
    uint64_t mask;
    uint64_t blocks; /* the mask, and the signal itself unless the program doesn't want that */
    int flags;
    int number;
    uint32_t source;
    bool is_odd; /* a run of it needs more than a look: the handler is gone then, or the signal may come from what the code does */
} __attribute__((aligned(64)));
extern struct action actions[MOST_STUBS];
bool may_be_continuation(int number);
uintptr_t stub_numbered(uint32_t n);
int number_of_stub(uintptr_t address); /* -1 if it is none */
extern uint32_t own_id; /* the system's number of this process */
struct sender { /* the signals that the program has it send to one thread, and to a process */
    uint64_t to_threads, to_processes;
};
enum { TIMERS, QUEUES, OWNED_FILES, SENDERS };
extern struct sender senders[SENDERS];
void note_owner(int number, bool is_thread); /* of a file, which sends the signal; 0: the one that files send otherwise */
void leave_for(const ucontext_t *to, struct call call); /* the thread goes on there */

/* ---- timers.c */

void know_timer(timer_t timer, int number); /* which signal it sends; 0: none */
bool has_fired(int number, const siginfo_t *info);
extern bool are_timers_untold; /* whether one has fired in a handler that runs */
void tell_timers(void);

/* ---- library.c: what the C library locks inside, if that is wanted. */

void use_allocator(struct call call);
void use_allocator_in_fork(struct call call);

/* ---- joins.c */

/* What there was when a thread was about to be started: so many traces, and runs of sources in threads; and the number of the start, or 0. */
struct starting {
    uint32_t traces, runs, life, number; /* the last one of the history */
};
uint32_t start_of_this_thread(void);
struct starting begin_start(struct call call);
void note_start(pthread_t thread, uintptr_t run, struct starting starting, struct call call);
void note_trace(struct raw_thread *part, uint32_t number);
void note_run(struct raw_run *run); /* whose process is known */
bool is_first_thread(void);

/* ---- annotations.c */

extern uint32_t is_anything_said; /* about how locks are to be recorded */
void name_lock(uintptr_t lock, const char *text, struct call call); /* inside the recorder */
uint32_t object_as_said(uintptr_t lock, uint32_t object, uint8_t *mode, enum kind kind, struct call call); /* 0 if it isn't recorded */
bool is_ignored(uintptr_t lock);
bool count_ignored(uintptr_t lock); /* if it is */
uint32_t subclass_held(uintptr_t lock);
void say_subclass(uintptr_t lock, uint32_t subclass); /* of the next acquisition by this thread */
bool end_nesting(uintptr_t lock);
void keep_nesting(uintptr_t lock);
void forget_words(uintptr_t lock); /* which is no more */

#endif
