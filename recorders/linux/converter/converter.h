/* What the parts of the converter share: makes traces from a recording of a kernel. The README says how it is called and what it leaves.

   base.c has options, counts and reasons, recording.c the files of a recording, symbols.c, classes.c and keys.c what its addresses mean. records.c
   goes through it with switches.c, over books.c (what a task holds) and traces.c (its events); limit.c, output.c and summary.c write. */
#ifndef LOCKREC_CONVERTER_H
#define LOCKREC_CONVERTER_H
#include "../record.h"

#include <regex.h>
#include <stdbool.h>
#include <stddef.h>
#include <stdint.h>
#include <stdio.h>
#include <stdlib.h>
#include <string.h>

/* ---- base.c */

#define DEFAULT_KEYS 8192  /* of a run of `lockdep check --many` */
#define MAX_HELD 48        /* kept locks of one task, in the kernel and in a trace */
#define MAX_NAME 64        /* bytes of a class's name in a trace */
#define MAX_EVENTS 1000000 /* of one trace */
#define MAX_TRACES 4096    /* of a run */
#define MAX_CPUS 1024
#define SUBCLASSES 8
#define MODULE_REACH 65536 /* bytes from a symbol of a module to what still belongs to it */
#define ALIKE 2            /* traces that have to say the same before another that does is left out */
#define LEFT_OUT (-1)      /* the key of a lock that isn't written */

/* Why a clean report of these traces wouldn't say that all was looked at. The code is for programs, in summary.json. */
#define MAX_REASONS 32

struct reason {
    const char *code;
    char text[240];
};

/* A list's capacity, doubled as it grows. */
#define PUSH(list, count, value)                                                                                       \
    do {                                                                                                               \
        if (((count) & ((count)-1)) == 0)                                                                              \
            (list) = checked(realloc((list), ((count) ? 2 * (count) : 1) * sizeof *(list)));                           \
        (list)[(count)++] = (value);                                                                                   \
    } while (0)

_Static_assert(sizeof(struct lr_record) == 40, "a record has 40 bytes");

struct options {
    const char *raw, *folder, *symbols, *only_module;
    int version;
    unsigned long keys, most_traces;
    bool repeats, full_names;
    bool is_only;
    regex_t only;
};

/* What is printed at the end. */
struct counts {
    unsigned long records, acquisitions, releases, events, traces;
    unsigned long agreed, mismatches, lost, gaps, blind;
    unsigned long taken_in_flight, given_in_flight;
    unsigned long unmarked_interrupts; /* that no tracepoint told of, after one in which an operation was in flight */
    unsigned long unchecked, tries, not_looked_at, readers, not_chosen, unknown_releases, beyond_limit;
    unsigned long nested;        /* acquisitions under a nest_lock, with another lock of their class held */
    unsigned long off;           /* events after lockdep turned itself off, or of a recording without its account */
    unsigned long after_lockdep; /* events since the last one that lockdep looked at */
    unsigned long before_first_task; /* records of a CPU before its first task */
    unsigned long cut_files;
    unsigned long absent, misplaced, unknown_types; /* records that damage took away, put elsewhere, or overwrote */
    unsigned long unproven;      /* acquisitions of a text of which it isn't known until when the lock was held */
    unsigned long alike;         /* tasks that are left out, since others said the same */
    unsigned long shared;        /* tasks that share a trace with others */
};

extern struct options options;
extern struct counts counts;
extern struct reason reasons[MAX_REASONS];
extern int reason_count;

__attribute__((format(printf, 2, 3))) void incomplete(const char *code, const char *format, ...);
_Noreturn void refuse(const char *what, const char *why);
void *checked(void *memory);
uint64_t mix(uint64_t sum, uint64_t word);

/* ---- recording.c */

struct cpu {
    const struct lr_record *slots;
    size_t slot_count;
    size_t next;   /* the slot that comes next in the order of numbers */
    uint64_t base; /* from LR_CPU */
    bool is_there, is_based, is_in_gap;
    struct task *task;                /* that runs on it */
    const struct lr_record *switched; /* an LR_TASK whose list isn't whole yet */
    const struct lr_record *list[MAX_HELD];
    size_t list_count;
    uint64_t nest_lock; /* of the next acquisition */
};

/* One record, its CPU, and whether records of this CPU were lost right after it. */
struct item {
    const struct lr_record *record;
    int cpu;
    bool is_before_gap;
};

#define NOT_SAID SIZE_MAX

/* A symbol of the kernel that was recorded, and where it lies. */
struct landmark {
    uint64_t address;
    const char *name;
};

/* What `control` says of the recording. */
struct control {
    bool is_there;
    bool is_of_text; /* it was made of text, in which more is missing */
    bool is_without_softirqs, is_without_interrupts; /* the text doesn't say whether softirqs are off, or what is an interrupt */
    bool is_lockdep_off; /* lockdep had turned itself off at the end */
    size_t symbols, modules; /* bytes of these files, or NOT_SAID */
    unsigned long lost, nested; /* records for which there was no room, and events that came while one was written */
    char missing[160];          /* tracepoints that this kernel doesn't have */
    struct landmark *landmarks;
    size_t landmark_count;
};

extern struct cpu cpus[MAX_CPUS];
extern int cpu_count;
extern int open_gaps; /* how many CPUs are losing records */
extern struct control control;

char *read_file(const char *path, size_t *size);
char *read_raw(const char *name, size_t *size);
void load_cpus(void);
void begin_items(void);
bool next_item(struct item *item);
void check_item(const struct item *item);
void compare_control(void);

/* ---- symbols.c */

#define NO_LOAD (-1)
#define SYMBOLS_AROUND 4096 /* of modules, how many are looked at below an address */

/* A module, as often as it was loaded. */
struct load {
    const char *name;
    uint64_t from, until; /* numbers of records */
    uint64_t start;       /* from which distances are measured: its `__this_module`, which lies among its variables */
};

struct symbol {
    uint64_t address;
    size_t line; /* symbols of one address stay in the order of the file */
    const char *name;
    int load; /* NO_LOAD: of the image */
};

extern struct symbol *symbols;
extern struct load *loads;
extern uint64_t image_start, image_end, percpu_start, percpu_end, no_validate;
extern bool are_keys_hidden; /* it isn't known of all keys whether they are in the image or a module */

void load_symbols(void);
const struct symbol *symbol_at(uint64_t address, uint64_t number);
const struct symbol *function_at(uint64_t place, uint64_t number);
int load_at(uint64_t address, uint64_t number);
int loads_of(const char *name);
bool is_unload_between(uint64_t from, uint64_t until);

/* ---- classes.c */

/* A name as the kernel has it, and how many keys have it: in the image and in modules, and in memory. */
struct name {
    char text[LR_NAME_ROOM + 1];
    int static_keys, other_keys;
    bool is_apart; /* its keys in memory are several classes */
};

struct class {
    uint64_t key; /* in a module: the distance from its start, which is the same as often as it is loaded */
    size_t name;
    bool is_static, is_percpu;
    const char *module;          /* NULL: its key isn't in a module */
    const struct symbol *symbol; /* that contains the key; NULL: none is known */
    size_t written;              /* its name in the traces, see below */
    uint64_t taker, taken_at;    /* who takes it first, and at which record; 0: nobody */
    uint64_t caller, first, last; /* the same of all records, and its last one, which may be a release */
    int turn; /* of a key in memory: 1, or more if it is another class than others of its name with the same first taker */
};

/* A name as the traces have it, and the acquisitions of each of its subclasses. */
struct written {
    char text[MAX_NAME + 1];
    bool is_of_module; /* of --only-module */
    int other_keys;    /* in memory, that have it */
    unsigned long uses[SUBCLASSES];
    bool is_chosen[SUBCLASSES];
};

extern struct name *names;
extern size_t name_count;
extern struct class *classes;
extern size_t class_count;
extern struct written *writtens;
extern size_t written_count;

uint64_t base_key(const struct lr_record *record);
void learn_name(const struct lr_record *record);
size_t class_of_record(const struct lr_record *record);
void note_use(const struct lr_record *record);
bool is_ambiguous(const struct class *class);
bool is_nameless(const struct class *class);
void name_classes(void);
void forget_names(void);

/* ---- keys.c */

extern size_t keys_wanted, keys_chosen;

bool is_event(const struct lr_record *record);
bool is_lock(const struct lr_record *record);
bool is_try(const struct lr_record *record);
bool is_checked(const struct lr_record *record);
bool is_writable(const struct lr_record *record);
unsigned long *uses_of_key(size_t key);
void choose_keys(void);

/* ---- traces.c */

enum frame { TASK, SOFTIRQ, HARDIRQ };
enum mode { WRITE, READ, REC_READ, TRY_WRITE, TRY_READ, TRY_REC_READ };
enum kind { ACQ, REL, ENTER, LEAVE, ON, OFF };

struct event {
    uint8_t kind, what; /* a mode, or SOFTIRQ or HARDIRQ */
    int key;
    uint64_t place, number; /* of an acquisition or a release: its caller, and the number of its record */
};

/* A lock that the task holds. */
struct held {
    uint64_t instance;
    int key; /* LEFT_OUT: it isn't written */
    enum mode mode;
    int level;      /* the number of its frame, from the outermost */
    int references; /* 0, or how many locks of its class it represents, taken under a nest_lock: lockdep counts that way */
    uint64_t class_key;
    uint64_t place, number; /* of its acquisition */
    bool is_nested;         /* taken under a nest_lock */
};

/* What came last in a frame. */
enum last { NOTHING, TOOK, GAVE };

/* An open frame. `difference`: how many locks lockdep had more than the book at its first record. */
struct level {
    enum frame frame;
    bool is_on[3]; /* by SOFTIRQ and HARDIRQ */
    int difference;
    enum last last;
    bool is_taking, is_giving; /* in flight: `taking`, or what was released last */
    struct held taking;
};

struct task {
    uint64_t address;
    uint32_t pid;
    bool is_reader;
    char comm[17];
    struct level levels[3];
    int level;
    struct held book[MAX_HELD + 1];
    int held;
    bool is_new, is_blind, is_full, is_after_gap;
    bool is_unsure; /* its account began at an interrupt or its end, below which an operation may be in flight that wasn't recorded */
    struct event *events;
    size_t event_count;
    uint64_t *states; /* the sum of the state before each event, and of the one after the last */
    size_t state_count;
    size_t barrier;        /* no stretch that begins before this event is dropped */
    uint64_t *seen;        /* sums of chains, by hash */
    size_t seen_room, seen_count;
    struct stretch *stretches; /* where a state was met since the barrier, by hash */
    size_t stretch_room, stretch_count;
    unsigned long acquisitions;
    size_t order;     /* in which it was met */
    bool is_left_out; /* beyond what a run takes: others said the same */
    char trace[64];   /* the name of its trace; empty: it has none */
};

extern const char *const mode_names[];
extern const char *const irq_names[];
extern struct task **tasks;
extern size_t task_count;

struct level *top(struct task *task);
uint64_t sum_of_held(const struct task *task, int from_level, uint64_t sum);
uint64_t sum_of_flags(const struct level *level);
uint64_t sum_of_state(const struct task *task);
bool is_news(struct task *task, uint64_t chain);
void take_back_repeat(struct task *task, uint64_t state);
void push_state(struct task *task, uint64_t state);
void add_event(struct task *task, struct event event, bool is_new);

/* ---- books.c */

void take(struct task *task, struct held held);
void give(struct task *task, int place, const struct lr_record *record);
void set_flag(struct task *task, enum frame irq, bool is_on);
int held_in_frame(const struct task *task);
void leave(struct task *task);
void enter(struct task *task, enum frame irq, int depth);
void drop_all(struct task *task);
bool has_depth(const struct lr_record *record);
void go_blind(struct task *task);
void mismatch(struct task *task);
bool leave_frames(struct task *task, int state);
void enter_frames(struct task *task, int state, int depth);
void set_flags(struct task *task, int state);
void end_flight(struct task *task);
bool does_agree(struct task *task, int depth);

/* ---- records.c */

struct held held_of(const struct lr_record *record);
void step(struct task *task, const struct lr_record *record, uint64_t nest_lock);

/* ---- switches.c */

void convert(void);
void learn(void);

/* ---- limit.c */

bool has_trace(const struct task *task);
void limit_traces(void);

/* ---- output.c */

FILE *open_file(const char *name);
void close_file(FILE *file);
void keep_files(void);
void write_traces(void);
void write_classes(void);

/* ---- summary.c */

void tell_takers(FILE *file);
void tell_summary(FILE *file);
void note_incomplete(void);
void note_left_out(void);
void tell_reasons(FILE *file);
int tell_faults(void);
void write_json(void);

#endif
