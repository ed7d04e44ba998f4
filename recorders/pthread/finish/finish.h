/* What the parts of `finish` share. */
#ifndef LOCKDEP_FINISH_H
#define LOCKDEP_FINISH_H
#ifndef _GNU_SOURCE
#define _GNU_SOURCE
#endif

#include "../raw.h"

#include <stdbool.h>
#include <stddef.h>
#include <stdint.h>
#include <stdio.h>
#include <stdlib.h>

#define MAX_KEYS 8192 /* of a checked run */
#define MAX_HELD 48   /* of a task */
#define MAX_EVENTS 1000000
#define MAX_NAME 53   /* of a class, in bytes: the format's 64 less what tells its objects apart, as `#rest^12345` */
#define MAX_OBJECT_NAME 64
#define MAX_TYPE 44   /* of what comes before `@` and eight digits */

void refuse(const char *what, const char *name) __attribute__((noreturn));
void refuse_file(const char *what, const char *path) __attribute__((noreturn)); /* for the reason that errno has */
void *checked(void *p);

/* A list's room, doubled as it grows. */
#define PUSH(list, count, value)                                                                                       \
    do {                                                                                                               \
        if (((count) & ((count)-1)) == 0)                                                                              \
            (list) = checked(realloc((list), ((count) ? 2 * (count) : 1) * sizeof *(list)));                           \
        (list)[(count)++] = (value);                                                                                   \
    } while (0)

/* ---- symbols.c: modules and their symbols. */

enum symbol_kind { SYMBOL_CODE, SYMBOL_DATA, SYMBOL_THREAD };

struct symbol {
    uint64_t value, size; /* of SYMBOL_THREAD the value is an offset in the module's thread-local part */
    const char *name;
    enum symbol_kind kind;
    enum { NOT_KNOWN, IS_SO, IS_NOT_SO } overloaded; /* as far as names.c has looked */
};

struct module {
    char *path;
    const char *base; /* the path's last part */
    struct symbol *symbols;
    size_t symbol_count;
    bool takes_locks; /* it imports a function that takes one */
    bool is_go, is_rust;
    bool has_debug;  /* debug information, in itself or as `names` found it */
    bool is_unnamed; /* a class was made in it that has no type */
};

extern struct module *modules;
extern size_t module_count;

uint32_t module_named(const char *path);
const struct symbol *symbol_at(uint32_t module, uint64_t offset, enum symbol_kind kind);

/* ---- arenas.c: what the preload library left. */

#define NO_KEY (-1)

struct place { /* the callers that name it, from the innermost one, with modules of all recordings */
    uint32_t count;
    uint32_t maker; /* made of the calls in functions that only make a lock for their caller, which were passed over; 0 if none was */
    bool is_read, is_of_making; /* of what a lock is known by: where it was initialised, or its memory allocated */
    uint64_t words[RAW_FRAMES];
};

struct arena {
    const struct raw_arena *raw;
    uint64_t bytes;
    const char *path;
    const struct type **types; /* of its classes; NULL of a class without one */
    uint32_t *modules; /* from its numbers to those of all */
    struct place *places;
    int *keys;         /* of its classes: one more than the key's number, 0 if it has none yet */
    int **object_keys; /* of each of its processes, and there of each object: one more than the key's number, 0 if it has none yet */
    uint8_t *threads;    /* of its objects that are threads, as joins.c says; NULL if none is joined */
    uint32_t *traces;    /* of its threads: the numbers that these have as files; 0 of one without */
    bool *has_events;    /* of its threads: whether there is anything in their traces, which aren't all written */
    uint32_t *processes; /* from its numbers to those of all; 0 if it locked nothing */
    struct source **sources; /* of its sources of interrupts, what is known of each in all recordings */
};

extern struct arena *arenas;
extern size_t arena_count;
extern uint64_t process_count, refused_count;

void read_arenas(const char *folder);
void forget_looks(void); /* takes what was on the programs' stacks out of the recording */
uint32_t count_of(const struct arena *a, enum raw_kind kind);
const void *part_of(const struct arena *a, enum raw_kind kind, uint32_t number);
uint64_t global_word(const struct arena *a, uint64_t raw);
const struct place *place_numbered(struct arena *a, uint32_t number);

/* A thread's records. */
const struct raw_record *record_of(const struct arena *a, const struct raw_thread *t, uint64_t index);
const struct raw_record *state_record_of(const struct arena *a, const struct raw_thread *t, uint64_t index);
uint32_t class_of(const struct arena *a, uint32_t object);

/* ---- arrays.c */

void find_arrays(void);
bool in_element(struct arena *a, const struct raw_class *class, uint64_t *member);

/* ---- requests.c */

enum request { ASKED_UNKNOWN, ASKED_OBJECT, ASKED_ARRAY };

void ask_about(const struct place *place);
void ask_all(void);
enum request request_of(struct arena *a, uint32_t place);

/* ---- sources.c */

void note_source(const char *path);
const char *short_source(const char *path); /* its last parts, as many as no other one has that was noted */

/* ---- types.c: what `names` found. */

struct type {
    const char *full, *rule;
    bool is_variable; /* a static variable that is a lock itself */
    char text[MAX_TYPE + 1]; /* as it stands in a name */
};

void read_types(void);
void spread_types(void); /* to all classes of a place; needs the arrays */
void note_unnamed(uint32_t module); /* locks of the module have no type */
uint64_t unnamed_modules(void); /* those of the program without debug information */
uint64_t unread_programs(void); /* those whose debug information wasn't read */

/* ---- names.c */

#define LONGEST_NAME 4096 /* before it is shortened */

struct key {
    char name[MAX_NAME + 1];
    char *identity; /* what the name stands for: two classes of one name aren't mixed up */
    const struct type *type;
    char *place; /* in full, if the name has a type */
    const struct place *made; /* by which callers; NULL of one that isn't known by them */
    uint64_t at;
    enum class_kind kind;
    const char *path; /* of a file that the lock is in, `at` being where */
};

extern struct key *keys;
extern size_t key_count;
extern int frames;

void read_wrappers(const char *beside);
enum passing { PASSED_NEVER, PASSED_WHERE_MADE, PASSED_ALWAYS };
enum passing passing_of(uint64_t word);
bool is_of_program(uint64_t word);
bool is_outermost(uint64_t word);
bool is_in_fork(uint64_t word);
uint32_t hash_of(const char *text);
void fill_spaces(char *name);
void tell_symbol(char *text, size_t room, const char *symbol);
void tell_place(char *text, size_t room, const struct place *place, bool plainly);
void tell_class(char *text, size_t room, struct arena *a, const struct raw_class *class, bool plainly);
int key_of(struct arena *a, uint32_t class);

/* ---- shared.c */

void find_shared(void);
int class_key_of(struct arena *a, uint32_t object);
bool is_signal(struct arena *a, uint32_t object);
bool is_left_out(struct arena *a, uint32_t object);
uint64_t signals(void);
int *shared_number(struct arena *a, uint32_t object);
bool has_later_ones(struct arena *a, uint32_t object);
void forget_shared_numbers(void);

/* ---- joins.c */

void find_joins(void);
static inline bool waits_for_ever(const struct raw_thread *t) { return t->waits && t->waits != RAW_WAITS_FOR_A_TIME; }
bool is_thread(const struct arena *a, uint32_t object);
bool is_thread_left_out(const struct arena *a, uint32_t object);
uint32_t own_object(const struct arena *a, const struct raw_thread *t);
const struct place *start_of(struct arena *a, uint32_t object, struct place *room);
bool is_going_on(const struct arena *a, uint32_t object);

/* ---- looking.c */

bool is_loaded_file(const struct module *m);
void become_look(void);

/* ---- starts.c */

uint32_t way_of_start(struct arena *a, uint32_t class); /* the same number for all that were started alike; 0 if that isn't known */

/* ---- lives.c */

void write_lives(const char *folder);

/* ---- objects.c */

void name_objects(void);
int key_of_object(struct arena *a, uint32_t process, uint32_t object);
void tell_object(char *text, size_t room, int number);

/* ---- annotations.c: what the programs said of their locks. */

uint32_t class_itself(const struct arena *a, uint32_t class); /* without its subclass */
uint32_t object_itself(const struct arena *a, uint32_t object);
unsigned subclass_of(const struct arena *a, uint32_t object);
const struct raw_text *text_of(const struct arena *a, const struct raw_class *class);
uint64_t ignored_acquisitions(void);
void write_reasons(FILE *file);
void find_breaches(void);
uint64_t breaches(enum breach_kind kind);
void write_breaches_of(FILE *file, enum breach_kind kind);
void write_breaches(const char *folder);

/* ---- repeats.c */

struct content { /* of a trace: two traces of the same say the same */
    uint64_t sums[2];
};

void expect_traces(uint64_t count);
void add_content(struct content *content, uint64_t what);
bool is_duplicate(const struct content *content, uint32_t trace); /* of two others, so that it isn't written; else it has that number */
bool stands_for_others(uint32_t trace);
void write_stand_ins(FILE *file); /* which traces stand for how many others */

/* ---- sets.c: what signals' handlers may interrupt. */

struct source; /* a signal with a handler */

void write_sets(const char *folder);
uint64_t threads_with_events(void); /* of the system's: a thread and the runs in it are one */
bool is_queued(struct arena *a, uint32_t process, uint32_t object, enum mode mode); /* as a reader of a read-write lock behind a waiting writer */
bool comes_late(const struct source *source); /* only when its thread has taken its last lock */
bool may_interrupt(const struct source *source, const struct arena *a, const struct raw_thread *t, uint32_t state);
void write_sources(FILE *file);
const char *tell_signal(char *text, size_t room, unsigned number);

/* ---- traces.c */

struct sums {
    uint64_t threads, operations, events, classes, deep, in_fork, alike, waiting, waiting_at_exit, held_at_end;
    struct raw_left_out raw;
};

extern struct sums sums;

void write_traces(const char *folder);
bool write_in_set(const char *folder, const struct source *source, struct arena *a, const struct raw_thread *raw, uint32_t number, bool is_frame);
void end_set(void);
void write_waiting(FILE *file);
void write_held_at_end(FILE *file);

/* ---- events.c */

void write_name(FILE *file, const char *name);
void write_dropped(FILE *file);

/* ---- histories.c */

void write_histories(const char *folder);
void write_histories_left_out(FILE *file);

/* ---- files.c */

FILE *created(const char *path);
void closed(FILE *file, const char *path);
void begin_places(FILE *file, uint32_t each); /* the callers of each record */
void write_place(FILE *file, const struct place *place);
void write_classes(const char *folder);
void write_quoted(FILE *file, const char *text, size_t most);

/* ---- summary.c. What stands under a count is written by the file that knows it. */

void begin_entry(FILE *file);
void write_loss(FILE *file, const char *code, uint64_t count);
void write_summary(const char *folder);

#endif
