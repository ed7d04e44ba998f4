/* What the preload library leaves for `finish`: one file for each program that was run, FOLDER/raw/PROCESS-N.arena. The file is
   sparse and mapped whole when the program starts. Threads, records and definitions take their parts of it by atomic additions,
   so it needs no descriptor and no system call later, and a process that dies loses nothing. A forked child goes on in its
   parent's file. FOLDER/raw/PROCESS-N.refused stands for a program whose file couldn't be made. In FOLDER/raw/generations the
   processes count how often locks that they share were initialised; objects say what they read there.

   Numbers of places, classes, objects, modules, processes and threads count from 1; 0 is none. */
#ifndef LOCKDEP_RAW_H
#define LOCKDEP_RAW_H

#include <stdbool.h>
#include <stdint.h>
#include <string.h>

/* "lockrecg", little endian: its last letter is another one when what follows is laid out in another way. */
#define RAW_MAGIC UINT64_C(0x676365726b636f6c)

/* The file's size, if no limit forbids it, and the size under which a recording may well be too small. */
#define RAW_BYTES (UINT64_C(4) << 30)
#define RAW_SMALL (UINT64_C(16) << 20)
#define RAW_LEAST (UINT64_C(32) << 10)

/* How many records of one thread are kept. A trace may have 1,000,000 events; the rest is room for the releases of locks
   that are held when this is reached. */
#define RAW_LIMIT 999000

/* How many locks one thread may hold before the recorder leaves out further ones. */
#define RAW_HELD 1024

/* The most callers that are recorded for one place. */
#define RAW_FRAMES 16

/* Objects of one class that are told apart; the rest of them share a name. So many are before they are nested. */
#define RAW_APART 32
#define RAW_EARLY 8

/* A thread's records lie in chunks: the first has room for so many, and each further one for twice as many. */
#define RAW_FIRST_CHUNK 64
#define RAW_CHUNKS 14

#define RAW_PATH 500

enum mode { MODE_WRITE, MODE_READ, MODE_REC_READ, MODE_TRY_WRITE, MODE_TRY_READ, MODE_TRY_REC_READ, MODE_RELEASE, MODE_STATE };

/* Added to the mode of an acquisition: the program says in which order locks of the class are nested, and this one comes after all of them
   that are held. And of one that comes under others: the wait for it gives up at a time; it is a routine that had run once, for which the thread
   would have waited a little earlier. */
#define RAW_IN_ORDER 8
#define RAW_TIMED 16
#define RAW_DONE 128
#define RAW_WEAK (RAW_TIMED | RAW_DONE)

/* One acquisition or release: the object in the low 24 bits and the mode above them, and where it happened. Of MODE_STATE it is the state that
   the thread is in from there on, instead of an object; until then it is in none. */
struct raw_record {
    uint32_t what;
    uint32_t place;
};

#define RAW_OBJECT_BITS 24

static inline uint32_t raw_what(uint32_t object, uint32_t mode) { return mode << RAW_OBJECT_BITS | object; }
static inline uint32_t raw_object(uint32_t what) { return what & ((UINT32_C(1) << RAW_OBJECT_BITS) - 1); }
static inline enum mode raw_plain(uint32_t mode) { return (enum mode)(mode & (RAW_IN_ORDER - 1)); }
static inline enum mode raw_mode(uint32_t what) { return raw_plain(what >> RAW_OBJECT_BITS); }
static inline int raw_has(uint32_t what, uint32_t added) { return (what >> RAW_OBJECT_BITS & added) != 0; }

/* An address as a module's number and an offset in its file, in 16 bits and 48; RAW_NOWHERE where it is in no module. */
#define RAW_NOWHERE UINT64_C(0xffff)

static inline uint64_t raw_word(uint64_t module, uint64_t offset) {
    return module << 48 | (offset & UINT64_C(0xffffffffffff));
}
static inline uint32_t raw_word_module(uint64_t word) { return (uint32_t)(word >> 48); }
static inline uint64_t raw_word_offset(uint64_t word) { return word & UINT64_C(0xffffffffffff); }

/* The kinds of parts that are numbered. Each kind has its region of the file, in this order: what a program goes on to use comes first,
   where the pages are made at the start. */
enum raw_kind { RAW_PROCESSES, RAW_PLACES, RAW_MODULES, RAW_CLASSES, RAW_OBJECTS, RAW_TAKES, RAW_FILES, RAW_PROGRAMS, RAW_THREADS, RAW_LOOKS,
                RAW_TEXTS, RAW_BREACHES, RAW_LIVES, RAW_SOURCES, RAW_RUNS, RAW_STATES, RAW_KINDS };

struct raw_process {
    uint32_t id; /* the system's number of it; written last */
    uint32_t parent;
    uint64_t history_end; /* the time from which on steps may be missing in its history; 0: none is */
    uint64_t first;       /* the pthread_t of the thread that it began with */
};

struct raw_module {
    uint32_t is_ready;
    uint32_t process; /* which process found it */
    uint64_t bias;    /* an address less this is an address in the file */
    char path[RAW_PATH + 4];
};

/* What is asked of an allocator: for an array the size of an element, or RAW_ARRAY if only that it is one is known. */
#define RAW_ARRAY 1
#define RAW_MAPPED 2 /* it isn't an array: the program mapped the memory itself */

/* A program has many stacks, of which few outer parts differ: so a place has its innermost callers, and the place of the others. */
#define RAW_NEAR 4

struct raw_place {
    uint32_t count; /* how many callers there are; written last */
    uint32_t rest;  /* the place of those after the first RAW_NEAR */
    uint64_t element; /* what was asked for there; 0 if it is nothing of these */
    uint64_t bytes;   /* of a piece of memory with a lock that was allocated there; 0 if there was none */
    uint64_t steps;   /* by multiples of this other such pieces are longer or shorter */
    uint64_t callers[RAW_NEAR];
};

/* By what a lock is known: where it was initialised, its symbol, where its memory was allocated, the function in whose frame it lies,
   the thread-local symbol, the file that it is in, or, if nothing else is known of it, where it was taken first. A thread that is
   joined is known by the function that it runs, or by where it was started. A class is also a subclass of another one. What the
   program says comes before all this: the name that it gives, or that it ignores the lock. The last three are of locks that may lie
   in a frame. */
enum class_kind { CLASS_NONE, CLASS_INIT, CLASS_STATIC, CLASS_HEAP, CLASS_THREAD, CLASS_TAKE, CLASS_FILE, CLASS_RUN, CLASS_NESTED, CLASS_STACK,
                  CLASS_NAMED, CLASS_IGNORED, CLASS_KINDS };

struct raw_class {
    uint32_t kind; /* written last */
    uint32_t place;  /* of CLASS_INIT, CLASS_HEAP and CLASS_TAKE; of CLASS_FILE the file, of CLASS_NESTED the class that it is a subclass of, of
                        CLASS_NAMED and CLASS_IGNORED the text */
    uint64_t word;   /* of CLASS_STATIC the lock's address, of CLASS_STACK and CLASS_RUN the function's, of CLASS_THREAD that in the module's
                        thread-local part; of CLASS_NAMED and CLASS_IGNORED as of CLASS_STACK, or 0 if the lock is in no frame */
    uint64_t offset; /* of CLASS_HEAP in the piece of memory, of CLASS_STACK down from the frame's end, of CLASS_FILE in the file, of
                        CLASS_NESTED the subclass */
    uint32_t look;   /* at the first lock of it; 0 if there was none yet, or RAW_NO_LOOK */
};

#define RAW_NO_LOOK UINT32_MAX

/* What `names` finds the lock's type by: where the first lock of a class was, and what the thread that met it had then in the registers
   that a call keeps and on its stack, from the recorder's own frames on. One place can make locks of two types: so some further ones of a
   class are looked at too, which may show that the first one says nothing of them all. */
enum raw_register { RAW_RBX, RAW_RBP, RAW_RSP, RAW_R12, RAW_R13, RAW_R14, RAW_R15, RAW_RIP, RAW_REGISTERS };

#define RAW_LOOK_PROGRAM 1024 /* bytes of the program's frames */
#define RAW_LOOK_STACK 1536   /* and those of the recorder before them */

struct raw_look {
    uint32_t is_ready; /* written last */
    uint32_t bytes;    /* of the stack, from the stack pointer on */
    uint64_t further; /* the class, if it was looked at before; else 0 */
    uint64_t lock;
    uint64_t piece, piece_bytes; /* the piece of memory that it is in; 0 if it is in none */
    uint64_t piece_place;        /* where that was allocated */
    uint64_t registers[RAW_REGISTERS];
    unsigned char stack[RAW_LOOK_STACK];
};

/* What a lock that a handler takes knows of who has it: a mutex its owner, if it is recursive or checked for errors, and a read-write lock its
   writer. It knows that a moment after it is taken, and not any more a moment before it is released. IS_OTHER: it is neither of these. */
enum raw_knows { KNOWS_NOTHING, KNOWS_OWNER, KNOWS_WRITER, IS_OTHER };

struct raw_object {
    uint32_t class;   /* written last */
    uint32_t ordinal; /* among the objects of the class that are told apart, from 1; 0 for all the others together */
    uint64_t offset;  /* in the file; of a lock that is in none and is taken as one of a subclass, its object without that */
    uint32_t file;    /* of a lock that processes share; else 0 */
    uint32_t is_signal; /* it is a semaphore that isn't used as a lock: nothing of it goes into the traces */
    uint32_t knows;   /* an enum raw_knows, of a lock that a handler took */
    uint32_t generation; /* of a lock that processes share: one more than how often it was initialised; 0 if that isn't known */
};

/* The ordinal of an object that processes share. It has no other one. */
#define RAW_SHARED (RAW_APART + 1)

/* The last generation of such a lock, which stands for all later ones too. */
#define RAW_GENERATIONS 32

/* Memory that processes share, or a file that is locked itself. */
struct raw_file {
    uint32_t is_ready;
    uint32_t place; /* where memory was mapped that has no file, and is shared with forked children alone; else 0 */
    uint64_t device, inode;
    char path[RAW_PATH + 4];
};

/* The offset of a file that is locked itself. */
#define RAW_WHOLE_FILE UINT64_MAX

/* The device of what has a number of the system's, but isn't a file. */
#define RAW_SYSTEM_V UINT64_MAX

/* A program that was started, as it was named then, with the preload library in its environment or alone. */
enum program_state { PROGRAM_NONE, PROGRAM_ALONG, PROGRAM_ALONE };

struct raw_program {
    uint32_t state; /* written last */
    uint64_t starts;
    char path[RAW_PATH + 4];
};

/* A lock in allocated memory was taken there. Who takes the locks of one piece tells an array from an object of several locks. */
struct raw_take {
    uint32_t class; /* written last */
    uint32_t place;
};

/* A name that the program gives to locks, or why it ignores them. */
#define RAW_NAME 48  /* the longest name, in bytes */
#define RAW_TEXT 111 /* more of a reason is left out */

struct raw_text {
    uint32_t is_ready;
    uint32_t place; /* where that was said first */
    uint64_t count; /* of a reason: how many acquisitions were ignored */
    char text[RAW_TEXT + 1];
};

/* What the program did against what it says of its locks, as far as it did that in one place: it took a lock of a class whose order it
   says, which doesn't come after one that it held; or it didn't hold a lock that it says it holds. */
enum breach_kind { BREACH_NONE, BREACH_OF_ORDER, BREACH_OF_HOLD };

struct raw_breach {
    uint32_t kind; /* written last */
    uint32_t process, object, place;
    uint32_t held_object, held_place; /* 0 if the place isn't known */
    uint64_t number, held_number;     /* that the program gave the two, if it is about an order; else 0 */
    uint64_t is_address;              /* these are their addresses */
    uint64_t count;
};

/* A thread was started or joined, in the order of all of these: a start has its number before the thread runs, a join when the thread has ended.
   A thread is known by its pthread_t, which another one may have later. A join that would have given up is a LIFE_REAP. */
enum life_kind { LIFE_NONE, LIFE_START, LIFE_JOIN, LIFE_REAP };

struct raw_life {
    uint32_t kind; /* written last; none of a start that failed */
    uint32_t process;
    uint64_t by, thread;
    uint64_t known; /* how many of these there were when the call of a start had returned, or when a join was called */
    uint32_t class; /* of a start: the class as which the thread is joined; 0 if that isn't known */
};

/* A source of interrupts: a signal with a handler of it. */
struct raw_source {
    uint32_t signal;    /* written last */
    uint32_t continued; /* how often a run of it went on with what it interrupted, as one that a fault brings does */
    uint64_t handler;   /* as a word */
    uint64_t unblocks;  /* as a mask: signals that a run of it unblocks, whatever it has interrupted */
};

/* The runs of a source in one thread of the system's. */
enum raw_sent { SENT_TO_PROCESS = 1, SENT_TO_THREAD = 2, SENT_BY_TIMER = 4, SENT_BY_OTHERS = 8 };
struct raw_run {
    uint32_t source; /* written last */
    uint32_t process;
    uint32_t system_thread; /* as in raw_thread */
    uint32_t start;         /* as in raw_thread */
    uint64_t count;
    uint64_t calls; /* so many acquisitions and releases of the thread's own code were seen when the first one came */
    uint64_t self;  /* its pthread_t */
    uint32_t sent;  /* of enum raw_sent: to whom, and whether by a timer that was seen to be armed */
};

/* Which sources may interrupt: those of signals that are unblocked and have a handler, and whether no timer is armed that sends the signal. */
#define RAW_SIGNALS 64
#define RAW_UNARMED 0x8000
struct raw_state {
    uint32_t is_ready;
    uint16_t sources[RAW_SIGNALS]; /* of each signal, from the first one on; 0: it doesn't interrupt */
};

/* What was left out of a thread's records, and how often. */
struct raw_left_out {
    uint64_t releases;  /* a release of a lock that this thread wasn't seen to take */
    uint64_t full;      /* an acquisition after RAW_LIMIT records */
    uint64_t deep;      /* an acquisition beyond RAW_HELD held locks */
    uint64_t reentered; /* a call from a signal handler that interrupted the recorder */
    uint64_t no_room;   /* an acquisition for which there was no room in the file or in memory */
    uint64_t retried;   /* a try of the lock of the last failed try, with locks held since that one */
    uint64_t repeated;  /* records that repeated what the thread had done before: nothing is lost by these */
};

/* Whether a thread's last record is a lock that it waits for, and how: while its process exits, or by a wait that gives up. */
enum raw_waits { RAW_WAITS_NOT, RAW_WAITS, RAW_WAITS_AT_EXIT, RAW_WAITS_FOR_A_TIME };
#define RAW_CALLED 16 /* bytes of a thread's name, with the 0 at its end */

struct raw_thread {
    uint32_t process;
    uint32_t is_ready;
    uint32_t waits; /* an enum raw_waits */
    uint32_t ended; /* it came to its end, and the process went on */
    uint64_t count; /* how many records there are */
    uint64_t calls; /* how many acquisitions and releases were seen */
    struct raw_left_out left_out;
    uint64_t self; /* its pthread_t */
    uint32_t joined; /* the object as which it is joined, or 0 */
    uint32_t known;  /* how many starts and joins there were when the trace began */
    uint32_t source; /* of whose runs in a thread this is; 0: of the thread's own code */
    uint32_t system_thread; /* by which number the thread's own code and its runs belong together */
    uint32_t start;         /* the class as which the thread is joined; 0 if that isn't known */
    uint32_t is_of_parent;  /* of a run: it began in the process that forked this one, and its locks may be held by what it interrupted there */
    char name[RAW_CALLED];
    uint64_t chunks[RAW_CHUNKS]; /* where they begin in the file; 0 if there is none yet */
};

/* ---- The history: what each thread of a process did, step by step, as far as there is room for it.

   A thread writes to chunks of its own. A step is one word, if it takes a lock as it did before, or releases it then, and else two. The first two words of
   a chunk say whose it is, and the time in full; of other steps the first word has the time's low half alone, so it is the time that is nearest to the
   one that was written in full last. Times grow along a chunk, but for some ticks: what stands there first happened first. */
enum raw_verb {
    STEP_NONE,    /* isn't written yet, or was left by a jump */
    STEP_CHUNK,   /* a chunk's first step: about is the time, place the thread as in raw_thread.system_thread, and time the process */
    STEP_TIME,    /* about is the time */
    STEP_BEGIN,   /* the thread's first step: about is its pthread_t */
    STEP_END,     /* the thread takes no step any more */
    STEP_NAME,    /* the lock at that address is the object whose number stands in place of a place; if the mode isn't 0 it may be another lock than before,
                     which isn't taken as this one before the step's time */
    STEP_TAKE,    /* after it was taken, by a mode with RAW_TIMED */
    STEP_RELEASE, /* before it is released; in place of a place stands the object's number, if that is known */
    STEP_RUN,     /* a routine that runs once is about to run */
    STEP_RAN,     /* it has run, or thrown */
    STEP_PASS,    /* such a routine was found to have run, by a thread with these locks held for the first time */
    STEP_START,   /* a thread is about to be started: about is a number of the start */
    STEP_STARTED, /* it was started: about is its pthread_t, and in place of a place stands the number of the start */
    STEP_JOIN,    /* about to join the thread of a pthread_t */
    STEP_JOINED,  /* it has ended; the mode is that of a taking */
    STEP_SIGNAL,  /* about to signal a condition */
    STEP_WAIT,    /* about to wait for a condition */
    STEP_WOKEN,   /* the wait has ended, and not by a limit of time */
    STEP_COUNT,   /* a semaphore or barrier was initialised: in place of a place stands its number and one more, or 0 if processes share it */
    STEP_POST,    /* about to post a semaphore */
    STEP_GOT,     /* a wait for a semaphore was successful, or a try if the mode isn't 0 */
    STEP_ARRIVE,  /* about to wait at a barrier */
    STEP_LEAVE,   /* the wait has ended */
    STEP_VERBS
};

/* The first word: the low half of the time, and above it what the step is: RAW_AGAIN or RAW_BACK and where the step is that took the lock so, in words
   from the beginning of all histories on; or neither, and a place. The second word of such a step: an address, and above it the mode and the verb; of
   STEP_CHUNK and STEP_TIME the time, and the verb. */
#define RAW_STEP_WORDS 128 /* of a chunk */
#define RAW_STEP_CHUNK (RAW_STEP_WORDS * sizeof(uint64_t))
#define RAW_PLACE_BITS 29
#define RAW_ADDRESS_BITS 48
#define RAW_VERB_BITS 56
#define RAW_EPOCH_BITS 30 /* the time is written in full again before its low half could mean another one */
#define RAW_HISTORY_SHARE 4 /* so much of the file, at its end, is for the histories of its processes: less than RAW_PLACE_BITS can say */

enum raw_step_form { RAW_LONG, RAW_AGAIN, RAW_BACK };

static inline uint64_t raw_first_word(uint64_t time, enum raw_step_form form, uint32_t place) {
    return (uint32_t)time | (uint64_t)((uint32_t)form << RAW_PLACE_BITS | (place & ((UINT32_C(1) << RAW_PLACE_BITS) - 1))) << 32;
}
static inline enum raw_step_form raw_step_form(uint64_t first) { return (enum raw_step_form)(first >> (32 + RAW_PLACE_BITS)); }
static inline uint32_t raw_step_place(uint64_t first) { return (uint32_t)(first >> 32) & ((UINT32_C(1) << RAW_PLACE_BITS) - 1); }
static inline uint64_t raw_second_word(enum raw_verb verb, uint8_t mode, uint64_t about) {
    return (uint64_t)verb << RAW_VERB_BITS | (uint64_t)mode << RAW_ADDRESS_BITS | about;
}
static inline enum raw_verb raw_step_verb(uint64_t second) { return (enum raw_verb)(second >> RAW_VERB_BITS); }
static inline uint8_t raw_step_mode(uint64_t second) { return (uint8_t)(second >> RAW_ADDRESS_BITS); }
static inline uint64_t raw_step_about(uint64_t second) { return second & ((UINT64_C(1) << RAW_ADDRESS_BITS) - 1); }
static inline uint64_t raw_step_time(uint64_t second) { return second & ((UINT64_C(1) << RAW_VERB_BITS) - 1); }

/* The first parts of each kind lie close together at the file's beginning, since the first use of each of its pages is dear. */
struct raw_region {
    uint64_t from, first_from;
    uint32_t room, first; /* so many parts lie at the beginning */
    uint32_t used;
    uint64_t refused; /* how often there was no more room */
};

/* The file's beginning. */
struct raw_arena {
    uint64_t magic; /* written last */
    uint64_t bytes;
    uint64_t started; /* a time by which the programs of a recording are ordered */
    struct raw_region regions[RAW_KINDS];
    uint64_t first_records, first_records_end; /* in bytes: the first records come after the first parts */
    uint64_t records_used, records_end, records_refused; /* the others come after all regions */
    uint64_t no_thread;   /* calls of threads for which there was no room */
    uint64_t deep_bound;  /* libraries that were to be loaded with RTLD_DEEPBIND, which was taken away */
    uint64_t namespaces;  /* libraries that were loaded into a namespace of their own, by dlmopen */
    uint64_t unknown;     /* pieces of memory for which there was no room in the recorder's table */
    uint64_t asserted;    /* how often the program said that it holds a lock */
    uint64_t unknown_annotations, refused_annotations, refused_names; /* what it said that isn't known, or can't be */
    uint32_t system_threads; /* so many have numbers */
    uint64_t unfollowed_handlers; /* for which there was no stub left */
    uint64_t unknown_masks;  /* runs that met another mask than was known */
    uint64_t unblocked_by_runs; /* as a mask: signals that handlers unblocked, also if they only put back what was before */
    uint64_t history_from, history_used, history_to; /* where the chunks of histories are; used goes beyond the end when there is no room any more */
    uint32_t starts; /* so many starts of threads have numbers */
};

static inline uint32_t raw_size(enum raw_kind kind) {
    static const uint32_t sizes[RAW_KINDS] = {sizeof(struct raw_process), sizeof(struct raw_place),  sizeof(struct raw_module),
                                              sizeof(struct raw_class),   sizeof(struct raw_object), sizeof(struct raw_take),
                                              sizeof(struct raw_file),    sizeof(struct raw_program), sizeof(struct raw_thread),
                                              sizeof(struct raw_look),    sizeof(struct raw_text),  sizeof(struct raw_breach),
                                              sizeof(struct raw_life),    sizeof(struct raw_source), sizeof(struct raw_run),
                                              sizeof(struct raw_state)};
    return sizes[kind];
}

static inline uint64_t raw_at(const struct raw_region *region, enum raw_kind kind, uint32_t number) {
    uint64_t from = number <= region->first ? region->first_from : region->from;
    return from + (uint64_t)(number - 1) * raw_size(kind);
}

/* Puts all callers of a place into an array of RAW_FRAMES, and returns how many there are. */
static inline uint32_t raw_callers(const struct raw_arena *a, const struct raw_place *place, uint64_t *callers) {
    const struct raw_region *region = &a->regions[RAW_PLACES];
    uint32_t count = 0;
    while (place && place->count) {
        for (uint32_t i = 0; i < RAW_NEAR && i < place->count && count < RAW_FRAMES; i++)
            callers[count++] = place->callers[i];
        bool has_rest = count < RAW_FRAMES && place->rest && place->rest <= region->used && place->rest <= region->room;
        place = has_rest ? (const struct raw_place *)((const char *)a + raw_at(region, RAW_PLACES, place->rest)) : 0;
    }
    return count;
}

/* In which chunk a record lies; its place in it is `index` less chunk_start. */
static inline uint32_t raw_chunk(uint64_t index) {
    return 63 - (uint32_t)__builtin_clzll(index / RAW_FIRST_CHUNK + 1);
}
static inline uint64_t raw_chunk_start(uint32_t chunk) { return RAW_FIRST_CHUNK * ((UINT64_C(1) << chunk) - 1); }
static inline uint64_t raw_chunk_room(uint32_t chunk) { return (uint64_t)RAW_FIRST_CHUNK << chunk; }

/* What comes with the system is none of the program's. */
static inline int raw_is_of_system(const char *path) {
    static const char *const folders[] = {"/lib/", "/lib64/", "/usr/lib/", "/usr/lib64/", "/lib32/", "/usr/lib32/", "/usr/libexec/"};
    for (size_t i = 0; i < sizeof folders / sizeof *folders; i++)
        if (strncmp(path, folders[i], strlen(folders[i])) == 0)
            return 1;
    return path[0] != '/';
}

#endif
