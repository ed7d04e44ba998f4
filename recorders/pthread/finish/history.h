/* What the files share that write histories. The history of a process is gone through twice: to find out which thread is which, and to write what it did. */
#ifndef LOCKDEP_HISTORY_H
#define LOCKDEP_HISTORY_H
#include "finish.h"

/* ---- history_map.c: from numbers that aren't 0 to numbers. */

struct map {
    uint64_t *keys;
    uint32_t *values;
    size_t room, used;
};

uint32_t *value_at(struct map *map, uint64_t key);           /* which is 0 if the key is new */
uint32_t value_of(const struct map *map, uint64_t key); /* 0 if there is none */
void forget_map(struct map *map);

/* ---- history_steps.c: the steps of a process in the order in which they came. */

struct step {
    uint64_t time, about;
    uint32_t thread; /* as in raw_thread.system_thread */
    uint32_t place;
    enum raw_verb verb;
    uint8_t mode;
};

struct steps;
uint32_t processes_with_steps(const struct arena *a, bool *has_some); /* of each process; how many */
struct steps *begin_steps(const struct arena *a, uint32_t process);
bool next_step(struct steps *steps, struct step *step);
void end_steps(struct steps *steps);

/* ---- history_threads.c */

struct task {
    uint32_t thread, start, lock, joining; /* its number, its start, itself as a lock, and the start of the thread that it is about to join */
    uint32_t object;                       /* as which it is joined; 0 if it isn't */
    uint64_t self, begun, last; /* which of all steps are its first and last one */
    bool has_ended, is_over;    /* it takes no step any more, after all of its steps */
    char name[MAX_OBJECT_NAME + 1];
    uint64_t waits_for, waits_since; /* a condition, and since which step */
    uint32_t round;                  /* the message of a barrier, which it gets as it goes on */
    uint32_t end;                    /* the message that who joins it gets */
};

struct start {
    uint64_t at, thread; /* which step it is, and the pthread_t */
    uint32_t before;     /* the start before it that has the same pthread_t */
    uint32_t task;       /* the thread that was started; 0 if it took no step */
    uint32_t message;
};

struct threads { /* all numbers count from 1 */
    struct task *tasks;
    struct start *starts;
    size_t task_count, start_count;
    struct map by_thread, by_self, by_number, latest; /* tasks, the last one of each pthread_t, starts, and the last one of each pthread_t */
};

void find_threads(struct threads *threads, struct arena *a, uint32_t process);
void forget_threads(struct threads *threads);
struct task *task_of(struct threads *threads, uint32_t thread);
static inline uint32_t number_of_task(const struct threads *t, const struct task *task) { return (uint32_t)(task - t->tasks) + 1; }

/* ---- history_locks.c */

enum lock_kind { LOCK_PLAIN, LOCK_THREAD, LOCK_ONCE };

/* Why a lock isn't in the history. */
enum fault { FAULT_NONE, FAULT_TAKEN_BY_ANOTHER, FAULT_NOT_HELD };

struct holder {
    uint32_t task, count;
    bool is_writer;
};

struct lock {
    uint32_t object, task; /* of LOCK_THREAD the task */
    enum lock_kind kind;
    enum fault fault;
    bool is_used; /* a step of it was taken */
    size_t holder_count;
    struct holder *holders;
    char name[MAX_OBJECT_NAME + 1];
};

struct locks { /* numbers count from 1 */
    struct lock *locks;
    size_t count;
    struct map by_address, by_object; /* by_object: the last lock that an object of the recording is, which may have several */
};

uint32_t new_lock(struct locks *locks, enum lock_kind kind);
uint32_t lock_at(struct locks *locks, uint64_t address, enum lock_kind kind);
uint32_t own_lock_of(struct locks *locks, uint32_t task, uint32_t object);
void be_object(struct locks *locks, uint32_t number, uint32_t object);
void name_lock_at(struct locks *locks, const struct threads *threads, uint64_t address, uint32_t object, bool is_another);
enum taken { TAKEN_NOT, TAKEN_FIRST, TAKEN_AGAIN }; /* not: it is left out; again: by a thread that has it */
enum taken take_lock(struct lock *lock, uint32_t task, bool is_writer);
bool release_lock(struct lock *lock, uint32_t task); /* whether the task doesn't have it any more */
void give_names(struct locks *locks, const struct threads *threads, struct arena *a, uint32_t process);
void forget_locks(struct locks *locks);

/* ---- history_written.c: what is to be written, which is known only at the end. */

enum verb { WRITES_TAKE, WRITES_AGAIN, WRITES_RELEASE, WRITES_GIVE, WRITES_GET };

struct line {
    uint32_t task, about, place; /* about: a lock or a message */
    uint8_t verb, mode;
};

struct message {
    uint64_t at;     /* which step gives it */
    uint32_t number; /* in the file; 0 while nobody gets it and it is no start */
};

struct counted; /* a semaphore or a barrier */

struct history {
    struct arena *arena;
    uint32_t process;
    uint64_t nth; /* step is gone through */
    struct threads threads;
    struct locks locks;
    struct map conditions, counted_at; /* from addresses to the last message, and to one of these */
    struct counted *counted;
    size_t counted_count;
    struct line *lines;
    size_t line_count;
    struct message *messages;
    size_t message_count;
    int *absent; /* locks by their keys, as tell_object has them */
    size_t absent_count;
};

void add_line(struct history *h, enum verb verb, const struct task *task, uint32_t about, uint8_t mode, uint32_t place);
uint32_t give(struct history *h, const struct task *task, uint32_t place);
void get(struct history *h, const struct task *task, uint32_t message, uint32_t place);
void write_history(const char *folder, struct history *h, uint32_t number);

/* ---- history_absent.c */

void find_absent(struct history *h);

/* ---- history_messages.c */

void take_message(struct history *h, struct task *task, const struct step *step);
void forget_messages(struct history *h);

#endif
