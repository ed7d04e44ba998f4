/* What makes a deadlock that was found as possible happen: a library that is preloaded into another run of the program. It holds a thread
   back where it asks for the second lock of an order that was found, with the first one held, until threads stand at the other orders of a
   cycle; then it lets them go, and each waits for what the next one holds.

   What threads hold and wait for is in a file that `lockdep provoke` makes and reads: it says when the program stands still. The recorders
   of Python (lockdep_record/provoke.py) and Java (Provoke.java) write the same file: their callers are places in a second one, with a line
   for each, and a lock is a number with the place of its class. */
#ifndef PROVOKE_H
#define PROVOKE_H

#include <stdbool.h>
#include <stdint.h>

#define MOST_ORDERS 64
#define MOST_POINTS 512 /* of a schedule */
#define MOST_TIMERS 16
#define MOST_THREADS 1024
#define MOST_HELD 48
#define MOST_CALLERS 16
#define CALLERS_OF_HELD 8

enum mode { MODE_WRITE, MODE_READ, MODE_READ_BEHIND /* by a reader that waits behind a writer that waits */ };

/* What a thread does: anything but waiting for a lock; standing at the second lock of an order, where this library holds it back; or
   waiting for a lock that another thread has, without an end. */
enum state { STATE_RUNS, STATE_STANDS, STATE_WAITS };

/* What it waits in. A wait for a condition is one for the lock that it takes again; one for a thread's end is for that thread's `self`. */
enum call { CALL_LOCK, CALL_SPIN, CALL_CONDITION, CALL_JOIN, CALL_ONCE, CALL_SEMAPHORE };

/* What is added to that: another thread can end the wait, by an interrupt or a cancellation; no handler of a signal can, since none runs in such a
   thread of Python or Java. */
#define CALL_INTERRUPTIBLE 0x10
#define CALL_WITHOUT_HANDLERS 0x20

/* Who may release a lock besides its holder: others by mistake; nobody; anybody, as a rule; or others, if need be. */
enum releasing { RELEASED_BY_MISTAKE, RELEASED_BY_HOLDER, RELEASED_BY_ANYBODY, RELEASED_BY_OTHERS };

/* A lock that several processes share has a number of its own, with this bit; others have their addresses. */
#define SHARED_LOCK (UINT64_C(1) << 63)

/* A lock that a thread holds, as the file has it. */
struct held {
    uint64_t lock; /* its number, or 0 if another thread has released it */
    uint8_t mode, releasing;
    uint16_t point; /* of the schedule; 0: none */
    uint32_t caller_count;
    uint64_t orders; /* a bit for each order whose first lock is taken here */
    uint64_t callers[CALLERS_OF_HELD];
};

/* A thread, as the file has it. */
struct thread {
    int32_t process; /* 0: nobody's */
    int32_t thread;
    uint32_t changes; /* one more with each change of what is below */
    uint32_t state;
    uint32_t order; /* the one that it stands or stood at, from 1 on; 0 if there is none */
    uint32_t mode;  /* in which it wants the awaited lock */
    uint64_t awaited;
    uint32_t caller_count;
    uint32_t held_count;
    uint64_t callers[MOST_CALLERS];
    uint32_t goes; /* whether it was let go, into a cycle */
    uint32_t name; /* where the program's language has its name; 0: the system has it */
    uint64_t self; /* as what it is joined; 0 if that isn't watched */
    uint32_t call; /* what it stands at, or waits in */
    uint32_t point; /* of the schedule at which it stands or stood; 0 if there is none */
    struct held held[MOST_HELD];
};

/* How often the second lock of an order was asked for, how often so with the first one held, how often a thread stood there, and how often a
   task asked for it that isn't held back, as one of Python's asyncio; and when it was asked for first and last, in milliseconds. */
struct counts {
    uint32_t reached, under, pauses, aside, first, last;
};

/* How far a point of the schedule was come to. */
enum passed { PASSED_NOT, PASSED_ASKED, PASSED_TAKEN, PASSED_RELEASED };

/* A timer that sends a signal: when it does next, by the clock that only goes on, and how often again; 0 if it isn't armed. */
struct timer {
    int32_t process;
    int32_t signal; /* or TIMER_RUNS, or TIMER_OTHERS */
    uint64_t at, again; /* nanoseconds */
    uint64_t own; /* which one it is */
};
#define TIMER_RUNS -1   /* it runs a function instead */
#define TIMER_OTHERS -2 /* there is no room for more: these may be armed */

/* A thread stood at one point, and another one waited for it at the other one, before it came to where it was to stand: so the schedule couldn't be
   followed. If the second is 0, the first one was held back for the whole pause, and others didn't come, who may only be slow. What comes after that
   shows nothing, so only the first such is noted. */
struct blocked {
    uint32_t stands, waits;
};

/* The file. */
struct table {
    char magic[8];
    uint32_t orders, threads;
    struct counts counts[MOST_ORDERS];
    struct thread all[MOST_THREADS];
    struct timer timers[MOST_TIMERS];
    uint32_t sent[MOST_ORDERS]; /* signals, by this library */
    struct blocked blocked;
    uint32_t is_handed_over; /* whether a thread has released what another one had taken */
    int32_t counting;        /* a process that knows itself how many of its threads can go on, and how many; 0: none does */
    uint32_t going;
    uint8_t passed[MOST_POINTS + 1];
};

#define MAGIC "provoke3"

/* Where a thread is: its callers, the innermost first. */
struct stack {
    int depth;
    bool is_whole; /* or only the innermost caller was looked at */
    bool is_in_handler; /* of a signal, so that it is not held back */
    uintptr_t callers[MOST_CALLERS];
};

/* The orders that a stack belongs to, a bit for each: by its innermost callers, as the place of the first lock or as that of the second. */
struct fits {
    uint64_t holds, wants;
};

/* What a call asks for: a lock, as what, in what, and where. */
struct asked {
    uint64_t lock;
    enum mode mode;
    enum call call;
    enum releasing releasing;
    uintptr_t caller; /* where the call returns to */
    struct fits fits;
    uint32_t point;
    struct stack stack;
};

/* plan.c */
bool read_plan(const char *path);
void read_plan_again(void);
struct fits look_at_call(struct stack *stack, uintptr_t caller);
int first_planned(const struct stack *stack); /* which of its callers is a place of the plan; the innermost if none is */
void look_at_stack(struct stack *stack, uintptr_t caller);
long first_pause_at(unsigned order);

/* points.c */
void forget_points(void);
void take_thread(const char *numbers);
void take_point(unsigned nth, uintptr_t address);
void take_stop(unsigned order, long pause);
void take_after(unsigned point, unsigned before, long pause);
bool has_points(void);
bool is_at_point(uintptr_t caller);
uint32_t next_point(uintptr_t caller);
uint32_t count_taking(uintptr_t caller);
void pass_point(uint32_t point, enum passed how);
uint32_t order_of_stop(uint32_t point);
uint32_t point_before(uint32_t point);
long pause_at(uint32_t point);
bool has_passed(uint32_t point, enum passed how);
bool is_over(uint32_t point);
bool is_before_stop(uint32_t point);
bool is_schedule_over(void);
bool is_followed(void);
void count_start(uint64_t *path);
void begin_path(uint64_t path);
void end_path(void);
void begin_child(void);

/* signals.c */
void take_signal(unsigned order, int signal, uintptr_t handler, bool is_by_timer);
uint64_t orders_by_signals(void);
void send_signals(uint64_t holds);
void know_timer(uint64_t own, int signal);
void arm_timer(uint64_t own, uint64_t in, uint64_t again, bool is_time);
void forget_timer(uint64_t own);

/* shared.c */
uint64_t number_of_lock(const void *lock);

/* threads.c */
extern struct table *table;
extern __thread bool is_ended_anywhere; /* whether this thread may be cancelled at any moment, and so in any wait */
bool open_table(const char *path);
bool is_known_thread(void);
bool holds_nothing(void);
uint64_t held_orders(void);
void forget_other_threads(void);
void come_to(struct asked *asked);
bool is_held_back(const struct asked *asked);
void come_back(const struct asked *asked);
void begin_wait(const struct asked *asked);
void end_wait(void);
void note_taken(const struct asked *asked);
struct held note_given(uint64_t lock);
void note_retaken(const struct held *held, uint64_t holds);

/* calls.c */
int real_lock(void *lock);
int real_unlock(void *lock);

#endif
