/* Records the locks of a kernel, a runtime or an embedded system as traces for lockdep: one for each task.

   C11 or C++11, freestanding: no library, no allocation, no floating point, no locks. Each function takes constant time
   unless its description says otherwise. In exactly one file of the program

       #define LOCKDEP_RECORD_CODE
       #include "lockdep_record.h"

   and in the others only the include. With LDR_KNOWN_STEPS defined before that code, it has ldr_known, and is 0.7 KB
   larger. README.md beside this file has an example, and docs/RECORDING.md says what a
   faithful trace is.

   Who calls. The calls for one task are made by that task, and by the interrupts that come in while it runs. An interrupt
   that comes in during such a call is left out with everything it does, and counted; so keep interrupts off around the
   calls if you can. Calls for different tasks are independent. A forked child begins tasks of its own, which write
   elsewhere, before it takes a lock: it may not use those that it inherited.

   What a trace can't express. Whatever the calls and their order, lockdep accepts the trace. A call that would break it
   isn't written, and is counted in `left`. That hides orders of locks but invents none, with one exception: see
   ldr_release. ldr_end writes the counts after the places.

   With LDR_NOTHING defined the calls do nothing: their arguments have to be there, and aren't evaluated. */
#ifndef LOCKDEP_RECORD_H
#define LOCKDEP_RECORD_H

#include <stdbool.h>
#include <stddef.h>
#include <stdint.h>

#ifdef __cplusplus
extern "C" {
#endif

/* ---- Words. */

/* How a lock is taken: by a writer (a mutex, a spin lock), by a reader that waits behind waiting writers, or by a reader
   that passes them; `| LDR_TRY` if it was taken by a try, which waits for nobody. */
#define LDR_W 0u
#define LDR_R 1u
#define LDR_RR 2u
#define LDR_TRY 4u

/* Which interrupts: those of the hardware, and what is deferred from them. */
#define LDR_SOFTIRQ 1u
#define LDR_HARDIRQ 2u

/* Bounds: bytes of a name; locks that a task holds at once, including those of its interrupts; events of a trace; and
   the least size of a buffer, which is more than the longest record. */
#define LDR_NAME 64u
#define LDR_HELD 48u
#define LDR_EVENTS 1000000u
#define LDR_ROOM 144u

/* What is counted: the indices of `left`. All but the first are calls that weren't written as they were made. */
enum ldr_reason {
    LDR_OPENED,          /* interrupts that came in although they were off: `on` was written before them */
    LDR_LEFT_RELEASES,   /* releases of what wasn't seen to be taken, or was taken outside the interrupt */
    LDR_LEFT_HELD,       /* acquisitions with 48 locks held */
    LDR_LEFT_EVENTS,     /* calls after 1,000,000 events */
    LDR_LEFT_WORDS,      /* acquisitions with a name that isn't 1 to 64 visible ASCII characters, subclass 8, unknown mode */
    LDR_LEFT_INTERRUPTS, /* calls of interrupts that came in during a call, in a hardirq, or a softirq in a softirq */
    LDR_LEFT_LEAVES,     /* leaving without having entered */
    LDR_LEFT_FLAGS,      /* turning on interrupts of the kind that the task is in, or any in a hardirq */
    LDR_LEFT_KEPT,       /* locks that an interrupt still held when it ended: they were released in the trace */
    LDR_LEFT_PUTS,       /* events that `put` refused, and calls after that, or after ldr_end */
    LDR_LEFT_PLACES,     /* lines of places that don't fit in their buffer, or came after their `put` had refused */
    LDR_REASONS
};

/* Takes bytes: writes them to a file, a serial line, a ring in memory. It takes all of them and returns 0, or returns
   another number. Bytes are always whole lines. It doesn't call the functions below for the same task. */
typedef int ldr_put(void *cookie, const char *bytes, size_t size);

/* ---- A task. The members are the recorder's; `left` and `held` may be read. */

struct ldr_stream {
    char *bytes;
    ldr_put *put; /* NULL if there is none, or it refused */
    void *cookie;
    uint32_t size, used;
};

struct ldr_lock {
    const char *name;
    unsigned sub;
    uint32_t step; /* 1 + the index of its step, or LDR_NO_STEP */
};

/* A step of a task: it took this lock, so and here, with the locks of the steps before this one held. */
struct ldr_step {
    const char *name, *place, *function; /* without a name there is no step here */
    uint32_t before;                     /* 1 + the index of the step before, or 0 if nothing was held */
    unsigned char sub, mode;
};

/* A frame: which interrupt it is, which are off in it, and how many locks were held when it began. */
struct ldr_frame {
    unsigned irq, off, base;
};

struct ldr_task {
    struct ldr_frame *frame;     /* the innermost of `frames` that is open */
    unsigned held;               /* how many of `locks` there are */
    unsigned ended;              /* the reason why nothing more is written, LDR_REASONS if the trace goes on */
    volatile unsigned is_inside; /* a call is under way */
    volatile uint32_t skipped;   /* nested interrupts that are being left out */
    uint32_t events;             /* that were written */
    uint32_t waiting;            /* of these, that are still in the buffer */
    struct ldr_stream trace, places;
    uint32_t left[LDR_REASONS];  /* how often each reason occurred */
    struct ldr_frame frames[3];
    struct ldr_lock locks[LDR_HELD];
    struct ldr_step *steps;      /* that are known; NULL if repeats are written */
    uint32_t last_step;          /* the last index of these, a power of two less one */
    unsigned written;            /* how many of the held locks the trace has; known steps took the others */
};

/* ---- The calls. The caller's place, as the arguments of the functions that end in _at. */
#define LDR_TEXT_OF(line) #line
#define LDR_TEXT(line) LDR_TEXT_OF(line)
#define LDR_HERE __FILE__ ":" LDR_TEXT(__LINE__), __func__

#ifndef LDR_NOTHING

/* Begins a task's trace, which holds no lock, with interrupts on. `put` gets what is in the buffer when another record
   might not fit. Returns 0; or -1 if the buffer has less than LDR_ROOM bytes: then all calls are counted in LDR_LEFT_PUTS.
   A task whose trace has ended may begin another one, with a cookie that makes it another file, when it is at rest. */
int ldr_begin(struct ldr_task *task, char *buffer, size_t size, ldr_put *put, void *cookie);

/* After ldr_begin: places go to this `put`, as lines `RECORD FILE:LINE FUNCTION`. A buffer that is too small for a place
   leaves it out. Without this call no places are written. The end of the trace is among them: without it `lockdep run`
   can't tell whether a trace is whole, and doesn't call it clean. */
void ldr_places(struct ldr_task *task, char *buffer, size_t size, ldr_put *put, void *cookie);

/* Is there if LDR_KNOWN_STEPS is defined where the code is. After ldr_begin: what the task did before in the same way
   isn't written again, which takes a few nanoseconds instead of some 30. `steps` has room for this many steps, at least
   1; only a power of two of them is used, and each way to take a lock on top of others takes one. What doesn't fit is
   written each time. Names and places must never change while the trace goes on, as string constants don't. Written each
   time, too: all in an interrupt, or with interrupts off. Takes time for each step. Acquisitions that aren't written yet
   are put by ldr_flush and ldr_end. */
void ldr_known(struct ldr_task *task, struct ldr_step *steps, size_t count);

/* The task takes a lock of this class. Called before waiting for the lock, or else what a hung task waits for is missing;
   or once it was taken, if the wait can fail, as a try. ldr_flush puts the record of a task that hangs.
   The name isn't copied: it must stay unchanged until the release. Counted instead: LDR_LEFT_WORDS, LDR_LEFT_HELD. */
void ldr_acquire_at(struct ldr_task *task, const char *name, unsigned sub, unsigned mode, const char *place,
                    const char *function);
#define ldr_acquire(task, name, sub, mode) ldr_acquire_at(task, name, sub, mode, LDR_HERE)

/* The task releases the newest lock of this class and subclass that it took in the current interrupt, or outside all of
   them. Called before the lock is free. Constant time if it is the newest of all, otherwise linear in the newer ones.
   Counted instead if there is none: LDR_LEFT_RELEASES. So a lock that was taken outside the interrupt still counts as
   held when the interrupt releases it: call this again once the interrupt has ended, or later orders will be wrong. */
void ldr_release(struct ldr_task *task, const char *name, unsigned sub);

/* An interrupt comes in, and ends. If it was off, `on` is written before it, and `off` again after it. Counted instead:
   an interrupt in a hardirq, a softirq in a softirq, and what is neither kind, with all its calls: LDR_LEFT_INTERRUPTS;
   leaving without having entered: LDR_LEFT_LEAVES. What is held at the end is released in the trace, in as many steps,
   and counted: LDR_LEFT_KEPT. */
void ldr_enter(struct ldr_task *task, unsigned irq);
void ldr_leave(struct ldr_task *task);

/* The task, or the interrupt that it is in, turns interrupts of this kind off and on. Leaving an interrupt restores those
   outside automatically. A change that changes nothing isn't written. Counted instead: LDR_LEFT_FLAGS. */
void ldr_off(struct ldr_task *task, unsigned irq);
void ldr_on_at(struct ldr_task *task, unsigned irq, const char *place, const char *function);
#define ldr_on(task, irq) ldr_on_at(task, irq, LDR_HERE)

/* Whether the task holds nothing, is in no interrupt and has interrupts on: then its trace may be ended and another one
   begun, which together say the same as one. */
bool ldr_is_at_rest(const struct ldr_task *task);

/* Puts what is in the buffers, for example for a task that hangs; does nothing during a call for this task. A `put`
   that writes with fwrite needs an fflush after it. */
void ldr_flush(struct ldr_task *task);

/* Ends the trace: puts what is in the buffers, and after the places the counts that aren't 0, as lines `COUNT left a` for
   the first reason, `COUNT left b` for the next one and so on, and the line `EVENTS end`. Locks may be held. */
void ldr_end(struct ldr_task *task);

#else

/* The arguments are named, in a call that is never made, so that the compiler doesn't warn of anything as unused. */
static inline int ldr_named(int first, ...) { return first; }
#define LDR_NEVER(...) (0 && ldr_named(0, __VA_ARGS__))
/* (a function, since a number alone would be a statement without effect) */
static inline int ldr_nothing(int number) { return number; }
#define ldr_begin(task, buffer, size, put, cookie) ldr_nothing(LDR_NEVER(task, buffer, size, put, cookie))
#define ldr_places(task, buffer, size, put, cookie) ((void)LDR_NEVER(task, buffer, size, put, cookie))
#define ldr_known(task, steps, count) ((void)LDR_NEVER(task, steps, count))
#define ldr_acquire_at(...) ((void)LDR_NEVER(__VA_ARGS__))
#define ldr_acquire(task, name, sub, mode) ((void)LDR_NEVER(task, name, sub, mode))
#define ldr_release(task, name, sub) ((void)LDR_NEVER(task, name, sub))
#define ldr_enter(task, irq) ((void)LDR_NEVER(task, irq))
#define ldr_leave(task) ((void)LDR_NEVER(task))
#define ldr_off(task, irq) ((void)LDR_NEVER(task, irq))
#define ldr_on_at(...) ((void)LDR_NEVER(__VA_ARGS__))
#define ldr_on(task, irq) ((void)LDR_NEVER(task, irq))
#define ldr_is_at_rest(task) LDR_NEVER(task)
#define ldr_flush(task) ((void)LDR_NEVER(task))
#define ldr_end(task) ((void)LDR_NEVER(task))

#endif

/* ---- The code. */
#if defined LOCKDEP_RECORD_CODE && !defined LDR_NOTHING

/* Keeps the compiler from moving memory accesses across an interrupt's, and from turning a loop into a C library call. */
#if defined __GNUC__
#define LDR_FENCE() __asm__ volatile("" ::: "memory")
#elif defined __cplusplus
} /* extern "C" */
#include <atomic>
extern "C" {
#define LDR_FENCE() std::atomic_signal_fence(std::memory_order_seq_cst)
#else
#include <stdatomic.h>
#define LDR_FENCE() atomic_signal_fence(memory_order_seq_cst)
#endif

/* The first line of a trace, after a word by which `lockdep run` recognises a program with this code, stripped or not.
   The compiler mustn't take the line apart. */
#define LDR_MARK "ldr1 lockdep,2\n"
#if defined __GNUC__
#define LDR_KEEP(text) __asm__("" : "+r"(text))
#else
#define LDR_KEEP(text) ((void)0)
#endif

/* ---- Bytes. */

/* Adds a text, up to an end; NULL is none. */
static char *ldr_text(char *to, const char *text, const char *end) {
    while (*text && to != end)
        *to++ = *text++;
    return to;
}

/* Puts what is in a stream's buffer, if it isn't refused. */
static void ldr_put_all(struct ldr_stream *stream) {
    uint32_t used = stream->used;
    stream->used = 0;
    if (used > 0 && stream->put && stream->put(stream->cookie, stream->bytes, used) != 0)
        stream->put = NULL;
}

/* ---- Records. */

/* Puts the records that are in the buffer. If they are refused, the trace has ended. */
static void ldr_put_trace(struct ldr_task *task) {
    ldr_put_all(&task->trace);
    if (!task->trace.put && task->waiting > 0) {
        task->ended = LDR_LEFT_PUTS;
        task->left[LDR_LEFT_PUTS] += task->waiting;
    }
    task->waiting = 0;
}

/* Begins a record with its word. Returns where it continues; NULL if the trace has ended, or ends here. */
static char *ldr_record(struct ldr_task *task, const char *word) {
    if (task->trace.size - task->trace.used < LDR_ROOM)
        ldr_put_trace(task);
    if (task->events == LDR_EVENTS)
        task->ended = LDR_LEFT_EVENTS;
    if (task->ended == LDR_REASONS)
        return ldr_text(task->trace.bytes + task->trace.used, word, NULL);
    task->left[task->ended]++;
    return NULL;
}

static void ldr_record_ends(struct ldr_task *task, char *end) {
    *end++ = '\n';
    task->trace.used = (uint32_t)(end - task->trace.bytes);
    task->events++;
    task->waiting++;
}

/* Adds a name, a comma and a subclass. A name with a comma or a quote in it is begun again, in quotes. Returns NULL if
   the format has no such name or subclass. */
static char *ldr_key(char *to, const char *name, unsigned sub) {
    const char *start = to;
    unsigned length = 0, quotes = 0;
    while (name && name[length]) {
        char byte = name[length++];
        if (byte < 0x21 || byte > 0x7e || length > LDR_NAME)
            return NULL;
        if ((byte == ',' || byte == '"') && quotes == 0) {
            to -= length - 1;
            length = 0;
            quotes = 1;
            byte = '"';
        } else if (byte == '"') {
            *to++ = '"';
        }
        *to++ = byte;
    }
    if (to == start || sub > 7)
        return NULL;
    if (quotes > 0)
        *to++ = '"';
    *to++ = ',';
    *to++ = (char)('0' + sub);
    return to;
}

/* Writes a record for each of these irqs, a softirq's first. Returns whether all were written. */
static bool ldr_irqs(struct ldr_task *task, const char *word, unsigned irqs) {
    for (unsigned irq = LDR_SOFTIRQ; irq <= LDR_HARDIRQ; irq++)
        if (irqs & irq) {
            char *to = ldr_record(task, word);
            if (!to)
                return false;
            ldr_record_ends(task, ldr_text(to, irq == LDR_HARDIRQ ? "hardirq" : "softirq", NULL));
        }
    return true;
}

/* ---- Places. */

/* Writes a line `NUMBER TEXT WORD`. If it doesn't fit after others, it is written once those were put. */
static void ldr_line(struct ldr_task *task, uint32_t number, const char *text, const char *word) {
    struct ldr_stream *places = &task->places;
    char digits[12], *first = &digits[11];
    if (!places->size)
        return;
    *first = 0;
    *--first = ' ';
    do
        *--first = (char)('0' + number % 10);
    while ((number /= 10) > 0);
    for (unsigned turn = 0; turn < 2 && places->put; turn++) {
        const char *end = places->bytes + places->size;
        char *to = ldr_text(ldr_text(places->bytes + places->used, first, end), text, end);
        to = ldr_text(ldr_text(to, " ", end), word, end);
        if (to != end) {
            *to++ = '\n';
            places->used = (uint32_t)(to - places->bytes);
            return;
        }
        ldr_put_all(places);
    }
    task->left[LDR_LEFT_PLACES]++;
}

/* ---- Calls. */

/* Whether a call is left out because the trace has ended or it is part of an interrupt that is left out. If not, it begins.
   `entered` is 1 if it enters an interrupt and -1 if it leaves one. */
static bool ldr_is_out(struct ldr_task *task, int entered) {
    uint32_t skipped = task->skipped;
    unsigned reason = task->ended;
    if (task->is_inside || skipped > 0) {
        reason = LDR_LEFT_INTERRUPTS;
        if (entered > 0 || skipped > 0)
            task->skipped = skipped + (uint32_t)entered;
    }
    if (reason == LDR_REASONS) {
        task->is_inside = 1;
        LDR_FENCE();
        return false;
    }
    task->left[reason]++;
    return true;
}

static void ldr_is_done(struct ldr_task *task) {
    LDR_FENCE();
    task->is_inside = 0;
}

int ldr_begin(struct ldr_task *task, char *buffer, size_t size, ldr_put *put, void *cookie) {
    for (size_t i = 0; i < sizeof *task; i++) {
        ((char *)task)[i] = 0;
        LDR_FENCE();
    }
    task->trace.bytes = buffer;
    task->trace.size = (uint32_t)size;
    task->trace.put = put;
    task->trace.cookie = cookie;
    task->frame = task->frames;
    task->ended = LDR_LEFT_PUTS;
    if (task->trace.size < LDR_ROOM)
        return -1;
    task->ended = LDR_REASONS;
    const char *first = &LDR_MARK[5];
    LDR_KEEP(first);
    task->trace.used = (uint32_t)(ldr_text(buffer, first, NULL) - buffer);
    return 0;
}

void ldr_places(struct ldr_task *task, char *buffer, size_t size, ldr_put *put, void *cookie) {
    task->places.bytes = buffer;
    task->places.size = (uint32_t)size;
    task->places.put = put;
    task->places.cookie = cookie;
}

/* Writes an acquisition if the format can express it. Returns whether it was written. */
static bool ldr_write(struct ldr_task *task, const char *name, unsigned sub, unsigned mode) {
    char *to = ldr_record(task, "acq,");
    if (!to)
        return false;
    if (mode > (LDR_RR | LDR_TRY) || mode == (LDR_R | LDR_RR) || !(to = ldr_key(to, name, sub))) {
        task->left[LDR_LEFT_WORDS]++;
        return false;
    }
    *to++ = ',';
    if (mode & LDR_TRY)
        *to++ = 't';
    if (mode & LDR_RR)
        *to++ = 'r';
    *to++ = mode & (LDR_R | LDR_RR) ? 'r' : 'w';
    ldr_record_ends(task, to);
    return true;
}

/* ---- Known steps. A step is known once the trace has it. An acquisition by a known step isn't written, unless something
   new happens before its release: then those of all held locks are written first. So the trace has each order and use, as
   often as it needs. */

#ifdef LDR_KNOWN_STEPS

#define LDR_NO_STEP UINT32_MAX
#define LDR_LOOKS 4u /* how many places in the table a step may have */

void ldr_known(struct ldr_task *task, struct ldr_step *steps, size_t count) {
    task->steps = count > 0 ? steps : NULL;
    task->last_step = 0;
    while (task->last_step < INT32_MAX && 2 * (size_t)task->last_step + 2 <= count)
        task->last_step = 2 * task->last_step + 1;
    for (size_t i = 0; task->steps && i <= task->last_step; i++) {
        steps[i].name = NULL;
        LDR_FENCE();
    }
}

static bool ldr_has_steps(const struct ldr_task *task) { return task->steps != NULL; }

/* The step after which all held locks are held: 1 + its index, 0 if there are none, or LDR_NO_STEP. */
static uint32_t ldr_step_before(const struct ldr_task *task) {
    return task->held > 0 ? task->locks[task->held - 1].step : 0;
}

/* Where a step is, or goes: 1 + its index. LDR_NO_STEP if there is no room, or steps aren't known now. */
static uint32_t ldr_find(const struct ldr_task *task, const char *name, unsigned sub, unsigned mode, const char *place,
                         const char *function) {
    uint32_t before = ldr_step_before(task), low = (uint32_t)(uintptr_t)place;
    if (!ldr_has_steps(task) || !name || task->frame->off != 0 || before == LDR_NO_STEP)
        return LDR_NO_STEP;
    uint32_t hash = (uint32_t)(uintptr_t)name ^ before << 7 ^ sub << 28 ^ mode << 25;
    hash = (hash ^ hash >> 15) + (low << 5 | low >> 27);
    hash ^= hash >> 11;
    for (unsigned look = 0; look < LDR_LOOKS; look++) {
        uint32_t index = (hash + look) & task->last_step;
        const struct ldr_step *known = &task->steps[index];
        if (!known->name || (known->name == name && known->place == place && known->function == function &&
                             known->before == before && known->sub == sub && known->mode == mode))
            return index + 1;
    }
    return LDR_NO_STEP;
}

static bool ldr_is_known(const struct ldr_task *task, uint32_t found) {
    return found != LDR_NO_STEP && task->steps[found - 1].name;
}

/* Writes the acquisitions of held locks that weren't written. Returns whether the trace has all of them. */
static bool ldr_catch_up(struct ldr_task *task) {
    while (task->written < task->held) {
        const struct ldr_step *step = &task->steps[task->locks[task->written].step - 1];
        if (!ldr_write(task, step->name, step->sub, step->mode))
            return false;
        ldr_line(task, task->events + 1, step->place, step->function);
        task->written++;
    }
    return true;
}

/* Remembers a step that was written, where ldr_find found room for it. */
static void ldr_note(struct ldr_task *task, const char *name, unsigned sub, unsigned mode, const char *place,
                     const char *function, uint32_t found) {
    if (found == LDR_NO_STEP)
        return;
    struct ldr_step *step = &task->steps[found - 1];
    step->name = name;
    step->place = place;
    step->function = function;
    step->before = ldr_step_before(task);
    step->sub = (unsigned char)sub;
    step->mode = (unsigned char)mode;
}

/* Notes what is held. */
static void ldr_hold(struct ldr_task *task, const char *name, unsigned sub, uint32_t found) {
    task->locks[task->held].step = found;
    task->locks[task->held].name = name;
    task->locks[task->held++].sub = sub;
}

/* Notes that all held locks are written, and that those from this one on have others below them than they had. */
static void ldr_all_written(struct ldr_task *task, unsigned place) {
    task->written = task->held;
    for (; place < task->held; place++)
        task->locks[place].step = LDR_NO_STEP;
}

/* Whether the held lock at this index is the newest, and isn't written. */
static bool ldr_is_unwritten(const struct ldr_task *task, unsigned place) {
    return place + 1 == task->held && place >= task->written;
}

#else

#define ldr_has_steps(task) false
#define ldr_find(...) 0
#define ldr_is_known(task, found) false
#define ldr_catch_up(task) true
#define ldr_note(...) ((void)0)
#define ldr_all_written(task, place) ((void)0)
#define ldr_is_unwritten(task, place) false

static void ldr_hold(struct ldr_task *task, const char *name, unsigned sub, uint32_t found) {
    (void)found;
    task->locks[task->held].name = name;
    task->locks[task->held++].sub = sub;
}

#endif

void ldr_acquire_at(struct ldr_task *task, const char *name, unsigned sub, unsigned mode, const char *place,
                    const char *function) {
    if (ldr_is_out(task, 0))
        return;
    uint32_t found = ldr_find(task, name, sub, mode, place, function);
    if (ldr_is_known(task, found)) {
        ldr_hold(task, name, sub, found);
    } else if (task->held == LDR_HELD) {
        task->left[LDR_LEFT_HELD]++;
    } else if (ldr_catch_up(task) && ldr_write(task, name, sub, mode)) {
        ldr_line(task, task->events + 1, place, function);
        ldr_note(task, name, sub, mode, place, function, found);
        ldr_hold(task, name, sub, found);
        ldr_all_written(task, task->held);
    }
    ldr_is_done(task);
}

static bool ldr_is_same(const char *one, const char *other) {
    for (; one != other; one++, other++) {
        if (*one != *other)
            return false;
        if (!*one)
            break;
    }
    return true;
}

/* Writes the release of the held lock at this index, and removes it, when all held locks are written. Returns whether it
   was written. */
static bool ldr_give(struct ldr_task *task, unsigned place) {
    char *to = ldr_record(task, "rel,");
    if (to)
        to = ldr_key(to, task->locks[place].name, task->locks[place].sub);
    if (!to)
        return false;
    ldr_record_ends(task, to);
    task->held--;
    for (unsigned next = place; next < task->held; next++) {
        task->locks[next] = task->locks[next + 1];
        LDR_FENCE();
    }
    ldr_all_written(task, place);
    return true;
}

void ldr_release(struct ldr_task *task, const char *name, unsigned sub) {
    if (ldr_is_out(task, 0))
        return;
    unsigned base = task->frame->base, place = task->held;
    bool is_found = false;
    while (name && !is_found && place > base) {
        const struct ldr_lock *lock = &task->locks[--place];
        is_found = lock->sub == sub && ldr_is_same(lock->name, name);
    }
    if (!is_found)
        task->left[LDR_LEFT_RELEASES]++;
    else if (ldr_is_unwritten(task, place))
        task->held--;
    else if (ldr_catch_up(task))
        ldr_give(task, place);
    ldr_is_done(task);
}

/* The irqs that have to be on for a frame to begin, but are off outside it. */
static unsigned ldr_closed(const struct ldr_frame *frame) {
    return frame[-1].off & (frame->irq | LDR_HARDIRQ);
}

/* Writes the entry of an interrupt, after turning on what has to be on. */
static void ldr_open(struct ldr_task *task, unsigned irq) {
    if (!ldr_catch_up(task))
        return;
    struct ldr_frame *frame = task->frame + 1;
    frame->irq = irq;
    frame->off = irq | LDR_SOFTIRQ; /* a hardirq has both off */
    frame->base = task->held;
    unsigned closed = ldr_closed(frame);
    if (closed)
        task->left[LDR_OPENED]++;
    if (ldr_irqs(task, "on,", closed) && ldr_irqs(task, "enter,", irq))
        task->frame = frame;
}

void ldr_enter(struct ldr_task *task, unsigned irq) {
    if (ldr_is_out(task, 1))
        return;
    if (irq > task->frame->irq && irq <= LDR_HARDIRQ) {
        ldr_open(task, irq);
    } else {
        task->left[LDR_LEFT_INTERRUPTS]++;
        task->skipped = 1;
    }
    ldr_is_done(task);
}

/* Writes an interrupt's end: before it what it still holds, and after it what is to be off again. */
static void ldr_close(struct ldr_task *task) {
    while (task->held > task->frame->base) {
        if (!ldr_give(task, task->held - 1))
            return;
        task->left[LDR_LEFT_KEPT]++;
    }
    char *to = ldr_record(task, "leave");
    if (!to)
        return;
    ldr_record_ends(task, to);
    ldr_irqs(task, "off,", ldr_closed(task->frame--));
}

void ldr_leave(struct ldr_task *task) {
    if (ldr_is_out(task, -1))
        return;
    if (task->frame->irq)
        ldr_close(task);
    else
        task->left[LDR_LEFT_LEAVES]++;
    ldr_is_done(task);
}

/* Sets a flag. A change that changes nothing isn't written. Returns whether it was written. */
static bool ldr_turn(struct ldr_task *task, const char *word, unsigned irq, unsigned off) {
    struct ldr_frame *frame = task->frame;
    if ((frame->off & irq) == off)
        return false;
    if (irq <= frame->irq || irq > LDR_HARDIRQ) {
        task->left[LDR_LEFT_FLAGS]++;
        return false;
    }
    if (!ldr_catch_up(task))
        return false;
    frame->off ^= irq;
    return ldr_irqs(task, word, irq);
}

void ldr_off(struct ldr_task *task, unsigned irq) {
    if (ldr_is_out(task, 0))
        return;
    ldr_turn(task, "off,", irq, irq);
    ldr_is_done(task);
}

void ldr_on_at(struct ldr_task *task, unsigned irq, const char *place, const char *function) {
    if (ldr_is_out(task, 0))
        return;
    if (ldr_turn(task, "on,", irq, 0))
        ldr_line(task, task->events + 1, place, function);
    ldr_is_done(task);
}

bool ldr_is_at_rest(const struct ldr_task *task) {
    return (task->skipped | task->held | task->frame->off) == 0; /* in an interrupt softirqs are off */
}

void ldr_flush(struct ldr_task *task) {
    if (task->is_inside)
        return;
    task->is_inside = 1;
    LDR_FENCE();
    if (task->ended == LDR_REASONS)
        (void)ldr_catch_up(task);
    ldr_put_trace(task);
    ldr_put_all(&task->places);
    ldr_is_done(task);
}

void ldr_end(struct ldr_task *task) {
    if (ldr_has_steps(task))
        ldr_flush(task);
    task->ended = LDR_LEFT_PUTS;
    LDR_FENCE();
    ldr_put_trace(task);
    for (unsigned reason = 0; reason < LDR_REASONS; reason++) {
        char letter[2] = {(char)('a' + reason), 0};
        if (task->left[reason] > 0)
            ldr_line(task, task->left[reason], "left", letter);
    }
    ldr_line(task, task->events, "end", "");
    ldr_put_all(&task->places);
}

#endif

#ifdef __cplusplus
} /* extern "C" */
#endif

#endif
