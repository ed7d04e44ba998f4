/* The history of this process. How a step is written that was taken before is in held.h. All of it is done inside the recorder, so a signal's handler that
   comes meanwhile is known to have interrupted it (runs.c): it begins a chunk of its own, and nobody else writes where a step is about to be written. */
#ifndef LOCKDEP_HISTORY_H
#define LOCKDEP_HISTORY_H
#include "own.h"

#define NO_HISTORY RAW_STEP_CHUNK /* where no step can be: nothing is written any more, or never was */
#define NO_EPOCH UINT64_MAX
#define KNOWN_PASSED 8

/* What a thread has of it besides where its next step goes (self.history_at). */
struct own_history {
    bool has_begun;                /* it has a chunk */
    uint64_t passed[KNOWN_PASSED]; /* routines that run once which it has found to have run, and with which locks held */
};
extern EARLY_THREAD_LOCAL struct own_history own_history;

/* Of locks that threads take and release themselves. Routines that run once have steps of their own, semaphores are messages, and what the loader holds
   isn't known exactly. */
QUICK bool is_in_history(enum kind kind) { return kind <= KIND_RECURSIVE; }

QUICK bool is_at_end(uintptr_t at) { return !(at & (RAW_STEP_CHUNK - 1)); } /* of a chunk; also where the first one isn't begun yet */

/* ---- history.c */

void want_history(void);  /* as far as it was asked for */
void begin_history(void); /* of a process: at its beginning, or in a child */
void miss_step(void);     /* one isn't known, so the history ends with those before it */
void forget_chunk(void);  /* a handler has interrupted the recorder */
void forget_epoch(void);  /* the handler's run is over */
uint32_t put_taking(uintptr_t lock, uint8_t mode, uint32_t place, uint32_t object); /* returns where that is, in words; 0: nowhere */
void put_release(uintptr_t lock, uint32_t object);
void name_in_history(uintptr_t lock, uint32_t object);
void meet_in_history(uintptr_t lock, uint32_t object, uint64_t time); /* another lock than was there before, if one was */
void put_message(enum raw_verb verb, uintptr_t about, bool is_after, struct call call);
void put_message_by(enum raw_verb verb, uint8_t mode, uintptr_t about, bool is_after, struct call call);
void put_numbered(enum raw_verb verb, uintptr_t about, uint32_t number, struct call call);
void put_passed(uintptr_t control, struct call call);
void end_own_history(void);
uint32_t put_start(struct call call); /* of a thread, which gets a number; 0 if nothing is written */

#endif
