/* What the files share that write traces: how far the trace of one thread is. */
#ifndef LOCKDEP_TRACE_H
#define LOCKDEP_TRACE_H
#include "finish.h"

struct held {
    uint32_t object, place;
    int key;
    enum mode mode;
    bool is_written;
    bool is_own; /* it is the thread itself */
};

struct trace {
    struct arena *arena;
    const struct raw_thread *raw;
    FILE *text, *objects, *places;
    struct held held[RAW_HELD + 8];
    size_t depth, written;
    struct content content;
    uint64_t events;
    bool waits; /* its last record is a lock that it waits for */
    const char *name;
    FILE *weak; /* lines about its weak acquisitions; NULL if it has none */
    char *weak_text;
    size_t weak_length;
    const struct source *source; /* in whose set the trace is; NULL: it is one of all traces */
    bool is_frame;               /* of that: it is of runs of the source */
    bool may_interrupt;          /* the source, in what comes next */
    bool is_off;            /* the trace says that it may not */
};

/* ---- files.c */

/* A file that is made when there is something to write. */
struct late_file {
    FILE *file;
    char path[4300];
};

FILE *begun(struct late_file *late, const char *folder, const char *name);
void end_file(struct late_file *late);

/* ---- events.c */

void write_word(struct trace *t, const char *word, uint32_t place);
void take_state(struct trace *t, const struct raw_record *r);
void take(struct trace *t, const struct raw_record *r);
void give_back(struct trace *t, const struct raw_record *r);
void write_weak(const char *folder, struct trace *t, bool is_kept);
void end_weak(void);

#endif
