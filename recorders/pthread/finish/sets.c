/* Signals' handlers as interrupts. For each source, a signal with a handler, of which a run waited for a lock there is a set of traces,
   FOLDER/signals/N: the runs of the source are hardirqs, and hardirqs are on in a thread while the source may interrupt it. What other sources
   do is a task, as what a thread's own code does. Only doubles and inversions are looked for there. */
#include "finish.h"

#include <errno.h>
#include <string.h>
#include <sys/stat.h>

#define MOST_SETS 32

struct locks {
    int *keys;
    size_t count;
};

struct source {
    unsigned signal;
    uint64_t handler;       /* as a word */
    uint64_t runs, continued;
    uint64_t unblocks;      /* as a mask: signals that its runs unblock */
    bool is_sent_to_process; /* else to threads alone */
    uint32_t sent;           /* of enum raw_sent: how its signals were sent */
    bool is_of_locking;      /* its program takes locks */
    bool has_others;         /* a program that has it starts threads or shares locks, or a handler unblocks it */
    bool is_late;            /* it comes only when its thread has taken its last lock */
    uint32_t number;         /* of its set; 0: it has none */
    struct locks taken;      /* the single locks that its runs waited for */
    struct locks narrow;     /* those of them, and of those that they tried for, that know their owner */
    struct locks others;     /* those that are neither mutexes nor read-write locks */
    struct locks rwlocks;    /* those that know their writer */
    struct locks queued;     /* those that it takes as a reader who doesn't pass waiting writers */
    struct locks written;    /* those that it takes otherwise */
};

static struct source **sources;
static size_t source_count;
static uint32_t set_count, sets_beyond;

/* ---- What is called how. */

static const char *const words[] = {NULL,     "HUP",    "INT",  "QUIT", "ILL",  "TRAP", "ABRT", "BUS",    "FPE",  "KILL", "USR1",
                                      "SEGV",   "USR2",   "PIPE", "ALRM", "TERM", "STKFLT", "CHLD", "CONT", "STOP", "TSTP", "TTIN",
                                      "TTOU",   "URG",    "XCPU", "XFSZ", "VTALRM", "PROF", "WINCH", "IO",  "PWR",  "SYS"};
#define FIRST_REAL_TIME 34 /* of the C library's */

const char *tell_signal(char *text, size_t room, unsigned number) {
    if (number && number < sizeof words / sizeof *words)
        snprintf(text, room, "SIG%s", words[number]);
    else if (number > FIRST_REAL_TIME)
        snprintf(text, room, "SIGRTMIN+%u", number - FIRST_REAL_TIME);
    else
        snprintf(text, room, number == FIRST_REAL_TIME ? "SIGRTMIN" : "SIG%u", number);
    return text;
}

static bool is_somewhere(const struct source *s) { return s->handler != UINT64_MAX; }

/* The name of the handler, as names of classes have it, or NULL if it has none. */
static const char *name_of(const struct source *s) {
    static char name[LONGEST_NAME];
    const struct symbol *symbol = is_somewhere(s) ? symbol_at(raw_word_module(s->handler), raw_word_offset(s->handler), SYMBOL_CODE) : NULL;
    if (!symbol || symbol->value != raw_word_offset(s->handler))
        return NULL;
    tell_symbol(name, sizeof name, symbol->name);
    return name;
}

/* ---- The sources of all recordings: the same handler of a signal is one. */

static struct source *source_like(unsigned signal, uint64_t handler) {
    for (size_t i = 0; i < source_count; i++)
        if (sources[i]->signal == signal && sources[i]->handler == handler && handler != UINT64_MAX)
            return sources[i];
    struct source *new = checked(calloc(1, sizeof *new));
    new->signal = signal;
    new->handler = handler;
    PUSH(sources, source_count, new);
    return new;
}

static bool shares_locks(const struct arena *a) {
    for (uint32_t n = 1; n <= count_of(a, RAW_OBJECTS); n++)
        if (((const struct raw_object *)part_of(a, RAW_OBJECTS, n))->ordinal == RAW_SHARED)
            return true;
    return false;
}

/* Whether a process has a second thread, by its traces and by runs of handlers; one that does neither is known by its start. */
static bool has_second_thread(const struct arena *a) {
    uint32_t count = count_of(a, RAW_PROCESSES), *of = checked(calloc(count + 1, sizeof *of));
    uint32_t traces = count_of(a, RAW_THREADS), all = traces + count_of(a, RAW_RUNS);
    bool has_second = false;
    for (uint32_t n = 1; n <= all; n++) {
        const struct raw_thread *t = n <= traces ? part_of(a, RAW_THREADS, n) : NULL;
        const struct raw_run *run = t ? NULL : part_of(a, RAW_RUNS, n - traces);
        uint32_t process = t ? t->process : run->process, thread = t ? t->system_thread : run->system_thread;
        uint32_t *known = &of[process <= count ? process : 0];
        has_second |= !process || (*known && *known != thread);
        *known = thread;
    }
    free(of);
    return has_second;
}

/* Whether two threads of a program, which may be of two processes, can wait for one another. A process that started no thread has its main one alone. */
static bool has_threads(const struct arena *a) {
    return count_of(a, RAW_LIVES) || a->raw->regions[RAW_LIVES].refused || a->raw->no_thread || shares_locks(a) || has_second_thread(a);
}

static bool takes_locks(const struct arena *a) {
    for (uint32_t n = 1; n <= count_of(a, RAW_THREADS); n++)
        if (((const struct raw_thread *)part_of(a, RAW_THREADS, n))->calls)
            return true;
    return false;
}

static void read_sources(struct arena *a) {
    uint32_t count = count_of(a, RAW_SOURCES);
    bool is_locking = takes_locks(a), has_others = count && has_threads(a);
    a->sources = checked(calloc(count + 1, sizeof *a->sources));
    for (uint32_t n = 1; n <= count; n++) {
        const struct raw_source *raw = part_of(a, RAW_SOURCES, n);
        if (!raw->signal)
            continue;
        a->sources[n] = source_like(raw->signal, global_word(a, raw->handler));
        a->sources[n]->continued += raw->continued;
        a->sources[n]->unblocks |= raw->unblocks;
        a->sources[n]->is_of_locking |= is_locking;
        a->sources[n]->has_others |= has_others || (a->raw->unblocked_by_runs >> (raw->signal - 1) & 1);
    }
}

static struct source *source_numbered(const struct arena *a, uint32_t n) {
    return n && n <= count_of(a, RAW_SOURCES) && a->sources ? a->sources[n] : NULL;
}

static void read_runs(const struct arena *a) {
    for (uint32_t n = 1; n <= count_of(a, RAW_RUNS); n++) {
        const struct raw_run *run = part_of(a, RAW_RUNS, n);
        struct source *source = source_numbered(a, run->source);
        if (!source)
            continue;
        source->runs += run->count;
        source->is_sent_to_process |= (run->sent & SENT_TO_PROCESS) != 0;
        source->sent |= run->sent;
    }
}

/* ---- What the runs take. */

static bool has_lock(const struct locks *locks, int key) {
    for (size_t i = 0; i < locks->count; i++)
        if (locks->keys[i] == key)
            return true;
    return false;
}

static void add_once(struct locks *locks, int key) {
    if (!has_lock(locks, key))
        PUSH(locks->keys, locks->count, key);
}

static enum raw_knows what_it_knows(const struct arena *a, uint32_t object) {
    return (enum raw_knows)((const struct raw_object *)part_of(a, RAW_OBJECTS, object))->knows;
}

/* ---- Readers that wait behind waiting writers, which a kind of read-write lock has: only of a lock for which somebody waits as a writer. */

static struct locks with_queue, with_writers; /* such locks that a run reads, and those of them that have writers */

static bool may_queue(const struct arena *a, uint32_t object, enum mode mode) { return mode == MODE_READ && what_it_knows(a, object) == KNOWS_WRITER; }

bool is_queued(struct arena *a, uint32_t process, uint32_t object, enum mode mode) {
    return may_queue(a, object, mode) && has_lock(&with_writers, key_of_object(a, process, object));
}

static void read_writers_of(struct arena *a, const struct raw_thread *t) {
    for (uint64_t i = 0; i < t->count; i++) {
        const struct raw_record *r = record_of(a, t, i);
        bool is_write = r && raw_mode(r->what) == MODE_WRITE && !is_left_out(a, raw_object(r->what));
        int key = is_write ? key_of_object(a, t->process, raw_object(r->what)) : NO_KEY;
        if (is_write && has_lock(&with_queue, key))
            add_once(&with_writers, key);
    }
}

static void read_writers(void) {
    for (size_t i = 0; with_queue.count && i < arena_count; i++)
        for (uint32_t n = 1; n <= count_of(&arenas[i], RAW_THREADS); n++) {
            const struct raw_thread *t = part_of(&arenas[i], RAW_THREADS, n);
            if (t->is_ready)
                read_writers_of(&arenas[i], t);
        }
}

static void add_taken(const struct arena *a, struct source *source, uint32_t object, enum mode mode, int key) {
    enum raw_knows knows = what_it_knows(a, object);
    if (knows == KNOWS_OWNER)
        add_once(&source->narrow, key);
    if (mode >= MODE_TRY_WRITE)
        return;
    add_once(&source->taken, key);
    if (knows == IS_OTHER)
        add_once(&source->others, key);
    if (knows == KNOWS_WRITER)
        add_once(&source->rwlocks, key);
    if (!may_queue(a, object, mode)) {
        add_once(&source->written, key);
        return;
    }
    add_once(&source->queued, key);
    add_once(&with_queue, key);
}

static void read_taken(struct arena *a, const struct raw_thread *t, struct source *source) {
    for (uint64_t i = 0; i < t->count; i++) {
        const struct raw_record *r = record_of(a, t, i);
        if (!r || raw_mode(r->what) >= MODE_RELEASE || is_left_out(a, raw_object(r->what)))
            continue;
        add_taken(a, source, raw_object(r->what), raw_mode(r->what), key_of_object(a, t->process, raw_object(r->what)));
    }
}

static void read_all_taken(struct arena *a) {
    for (uint32_t n = 1; n <= count_of(a, RAW_THREADS); n++) {
        const struct raw_thread *t = part_of(a, RAW_THREADS, n);
        struct source *source = source_numbered(a, t->source);
        if (t->is_ready && source)
            read_taken(a, t, source);
    }
}

static void number_sets(void) {
    for (size_t i = 0; i < source_count; i++) {
        if (!sources[i]->taken.count)
            continue;
        if (set_count < MOST_SETS)
            sources[i]->number = ++set_count;
        else
            sets_beyond++;
    }
}

/* ---- Which traces are of one thread: its own code, and the runs of handlers in it. */

static uint64_t threads_of(const struct arena *a) {
    uint64_t count = 0;
    bool *is_counted = checked(calloc(a->raw->system_threads + 1, sizeof *is_counted));
    for (uint32_t n = 1; n <= count_of(a, RAW_THREADS); n++) {
        const struct raw_thread *t = part_of(a, RAW_THREADS, n);
        bool is_new = a->has_events[n] && !is_counted[t->system_thread];
        count += is_new;
        is_counted[t->system_thread] |= is_new;
    }
    free(is_counted);
    return count;
}

uint64_t threads_with_events(void) {
    uint64_t count = 0;
    for (size_t i = 0; i < arena_count; i++)
        count += threads_of(&arenas[i]);
    return count;
}

static void write_threads_of(FILE *file, const struct arena *a, uint64_t before) {
    for (uint32_t n = 1; n <= count_of(a, RAW_THREADS); n++) {
        const struct raw_thread *t = part_of(a, RAW_THREADS, n);
        if (a->traces[n])
            fprintf(file, "task-%04u.csv %lu\n", a->traces[n], (unsigned long)(before + t->system_thread));
    }
}

/* Of each trace a number of its thread. */
static void write_threads(const char *folder) {
    char path[4300];
    uint64_t before = 0;
    snprintf(path, sizeof path, "%s/threads", folder);
    FILE *file = created(path);
    for (size_t i = 0; i < arena_count; i++) {
        write_threads_of(file, &arenas[i], before);
        before += arenas[i].raw->system_threads;
    }
    closed(file, path);
}

/* ---- Whom a source interrupts. The system gives a signal that is sent to the process to any thread. If it was only ever sent to threads, those
   count that it was sent to, and those that run the same function. */

static bool is_sent_to(const struct source *source, const struct arena *a, const struct raw_thread *t) {
    for (uint32_t n = 1; n <= count_of(a, RAW_RUNS); n++) {
        const struct raw_run *run = part_of(a, RAW_RUNS, n);
        bool is_alike = run->system_thread == t->system_thread || (t->start && run->start == t->start);
        if (is_alike && source_numbered(a, run->source) == source)
            return true;
    }
    return false;
}

/* What only timers send comes in only where one is armed. */
static bool is_by_timer(const struct source *source) { return (source->sent & (SENT_BY_TIMER | SENT_BY_OTHERS)) == SENT_BY_TIMER; }

static const struct source *source_on(const struct arena *a, const struct raw_state *s, unsigned signal) {
    const struct source *source = source_numbered(a, s->sources[signal - 1] & ~RAW_UNARMED);
    return source && !(s->sources[signal - 1] & RAW_UNARMED && is_by_timer(source)) ? source : NULL;
}

/* Whether another source may come in that unblocks the signal, which is blocked. */
static bool is_opened(const struct source *source, const struct arena *a, const struct raw_state *s) {
    for (unsigned signal = 1; !s->sources[source->signal - 1] && signal <= RAW_SIGNALS; signal++) {
        const struct source *other = source_on(a, s, signal);
        if (other && other != source && other->unblocks >> (source->signal - 1) & 1)
            return true;
    }
    return false;
}

bool may_interrupt(const struct source *source, const struct arena *a, const struct raw_thread *t, uint32_t state) {
    const struct raw_state *s = part_of(a, RAW_STATES, state);
    bool is_on = s && s->is_ready && (source_on(a, s, source->signal) == source || is_opened(source, a, s));
    return is_on && (source->is_sent_to_process || is_sent_to(source, a, t));
}

/* Of a run of a source: whether the source may interrupt it itself. */
static bool may_interrupt_any(const struct source *source, const struct arena *a, const struct raw_thread *t) {
    for (uint64_t i = 0; i < t->count; i++) {
        const struct raw_record *r = state_record_of(a, t, i);
        if (r && may_interrupt(source, a, t, raw_object(r->what)))
            return true;
    }
    return false;
}

/* ---- Signals that come late: each was sent to a thread that had taken its last lock by then, as one that ends a thread. If it is never sent earlier
   nothing waits for its handler. */

/* Whether what runs in a thread, but for the source, takes nothing any more once the source's first run has come. */
static bool is_late_in(const struct source *source, const struct arena *a, const struct raw_run *run) {
    for (uint32_t n = 1; n <= count_of(a, RAW_THREADS); n++) {
        const struct raw_thread *t = part_of(a, RAW_THREADS, n);
        bool is_own = t->is_ready && t->system_thread == run->system_thread && t->process == run->process;
        if (is_own && (t->source ? source_numbered(a, t->source) != source || may_interrupt_any(source, a, t) : t->calls != run->calls))
            return false;
    }
    return true;
}

static bool is_late_everywhere(const struct source *source, const struct arena *a) {
    for (uint32_t n = 1; n <= count_of(a, RAW_RUNS); n++) {
        const struct raw_run *run = part_of(a, RAW_RUNS, n);
        if (source_numbered(a, run->source) == source && !is_late_in(source, a, run))
            return false;
    }
    return true;
}

static void find_late(struct source *source) {
    source->is_late = source->runs && !source->is_sent_to_process;
    for (size_t i = 0; i < arena_count && source->is_late; i++)
        source->is_late = is_late_everywhere(source, &arenas[i]);
}

bool comes_late(const struct source *source) { return source && source->is_late; }

/* ---- The sets. A trace has the number that it has among all traces. Runs that their own source may interrupt are in a set twice. */

static void make_folder(const char *path) {
    if (mkdir(path, 0777) != 0 && errno != EEXIST)
        refuse_file("can't be made", path);
}

/* In a child that a handler has forked, the handler's run goes on with what it has interrupted in the parent: a lock that was held there is held in
   the child. So the run takes the parent's locks, too. */
static bool write_as_of_parent(const char *folder, const struct source *source, struct arena *a, const struct raw_thread *t, uint32_t number) {
    struct raw_thread in_parent = *t;
    const struct raw_process *process = t->process ? part_of(a, RAW_PROCESSES, t->process) : NULL;
    if (!process || !process->parent)
        return false;
    in_parent.process = process->parent;
    return write_in_set(folder, source, a, &in_parent, number, true);
}

static void write_in(const char *folder, const struct source *source, struct arena *a, uint32_t n, uint32_t *more) {
    const struct raw_thread *t = part_of(a, RAW_THREADS, n);
    bool is_run = t->source && source_numbered(a, t->source) == source;
    if (!a->traces[n])
        return;
    write_in_set(folder, source, a, t, a->traces[n], is_run);
    if (is_run && may_interrupt_any(source, a, t))
        *more += write_in_set(folder, source, a, t, (uint32_t)sums.threads + *more + 1, false);
    if (is_run && t->is_of_parent)
        *more += write_as_of_parent(folder, source, a, t, (uint32_t)sums.threads + *more + 1);
}

static bool has_source(const struct arena *a, const struct source *source) {
    for (uint32_t n = 1; n <= count_of(a, RAW_SOURCES); n++)
        if (a->sources[n] == source)
            return true;
    return false;
}

/* Programs that neither have the handler nor share a lock say nothing of it. */
static void write_set(const char *folder, struct source *source) {
    char path[4300];
    uint32_t more = 0;
    snprintf(path, sizeof path, "%s/%u", folder, source->number);
    make_folder(path);
    find_late(source);
    for (size_t i = 0; i < arena_count; i++) {
        struct arena *a = &arenas[i];
        bool is_part = has_source(a, source) || shares_locks(a);
        for (uint32_t n = 1; is_part && n <= count_of(a, RAW_THREADS); n++)
            write_in(path, source, a, n, &more);
    }
    end_set();
}

/* ---- The lists: of the sources that have a set, and of the handlers that never ran. */

static void write_about(FILE *file, const struct source *s) {
    char text[32];
    const char *name = name_of(s);
    fprintf(file, "\"signal\": \"%s\", \"handler\": ", tell_signal(text, sizeof text, s->signal));
    if (name)
        write_quoted(file, name, SIZE_MAX);
    else
        fputs("null", file);
    fputs(", \"module\": ", file);
    if (is_somewhere(s))
        write_quoted(file, modules[raw_word_module(s->handler)].path, SIZE_MAX);
    else
        fputs("null", file);
    fprintf(file, ", \"offset\": \"0x%lx\", \"file\": null, \"line\": null", is_somewhere(s) ? (unsigned long)raw_word_offset(s->handler) : 0);
}

/* The names of locks, but for some of them, and only of some if that is asked for. */
static void write_locks(FILE *file, const char *what, const struct locks *locks, const struct locks *but, const struct locks *only) {
    char object[MAX_OBJECT_NAME + 1];
    const char *before = "";
    fprintf(file, ", \"%s\": [", what);
    for (size_t i = 0; i < locks->count; i++) {
        if ((but && has_lock(but, locks->keys[i])) || (only && !has_lock(only, locks->keys[i])))
            continue;
        tell_object(object, sizeof object, locks->keys[i]);
        fputs(before, file);
        write_quoted(file, object, SIZE_MAX);
        before = ", ";
    }
    putc(']', file);
}

/* The signals whose handlers unblock that of a source. */
static void write_openers(FILE *file, const struct source *s) {
    char text[32];
    size_t count = 0;
    for (size_t i = 0; i < source_count; i++)
        if (sources[i] != s && sources[i]->unblocks >> (s->signal - 1) & 1)
            fprintf(file, "%s\"%s\"", count++ ? ", " : ", \"opened_by\": [", tell_signal(text, sizeof text, sources[i]->signal));
    fputs(count ? "]" : "", file);
}

static void write_source(FILE *file, const struct source *s) {
    fprintf(file, "{\"number\": %u, ", s->number);
    write_about(file, s);
    fprintf(file, ", \"runs\": %lu, \"sent_to\": \"%s\", %s\"takes\": %lu", (unsigned long)s->runs,
            s->is_sent_to_process ? "process" : "threads", s->has_others ? "" : "\"alone\": true, ", (unsigned long)s->taken.count);
    write_locks(file, "narrow", &s->narrow, NULL, NULL);
    write_locks(file, "others", &s->others, NULL, NULL);
    write_locks(file, "rwlocks", &s->rwlocks, NULL, NULL);
    write_locks(file, "queued", &s->queued, &s->written, &with_writers);
    write_openers(file, s);
    fprintf(file, "%s%s}", s->is_late ? ", \"late\": true" : "", is_by_timer(s) ? ", \"timers\": true" : "");
}

static void write_never(FILE *file, const struct source *s) {
    putc('{', file);
    write_about(file, s);
    putc('}', file);
}

static bool has_set(const struct source *s) { return s->number != 0; }
static bool never_ran(const struct source *s) { return !s->runs && !s->continued && s->is_of_locking; }

static void write_list(const char *folder, const char *name, bool (*is_one)(const struct source *), void (*write)(FILE *, const struct source *)) {
    char path[4300];
    snprintf(path, sizeof path, "%s/%s", folder, name);
    FILE *file = created(path);
    bool is_first = true;
    putc('[', file);
    for (size_t i = 0; i < source_count; i++) {
        if (!is_one(sources[i]))
            continue;
        fputs(is_first ? "\n" : ",\n", file);
        write(file, sources[i]);
        is_first = false;
    }
    fputs(is_first ? "]\n" : "\n]\n", file);
    closed(file, path);
}

/* Nothing is written of programs without handlers. */
void write_sets(const char *folder) {
    char path[4200];
    snprintf(path, sizeof path, "%s/signals", folder);
    for (size_t i = 0; i < arena_count; i++) {
        read_sources(&arenas[i]);
        read_runs(&arenas[i]);
        read_all_taken(&arenas[i]);
    }
    read_writers();
    number_sets();
    if (!source_count)
        return;
    make_folder(path);
    for (size_t i = 0; i < source_count; i++)
        if (has_set(sources[i]))
            write_set(path, sources[i]);
    write_threads(path);
    write_list(path, "sources.json", has_set, write_source);
    write_list(path, "never.json", never_ran, write_never);
}

void write_sources(FILE *file) {
    char text[32];
    for (size_t i = 0; i < source_count; i++) {
        const struct source *s = sources[i];
        const char *name = name_of(s);
        if (!s->runs)
            continue;
        begin_entry(file);
        fprintf(file, "{\"signal\":\"%s\",\"handler\":", tell_signal(text, sizeof text, s->signal));
        write_quoted(file, name ? name : "-", SIZE_MAX);
        fprintf(file, ",\"runs\":%lu,\"takes\":%lu,\"sent_to\":\"%s\"}", (unsigned long)s->runs, (unsigned long)s->taken.count,
                s->is_sent_to_process ? "process" : "threads");
    }
    write_loss(file, "handlers-beyond-sets", sets_beyond);
}
