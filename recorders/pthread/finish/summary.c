/* What was recorded and what was left out, as summary.json:

     {"recording":1,"recorder":"pthread","counts":[ENTRY,..],"unseen":[],"started":[{"path":..,"times":NUMBER,"why":..},..],"loaded":[PATH,..]}

   with an entry on each line. One of {"code":CODE,"count":NUMBER} counts something, and what stands under it has a member of its own:

     "ends":[[TRACE,LOCK,..],..]              which locks a thread held at its end, or while it waited for the last of them
     "breaches":[{"what":..,"at":PLACE,"since":PLACE,"times":NUMBER},..]
     "reasons":[[NUMBER,TEXT],..]             why a program says that locks are to be ignored
     "dropped":[[CLASS,NUMBER],..]            the classes that were dropped most often; with "more":true if there are others
     "stand_ins":[[TRACE,NUMBER],..]          traces that stand for so many others

   {"unseen":CODE} is a likely reason why no lock was seen, and {"signal":NAME,"handler":..,"runs":..,"takes":..,"sent_to":..} a handler that ran.
   `started` has the programs that were started, `along` with the recorder or `alone`, and `loaded` all files that were loaded: `record` finds out
   which of them weren't reached and which have other locks, and puts that in their place. The sentences are the driver's (tool/lockdep/record), which writes SUMMARY by them. */
#include "finish.h"

#include <string.h>

/* ---- Entries. */

void begin_entry(FILE *file) {
    static const char *before = "\n";
    fputs(before, file);
    before = ",\n";
}

/* A count, which its own members may follow until it is ended by a brace. */
static void begin_count(FILE *file, const char *code, uint64_t count) {
    begin_entry(file);
    fprintf(file, "{\"code\":\"%s\",\"count\":%lu", code, (unsigned long)count);
}

static void write_count(FILE *file, const char *code, uint64_t count) {
    begin_count(file, code, count);
    putc('}', file);
}

/* What isn't 0 has an entry. */
void write_loss(FILE *file, const char *code, uint64_t count) {
    if (count)
        write_count(file, code, count);
}

/* The same, with what stands under it. */
static void write_loss_with(FILE *file, const char *code, uint64_t count, void (*write)(FILE *)) {
    if (!count)
        return;
    begin_count(file, code, count);
    write(file);
    putc('}', file);
}

static uint64_t sum_of(uint64_t (*of)(const struct raw_arena *)) {
    uint64_t sum = 0;
    for (size_t i = 0; i < arena_count; i++)
        sum += of(arenas[i].raw);
    return sum;
}

static uint64_t lost_threads(const struct raw_arena *a) { return a->no_thread; }
static uint64_t namespaces(const struct raw_arena *a) { return a->namespaces; }
static uint64_t deep_bound(const struct raw_arena *a) { return a->deep_bound; }
static uint64_t unknown_pieces(const struct raw_arena *a) { return a->unknown; }
static uint64_t asserted(const struct raw_arena *a) { return a->asserted; }
static uint64_t unknown_annotations(const struct raw_arena *a) { return a->unknown_annotations; }
static uint64_t refused_annotations(const struct raw_arena *a) { return a->refused_annotations; }
static uint64_t refused_names(const struct raw_arena *a) { return a->refused_names; }
static uint64_t unfollowed(const struct raw_arena *a) { return a->unfollowed_handlers; }
static uint64_t unknown_masks(const struct raw_arena *a) { return a->unknown_masks; }
static uint64_t refused_states(const struct raw_arena *a) {
    return a->regions[RAW_STATES].refused + a->regions[RAW_SOURCES].refused + a->regions[RAW_RUNS].refused;
}
static uint64_t is_small(const struct raw_arena *a) { return a->bytes < RAW_SMALL; }

/* ---- What was left out. */

/* What the programs said of their locks. */
static void write_annotations(FILE *file) {
    write_loss(file, "assertions", sum_of(asserted));
    write_loss_with(file, "ignored-locks", ignored_acquisitions(), write_reasons);
    write_loss(file, "refused-names", sum_of(refused_names));
    write_loss(file, "refused-annotations", sum_of(refused_annotations));
    write_loss(file, "unknown-annotations", sum_of(unknown_annotations));
}

static void write_losses(FILE *file) {
    const struct raw_left_out *raw = &sums.raw;
    write_loss(file, "refused-processes", refused_count);
    write_loss(file, "small-files", sum_of(is_small));
    write_loss(file, "lost-threads", sum_of(lost_threads));
    write_loss(file, "no-room", raw->no_room);
    write_loss(file, "unknown-memory", sum_of(unknown_pieces));
    write_loss(file, "full-traces", raw->full);
    write_loss(file, "beyond-classes", sums.classes);
    write_loss(file, "fork-handlers", sums.in_fork);
    write_loss_with(file, "beyond-held", sums.deep + raw->deep, write_dropped);
    write_loss(file, "retried-tries", raw->retried);
    write_loss(file, "reentered", raw->reentered);
    write_loss(file, "unfollowed-handlers", sum_of(unfollowed));
    write_loss(file, "masks-unknown", sum_of(unknown_masks));
    write_loss(file, "unknown-signals", sum_of(refused_states));
    write_loss(file, "unseen-releases", raw->releases);
    write_loss(file, "signal-semaphores", signals());
    write_loss(file, "deep-binding", sum_of(deep_bound));
    write_loss(file, "namespaces", sum_of(namespaces));
    write_loss_with(file, "threads-alike", sums.alike, write_stand_ins);
    write_loss(file, "unnamed-modules", unnamed_modules());
    write_loss(file, "unread-programs", unread_programs());
    write_loss(file, "repeats", raw->repeated);
    write_histories_left_out(file);
}

/* ---- Why no lock was seen, as far as the modules of the recorded programs suggest it. */

/* The C library and the recorder take locks, or name the functions that do, whatever the program does. */
static bool is_own_module(const struct module *m) {
    static const char *const names[] = {"libc.so", "libpthread", "ld-linux", "libstdc++.so", "preload.so", "linux-vdso"};
    for (size_t i = 0; i < sizeof names / sizeof *names; i++)
        if (strncmp(m->base, names[i], strlen(names[i])) == 0)
            return true;
    return false;
}

static bool is_python_module(const char *base) {
    static const char *const names[] = {"libpython", "python", "libpypy", "pypy"};
    for (size_t i = 0; i < sizeof names / sizeof *names; i++)
        if (strncmp(base, names[i], strlen(names[i])) == 0)
            return true;
    return false;
}

static void write_unseen(FILE *file) {
    bool is_python = false, is_java = false, is_go = false, is_rust = false, takes_locks = false;
    for (size_t i = 0; i < module_count; i++) {
        is_python |= is_python_module(modules[i].base);
        is_java |= strcmp(modules[i].base, "libjvm.so") == 0;
        is_go |= modules[i].is_go;
        is_rust |= modules[i].is_rust;
        takes_locks |= modules[i].takes_locks && !is_own_module(&modules[i]);
    }
    const struct {
        const char *name;
        bool is_one;
    } reasons[] = {{"static", process_count == 0}, {"libpython", is_python}, {"libjvm", is_java}, {"go", is_go}, {"rust", is_rust},
                   {"no-pthread-import", process_count > 0 && !takes_locks}};
    for (size_t i = 0; i < sizeof reasons / sizeof *reasons; i++)
        if (reasons[i].is_one) {
            begin_entry(file);
            fprintf(file, "{\"unseen\":\"%s\"}", reasons[i].name);
        }
}

/* ---- Programs and files. */

/* The programs that were started. */
static void write_started(FILE *file) {
    const char *before = "";
    for (size_t i = 0; i < arena_count; i++)
        for (uint32_t n = 1; n <= count_of(&arenas[i], RAW_PROGRAMS); n++) {
            const struct raw_program *p = part_of(&arenas[i], RAW_PROGRAMS, n);
            if (!p->state || !p->starts || memchr(p->path, '\n', sizeof p->path))
                continue;
            fprintf(file, "%s{\"path\":", before);
            write_quoted(file, p->path, sizeof p->path);
            fprintf(file, ",\"times\":%lu,\"why\":\"%s\"}", (unsigned long)p->starts, p->state == PROGRAM_ALONG ? "along" : "alone");
            before = ",";
        }
}

/* The programs and libraries that were loaded. */
static void write_loaded(FILE *file) {
    const char *before = "";
    for (size_t i = 0; i < module_count; i++) {
        if (!is_loaded_file(&modules[i]))
            continue;
        fputs(before, file);
        write_quoted(file, modules[i].path, SIZE_MAX);
        before = ",";
    }
}

/* ---- All of it. */

static void write_order_breaches(FILE *file) { write_breaches_of(file, BREACH_OF_ORDER); }
static void write_hold_breaches(FILE *file) { write_breaches_of(file, BREACH_OF_HOLD); }

static void write_counts(FILE *file) {
    write_count(file, "processes", process_count);
    write_count(file, "threads", threads_with_events());
    write_count(file, "operations", sums.operations);
    write_count(file, "events", sums.events);
    write_count(file, "classes", key_count < MAX_KEYS ? key_count : MAX_KEYS);
    write_loss_with(file, "waiting", sums.waiting, write_waiting);
    write_count(file, "at-exit", sums.waiting_at_exit);
    write_loss_with(file, "held-at-end", sums.held_at_end, write_held_at_end);
    write_loss_with(file, "out-of-order", breaches(BREACH_OF_ORDER), write_order_breaches);
    write_loss_with(file, "not-held", breaches(BREACH_OF_HOLD), write_hold_breaches);
    if (sums.operations == 0)
        write_unseen(file);
    write_sources(file);
    write_annotations(file);
    write_losses(file);
}

void write_summary(const char *folder) {
    char path[4300];
    snprintf(path, sizeof path, "%s/summary.json", folder);
    FILE *file = created(path);
    fputs("{\"recording\":1,\"recorder\":\"pthread\",\"counts\":[", file);
    write_counts(file);
    fputs("\n],\"unseen\":[],\"started\":[", file);
    write_started(file);
    fputs("],\"loaded\":[", file);
    write_loaded(file);
    fputs("]}\n", file);
    closed(file, path);
}
