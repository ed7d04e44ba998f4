/* What is written: traces, callers, and the lists of tasks and classes. */
#define _GNU_SOURCE
#include "converter.h"

#define UNFINISHED ".new" /* behind the name of a file until all are written, so that no part is taken for the whole */

static char **made; /* the names of files that are written */
static size_t made_count;

static void path_of(char *path, size_t room, const char *name, const char *suffix) {
    snprintf(path, room, "%s/%s%s", options.folder, name, suffix);
}

static void remove_unfinished(void) {
    char path[4096];
    for (size_t number = 0; number < made_count; number++) {
        path_of(path, sizeof path, made[number], UNFINISHED);
        remove(path);
    }
}

FILE *open_file(const char *name) {
    char path[4096];
    path_of(path, sizeof path, name, UNFINISHED);
    if (!made_count)
        atexit(remove_unfinished);
    PUSH(made, made_count, checked(strdup(name)));
    FILE *file = fopen(path, "w");
    if (!file)
        refuse(path, "can't be written");
    return file;
}

void close_file(FILE *file) {
    bool is_failed = ferror(file);
    if (fclose(file) || is_failed)
        refuse(options.folder, "can't be written: no trace was made");
}

static void remove_files(size_t count) {
    char path[4096];
    for (size_t number = 0; number < count; number++) {
        path_of(path, sizeof path, made[number], "");
        remove(path);
    }
}

/* Gives all files their names, or none. */
void keep_files(void) {
    char from[4096], to[4096];
    for (size_t number = 0; number < made_count; number++) {
        path_of(from, sizeof from, made[number], UNFINISHED);
        path_of(to, sizeof to, made[number], "");
        if (rename(from, to)) {
            remove_files(number);
            refuse(to, "can't be written: no trace was made");
        }
    }
}

static void write_name(FILE *file, const char *name) {
    if (!strpbrk(name, ",\"")) {
        fputs(name, file);
        return;
    }
    fputc('"', file);
    for (; *name; name++) {
        if (*name == '"')
            fputc('"', file);
        fputc(*name, file);
    }
    fputc('"', file);
}

static void write_lock(FILE *file, const struct event *event) {
    fputs(event->kind == ACQ ? "acq," : "rel,", file);
    write_name(file, writtens[event->key / SUBCLASSES].text);
    fprintf(file, ",%d", event->key % SUBCLASSES);
    if (event->kind == ACQ)
        fprintf(file, ",%s", mode_names[event->what]);
    fputc('\n', file);
}

static void write_event(FILE *file, const struct event *event) {
    switch (event->kind) {
        case ACQ:
        case REL: write_lock(file, event); break;
        case ENTER: fprintf(file, "enter,%s\n", irq_names[event->what]); break;
        case LEAVE: fputs("leave\n", file); break;
        case ON: fprintf(file, "on,%s\n", irq_names[event->what]); break;
        default: fprintf(file, "off,%s\n", irq_names[event->what]); break;
    }
}

/* Where an acquisition or a release comes from, in words that `lockdep where` reads: the module or `vmlinux`, a line that isn't known,
   and the function. */
static void write_place(FILE *file, uint64_t place, uint64_t number) {
    const struct symbol *symbol = function_at(place, number);
    if (symbol)
        fprintf(file, "%s:0 %s+0x%llx", symbol->load == NO_LOAD ? "vmlinux" : loads[symbol->load].name, symbol->name,
                (unsigned long long)(place - symbol->address));
}

/* Writes the records of a task at the end of its trace, which has some already if tasks share it. The result is how many it has then. */
static size_t write_events(const struct task *task, FILE *file, FILE *places, size_t record) {
    for (size_t number = 0; number < task->event_count; number++) {
        const struct event *event = &task->events[number];
        record++;
        write_event(file, event);
        if (!event->number || !function_at(event->place, event->number))
            continue;
        fprintf(places, "%zu ", record);
        write_place(places, event->place, event->number);
        fputc('\n', places);
    }
    return record;
}

/* Writes a trace, with all tasks from this one on that share it. */
static void write_trace(size_t first) {
    char places[80];
    size_t record = 1;
    snprintf(places, sizeof places, "%s.places", tasks[first]->trace);
    FILE *file = open_file(tasks[first]->trace), *file_of_places = open_file(places);
    fprintf(file, "lockdep,%d\n", options.version);
    for (size_t number = first; number < task_count; number++) {
        struct task *task = tasks[number];
        if (!has_trace(task) || strcmp(task->trace, tasks[first]->trace))
            continue;
        record = write_events(task, file, file_of_places, record);
        task->acquisitions = 0; /* it is written */
    }
    counts.traces++;
    counts.events += record - 1;
    close_file(file);
    close_file(file_of_places);
}

/* Tasks are ordered by pid; those with the same pid in the order in which they occurred, and the idle tasks by name, which
   ends in their CPU's number. */
static int by_pid(const void *a, const void *b) {
    const struct task *first = *(struct task *const *)a, *second = *(struct task *const *)b;
    if (first->pid != second->pid)
        return first->pid < second->pid ? -1 : 1;
    int order = first->pid ? 0 : strverscmp(first->comm, second->comm);
    return order ? order : (first->order < second->order ? -1 : 1);
}

static void sort_tasks(void) {
    for (size_t number = 0; number < task_count; number++)
        tasks[number]->order = number;
    if (task_count)
        qsort(tasks, task_count, sizeof *tasks, by_pid);
}

/* Calls a trace COMM-PID.csv, and the next ones of that name COMM-PID-2.csv and so on. They stand next to one another. */
static void name_trace(size_t number, size_t *same) {
    struct task *task = tasks[number];
    const char *allowed = "abcdefghijklmnopqrstuvwxyzABCDEFGHIJKLMNOPQRSTUVWXYZ0123456789_+.-";
    char comm[sizeof task->comm];
    snprintf(comm, sizeof comm, "%s", *task->comm ? task->comm : "unnamed");
    for (char *byte = comm; *byte; byte++)
        if (!strchr(allowed, *byte) || (byte == comm && strchr(".-", *byte)))
            *byte = '_';
    *same = number && tasks[number - 1]->pid == task->pid ? *same + 1 : 1;
    int length = snprintf(task->trace, sizeof task->trace, "%s-%u", comm, task->pid);
    if (*same > 1 && task->pid)
        length += snprintf(task->trace + length, sizeof task->trace - (size_t)length, "-%zu", *same);
    snprintf(task->trace + length, sizeof task->trace - (size_t)length, ".csv");
}

static void name_traces(void) {
    size_t same = 1;
    for (size_t number = 0; number < task_count; number++)
        name_trace(number, &same);
}

/* A task's own name to the end of a line: what would end the line is escaped, and so is what escapes. */
static void write_comm(FILE *file, const char *comm) {
    for (const unsigned char *byte = (const unsigned char *)comm; *byte; byte++) {
        if (*byte == '\n')
            fputs("\\n", file);
        else if (*byte == '\\')
            fputs("\\\\", file);
        else if (*byte < ' ' || *byte == 0x7f)
            fprintf(file, "\\x%02x", *byte);
        else
            fputc(*byte, file);
    }
}

/* Lists the tasks that have a trace: its name, the task's pid and name. */
static void write_list(void) {
    FILE *list = open_file("tasks");
    for (size_t number = 0; number < task_count; number++) {
        if (!has_trace(tasks[number]))
            continue;
        fprintf(list, "%s %u ", tasks[number]->trace, tasks[number]->pid);
        write_comm(list, tasks[number]->comm);
        fputs(tasks[number]->is_reader ? " (reads the recording)\n" : "\n", list);
    }
    close_file(list);
}

void write_traces(void) {
    sort_tasks();
    name_traces();
    limit_traces();
    write_list();
    for (size_t number = 0; number < task_count; number++)
        if (has_trace(tasks[number]))
            write_trace(number);
}

static void write_taker(FILE *file, const struct class *class) {
    bool is_known = function_at(class->taker, class->taken_at);
    if (is_known)
        write_place(file, class->taker, class->taken_at);
    fputs(is_known ? "\t-\tfirst taken by\n" : "-\t-\t-\n", file);
}

/* Writes what `lockdep where` reads of classes: the symbol that contains the key, or if that says nothing, who takes it first. */
void write_classes(void) {
    FILE *file = open_file("classes");
    for (size_t number = 0; number < class_count; number++) {
        const struct class *class = &classes[number];
        bool is_named = class->is_static && class->symbol && !is_nameless(class);
        if (!class->taken_at)
            continue;
        fprintf(file, "%s\t", writtens[class->written].text);
        if (is_named)
            fprintf(file, "%s:0 %s\t-\tstatic\n", class->module ? class->module : "vmlinux", class->symbol->name);
        else
            write_taker(file, class);
    }
    close_file(file);
}
