/* Files: the records of each CPU, and all of them in the order of their numbers. */
#define _GNU_SOURCE
#include "converter.h"

#include <fcntl.h>
#include <sys/mman.h>
#include <sys/stat.h>
#include <unistd.h>

struct cpu cpus[MAX_CPUS];
int cpu_count;
int open_gaps;

/* A whole file, followed by a zero byte. */
char *read_file(const char *path, size_t *size) {
    FILE *file = fopen(path, "rb");
    if (!file)
        return NULL;
    char *bytes = NULL;
    size_t room = 0;
    ssize_t length = getdelim(&bytes, &room, 0, file);
    *size = length < 0 ? 0 : (size_t)length;
    if (ferror(file))
        refuse(path, "can't be read");
    fclose(file);
    return length < 0 ? checked(calloc(1, 1)) : bytes;
}

/* A file of the recording, as text. */
char *read_raw(const char *name, size_t *size) {
    char path[4096];
    snprintf(path, sizeof path, "%s/%s", options.raw, name);
    return read_file(path, size);
}

static size_t slots_of(const struct lr_record *record) { return record->type == LR_NAME ? 1 + LR_NAME_SLOTS : 1; }

/* Makes a CPU's file readable as an array, without reading it: it may be larger than the memory. */
static void load_cpu(int number) {
    char path[4096];
    struct stat found;
    struct cpu *cpu = &cpus[number];
    snprintf(path, sizeof path, "%s/cpu%d.bin", options.raw, number);
    int file = open(path, O_RDONLY);
    if (file < 0)
        return;
    if (fstat(file, &found) || !S_ISREG(found.st_mode))
        refuse(path, "can't be read");
    cpu->is_there = true;
    cpu->slot_count = (size_t)found.st_size / sizeof(struct lr_record);
    counts.cut_files += (size_t)found.st_size % sizeof(struct lr_record) != 0;
    if (cpu->slot_count)
        cpu->slots = mmap(NULL, (size_t)found.st_size, PROT_READ, MAP_PRIVATE, file, 0);
    if (cpu->slots == MAP_FAILED)
        refuse(path, "can't be read");
    close(file);
    cpu_count = number + 1;
}

/* A file may end within the records of a name. */
static void drop_cut_end(struct cpu *cpu) {
    size_t place = 0;
    while (place < cpu->slot_count && place + slots_of(&cpu->slots[place]) <= cpu->slot_count)
        place += slots_of(&cpu->slots[place]);
    counts.cut_files += place != cpu->slot_count;
    cpu->slot_count = place;
}

void load_cpus(void) {
    bool is_found = false;
    for (int number = 0; number < MAX_CPUS; number++) {
        load_cpu(number);
        drop_cut_end(&cpus[number]);
        is_found = is_found || cpus[number].is_there;
    }
    if (!is_found)
        refuse(options.raw, "there is no cpuN.bin");
}

/* The CPU whose next record has the smallest number, or -1. */
static int first_cpu(void) {
    int first = -1;
    for (int number = 0; number < cpu_count; number++) {
        struct cpu *cpu = &cpus[number];
        if (cpu->next >= cpu->slot_count)
            continue;
        if (first < 0 || cpu->slots[cpu->next].number < cpus[first].slots[cpus[first].next].number)
            first = number;
    }
    return first;
}

void begin_items(void) {
    for (int number = 0; number < cpu_count; number++)
        cpus[number].next = 0;
}

/* The next record of all, in the order of their numbers. False: there is none. */
bool next_item(struct item *item) {
    int number = first_cpu();
    if (number < 0)
        return false;
    struct cpu *cpu = &cpus[number];
    const struct lr_record *record = &cpu->slots[cpu->next];
    cpu->next += slots_of(record);
    bool is_before_gap = cpu->next < cpu->slot_count && cpu->slots[cpu->next].type == LR_LOST;
    *item = (struct item){record, number, is_before_gap};
    return true;
}

static bool is_known_type(const struct lr_record *record) {
    return record->type <= LR_UNDER && (record->type != LR_NOTHING || control.is_of_text);
}

/* Counts what a file lost or got in the middle. The numbers of all CPUs' records together are 1, 2, 3 and so on: events that found no room
   got none. Only text has a record numbered 0, the first one of each CPU. */
void check_item(const struct item *item) {
    static uint64_t last;
    uint64_t number = item->record->number;
    counts.unknown_types += !is_known_type(item->record);
    if (number == 0 && control.is_of_text)
        return;
    if (number > last) {
        counts.absent += number - last - 1;
        last = number;
    } else {
        counts.misplaced++;
    }
}

/* ---- Whether the recording is whole: what the module wrote, as `control` says, was read. */

struct control control = {.symbols = NOT_SAID, .modules = NOT_SAID};
static bool is_cpu_named[MAX_CPUS];

/* Compares one line of `control` with the file of its CPU. */
static void compare_cpu(const char *line) {
    unsigned number;
    unsigned long written, lost = 0, nested = 0;
    if (sscanf(line, "cpu%u slots written %lu lost %lu nested %lu", &number, &written, &lost, &nested) < 2 || number >= MAX_CPUS)
        return;
    control.lost += lost;
    control.nested += nested;
    control.is_there = is_cpu_named[number] = true;
    if (cpus[number].slot_count != written)
        incomplete("records-missing", "the module wrote %lu slots on CPU %u, and %zu are there: was the disk full?", written, number,
                   cpus[number].slot_count);
}

/* `symbol ADDRESS NAME`. */
static void note_landmark(char *line) {
    strsep(&line, " ");
    const char *address = strsep(&line, " ");
    if (!line)
        return;
    struct landmark landmark = {strtoull(address, NULL, 16), line};
    PUSH(control.landmarks, control.landmark_count, landmark);
}

/* `tracepoint NAME found` or `missing`. */
static void note_tracepoint(const char *line) {
    size_t length = strlen(control.missing);
    char name[64], found[16];
    if (sscanf(line, "tracepoint %63s %15s", name, found) == 2 && !strcmp(found, "missing"))
        snprintf(control.missing + length, sizeof control.missing - length, " %s", name);
}

static void note_line(char *line) {
    unsigned long bytes, lost;
    note_tracepoint(line);
    compare_cpu(line);
    control.is_of_text = control.is_of_text || !strcmp(line, "made of text");
    control.is_without_softirqs = control.is_without_softirqs || !strcmp(line, "text without softirqs");
    control.is_without_interrupts = control.is_without_interrupts || !strcmp(line, "text without interrupts");
    control.is_lockdep_off = control.is_lockdep_off || !strcmp(line, "lockdep off");
    sscanf(line, "text left out %lu", &counts.unproven);
    if (sscanf(line, "symbols written %lu", &bytes) == 1)
        control.symbols = bytes;
    if (sscanf(line, "modules written %lu lost %lu", &bytes, &lost) == 2) {
        control.modules = bytes;
        if (lost)
            incomplete("modules-lost", "there was no room for the symbols of all modules: classes of these may be joined");
    }
    if (!strncmp(line, "symbol ", 7))
        note_landmark(line);
}

static void find_unnamed_cpu(void) {
    for (int number = 0; control.is_there && number < cpu_count; number++)
        if (cpus[number].is_there && !is_cpu_named[number])
            incomplete("control-missing", "%.150s/control says nothing of CPU %d, so it isn't known whether all was read", options.raw,
                       number);
}

void compare_control(void) {
    size_t size;
    char *text = read_raw("control", &size);
    for (char *line; text && (line = strsep(&text, "\n"));)
        note_line(line);
    find_unnamed_cpu();
    if (!control.is_there)
        incomplete("control-missing", "%.150s/control isn't there or says nothing, so it isn't known whether all was read", options.raw);
}
