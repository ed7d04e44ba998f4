/* Makes the raw files of a recording from a text on standard input: make FOLDER. One line a record, in the order of numbers:

     CPU cpu BASE                             where the CPU's variables lie
     CPU name KEY NAME                        a class's name, to the end of the line
     CPU task PID STRUCT COMM STATE DEPTH     this task from here on; `reader` or `off` may stand behind
     CPU held INSTANCE KEY HOW LEFT           a lock of the task's list
     CPU acq INSTANCE KEY HOW STATE DEPTH     behind these two the caller may stand
     CPU rel INSTANCE STATE DEPTH
     CPU under INSTANCE                       the nest_lock of the next acquisition
     CPU on STATE DEPTH                       hardirqs are about to be turned on
     CPU lost COUNT

   Numbers are hexadecimal, but for CPU, PID, DEPTH, LEFT and COUNT. DEPTH is 255 once lockdep is off. HOW is a mode of the
   trace format, with a subclass behind it (`w1`), `!` if it isn't checked, and `^` if it is under a nest_lock. STATE is
   letters: h and s in a hardirq and softirq, H and S these are on, L lockdep looks, N in an NMI, F a new interrupt, and - for
   none. COMM may have bytes as \xHH. Lines with # are left out. */
#include "../record.h"

#include <stdio.h>
#include <stdlib.h>
#include <string.h>

#define CPUS 4

static FILE *files[CPUS];
static lr_u32 pids[CPUS];
static lr_u64 number;
static unsigned long slots[CPUS], lost[CPUS];

static lr_u8 state_of(const char *letters) {
    static const char all[] = "hsHSLN.F";
    lr_u8 state = 0;
    for (; *letters; letters++)
        if (strchr(all, *letters))
            state |= (lr_u8)(1 << (strchr(all, *letters) - all));
    return state;
}

static lr_u8 flags_of(const char *how) {
    lr_u8 flags = LR_CHECK;
    int readers = 0;
    for (; *how; how++) {
        if (*how == 't')
            flags |= LR_TRY;
        else if (*how == 'r')
            readers++;
        else if (*how == '!')
            flags &= (lr_u8)~LR_CHECK;
        else if (*how == '^')
            flags |= LR_NEST;
        else if (*how >= '0' && *how <= '7')
            flags |= (lr_u8)(*how - '0');
    }
    return flags | (lr_u8)(readers << LR_READ_SHIFT);
}

static void write_record(int cpu, struct lr_record record) {
    record.number = ++number;
    record.pid = pids[cpu];
    fwrite(&record, sizeof record, 1, files[cpu]);
    slots[cpu]++;
    if (record.type == LR_LOST)
        lost[cpu] += record.instance;
}

static void write_name(int cpu, lr_u64 key, const char *name) {
    char text[LR_NAME_ROOM] = {0};
    strncpy(text, name, sizeof text - 1);
    write_record(cpu, (struct lr_record){.key = key, .type = LR_NAME});
    fwrite(text, sizeof text, 1, files[cpu]);
    slots[cpu] += LR_NAME_SLOTS;
}

/* What the module says at the end. */
static int write_control(const char *folder) {
    char path[4096];
    snprintf(path, sizeof path, "%s/control", folder);
    FILE *file = fopen(path, "w");
    for (int cpu = 0; file && cpu < CPUS; cpu++)
        fprintf(file, "cpu%d slots written %lu lost %lu nested 0\n", cpu, slots[cpu], lost[cpu]);
    return file && !fclose(file);
}

/* A task's own name, with the bytes that are written as \xHH. */
static void read_comm(char *text, const char *comm) {
    unsigned byte;
    for (int length = 0; *comm && length < 15; length++) {
        int is_byte = sscanf(comm, "\\x%2x", &byte) == 1;
        text[length] = (char)(is_byte ? byte : (unsigned char)*comm);
        comm += is_byte ? 4 : 1;
    }
}

static void write_task(int cpu, unsigned pid, lr_u64 address, const char *comm, const char *state, unsigned depth, char flag) {
    struct lr_record record = {.place = address, .type = LR_TASK, .flags = flag == 'r' ? LR_READER : flag == 'o' ? LR_OFF : 0};
    char text[16] = {0};
    read_comm(text, comm);
    memcpy(&record.instance, text, 8);
    memcpy(&record.key, text + 8, 8);
    record.state = state_of(state);
    record.depth = (lr_u8)depth;
    pids[cpu] = pid;
    write_record(cpu, record);
}

/* Writes what a line says. 0: it isn't understood. */
static int write_line(const char *line) {
    int cpu, from = 0;
    unsigned pid, depth;
    unsigned long long first, second, place = 0;
    char how[16], state[16], comm[64], last[16] = "";
    if (sscanf(line, "%d", &cpu) != 1 || cpu < 0 || cpu >= CPUS)
        return 0;
    line += strspn(line, "0123456789 ");
    if (sscanf(line, "cpu %llx", &first) == 1)
        write_record(cpu, (struct lr_record){.instance = first, .key = (lr_u64)cpu, .type = LR_CPU});
    else if (sscanf(line, "name %llx %n", &first, &from) == 1 && from)
        write_name(cpu, first, line + from);
    else if (sscanf(line, "task %u %llx %63s %15s %u %15s", &pid, &first, comm, state, &depth, last) >= 5)
        write_task(cpu, pid, first, comm, state, depth, *last);
    else if (sscanf(line, "held %llx %llx %15s %u", &first, &second, how, &depth) == 4)
        write_record(cpu, (struct lr_record){
                              .instance = first, .key = second, .type = LR_HELD, .flags = flags_of(how), .depth = (lr_u8)depth});
    else if (sscanf(line, "acq %llx %llx %15s %15s %u %llx", &first, &second, how, state, &depth, &place) >= 5)
        write_record(cpu, (struct lr_record){0, first, second, place, 0, LR_ACQUIRE, flags_of(how), state_of(state), (lr_u8)depth});
    else if (sscanf(line, "rel %llx %15s %u %llx", &first, state, &depth, &place) >= 3)
        write_record(cpu, (struct lr_record){0, first, 0, place, 0, LR_RELEASE, 0, state_of(state), (lr_u8)depth});
    else if (sscanf(line, "under %llx", &first) == 1)
        write_record(cpu, (struct lr_record){.instance = first, .type = LR_UNDER});
    else if (sscanf(line, "on %15s %u", state, &depth) == 2)
        write_record(cpu, (struct lr_record){.type = LR_ENABLE, .flags = 1, .state = state_of(state), .depth = (lr_u8)depth});
    else if (sscanf(line, "lost %llu", &first) == 1)
        write_record(cpu, (struct lr_record){.instance = first, .type = LR_LOST});
    else
        return 0;
    return 1;
}

int main(int count, char **words) {
    char line[512], path[4096];
    if (count != 2)
        return 2;
    for (int cpu = 0; cpu < CPUS; cpu++) {
        snprintf(path, sizeof path, "%s/cpu%d.bin", words[1], cpu);
        files[cpu] = fopen(path, "wb");
        if (!files[cpu])
            return 2;
    }
    while (fgets(line, sizeof line, stdin)) {
        line[strcspn(line, "\n")] = 0;
        if (*line && *line != '#' && !write_line(line)) {
            fprintf(stderr, "make: %s\n", line);
            return 2;
        }
    }
    return write_control(words[1]) ? 0 : 2;
}
