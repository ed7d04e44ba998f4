/* Switches: which task runs on a CPU, what it holds then, and where records were lost. */
#define _GNU_SOURCE
#include "converter.h"

static struct task *new_task(const struct lr_record *record, uint64_t address) {
    struct task *task = checked(calloc(1, sizeof *task));
    task->address = address;
    task->pid = record->pid;
    task->is_reader = record->flags & LR_READER;
    task->is_new = true;
    task->levels[0] = (struct level){.frame = TASK, .is_on = {true, true, true}};
    uint64_t state = sum_of_state(task);
    push_state(task, state + !state);
    take_back_repeat(task, state + !state);
    PUSH(tasks, task_count, task);
    return task;
}

static size_t *task_table; /* tasks' numbers plus 1, by hash; a full half is made larger */
static size_t task_room;

static bool is_task_of(const struct task *task, const struct lr_record *record) {
    bool is_reader = record->flags & LR_READER;
    return task->address == record->place && task->pid == record->pid && task->is_reader == is_reader;
}

static size_t slot_of_task(uint64_t address, uint32_t pid) { return mix(mix(0, address), pid) & (task_room - 1); }

static void grow_task_table(void) {
    free(task_table);
    task_room = task_room ? 2 * task_room : 1024;
    task_table = checked(calloc(task_room, sizeof *task_table));
    for (size_t number = 0; number < task_count; number++) {
        size_t slot = slot_of_task(tasks[number]->address, tasks[number]->pid);
        while (task_table[slot])
            slot = (slot + 1) & (task_room - 1);
        task_table[slot] = number + 1;
    }
}

/* The task of an LR_TASK: known by its pid and its `task_struct`, and apart from itself while it reads the recording. */
static struct task *task_of(const struct lr_record *record) {
    if (2 * task_count >= task_room)
        grow_task_table();
    size_t slot = slot_of_task(record->place, record->pid);
    while (task_table[slot] && !is_task_of(tasks[task_table[slot] - 1], record))
        slot = (slot + 1) & (task_room - 1);
    struct task *found = task_table[slot] ? tasks[task_table[slot] - 1] : new_task(record, record->place);
    if (!task_table[slot])
        task_table[slot] = task_count;
    memcpy(found->comm, &record->instance, 8);
    memcpy(found->comm + 8, &record->key, 8);
    return found;
}

/* Whether the list agrees with the book. */
static bool does_list_agree(const struct task *task, const struct cpu *cpu) {
    if (cpu->list_count != (size_t)task->held)
        return false;
    for (int place = 0; place < task->held; place++) {
        size_t other = 0;
        while (other < cpu->list_count && cpu->list[other]->instance != task->book[place].instance)
            other++;
        if (other == cpu->list_count)
            return false;
    }
    return true;
}

/* Takes over the list. */
static void take_list(struct task *task, struct cpu *cpu) {
    drop_all(task);
    task->is_blind = false;
    set_flags(task, cpu->switched->state);
    for (size_t number = 0; number < cpu->list_count; number++)
        take(task, held_of(cpu->list[number]));
}

static bool is_lockdep_seen; /* whether an event had a depth */

/* A task's list is from when lockdep turned itself off. It holds for a task that was seen for the first time since, unless that was before
   the recording. An idle task held nothing while another one ran, though its releases aren't seen where its CPU goes offline. */
static void end_old_switch(struct cpu *cpu) {
    struct task *task = cpu->task;
    if (task->pid == 0)
        drop_all(task);
    if (task->is_new && !task->is_reader && is_lockdep_seen && !(cpu->switched->state & (LR_IN_HARDIRQ | LR_IN_SOFTIRQ)))
        take_list(task, cpu);
    task->is_new = false;
    cpu->switched = NULL;
}

/* A task's list is complete: the book is compared with it, or begins with it. */
static void end_switch(struct cpu *cpu) {
    if (cpu->switched->flags & LR_OFF) {
        end_old_switch(cpu);
        return;
    }
    struct task *task = cpu->task;
    const struct lr_record *record = cpu->switched;
    bool is_first = task->is_new || task->is_blind || task->is_after_gap;
    bool is_interrupt = record->state & (LR_IN_HARDIRQ | LR_IN_SOFTIRQ);
    cpu->switched = NULL;
    if (task->is_reader || task->is_full)
        return;
    task->is_unsure = task->is_unsure || task->is_new;
    if (is_interrupt) {
        if (task->is_after_gap || (task->is_new && record->depth > 0))
            go_blind(task);
        return;
    }
    cpu->switched = record;
    if (is_first) {
        take_list(task, cpu);
    } else if (!leave_frames(task, record->state) || !does_agree(task, record->depth) ||
               (!top(task)->is_giving && !does_list_agree(task, cpu))) {
        mismatch(task);
        take_list(task, cpu);
    }
    cpu->switched = NULL;
    task->is_new = task->is_after_gap = false;
}

static void begin_switch(struct cpu *cpu, const struct lr_record *record) {
    struct task *task = task_of(record);
    if (open_gaps && cpu->task && cpu->task != task)
        cpu->task->is_after_gap = true; /* it may run where records are being lost */
    cpu->task = task;
    cpu->switched = record;
    cpu->list_count = 0;
    if (record->depth == 0)
        end_switch(cpu);
}

static void add_to_list(struct cpu *cpu, const struct lr_record *record) {
    if (!cpu->switched || cpu->list_count >= MAX_HELD)
        return;
    cpu->list[cpu->list_count++] = record;
    if (cpu->list_count == cpu->switched->depth)
        end_switch(cpu);
}

/* Records of this CPU are lost from here on: what its task does is unknown, and so is what others do on it. */
static void begin_gap(struct cpu *cpu) {
    counts.gaps++;
    open_gaps += !cpu->is_in_gap;
    cpu->is_in_gap = true;
    for (size_t number = 0; number < task_count; number++)
        tasks[number]->is_after_gap = true;
    if (cpu->task)
        go_blind(cpu->task);
    cpu->task = NULL;
    cpu->switched = NULL;
}

static void end_gap(struct cpu *cpu, const struct lr_record *record) {
    counts.lost += record->instance;
    open_gaps -= cpu->is_in_gap;
    cpu->is_in_gap = false;
}

static void event_of(struct cpu *cpu, const struct lr_record *record) {
    counts.records++;
    is_lockdep_seen = is_lockdep_seen || has_depth(record);
    counts.after_lockdep = record->state & LR_LOOKED_AT ? 0 : counts.after_lockdep + 1;
    if (!(record->state & LR_LOOKED_AT) || (record->state & LR_IN_NMI))
        counts.not_looked_at++;
    else if (!cpu->task)
        counts.before_first_task++;
    else
        step(cpu->task, record, cpu->nest_lock);
    cpu->nest_lock = 0;
}

static void take_item(const struct item *item) {
    const struct lr_record *record = item->record;
    struct cpu *cpu = &cpus[item->cpu];
    if (record->type == LR_NAME)
        learn_name(record);
    else if (record->type == LR_TASK)
        begin_switch(cpu, record);
    else if (record->type == LR_HELD)
        add_to_list(cpu, record);
    else if (record->type == LR_LOST)
        end_gap(cpu, record);
    else if (record->type == LR_UNDER)
        cpu->nest_lock = record->instance;
    else if (is_event(record))
        event_of(cpu, record);
    if (item->is_before_gap)
        begin_gap(cpu);
}

void convert(void) {
    struct item item;
    forget_names();
    for (begin_items(); next_item(&item);)
        take_item(&item);
}

/* Where CPUs have their variables, which their first record says. */
static void learn_cpus(void) {
    for (int number = 0; number < cpu_count; number++) {
        const struct lr_record *record = cpus[number].slots;
        if (!cpus[number].slot_count || record->type != LR_CPU || record->key >= MAX_CPUS)
            continue;
        cpus[record->key].base = record->instance;
        cpus[record->key].is_based = true;
    }
}

/* The first pass: all names, and whether each record is there. */
void learn(void) {
    struct item item;
    learn_cpus();
    for (begin_items(); next_item(&item);) {
        check_item(&item);
        if (item.record->type == LR_NAME)
            learn_name(item.record);
        else if (is_lock(item.record) || item.record->type == LR_RELEASE)
            note_use(item.record);
    }
    name_classes();
}
