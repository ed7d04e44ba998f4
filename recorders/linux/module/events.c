// SPDX-License-Identifier: GPL-2.0
/* The probes, and what they write to the buffer of their CPU. */
#include "lockrec.h"
#ifdef CONFIG_PROVE_LOCKING

#include <linux/hardirq.h>
#include <linux/irqflags.h>
#include <linux/lockdep.h>
#include <linux/module.h>
#include <linux/preempt.h>
#include <linux/smp.h>
#include <linux/string.h>
#include <linux/tracepoint.h>

#define EVENT_ROOM 256   /* slots that one event may need: its task, the locks this holds, and all their names */

atomic64_t last_number;

/* ---- What a class is, as far as lockdep knows it. */

struct class_info {
	u64 key; /* with the subclass added */
	const char *name;
	u8 subclass;
};

static struct class_info info_of_class(const struct lock_class *class)
{
	return (struct class_info){(u64)(unsigned long)class->key, class->name, class->subclass};
}

/* Lockdep's own class if it is in the lock's cache; otherwise what the lock says. A static lock without a key is its own. */
static struct class_info info_of_map(const struct lockdep_map *map, unsigned int subclass)
{
	struct class_info info = {0};

	if (subclass < NR_LOCKDEP_CACHING_CLASSES && READ_ONCE(map->class_cache[subclass]))
		info = info_of_class(READ_ONCE(map->class_cache[subclass]));
	if (!info.key || !info.name) {
		info.key = (u64)(unsigned long)(map->key ? (void *)map->key : (void *)map) + subclass;
		info.name = map->name;
		info.subclass = subclass;
	}
	return info;
}

/* Once lockdep is off, a lock of its list may be gone, and isn't looked at: then the class isn't known if it is gone too. */
static struct class_info info_of_held(const struct held_lock *held, bool is_off)
{
	const struct lock_class *classes = (const struct lock_class *)lock_classes_at;
	struct class_info info = {0};

	if (classes)
		info = info_of_class(&classes[held->class_idx]);
	return is_off || (info.key && info.name) ? info : info_of_map(held->instance, 0);
}

/* ---- Who reads. */

static bool has_file_open(const struct task_struct *task)
{
	unsigned int cpu;

	for_each_possible_cpu(cpu)
		if (READ_ONCE(buffers[cpu]->reader) == task)
			return true;
	return false;
}

/* Whether this CPU's task reads the recording. */
static bool is_reader(struct buffer *buffer)
{
	int generation = READ_ONCE(reader_generation);

	if (buffer->asked != current || buffer->asked_generation != generation) {
		buffer->asked = current;
		buffer->asked_generation = generation;
		buffer->is_reader = has_file_open(current);
	}
	return buffer->is_reader;
}

/* A reader's own locks aren't recorded: each record would cause more of them. Interrupts of it are. */
static bool is_left_out(struct buffer *buffer)
{
	return !lockdep_hardirq_context() && !current->softirq_context && is_reader(buffer);
}

/* ---- Writing, always with interrupts off, on the buffer's own CPU. */

static unsigned long room_of(const struct buffer *buffer)
{
	return slots - (buffer->head - smp_load_acquire(&buffer->tail));
}

/* The reader sees a record when `head` is past it. */
static void put_slot(struct buffer *buffer, const void *bytes)
{
	memcpy(&buffer->slots[buffer->head & (slots - 1)], bytes, sizeof(struct lr_record));
	smp_store_release(&buffer->head, buffer->head + 1);
}

void put(struct buffer *buffer, struct lr_record *record)
{
	record->number = atomic64_inc_return(&last_number);
	put_slot(buffer, record);
}

static void put_name(struct buffer *buffer, const struct class_info *info, u32 pid)
{
	char text[LR_NAME_ROOM] = {0};
	struct lr_record record = {
		.key = info->key, .pid = pid, .type = LR_NAME, .flags = info->subclass,
	};
	unsigned int length = 0, slot;

	while (info->name && length < LR_NAME_ROOM - 1 && info->name[length]) {
		text[length] = info->name[length];
		length++;
	}
	put(buffer, &record);
	for (slot = 0; slot < LR_NAME_SLOTS; slot++)
		put_slot(buffer, text + slot * sizeof(struct lr_record));
}

/* Writes the name of a key if this CPU hasn't done so, or if the key now has another name. */
static void tell_name(struct buffer *buffer, const struct class_info *info, u32 pid)
{
	unsigned int home = (info->key * 0x9e3779b97f4a7c15ull) >> 40 & (SEEN - 1), place = home;

	while (buffer->seen[place].key && buffer->seen[place].key != info->key)
		place = (place + 1) & (SEEN - 1);
	if (buffer->seen[place].key && buffer->seen[place].name == info->name)
		return;
	if (!buffer->seen[place].key && ++buffer->seen_count > SEEN / 4 * 3) {
		memset(buffer->seen, 0, sizeof(buffer->seen));
		buffer->seen_count = 1;
		place = home;
	}
	buffer->seen[place] = (struct seen){info->key, info->name};
	put_name(buffer, info, pid);
}

/* Whether hardirqs and softirqs are on. Lockdep's own flags stand still once it is off; then the CPU's are used. */
static u8 flags_now(const struct buffer *buffer, unsigned long irqs)
{
	bool are_hardirqs_on = lockdep_hardirqs_enabled(), are_softirqs_on = current->softirqs_enabled;

	if (buffer->is_off) {
		are_hardirqs_on = !irqs_disabled_flags(irqs);
		are_softirqs_on = !softirq_count();
	}
	return (are_hardirqs_on ? LR_HARDIRQS_ON : 0) | (are_softirqs_on ? LR_SOFTIRQS_ON : 0);
}

static u8 state_now(struct buffer *buffer, unsigned long irqs)
{
	u8 state = flags_now(buffer, irqs) | (buffer->is_fresh ? LR_FRESH : 0);

	if (lockdep_hardirq_context())
		state |= LR_IN_HARDIRQ;
	if (current->softirq_context)
		state |= LR_IN_SOFTIRQ;
	if (!__this_cpu_read(lockdep_recursion) && !current->lockdep_recursion)
		state |= LR_LOOKED_AT;
	if (in_nmi())
		state |= LR_IN_NMI;
	return state;
}

static u8 flags_of(int subclass, int trylock, int read, int check, bool nest)
{
	return subclass | (trylock ? LR_TRY : 0) | read << LR_READ_SHIFT | (check ? LR_CHECK : 0) | (nest ? LR_NEST : 0);
}

/* What the task holds, outermost first. A list of which a class isn't known is shorter than the task's record says. */
static void put_held(struct buffer *buffer)
{
	int depth = current->lockdep_depth, number;

	for (number = 0; number < depth; number++) {
		const struct held_lock *held = &current->held_locks[number];
		struct class_info info = info_of_held(held, buffer->is_off);
		struct lr_record record = {
			.instance = (u64)(unsigned long)held->instance,
			.key = info.key,
			.place = held->acquire_ip,
			.pid = current->pid,
			.type = LR_HELD,
			.flags = flags_of(info.subclass, held->trylock, held->read, held->check, false),
			.depth = depth - number,
		};

		if (!info.key || !info.name)
			continue;
		tell_name(buffer, &info, current->pid);
		put(buffer, &record);
	}
}

/* Records which task this CPU runs if it isn't that of the last record. */
static void tell_task(struct buffer *buffer, u8 state)
{
	int generation = READ_ONCE(reader_generation);
	struct lr_record record = {
		.place = (u64)(unsigned long)current, .pid = current->pid, .type = LR_TASK, .state = state,
		.depth = current->lockdep_depth,
	};

	if (buffer->task == current && buffer->pid == current->pid && buffer->generation == generation)
		return;
	buffer->task = current;
	buffer->pid = current->pid;
	buffer->generation = generation;
	memcpy(&record.instance, current->comm, 8);
	memcpy(&record.key, current->comm + 8, 8);
	record.flags = (is_reader(buffer) ? LR_READER : 0) | (buffer->is_off ? LR_OFF : 0);
	put(buffer, &record);
	put_held(buffer);
}

void put_lost(struct buffer *buffer)
{
	struct lr_record record = {.instance = buffer->losing, .type = LR_LOST};

	put(buffer, &record);
	buffer->losing = 0;
	buffer->task = NULL; /* so that the next record says what it is and holds */
}

/* Whether there is room for one event. One that isn't written is counted, and a gap is closed once there is room for more. */
static bool has_room(struct buffer *buffer)
{
	unsigned long room = room_of(buffer);

	if (room < (buffer->losing ? RESUME_ROOM : EVENT_ROOM)) {
		buffer->lost++;
		buffer->losing++;
		return false;
	}
	if (buffer->losing)
		put_lost(buffer);
	return true;
}

/* Begins to write an event. NULL: it can't be written. */
static struct buffer *begin_event(unsigned long *irqs)
{
	struct buffer *buffer;

	raw_local_irq_save(*irqs);
	buffer = buffers[raw_smp_processor_id()];
	if (READ_ONCE(phase) == RUNNING && !buffer->is_busy) {
		buffer->is_busy = true;
		barrier();
		buffer->is_off = !READ_ONCE(debug_locks);
		if (!is_left_out(buffer) && has_room(buffer))
			return buffer;
		buffer->is_busy = false;
	} else if (buffer->is_busy) {
		buffer->nested++;
	}
	raw_local_irq_restore(*irqs);
	return NULL;
}

static void end_event(struct buffer *buffer, struct lr_record *record, unsigned long irqs)
{
	record->pid = current->pid;
	record->depth = buffer->is_off ? LR_NO_DEPTH : current->lockdep_depth;
	record->state |= irqs_disabled_flags(irqs) ? 0 : LR_IRQS_ON;
	put(buffer, record);
	buffer->is_fresh = false;
	barrier();
	buffer->is_busy = false;
	raw_local_irq_restore(irqs);
}

/* The lock under which the next acquisition of this CPU is safe. */
static void put_nest_lock(struct buffer *buffer, const struct lockdep_map *nest_lock)
{
	struct lr_record record = {
		.instance = (u64)(unsigned long)nest_lock, .pid = current->pid, .type = LR_UNDER,
	};

	put(buffer, &record);
}

/* ---- Probes. */

static void probe_acquire(void *data, struct lockdep_map *map, unsigned int subclass, int trylock, int read, int check,
			  struct lockdep_map *nest_lock, unsigned long ip)
{
	unsigned long irqs;
	struct buffer *buffer = begin_event(&irqs);
	struct class_info info;
	struct lr_record record;

	if (!buffer)
		return;
	info = info_of_map(map, subclass);
	check = check && map->key != &__lockdep_no_validate__;
	record = (struct lr_record){
		.instance = (u64)(unsigned long)map,
		.key = info.key,
		.place = ip,
		.type = LR_ACQUIRE,
		.flags = flags_of(info.subclass, trylock, read, check, nest_lock != NULL),
		.state = state_now(buffer, irqs),
	};
	tell_task(buffer, record.state);
	tell_name(buffer, &info, current->pid);
	if (nest_lock)
		put_nest_lock(buffer, nest_lock);
	end_event(buffer, &record, irqs);
}

static void probe_release(void *data, struct lockdep_map *map, unsigned long ip)
{
	unsigned long irqs;
	struct buffer *buffer = begin_event(&irqs);
	struct lr_record record;

	if (!buffer)
		return;
	record = (struct lr_record){
		.instance = (u64)(unsigned long)map, .place = ip, .type = LR_RELEASE, .state = state_now(buffer, irqs),
	};
	tell_task(buffer, record.state);
	end_event(buffer, &record, irqs);
}

/* Hardirqs are about to be turned on: lockdep marks what is held. Once it is off, it no longer knows what is. */
static void probe_enable(void *data, unsigned long ip, unsigned long parent_ip)
{
	unsigned long irqs;
	struct buffer *buffer;
	struct lr_record record;

	if (!debug_locks || !current->lockdep_depth || lockdep_hardirqs_enabled())
		return;
	buffer = begin_event(&irqs);
	if (!buffer)
		return;
	record = (struct lr_record){.place = ip, .type = LR_ENABLE, .flags = 1, .state = state_now(buffer, irqs)};
	tell_task(buffer, record.state);
	end_event(buffer, &record, irqs);
}

/* An interrupt begins. The tracepoint's other arguments are ignored. */
static void probe_interrupt(void *data)
{
	if (READ_ONCE(phase) == RUNNING)
		buffers[raw_smp_processor_id()]->is_fresh = true;
}

struct probe {
	const char *name;
	void *function;
	bool is_needed;
	struct tracepoint *point;
};

static struct probe probes[] = {
	{"irq_handler_entry", probe_interrupt},
	{"softirq_entry", probe_interrupt},
	{"local_timer_entry", probe_interrupt},
	{"reschedule_entry", probe_interrupt},
	{"call_function_entry", probe_interrupt},
	{"call_function_single_entry", probe_interrupt},
	{"irq_work_entry", probe_interrupt},
	{"irq_enable", probe_enable},
	{"lock_release", probe_release, true},
	{"lock_acquire", probe_acquire, true},
};

static void find_probe(struct tracepoint *point, void *data)
{
	unsigned int number;

	for (number = 0; number < ARRAY_SIZE(probes); number++)
		if (!strcmp(point->name, probes[number].name))
			probes[number].point = point;
}

void remove_probes(void)
{
	unsigned int number;

	for (number = 0; number < ARRAY_SIZE(probes); number++)
		if (probes[number].point)
			tracepoint_probe_unregister(probes[number].point, probes[number].function, NULL);
	tracepoint_synchronize_unregister();
}

/* The probes are attached one after the other; nothing is written before all are attached, since `phase` is set last. */
int add_probes(void)
{
	unsigned int number;

	for_each_kernel_tracepoint(find_probe, NULL);
	for (number = 0; number < ARRAY_SIZE(probes); number++) {
		struct probe *probe = &probes[number];

		if (probe->point && tracepoint_probe_register(probe->point, probe->function, NULL))
			probe->point = NULL;
		if (!probe->point && probe->is_needed) {
			pr_err("lockrec: the tracepoint %s isn't there\n", probe->name);
			remove_probes();
			return -ENOENT;
		}
	}
	return 0;
}

void show_probes(struct seq_file *file)
{
	unsigned int number;

	for (number = 0; number < ARRAY_SIZE(probes); number++)
		seq_printf(file, "tracepoint %s %s\n", probes[number].name, probes[number].point ? "found" : "missing");
}

#endif
