// SPDX-License-Identifier: GPL-2.0
/* Records the lock events of a running kernel that has PROVE_LOCKING. Its functions are attached to existing tracepoints,
   and write to their own buffers, with interrupts off: they take no lock, and call nothing that is traced.

   debugfs/lockrec/cpuN     the records of one CPU (record.h), read until the recording is stopped and the buffer is empty
   debugfs/lockrec/modules  the symbols of modules that were loaded since this one, see note_module()
   debugfs/lockrec/control  reading it says what was found, written and lost, and where some symbols are; `start` and `stop` are written to it

   Linux 6.1 to 6.12. */
#include "lockrec.h"
#ifdef CONFIG_PROVE_LOCKING

#include <linux/debugfs.h>
#include <linux/delay.h>
#include <linux/lockdep.h>
#include <linux/module.h>
#include <linux/mutex.h>
#include <linux/sched/signal.h>
#include <linux/string.h>
#include <linux/tracepoint.h>
#include <linux/uaccess.h>
#include <linux/vmalloc.h>

MODULE_LICENSE("GPL");
MODULE_DESCRIPTION("Records lock events for lockdep");

unsigned int slots = 262144;
module_param(slots, uint, 0444);
MODULE_PARM_DESC(slots, "records of 40 bytes that each CPU's buffer has room for, a power of two");

unsigned long lock_classes_at;
module_param(lock_classes_at, ulong, 0444);
MODULE_PARM_DESC(lock_classes_at, "the address of lock_classes in /proc/kallsyms: the subclasses of locks that were held before");

#define READ_PART 8   /* a reader waits until such a part of the buffer is full, */
#define READ_PAUSE 20 /* and looks after so many milliseconds */

struct buffer *buffers[NR_CPUS];
enum phase phase;
int reader_generation;
static struct dentry *folder;
static DEFINE_MUTEX(control_mutex);

/* ---- The files. */

static int open_cpu(struct inode *inode, struct file *file)
{
	struct buffer *buffer = inode->i_private;

	if (cmpxchg(&buffer->reader, NULL, current))
		return -EBUSY;
	file->private_data = buffer;
	WRITE_ONCE(reader_generation, reader_generation + 1);
	return nonseekable_open(inode, file);
}

static int release_cpu(struct inode *inode, struct file *file)
{
	struct buffer *buffer = file->private_data;

	WRITE_ONCE(buffer->reader, NULL);
	WRITE_ONCE(reader_generation, reader_generation + 1);
	return 0;
}

/* Whole slots, as many as are contiguous. It returns nothing only after the end. */
static ssize_t read_cpu(struct file *file, char __user *bytes, size_t size, loff_t *at)
{
	struct buffer *buffer = file->private_data;
	unsigned long count, first;
	enum phase now;

	for (;;) {
		now = smp_load_acquire(&phase);
		count = smp_load_acquire(&buffer->head) - buffer->tail;
		if (count >= slots / READ_PART || now == STOPPED)
			break;
		if (msleep_interruptible(READ_PAUSE) || signal_pending(current))
			return -EINTR;
	}
	first = buffer->tail & (slots - 1);
	count = min3(count, slots - first, (unsigned long)size / sizeof(struct lr_record));
	if (copy_to_user(bytes, &buffer->slots[first], count * sizeof(struct lr_record)))
		return -EFAULT;
	smp_store_release(&buffer->tail, buffer->tail + count);
	return count * sizeof(struct lr_record);
}

static const struct file_operations cpu_files = {
	.owner = THIS_MODULE, .open = open_cpu, .release = release_cpu, .read = read_cpu,
};

static const char *const phase_names[] = {"idle", "running", "stopping", "stopped"};

/* Symbols of this kernel, from all over its image: those of another one lie elsewhere. */
static const struct {
	const char *name;
	const void *address;
} landmarks[] = {
	{"debug_locks", &debug_locks},
	{"init_task", &init_task},
	{"__lockdep_no_validate__", &__lockdep_no_validate__},
	{"lock_acquire", lock_acquire},
	{"vfree", vfree},
	{"debugfs_create_dir", debugfs_create_dir},
	{"vsnprintf", vsnprintf},
};

static void show_landmarks(struct seq_file *file)
{
	unsigned int number;

	for (number = 0; number < ARRAY_SIZE(landmarks); number++)
		seq_printf(file, "symbol %lx %s\n", (unsigned long)landmarks[number].address, landmarks[number].name);
	if (lock_classes_at)
		seq_printf(file, "symbol %lx lock_classes\n", lock_classes_at);
}

static int show_control(struct seq_file *file, void *data)
{
	unsigned int cpu;

	seq_printf(file, "%s\n", phase_names[phase]);
	seq_printf(file, "lockdep %s\n", debug_locks ? "on" : "off");
	show_probes(file);
	for_each_possible_cpu(cpu)
		seq_printf(file, "cpu%u slots written %lu lost %llu nested %llu\n", cpu, buffers[cpu]->head, buffers[cpu]->lost,
			   buffers[cpu]->nested);
	show_modules(file);
	show_landmarks(file);
	return 0;
}

static int open_control(struct inode *inode, struct file *file)
{
	return single_open(file, show_control, NULL);
}

/* Records where each CPU's variables are: the first record of its buffer. */
static void start(void)
{
	unsigned int cpu;

	for_each_possible_cpu(cpu) {
		struct lr_record record = {.instance = per_cpu_offset(cpu), .key = cpu, .type = LR_CPU};

		put(buffers[cpu], &record);
	}
	smp_store_release(&phase, RUNNING);
}

/* A gap at the end is closed here, since no event can do it any more: each event left room for that. */
static void stop(void)
{
	unsigned int cpu;

	WRITE_ONCE(phase, STOPPING);
	tracepoint_synchronize_unregister();
	for_each_possible_cpu(cpu)
		if (buffers[cpu]->losing)
			put_lost(buffers[cpu]);
	smp_store_release(&phase, STOPPED);
}

static ssize_t write_control(struct file *file, const char __user *bytes, size_t size, loff_t *at)
{
	char word[8] = {0};
	ssize_t answer = size;

	if (size >= sizeof(word) || copy_from_user(word, bytes, size))
		return -EINVAL;
	mutex_lock(&control_mutex);
	if (!strcmp(strim(word), "start") && phase == IDLE)
		start();
	else if (!strcmp(strim(word), "stop") && phase != STOPPED)
		stop();
	else
		answer = -EINVAL;
	mutex_unlock(&control_mutex);
	return answer;
}

static const struct file_operations control_file = {
	.owner = THIS_MODULE,
	.open = open_control,
	.release = single_release,
	.read = seq_read,
	.write = write_control,
	.llseek = seq_lseek,
};

/* ---- Loading and unloading. */

static void free_buffers(void)
{
	unsigned int cpu;

	for_each_possible_cpu(cpu) {
		if (buffers[cpu])
			vfree(buffers[cpu]->slots);
		vfree(buffers[cpu]);
	}
	free_text();
}

static int make_buffers(void)
{
	unsigned int cpu;

	if (make_text())
		return -ENOMEM;
	for_each_possible_cpu(cpu) {
		buffers[cpu] = vzalloc(sizeof(struct buffer));
		if (!buffers[cpu])
			return -ENOMEM;
		buffers[cpu]->slots = vzalloc(array_size(slots, sizeof(struct lr_record)));
		if (!buffers[cpu]->slots)
			return -ENOMEM;
	}
	return 0;
}

static void make_files(void)
{
	unsigned int cpu;
	char name[16];

	folder = debugfs_create_dir("lockrec", NULL);
	for_each_possible_cpu(cpu) {
		snprintf(name, sizeof(name), "cpu%u", cpu);
		debugfs_create_file(name, 0400, folder, buffers[cpu], &cpu_files);
	}
	debugfs_create_file("modules", 0400, folder, NULL, &modules_file);
	debugfs_create_file("control", 0600, folder, NULL, &control_file);
}

static int __init load(void)
{
	int fault;

	if (slots < 2 * RESUME_ROOM || (slots & (slots - 1)))
		return -EINVAL;
	fault = make_buffers();
	if (!fault)
		fault = add_probes();
	if (fault) {
		free_buffers();
		return fault;
	}
	register_module_notifier(&module_notes);
	make_files();
	return 0;
}

static void __exit unload(void)
{
	debugfs_remove(folder);
	unregister_module_notifier(&module_notes);
	WRITE_ONCE(phase, STOPPED);
	remove_probes();
	free_buffers();
}

module_init(load);
module_exit(unload);

#endif
