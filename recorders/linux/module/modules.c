// SPDX-License-Identifier: GPL-2.0
/* The modules that are loaded and unloaded: `load NUMBER NAME` and `unload NUMBER NAME`, with the number of the last record
   before that, and after a `load` the module's symbols as /proc/kallsyms has them. Other loads may be under way, so there is a
   lock, which isn't traced. */
#include "lockrec.h"
#ifdef CONFIG_PROVE_LOCKING

#include <linux/module.h>
#include <linux/preempt.h>
#include <linux/rcupdate.h>
#include <linux/spinlock.h>
#include <linux/string.h>
#include <linux/uaccess.h>
#include <linux/vmalloc.h>

#define TEXT_ROOM (4 << 20) /* bytes of `modules` */

static char *text;
static size_t text_length;
static unsigned long text_lost; /* lines for which there was no room */
static arch_spinlock_t text_lock = __ARCH_SPIN_LOCK_UNLOCKED;

static __printf(1, 2) void add_line(const char *format, ...)
{
	size_t room = TEXT_ROOM - text_length, length;
	va_list words;

	va_start(words, format);
	length = vsnprintf(text + text_length, room, format, words);
	va_end(words);
	if (length < room)
		smp_store_release(&text_length, text_length + length);
	else
		text_lost++;
}

static void add_symbols(const struct module *module)
{
	const struct mod_kallsyms *symbols = rcu_dereference_sched(module->kallsyms);
	unsigned int number;

	for (number = 1; number < symbols->num_symtab; number++) {
		const Elf_Sym *symbol = &symbols->symtab[number];
		const char *name = symbols->strtab + symbol->st_name;

		if (symbol->st_shndx != SHN_UNDEF && *name && !strchr("$.", *name)) /* those are marks of assemblers */
			add_line("%016lx %c %s\t[%s]\n", (unsigned long)symbol->st_value, symbols->typetab[number], name, module->name);
	}
}

static int note_module(struct notifier_block *block, unsigned long event, void *data)
{
	const struct module *module = data;

	if ((event != MODULE_STATE_COMING && event != MODULE_STATE_GOING) || READ_ONCE(phase) == STOPPED)
		return NOTIFY_DONE;
	preempt_disable();
	arch_spin_lock(&text_lock);
	add_line("%s %lld %s\n", event == MODULE_STATE_COMING ? "load" : "unload", (long long)atomic64_read(&last_number), module->name);
	if (event == MODULE_STATE_COMING)
		add_symbols(module);
	arch_spin_unlock(&text_lock);
	preempt_enable();
	return NOTIFY_DONE;
}

struct notifier_block module_notes = {.notifier_call = note_module};

static ssize_t read_modules(struct file *file, char __user *bytes, size_t size, loff_t *at)
{
	return simple_read_from_buffer(bytes, size, at, text, smp_load_acquire(&text_length));
}

const struct file_operations modules_file = {.owner = THIS_MODULE, .open = simple_open, .read = read_modules};

void show_modules(struct seq_file *file)
{
	seq_printf(file, "modules written %zu lost %lu\n", smp_load_acquire(&text_length), text_lost);
}

int make_text(void)
{
	text = vzalloc(TEXT_ROOM);
	return text ? 0 : -ENOMEM;
}

void free_text(void)
{
	vfree(text);
}

#endif
