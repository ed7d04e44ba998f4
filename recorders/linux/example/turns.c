// SPDX-License-Identifier: GPL-2.0
/* A driver that takes two locks in one order, or in the other: insmod turns.ko [is_backwards=1]. The kernel's own checker is
   silent if it is loaded once with each, since unloading forgets the classes. */
#include <linux/module.h>
#include <linux/mutex.h>

MODULE_LICENSE("GPL");
MODULE_DESCRIPTION("Takes two locks in one of two orders");

static bool is_backwards;
module_param(is_backwards, bool, 0444);

static DEFINE_MUTEX(turns_ledger);
static DEFINE_MUTEX(turns_journal);

static void take(struct mutex *first, struct mutex *second)
{
	mutex_lock(first);
	mutex_lock(second);
	mutex_unlock(second);
	mutex_unlock(first);
}

static int __init load(void)
{
	if (is_backwards)
		take(&turns_journal, &turns_ledger);
	else
		take(&turns_ledger, &turns_journal);
	return 0;
}

static void __exit unload(void)
{
}

module_init(load);
module_exit(unload);
