// SPDX-License-Identifier: GPL-2.0
/* Takes locks in ways that are right or wrong: insmod cases.ko which=CASE. A case is one half of a mistake or all of it, as `steps` lists
   them; the kernel's own checker forgets the first half when the module is unloaded. What each case must give is in boot/cases. */
#include <linux/completion.h>
#include <linux/delay.h>
#include <linux/hrtimer.h>
#include <linux/kthread.h>
#include <linux/module.h>
#include <linux/mutex.h>
#include <linux/rwsem.h>
#include <linux/slab.h>
#include <linux/spinlock.h>
#include <linux/timer.h>
#include <linux/workqueue.h>

MODULE_LICENSE("GPL");
MODULE_DESCRIPTION("Takes locks in ways that are right or wrong");

static char *which = "";
module_param(which, charp, 0444);

#define WAIT_MS 100 /* until a timer has run */

static void take_two(struct mutex *first, struct mutex *second)
{
	mutex_lock(first);
	mutex_lock(second);
	mutex_unlock(second);
	mutex_unlock(first);
}

/* ---- a: two mutexes in both orders. */

static DEFINE_MUTEX(cases_a_one);
static DEFINE_MUTEX(cases_a_two);

static void a1(void) { take_two(&cases_a_one, &cases_a_two); }
static void a2(void) { take_two(&cases_a_two, &cases_a_one); }

/* ---- b: a spinlock of a timer, and of a task with softirqs on. c: the same with softirqs off. d: a lock of a timer above one that a task
   takes with softirqs on. */

static DEFINE_SPINLOCK(cases_b);
static DEFINE_SPINLOCK(cases_c);
static DEFINE_SPINLOCK(cases_d_safe);
static DEFINE_SPINLOCK(cases_d_unsafe);
static DEFINE_RWLOCK(cases_e_readers);
static spinlock_t *of_timer;

static void run_timer(struct timer_list *timer)
{
	if (of_timer) {
		spin_lock(of_timer);
		spin_unlock(of_timer);
	} else {
		read_lock(&cases_e_readers);
		read_unlock(&cases_e_readers);
	}
}

static DEFINE_TIMER(cases_timer, run_timer);

static void use_timer(spinlock_t *lock)
{
	of_timer = lock;
	mod_timer(&cases_timer, jiffies + 1);
	msleep(WAIT_MS);
}

static void take_plain(spinlock_t *lock)
{
	spin_lock(lock);
	spin_unlock(lock);
}

static void take_bh(spinlock_t *lock)
{
	spin_lock_bh(lock);
	spin_unlock_bh(lock);
}

static void b1(void) { use_timer(&cases_b); }
static void b2(void) { take_plain(&cases_b); }
static void c1(void) { use_timer(&cases_c); }
static void c2(void) { take_bh(&cases_c); }
static void d1(void) { use_timer(&cases_d_safe); }

static void d2(void)
{
	spin_lock_bh(&cases_d_safe);
	spin_lock(&cases_d_unsafe);
	spin_unlock(&cases_d_unsafe);
	spin_unlock_bh(&cases_d_safe);
}

static void d3(void) { take_plain(&cases_d_unsafe); }

/* ---- e: readers. */

static DEFINE_RWLOCK(cases_e_twice);
static DEFINE_RWLOCK(cases_e_task);
static DECLARE_RWSEM(cases_e_sem);

static void e1(void)
{
	use_timer(NULL);
	read_lock(&cases_e_readers);
	read_unlock(&cases_e_readers);
	write_lock_bh(&cases_e_readers);
	write_unlock_bh(&cases_e_readers);
}

static void read_twice(rwlock_t *lock)
{
	read_lock(lock);
	read_lock(lock);
	read_unlock(lock);
	read_unlock(lock);
}

/* With softirqs off a reader may come again. */
static void e2(void)
{
	local_bh_disable();
	read_twice(&cases_e_twice);
	local_bh_enable();
}

static void e3(void)
{
	down_read(&cases_e_sem);
	down_read(&cases_e_sem);
	up_read(&cases_e_sem);
	up_read(&cases_e_sem);
}

static void e4(void) { read_twice(&cases_e_task); }

/* ---- f: two locks of a class: with a subclass, without one, and under a nest_lock. */

struct node {
	struct mutex lock;
};

static struct node nodes[2];
static DEFINE_MUTEX(cases_f_outer);
static DEFINE_MUTEX(cases_f_other);

static void make_nodes(void)
{
	unsigned int number;

	for (number = 0; number < 2; number++)
		mutex_init(&nodes[number].lock);
}

static void f1(void)
{
	make_nodes();
	mutex_lock(&nodes[0].lock);
	mutex_lock_nested(&nodes[1].lock, 1);
	mutex_unlock(&nodes[1].lock);
	mutex_unlock(&nodes[0].lock);
}

static void f2(void)
{
	make_nodes();
	take_two(&nodes[0].lock, &nodes[1].lock);
}

static void f3(void)
{
	make_nodes();
	mutex_lock(&cases_f_outer);
	mutex_lock_nest_lock(&nodes[0].lock, &cases_f_outer);
	mutex_lock_nest_lock(&nodes[1].lock, &cases_f_outer);
	mutex_unlock(&nodes[1].lock);
	mutex_unlock(&nodes[0].lock);
	mutex_unlock(&cases_f_outer);
}

static void f4(void)
{
	make_nodes();
	mutex_lock(&cases_f_outer);
	mutex_lock_nest_lock(&nodes[0].lock, &cases_f_outer);
	mutex_lock_nest_lock(&cases_f_other, &cases_f_outer);
	mutex_lock_nest_lock(&nodes[1].lock, &cases_f_outer);
	mutex_unlock(&cases_f_other);
	mutex_unlock(&nodes[1].lock);
	mutex_unlock(&nodes[0].lock);
	mutex_unlock(&cases_f_outer);
}

/* ---- g: a try in one order, a lock in the other. */

static DEFINE_MUTEX(cases_g_one);
static DEFINE_MUTEX(cases_g_two);

static void g1(void)
{
	mutex_lock(&cases_g_one);
	if (mutex_trylock(&cases_g_two))
		mutex_unlock(&cases_g_two);
	mutex_unlock(&cases_g_one);
}

static void g2(void) { take_two(&cases_g_two, &cases_g_one); }

/* ---- h: a work that is flushed under a mutex that it takes. */

static DEFINE_MUTEX(cases_h);

static void run_work(struct work_struct *work)
{
	mutex_lock(&cases_h);
	mutex_unlock(&cases_h);
}

static DECLARE_WORK(cases_work, run_work);

static void h1(void)
{
	schedule_work(&cases_work);
	flush_work(&cases_work);
}

static void h2(void)
{
	mutex_lock(&cases_h);
	flush_work(&cases_work);
	mutex_unlock(&cases_h);
}

/* ---- i: what sleeps under what spins, and what spins under what always does. */

static DEFINE_MUTEX(cases_i_mutex);
static DEFINE_SPINLOCK(cases_i_spin);
static DEFINE_RAW_SPINLOCK(cases_i_raw);

static void i1(void)
{
	spin_lock(&cases_i_spin);
	mutex_lock(&cases_i_mutex);
	mutex_unlock(&cases_i_mutex);
	spin_unlock(&cases_i_spin);
}

static void i2(void)
{
	raw_spin_lock(&cases_i_raw);
	spin_lock(&cases_i_spin);
	spin_unlock(&cases_i_spin);
	raw_spin_unlock(&cases_i_raw);
}

/* ---- k: a spinlock of a hardirq, and of a task with hardirqs on. */

static DEFINE_RAW_SPINLOCK(cases_k);
static struct hrtimer cases_clock;

static enum hrtimer_restart run_clock(struct hrtimer *clock)
{
	raw_spin_lock(&cases_k);
	raw_spin_unlock(&cases_k);
	return HRTIMER_NORESTART;
}

static void k1(void)
{
	hrtimer_init(&cases_clock, CLOCK_MONOTONIC, HRTIMER_MODE_REL_HARD);
	cases_clock.function = run_clock;
	hrtimer_start(&cases_clock, ms_to_ktime(1), HRTIMER_MODE_REL_HARD);
	msleep(WAIT_MS);
}

static void k2(void)
{
	raw_spin_lock(&cases_k);
	raw_spin_unlock(&cases_k);
}

/* ---- m: two classes of one name, always in one order. */

struct parent {
	struct mutex lock;
};

static struct parent *make_parent(void)
{
	struct parent *cases_p = kzalloc(sizeof(*cases_p), GFP_KERNEL);

	if (cases_p)
		mutex_init(&cases_p->lock);
	return cases_p;
}

static struct node *make_child(void)
{
	struct node *cases_p = kzalloc(sizeof(*cases_p), GFP_KERNEL);

	if (cases_p)
		mutex_init(&cases_p->lock);
	return cases_p;
}

static void m1(void)
{
	struct parent *parent = make_parent();
	struct node *child = make_child();

	if (parent && child)
		take_two(&parent->lock, &child->lock);
	kfree(parent);
	kfree(child);
}

/* ---- n: a completion that is awaited under a mutex that its completer takes, which lockdep isn't told of. */

static DEFINE_MUTEX(cases_n);
static DECLARE_COMPLETION(cases_done);

static void n1(void)
{
	mutex_lock(&cases_n);
	wait_for_completion_timeout(&cases_done, 1);
	mutex_unlock(&cases_n);
}

static void n2(void)
{
	mutex_lock(&cases_n);
	complete(&cases_done);
	mutex_unlock(&cases_n);
}

/* ---- r: a cycle through a recursive reader. */

static DEFINE_SPINLOCK(cases_r1);
static DEFINE_RWLOCK(cases_r2);
static DEFINE_SPINLOCK(cases_r3);

static void r1(void)
{
	local_bh_disable();
	spin_lock(&cases_r1);
	read_lock(&cases_r2);
	spin_lock(&cases_r3);
	spin_unlock(&cases_r3);
	read_unlock(&cases_r2);
	spin_unlock(&cases_r1);
	spin_lock(&cases_r3);
	spin_lock(&cases_r1);
	spin_unlock(&cases_r1);
	spin_unlock(&cases_r3);
	local_bh_enable();
}

static const struct {
	const char *name;
	void (*function)(void);
} steps[] = {
	{"a1", a1}, {"a2", a2}, {"b1", b1}, {"b2", b2}, {"c1", c1}, {"c2", c2}, {"d1", d1}, {"d2", d2}, {"d3", d3}, {"e1", e1}, {"e2", e2},
	{"e3", e3}, {"e4", e4}, {"f1", f1}, {"f2", f2}, {"f3", f3}, {"f4", f4}, {"g1", g1}, {"g2", g2}, {"h1", h1}, {"h2", h2}, {"i1", i1},
	{"i2", i2}, {"k1", k1}, {"k2", k2}, {"m1", m1}, {"n1", n1}, {"n2", n2}, {"r1", r1},
};

static int __init load(void)
{
	unsigned int number;

	for (number = 0; number < ARRAY_SIZE(steps); number++) {
		if (!strcmp(which, steps[number].name)) {
			steps[number].function();
			return 0;
		}
	}
	return -EINVAL;
}

static void __exit unload(void)
{
	del_timer_sync(&cases_timer);
	flush_work(&cases_work);
}

module_init(load);
module_exit(unload);
