/* SPDX-License-Identifier: GPL-2.0 */
/* What the files of the module share.

   main.c     the buffers, the files in debugfs, and loading and unloading
   events.c   the probes, and what they write
   modules.c  the symbols of modules that are loaded meanwhile */
#ifndef LOCKREC_H
#define LOCKREC_H
#ifndef CONFIG_PROVE_LOCKING
#error "the kernel needs CONFIG_PROVE_LOCKING"
#else

#include <linux/atomic.h>
#include <linux/fs.h>
#include <linux/notifier.h>
#include <linux/sched.h>
#include <linux/seq_file.h>
#include <linux/types.h>

#include "record.h"

#define SEEN 4096        /* keys whose names a CPU remembers having written, a power of two */
#define RESUME_ROOM 4096 /* slots that have to be free before recording continues after a loss */

struct seen {
	u64 key;
	const char *name;
};

struct buffer {
	struct lr_record *slots;
	unsigned long head, tail; /* counted up; the reader writes `tail` */
	u64 lost, losing;         /* in all, and since the last record */
	u64 nested;               /* events while one was written: of NMIs */
	struct task_struct *task; /* of the last record */
	pid_t pid;
	int generation;
	bool is_busy, is_fresh;
	bool is_off; /* whether lockdep has turned itself off, at the current event */
	struct task_struct *reader; /* who has the file open */
	struct task_struct *asked;  /* of whom it was asked last whether it is a reader, */
	int asked_generation;       /* when, */
	bool is_reader;             /* and the answer */
	unsigned int seen_count;
	struct seen seen[SEEN];
};

enum phase { IDLE, RUNNING, STOPPING, STOPPED };

/* ---- main.c */

extern unsigned int slots;
extern unsigned long lock_classes_at;
extern struct buffer *buffers[NR_CPUS];
extern enum phase phase;
extern int reader_generation; /* grows when a reader comes or goes */

/* ---- events.c */

extern atomic64_t last_number;
void put(struct buffer *buffer, struct lr_record *record);
void put_lost(struct buffer *buffer);
int add_probes(void);
void remove_probes(void);
void show_probes(struct seq_file *file);

/* ---- modules.c */

extern struct notifier_block module_notes;
extern const struct file_operations modules_file;
int make_text(void);
void free_text(void);
void show_modules(struct seq_file *file);

#endif
#endif
