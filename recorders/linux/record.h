/* One record of a recording, as the module writes it and `convert` reads it: 40 bytes, little endian. */
#ifndef LOCKREC_RECORD_H
#define LOCKREC_RECORD_H

#ifdef __KERNEL__
#include <linux/types.h>
typedef u64 lr_u64;
typedef u32 lr_u32;
typedef u8 lr_u8;
#else
#include <stdint.h>
typedef uint64_t lr_u64;
typedef uint32_t lr_u32;
typedef uint8_t lr_u8;
#endif

struct lr_record {
    lr_u64 number;   /* from one counter for all CPUs, which orders their records */
    lr_u64 instance; /* the lock's address */
    lr_u64 key;      /* its class's key: the address of a `lock_class_key`, with the subclass added */
    lr_u64 place;    /* the caller */
    lr_u32 pid;
    lr_u8 type;
    lr_u8 flags;
    lr_u8 state;
    lr_u8 depth; /* how many locks lockdep has for this task before the event; LR_NO_DEPTH: it has turned itself off */
};

#define LR_NO_DEPTH 255

/* What a record says. If a type isn't an acquisition, the fields have other meanings. */
enum lr_type {
    LR_NOTHING = 0, /* only in a recording made of text: what was left out there */
    LR_ACQUIRE = 1,
    LR_RELEASE = 2,
    LR_ENABLE = 3, /* hardirqs are about to be turned on; only if locks are held and lockdep says that they are off */
    LR_NAME = 4,   /* the name of the class of `key`; LR_NAME_SLOTS slots of text follow */
    LR_TASK = 5,   /* from here on this CPU runs this task: `instance` and `key` are its `comm`, `place` its `task_struct` */
    LR_HELD = 6,   /* a lock that the task holds, outermost first: `depth` of them follow an LR_TASK, counted down */
    LR_LOST = 7,   /* `instance` records of this CPU were lost here */
    LR_CPU = 8,    /* the variables of the CPU `key` are `instance` above their symbols */
    LR_UNDER = 9,  /* `instance` is the nest_lock of this CPU's next acquisition */
};

#define LR_NAME_SLOTS 2
#define LR_NAME_ROOM (LR_NAME_SLOTS * 40)

/* The flags of an acquisition and of a held lock. */
#define LR_SUBCLASS 7
#define LR_TRY 8
#define LR_READ_SHIFT 4 /* two bits: 0 writer, 1 reader, 2 recursive reader */
#define LR_CHECK 64     /* not set: the lock is held, but not checked */
#define LR_NEST 128     /* taken under an outer lock that makes it safe */

/* The flags of a task: it reads the recording; lockdep is off, so the list says what the task held when that happened. */
#define LR_READER 1
#define LR_OFF 2

/* The state at a record. Whether hardirqs and softirqs are on is what lockdep says, and once it is off what the CPU says. */
#define LR_IN_HARDIRQ 1
#define LR_IN_SOFTIRQ 2
#define LR_HARDIRQS_ON 4
#define LR_SOFTIRQS_ON 8
#define LR_LOOKED_AT 16 /* lockdep looks at this event */
#define LR_IN_NMI 32
#define LR_IRQS_ON 64
#define LR_FRESH 128 /* an interrupt began on this CPU since its last record */

#endif
