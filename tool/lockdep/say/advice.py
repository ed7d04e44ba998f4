"""What is to be done about what was left out: each count by its code. Who can't do that accepts it by `--accept-left-out CODE`."""
from __future__ import annotations

ROOM = "record a shorter run, or raise the limits of memory and of a file's size (`ulimit -v`, `ulimit -f`)"
ENDS = "call ldr_end for each task at its end, and ldr_flush for one that hangs"
ON_DISK = "record it again with more space on the disk"
ALONE = "record these by themselves"
LESS = "record a run that does less"

ADVICE: dict[str, str] = {
    "refused-processes": "raise the limits of memory and of a file's size (`ulimit -v`, `ulimit -f`)",
    "small-files": "raise the limit of a file's size (`ulimit -f`)",
    "lost-threads": "record a run with fewer threads; with lockdep_record.h, " + ENDS,
    "no-room": ROOM,
    "unknown-memory": "record a build without an allocator of its own, as jemalloc or tcmalloc, or a shorter run",
    "full-traces": "record a shorter run",
    "beyond-classes": LESS,
    "beyond-traces": "record a run with fewer threads",
    "fork-handlers": "record a build without an allocator of its own, as jemalloc or tcmalloc, or fork where fewer locks are held",
    "handlers-beyond-sets": "record runs in which fewer signal handlers take locks",
    "unfollowed-handlers": "set each signal's handler once, or record a shorter run",
    "masks-unknown": "change masks by pthread_sigmask and its like, in place of direct system calls",
    "unknown-signals": "record a shorter run",
    "beyond-held": "record a smaller load, in which a thread holds at most 48 locks",
    "tries": "write version 2 of the format, which is the default",
    "retried-tries": "wait for the lock by a call that blocks, or release the others before it is tried again",
    "reentered": "take no lock in a signal handler, or block its signal where locks are taken",
    "interrupted": "let the signal handler return, as by setting a flag, in place of raising an error",
    "unseen-releases": "release a lock in the thread that took it; what one thread gives and another one takes is a condition or a semaphore",
    "namespaces": "load these by dlopen",
    "unwritten": ON_DISK,
    "still-running": "let these end before the command does",
    "unrewritten": "split methods that are too long, and have class loaders find java.lockdep; with LOCKDEP_JAVA_WHY=1 the recorder says why each class stays",
    "unrewritten-methods": "split those that are too long; with LOCKDEP_JAVA_WHY=1 the recorder says why each stays",
    "synchronizers": "look at these by hand, or use a Lock of java.util.concurrent.locks",
    "multiprocessing": "look at these by hand: no recorder sees them",
    "unguarded": "give this Python its lock, by PYTHON_GIL=1 in the environment",
    "changed-root": "record a run without that",
    "gevent": "record a run with threads in place of greenlets, or look at its other locks by hand",
    "eventlet": "record a run with threads in place of greenlets, or look at its other locks by hand",
    "library-only": "record a run in which the program takes locks of its own",
    "unreached-runs": "link these dynamically, and start them with the environment as it is, without other rights, and without Python's -I, -E and -S",
    "pthread-runs": ALONE + ", with --recorder pthread",
    "other-runs": ALONE,
    "rust-programs": "build these with the crate lockdep_record and `--cfg lockdep`",
    "other-libraries": "look at these by hand, or record what takes their locks by itself",
    "other-programs": ALONE + ", if there is a recorder for them",
    "sanitizer-programs": "record a build without the sanitizer",
    "library-traces": "record a shorter run, or that library once more, with --recorder pthread",
    "bound-libraries": "load them without RTLD_DEEPBIND, or record it once more, with --recorder pthread",
    "other-pthreads": "record it once more, with --recorder pthread",
    "parking-lot": "take these locks from the crate lockdep_record, or look at them by hand",
    "std-locks": "take these locks from the crate lockdep_record, or look at them by hand",
    "unread-files": "let the program write its traces as task-0001.csv and so on",
    "beyond-events": "record a shorter run, or end a task by ldr_end and begin another one",
    "refused-words": "give names of 1 to 64 bytes, subclasses from 0 to 7, and the modes of lockdep_record.h",
    "left-interrupts": "tell interrupts by ldr_enter and ldr_leave, from outside other calls of lockdep_record.h",
    "unseen-enters": "call ldr_enter where an interrupt comes in",
    "refused-flags": "call ldr_on where interrupts are turned on, after ldr_off where they are turned off",
    "kept-locks": "release in an interrupt what it took",
    "refused-puts": "let `put` take all bytes, as into a larger buffer or file",
    "lost-places": "give ldr_places room for all records",
    "cut-traces": ENDS,
    "unended-traces": ENDS,
    "ungathered-signals": "look at each of them by `lockdep confirm`, or record with --signals off",
    "unplaced-traces": "write the places of each task to a file",
}

# Where one recorder has another advice.
OF_RECORDERS: dict[str, dict[str, str]] = {
    "pthread": {"beyond-classes": "name classes by fewer callers, as by --frames 1, or " + LESS},
    "java": {"interrupted": "give threads more stack, as by -Xss4m, which doesn't help endless recursion, or the program more heap, and end none by Thread.stop"},
}


def advice_of(code: str, recorder: str) -> str:
    return OF_RECORDERS.get(recorder, {}).get(code, ADVICE[code])
