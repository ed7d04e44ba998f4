"""The order in which the tasks of this process take their steps, in the form of recorders/log.md ("Steps"). It is that in which they add them to one
list, which one thread does at a time, by the interpreter's own lock. Each taking is added after it was made, and each release before it is.

Tasks of asyncio and greenlets add none: what they wait for isn't known."""
import os
from itertools import count as counting
from struct import Struct

from . import log, tasks
from .log import STARTED, count_lines, declare, here, place_number, put, put_bytes
from .places import chain_of

NAMES, TAKES, RELEASES, GIVES, GETS, BEGINS, JOINS, BREAKS = range(1, 9)
HISTORY_MEGABYTES = 64  # of a process, if nothing else was asked for
AT_ONCE = 4096  # steps that are kept before they are written
PAIR, OF_ALL = Struct("<2Q"), 0  # a step or the head of a chunk; the task of a chunk that has steps of several ones

steps = []  # those that aren't written yet
add = steps.append
members, locks, messages = counting(1), counting(1), counting(1)


class File:
    """What is written of it: how many more bytes may be, and whether the file has begun; `turn` has something for who writes."""
    room, has_begun, turn = 0, False, [True]


def begin():
    """A process begins, which may have been forked."""
    asked = os.environ.get("LOCKDEP_HISTORY", "")
    megabytes = int(asked) if asked.isdecimal() else 0 if asked else HISTORY_MEGABYTES
    is_kept = not log.process.is_off and not log.process.counts["unguarded"]
    File.room, File.has_begun, File.turn = (megabytes << 20) * is_kept, False, [True]
    vars(here).pop("member", None)
    steps.clear()


def enter(task):
    """A task takes the steps of the running thread."""
    if File.room > 0:
        member = vars(here).get("member") or next(members)
        here.member = task.member = member
        task.is_ordered = True
    else:
        task.member = 0


def word(verb, number, place=0, mode=0):
    return verb | mode << 4 | number << 8 | place << 36


def note(task, *of):
    add(PAIR.pack(task.member, word(*of)))


# ---- Locks.

def note_taking(task, lock, way, site, code, place):
    """A task has taken a lock. `way` keeps how that is written, and the lock's release, for the next time at the same site."""
    if lock.made.kind == STARTED:
        return
    lock.number = lock.number or next(locks)
    tell_key(task, lock)
    way.lock, way.site = None, site
    way.taking = PAIR.pack(task.member, word(TAKES, lock.number, place_number(*place), code & 7))
    way.release = PAIR.pack(task.member, word(RELEASES, lock.number))
    way.lock = lock
    add(way.taking)


def tell_key(task, lock):
    """Says which one a lock is, whose key may be another one than before."""
    if lock.number and lock.told != (log.process, lock.key):
        lock.told = log.process, lock.key
        declare(8 * lock.key)
        note(task, NAMES, lock.number, lock.key)


def note_release(task, lock):
    """A task is about to release a lock, which isn't the one that it has taken last."""
    if lock.number:
        note(task, RELEASES, lock.number)


# ---- Messages.

def give(frame):
    """The running task gives a message: its number, 0 if nothing is noted."""
    task = tasks.current()
    if not task.is_ordered:
        return 0
    message = next(messages)
    note(task, GIVES, message, place_number(chain_of(frame), None))
    return message


def get(message, frame):
    """The running task gets a message."""
    task = tasks.current() if message else None
    if task is not None and task.is_ordered:
        note(task, GETS, message, place_number(chain_of(frame), None))


def note_join(other, mode, frame):
    """A task has ended, and the running one has waited for that."""
    task = tasks.current() if other is not None and other.member else None
    if task is not None and task.is_ordered:
        note(task, JOINS, other.member, place_number(chain_of(frame), None), mode)


# ---- The file.

def flush():
    """Writes what there is, unless that is being done."""
    try:
        File.turn.pop()  # (a lock would be one that is recorded)
    except IndexError:
        return
    try:
        count = len(steps)
        raw = b"".join(steps[:count])[:File.room]
        del steps[:count]
        File.room -= len(raw)
        if raw and not log.process.is_off:
            head = b"" if File.has_begun else bytes(8)
            put_bytes(log.process, head + PAIR.pack(OF_ALL, len(raw)) + raw, "-history")
        if raw and not File.has_begun:
            File.has_begun = True
            tell_whether_it_ends(True)  # (as it does if nothing is written any more)
        if not File.room:
            stop()
    finally:
        File.turn.append(True)


def stop():
    """No step is noted any more."""
    for task in list(log.process.tasks):
        task.is_ordered = False
    steps.clear()


def tell_whether_it_ends(does):
    log.process.counts["history-ends"] = int(does)
    put(count_lines())


def end():
    """The process ends, and so does its recording."""
    flush()
    if File.room and File.has_begun and not steps:
        tell_whether_it_ends(False)
    File.room = 0
    stop()
