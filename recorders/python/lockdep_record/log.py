"""The file of this process, in which its tasks' records are, in the form of recorders/log.md. It is opened for each write, so that the program has no
open file that it doesn't know about."""
import os
import sys
import threading
from _signal import signal as set_handler
from collections import deque
from itertools import count as counting
from time import time_ns

from .classes import Way, key_of, keys
from .places import place_text, settled, visible

WRITE, TRY, RELEASE, TIMED = 0, 1, 2, 6  # modes; recorders/log.md has all of them
STARTED = "started"  # the kind of the class of a thread
MOST_BROKEN_OFF = 16  # so many waits that were broken off are kept for the end of the process

here = threading.local()  # what a thread has: its task
write_bytes, open_file, close_file = os.write, os.open, os.close  # eventlet puts its own into `os`


def tell_life(life):
    """`threads` puts its own in the place of this."""


def flush_steps():
    """`steps` puts its own in the place of this."""


def declare_source(source):
    """Writes a handler, if the file doesn't have it."""
    if source not in process.told:
        put("H %d %d %d\t%s\t%s\t%s\n" % (source.number, source.ordinal, source.line, source.signal, source.name, source.file))
        process.told[source] = True


def tell_state(task):
    """Writes what a trace is of, unless it is of code at which no handler may come in."""
    task.first = task.first or task.number
    if task.source is None and not task.state and task.first == task.number:
        return
    of = [task.source.number if task.source is not None else 0] + [source.number for source in task.state]
    for source in list(task.state) + ([task.source] if task.source is not None else []):
        declare_source(source)
    put("U %d %d %s\n" % (task.number, task.first, " ".join(map(str, of))))


def place_of(task, entry):
    """The place of the record of what is held."""
    at = entry.record - task.base
    return settled(task.records[at][1:]) if 0 <= at < len(task.records) else entry.place


class Process:
    """A process, and its file. One that is left out has none."""

    def __init__(self, folder, is_left_out):
        self.folder, self.tasks, self.common = folder, set(), Way(None)
        self.counts = dict.fromkeys(("reentered", "beyond-held", "full-traces", "unseen-releases", "repeats", "retried-tries",
                                     "interrupted", "alike", "operations", "multiprocessing", "gevent", "eventlet", "unfollowed-handlers",
                                     "unguarded", "changed-root", "history-ends"), 0)
        self.note_unguarded()
        self.told, self.written, self.like, self.task_numbers = {}, {}, {}, counting(1)
        self.places, self.place_numbers, self.pid = {}, counting(1), os.getpid()
        self.broken_off = deque(maxlen=MOST_BROKEN_OFF)
        number = 0
        while os.path.lexists(self.path_of(number)):
            number += 1
        self.path, self.is_off = self.path_of(number), is_left_out
        if is_left_out:
            return
        put_bytes(self, b"process %d %d%s\n" % (self.pid, time_ns(), b" inner" if number and is_inner() else b""))
        try:
            os.chmod(self.path, 0o666)  # a program may drop its privileges
        except OSError:
            give_up(self)

    def path_of(self, number):
        return os.path.join(self.folder, "%d-%d" % (self.pid, number))

    def note_unguarded(self):
        """Notes whether this Python runs without its global lock. A module that it loads may turn that on."""
        if has_global_lock is not None and not has_global_lock():
            self.counts["unguarded"] = 1


def is_inner():
    """Whether this is an interpreter beside the main one of its process: only that one may set handlers of signals, and would refuse this one."""
    try:
        set_handler(1, None)
    except ValueError:
        return True
    except TypeError:
        return False


has_global_lock = getattr(sys, "_is_gil_enabled", None)  # (since Python 3.13; the recorder's own tables rely on it)
process = None


def put_bytes(of, raw, further=""):
    """Adds to the file of a process, or to a further one. Errors never reach the program."""
    try:
        file = open_file(of.path + further, os.O_WRONLY | os.O_APPEND | os.O_CREAT | os.O_CLOEXEC, 0o666)
        try:
            while raw:
                raw = raw[write_bytes(file, raw):]
        finally:
            close_file(file)
    except OSError:
        give_up(of)


def give_up(of):
    """The file of a process can't be written any more. That is noted by an empty file, for which even a full disk may have room."""
    of.is_off = True
    try:
        close_file(open_file(of.path + ".lost", os.O_WRONLY | os.O_CREAT | os.O_CLOEXEC, 0o666))
    except OSError:
        pass


def put(text):
    if text and not process.is_off:
        put_bytes(process, text.encode("utf-8", "replace"))


def declare(code):
    """Writes the lock of a code, and its class, if the file doesn't have them."""
    key, of = keys[code >> 3], process
    if key.number not in of.told:
        made, text = key.made, ""
        if made not in of.told:
            place = place_text(made.chain).split("\t")[-1] or "?:0 ?"
            text = "C %d\t%s\t%s\t%s\n" % (made.number, visible(made.name), place, made.kind)
        put("%sK %d %d %d\n" % (text, key.number, made.number, key.ordinal))
        of.told[made] = of.told[key.number] = True  # (once it is written, since something may come in between)
    if key.made.is_reentrant and (key.made, "O") not in of.told:
        put("O %d\n" % key.made.number)
        of.told[key.made, "O"] = True


def place_number(code, at):
    """The number of a place, which is written if the file doesn't have it."""
    if code is None:
        return 0
    code, at = settled((code, at))
    chain = code if at is None else ((code, at),)
    key = key_of(chain)
    of = process
    number = of.places.get(key)
    if number is None:
        number = next(of.place_numbers)
        put("P %d\t%s\n" % (number, place_text(chain)))
        of.places[key] = number
    return number


def thread_name(task):
    """What the running thread is called, if the task is that. (A thread that threading doesn't know would get an object by being asked.)"""
    if task.source is not None:
        return "handler of " + task.source.signal
    thread = threading._active.get(threading.get_ident()) if not task.is_over and getattr(here, "task", None) is task else None
    return visible(thread.name) if thread is not None else ""


def write(task):
    """Writes what a task has done."""
    if not task.number:
        task.number = next(process.task_numbers)
        name = thread_name(task)
        put("N %d\t%s\n" % (task.number, name) if name else "")
        put("J %d %d\n" % (task.number, task.member or 0) if task.member != 0 else "")
        tell_state(task)
    if task.life is not None:
        tell_life(task.life)
    lines = []
    for code, place, at in task.records:
        declare(code)
        lines.append("%s %d %d %d\n" % ("R" if code & 7 == RELEASE else "A", task.number, code, place_number(place, at)))
    for entry in task.held:
        if entry.record >= task.base:
            entry.place = place_of(task, entry)
    task.base += len(task.records)
    task.records.clear()
    if task.pending is not None and not task.pending.is_told:
        task.pending.is_told = True
        lines.append("W %d\n" % task.number)
    count(task)
    put("".join(lines) + count_lines())
    flush_steps()


def count_lines():
    """The counts that have changed."""
    lines = []
    for name, number in process.counts.items():
        if process.written.get(name, 0) != number:
            process.written[name] = number
            lines.append("S %s %d\n" % (name, number))
    return "".join(lines)


def note_count(name, more):
    """Changes a count of the process, and writes it at once."""
    if process is not None:
        process.counts[name] += more
        put(count_lines())


def count(task):
    """Adds a task's own counts to those of the process."""
    process.counts["operations"] += task.operations
    process.counts["repeats"] += task.repeats
    task.operations = task.repeats = 0
