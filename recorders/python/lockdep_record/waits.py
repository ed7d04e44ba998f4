"""What tasks wait for: that is noted before they wait, as if they had taken it."""
import sys
from time import monotonic

from . import log, tasks
from .log import WRITE, declare, place_of, put, write
from .places import chain_of, getframe
from .recording import MOST_EVENTS, MOST_HELD, abandon, give_back, see, settle, tell_all_apart, withdraw
from .steps import BREAKS, note, note_taking
from .tasks import Held

LATELY = 2  # how long before the end of the process, in seconds, a wait can have been broken off that is still named


def begin_pending(lock, is_long=True, mode=WRITE):
    """The running task waits for a lock: that is noted before it waits, as if it had taken it. It is written if it waits for long, or
    if nothing was taken in this way before."""
    task = tasks.current()
    if task.is_busy or task.pending is not None or not (len(task.held) < MOST_HELD and task.base + len(task.records) < MOST_EVENTS):
        return
    task.is_busy = True
    try:
        settle(task)
        if task.held:
            tell_all_apart(task.held, task, lock)
        code = 8 * lock.key + mode
        entry = Held(lock)
        entry.task, entry.code, entry.before = task, code, task.way
        entry.record = entry.start = task.base + len(task.records)
        task.way = task.way.to(code)
        task.records.append((code, chain_of(getframe(1).f_back), None))
        task.held.append(entry)
        task.pending = entry
        common = task.way.common
        if is_long or (len(task.held) > 1 and common is not None and not common.is_taken):
            write(task)
    except BaseException:
        abandon(task)
        raise
    task.is_busy = False


def grant(lock):
    """The running task got what it waited for."""
    task = tasks.current()
    entry = task.pending
    if entry is None or entry.lock is not lock or task.is_busy:
        return False
    task.pending = None
    task.operations += 1
    lock.entry = entry
    if task.is_ordered:
        note_taking(task, lock, task.way, None, entry.code, place_of(task, entry))
    if entry.is_told:
        put("G %d\n" % task.number)
    if not task.way.is_taken:
        see(task, task.way)
    return True


def not_granted(lock):
    """The running task didn't get what it waited for."""
    task = tasks.current()
    if task.pending is not None and task.pending.lock is lock:
        withdraw(task)


def break_off(lock):
    """What the running task waited for, for as long as it takes, didn't come, since an error ended that: one of a signal's handler, as
    Ctrl-C has it, or a cancellation. The order is there all the same, and a deadlock may be what was ended so."""
    begin_pending(lock)  # if that wasn't noted yet, or locks that the handler took came in between
    task = tasks.current()
    if task.pending is None or task.pending.lock is not lock or task.is_busy:
        return
    task.is_busy = True
    try:
        keep_wait(task)
    except BaseException:
        abandon(task)
        raise
    task.is_busy = False


def keep_wait(task):
    """What a task waited for stays in its trace, as if it had taken it and given it back."""
    entry = task.pending
    task.pending = None
    if task.is_ordered:
        note(task, BREAKS, entry.code >> 3)
    if entry.is_told:
        put("G %d\n" % task.number)
    if not task.way.is_taken:
        see(task, task.way)
    if len(task.held) > 1:
        error = sys.exc_info()[1]  # (whose number is kept, since it has what its frames have)
        log.process.broken_off.append((monotonic(), error and id(error), task, [held.code for held in task.held]))
    give_back(task, entry)


def broken_off_lines():
    """The waits that were broken off just now, when the process ends, or by the error that has ended its program."""
    lines, last = [], id(getattr(sys, "last_value", None))
    for when, error, task, codes in log.process.broken_off:
        if task.number and (monotonic() - when < LATELY or error == last):
            for code in codes:
                declare(code)
            lines.append("I %d %s\n" % (task.number, " ".join(map(str, codes))))
    return "".join(lines)
