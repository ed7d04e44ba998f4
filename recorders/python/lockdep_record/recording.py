"""What the tasks of this process do with locks: their records, which are written to a file of the process (`log`).

Records are left out by the rule of docs/RECORDING.md: a stretch that comes back to the locks that were held at its start, and takes
nothing in a way in which its task hadn't taken it before, is dropped. A way is the held locks and the new one, in their order; it is a
node of a tree, of which each task has its own.

What no task of the process had done before is written at once, so that nothing is missing if a signal ends the process."""
from . import log, tasks
from .classes import Way, tell_apart
from .log import RELEASE, declare, here, place_of, put, write
from .places import (
    Frame, chain_noting_with, chain_of, chain_of_taking, getframe, known_passed, known_plain, known_withs, note_returned, passing, settled)
from .steps import AT_ONCE, add, flush, note_release, note_taking, steps, tell_key
from .tasks import Held, Task, begin_again, begin_thread, current_of_all

MOST_HELD = 48
MOST_EVENTS = 1000000 - 2 * MOST_HELD

are_threads = True  # whether each task is a thread, as long as neither asyncio nor greenlets are loaded


def note_greenlets(module):
    """From here on a greenlet is a task of its own. `module` has those that are there."""
    global are_threads
    tasks.find_greenlet, are_threads, tasks.current = module.getcurrent, False, current_of_all


def took(lock, mode):
    """The running task has taken a lock. (This and `gave` are called at each operation, so they make few calls.)"""
    try:
        task = here.task if are_threads else tasks.current()
    except AttributeError:
        task = begin_thread()
    if task.is_busy:
        return took_oddly(lock, mode, task)
    task.is_busy = True
    try:
        if task.pending is not None or task.dropped:
            settle(task)
        task.operations, task.failed = task.operations + 1, None
        held, records = task.held, task.records
        if held:
            tell_all_apart(held, task, lock)
        record = task.base + len(records)
        if len(held) >= MOST_HELD or record >= MOST_EVENTS:
            leave_out(lock, "full-traces" if len(held) < MOST_HELD else "beyond-held")
            if task.is_ordered:
                note_taking(task, lock, Way(None), None, 8 * lock.key + mode, (chain_of(getframe(1).f_back), None))
        else:
            code, before, frame = 8 * lock.key + mode, task.way, getframe(1).f_back
            if frame is not None and frame.f_code.co_filename in known_passed:
                frame = frame.f_back
            of_frame = frame.f_code if frame is not None else None
            if of_frame is not None and of_frame.co_filename in known_plain:
                made = site = (code, of_frame, frame.f_lasti)
                if passing and id(of_frame) in passing:
                    made = site = (code, chain_of_taking(frame), None)
            elif (of_frame is not None and known_withs.get((of_frame.co_filename, of_frame.co_firstlineno, frame.f_lasti))
                  and tasks.find_greenlet is None):
                made, site, outer = (code, frame, frame.f_lasti), None, frame.f_back
                if outer is not None and outer.f_code.co_filename in known_plain:
                    site = (code, of_frame, frame.f_lasti, outer.f_code, outer.f_lasti)
            else:
                made = site = (code, chain_noting_with(frame), None)
            records.append(made)
            entry = lock.entry = (lock.spare if lock.entry is None else None) or spare_of(lock)
            entry.task, entry.code, entry.record, entry.start, entry.before = task, code, record, record, before
            held.append(entry)
            way = task.way = before.after.get(code) or before.to(code)
            if not way.is_taken and type(made[1]) is not Frame:
                entry.callers = chain_of_taking(frame, True)
                made = records[-1] = (code, entry.callers, None)
            if task.is_ordered:
                if way.lock is lock and way.site == site and site is not None:
                    add(way.taking)
                else:
                    note_taking(task, lock, way, site, code, made[1:])
            if not way.is_taken:
                see(task, way)
    except BaseException:
        abandon(task)
        raise
    task.is_busy = False


def spare_of(lock):
    """The object that says who holds a lock, one for each time that it is held."""
    lock.spare = Held(lock)
    return lock.spare


def took_oddly(lock, mode, task):
    """A lock was taken while its task is being examined, or after its trace has ended: then another trace begins."""
    lock.entry = tasks.LEFT_OUT
    if task.is_over:
        begin_again(task)
        took(lock, mode)
    else:
        took_aside(lock, mode, task, getframe(2).f_back)


def leave_out(lock, reason):
    """An acquisition isn't in the trace, so its release isn't either."""
    lock.entry = tasks.LEFT_OUT
    log.process.counts[reason] += 1


def settle(task):
    """Handles what happened to a task since its last operation: others released locks that it held, a handler interrupted its
    waiting, or others may come in now."""
    if task.pending is not None:
        withdraw(task)
    while task.dropped:
        entry = task.dropped.pop()
        if entry in task.held:
            give_back(task, entry)
    if task.is_main and task.state != tasks.state:
        move(task)


def see(task, way):
    """A way is new to the task. If it is also new to the process, it is written."""
    way.is_taken = True
    task.fresh = task.base + len(task.records)
    if way.common is not None and not way.common.is_taken:
        way.common.is_taken = True
        write(task)


def gave(lock, real):
    """The running task is about to release a lock. `real` knows whether somebody holds it."""
    try:
        task = here.task if are_threads else tasks.current()
    except AttributeError:
        task = begin_thread()
    if task.is_ordered:
        add(task.way.release) if task.way.lock is lock else note_release(task, lock)
        if len(steps) >= AT_ONCE:
            flush()
    if task.is_busy:
        return gave_oddly(lock, real, task)
    task.is_busy = True
    try:
        if task.pending is not None or task.dropped:
            settle(task)
        task.operations += 1
        entry, lock.entry = lock.entry, None
        if entry is not None and entry.task is task:
            give_back(task, entry)
        elif real is not None and real.locked():
            gave_for_another(lock, entry, real)
    except BaseException:
        abandon(task)
        raise
    task.is_busy = False


def undo(lock):
    """The running task takes back that it took a lock, unless that wasn't noted."""
    entry = lock.entry
    if entry is not None and not entry.task.is_busy and entry.task is tasks.current() and entry in entry.task.held:
        gave(lock, None)


def gave_oddly(lock, real, task):
    """A lock is released while its task is being examined, or after its trace has ended."""
    entry = lock.entry
    if task.is_over:
        begin_again(task)
        gave(lock, real)
    elif entry is not None and entry.task is task.aside and not entry.task.is_busy:
        gave_aside(lock, entry)
    else:
        if entry is not tasks.LEFT_OUT:
            log.process.counts["reentered"] += 1
        gave_for_another(lock, entry, real)
        lock.entry = None


# What a finaliser or a signal's handler does while its task is being examined is the trace of another task, which begins by taking what
# is held just then, and ends by giving that back. (The garbage collector may run such a finaliser whenever an object is made, and so often
# runs it when a record is.)

def took_aside(lock, mode, task, frame):
    """A lock was taken while its task is being examined. It is one operation, and is lost if it comes in the middle of another such one."""
    aside = task.aside
    if aside is None or aside.is_over:
        aside = task.aside = Task()
        aside.member, aside.is_ordered = task.member, task.is_ordered
    if aside.is_busy:
        log.process.counts["reentered"] += 1
        return
    aside.is_busy = True
    try:
        if aside.dropped:
            settle(aside)
        aside.operations += 1
        if not aside.held:
            lend(task, aside, frame)
        if any(held.lock is lock for held in aside.held):  # an RLock that is being released: its holder takes it again
            return_lent(aside)
        else:
            take_over(aside, lock, 8 * lock.key + mode, (chain_of(frame), None))
            lock.entry = aside.held[-1]
            if task.is_ordered:
                note_taking(task, lock, aside.way, None, 8 * lock.key + mode, (chain_of(frame), None))
    except BaseException:
        abandon(aside)
        raise
    aside.is_busy = False


def gave_aside(lock, entry):
    """Such a lock is given back."""
    aside = entry.task
    aside.is_busy = True
    try:
        aside.operations += 1
        lock.entry = None
        give_back(aside, entry)
        return_lent(aside)
    except BaseException:
        abandon(aside)
        raise
    aside.is_busy = False


def return_lent(aside):
    """If only what the examined task holds is left, it is given back."""
    if len(aside.held) <= aside.lent:
        while aside.held:
            give_back(aside, aside.held[-1])


def lend(task, aside, frame):
    """The other task takes what the examined one holds, in its order."""
    for entry in [entry for entry in task.held if entry is not task.pending]:
        at = entry.record - task.base
        take_over(aside, entry.lock, entry.code, settled(task.records[at][1:]) if 0 <= at < len(task.records) else (None, None))
    examined = held_meanwhile(task, frame)
    if examined is not None:
        take_over(aside, *examined)
    aside.lent = len(aside.held)


def held_meanwhile(task, frame):
    """The lock that is examined, which is held while it is noted that it was taken or is given back: with its code and place. None if it
    is among those that the task holds."""
    while frame is not None and frame.f_code is not took.__code__ and frame.f_code is not gave.__code__:
        frame = frame.f_back
    if frame is None:
        return None
    lock, entry = frame.f_locals["lock"], frame.f_locals.get("entry")
    if any(held.lock is lock for held in task.held):
        return None
    if frame.f_code is took.__code__:
        return lock, 8 * lock.key + frame.f_locals["mode"], (chain_of(frame.f_back.f_back), None)
    entry = entry or lock.entry
    if entry is None or entry is tasks.LEFT_OUT or entry.task is not task:
        return None
    if task.held and task.held[-1].record > entry.record:  # it was no longer the newest, so its place among the others isn't known
        log.process.counts["reentered"] += 1
        return None
    return lock, entry.code, (None, None)


def take_over(aside, lock, code, place):
    """Adds a lock to what the other task holds."""
    if aside.held:
        tell_all_apart(aside.held, aside, lock)
        code = 8 * lock.key + (code & 7)
    entry = Held(lock)
    entry.task, entry.code, entry.before = aside, code, aside.way
    entry.record = entry.start = aside.base + len(aside.records)
    aside.records.append((code,) + place)
    aside.held.append(entry)
    aside.way = aside.way.to(code)
    if not aside.way.is_taken:
        see(aside, aside.way)


def gave_for_another(lock, entry, real):
    """A lock is given back that another task took: its acquisition ends at that task's next operation. Of the tasks of one loop only one
    runs at a time, so with a lock of asyncio nothing can have come in between, and nothing is lost."""
    is_known = entry is not None and not entry.task.is_over
    is_seen = is_known and (hasattr(real, "_lockdep_record") or (entry.task.is_main and getattr(getattr(here, "task", None), "source", None)))
    if entry is not tasks.LEFT_OUT and not is_seen:
        log.process.counts["unseen-releases"] += 1
    if is_known:
        lock.spare = None
        entry.task.dropped.append(entry)


def give_back(task, entry):
    """A task no longer holds a lock. What it did since it took the lock is dropped, if nothing of it was new."""
    held = task.held
    if held[-1] is entry:
        held.pop()
        task.way = entry.before
        start, records = entry.start, task.records
        if start < task.fresh:
            settle_record(task, entry)
            if entry.callers is not None:
                note_returned(entry.callers, getframe(2))
                entry.callers = None
            records.append((entry.code & ~7 | RELEASE, None, None))
        else:
            at = start - task.base
            if at < 0:
                put("B %d %d\n" % (task.number, start))
                task.base, at = start, 0
            task.repeats += len(records) - at + 1
            del records[at:]
    else:
        give_back_early(task, entry)


def settle_record(task, entry):
    """The record of a lock that is given back stays."""
    at = entry.record - task.base
    if 0 <= at < len(task.records) and type(task.records[at][1]) is Frame:
        task.records[at] = task.records[at][:1] + settled(task.records[at][1:])


def give_back_early(task, entry):
    """A task no longer holds a lock, but still holds others that it took later: these move up to its place. What is dropped begins
    where just those before it are held: that is where the one before it began, if that is a lock with the same code, or nowhere."""
    settle_record(task, entry)
    held = task.held
    at = held.index(entry)
    start, code = entry.start, entry.code
    for later in held[at + 1:]:
        later.start, start = start, later.start if later.code == code and start >= 0 else -1
    del held[at]
    way = entry.before
    for later in held[at:]:
        later.before, way = way, way.to(later.code)
    task.way = way
    task.records.append((entry.code & ~7 | RELEASE, None, None))


def tell_all_apart(held, task, lock):
    """A lock is taken with others held. All but the first of these were told apart when they were taken."""
    if len(held) == 1 and (not held[0].lock.is_apart or held[0].code >> 3 != held[0].lock.key):
        tell_held_apart(task, held[0])
    if not lock.is_apart:
        tell_apart(lock)


def tell_held_apart(task, entry):
    """The lock that is held alone gets another one under it: it becomes a single lock, and so does its record."""
    lock = entry.lock
    if not lock.is_apart:
        tell_apart(lock)
    entry.code = 8 * lock.key + (entry.code & 7)
    if task.is_ordered:
        tell_key(task, lock)
    at = entry.record - task.base
    if at >= 0:
        task.records[at] = (entry.code,) + task.records[at][1:]
    else:
        declare(entry.code)
        put("M %d %d %d\n" % (task.number, entry.record, entry.code))
    task.way = entry.before.to(entry.code)
    if not task.way.is_taken:
        see(task, task.way)


def failed_try(lock):
    """A try failed. One that is immediately repeated, with other locks held, is a way of waiting that no trace shows."""
    task = tasks.current()
    if task.held and task.failed is lock:
        log.process.counts["retried-tries"] += 1
    task.failed = lock


def withdraw(task):
    """Removes the record of what was waited for."""
    entry = task.pending
    task.pending = None
    if entry in task.held:
        task.held.remove(entry)
        task.way = entry.before
        if entry.is_told:
            put("G %d\nB %d %d\n" % (task.number, task.number, entry.start))
        del task.records[max(0, entry.start - task.base):]
        task.base = min(task.base, entry.start)


def abandon(task):
    """The examination of a task was interrupted, for example by an exception from a signal handler: its trace ends here."""
    if task.is_over:
        return
    task.is_over, task.is_busy, task.is_ordered = True, True, False
    log.process.tasks.discard(task)
    log.process.counts["interrupted"] += 1
    task.pending = None


# ---- Signals' handlers (`handlers`).

def enter_state(new):
    """Other handlers may come in at the main thread's code from here on. What its tasks hold meanwhile has to be noted at once."""
    tasks.state = new
    for task in list(log.process.tasks):
        if not task.is_main or task.is_over or task.state == new:
            continue
        if task.is_busy or task.pending is not None:
            task.dropped.append(None)  # the state is looked at before its next operation
        else:
            enter_state_of(task)


def enter_state_of(task):
    task.is_busy = True
    try:
        settle(task)
    except BaseException:
        abandon(task)
        raise
    task.is_busy = False


def move(task):
    """From here on a task has the trace of the present state, which begins with what it holds."""
    kept = [(entry, place_of(task, entry)) for entry in task.held]
    for entry, _ in reversed(kept):
        give_back(task, entry)
    parts = task.parts = task.parts if task.parts is not None else {}
    if task.number:
        write(task)  # (so that nothing of it seems to be held if the process is killed)
    if task.number or task.records:
        parts[task.state] = task.number, task.way, task.records, task.base, task.fresh
        task.number, task.way, task.records, task.base, task.fresh = 0, Way(log.process.common), [], 0, 0
    task.state = tasks.state
    if tasks.state in parts:
        task.number, task.way, task.records, task.base, task.fresh = parts.pop(tasks.state)
    for entry, place in kept:
        take_again(task, entry, place)


def take_again(task, entry, place):
    """A task holds something from here on that was taken before."""
    entry.task, entry.before = task, task.way
    entry.record = entry.start = task.base + len(task.records)
    task.records.append((entry.code,) + place)
    task.held.append(entry)
    task.way = task.way.to(entry.code)
    if not task.way.is_taken:
        see(task, task.way)


def write_parts(task):
    """Writes what is left of a task's traces of other states."""
    own = task.state, task.number, task.way, task.records, task.base, task.fresh
    held, pending, task.held, task.pending = task.held, task.pending, [], None
    for of, part in (task.parts or {}).items():
        if part[2]:
            task.state = of
            task.number, task.way, task.records, task.base, task.fresh = part
            write(task)
    task.state, task.number, task.way, task.records, task.base, task.fresh = own
    task.held, task.pending, task.parts = held, pending, None
