"""What does something with locks: a task, which is a thread, a task of asyncio, a greenlet, or the runs of a signal's handler."""
import sys
from _thread import get_ident

from . import log
from .classes import Way
from .log import here

find_loop = find_task = None  # of asyncio, once it is loaded
find_greenlet = None  # the running one, once greenlets are loaded

# (Python runs signals' handlers, which `handlers` has, in the main thread only.)
NOWHERE = frozenset()  # the state of code in which no handler may come in
state = NOWHERE  # that of the main thread's code: the handlers that may come in
main_thread = get_ident()
runs = []  # of handlers, in the main thread: each within the one before
LEFT_OUT = None  # the holder of a lock whose acquisition isn't in a trace



def end(task):
    """`ends` puts its own in the place of this."""


class Held:
    """A held lock: by which task, in which mode, its record; and the records and the way before its place was taken. `place` is that of the
    record, once it is in the file, and `callers` those of one that is new, until it is known who goes on with the lock."""

    __slots__ = ("lock", "task", "code", "record", "start", "before", "is_told", "place", "callers")

    def __init__(self, lock):
        self.lock = lock
        self.is_told = False  # for a lock that is waited for: whether the file has it
        self.place, self.callers = (None, None), None


class Task:
    """A thread or a task of asyncio. `base` is how many of its records are in the file already, and `fresh` how many there were
    when it last did something new. Where signals' handlers may come in is its `state`, and it has a trace for each (`parts`). In the order of steps it is
    `member`: nothing if that has none of it, 0 if that is over. `is_ordered` says whether a step is noted now."""

    __slots__ = ("number", "held", "way", "records", "base", "fresh", "dropped", "pending", "is_busy", "is_over", "operations",
                 "repeats", "failed", "aside", "lent", "life", "source", "is_main", "state", "parts", "first", "member", "is_ordered")

    def __init__(self, source=None):
        self.aside, self.lent, self.life, self.member, self.is_ordered = None, 0, None, None, False
        self.source, self.is_main, self.parts, self.first = source, get_ident() == main_thread, None, 0
        self.state = state if self.is_main else NOWHERE
        self.number, self.held, self.way, self.records = 0, [], Way(log.process.common), []
        self.base = self.fresh = self.operations = self.repeats = 0
        self.dropped, self.pending, self.is_busy, self.is_over, self.failed = [], None, False, False, None
        log.process.tasks.add(self)


class Guard:
    """Ends a task when its thread or asyncio task is gone."""

    __slots__ = ("task",)

    def __init__(self, task):
        self.task = task

    def __del__(self):
        try:
            if self.task in log.process.tasks:
                end(self.task)
        except Exception:  # for example at the interpreter's end, when half of it is gone
            pass


def current():
    """The running task: that of asyncio, or otherwise the thread. Once greenlets are loaded, `current_of_all` takes its place."""
    if find_loop is not None:
        loop = find_loop()
        if loop is not None and not (runs and is_of_run(loop)):
            running = find_task(loop)
            if running is not None:
                try:
                    return running._lockdep_guard.task
                except AttributeError:
                    return begin_coroutine(running)
    try:
        return here.task
    except AttributeError:
        return begin_thread()


def current_of_all():
    """The running task: that of asyncio, the greenlet, or otherwise the thread."""
    running = running_one()
    try:
        return here.task if running is None else running._lockdep_guard.task
    except AttributeError:
        return begin_running(running)


def is_of_run(loop):
    """Whether a signal's handler is running that interrupted a task of a loop. (It may also have a loop of its own.)"""
    return get_ident() == main_thread and bool(runs) and runs[-1].loop is loop


def begin_running(running):
    """What is running takes its first lock, or gets another trace."""
    if running is None:
        return begin_thread()
    if hasattr(running, "get_coro"):
        return begin_coroutine(running)
    running._lockdep_guard = Guard(Task())
    return running._lockdep_guard.task


def begin_coroutine(running):
    """A task of asyncio takes its first lock. What it does for another is that one's."""
    caller = caller_of(running)
    if caller is None:
        guard = Guard(Task())
    else:
        guard = getattr(caller, "_lockdep_guard", None)
        if guard is None or guard.task.is_over:
            begin_coroutine(caller)
            guard = caller._lockdep_guard
    running._lockdep_guard = guard
    return guard.task


def caller_of(running):
    """The task that waits for another one by `asyncio.wait_for`. Before Python 3.12 that makes a task of the coroutine which it is given,
    and a future of its own, which gets a result when that task has ended and then wakes up the caller."""
    if sys.version_info >= (3, 12):
        return None
    release_waiter = getattr(sys.modules["asyncio.tasks"], "_release_waiter", None)
    for callback, _ in getattr(running, "_callbacks", None) or ():
        if getattr(callback, "func", None) is release_waiter:
            for wakeup, _ in getattr(callback.args[0], "_callbacks", None) or ():
                caller = getattr(wakeup, "__self__", None)
                if hasattr(caller, "get_coro"):
                    return caller
    return None


def enter(task):
    """`steps` puts its own in the place of this."""


def begin_thread():
    """A thread takes its first lock."""
    here.task = Task()
    enter(here.task)
    here.guard = Guard(here.task)
    begin_task(here.task)
    return here.task


def begin_again(task):
    """The running thread or task, or the run of a signal's handler, gets another trace."""
    if task.source is not None and getattr(here, "task", None) is task and runs:
        here.task = runs[-1].task = Task(task.source)
        enter(here.task)
    else:
        begin_running(running_one())


def begin_task(task):
    """`threads` puts its own in the place of this."""


def running_one():
    """The running task of asyncio or greenlet, or None where it is the thread's own."""
    loop = find_loop() if find_loop is not None else None
    running = find_task(loop) if loop is not None and not (runs and is_of_run(loop)) else None
    if running is None and find_greenlet is not None:
        running = find_greenlet()
        running = running if running.parent is not None else None
    return running


def begin_main_thread():
    """The running thread is the main one of a process that was just forked."""
    global main_thread, state
    main_thread = get_ident()
    state = state_in_child()


def state_in_child():
    """`handlers` puts its own in the place of this: which handlers may come in, in a process that was just forked."""
    return NOWHERE
