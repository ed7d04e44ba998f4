"""Handlers of signals. Python runs them in the main thread, between two of its instructions, whichever thread got the signal, and masks nothing
meanwhile. So each run is a task of its own, and the main thread's tasks note which handlers may come in: those that are installed, and
whose signal isn't blocked in that thread. What the program sees are its own handlers."""
import _signal
import functools
import os
from _thread import get_ident
from _weakref import ref
from itertools import count as counting
from types import FunctionType, MethodType

from . import ends, log, places, recording, tasks
from .log import TRY, declare_source, place_of
from .places import getframe, visible
from .recording import MOST_HELD, abandon, give_back, settle, take_again, tell_all_apart
from .tasks import Task

MOST_SOURCES = 64  # handlers that are told apart
OTHER_NAMES = ("SIGCLD", "SIGPOLL", "SIGIOT")  # second names of signals

real_signal, real_getsignal, real_mask = _signal.signal, _signal.getsignal, getattr(_signal, "pthread_sigmask", None)
source_numbers = counting(1)
sources, known, ordinals, followed = [], {}, {}, set()


class Source:
    """A signal and a handler: its function's name and place, the number among those of this place, how often it ran, and tasks for its runs."""

    __slots__ = ("number", "signal", "name", "file", "line", "ordinal", "runs", "free", "code")

    def __init__(self, signal, function, handler):
        code = self.code = function.__code__ if function is not None else None
        name = function.__qualname__.replace("<locals>.", "") if function is not None else type(handler).__name__
        self.signal, self.name, self.runs, self.free = signal, visible(name), 0, []
        self.file, self.line = (visible(os.path.abspath(code.co_filename)), code.co_firstlineno) if code is not None else ("", 0)
        of = self.signal, self.name, self.file, self.line
        self.ordinal = ordinals[of] = ordinals.get(of, 0) + 1
        self.number = next(source_numbers)


def name_of_signal(number):
    names = [name for name, value in vars(_signal).items()
             if name.startswith("SIG") and "_" not in name and name not in OTHER_NAMES and value == number]
    first = getattr(_signal, "SIGRTMIN", 0)
    return names[0] if names else "SIGRTMIN+%d" % (number - first) if number > first > 0 else "SIG%d" % number


# ---- Which handler it is.

def function_of(handler):
    """The function in Python that a handler runs; None if it runs something else."""
    while isinstance(handler, functools.partial):
        handler = handler.func
    if type(handler) is MethodType:
        handler = handler.__func__
    if type(handler) is not FunctionType:
        handler = getattr(type(handler), "__call__", None)
    return handler if type(handler) is FunctionType else None


def is_of_program(name):
    return (places.kinds[name] if name in places.kinds else places.kind_of(name)) == places.PLAIN


def is_followed(handler, function, frame):
    """Whether a handler is the program's, or the program sets it. Those that the standard library sets for itself take no locks of its."""
    if frame is not None and frame.f_globals.get("__name__") == "signal":
        frame = frame.f_back
    return frame is not None and is_of_program(frame.f_code.co_filename) or function is not None and is_of_program(function.__code__.co_filename)


def objects_of(handler, function):
    """What tells a handler from others: its code and names if it has nothing else, or else the objects themselves."""
    if type(handler) is FunctionType and handler.__closure__ is None and not handler.__defaults__ and not handler.__kwdefaults__:
        return (function.__code__, function.__globals__)
    return (handler.__func__, handler.__self__) if type(handler) is MethodType else (handler,)


def are_same(references, objects):
    return all(reference is None or reference() is each for reference, each in zip(references, objects))


def references_to(objects, is_kept):
    """Weak references, since an object that is gone may leave its number to another one; the code of a plain function is kept."""
    return [None] * len(objects) if is_kept else [ref(each) for each in objects]


def source_of(number, handler, function):
    """The source of a handler: the one that it had before, or a new one; None if there is no room."""
    objects = objects_of(handler, function)
    key = (number,) + tuple(map(id, objects))
    if key in known and are_same(known[key][1], objects):
        return known[key][0]
    if len(sources) >= MOST_SOURCES:
        return None
    source = Source(name_of_signal(number), function, handler)
    sources.append(source)
    try:
        known[key] = source, references_to(objects, type(handler) is FunctionType and len(objects) == 2)
    except TypeError:
        known.pop(key, None)
    return source


# ---- A run.

class Run:
    """A run of a handler: its task, what it interrupted, and the task that the thread had then."""

    __slots__ = ("task", "interrupted", "before", "loop", "process", "depth", "is_entered")

    def __init__(self):
        self.task, self.is_entered = None, False

    def enter(self, source):
        runs, here, self.process = tasks.runs, log.here, log.process
        note_run(source)
        self.loop = tasks.find_loop() if tasks.find_loop is not None else None
        self.depth, self.before = len(runs), vars(here).get("task")
        running = tasks.running_one()
        self.interrupted = self.before if running is None else getattr(getattr(running, "_lockdep_guard", None), "task", None)
        self.task = task_for(source)
        self.is_entered = True
        runs.append(self)
        here.task = self.task

    def leave(self, source):
        """The run is over. (In a process that it has forked it goes on as a part of what it interrupted.)"""
        if not self.is_entered or log.process is not self.process:
            return
        if self.before is None:
            vars(log.here).pop("task", None)
        else:
            log.here.task = self.before
        del tasks.runs[self.depth:]
        self.is_entered = False
        if not self.task.is_busy:
            end_run(self.task)
            source.free.append(self.task)


def note_run(source):
    """A handler runs: that it ever did is written at once."""
    source.runs += 1
    of = log.process
    if (source, "Y") not in of.told:
        declare_source(source)
        log.put("Y %d %d\n" % (source.number, source.runs))
        of.told[source, "Y"] = True


def task_for(source):
    """A task for a run: one of an earlier run that is over."""
    task = source.free.pop() if source.free else None
    if task is None or task.is_over:
        task = Task(source)
        tasks.enter(task)
        return task
    if task.state != tasks.state:
        recording.enter_state_of(task)
    return task


def end_run(task):
    """What a handler leaves locked is held by what it interrupted, which took it without waiting."""
    if task.pending is not None or task.dropped:
        settle(task)
    left = [(entry, place_of(task, entry)) for entry in task.held]
    for entry, _ in reversed(left):
        give_back(task, entry)
    for entry, place in left:
        hand_over(entry, place, tasks.current())


def hand_over(entry, place, to):
    if to.is_busy or len(to.held) >= MOST_HELD:
        entry.lock.entry = tasks.LEFT_OUT
        log.process.counts["reentered"] += 1
        return
    to.is_busy = True
    try:
        settle(to)
        if to.held:
            tell_all_apart(to.held, to, entry.lock)
        entry.code = 8 * entry.lock.key + TRY
        take_again(to, entry, place)
    except BaseException:
        abandon(to)
        raise
    to.is_busy = False


def operations():
    """How much the main thread's tasks have done, and all those that are written."""
    return log.process.counts["operations"] + sum(task.operations for task in list(log.process.tasks) if task.is_main)


def run_unfollowed(handler, number, frame):
    """Runs a handler for which there was no room, as a part of what it interrupted. It is counted if it takes locks."""
    of, before = log.process, operations()
    try:
        return handler(number, frame)
    finally:
        if of is log.process and operations() != before:
            of.counts["unfollowed-handlers"] += 1


class Handling:
    """What is installed in the place of a program's handler. It has no source if there was no room for one."""

    __slots__ = ("source", "handler")

    def __init__(self, source, handler):
        self.source, self.handler = source, handler

    def __call__(self, number, frame):
        if log.process.is_off or tasks.find_greenlet is not None:  # (a handler may switch to another greenlet)
            return self.handler(number, frame)
        if self.source is None:
            return run_unfollowed(self.handler, number, frame)
        run = Run()
        try:
            run.enter(self.source)
            return self.handler(number, frame)
        finally:
            try:
                run.leave(self.source)
            except BaseException:  # another handler came in and raised an error
                run.leave(self.source)
                raise


# ---- Which handlers may come in.

def state_now():
    """The handlers that may come in at the main thread, which runs this."""
    on = {number: handling.source for number in list(followed) for handling in [real_getsignal(number)]
          if type(handling) is Handling and handling.source is not None}
    blocked = real_mask(_signal.SIG_BLOCK, ()) if on and real_mask is not None else ()
    return frozenset(source for number, source in on.items() if number not in blocked)


def look():
    """Notes which handlers may come in from here on. A handler that comes in meanwhile may change that."""
    new = state_now() if get_ident() == tasks.main_thread else tasks.state
    while new != tasks.state:
        recording.enter_state(new)
        new = state_now()


def state_in_child():
    """The same in a forked process, in which no handler has run yet."""
    for source in sources:
        source.runs = 0
    return state_now()


def run_lines():
    """How often handlers have run."""
    return "".join("Y %d %d\n" % (source.number, source.runs) for source in sources if (source, "Y") in log.process.told)


# ---- In the place of Python's own.

def handling_of(number, handler, frame):
    """What is installed for a handler: itself, unless it is followed."""
    if not callable(handler) or handler is _signal.default_int_handler or not isinstance(number, int) or log.process.is_off \
            or get_ident() != tasks.main_thread:
        return handler
    function = function_of(handler)
    return Handling(source_of(number, handler, function), handler) if is_followed(handler, function, frame) else handler


def own(handling):
    return handling.handler if type(handling) is Handling else handling


def signal(signalnum, handler):
    handling = handling_of(signalnum, handler, getframe(0).f_back)
    try:
        old = real_signal(signalnum, handling)
        if type(handling) is Handling:
            followed.add(int(signalnum))
            if handling.source is not None:
                declare_source(handling.source)
        return own(old)
    finally:
        look()


def getsignal(signalnum):
    return own(real_getsignal(signalnum))


def pthread_sigmask(how, mask):
    try:
        return real_mask(how, mask)
    finally:
        look()


def put_in_place(*functions):
    for function in functions:
        real = getattr(_signal, function.__name__)
        function.__module__, function.__doc__, function.__wrapped__ = real.__module__, real.__doc__, real
        setattr(_signal, function.__name__, function)


def begin():
    """From here on handlers that are set are noted."""
    ends.run_lines, tasks.state_in_child = run_lines, state_in_child
    put_in_place(signal, getsignal)
    if real_mask is not None:
        put_in_place(pthread_sigmask)
