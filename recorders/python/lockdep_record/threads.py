"""Threads that are waited for. A thread is a lock that it holds from its start to its end, and that whoever joins it
takes and gives back at once. `joins` puts into the traces what of this can matter."""
import functools
import threading
from _thread import get_ident
from types import FunctionType, MethodType

from . import classes, log, places, recording, steps, tasks
from .classes import Lock as Record, Made, class_in, key_of, name_of, name_of_module
from .locks import PATIENCE, put_in_place
from .log import STARTED, TIMED, WRITE
from .places import chain_of, getframe, visible
from .recording import gave, took
from .waits import begin_pending, break_off, grant, not_granted

PREFIX = "thread:"  # before what a thread is known by
WHOLE = -1  # in the place of an instruction: a function itself


class Life:
    """What is known of a thread: the class of what it runs, the message that it is started by, its task once it has taken a lock, the lock that it is, once
    that can matter, and who has waited for its end last."""

    __slots__ = ("made", "message", "process", "task", "record", "is_told", "joiner")

    def __init__(self, made, message):
        self.message, self.made, self.process, self.task, self.record, self.is_told, self.joiner = message, made, log.process, None, None, False, None


unused = {}  # of classes: the lock of a thread that took none after all


def function_of(thread):
    """The function in Python that a thread is about to run; None if it runs something else."""
    is_given = type(thread).run is threading.Thread.run
    function = vars(thread).get("_target") if is_given else type(thread).run
    while isinstance(function, functools.partial):
        function = function.func
    if type(function) is MethodType:
        function = function.__func__
    # (an object may claim to have anything, as one of `unittest.mock`)
    return function if type(function) is FunctionType else None


def is_of_program(function):
    name = function.__code__.co_filename
    return (places.kinds[name] if name in places.kinds else places.kind_of(name)) == places.PLAIN


def class_of(thread, frame):
    """The class of a thread that is started in this frame: the function that it runs, and, if that isn't the program's,
    where it is started."""
    function = function_of(thread)
    chain = ((function.__code__, WHOLE),) if function is not None else ()
    place = () if function is not None and is_of_program(function) else chain_of(frame)[-1:]
    key = (PREFIX,) + key_of(chain + place)
    made = classes.classes.get(key)
    if made is None:
        name = PREFIX + name_of_thread(function, frame, place)
        made = class_in(key, lambda number: Made(number, name, chain + place, STARTED))
    return made


def name_of_thread(function, frame, place):
    """The name of a thread: its function with the module, or, if it is given, with the place where it is started."""
    names = [name_of(frame, place)] if place else [name_of_module(function.__globals__, function.__code__)]
    if function is not None:
        name = visible(function.__qualname__.replace("<locals>.", ""))
        names = [name] + names if place else names + [name]
    return ("~" if place else ".").join(names)


def note_start(thread, frame):
    """A thread is about to be started."""
    if not log.process.is_off:
        vars(thread)["_lockdep_life"] = Life(class_of(thread, frame), steps.give(frame))


def life_of(thread):
    """What is known of a thread that was started in this process."""
    life = vars(thread).get("_lockdep_life")
    return life if life is not None and life.process is log.process else None


def begin_task(task):
    """The running thread begins to be a task."""
    thread = threading._active.get(get_ident())
    life = life_of(thread) if thread is not None else None
    if life is not None:
        if life.task is None and task.is_ordered:
            steps.note(task, steps.BEGINS, life.message)
        life.task, task.life = task, life


def record_of(life):
    """The lock that a thread is, of which its own trace is told too."""
    if life.record is None:
        life.record = unused.pop(life.made, None) or Record(life.made)
    tell(life)
    return life.record


def tell(life):
    """Writes which lock a thread is, once both its task and its lock have a number."""
    if life.record is not None and not life.is_told and life.task is not None and life.task.number:
        life.is_told = True
        log.declare(8 * life.record.key)
        log.put("T %d %d\n" % (life.task.number, life.record.key))


def matters():
    """Whether it can matter that the running task waits for a thread: it holds something, or is a thread that may be
    joined itself. Of greenlets it isn't known whether they are threads."""
    if tasks.find_greenlet is not None or log.process.is_off:
        return False
    task = getattr(log.here, "task", None) if recording.are_threads else tasks.current()
    if task is not None and task.held:
        return True
    thread = threading._active.get(get_ident())
    return thread is not None and life_of(thread) is not None


def pass_end(life, mode):
    """A thread has ended, which took locks: it is taken and given back. That isn't among the program's operations."""
    task = tasks.current()
    took(record_of(life), mode)
    gave(life.record, None)
    task.operations -= 2


def join_long(thread, life, real_join, timeout):
    """Waits for a thread that goes on, by its real method: that is noted before. Without a timeout it is -1."""
    mode = WRITE if timeout < 0 else TIMED
    begin_pending(record_of(life), mode=mode)
    try:
        real_join(thread, None if timeout < 0 else timeout)
    except BaseException:
        (break_off if timeout < 0 else not_granted)(life.record)
        raise
    if thread.is_alive() or life.task is None:
        not_granted(life.record)
    elif grant(life.record):
        gave(life.record, None)
        tasks.current().operations -= 2
    else:
        pass_end(life, mode)
    if life.task is None:
        unused[life.made], life.record = life.record, None


def replace_threads():
    """Notes in their class when threads are started and joined."""
    real = threading.Thread
    real_start, real_join = real.start, real.join

    def start(self):
        note_start(self, getframe(0).f_back)
        real_start(self)

    def join(self, timeout=None):
        life, joiner = life_of(self), threading._active.get(get_ident())
        if life is None or not matters() or (life.joiner is joiner and joiner is not None):
            real_join(self, timeout)
        else:
            join_recorded(self, life, timeout)
        if life is not None and not self.is_alive():
            if life.joiner is not joiner or joiner is None:
                steps.note_join(life.task, WRITE if timeout is None else TIMED, getframe(0).f_back)
            life.joiner = joiner  # who never waits for this thread again

    def join_recorded(self, life, timeout):
        is_long = timeout is None or isinstance(timeout, (int, float)) and timeout > PATIENCE
        mode = TIMED if timeout is not None else WRITE
        real_join(self, PATIENCE if is_long else timeout)
        if self.is_alive():
            return join_long(self, life, real_join, -1 if timeout is None else timeout - PATIENCE) if is_long else None
        if life.task is not None:
            pass_end(life, mode)
        return None

    put_in_place(real, start, join)
    tasks.begin_task, log.tell_life = begin_task, tell
