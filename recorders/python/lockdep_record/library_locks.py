"""What is noted of locks that Python's library makes of others: RLocks in Python, semaphores, and the locks of asyncio and of multiprocessing.
They keep their own classes, as `locks` doesn't have it."""
import sys
import threading

from . import log, places, recording, tasks
from .classes import Lock as Record, made_at
from .locks import is_own_use, keep, lock, maker, put_in_place, reentrant_at, wait_for
from .log import TIMED, TRY, WRITE
from .messages import Posts
from .places import getframe
from .recording import failed_try, gave, took
from .waits import begin_pending, break_off, grant, not_granted

of_wait_for = None  # the code of `asyncio.wait_for`, once that is needed
AWAITS = 0x3a0  # the flags of code that is awaited, or waits for others: coroutines and generators of all kinds


# ---- The RLock that is written in Python, which `threading.RLock` makes where `threading._CRLock` is None.

def take_or_wait(record, is_held, acquire, release, blocking, timeout):
    """Takes a lock by its real method in one call, since in each another greenlet may run. `timeout` is -1 if it has none."""
    if not blocking or timeout == 0:
        if acquire(blocking, timeout):
            return keep(record, TRY, release)
        failed_try(record)
        return False
    mode = WRITE if timeout == -1 else TIMED
    if not is_held:
        return acquire(blocking, timeout) and keep(record, mode, release)
    begin_pending(record, False, mode)
    try:
        is_taken = acquire(blocking, timeout)
    except BaseException:
        (break_off if timeout == -1 else not_granted)(record)
        raise
    if not is_taken:
        not_granted(record)
        return is_taken
    return grant(record) or keep(record, mode, release)


def replace_python_rlocks():
    """Notes what is done with RLocks that are written in Python, in their own class. A program may derive others from it."""
    real = threading._PyRLock
    make, real_acquire, real_release = real.__init__, real.acquire, real.release

    def __init__(self):
        make(self)
        frame = maker(getframe(0).f_back)
        if not is_own_use(frame):
            self._lockdep_record = Record(reentrant_at(frame))

    def acquire(self, blocking=True, timeout=-1):
        record = vars(self).get("_lockdep_record")
        if record is None or self._is_owned():
            return real_acquire(self, blocking, timeout)

        def acquire_really(blocking, timeout):
            return real_acquire(self, blocking, timeout)

        def release_really():
            real_release(self)
        return take_or_wait(record, self._block.locked(), acquire_really, release_really, blocking, timeout)

    def release(self):
        record = vars(self).get("_lockdep_record")
        if record is not None and self._count == 1 and self._is_owned():
            gave(record, None)
        real_release(self)

    put_in_place(real, __init__, acquire, release)
    real.__enter__ = acquire
    replace_python_rlocks_own(real)


def replace_python_rlocks_own(real):
    """The same of what only conditions and `os.fork` call."""
    save, restore, reinit = real._release_save, real._acquire_restore, getattr(real, "_at_fork_reinit", None)

    def give(self):
        record = vars(self).get("_lockdep_record")
        if record is not None and record.entry is not None:
            gave(record, None)

    def _release_save(self):
        if self._is_owned():
            give(self)
        return save(self)

    def _at_fork_reinit(self):
        give(self)
        reinit(self)

    def _acquire_restore(self, state):
        record = vars(self).get("_lockdep_record")
        if record is not None and self._block.locked():
            begin_pending(record, False)
        restore(self, state)
        if record is not None and not grant(record):
            took(record, WRITE)

    put_in_place(real, _release_save, _acquire_restore)
    if reinit is not None:
        put_in_place(real, _at_fork_reinit)


# ---- Semaphores of value 1, which are locks. Those of other values stay as they are.

class Taken:
    """Represents a semaphore that somebody holds."""

    @staticmethod
    def locked():
        return True


def replace_semaphores():
    """Notes what is done with semaphores of value 1, in their own classes."""
    real = threading.Semaphore
    make, real_acquire = real.__init__, real.acquire

    def __init__(self, value=1):
        make(self, value)
        if value == 1:
            self._lockdep_record = Record(made_at(getframe(0).f_back, "Semaphore"))
        else:
            self._lockdep_posts = Posts(value)

    def acquire(self, blocking=True, timeout=None):
        record = vars(self).get("_lockdep_record")
        if record is None:
            is_taken = real_acquire(self, blocking, timeout)
            if is_taken and "_lockdep_posts" in vars(self):
                self._lockdep_posts.got(getframe(0).f_back)
            return is_taken

        def acquire_really(blocking, timeout=-1):
            return real_acquire(self, blocking, timeout if timeout != -1 else None)

        if not blocking or (timeout is not None and timeout <= 0):
            if not real_acquire(self, blocking, timeout):
                failed_try(record)
                return False
            return keep(record, TRY, self.release)
        if acquire_really(False):
            return keep(record, WRITE if timeout is None else TIMED, self.release)
        return wait_for(record, acquire_really, self.release, -1 if timeout is None else timeout)

    def noting(real_release):
        def release(self, n=1):
            record = vars(self).get("_lockdep_record")
            if record is not None and n == 1:
                gave(record, Taken if self._value == 0 else None)
            elif "_lockdep_posts" in vars(self):
                self._lockdep_posts.post(n, getframe(0).f_back)
            real_release(self, *([n] if n != 1 else []))  # (Python 3.8 has no number there)
        return release

    put_in_place(real, __init__, acquire)
    real.__enter__ = acquire
    real.release = noting(real.release)
    threading.BoundedSemaphore.release = noting(threading.BoundedSemaphore.release)


# ---- The locks of asyncio.

def find_task_first(loop):
    """The running task, when this is called for the first time: by then all of asyncio is loaded."""
    tasks.find_task = sys.modules["asyncio.tasks"].current_task
    return tasks.find_task(loop)


def replace_asyncio(module):
    """Notes what is done with the locks of `asyncio.locks`, in their own class."""
    tasks.find_task = find_task_first
    recording.are_threads = False
    tasks.find_loop = sys.modules["asyncio.events"]._get_running_loop
    leave_alone(sys.modules.get("asyncio.mixins"), "_global_lock")
    real = module.Lock
    make, real_acquire, real_release = real.__init__, real.acquire, real.release

    def __init__(self, *words, **named):
        make(self, *words, **named)
        self._lockdep_record = Record(made_at(getframe(0).f_back, "asyncio.Lock"))

    async def acquire(self):
        record = self._lockdep_record
        if record is None:  # it is a copy: its class is where it is first taken
            record = self._lockdep_record = Record(made_at(getframe(0).f_back, "asyncio.Lock"))
        mode = TIMED if has_limit(getframe(0)) else WRITE
        if not self._locked and not self._waiters:
            self._locked = True
            took(record, mode)
            return True
        return await wait_in_loop(record, self, real_acquire, mode)

    def release(self):
        record = self._lockdep_record
        if record is not None:
            gave(record, self)
        real_release(self)

    put_in_place(real, __init__, acquire, release)
    replace_asyncio_semaphores(module.Semaphore)


def replace_asyncio_semaphores(real):
    """Notes what is done with semaphores of value 1 of asyncio, and with those of its bounded ones, which are derived from them."""
    make, real_acquire, real_release = real.__init__, real.acquire, real.release

    def __init__(self, value=1, *words, **named):
        make(self, value, *words, **named)
        if value == 1:
            self._lockdep_record = Record(made_at(getframe(0).f_back, "asyncio.Semaphore"))

    async def acquire(self):
        record = vars(self).get("_lockdep_record")
        if record is None:
            return await real_acquire(self)
        mode = TIMED if has_limit(getframe(0)) else WRITE
        if not self.locked() and not getattr(self, "_wakeup_scheduled", False):  # (as in Python 3.10)
            self._value -= 1
            took(record, mode)
            return True
        return await wait_in_loop(record, self, real_acquire, mode)

    def release(self):
        record = vars(self).get("_lockdep_record")
        if record is not None:
            gave(record, self)
        real_release(self)

    put_in_place(real, __init__, acquire, release)


async def wait_in_loop(record, real, real_acquire, mode):
    """Waits for a lock of asyncio that isn't free, in its `acquire`."""
    begin_pending(record, False, mode)
    try:
        is_taken = await real_acquire(real)
    except GeneratorExit:  # it is not the task itself that runs this: its end says what it waited for
        raise
    except BaseException:
        (break_off if mode == WRITE else not_granted)(record)
        raise
    if not grant(record):
        took(record, mode)
    return is_taken


def has_limit(frame):
    """Whether it is `asyncio.wait_for` that awaits the coroutine of this frame, and for a time: that is an acquisition with a timeout."""
    global of_wait_for
    of_wait_for = of_wait_for or sys.modules["asyncio.tasks"].wait_for.__code__
    above = frame.f_back
    if above is not None and above.f_code is of_wait_for:
        return above.f_locals.get("timeout") is not None
    if above is not None and above.f_code.co_flags & AWAITS:  # it isn't the task itself that runs this
        return False
    loop = tasks.find_loop()
    running = tasks.find_task(loop) if loop is not None else None
    return running is not None and getattr(running.get_coro(), "cr_frame", None) is frame and tasks.caller_of(running) is not None


def leave_alone(module, name):
    """Puts the real lock back into a module, as one that is taken between the beginning of a wait and the wait itself."""
    own = getattr(module, name, None)
    if type(own) is lock:
        setattr(module, name, own._lockdep_inner)


# ---- The locks of multiprocessing, which are only counted.

def count_multiprocessing(module):
    """Counts the locks that the program itself makes of `multiprocessing.synchronize`. Processes share them, and one may give back
    what another took, so what is done with them isn't recorded."""
    real = module.SemLock
    make = real.__init__
    inner = {each.__init__.__code__ for each in (module.Event, module.Barrier)}

    def __init__(self, kind, value, *words, **named):
        make(self, kind, value, *words, **named)
        if value == 1 and is_made_by_program(getframe(0).f_back, inner):
            log.process.counts["multiprocessing"] += 1
            log.put(log.count_lines())

    put_in_place(real, __init__)


def is_made_by_program(frame, inner):
    """Whether `multiprocessing` makes a lock here because the program asks for one, and not as a part of something else."""
    while frame is not None and frame.f_globals.get("__name__") in ("multiprocessing.synchronize", "multiprocessing.context"):
        if frame.f_code in inner:
            return False
        frame = frame.f_back
    return frame is not None and places.kind_of(frame.f_code.co_filename) == places.PLAIN
