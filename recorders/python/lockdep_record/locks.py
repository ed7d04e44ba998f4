"""Replacements for a program's locks: each does what the real one does, and reports it to `recording`.

What is here looks like the real thing to a program: names, texts, errors. Locks that only serve inside `threading` and the import
system, such as those of an Event, stay as they are."""
import _thread
import threading
from importlib import _bootstrap

from .classes import Lock as Record, made_at
from .log import TIMED, TRY, WRITE
from .places import getframe
from .recording import failed_try, gave, took, undo
from .waits import begin_pending, break_off, grant, not_granted

# How long a thread waits for a lock before that is written, in seconds. In a deadlock it waits longer.
PATIENCE = 0.05

allocate, RealRLock, RealLock = _thread.allocate_lock, _thread.RLock, _thread.LockType
of_imports = vars(_bootstrap)
of_condition, of_rlock = threading.Condition.__init__.__code__, threading.RLock.__code__


def keep(record, mode, release):
    """A lock was taken: if that can't be noted, for example since a signal handler raised an error, it is released."""
    try:
        took(record, mode)
    except BaseException:
        take_back(record, release)
        raise
    return True


def take_back(record, release):
    """Releases a lock that was just taken, since an error of a signal's handler came in, perhaps after that was noted."""
    try:
        undo(record)
    finally:
        release()


def take(record, inner, blocking, timeout):
    """Takes a lock, with or without waiting for it. Errors in its arguments are raised by the real method."""
    if not blocking or not isinstance(timeout, (int, float)) or not (timeout == -1 or 0 < timeout <= _thread.TIMEOUT_MAX):
        if inner.acquire(blocking, timeout):
            return keep(record, TRY, inner.release)
        failed_try(record)
        return False
    if inner.acquire(False):
        return keep(record, WRITE if timeout == -1 else TIMED, inner.release)
    return wait_for(record, inner.acquire, inner.release, timeout)


def wait_for(record, acquire, release, timeout):
    """Waits for a lock that isn't free, by its real method."""
    if timeout < 0:
        return wait_without_end(record, acquire, release)
    if acquire(True, min(PATIENCE, timeout)):
        return keep(record, TIMED, release)
    if timeout <= PATIENCE:
        return False
    begin_pending(record, mode=TIMED)
    is_taken = False
    try:
        is_taken = acquire(True, timeout - PATIENCE)
    finally:
        if not is_taken:
            not_granted(record)
    if not is_taken or grant(record):
        return is_taken
    return keep(record, TIMED, release)


def wait_without_end(record, acquire, release):
    """Waits for a lock for as long as it takes, or till an error of a signal's handler ends that."""
    try:
        is_taken = acquire(True, PATIENCE)
        if not is_taken:
            begin_pending(record)
            acquire(True, -1)
    except BaseException:
        break_off(record)
        raise
    if not is_taken and grant(record):
        return True
    return keep(record, WRITE, release)


def is_code(code, other):
    """Whether two codes are the same, perhaps in two copies of a module. (To compare a code with itself takes longer than to make a lock.)"""
    return code is other or code == other


def maker(frame):
    """The frame that a lock is made in: not that of `threading.RLock`, which only passes on what it is asked for."""
    return frame.f_back if frame is not None and is_code(frame.f_code, of_rlock) else frame


def reentrant_at(frame):
    """The class of an RLock that is made in this frame."""
    made = made_at(frame, "RLock")
    made.is_reentrant = True
    return made


def is_own_use(frame):
    """Whether a lock is made here for `threading` itself, of which a program may load another copy, or for the import system."""
    if frame is None:
        return False
    code = frame.f_code
    return frame.f_globals is of_imports or (code.co_filename == of_condition.co_filename and not is_code(code, of_condition))


class Replaced:
    """What the locks of threads have in common: the real one, and what is known about it."""

    __slots__ = ("_lockdep_inner", "_lockdep_record", "__weakref__")  # (a class of the program's may have any other names)

    def __repr__(self):
        inner = self._lockdep_inner
        text = repr(inner).replace(hex(id(inner)), hex(id(self)))
        return text if type(self) in (lock, RLock) else text.replace("_thread.RLock", type(self).__name__, 1)

    def __reduce_ex__(self, protocol):
        raise TypeError("cannot pickle %r object" % ("_thread." + type(self).__name__))

    def __getattr__(self, name):
        return getattr(self._lockdep_inner, name)


class Kind(type):
    """Locks of the real type, as those inside `threading`, are of this one's too, as a program sees it."""

    def __instancecheck__(cls, instance):
        return type.__instancecheck__(cls, instance) or type(instance) is RealLock


class lock(Replaced, metaclass=Kind):
    """In place of `threading.Lock`, and of `_thread.LockType`."""

    __slots__ = ()

    def __new__(cls):
        frame = getframe(0).f_back
        inner = allocate()
        if is_own_use(frame):
            return inner
        self = object.__new__(cls)
        self._lockdep_inner, self._lockdep_record = inner, Record(made_at(frame, "Lock"))
        return self

    def acquire(self, blocking=True, timeout=-1):
        if blocking is not True and blocking is not False:
            allocate().acquire(blocking)  # (which raises the error, if it isn't taken for true or false)
        inner = self._lockdep_inner
        if timeout == -1 and inner.acquire(False):
            try:
                took(self._lockdep_record, WRITE if blocking else TRY)
            except BaseException:
                take_back(self._lockdep_record, inner.release)
                raise
            return True
        return take(self._lockdep_record, inner, blocking, timeout)

    def __enter__(self, *words, **named):  # (the real one takes what `acquire` takes)
        if words or named:
            return self.acquire(*words, **named)
        inner = self._lockdep_inner
        if inner.acquire(False):
            try:
                took(self._lockdep_record, WRITE)
            except BaseException:
                take_back(self._lockdep_record, inner.release)
                raise
            return True
        return wait_for(self._lockdep_record, inner.acquire, inner.release, -1)

    def release(self):
        inner = self._lockdep_inner
        try:
            gave(self._lockdep_record, inner)
        finally:
            inner.release()

    def __exit__(self, *words):  # (as with the real one, none is needed)
        inner = self._lockdep_inner
        try:
            gave(self._lockdep_record, inner)
        finally:
            inner.release()

    acquire_lock, release_lock = acquire, release

    def locked(self):
        return self._lockdep_inner.locked()

    locked_lock = locked

    def _is_owned(self):
        return self._lockdep_inner.locked()

    def _at_fork_reinit(self):
        if self._lockdep_record.entry is not None:
            gave(self._lockdep_record, None)
        self._lockdep_inner._at_fork_reinit()


class RLock(Replaced):
    """Replaces `threading.RLock`: what its holder takes again is one acquisition."""

    __slots__ = ("_lockdep_levels",)

    def __new__(cls, *words, **named):
        frame = maker(getframe(0).f_back)
        inner = RealRLock()
        if is_own_use(frame):
            return inner
        self = object.__new__(cls)
        self._lockdep_inner, self._lockdep_record, self._lockdep_levels = inner, Record(reentrant_at(frame)), 0
        return self

    def acquire(self, blocking=True, timeout=-1):
        if blocking is not True and blocking is not False:
            RealRLock().acquire(blocking)
        inner = self._lockdep_inner
        if timeout == -1 and inner.acquire(False):
            levels = self._lockdep_levels = self._lockdep_levels + 1
            if levels == 1:
                try:
                    took(self._lockdep_record, WRITE if blocking else TRY)
                except BaseException:
                    self._lockdep_levels = 0
                    take_back(self._lockdep_record, inner.release)
                    raise
            return True
        if inner._is_owned():
            is_taken = inner.acquire(blocking, timeout)
            self._lockdep_levels += is_taken
            return is_taken
        is_taken = take(self._lockdep_record, inner, blocking, timeout)
        if is_taken:
            self._lockdep_levels = 1
        return is_taken

    __enter__ = acquire

    def release(self):
        try:
            if self._lockdep_levels == 1 and self._lockdep_inner._is_owned():
                self._give_last()
            elif self._lockdep_inner._is_owned():
                self._lockdep_levels -= 1
        finally:
            self._lockdep_inner.release()

    def __exit__(self, *words):
        try:
            if self._lockdep_levels == 1 and self._lockdep_inner._is_owned():
                self._give_last()
            elif self._lockdep_inner._is_owned():
                self._lockdep_levels -= 1
        finally:
            self._lockdep_inner.release()

    def _give_last(self):
        """Its holder gives it back. Meanwhile a handler takes it again, as one that is held."""
        try:
            gave(self._lockdep_record, None)
        finally:
            self._lockdep_levels = 0

    def _is_owned(self):
        return self._lockdep_inner._is_owned()

    def _recursion_count(self):
        return self._lockdep_inner._recursion_count()

    def locked(self):
        return self._lockdep_inner.locked()

    def _release_save(self):
        levels = self._lockdep_levels
        if self._lockdep_inner._is_owned():
            self._give_last()
        return levels, self._lockdep_inner._release_save()

    def _acquire_restore(self, state):
        levels, real = state
        inner = self._lockdep_inner
        is_granted = False
        if inner.acquire(False):
            for _ in range(levels - 1):
                inner.acquire()
        else:
            begin_pending(self._lockdep_record, False)
            inner._acquire_restore(real)
            is_granted = grant(self._lockdep_record)
        self._lockdep_levels = levels
        if not is_granted:
            took(self._lockdep_record, WRITE)

    def _at_fork_reinit(self):
        if self._lockdep_record.entry is not None:
            gave(self._lockdep_record, None)
        self._lockdep_levels = 0
        self._lockdep_inner._at_fork_reinit()


def put_in_place(real, *functions):
    """Puts functions into a class, under the names of the ones that they replace."""
    for own in functions:
        own.__qualname__ = real.__name__ + "." + own.__name__
        own.__doc__ = getattr(real, own.__name__).__doc__
        setattr(real, own.__name__, own)
