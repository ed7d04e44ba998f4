"""Greenlets, each of which is a task, and the locks of gevent and of eventlet that take the place of `threading`'s. Of the others that
these packages have, some are written in C and none is looked at, so that the package is loaded is counted."""
import os
import sys

from . import library_locks, locks, log, places, recording
from .classes import Lock as Record, made_at
from .places import getframe
from .recording import gave


def count_package(name):
    """What is done when a package is loaded that has locks which aren't looked at."""
    def count(module):
        log.process.counts[name] += 1
        log.put(log.count_lines())
    return count


def replace_gevent(module):
    """Notes what is done with the lock of `gevent.thread`, in its own class."""
    replace_lock(module.LockType, os.path.dirname(module.__file__))


def replace_eventlet(module):
    """Notes what is done with the lock of `eventlet.lock`, in its own class, whose `__enter__` is that of a semaphore."""
    places.pass_over(sys.modules[module.Lock.__base__.__module__].__file__)
    replace_lock(module.Lock, os.path.dirname(module.__file__))


def asked_by(frame, folder):
    """The frame that asked for a lock, which isn't that of a function `allocate_lock` of the package's."""
    while frame is not None and frame.f_code.co_name == "allocate_lock" and frame.f_code.co_filename.startswith(folder + os.sep):
        frame = frame.f_back
    return frame


def is_made_by_package(frame, folder):
    """Whether a lock is made here for `threading` or for the package itself."""
    return locks.is_own_use(frame) or (frame is not None and frame.f_code.co_filename.startswith(folder + os.sep))


def replace_lock(real, folder):
    """Notes what is done with the locks of a package in this folder."""
    make, real_acquire, real_release = real.__init__, real.acquire, real.release

    def __init__(self, *words, **named):
        make(self, *words, **named)
        frame = asked_by(getframe(0).f_back, folder)
        if not is_made_by_package(frame, folder):
            self._lockdep_record = Record(made_at(frame, "Lock"))

    def acquire(self, blocking=True, timeout=None):
        timeout = -1 if timeout is None else timeout
        record = vars(self).get("_lockdep_record")
        if record is None:
            return real_acquire(self, blocking, timeout)

        def acquire_really(blocking, timeout):
            return real_acquire(self, blocking, timeout)

        def release_really():
            real_release(self)
        return library_locks.take_or_wait(record, self.locked(), acquire_really, release_really, blocking, timeout)

    def release(self, *words, **named):
        record = vars(self).get("_lockdep_record")
        if record is not None:
            gave(record, self)
        return real_release(self, *words, **named)

    locks.put_in_place(real, __init__, acquire, release)
    replace_reinit(real)


def replace_reinit(real):
    """The same of what is only called in a forked process."""
    reinit = getattr(real, "_at_fork_reinit", None)
    if reinit is None:
        return

    def _at_fork_reinit(self):
        record = vars(self).get("_lockdep_record")
        if record is not None and record.entry is not None:
            gave(record, None)
        reinit(self)

    locks.put_in_place(real, _at_fork_reinit)


def if_it_can(replace):
    """Does something with a module unless that isn't what it seems to be: a program may have a module of any name."""
    def tries(module):
        try:
            replace(module)
        except (AttributeError, KeyError, TypeError):
            pass
    return tries


AWAITED = {"greenlet": if_it_can(recording.note_greenlets), "gevent": count_package("gevent"), "eventlet": count_package("eventlet"),
           "gevent.thread": if_it_can(replace_gevent), "eventlet.lock": if_it_can(replace_eventlet)}
