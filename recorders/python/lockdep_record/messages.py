"""What threads tell each other by the classes of `threading` and by pools: who is woken, let through, or gets something to do. Each is a message in the
order of steps (`steps`). A condition's waiter gets that of who releases it."""
import sys
import threading
from collections import deque

from . import locks
from .places import getframe
from .steps import File, get, give

of_wait, of_event, of_start = threading.Condition.wait.__code__, threading.Event.wait.__code__, threading.Thread.start.__code__


class Waiter:
    """What one wait for a condition waits by: a lock that is taken twice, and released in between by who notifies it."""

    __slots__ = ("_lock", "_message")

    def __init__(self):
        self._lock, self._message = locks.allocate(), 0

    def acquire(self, blocking=True, timeout=-1):
        is_taken = self._lock.acquire(blocking, timeout)
        if is_taken:
            get(self._message, getframe(0).f_back)
        return is_taken

    def release(self):
        self._message = give(getframe(0).f_back)
        self._lock.release()


def allocate_lock():
    """In the place of what `threading` makes its own locks by. That a thread has begun is none of the program's messages."""
    frame = getframe(0).f_back
    if frame.f_code is not of_wait or File.room <= 0:
        return locks.allocate()
    above = frame.f_back
    while above is not None and above.f_code in (of_event, own_wait):
        above = above.f_back
    return locks.allocate() if above is not None and above.f_code is of_start else Waiter()


own_wait = None  # the code of what is in the place of `Event.wait`


def replace_events():
    global own_wait
    real = threading.Event
    real_set, real_wait = real.set, real.wait

    def set(self):
        """What is set already stays so: who waits for it goes on by whoever set it first."""
        if not self.is_set() and getframe(0).f_back.f_code.co_filename != threading.__file__:
            vars(self)["_lockdep_message"] = give(getframe(0).f_back)
        real_set(self)

    def wait(self, timeout=None):
        is_set = real_wait(self, timeout)
        if is_set:
            get(vars(self).get("_lockdep_message", 0), getframe(0).f_back)
        return is_set

    own_wait = wait.__code__
    locks.put_in_place(real, set, wait)


def replace_barriers():
    """Who comes last gets the messages of all others, before it wakes them."""
    real = threading.Barrier
    real_wait, real_release = real.wait, real._release

    def wait(self, timeout=None):
        vars(self).setdefault("_lockdep_arrived", deque()).append(give(getframe(0).f_back))
        return real_wait(self, timeout)

    def _release(self):
        arrived = vars(self).get("_lockdep_arrived", ())
        while arrived:
            get(arrived.popleft(), getframe(0).f_back)
        real_release(self)

    locks.put_in_place(real, wait, _release)


class Posts:
    """The posts of a semaphore that nobody has got yet. So many waits as its value was at first get nothing, and then each gets the next one."""

    __slots__ = ("value", "messages")

    def __init__(self, value):
        self.value, self.messages = value, deque()

    def post(self, number, frame):
        for _ in range(number if File.room > 0 else 0):
            self.messages.append(give(frame))

    def got(self, frame):
        if self.value > 0:
            self.value -= 1
        elif self.messages:
            get(self.messages.popleft(), frame)


def replace_work(module):
    """What a pool's thread does comes after who asked for it."""
    real = module._WorkItem
    make, real_run = real.__init__, real.run

    def __init__(self, *words, **named):
        make(self, *words, **named)
        self._lockdep_message = give(getframe(0).f_back)

    def run(self, *words):
        get(self._lockdep_message, getframe(0).f_back)
        return real_run(self, *words)

    locks.put_in_place(real, __init__, run)


def replace_futures(module):
    """Who asks for what a future has comes after who has put it there."""
    real = module.Future
    real_results, real_exceptions = (real.set_result, real.result), (real.set_exception, real.exception)

    def put(self, real_put, value, frame):
        self._lockdep_message = give(frame)
        real_put(self, value)

    def look(self, real_look, timeout, frame):
        try:
            return real_look(self, timeout)
        finally:
            if self.done():
                get(vars(self).get("_lockdep_message", 0), frame)

    def set_result(self, result):
        put(self, real_results[0], result, getframe(0).f_back)

    def set_exception(self, exception):
        put(self, real_exceptions[0], exception, getframe(0).f_back)

    def result(self, timeout=None):
        return look(self, real_results[1], timeout, getframe(0).f_back)

    def exception(self, timeout=None):
        return look(self, real_exceptions[1], timeout, getframe(0).f_back)

    locks.put_in_place(real, set_result, set_exception, result, exception)


def begin():
    threading._allocate_lock = allocate_lock
    replace_events()
    replace_barriers()
