"""Holds the threads of a program back where a deadlock that was found as possible can happen, for `lockdep provoke`.

In such a run nothing is recorded: the locks of `locks` call the functions of this module in place of those of `recording`. Before a thread
waits for the second lock of an order that was found, with the first one held, it stands still until threads stand at the other orders of
a cycle, or for a pause; then it goes on.

What threads hold while they stand or wait is in a file, `provoke_file`, by which `lockdep provoke` knows that the program stands still."""
import _signal
import atexit
import functools
import operator
import os
import re
import sys
import threading
from _thread import get_ident, get_native_id
from itertools import count as counting_from
from time import monotonic, sleep

from . import beginning, ends, library_locks, locks, places, provoke_file
from .log import STARTED, TIMED, WRITE
from .places import getframe
from .provoke_file import (ASIDE, CALLERS_OF_HELD, HELD, MOST_CALLERS, MOST_HELD, MOST_PAUSES, NOBODY, THREAD, count, free_place,
                           number_of, pauses_before, put_thread, put_timer)
from .provoke_plan import first_pauses, innermost, place_of, read_plan, stack_of
from .threads import class_of

MOST_CHANGES = 0xffffffff
RUNS, STANDS, WAITS = 0, 1, 2
BY_HOLDER, BY_ANYBODY, BY_OTHERS = 1, 2, 3  # who may release a lock
IN_JOIN, WITHOUT_HANDLERS = 3, 0x20  # what a thread waits in, and whether no handler of a signal can end that

# The same limits as in provoke/threads.c: milliseconds of all pauses of a process, and the pauses of one length at an order.
MOST_PAUSED = 10000
PAUSES_OF_ONE_LENGTH = 10
LOOK = 0.001  # seconds from one look to the next, of a thread that stands

first_pause = 0  # milliseconds
paused = 0  # milliseconds of all pauses
threads = set()  # those of this process that took a lock
here = threading.local()
lock_numbers, BITS_OF_CLASS = counting_from(1), 28
PLAIN_NAME = re.compile("[!#-+./-?A-~-]{1,53}")  # of a class, which is neither changed nor cut in a trace


# ---- Locks and threads.

class Lock:
    """What is known about a lock: its class, the orders whose first lock it was, wherever it was taken, who holds it, its number in the file, and who
    may release it."""

    __slots__ = ("made", "orders", "entry", "number", "releasing")

    def __init__(self, made):
        self.made, self.orders, self.entry, self.number, self.releasing = made, 0, None, next(lock_numbers), BY_OTHERS

    def numbered(self):
        """A number of its own, before the place of its class's name if a recording has that just so."""
        name = self.made.name
        return self.number << BITS_OF_CLASS | (number_of(name) if PLAIN_NAME.fullmatch(name) else 0)

    @property
    def is_life(self):
        """Whether it is a thread, which it holds itself."""
        return self.made.kind is STARTED

    def __reduce__(self):
        """In a copy of what has it this is None."""
        return type(None), ()


class Held:
    """A lock that a thread holds, and where it took it."""

    __slots__ = ("lock", "thread", "stack")

    def __init__(self, lock, thread, stack):
        self.lock, self.thread, self.stack = lock, thread, stack

    def packed(self):
        return HELD.pack(self.lock.numbered(), 0, self.lock.releasing, 0, len(self.stack), self.lock.orders, *numbers_of(self.stack, CALLERS_OF_HELD))


def numbers_of(stack, most):
    """The callers of a stack as the file has them."""
    found = [number_of(place_of(caller).text) for caller in stack]
    return found + [0] * (most - len(found))


class Thread:
    """A thread of this process: what it holds, and where it stands or waits. `place` is where it is in the file, and `is_busy` says that
    it is being considered, so that a handler of a signal's isn't."""

    __slots__ = ("process", "number", "place", "name", "held", "state", "order", "awaited", "stack", "goes", "changes", "is_busy")

    def __init__(self):
        self.held, self.state, self.order, self.awaited, self.stack = [], RUNS, 0, None, []
        self.goes, self.changes, self.name, self.is_busy = False, 0, 0, False
        self.take_place()

    def take_place(self):
        """Makes room for it in the file."""
        self.process, self.number = os.getpid(), get_native_id()
        self.place = free_place(self.process, self.number)
        if self.place is not None:
            threads.add(self)

    def packed(self):
        held, awaited = self.held[:MOST_HELD], self.awaited.numbered()
        return THREAD.pack(self.process, self.number, self.changes, self.state, self.order, 0, awaited, len(self.stack), len(held),
                           *numbers_of(self.stack, MOST_CALLERS), self.goes, self.name, 0, self.waits_in(), 0) + b"".join([each.packed() for each in held])

    def waits_in(self):
        """What it waits in. Handlers of signals run in the main thread alone, whose number is its process's."""
        return (IN_JOIN if self.awaited.is_life else 0) | (WITHOUT_HANDLERS if self.number != self.process else 0)

    def begin(self, state, lock, stack):
        """It stands or waits from here on."""
        self.awaited, self.stack, self.state = lock, stack, state
        known = threading._active.get(get_ident())
        self.name = number_of(places.visible(known.name)) if known is not None else 0
        self.write()

    def end(self):
        """It runs from here on."""
        if self.state != RUNS:
            self.state = RUNS
            self.write()

    def write(self):
        """Writes what the file has of this thread. A signal's handler, or another thread, may change it meanwhile."""
        changes = None
        while changes != self.changes:
            changes = self.changes = self.changes + 1 & MOST_CHANGES
            put_thread(self.place, self.packed())

    def leave(self):
        """It has ended. (In a process that was forked, so do those that weren't.)"""
        threads.discard(self)
        if self.process == os.getpid() and self.place is not None:
            put_thread(self.place, NOBODY)


class Guard:
    """Ends what is known of a thread when that is gone."""

    __slots__ = ("thread",)

    def __init__(self, thread):
        self.thread = thread

    def __del__(self):
        try:
            self.thread.leave()
        except Exception:  # as at the interpreter's end, when half of it is gone
            pass


def running():
    """The running thread; None if there is no room for it in the file."""
    try:
        return here.thread
    except AttributeError:
        here.thread = None  # for what a handler of a signal does meanwhile
        thread = Thread()
        if thread.place is not None:
            here.guard, here.thread = Guard(thread), thread
            life = life_of(threading._active.get(get_ident()))
            thread.held += [Held(life, thread, list(life.made.chain))] if life is not None else []
        return here.thread


def begin_in_child():
    """In a forked process the one thread holds what it held, and has room of its own in the file."""
    global paused
    paused = 0
    provoke_file.begin_in_child()
    threads.clear()
    thread = getattr(here, "thread", None)
    if thread is not None:
        thread.state, thread.order, thread.goes = RUNS, 0, False
        thread.take_place()
        here.thread = thread if thread.place is not None else None


# ---- What the locks call.

def took(lock, mode):
    """The running thread has taken a lock."""
    thread = running()
    if thread is None or len(thread.held) >= MOST_HELD:
        return
    thread.end()
    thread.order = 0
    stack = stack_of(getframe(1), CALLERS_OF_HELD)
    lock.orders |= place_of(stack[0]).holds if stack else 0
    lock.entry = Held(lock, thread, stack)
    try:
        thread.held.append(lock.entry)
    except BaseException:  # of a signal's handler, after which the lock is released
        gave(lock, None)
        raise


def gave(lock, real):
    """The running thread is about to release a lock, which another one may have taken."""
    entry, lock.entry = lock.entry, None
    if entry is not None and entry in entry.thread.held:
        entry.thread.held.remove(entry)
        if entry.thread.state != RUNS:
            entry.thread.write()


def begin_pending(lock, is_long=True, mode=WRITE):
    """The running thread waits for a lock. One that gives up at a time is in no cycle."""
    thread = running()
    if thread is not None and mode != TIMED:
        put_timer(*_signal.getitimer(_signal.ITIMER_REAL))
        thread.begin(WAITS, lock, stack_of(getframe(1), MOST_CALLERS))


def grant(lock):
    """It has got that. The result says that `took` has to be called."""
    not_granted(lock)
    return False


def not_granted(lock):
    """It hasn't got that."""
    thread = running()
    if thread is not None:
        thread.end()
        thread.order, thread.goes = 0, False


def failed_try(lock):
    """A try has failed."""


REPLACING = {"Record": Lock, "took": took, "gave": gave, "begin_pending": begin_pending, "grant": grant, "not_granted": not_granted,
             "break_off": not_granted, "failed_try": failed_try}


# ---- Standing.

def leads_back(lock, thread, seen):
    """Whether who asks for this lock waits, over others that stand or wait, for this thread. Those that stand are let go."""
    if any(held.lock is lock for held in thread.held):
        return True
    for other in list(threads):
        if other in seen or other is thread or other.state == RUNS or not any(held.lock is lock for held in other.held):
            continue
        seen.add(other)
        if leads_back(other.awaited, thread, seen):
            other.goes = True
            return True
    return False


def orders_in(bits):
    """The orders that bits stand for, from 0 on."""
    return [order for order in range(bits.bit_length()) if bits >> order & 1]


def consider(lock, frame):
    """Called where a lock is asked for without a limit of time. Where that is the second one of an order, and the thread holds another, it
    stands here until it is in a cycle, or for a pause."""
    wants = innermost(frame).wants
    thread = running() if wants else None
    if thread is not None and not any(held.lock is lock for held in thread.held):
        busily(thread, lambda: hold(thread, lock, wants, frame))


def busily(thread, do):
    """Does something, unless that is what the thread does already, which a signal's handler has interrupted then."""
    if thread is None or thread.is_busy:
        return
    thread.is_busy = True
    try:
        do()
    finally:
        thread.is_busy = False


def hold(thread, lock, wants, frame):
    """Holds a thread back that asks for the second lock of these orders, if it holds the first one, or perhaps does."""
    under = orders_in(functools.reduce(operator.or_, [held.lock.orders for held in thread.held], 0) & wants)
    count(orders_in(wants), under)
    if not under and all(held.lock.is_life for held in thread.held) or is_in_handler(frame):
        return
    orders = under or orders_in(wants)
    order = orders[0]
    thread.order, thread.goes = order + 1 if under else 0, False
    before = pauses_before(order) if paused < MOST_PAUSED else MOST_PAUSES
    if before < MOST_PAUSES:
        first = first_pauses.get(order) if before < len(orders) else None  # (of several orders of one place so many are)
        stand(thread, lock, stack_of(frame, MOST_CALLERS), first or first_pause >> before // PAUSES_OF_ONE_LENGTH)


def stand(thread, lock, stack, length):
    """Holds this thread back until it is let go, or for so many milliseconds."""
    global paused
    try:
        thread.begin(STANDS, lock, stack)
        if not leads_back(lock, thread, set()):
            end = monotonic() + length / 1000
            while monotonic() < end and not thread.goes:
                sleep(LOOK)
            paused += length
    finally:
        thread.end()


def is_in_handler(frame):
    """Whether a handler of a signal's runs here."""
    if get_ident() != threading._main_thread.ident:
        return False
    codes = [code_of(handler) for handler in map(_signal.getsignal, range(1, _signal.NSIG)) if callable(handler)]
    while frame is not None and frame.f_code not in codes:
        frame = frame.f_back
    return frame is not None


def code_of(handler):
    """The code of what is called when a signal comes; None if that isn't Python's."""
    while isinstance(handler, functools.partial):
        handler = handler.func
    return getattr(handler, "__code__", None) or getattr(getattr(type(handler), "__call__", None), "__code__", None)


def end_process():
    """Writes what was counted last."""
    busily(running(), provoke_file.write_last)


# ---- The beginning.

def record_of(made):
    """What is known of a lock; None if nothing is."""
    return made._lockdep_record if isinstance(made, locks.Replaced) else vars(made).get("_lockdep_record")


def hold_back(real, endless, releasing):
    """Has the threads be held back that take a lock of this class. `endless` is the timeout of a wait without one, `releasing` who may release it."""
    real_acquire = real.acquire

    def acquire(self, blocking=True, timeout=endless):
        if blocking and timeout == endless:
            lock = record_of(self)
            if lock is not None:
                lock.releasing = releasing
                consider(lock, getframe(0))
        return real_acquire(self, blocking, timeout)

    locks.put_in_place(real, acquire)
    for alias in ("__enter__", "acquire_lock"):
        if alias in vars(real):
            setattr(real, alias, acquire)


def hold_back_after_wait(real):
    """The same of those that take an RLock again after a wait for a condition."""
    restore = real._acquire_restore

    def _acquire_restore(self, state):
        lock = record_of(self)
        if lock is not None:
            consider(lock, getframe(0))
        restore(self, state)

    locks.put_in_place(real, _acquire_restore)


def life_of(thread):
    """The lock that a thread is to who joins it; None if it wasn't seen to start."""
    return vars(thread).get("_lockdep_life") if thread is not None else None


def watch_ends():
    """The same of those that wait for the ends of threads."""
    real = threading.Thread
    real_start, real_join = real.start, real.join

    def start(self):
        vars(self)["_lockdep_life"] = life = Lock(class_of(self, getframe(0).f_back))
        life.releasing, life.orders = BY_HOLDER, place_of(life.made.chain[0]).holds if life.made.chain else 0
        real_start(self)

    def join(self, timeout=None):
        life = life_of(self) if timeout is None and self.is_alive() else None
        if life is None:
            real_join(self, timeout)
            return
        consider(life, getframe(0))
        begin_pending(life)
        try:
            real_join(self)
        finally:
            not_granted(life)

    locks.put_in_place(real, start, join)


def count_asyncio(module):
    """Counts how often a task of asyncio asks for the second lock of an order. Tasks aren't held back."""
    for real in (module.Lock, module.Semaphore):
        count_asyncio_of(real)


def count_asyncio_of(real):
    real_acquire = real.acquire

    async def acquire(self):
        orders = orders_in(innermost(getframe(0)).wants)
        if orders:
            busily(running(), lambda: count(orders, [], ASIDE))
        return await real_acquire(self)

    locks.put_in_place(real, acquire)


def begin(plan, path):
    """Holds threads of this process back from here on."""
    global first_pause
    provoke_file.table, first_pause = path, int(os.environ["LOCKDEP_PROVOKE_PAUSE"])
    if not read_plan(plan):
        return
    vars(locks).update(REPLACING, PATIENCE=0)
    vars(library_locks).update(REPLACING)
    ends.end_process = end_process
    beginning.begin_locks()
    for real, endless, releasing in ((locks.lock, -1, BY_OTHERS), (locks.RLock, -1, BY_HOLDER), (threading._PyRLock, -1, BY_HOLDER),
                                     (threading.Semaphore, None, BY_ANYBODY)):
        hold_back(real, endless, releasing)
    for real in (locks.RLock, threading._PyRLock):
        hold_back_after_wait(real)
    watch_ends()
    beginning.Finder.awaited = {"asyncio.locks": count_asyncio}
    sys.meta_path.insert(0, beginning.Finder)
    os.register_at_fork(after_in_child=begin_in_child)
    beginning.replace_exit()
    atexit.register(end_process)
