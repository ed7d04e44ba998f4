"""What the threads of a provoked run hold and wait for: the file that recorders/pthread/provoke/provoke.h describes, and the cycles in it; and
what the numbers of its callers and locks mean."""
from __future__ import annotations

import mmap
import os
import struct
from dataclasses import dataclass
from typing import NamedTuple, Optional, Tuple

from ..base.words import text_of

MOST_ORDERS = 64
MOST_POINTS = 512
MOST_TIMERS = 16
MOST_THREADS = 1024
MOST_HELD = 48
MOST_CALLERS = 16
CALLERS_OF_HELD = 8
HEAD, COUNTS = struct.Struct("=8sII"), struct.Struct("=6I")
THREAD, HELD = struct.Struct("=iiIIIIQII%dQIIQII" % MOST_CALLERS), struct.Struct("=QBBHIQ%dQ" % CALLERS_OF_HELD)
TIMER, LAST = struct.Struct("=iiQQQ"), struct.Struct("=%dI2IIiI%dB" % (MOST_ORDERS, MOST_POINTS + 1))
MAGIC = b"provoke3"
TEXTS = ".texts"  # behind the name of the file: another one, with a line for each place and name that the program's language has in words
SIZE_OF_THREAD = THREAD.size + MOST_HELD * HELD.size
FIRST_THREAD = HEAD.size + MOST_ORDERS * COUNTS.size
FIRST_TIMER = FIRST_THREAD + MOST_THREADS * SIZE_OF_THREAD
FIRST_OF_LAST = FIRST_TIMER + MOST_TIMERS * TIMER.size
SIZE = (FIRST_OF_LAST + LAST.size + 7) // 8 * 8
BITS_OF_CLASS = 28  # of a lock that isn't known by its address
SHARED_LOCK = 1 << 63  # a bit of the number of a lock that several processes share
STANDS, WAITS = 1, 2
WRITES, READS_BEHIND = 0, 2  # the latter also waits for readers, if a writer that waits for them is before it
IN_LOCK, IN_SPIN, IN_CONDITION, IN_JOIN, IN_ONCE, IN_SEMAPHORE = range(6)  # what a thread waits in
INTERRUPTIBLE, WITHOUT_HANDLERS = 0x10, 0x20  # bits besides that: an interrupt ends the wait; no handler of a signal runs in the thread
BY_HOLDER, BY_ANYBODY, BY_OTHERS = 1, 2, 3  # who may release a lock: its holder alone, anybody, as a rule, or others, if need be
ASKED, TAKEN = 1, 2  # how far a point of the schedule was come to
NANOSECONDS = 1e9  # of a second
RUNS_FUNCTION, OTHERS = -1, -2  # of a timer that sends no signal, and of those for which there is no room


class Counts(NamedTuple):
    """Of an order: how often its second lock was asked for, how often so with the first one held, how often a thread stood there, how often a task asked
    for it that isn't held back, and when it was asked for first and last, in milliseconds."""

    reached: int
    under: int
    pauses: int
    aside: int
    first: int = 0
    last: int = 0


@dataclass(frozen=True)
class Held:
    """A lock that a thread holds; `orders` has a bit for each order of which it is known as the first lock."""

    lock: int
    mode: int
    releasing: int
    orders: int
    callers: tuple[int, ...]


@dataclass(frozen=True)
class Thread:
    """A thread as the file has it. `order` is the planned one that it stood at, from 1 on, or 0; `changes` is another number after each change;
    `name` is where the program's language has its name, or 0; `is_interruptible` says whether another thread can end its wait by an interrupt, and
    `runs_handlers` whether a signal's handler may run in it."""

    process: int
    thread: int
    changes: int
    state: int
    order: int
    mode: int
    awaited: int
    callers: tuple[int, ...]
    name: int
    itself: int
    call: int
    point: int
    held: tuple[Held, ...]
    is_interruptible: bool = False
    runs_handlers: bool = True

    def is_in_the_way(self, other: Thread, behind: set[tuple[int, int]]) -> bool:
        """Whether it holds what the other one waits for, or is that itself. Of each process those locks are known which writers wait for."""
        if self.process != other.process and not other.awaited & SHARED_LOCK:
            return False
        return (other.call == IN_JOIN and self.itself == other.awaited) or any(
            held.lock == other.awaited and (WRITES in (held.mode, other.mode) or (
                other.mode == READS_BEHIND and (other.process, other.awaited) in behind)) for held in self.held)

    def hold_before(self, other: Thread) -> Held:
        """The lock of this thread's that the other one waits for; its end, if that one joins it."""
        return next((held for held in self.held if held.lock == other.awaited), Held(self.itself, WRITES, BY_HOLDER, 0, ()))


@dataclass(frozen=True)
class Timer:
    """A timer of a process: the signal that it sends, when it does next, in seconds of the clock that only goes on, and how often again."""

    process: int
    signal: int
    at: float
    again: float

    def is_armed(self, now: float) -> bool:
        return self.at > 0 and (self.at > now or self.again > 0)


@dataclass(frozen=True)
class Last:
    """What the file has of the whole run: how many signals were sent for each order; the points at which one thread was held back, and another one
    waited for it before it came to where it was to stand, or 0; whether a thread released what another one had taken; a process that counts itself how
    many of its threads can go on, and how many, or 0; and how far each point was come to, from 1 on."""

    sent: tuple[int, ...]
    stands: int
    waits: int
    is_handed_over: bool
    counting: int
    going: int
    passed: tuple[int, ...]


class Table:
    """The file of one run. Whether threads hand locks over may be known before."""

    def __init__(self, path: str, is_handed_over: bool = False) -> None:
        self.path = path
        with open(path, "wb") as file:
            file.write(HEAD.pack(MAGIC, MOST_ORDERS, MOST_THREADS))
            file.flush()
            os.posix_fallocate(file.fileno(), 0, SIZE)  # a full disk is met here, and not where it is read or written
            os.pwrite(file.fileno(), LAST.pack(*[0] * (MOST_ORDERS + 2), is_handed_over, *[0] * (MOST_POINTS + 3)), FIRST_OF_LAST)
        with open(path + TEXTS, "wb") as file:
            file.write(MAGIC + b"\n")
        with open(path, "rb") as file:
            self.raw = mmap.mmap(file.fileno(), SIZE, access=mmap.ACCESS_READ)

    def remove(self) -> None:
        os.unlink(self.path)
        os.unlink(self.path + TEXTS)

    def counts(self, order: int) -> Counts:
        return Counts(*COUNTS.unpack_from(self.raw, HEAD.size + order * COUNTS.size))

    def threads(self) -> list[Thread]:
        """All threads that there are."""
        starts = range(FIRST_THREAD, FIRST_TIMER, SIZE_OF_THREAD)
        return [self.thread_at(start) for start in starts if self.raw[start:start + 4] != b"\0\0\0\0"]

    def thread_at(self, start: int) -> Thread:
        process, thread, changes, state, order, mode, awaited, depth, held_count, *rest = THREAD.unpack_from(self.raw, start)
        places = [start + THREAD.size + n * HELD.size for n in range(min(held_count, MOST_HELD))]
        held = tuple(self.held_at(place) for place in places)
        name, itself, call, point = rest[-4:]
        return Thread(process, thread, changes, state, order, mode, awaited, tuple(rest[:min(depth, MOST_CALLERS)]), name, itself,
                      call & ~(INTERRUPTIBLE | WITHOUT_HANDLERS), point, tuple(each for each in held if each.lock), call & INTERRUPTIBLE > 0,
                      call & WITHOUT_HANDLERS == 0)

    def held_at(self, start: int) -> Held:
        lock, mode, releasing, _, depth, orders, *callers = HELD.unpack_from(self.raw, start)
        return Held(lock, mode, releasing, orders, tuple(callers[:depth]))

    def timers(self) -> list[Timer]:
        """All timers that there are."""
        found = [TIMER.unpack_from(self.raw, FIRST_TIMER + n * TIMER.size) for n in range(MOST_TIMERS)]
        return [Timer(process, number, at / NANOSECONDS, again / NANOSECONDS) for process, number, at, again, _ in found if process]

    def last(self) -> Last:
        words = LAST.unpack_from(self.raw, FIRST_OF_LAST)
        stands, waits, is_handed_over, counting, going = words[MOST_ORDERS:MOST_ORDERS + 5]
        return Last(words[:MOST_ORDERS], stands, waits, is_handed_over > 0, counting, going, words[MOST_ORDERS + 5:])


def cycle_in(threads: list[Thread]) -> list[Thread]:
    """Threads that wait for one another: each for a lock that the next one holds. Empty if there are none."""
    waiting = [thread for thread in threads if thread.state == WAITS]
    behind = {(thread.process, thread.awaited) for thread in waiting if thread.mode == WRITES}
    for first in waiting:
        path = path_back(first, first, waiting, behind, {first.thread})
        if path:
            return path
    return []


def path_back(at: Thread, first: Thread, waiting: list[Thread], behind: set[tuple[int, int]], seen: set[int]) -> list[Thread]:
    """The threads from this one to the first one, which is in the way of the last."""
    if first.is_in_the_way(at, behind):
        return [at]
    for other in waiting:
        if other.thread in seen or not other.is_in_the_way(at, behind):
            continue
        seen.add(other.thread)
        rest = path_back(other, first, waiting, behind, seen)
        if rest:
            return [at] + rest
    return []


def name_of_thread(thread: Thread) -> str:
    """The thread's name, as the program or the system gave it."""
    try:
        with open("/proc/%d/task/%d/comm" % (thread.process, thread.thread), encoding="utf-8", errors="surrogateescape") as file:
            return file.read().rstrip("\n")
    except OSError:
        return ""


# ---- What the numbers mean.

Place = Tuple[str, Optional[int]]  # a module and an offset in it, or a place in words

EXECUTABLE_AT_ITS_ADDRESS = 2  # the type of an ELF file that isn't moved when it is loaded


def is_moved(path: str) -> bool:
    """Whether a module's addresses are counted from where it was loaded."""
    try:
        with open(path, "rb") as file:
            head = file.read(18)
        return len(head) < 18 or struct.unpack_from("=H", head, 16)[0] != EXECUTABLE_AT_ITS_ADDRESS
    except OSError:
        return True


class Modules:
    """Where the modules of a process are. Callers and locks are addresses in them."""

    def __init__(self, thread: Thread, table: Table) -> None:
        self.parts: list[tuple[int, int, str]] = []
        self.bases: dict[str, int] = {}
        try:
            # (by a thread that is there: of a process whose first one has ended the system has none)
            with open("/proc/%d/task/%d/maps" % (thread.process, thread.thread), encoding="utf-8", errors="surrogateescape") as file:
                for line in file:
                    self.take(line.rstrip("\n").split(None, 5))
        except OSError:
            pass

    def take(self, words: list[str]) -> None:
        """Takes a line of /proc/PID/maps. Memory without a file behind a module's is the module's too: what is zero at first."""
        start, end = (int(word, 16) for word in words[0].split("-"))
        if len(words) < 6 and self.parts and self.parts[-1][1] == start:
            self.parts.append((start, end, self.parts[-1][2]))
        if len(words) < 6 or words[5][:1] != "/":
            return
        self.parts.append((start, end, words[5]))
        if words[5] not in self.bases:
            self.bases[words[5]] = start - int(words[2], 16) if is_moved(words[5]) else 0

    def place(self, address: int) -> Place | None:
        """The module and the offset of an address."""
        path = next((path for start, end, path in self.parts if start <= address < end), None)
        return (path, address - self.bases[path]) if path else None

    def lock(self, number: int) -> tuple[str, Place | None]:
        """What tells a lock apart from others of its class, and its place."""
        return "at %#x" % number, self.place(number)

    def name(self, thread: Thread) -> str:
        return name_of_thread(thread)


class Texts(Modules):
    """The lines that a program's language has of its callers and names, which are where they begin. A lock is a number of its own before the
    line with its class, which it has as its place."""

    def __init__(self, thread: Thread, table: Table) -> None:
        with open(table.path + TEXTS, "rb") as file:
            self.raw = file.read()

    def line(self, number: int) -> str:
        return text_of(self.raw[number:].partition(b"\n")[0]) if number else ""

    def place(self, address: int) -> Place | None:
        line = self.line(address)
        return (line, None) if line else None

    def lock(self, number: int) -> tuple[str, Place | None]:
        return "number %d" % (number >> BITS_OF_CLASS), self.place(number & (1 << BITS_OF_CLASS) - 1)

    def name(self, thread: Thread) -> str:
        return self.line(thread.name) or name_of_thread(thread)
