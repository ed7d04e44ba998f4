"""Threads that wait for one another in a provoked run: how they stand, for how long, and what could end that."""
from __future__ import annotations

import os
import signal
import time
from dataclasses import dataclass

from ..base.files import contents
from ..base.words import counted
from ..binaries.elf import build_words
from ..binaries.symbols import Address
from .holders import LIBRARY
from .system import (ENDED, STOPPED, descendants, has_limit_of_processor_time, is_endless, link_of, signals_of_timers, sleeps_of, state_of, tasks_of, text_of_file,
                     waits_at)
from .table import (BY_ANYBODY, BY_HOLDER, BY_OTHERS, IN_CONDITION, IN_JOIN, IN_ONCE, IN_SEMAPHORE, IN_SPIN, OTHERS, READS_BEHIND, RUNS_FUNCTION,
                    SHARED_LOCK, WAITS, WRITES, Held, Modules, Place, Table, Thread, cycle_in)

ASLEEP = "S"  # the state of a thread, as the kernel has it
RUNNING = "R"
DEFAULT_SURE = 5.0  # seconds for which threads have to stand
LOOK = 0.02  # seconds from one look to the next
LONGEST_LOOK = 2 * LOOK  # that counts: where the machine stood meanwhile, what could end a standstill stood too
LOOKS_STILL = 0.2  # seconds after which it is said that threads stood, if they go on later
WAITS_IN = {IN_CONDITION: "to be woken", IN_JOIN: "for a thread's end", IN_ONCE: "for what runs once", IN_SEMAPHORE: "for a semaphore", IN_SPIN: "for a spin lock"}
OF_THE_SYSTEM = ("libc.so", "libpthread.so", "ld-linux")  # modules whose functions begin each thread
HANDLED = "may send a signal that has a handler: %s"
ARMED = {RUNS_FUNCTION: "a timer is armed that runs a function", OTHERS: "there are more timers than are watched, which may be armed"}
MAY_SET = "may set a handler for a signal, and send that"
CAUGHT, IGNORED, BLOCKED = b"SigCgt:", b"SigIgn:", b"SigBlk:"  # begin lines of what the system says of a process, and of a thread
OF_FAULTS = {signal.SIGSEGV, signal.SIGBUS, signal.SIGFPE, signal.SIGILL, signal.SIGTRAP, signal.SIGABRT, signal.SIGSYS}
UNHANDLED = {signal.SIGKILL, signal.SIGSTOP, 32, 33}  # signals without handlers, and the C library's own
WITH_HANDLERS = [number for number in range(1, 65) if number not in OF_FAULTS | UNHANDLED]


@dataclass(frozen=True)
class Standing:
    """A thread of a program that stands still: its number and name; what tells the lock that it waits for, and the one that the thread before
    it waits for, apart from others of their classes; the places of both, if they are in a module, or their classes if the run knows these; the
    places of its callers where it waits for the one and took the other; a bit for each order of the run's plan of which the latter is known as
    the first lock; the point of the schedule at which it stood; whether it waits as a reader for another one, behind a writer; whether it is that
    writer, whom no other thread of the cycle waits for; the number of the thread for whose end it waits, or 0; and whether another one waits for its own."""

    number: int
    name: str
    awaited: str
    held: str
    awaited_place: Place | None
    held_place: Place | None
    waits: list[Place]
    holds: list[Place]
    orders: int
    point: int = 0
    is_behind: bool = False
    is_writer: bool = False
    joins: int = 0
    is_joined: bool = False


class Watch:
    """Looks for threads that wait for one another, and says so when they did long enough."""

    def __init__(self, table: Table, numbers: type[Modules], sure: float) -> None:
        self.table, self.numbers, self.sure = table, numbers, sure
        self.seen: tuple[tuple[int, int], ...] = ()
        self.looked = self.stood = 0.0  # when it looked last, and for how many seconds the threads of the cycle had stood then
        self.longest = 0.0  # seconds for which threads stood that went on
        self.still = False  # whether they stood at the last look
        self.woke = False  # whether one was awake since, with nothing changed: it goes on, or has been ended with its process and isn't gone yet
        self.cycle: list[Thread] = []
        self.standing: list[Standing] = []
        self.doubts: list[Doubt] = []  # what could end it, when they had stood long enough
        self.going = 0  # how many other threads could go on then

    def look(self) -> bool:
        """Whether threads of a cycle in which nothing has changed, and which all are asleep, have stood long enough: twice as long, if something is
        known that could end it."""
        cycle, now = cycle_in(self.table.threads()), time.monotonic()
        passed, self.looked, self.still = min(now - self.looked, LONGEST_LOOK), now, False
        seen = changes_of(cycle)
        if cycle and seen == self.seen and not all(map(is_asleep, cycle)):
            self.woke |= not are_gone(cycle)
            return False
        if not cycle or seen != self.seen or self.woke:
            self.begin(cycle, seen)
            return False
        self.stood, self.still = self.stood + passed, True
        if self.has_stood() and not self.standing:
            self.standing = described(cycle, self.table, self.numbers)
        if self.stood < self.sure:
            return False
        self.going = going_on(cycle, self.table)
        self.doubts = doubts(cycle, self.going, self.table)
        return (not self.doubts or self.stood >= 2 * self.sure) and self.is_as_seen()

    def begin(self, cycle: list[Thread], seen: tuple[tuple[int, int], ...]) -> None:
        """Other threads than before may stand from now on, or the same ones once more. Those that stood have gone on."""
        self.longest = max(self.longest, self.stood if self.has_stood() else 0.0)
        self.seen, self.cycle, self.stood, self.standing, self.woke = seen, cycle, 0.0, [], False

    def is_as_seen(self) -> bool:
        """Whether the threads of the cycle stand as they did before it was looked for what could end that: who is gone by then may have done so."""
        cycle = cycle_in(self.table.threads())
        return changes_of(cycle) == self.seen and all(map(is_asleep, cycle))

    def has_stood(self) -> bool:
        """Whether threads stood long enough for that to be said of them, if they go on or end."""
        return self.stood >= LOOKS_STILL


def changes_of(cycle: list[Thread]) -> tuple[tuple[int, int], ...]:
    return tuple(sorted((thread.thread, thread.changes) for thread in cycle))


def are_gone(cycle: list[Thread]) -> bool:
    """Whether the threads of a cycle have ended, with their processes."""
    return all(state_of(thread.process, thread.thread) in ENDED for thread in cycle)


def is_asleep(thread: Thread) -> bool:
    """Whether the kernel has the thread asleep, or it waits for a spin lock, in which it never is."""
    state = state_of(thread.process, thread.thread)
    return state == ASLEEP or (state == RUNNING and thread.call == IN_SPIN)


# ---- What could end it.


@dataclass(frozen=True)
class Doubt:
    """What could end a standstill, in words, and whether programs usually end one so: others only by a thread that releases what another one holds.
    What ends the whole program is none, since it lets no thread of the cycle go on."""

    words: str
    is_usual: bool


def doubts(cycle: list[Thread], going: int, table: Table) -> list[Doubt]:
    """What could end it, where so many other threads can go on."""
    waiting = cycle + writers_before(cycle, table.threads())
    return timers_armed(cycle, table) + others(cycle, waiting, going, table) + other_processes(cycle, waiting)


def other_processes(cycle: list[Thread], waiting: list[Thread]) -> list[Doubt]:
    """Processes of the run and of the load beside it, which go on beside those of the cycle, where one of them can do something about it."""
    processes, may = {thread.process for thread in cycle}, what_processes_may(cycle, waiting)
    going = len(going_beside(processes, set(descendants(os.getpid())) - processes)) if may else 0
    return [Doubt("%s, and %s" % (counted(going, "other process goes on", "other processes go on"), may), False)] if going else []


def what_processes_may(cycle: list[Thread], waiting: list[Thread]) -> str:
    """What another process could do about it: send a signal that has a handler, or end one process of several, which releases its robust locks. Empty if
    it can do nothing."""
    if handled_in(cycle, waiting):
        return HANDLED % ", ".join(handled_in(cycle, waiting))
    is_released = len({thread.process for thread in cycle}) > 1 and any(each.releasing == BY_OTHERS for each in awaited_in(cycle))
    return "may end one of these, which releases its robust locks" if is_released else ""


def going_beside(stuck: set[int], others: set[int]) -> set[int]:
    """The other processes that go on, or can: all but those that wait only for stuck ones and for one another, and do so at the same time: such of which
    none has gone to sleep between the looks at them."""
    standing, slept = stuck | others, {process: sleeps_of(process) for process in others}
    while moved := {process for process in standing - stuck if goes_on(process, standing)}:
        standing -= moved
    return others - standing or {process for process in others if sleeps_of(process) != slept[process]}


def goes_on(process: int, standing: set[int]) -> bool:
    """Whether a process has a thread that doesn't wait without an end."""
    return any(state_of(process, task) not in ENDED and not is_endless(process, task, standing, is_watched=False) for task in tasks_of(process))


def handled_in(cycle: list[Thread], waiting: list[Thread]) -> list[str]:
    """The signals of which a handler could end it, but for those of faults: one that runs in a thread of the cycle, or a writer before whom one of these
    waits, may jump out of the wait or raise an error there, and in any other thread, one may release a lock that not only its holder can, or interrupt a
    wait that may be."""
    is_by_others = not is_by_holders(cycle) or any(thread.is_interruptible for thread in waiting)
    heeded = 0
    for process in {thread.process for thread in cycle}:
        own = [thread.thread for thread in waiting if thread.process == process and thread.runs_handlers]
        heeded |= heeded_by(process, tasks_of(process) if is_by_others else own)
    return [name_of_signal(number) for number in WITH_HANDLERS if heeded >> number - 1 & 1]


def is_reached_by_signals(thread: Thread) -> bool:
    """Whether another thread of its process could have a handler run in a thread that waits: for a signal that this one doesn't block, which needn't have
    a handler yet."""
    blocked = mask_in("/proc/%d/task/%d/status" % (thread.process, thread.thread), BLOCKED)
    return thread.runs_handlers and any(not blocked >> number - 1 & 1 for number in WITH_HANDLERS)


def timers_armed(cycle: list[Thread], table: Table) -> list[Doubt]:
    processes, now = {thread.process for thread in cycle}, time.monotonic()
    armed = [timer for timer in table.timers() if timer.process in processes and timer.is_armed(now)]
    said = [ARMED.get(timer.signal, "a timer is armed, and %s has a handler" % name_of_signal(timer.signal))
            for timer in armed if timer.signal in ARMED or is_caught(timer.process, timer.signal)]
    said += ["a timer or a limit may be armed, and %s has a handler" % name_of_signal(number) for process in processes
             for number in unwatched_signals(process, table) if is_caught(process, number)]
    return [Doubt(words, True) for words in dict.fromkeys(said)]


def unwatched_signals(process: int, table: Table) -> set[int]:
    """The signals of timers that a process didn't make by the C library, and of a limit of its processor time."""
    watched = {timer.signal for timer in table.timers() if timer.process == process}
    return signals_of_timers(process) - watched | ({signal.SIGXCPU} if has_limit_of_processor_time(process) else set())


def others(cycle: list[Thread], waiting: list[Thread], going: int, table: Table) -> list[Doubt]:
    """Threads of the same processes that aren't in the cycle, and go on, or can: one of them could interrupt a wait that may be, release a lock of the
    cycle, unless that refuses to be released by anybody but its holder, or else have a handler of a signal run there. Few joins are interrupted."""
    if not going:
        return []
    may = "%s, " % going_words(going)
    if any(thread.is_interruptible for thread in waiting):
        return [Doubt(may + "and may interrupt one of these", any(thread.is_interruptible and thread.call != IN_JOIN for thread in waiting))]
    if is_by_holders(cycle):
        is_reached, caught = any(map(is_reached_by_signals, waiting)), handled_in(cycle, waiting)
        return [Doubt(may + "and " + (HANDLED % ", ".join(caught) if caught else MAY_SET), False)] if is_reached else []
    who = {each.releasing for each in awaited_in(cycle)}
    is_usual = BY_ANYBODY in who or table.last().is_handed_over
    releases = "and any thread may release such a lock" if is_usual or BY_OTHERS in who else "though no thread may release what another one holds"
    return [Doubt(may + releases, is_usual)]


def going_words(going: int) -> str:
    return counted(going, "other thread can go on", "other threads can go on")


def is_by_holders(cycle: list[Thread]) -> bool:
    """Whether nobody can release a lock that is waited for but its holder."""
    return all(each.releasing == BY_HOLDER for each in awaited_in(cycle))


def awaited_in(cycle: list[Thread]) -> list[Held]:
    """The locks that threads wait for, as the next ones hold them."""
    return [thread.hold_before(cycle[at - 1]) for at, thread in enumerate(cycle)]


def going_on(cycle: list[Thread], table: Table) -> int:
    """How many threads there are beside those of the cycle that don't wait without an end, all at the same time."""
    own = {thread.thread for thread in cycle}
    processes, last = {thread.process for thread in cycle}, table.last()
    if processes == {last.counting}:
        return last.going
    is_shared = any(thread.awaited & SHARED_LOCK for thread in cycle) or any(waits_in_shared_memory(process, table.path) for process in processes)
    sharing = processes | (sharing_with(processes, table.path) if is_shared else set())
    slept = {process: sleeps_of(process) for process in sharing}
    going = sum(not is_endless(process, task, processes) for process in sharing for task in tasks_of(process) if task not in own and state_of(process, task) not in ENDED)
    return going or sum(times != slept[process].get(task) for process in sharing for task, times in sleeps_of(process).items())


def sharing_with(processes: set[int], but: str) -> set[int]:
    """The processes of a run that share memory with these, but for the file of this command."""
    shared = {each for process in processes for _, _, each in shared_memory(process, but)}
    return {process for process in descendants(os.getpid()) if any(each in shared for _, _, each in shared_memory(process, but))}


def waits_in_shared_memory(process: int, but: str) -> bool:
    """Whether a thread of a process waits in memory that other processes may share, one of which can wake it."""
    waited = [waits_at(process, task) for task in tasks_of(process)]
    return any(start <= address < end for start, end, _ in shared_memory(process, but) for address in waited)


def shared_memory(process: int, but: str) -> list[tuple[int, int, tuple[str, str]]]:
    """The memory that a process shares: where it begins and ends, and the file that it is, by its device and its number there."""
    lines = [line.split(None, 5) for line in text_of_file("/proc/%d/maps" % process).splitlines()]
    ranges = [(words[0].split("-"), words) for words in lines if words[1].endswith("s") and words[-1] != but]
    return [(int(start, 16), int(end, 16), (words[3], words[4])) for (start, end), words in ranges]


def is_caught(process: int, number: int) -> bool:
    """Whether a signal has a handler in a process, and a thread that doesn't block it."""
    return number > 0 and heeded_by(process, tasks_of(process)) >> number - 1 & 1 > 0


def is_ended_by(process: int, number: int) -> bool:
    """Whether a signal that was sent to a process has to end it: no handler is to run for it, it isn't ignored, and a thread doesn't block it. What is
    stopped, as by a debugger, may never heed it."""
    bit, status = 1 << number - 1, "/proc/%d/status" % process
    states = [(state_of(process, task), mask_in("/proc/%d/task/%d/status" % (process, task), BLOCKED)) for task in tasks_of(process)]
    return not (mask_in(status, CAUGHT) | mask_in(status, IGNORED)) & bit and all(state not in STOPPED for state, _ in states) and \
        any(state not in ENDED and not blocked & bit for state, blocked in states)


def heeded_by(process: int, threads: list[int]) -> int:
    """The signals that have handlers in a process, a bit for each, and that one of these threads doesn't block."""
    caught, blocked = mask_in("/proc/%d/status" % process, CAUGHT), -1
    for thread in threads:
        blocked &= mask_in("/proc/%d/task/%d/status" % (process, thread), BLOCKED)
    return caught & ~blocked


def mask_in(path: str, name: bytes) -> int:
    """The signals in a line of what the system says of a process or thread."""
    lines = (contents(path) or b"").splitlines()
    return next((int(line.split()[1], 16) for line in lines if line.startswith(name)), 0)


def name_of_signal(number: int) -> str:
    try:
        return signal.Signals(number).name
    except ValueError:
        return "signal %d" % number


def status_words(status: int) -> str:
    """The status of a program, or the signal that ended it."""
    return name_of_signal(-status) if status < 0 else "status %d" % status


def shell_status(status: int) -> int:
    """A status as a shell has it, to which a signal that ended the program is 128 and its number."""
    return 128 - status if status < 0 else status


# ---- How they stand.


def described(cycle: list[Thread], table: Table, numbers_of: type[Modules]) -> list[Standing]:
    """The threads of a cycle, each with its places, from the one at the first order on. The one before in the cycle waits for what a thread
    holds. Behind them come writers without whom readers would go on."""
    first = min(range(len(cycle)), key=lambda at: cycle[at].order or len(cycle) + 1)
    cycle = cycle[first:] + cycle[:first]
    writers = writers_before(cycle, table.threads())
    numbers = {number: place for place, number in enumerate(sorted(thread.thread for thread in cycle + writers), 1)}
    modules = {thread.process: numbers_of(thread, table) for thread in cycle + writers}  # (of each process, which may be another program)
    found = []
    for at, thread in enumerate(cycle):
        held, after, own_modules = thread.hold_before(cycle[at - 1]), cycle[(at + 1) % len(cycle)], modules[thread.process]
        awaited, awaited_place = own_modules.lock(thread.awaited)
        own, own_place = own_modules.lock(held.lock)
        found.append(Standing(numbers[thread.thread], own_modules.name(thread), awaited, own, awaited_place, own_place,
                              placed(own_modules, thread.callers), placed(own_modules, held.callers), held.orders, thread.point,
                              is_behind(thread, after), joins=numbers[after.thread] if thread.call == IN_JOIN else 0,
                              is_joined=cycle[at - 1].call == IN_JOIN))
    for thread in writers:
        awaited, place = modules[thread.process].lock(thread.awaited)
        found.append(Standing(numbers[thread.thread], modules[thread.process].name(thread), awaited, "", place, None,
                              placed(modules[thread.process], thread.callers), [], 0, thread.point, is_writer=True))
    return found


def is_behind(thread: Thread, other: Thread) -> bool:
    """Whether a reader waits for another one, which it does behind a writer."""
    return thread.mode == READS_BEHIND and other.hold_before(thread).mode != WRITES


def writers_before(cycle: list[Thread], threads: list[Thread]) -> list[Thread]:
    """Those who wait for a lock for which a reader of the cycle waits behind them: one for each lock, unless one is in the cycle."""
    behind = {(thread.process, thread.awaited) for at, thread in enumerate(cycle) if is_behind(thread, cycle[(at + 1) % len(cycle)])}
    behind -= {(thread.process, thread.awaited) for thread in cycle if thread.mode == WRITES}
    found = {(thread.process, thread.awaited): thread for thread in threads if thread.state == WAITS and thread.mode == WRITES}
    return [found[each] for each in sorted(behind) if each in found]


def placed(numbers_of: Modules, callers: tuple[int, ...]) -> list[Place]:
    return [place for place in map(numbers_of.place, callers) if place]


def shown_places(places: list[Place]) -> tuple[Address, ...]:
    """Without those of this tool and of the C library."""
    return tuple(Address(*place) for place in places if not os.path.basename(place[0]).startswith((LIBRARY,) + OF_THE_SYSTEM))


def builds_of(thread: Thread, standing: list[Standing]) -> tuple[str, ...]:
    """The program of a thread that stands still, its C library, and the modules through which such threads came, each with its build."""
    came, task = {place[0] for each in standing for place in each.waits + each.holds}, "/proc/%d/task/%d/" % (thread.process, thread.thread)
    files = [line.split(None, 5)[-1] for line in text_of_file(task + "maps").splitlines()]
    modules = [link_of(task + "exe")] + [file for file in files if os.path.basename(file).startswith(OF_THE_SYSTEM[0]) or file in came]
    return tuple(build_words(module) for module in dict.fromkeys(modules) if os.path.basename(module) not in ("", LIBRARY))


# ---- How a run stood that was ended at its limit.


@dataclass(frozen=True)
class Waiting:
    """A thread that waited when a run was ended: its number and name, in what it waited, and the places of its callers."""

    number: int
    name: str
    what: str
    waits: list[Place]


def waiting(table: Table, numbers_of: type[Modules]) -> list[Waiting]:
    """The threads that wait without an end, of all processes of a run."""
    threads = sorted((thread for thread in table.threads() if thread.state == WAITS and is_asleep(thread)), key=lambda thread: thread.thread)
    found = []
    for number, thread in enumerate(threads, 1):
        numbers = numbers_of(thread, table)
        found.append(Waiting(number, numbers.name(thread), WAITS_IN.get(thread.call, "for a lock"), placed(numbers, thread.callers)))
    return found
