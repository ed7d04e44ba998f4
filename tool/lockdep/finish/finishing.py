"""What all finishes share, which make traces from what a recorder wrote: limits, files, what is counted, and the traces themselves."""
from __future__ import annotations

import os

from ..record.folder import OBJECTS, TASKS, WEAK
from ..record import notes
from ..record.losses import words_of_loss
from ..record.summary import Count, put

TYPE_CHECKING = False  # for a tool that checks types, it is true
if TYPE_CHECKING:
    from typing import Sequence

HEADER = "lockdep,2"
MOST_KEYS = 8192  # names that traces may have together
MOST_LOCKS = MOST_KEYS // 2  # of these, how many single locks have a name of their own
MOST_TRACES = 4096
MOST_RECORDS = 1000000  # of a trace
MOST_NAME = 53  # bytes of a class's name, which leaves room for the number of a lock
REST = "#rest"  # behind a class: all its locks that have no name of their own

# What is counted, in the order of SUMMARY.
LOSSES = ("unrewritten", "unrewritten-methods", "synchronizers", "multiprocessing", "gevent", "eventlet", "unguarded", "changed-root", "unwritten",
          "full-traces", "beyond-classes", "beyond-traces", "beyond-held", "handlers-beyond-sets", "unfollowed-handlers", "retried-tries", "reentered",
          "interrupted", "unseen-releases", "still-running", "threads-alike", "repeats")


class Tally:
    """What is counted for SUMMARY by a recorder: numbers by code, and the notes under some of them."""

    def __init__(self, recorder: str) -> None:
        self.recorder = recorder
        self.numbers: dict[str, int] = {}
        self.notes: dict[str, list[str]] = {}

    def add(self, code: str, number: int = 1) -> None:
        self.numbers[code] = self.numbers.get(code, 0) + number

    def note(self, code: str, text: str) -> None:
        self.add(code)
        self.notes.setdefault(code, []).append(text)

    def note_end(self, trace: str, held: list[str], waits: bool, has_ended: bool) -> None:
        """Who waits for a lock at the end, or ended with one."""
        if held and (waits or has_ended):
            self.note(notes.WAITING if waits else notes.HELD_AT_END, notes.of_end(trace, held, waits))

    def recorded(self, processes: int, classes: int) -> list[Count]:
        """What was recorded. Threads that did what others had done have no traces."""
        number = self.numbers.get
        return [Count("processes", processes), Count("threads", number("threads", 0) + number("threads-alike", 0)),
                Count("operations", number("operations", 0)), Count("events", number("events", 0)), Count("classes", classes)]

    def counts(self, codes: tuple[str, ...]) -> list[Count]:
        """Those of these that aren't 0."""
        return [Count(code, self.numbers[code], words_of_loss(code, self.recorder), self.notes.get(code)) for code in codes if self.numbers.get(code)]


class LockNames:
    """The names of single locks. Only the first of them have one of their own."""

    def __init__(self) -> None:
        self.names: dict[tuple[str, int, int], str] = {}
        self.own = 0  # how many there are that have

    def name(self, of: str, number: int, process: int, mark: str) -> str:
        """The name of a lock of a class, by its number in its process; 0 is one that isn't told apart."""
        name = self.names.get((of, number, process))
        if name is None:
            is_own = number > 0 and self.own < MOST_LOCKS
            self.own += is_own
            name = self.names[of, number, process] = of + ("#%d" % number if is_own else REST) + mark
        return name


class Taken:
    """A lock as a trace takes it: its key, its class, and its name, or none if it isn't written; how it is taken weakly, if it is; and the lines that take it
    and give it back, by classes and by single locks. A trace repeats itself, so each is made once."""
    __slots__ = ("key", "of", "lock", "weak", "line", "line_of_lock", "end", "end_of_lock")

    def __init__(self, key: object, of: str, lock: str | None, mode: str, weak: str) -> None:
        self.key, self.of, self.lock, self.weak = key, of, lock, weak
        self.line, self.line_of_lock = "acq,%s,0,%s" % (of, mode), "acq,%s,0,%s" % (lock, mode)
        self.end, self.end_of_lock = "rel,%s,0" % of, "rel,%s,0" % lock


class Trace:
    """The texts of a task's trace: by classes, by single locks, and the places of its records."""

    def __init__(self) -> None:
        self.by_class, self.by_lock, self.places = [HEADER], [HEADER], []
        self.weak: list[str] = []  # of acquisitions that are weak: the number of the record, and in which way
        self.held: list[Taken] = []
        self.known: dict[tuple[object, str, str | None, str, str], Taken] = {}

    def take(self, key: object, of: str, lock: str | None, mode: str, places: list[str], weak: str = "") -> None:
        """A lock is taken: its key, its class, and its name, or none if it isn't written. How it is taken weakly matters if something is held."""
        words = key, of, lock, mode, weak
        taken = self.known.get(words)
        if taken is None:
            taken = self.known[words] = Taken(*words)
        self.take_known(taken, places)

    def take_known(self, taken: Taken, places: Sequence[str]) -> None:
        self.held.append(taken)
        if taken.lock is None:
            return
        self.by_class.append(taken.line)
        self.by_lock.append(taken.line_of_lock)
        number = len(self.by_class)
        for place in places:
            self.places.append(f"{number} {place}")
        if taken.weak and len(self.held) > 1:
            self.weak.append("%d %s" % (number, taken.weak))

    def give_back(self, key: object) -> None:
        """The newest lock of this key is given back, if there is one."""
        held = self.held
        at = len(held) - 1
        while at >= 0 and held[at].key != key:
            at -= 1
        if at >= 0:
            taken = held.pop(at)
            if taken.lock is not None:
                self.by_class.append(taken.end)
                self.by_lock.append(taken.end_of_lock)

    def held_classes(self) -> list[str]:
        return [taken.of for taken in self.held]

    def events(self) -> int:
        return len(self.by_class) - 1

    def write(self, folder: str, name: str) -> None:
        places = text_of_lines(self.places)
        for place, lines in (("", self.by_class), (OBJECTS, self.by_lock)):
            path = os.path.join(folder, place, name + ".csv")
            put(path, text_of_lines(lines))
            put(path + ".places", places)


def trace_name(number: int) -> str:
    return "task-%04d" % number


def text_of_lines(lines: list[str]) -> str:
    return "\n".join(lines) + "\n" if lines else ""


def write_lines(path: str, lines: list[str]) -> None:
    put(path, text_of_lines(lines))


def write_classes(folder: str, classes: list[tuple[str, str, str]]) -> None:
    """Writes the classes: of each its name, where it is made, and how."""
    write_lines(os.path.join(folder, "classes"), ["%s\t%s\t-\t%s" % each for each in classes])


def write_tasks(folder: str, tasks: list[tuple[str, int, str]]) -> None:
    """Writes the names of threads that have some: of each its trace, the number of its process, and its name."""
    write_lines(os.path.join(folder, TASKS), ["%s.csv %d %s" % task for task in tasks if task[2]])


def write_weak(folder: str, traces: list[tuple[str, list[str]]]) -> None:
    """Writes which acquisitions are weak, if any are: those of each trace come with its name."""
    lines = ["%s.csv %s" % (name, each) for name, weak in traces for each in weak]
    if lines:
        write_lines(os.path.join(folder, WEAK), lines)


def is_running(process: int | str) -> bool:
    """Whether a process is still running. One that has ended but whose status nobody has read isn't."""
    try:
        with open("/proc/%s/stat" % process, encoding="utf-8", errors="replace") as file:
            return file.read().rpartition(")")[2].split()[0] not in "ZX"
    except (OSError, IndexError):
        return False
