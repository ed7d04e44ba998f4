"""Deadlocks with two signals at once. One thread holds K, and signal T comes in there, whose handler waits for L; another thread holds L with the handler
of signal S above it, and so on. That no set of one signal shows, so the set of S gets one more trace: for each lock K that is taken with T unblocked,
and each L that T's handler takes, the order of K and L. The checker says which locks these are; the traces say where."""
from __future__ import annotations

import json
import re
from dataclasses import dataclass, field
from typing import Dict, List, Tuple

from ..base.files import text_in
from ..base.files import write_in_place
from ..base.words import bytes_of, text_of
from ..program.checker import ask

TYPE_CHECKING = False
if TYPE_CHECKING:
    from ..record.handlers import Handler

USAGE = re.compile(r"^usage (\S+)/([0-7]) \{(.)(.)..\}$", re.MULTILINE)  # of hardirqs: by a writer, and by a reader
ENABLED, USED = "+?", "-?"
REPORT = ["check", "--many", "--"]
FIRST = "lockdep,1\noff,hardirq\n"
HEAD, EACH = 2, 4  # records before the first link, and of each
MOST = 200000  # orders of a trace, which has at most a million records

Lock = Tuple[str, str]  # a key, as records have it, and a mode
Record = Tuple[str, int]  # a trace and the number of its record


@dataclass
class Marks:
    """The locks that a handler takes, and those that other code takes with its signal unblocked, each with all such records."""

    enabled: Dict[Lock, List[Record]] = field(default_factory=dict)
    used: Dict[Lock, List[Record]] = field(default_factory=dict)


def marked(report: str, column: int, signs: str) -> set[tuple[str, bool]]:
    """The keys that the report has one of these signs for, and whether as a reader."""
    return {("%s/%s" % (found.group(1), found.group(2)), is_read) for found in USAGE.finditer(report) for is_read in (False, True)
            if found.group(column + is_read) in signs}


def marks_of(traces: list[str]) -> Marks:
    """What the checker says of a set, with the records."""
    report, seen = text_of(ask(REPORT + traces, with_errors=True).output), records_of_marks(traces)
    return Marks(kept(seen.enabled, marked(report, 3, ENABLED)), kept(seen.used, marked(report, 3, USED)))


def records_of_marks(traces: list[str]) -> Marks:
    """Where the traces of a set take a lock in a run of the handler, and where otherwise with the signal unblocked."""
    seen = Marks()
    for trace in traces:
        Walk(trace, seen).go()
    return seen


def kept(seen: dict[Lock, list[Record]], said: set[tuple[str, bool]]) -> dict[Lock, list[Record]]:
    return {lock: records for lock, records in seen.items() if (as_reported(lock[0]), lock[1] != "w") in said}


def as_reported(key: str) -> str:
    """A key of a record as the report has it."""
    name, _, subclass = key.rpartition(",")
    is_quoted = len(name) > 1 and name[0] == name[-1] == '"'
    return "%s/%s" % (name[1:-1].replace('""', '"') if is_quoted else name, subclass)


class Walk:
    """A walk along a trace of a set, which has its runs in interrupts."""

    def __init__(self, trace: str, seen: Marks) -> None:
        self.trace, self.seen = trace, seen
        self.is_on, self.is_run = True, False
        self.held: list[tuple[Lock, Record]] = []

    def go(self) -> None:
        for number, line in enumerate(text_in(self.trace).split("\n"), 1):
            word, _, rest = line.partition(",")
            if word == "acq":
                self.take(rest, (self.trace, number))
            elif word == "rel":
                self.held = without_newest(self.held, rest)
            elif word in ("enter", "leave"):
                self.is_run = word == "enter"
            elif rest == "hardirq":
                self.is_on = word == "on"
                self.note_enabled(self.held)

    def take(self, rest: str, record: Record) -> None:
        key, _, mode = rest.rpartition(",")
        lock = key, mode.lstrip("t")
        self.held.append((lock, record))
        if self.is_run and lock[1] == mode:  # (a try in a handler waits for nobody)
            self.seen.used.setdefault(lock, []).append(record)
        self.note_enabled(self.held[-1:])

    def note_enabled(self, held: list[tuple[Lock, Record]]) -> None:
        for lock, record in held if self.is_on and not self.is_run else ():
            self.seen.enabled.setdefault(lock, []).append(record)


def without_newest(held: list[tuple[Lock, Record]], key: str) -> list[tuple[Lock, Record]]:
    places = [place for place, (lock, _) in enumerate(held) if lock[0] == key]
    return held[:places[-1]] + held[places[-1] + 1:] if places else held


@dataclass(frozen=True)
class Link:
    """An order by a signal: of a lock that is held where it may come in, and one that its handler takes."""

    handler: Handler
    held: Lock
    taken: Lock
    since: Record
    record: Record

    def lines(self) -> str:
        return "acq,%s,%s\nacq,%s,%s\nrel,%s\nrel,%s\n" % (self.held + self.taken + (self.taken[0], self.held[0]))


def links_of(handler: Handler, marks: Marks) -> list[Link]:
    links = [Link(handler, held, taken, since[0], records[0]) for held, since in marks.enabled.items() for taken, records in marks.used.items()
             if held[0] != taken[0]]
    return links[:MOST]


class Links:
    """The orders by other signals, as a trace."""

    def __init__(self, links: list[Link], path: str) -> None:
        self.path, self.links = path, links

    def write(self) -> None:
        text = FIRST + "".join(link.lines() for link in self.links)
        write_in_place(bytes_of(self.path), text.encode("utf-8", "surrogateescape"))

    def with_records(self, output: bytes) -> bytes:
        """The checker's answer with the records that the orders are from, and their signals."""
        said = json.loads(text_of(output))
        self.replace(said)
        return json.dumps(said).encode()

    def replace(self, said: object) -> None:
        for value in list(said.values()) if isinstance(said, dict) else said if isinstance(said, list) else ():
            self.replace(value)
        if isinstance(said, dict) and said.get("file") == self.path:
            link = self.links[(said["record"] - 1 - HEAD) // EACH]
            said.update(file=link.record[0], record=link.record[1], since_file=link.since[0], since=link.since[1],
                        signal=link.handler.signal, handler=link.handler.name)
