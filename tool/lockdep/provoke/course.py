"""The course of a provoked run by a schedule: what each thread of a ring takes until it stands still, and where that is. A thread is known by who started
it, and as which one; what it takes by the call, and how often it has taken something by that before."""
from __future__ import annotations

import csv
import os
from contextlib import contextmanager
from dataclasses import dataclass, field
from typing import Dict, Iterator, List, Tuple

from ..ask.histories import write_histories
from ..base.room import room_for
from ..base.words import class_of_lock, plain_key
from ..binaries.symbols import Address
from ..finish.joins import THREAD
from ..places.places import Places
from ..program.findings import Finding
from ..program.schedules import Ring
from ..record.folder import HISTORY
from .table import MOST_POINTS

MOST_OF_THREAD = 64  # last steps of each thread that are followed
MOST_FOLLOWED = 64  # threads of a schedule
OWN_LIFE = "tw"  # the mode in which a thread takes the lock of its own life
WRITES = "w"


@dataclass
class Step:
    """A record of a history that takes a lock."""

    record: int
    task: str
    lock: str
    mode: str
    nth: int = 0  # by this call of its thread
    call: Address | None = None
    callers: tuple[Address, ...] = ()
    stop: int = 0  # at which order of the ring its thread stands here; 0 if it doesn't
    after: Step | None = None  # what is released first
    number: int = 0  # in the plan

    def lines(self, pause: int) -> Iterator[str]:
        place = "%x %s" % (self.call.offset or 0, self.call.module) if self.call else "0 -"
        yield "take-%d %s" % (self.nth, place)
        if self.stop:
            yield "stop %d %d" % (self.stop, pause)


@dataclass
class Course:
    """The threads of a schedule, by the numbers of their starts, each with its last steps; those of the ring come first."""

    ring: Ring
    threads: list[tuple[tuple[int, ...], list[Step]]] = field(default_factory=list)

    def steps(self) -> list[Step]:
        """In the order of their numbers."""
        return [step for _, steps in self.threads for step in steps]

    def stops(self) -> list[Step]:
        return [step for step in self.steps() if step.stop]

    def lines(self, pause: int, shorter: int) -> list[str]:
        """As the plan of a run has it: threads stand for so many milliseconds at most, and let others go first for so many."""
        said = []
        for path, steps in self.threads:
            said.append(" ".join(["thread"] + [str(number) for number in path]))
            said += [line for step in steps for line in step.lines(pause)]
        return said + ["after %d %d %d" % (step.number, step.after.number, shorter) for step in self.steps() if step.after]

    def locks_at(self, stop: Step) -> tuple[str, str]:
        """What the thread of a stop holds and waits for, by classes."""
        waits = [waiting.lock for waiting in self.ring.waits]
        return shown(waits[stop.stop - 2]), shown(waits[stop.stop - 1])


def shown(lock: str) -> str:
    return "the end of a thread" if lock.startswith(THREAD) else plain_key(class_of_lock(lock) + "/0")


class History:
    """The steps of a history up to where its tasks go on in a schedule."""

    def __init__(self, path: str, ring: Ring) -> None:
        self.last = {place.task: place.event.record for place in ring.schedule}
        self.last.update((waiting.place.task, waiting.place.event.record) for waiting in ring.waits)
        self.lasts_of_ring = {waiting.place.event.record: number for number, waiting in enumerate(ring.waits, 1)}
        self.calls, self.places = Places(path[:-len(".csv")] + ".calls"), Places(path)
        self.gives: Dict[str, List[int]] = {}  # messages of each task, in their order
        self.got: Dict[int, Tuple[str, bool]] = {}  # who got a message, and whether that is its first step
        self.takes: List[Step] = []  # in the order of the schedule
        self.tasks: List[str] = []
        with open(path, encoding="utf-8", errors="surrogateescape", newline="") as file:
            for record, words in enumerate(csv.reader(file), 1):
                self.take(record, words)

    def take(self, record: int, words: list[str]) -> None:
        task, verb, about, mode = (words + ["", "", "", ""])[:4]
        if record == 1 or verb not in ("take", "again", "give", "get"):
            return
        if verb == "give":
            self.gives.setdefault(task, []).append(int(about))
        elif verb == "get":
            self.got.setdefault(int(about), (task, task not in self.tasks))
        elif record <= self.last.get(task, 0) and not (about.startswith(THREAD) and mode == OWN_LIFE):
            self.takes.append(Step(record, task, about, mode, stop=self.lasts_of_ring.get(record, 0)))
        if task not in self.tasks:
            self.tasks.append(task)

    def paths(self) -> dict[str, tuple[int, ...]]:
        """How each task was started: by the numbers of the starts from the first thread on. A message that nobody gets is a start, too."""
        starter: Dict[str, Tuple[str, int]] = {}
        for task, messages in self.gives.items():
            starts = [message for message in messages if self.got.get(message, ("", True))[1]]
            starter.update((self.got[message][0], (task, number)) for number, message in enumerate(starts, 1) if message in self.got)
        return {task: path_of(task, starter) for task in self.tasks}

    def count(self) -> None:
        """Numbers the steps of each thread by their calls."""
        counts: Dict[Tuple[str, Address], int] = {}
        for step in self.takes:
            calls = self.calls.callers(step.record)
            if calls:
                counts[step.task, calls[0]] = counts.get((step.task, calls[0]), 0) + 1
                step.call, step.nth = Address(os.path.realpath(calls[0].module), calls[0].offset), counts[step.task, calls[0]]
                step.callers = tuple(self.places.callers(step.record))

    def link(self, followed: list[Step]) -> None:
        """Has each followed step come after what takes the same lock before it, in another thread, if one of both writes."""
        before: Dict[str, List[Step]] = {}
        wanted = {step.record for step in followed}
        for step in self.takes:
            earlier = before.setdefault(step.lock, [])
            if step.record in wanted and not step.stop and not step.lock.startswith(THREAD):
                step.after = next((other for other in reversed(earlier) if other.task != step.task and other.call and WRITES in (step.mode, other.mode)), None)
            if not step.stop:  # (where a thread stands it takes nothing)
                earlier.append(step)


def path_of(task: str, starter: dict[str, tuple[str, int]]) -> tuple[int, ...]:
    path: List[int] = []
    while task in starter and len(path) <= len(starter):
        task, number = starter[task]
        path.insert(0, number)
    return tuple(path)


@contextmanager
def made_histories(folder: str) -> Iterator[str]:
    """The folder with the histories of a recording, which are made again; empty if they can't be. That takes long, so it is done once for all findings."""
    with room_for(folder) as room:
        into, remade = os.path.join(room, HISTORY), os.path.join(room, "remade")
        os.mkdir(into)
        os.mkdir(remade)
        yield "" if write_histories(folder, into, remade) is None else into


def course_of(finding: Finding, histories: str) -> Course | None:
    """The course by the ring of a finding at which threads can stand still. Nothing if there is none, or if it isn't known which threads these are."""
    ring = finding.judged.ring if finding.judged else None
    if not ring or not ring.schedule or not histories:
        return None
    path = os.path.join(histories, os.path.basename(ring.waits[0].place.event.file))
    return course_in(ring, History(path, ring)) if os.path.exists(path) else None


def course_in(ring: Ring, history: History) -> Course | None:
    history.count()
    paths = history.paths()
    of_ring = [waiting.place.task for waiting in ring.waits]
    followed = [[step for step in history.takes if step.task == task and step.call][-MOST_OF_THREAD:] for task in of_ring]
    if any(not steps or not steps[-1].stop for steps in followed):
        return None
    history.link([step for steps in followed for step in steps])
    firsts = [step.after for steps in followed for step in steps if step.after and step.after.task not in of_ring]
    others = list(dict.fromkeys(step.task for step in firsts))[:MOST_FOLLOWED - len(of_ring)]
    course = Course(ring, [(paths[task], steps) for task, steps in zip(of_ring, followed)])
    room = MOST_POINTS - len(course.steps())
    for task in others:
        course.threads.append((paths[task], sorted({step.record: step for step in firsts if step.task == task}.values(), key=lambda step: step.record)[-room:]))
        room = max(1, MOST_POINTS - len(course.steps()))
    for number, step in enumerate(course.steps(), 1):
        step.number = number
    for step in course.steps():
        step.after = step.after if step.after and step.after.number else None
    return course if len(course.steps()) <= MOST_POINTS else None
