"""Makes the traces of a recording from what its processes wrote (`log`), by the recorders of Python, Java, Rust and Go."""
from __future__ import annotations

import os

from ..record.losses import words_of_loss
from ..record.summary import NOTED, Count, Summary
from . import handler_sets
from .class_names import FORMS, PLAIN, Names
from .finishing import (LOSSES, MOST_TRACES, OBJECTS, Taken, Tally, Trace as AnyTrace, is_running, trace_name, write_classes, write_tasks, write_weak)
from .joins import THREAD
from .log import RELEASE, TIMED, Process, Task, read_all

TYPE_CHECKING = False  # for a tool that checks types, it is true
if TYPE_CHECKING:
    from typing import Callable

MOST_ALIKE = 2
MOST_HELD = 48  # locks that a trace has at a time
LIFE = "life"  # the key of a thread in its own trace
WORDS = ("w", "tw", "", "r", "tr", "r", "w", "w")  # of the modes; that of a release is empty
WEAK = dict.fromkeys(TIMED, "timed")  # what `weak` says of modes


class Trace(AnyTrace):
    """The trace of a task. `lost` counts what isn't in it, since there are too many classes, and `beyond_held` how often what its thread is itself
    couldn't be among what is held."""

    def __init__(self, task: Task, names: Names) -> None:
        super().__init__()
        self.task, self.names, self.lost, self.beyond_held = task.parts[-1], names, 0, 0
        self.is_joined = task.process.joins.is_kept(task.life)
        self.has_left_out = False  # a join that doesn't matter
        self.ending: set[int] = set()  # acquisitions that may end by themselves, by their lines
        self.parts = task.parts
        self.segments: list[tuple[Task, int, int]] = []  # of each part the first line, and the one after it
        self.take_life()
        for part in task.parts:
            self.take_part(part)
        if self.task.has_ended:
            self.give_back(LIFE)

    def take_part(self, part: Task) -> None:
        start = len(self.by_lock) if self.segments else 1
        left_out = part.process.left_out
        for code, place in part.records:
            if code >> 3 in left_out:
                self.has_left_out = True
                continue
            if code & 7 != RELEASE:
                self.take_record(code, place)
                continue
            self.give_back(code >> 3)
            if self.is_joined:
                self.take_life()
        for taken in list(reversed(self.held)) if part is not self.task else []:  # (as after an error in the recorder)
            self.give_back(taken.key)
        self.segments.append((part, start, len(self.by_lock)))

    def take_life(self) -> None:
        """If nothing else is held, the thread has what it is itself, from its start on."""
        if not self.is_joined or self.held:
            return
        key = self.task.process.key(self.task.life)
        is_written = self.names.use(key[0])
        self.take(LIFE, key[0].name, self.names.of_lock(key) if is_written else None, "w", [key[0].place])

    def take_record(self, code: int, place: int) -> None:
        if self.is_joined and len(self.held) == MOST_HELD:
            self.give_back(LIFE)
            self.beyond_held += 1
        process = self.task.process
        taken = process.taken.get(code)
        if taken is None:
            taken = process.taken[code] = self.taken_by(code)
        self.take_known(taken, process.places.get(place, ()))
        if taken.lock is None:
            self.lost += 1
        if taken.weak:
            self.ending.add(len(self.by_lock) - 1)

    def taken_by(self, code: int) -> Taken:
        """What an acquisition takes."""
        key = self.task.process.key(code >> 3)
        lock = self.names.of_lock(key) if self.names.use(key[0]) else None
        return Taken(code >> 3, key[0].name, lock, WORDS[code & 7], WEAK.get(code & 7, ""))

    def held_classes(self) -> list[str]:
        return [taken.of for taken in self.held if taken.key != LIFE]

    def of_threads(self) -> int:
        """How many of its events aren't the program's own operations, since a thread is what they take."""
        return sum(line.startswith(("acq," + THREAD, "rel," + THREAD)) for line in self.by_class)


class Finish:
    """The traces of all tasks, in turn. If the recorder is a part of the program, which writes by itself into the folder that it is told, locks are named
    by the processes that have traces, and what was counted may be older than the records."""

    def __init__(self, path: str, raw: str, recorder: str, is_by_itself: bool) -> None:
        self.path, self.tally, self.is_by_itself = path, Tally(recorder), is_by_itself
        self.names, self.processes = Names(FORMS.get(recorder, PLAIN)), read_all(raw)
        self.named: list[tuple[str, int, str]] = []  # the traces: the process of each, and what its thread is called
        self.written: list[tuple[str, Trace]] = []
        self.uncounted = 0  # events that are no operations

    def number_processes(self) -> None:
        """Numbers the processes, as their locks are called."""
        traced = [process for process in self.processes if process.tasks]
        for number, process in enumerate(traced if self.is_by_itself else self.processes, 1):
            process.number = number
        self.names.is_many = len(self.processes if self.is_by_itself else traced) > 1

    def tasks(self) -> list[Task]:
        """The tasks that did something, in the order of their processes."""
        return [task for process in self.processes for task in process.tasks.values() if task.is_seen() or self.is_by_itself and task.last]

    def write_all(self) -> list[Count]:
        """Writes the traces of all tasks, the sets of signals' handlers, and the classes. Returns lines of SUMMARY."""
        self.number_processes()
        self.names.name_all(self.processes)
        os.makedirs(os.path.join(self.path, OBJECTS), exist_ok=True)
        tasks = self.tasks()
        for task in tasks if self.is_by_itself else chosen(tasks, self.tally):
            if self.tally.numbers.get("threads") == MOST_TRACES:
                self.tally.add("beyond-traces")
            else:
                self.make(task)
        write_tasks(self.path, self.named)
        write_weak(self.path, [(name, trace.weak) for name, trace in self.written])
        lines: list[Count] = handler_sets.write_sets(self.path, self.processes, self.written, self.names.reentrant(), self.tally)
        write_classes(self.path, self.names.listed())
        return lines

    def make(self, task: Task) -> None:
        """Makes the trace of a task, if there is anything in it."""
        trace = Trace(task, self.names)
        self.tally.add("beyond-classes", trace.lost)
        self.tally.add("beyond-held", trace.beyond_held)
        is_kept = self.is_by_itself and (trace.lost > 0 or not trace.has_left_out)
        if not trace.events() and not is_kept:
            return
        self.tally.add("threads")
        self.tally.add("events", trace.events())
        if self.is_by_itself:
            self.uncounted += trace.of_threads()
        name = trace_name(self.tally.numbers["threads"])
        task.trace = name
        self.note_end(trace, name)
        trace.write(self.path, name)
        self.named.append((name, task.process.pid, task.name))
        self.written.append((name, trace))

    def note_end(self, trace: Trace, name: str) -> None:
        """Who waits for a lock at the end, and who ended with one."""
        task = trace.task
        self.tally.note_end(name, trace.held_classes(), task.process.joins.is_waiting(task), task.has_ended)
        for codes in [codes for part in trace.parts for codes in part.broken_off]:
            names = [task.process.key(code >> 3)[0].name for code in codes]
            self.tally.note("waiting", "%s waited for %s, holding %s, until that was interrupted" % (name, names[-1], ", ".join(names[:-1])))

    def count(self) -> None:
        """Adds what the processes counted."""
        for process in self.processes:
            for name, count in process.counts.items():
                self.tally.add({"alike": "threads-alike"}.get(name, name), count)
            self.tally.add("still-running", is_running(process.pid) and (not self.is_by_itself or self.has_folder(process)))

    def has_folder(self, process: Process) -> bool:
        """Whether a process was told this folder."""
        try:
            with open("/proc/%d/environ" % process.pid, "rb") as file:
                return os.fsencode(self.path) in file.read()
        except OSError:
            return False

    def summary(self, of_starts: list[Count], of_signals: list[Count]) -> Summary:
        """What was counted. If nothing was seen, the reason is RECORDER-nothing, or RECORDER-off if nothing was recorded."""
        tally, numbers = self.tally, self.tally.numbers
        if self.is_by_itself:
            numbers["operations"] = max(numbers.get("operations", 0), numbers.get("events", 0) - self.uncounted)
        counts = tally.recorded(len([process for process in self.processes if not process.is_inner]), len(self.names.used)) + tally.counts(NOTED)
        if not numbers.get("operations"):
            counts.append(Count("unseen %s-%s" % (tally.recorder, "nothing" if self.processes else "off"), None))
        elif self.names.are_all_of_library():
            library = [Count("library-only", len(self.names.used), words_of_loss("library-only", tally.recorder))]
            return Summary((counts + tally.counts(LOSSES) + library) if self.is_by_itself else
                           (counts + library + of_starts + tally.counts(LOSSES) + of_signals))
        return Summary(counts + of_starts + tally.counts(LOSSES) + of_signals)


def finish(path: str, raw: str, recorder: str, is_by_itself: bool, counts_of_starts: Callable[[list[Process]], list[Count]] | None = None,
           histories: str = "") -> tuple[Summary, list[Process]]:
    """Writes the traces of a recording and its classes, and the histories of its processes into a folder, if one is given. The result is what was counted,
    and what the processes wrote: what they started is counted by who knows of it."""
    making = Finish(path, raw, recorder, is_by_itself)
    of_signals = making.write_all()
    making.count()
    of_starts = counts_of_starts(making.processes) if counts_of_starts else []
    if histories:
        from .log_history import write_histories
        of_signals += write_histories(histories, making.names, making.processes, recorder)
    return making.summary(of_starts, of_signals), making.processes


def chosen(tasks: list[Task], tally: Tally) -> list[Task]:
    """The tasks whose traces are written: as many as a run takes."""
    if len(tasks) <= MOST_TRACES:
        return tasks
    like: dict[object, int] = {}
    kept = []
    for task in tasks:
        content = task.content()
        like[content] = like.get(content, 0) + 1
        if like[content] <= MOST_ALIKE or task.waits:
            kept.append(task)
    tally.add("threads-alike", len(tasks) - len(kept))
    tally.add("beyond-traces", max(0, len(kept) - MOST_TRACES))
    return kept[:MOST_TRACES]
