"""What shows a verdict: the steps of the schedule in which threads stand still, or the steps that keep one from coming to its wait."""
from __future__ import annotations

from dataclasses import dataclass

from ..base.words import counted
from ..binaries.symbols import place_words
from ..finish.joins import THREAD
from ..places.sources import Sources
from ..program.findings import Event, Finding
from ..program.schedules import Forced, Ring, Waiting
from ..record.threads import name_of_thread, thread_of
from .steps import MODES, awaited

WRITER, TAKES = "w", "takes"
MOST_FORCED = 12  # steps that are printed of one ring; the JSON has all of them
FORCED = {  # what a task has to do, or can't: the words for it, with its place, and with the other task's
    "ring": "{task} has to come to {place}",
    "message": "{other} goes on at {after} only when {task} has passed {place}",
    "order": "{other} takes {lock} at {after} only when {task} has released it",
    "none left": "so {task} is past the last place where it would wait",
    "never released": "{task} never releases what it takes at {place}, and {other} takes it at {after}",
}
BEGINS = "{other} begins only when {task} has passed {place}"  # where the other task gets its first message, which comes from no place
ENDED = "{other} goes on at {after} only when {task} has ended"  # where the task does it at no place, or the lock is that of a thread


@dataclass(frozen=True)
class RingStep:
    """What a task of a ring does: it takes a lock of the ring, or waits for one."""

    task: str
    verb: str
    lock: str
    mode: str
    event: Event

    @property
    def words(self) -> str:
        lock = awaited(self.lock) if self.verb == "waits for" else self.lock
        return "%s %s%s" % (self.verb, lock, MODES.get(self.mode, ""))


def ring_of(finding: Finding) -> Ring | None:
    return finding.judged.ring if finding.judged else None


def in_turn(ring: Ring) -> list[Waiting]:
    """What the tasks of a ring wait for, in the order in which the schedule has them go on."""
    turns = [place.task for place in ring.schedule]
    return sorted(ring.waits, key=lambda waiting: turns.index(waiting.place.task) if waiting.place.task in turns else len(turns))


def steps_of_ring(ring: Ring) -> list[RingStep]:
    """What the tasks of a ring do at last: each takes what another one waits for, in the order of the schedule, and then all wait, writers first, since a reader
    may wait behind one."""
    locks, tasks = {waiting.lock for waiting in ring.waits}, in_turn(ring)
    takes = [RingStep(waiting.place.task, TAKES, held.key, held.mode, held.event) for waiting in tasks for held in waiting.holds if held.key in locks]
    waits = sorted(tasks, key=lambda waiting: waiting.mode != WRITER)
    return takes + [RingStep(waiting.place.task, "waits for", waiting.lock, waiting.mode, waiting.place.event) for waiting in waits]


def called(task: str, finding: Finding) -> str:
    """A task of a history as a thread, with its name if that is known."""
    events = finding.own_events()
    folder = events[0].file.rpartition("/")[0] if events else ""
    name = name_of_thread("%s/%s.csv" % (folder, task))
    return "%s (%s)" % (thread_of(task), name) if name else thread_of(task)


def place_of(event: Event | None, sources: Sources) -> str:
    """Where a step comes from."""
    if not event:
        return "a step"
    return place_words(sources.frames(event)) or "record %d" % event.record


def step_line(step: RingStep, finding: Finding, sources: Sources) -> str:
    if step.verb == TAKES and step.lock.startswith(THREAD) and is_placeless(step.event, sources):
        return "%s begins" % called(step.task, finding)
    return "%s %s: %s" % (called(step.task, finding), step.words, place_of(step.event, sources))


def others_line(ring: Ring) -> list[str]:
    """How many other tasks have to go on before; the JSON has how far."""
    own = {waiting.place.task for waiting in ring.waits}
    others = sum(place.task not in own for place in ring.schedule)
    return ["first, %s" % counted(others, "other thread goes on", "other threads go on")] if others else []


def is_placeless(event: Event | None, sources: Sources) -> bool:
    """Whether no caller of a step was recorded, as where a thread begins."""
    return event is not None and not sources.callers.get(event)


def form_of(forced: Forced, lock: str, sources: Sources) -> str:
    if forced.by == "message" and forced.after and is_placeless(forced.after.event, sources):
        return BEGINS
    is_end = forced.by == "message" and is_placeless(forced.event, sources) or forced.by == "order" and lock.startswith(THREAD)
    return ENDED if is_end else FORCED.get(forced.by, "{task}: " + forced.by)


def forced_line(forced: Forced, finding: Finding, sources: Sources) -> str:
    after, other = (place_of(forced.after.event, sources), called(forced.after.task, finding)) if forced.after else ("", "")
    lock = finding.judged.locks.get(forced.after.event, "") if finding.judged and forced.after else ""
    return form_of(forced, lock, sources).format(task=called(forced.task, finding), place=place_of(forced.event, sources), after=after, other=other,
                                                 lock=lock or "the lock")


def judged_lines(finding: Finding, sources: Sources) -> list[str]:
    """The steps that show a verdict, each in a line; none if it isn't shown by such."""
    ring = ring_of(finding)
    if not ring:
        return []
    if ring.schedule:
        return others_line(ring) + [step_line(step, finding, sources) for step in steps_of_ring(ring)]
    lines = [forced_line(forced, finding, sources) for forced in ring.because[:MOST_FORCED]]
    left = len(ring.because) - MOST_FORCED
    return lines + ["and %s" % counted(left, "more step")] if left > 0 else lines
