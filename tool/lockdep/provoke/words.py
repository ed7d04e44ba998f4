"""Threads that stand still, as a person reads of them."""
from __future__ import annotations

from ..record.provoked import Stood
from .course import Course
from .plan import PlannedOrder, orders_at
from .reasons import classes_of
from .standing import Standing, shown_places


def stood(standing: list[Standing], plan: list[PlannedOrder], course: Course | None) -> list[Stood]:
    """Threads that stand still, as they are told. What a writer waits for is known by a reader behind it."""
    found = []
    for thread in standing:
        reader = next((other for other in standing if thread.is_writer and other.is_behind and other.awaited == thread.awaited), thread)
        words = locks_of(thread, classes_at(reader, plan, course))
        found.append(Stood(thread.number, thread.name, words, shown_places(thread.waits), shown_places(thread.holds)))
    return found


def classes_at(thread: Standing, plan: list[PlannedOrder], course: Course | None) -> tuple[str, str] | None:
    """What a thread holds and waits for, by classes: as the schedule has it at which it stands, or else the orders. Nothing if it is at none."""
    stop = next((step for step in course.stops() if step.number == thread.point), None) if course and thread.point else None
    if course and stop:
        return course.locks_at(stop)
    numbers = orders_at(thread, plan)
    return classes_of(plan[min(numbers) - 1]) if numbers else None


def locks_of(thread: Standing, classes: tuple[str, str] | None) -> str:
    """What a thread holds and waits for, of which the classes may be known. Locks of one class are told apart as the run has them, since a number that the recording gave to one says
    nothing of another run."""
    start, end = classes or ("a lock", "a lock" if thread.awaited == thread.held or thread.is_joined else "another")
    if thread.is_writer:
        return "waits as a writer for %s, before a reader that waits behind it" % (end if classes else "a lock")
    behind = ", behind a writer that waits" if thread.is_behind else ""
    if thread.awaited == thread.held:
        return "holds %s and waits for it%s" % (start, behind)
    if classes and start == end:
        start, end = "%s %s" % (start, thread.held), "%s %s" % (end, thread.awaited)
    holds = "has yet to end" if thread.is_joined else "holds " + start
    return "%s and waits for %s%s" % (holds, "the end of thread %d" % thread.joins if thread.joins else end, behind)

