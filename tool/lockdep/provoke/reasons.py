"""Why a finding didn't happen in the runs that tried it."""
from __future__ import annotations

from dataclasses import dataclass, field
from typing import NamedTuple

from ..base.words import class_of_lock, counted, name_in, plain_key
from ..binaries.symbols import Address, Symbols, place_words, without_wrappers
from ..record.threads import thread_of
from .course import Course, Step
from .plan import PlannedOrder
from .runs import Outcome
from .standing import Doubt, Waiting, shown_places, status_words
from .table import ASKED, MOST_ORDERS, Counts, Last, Place, Table
from .ways import PAUSES

TYPE_CHECKING = False
if TYPE_CHECKING:
    from ..record.handlers import Handler

LAST_CALLERS = 2  # that are told of a thread that waits at a run's limit, or turned off
KEPT_BACK = "%s waits there for what %s holds, and so doesn't come to where it was to stand"
NOT_COME = "%s doesn't come there"
LATE = "%s comes there only when %s, which was held back, goes on"


@dataclass
class Tried:
    """What the runs for a finding have shown: the most that was counted of each order in one of them, the statuses of the programs, how many were ended at
    their limit, how many followed the schedule, and where threads turned off from it in them."""

    plan: list[PlannedOrder]
    counts: dict[int, Counts] = field(default_factory=dict)
    statuses: list[int] = field(default_factory=list)
    ended: int = 0
    waited: str = ""
    followed: int = 0
    turns: list[Turn] = field(default_factory=list)
    over: set[int] = field(default_factory=set)  # orders at which all pauses may be over before a thread comes to the others
    longest: float = 0.0
    is_watched: bool = True  # whether all its locks are of kinds that are watched
    runs: int = 0
    failed: list[int] = field(default_factory=list)  # the statuses of runs that ended as the recorded one didn't

    def take(self, outcome: Outcome, table: Table) -> None:
        self.runs += 1
        found = counts_of(table, self.plan)
        self.over |= {order for order in found if found[order].reached and self.is_over_early(order, found)}
        for order, count in found.items():
            before = self.counts.get(order, count)
            self.counts[order] = Counts(*(max(pair) for pair in zip(before, count)))
        self.longest = max(self.longest, outcome.went_on)
        if outcome.status is not None:
            self.statuses.append(outcome.status)
        if outcome.waiting is not None:
            self.ended += 1
            self.waited = waiting_words(outcome.waiting)

    def is_over_early(self, order: int, found: dict[int, Counts]) -> bool:
        """Whether threads came to an order for the last time before any came to another one. Those of the same places are counted as one: then it is enough
        that threads came to them at times longer apart than a pause."""
        own = found[order]
        return any(own.last < other.first for other in found.values()) or (self.alike(order) > 1 and own.last - own.first > PAUSES[0])

    def seldom_come_to(self) -> set[int]:
        """The orders at which all pauses may be over when threads come to the others, also because one came to them once."""
        return self.over | {order for order, count in self.counts.items() if count.reached == self.alike(order)}

    def alike(self, order: int) -> int:
        """How many orders have the same places as this one."""
        places = [planned.lines() for planned in self.plan]
        return places.count(places[order - 1])

    def follow(self, turn: Turn | None) -> None:
        """A run followed the schedule, and its threads perhaps turned off."""
        self.followed += 1
        self.turns += [turn] if turn else []

    def is_refuted(self) -> bool:
        """Whether each run by the schedule turned off, so that it can't be followed as far as is known, and there were runs by pauses that went as they should."""
        others = self.runs - self.followed - self.ended - len(self.failed)
        return 0 < self.followed == len(self.turns) and not any(turn.is_late for turn in self.turns) and others > 0

    def turning_words(self) -> str:
        """Where threads turned off in the runs by the schedule, at the place where most did."""
        if not self.turns:
            return ""
        places = [turning_words(turn) for turn in self.turns]
        most = max(places, key=places.count)
        is_each = places.count(most) == self.followed
        runs = counted(self.followed, "run") if is_each else "%d of %s" % (places.count(most), counted(self.followed, "run"))
        return "in %s%s by the schedule its threads turned off at %s" % ("each of " if is_each and self.followed > 1 else "", runs, most)

    def doubts(self) -> list[Doubt]:
        """What earlier runs have shown that could end a standstill, though nobody knows what it was."""
        return [Doubt("threads had stood still for %.1f s in an earlier run, and gone on" % self.longest, False)] if self.longest else []

    def words(self, against: str) -> str:
        """Why the finding didn't happen, and what the recording says against it."""
        said = [self.failed_words()] if self.failed else []
        if self.ended:
            said.append("%s ended at the limit while %s" % (counted(self.ended, "run was", "runs were"), self.waited))
        if self.longest:
            said.append("threads stood still for %.1f s in one, and went on" % self.longest)
        if self.turns:
            said.append("possible by locks; " + self.turning_words())
        if len(said) == self.has_some_failed():
            said.append(why_not(self.counts, self.plan) + ("" if self.is_watched else "; one of its locks may be of a kind that isn't watched"))
        if against:
            said.append(against)
        if not self.failed and len(set(self.statuses)) == 1 and self.statuses[0]:
            said.append("each run ended with " + status_words(self.statuses[0]))
        return "; ".join(said)

    def has_some_failed(self) -> bool:
        """Whether some runs ended as the recorded one didn't, and others didn't."""
        return 0 < len(self.failed) < self.runs

    def failed_words(self) -> str:
        """How runs ended, if the recorded one didn't end so: that holding threads back did it is said only if all did."""
        statuses = " or ".join(dict.fromkeys(map(status_words, self.failed)))
        if self.has_some_failed():
            return "%d of %d runs ended with %s, and the recorded one didn't" % (len(self.failed), self.runs, statuses)
        return "holding threads back made the program end with " + statuses


def counts_of(table: Table, plan: list[PlannedOrder]) -> dict[int, Counts]:
    """The counts of the orders by their numbers. Several orders of the same places have those of the first of them."""
    firsts: dict[tuple[str, ...], int] = {}
    for order, planned in enumerate(plan[:MOST_ORDERS], 1):
        firsts.setdefault(tuple(planned.lines()), order)
    return {order: table.counts(order - 1) for order in firsts.values()}


def why_not(counts: dict[int, Counts], plan: list[PlannedOrder]) -> str:
    """Why nothing happened, by the counts."""
    aside = [order for order, count in counts.items() if count.aside]
    if aside:
        return "the second lock of order %d is one of asyncio, whose tasks aren't held back" % aside[0]
    missed = [order for order, count in counts.items() if not count.reached]
    if missed:
        return "%s by a wait without an end" % never_came(missed[0], plan)
    alone = [order for order, count in counts.items() if not count.under]
    if alone:
        first = plan[alone[0] - 1]
        return never_came(alone[0], plan) + (" in a thread that held %s" % classes_of(first)[0] if first.handler else " with the first one held")
    if len(plan) == 1 and plan[0].handler:
        return went_on_words(plan[0].handler, plan[0], counted(counts[1].under, "time"))
    return "its orders were never under way at once (they were reached %s times)" % " and ".join(str(count.under) for count in counts.values())


def went_on_words(handler: Handler, planned: PlannedOrder, times: str) -> str:
    """That a handler didn't wait for ever for the lock that its thread held. No signal is sent at the moment in which a lock doesn't know its owner."""
    lock = classes_of(planned)[1]
    if handler.is_narrow(planned.order.end):
        return ("the handler for %s came to %s %s in a thread that held it, and didn't wait: %s knows its owner, but for narrow moments, in which no "
                "signal is sent") % (handler.signal, lock, times, lock)
    return "the handler for %s waited for %s %s, and went on each time" % (handler.signal, lock, times)


def never_came(order: int, plan: list[PlannedOrder]) -> str:
    """That nobody came to the second lock of an order: for that of a signal this is the lock that its handler takes."""
    planned = plan[order - 1]
    if planned.handler:
        return "the handler for %s was never seen to come to %s" % (planned.handler.signal, classes_of(planned)[1])
    return "no thread was seen to come to the second lock of order %d" % order


def classes_of(planned: PlannedOrder) -> tuple[str, str]:
    start, end = (plain_key("%s/%s" % (class_of_lock(name_in(key)), key.rpartition("/")[2])) for key in (planned.order.start, planned.order.end))
    return start, end


# ---- Where threads were.


def frames_words(places: list[Address], most: int) -> str:
    """Callers in words, the innermost first."""
    symbols = Symbols()
    for place in places:
        symbols.want(place)
    symbols.ask()
    return place_words(without_wrappers([frame for place in places for frame in symbols.frames(place)])[:most])


def waiting_words(threads: list[Waiting]) -> str:
    """The threads that waited when a run was ended."""
    said = ["thread %d%s waited %s%s" % (thread.number, ' "%s"' % thread.name if thread.name else "", thread.what, at_words(thread.waits))
            for thread in threads]
    return " and ".join(said) or "no thread waited for a lock"


def at_words(places: list[Place]) -> str:
    words = frames_words(list(shown_places(places)), LAST_CALLERS)
    return " in " + words if words else ""


# ---- Where threads turned off from the schedule.


class Turn(NamedTuple):
    """The first step of the schedule that a thread didn't come to while others stood, and what is known of why. It shows nothing if another thread had
    to go on by the time: this one may only have been slow."""

    step: Step
    why: str
    is_late: bool = False


def turning(course: Course, last: Last) -> Turn | None:
    """Where a thread turned off in a run. Nothing if all came to where they were to stand."""
    steps, is_late = course.steps(), last.stands > 0 and not last.waits
    if last.waits:
        step, other = steps[last.waits - 1], steps[last.stands - 1]
        return Turn(step, KEPT_BACK % (thread_of(step.task), thread_of(other.task)))
    for _, followed in course.threads:
        if followed[-1].stop and last.passed[followed[-1].number] < ASKED:
            step = next(step for step in followed if last.passed[step.number] < ASKED)
            return Turn(step, NOT_COME % thread_of(step.task), is_late)
    if is_late:
        other = steps[last.stands - 1]
        late = next((step for step in course.stops() if step.task != other.task), other)
        return Turn(late, LATE % (thread_of(late.task), thread_of(other.task)), True)
    return None


def turning_words(turn: Turn) -> str:
    """Where threads turned off in a run, and why."""
    step = turn.step
    return "%s: %s" % (frames_words(list(step.callers), LAST_CALLERS) or "a step of %s" % thread_of(step.task), turn.why)
