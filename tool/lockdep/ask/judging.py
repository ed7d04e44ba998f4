"""The verdicts of findings: can the recorded steps be put into another order, which the threads could have taken, in which they stand still there?"""
from __future__ import annotations

import os
from dataclasses import dataclass
from typing import Dict, FrozenSet, List, Set, Tuple

from ..base.room import room_for
from ..base.words import name_in
from ..program.findings import Event, Finding, Order
from ..program.schedules import APART, NOT_KNOWN, NOT_SHOWN, POSSIBLE, Ring
from ..program.verdicts import Judgement, Level, Reason, Verdict
from ..record.folder import WEAK
from ..record.threads import number_of_thread
from .lives import Lives, lives_in, thread_of
from .scheduled import Scheduled, orders_of, scheduled_in, type_of
from .timed import judge_marked
from .verdict import Recorded, gate_of_all

ASKED = (Level.LOCKS, Level.PERHAPS, Level.UNKNOWN)  # levels of which a history may say more
STRENGTH = (POSSIBLE, NOT_KNOWN, NOT_SHOWN, APART)
UNTRIED = "not all orders of its steps were tried"
LEFT_OUT = "a lock of its classes is left out of the order of steps: it was taken while another thread had it, or released by one that hadn't"
ABSENT = "a lock of its classes isn't in the order of steps%s"
BROKEN_OFF = "a wait for a lock of its classes was broken off: the order of steps has no wait that didn't end"
INSIDE = "the order of steps has none of C libraries that the program loads"
UNSTARTED = "nothing says what comes before a thread that takes a lock of its classes: its start wasn't seen"
IS_ABSENT, IS_BROKEN_OFF, IS_UNSTARTED = "absent", "broken-off", "unstarted"  # words in a list of what isn't in a history
INTERRUPTS = "the order of steps doesn't say when an interrupt may come in"
PENDING = "a thread still waited in one of these orders, or held what it took in it, at the end: the order of steps has no wait that didn't end"
NO_RING = "no order of steps goes over several processes, and no single one has threads that could wait for one another in these orders"

Orders = FrozenSet[Tuple[str, str]]  # of locks by their types: each is held where the other one is waited for
Slot = Tuple[str, int]  # a thread, or one of those that its trace stands for


def orders_in(finding: Finding) -> Orders:
    """The orders of a cycle, whose keys are types."""
    return frozenset((name_in(order.start), name_in(order.end)) for order in finding.orders)


def made_by(orders: Orders, findings: list[Finding]) -> list[Finding]:
    """The findings that a ring with these orders makes: those that have them; if none has, those whose orders are among them; and else those that share
    one."""
    same = [finding for finding in findings if orders_in(finding) == orders]
    inside = same or [finding for finding in findings if orders_in(finding) <= orders]
    return inside or [finding for finding in findings if orders_in(finding) & orders]


def strength(ring: Ring) -> tuple[int, bool, int]:
    return STRENGTH.index(ring.verdict), ring.joins, len(ring.waits)


def rings_of(findings: list[Finding], rings: list[Ring]) -> dict[int, Ring]:
    """The strongest ring that makes each finding, by its place. A finding that none makes may be shown by the single locks of another cycle: then it is the
    strongest one with the orders of these."""
    found: Dict[int, Ring] = {}
    rings = sorted(rings, key=strength)
    with_orders: Dict[Orders, List[Finding]] = {}
    for finding in findings if rings else ():
        with_orders.setdefault(orders_in(finding), []).append(finding)
    for ring in rings:
        for finding in with_orders.get(orders_of(ring)) or made_by(orders_of(ring), findings):
            found.setdefault(finding.place, ring)
    strongest = {orders_of(ring): ring for ring in reversed(rings)}
    for finding in findings if rings else ():
        of_locks = strongest.get(orders_of_locks(finding))
        if of_locks:
            found.setdefault(finding.place, of_locks)
    return found


def orders_of_locks(finding: Finding) -> Orders:
    """The orders of the single locks that a finding is shown by, by their types."""
    inner = finding.between.finding if finding.between else None
    return frozenset((type_of(name_in(order.start)), type_of(name_in(order.end))) for order in inner.orders) if inner else frozenset()


@dataclass(frozen=True)
class AtEnd:
    """How the threads of a recording ended: the cycles of those that stood still, by their orders, and the records that took what traces hold at their
    end, or wait for."""

    stood: tuple[Orders, ...] = ()
    held: frozenset[Event] = frozenset()


def judge(findings: list[Finding], at_end: AtEnd, folder: str, traces: list[str], recorded: Recorded) -> None:
    """Judges what was found in a recording: the cycles in which its threads stood still at the end, by their orders; others by the rings of its histories;
    then what needs acquisitions that it marks, then cycles without a ring; and of the rest why nothing is known."""
    cycles = [finding for finding in findings if finding.type == "circle" and finding.level in ASKED]
    for orders in at_end.stood:
        for finding in made_by(frozenset((type_of(one), type_of(other)) for one, other in orders), cycles):
            finding.judged = Judgement(Verdict.HAPPENED)
    cycles = [finding for finding in cycles if not finding.judged]
    scheduled = scheduled_in(folder) if cycles else Scheduled()
    rings, of_cycles = rings_of(cycles, scheduled.rings), {finding.place for finding in cycles}
    for finding in cycles:
        finding.judged = judgement_of(finding, rings.get(finding.place), scheduled, folder, recorded)
    if os.path.exists(os.path.join(folder, WEAK)):
        with room_for(folder) as room:
            judge_marked(findings, folder, traces, room)
    for finding in findings:
        if finding.level in ASKED and not finding.judged:
            is_whole = finding.place in of_cycles and not why_not_whole(finding, scheduled)
            without = judgement_without(finding, scheduled, at_end, folder, recorded) if is_whole else None
            finding.judged = without or Judgement(Verdict.NOT_KNOWN, why=why_unknown(finding, scheduled))


def why_not_whole(finding: Finding, scheduled: Scheduled) -> str:
    """Why the histories don't say all of a finding; empty if they do."""
    reasons = {scheduled.left_out[name] for order in orders_in(finding) for name in order if name in scheduled.left_out}
    files = {os.path.basename(sighting.event.file) for order in finding.orders for sighting in order.sightings}
    if scheduled.traces and not files <= scheduled.traces:
        return INSIDE
    if scheduled.why or not reasons:
        return scheduled.why
    if reasons == {IS_ABSENT}:
        return ABSENT % (scheduled.absent and ", which has " + scheduled.absent)
    if IS_UNSTARTED in reasons:
        return UNSTARTED
    return BROKEN_OFF if reasons <= {IS_ABSENT, IS_BROKEN_OFF} else LEFT_OUT


def why_unknown(finding: Finding, scheduled: Scheduled) -> str:
    """Why nothing is known of a finding that wasn't judged."""
    if finding.between.reason or finding.type != "circle":
        return finding.between.reason or INTERRUPTS
    return why_not_whole(finding, scheduled) or NO_RING


def judgement_of(finding: Finding, ring: Ring | None, scheduled: Scheduled, folder: str, recorded: Recorded) -> Judgement | None:
    """What the strongest ring of a cycle says of it; nothing if there is none, or if the histories don't say all and so another one may be possible."""
    if ring and is_guarded_by_absent(finding, ring, scheduled):
        return Judgement(Verdict.NOT_SHOWN, Reason.ONE_LOCK)
    if ring and ring.verdict == POSSIBLE:
        return Judgement(Verdict.BY_JOIN if ring.joins else Verdict.POSSIBLE, ring=ring, callers=scheduled.callers, locks=scheduled.locks)
    if not ring or why_not_whole(finding, scheduled):
        return None
    if ring.verdict == NOT_KNOWN:
        return Judgement(Verdict.NOT_KNOWN, why=UNTRIED, ring=ring, callers=scheduled.callers, locks=scheduled.locks)
    if ring.verdict == APART and are_too_few_alike(finding.between.finding, folder, recorded):
        return Judgement(Verdict.NOT_SHOWN, Reason.LIKE_THREADS)
    verdict, reason = (Verdict.APART, None) if ring.verdict == APART else (Verdict.NOT_SHOWN, Reason.ORDER)
    return Judgement(verdict, reason, ring=ring, callers=scheduled.callers, locks=scheduled.locks)


def is_guarded_by_absent(finding: Finding, ring: Ring, scheduled: Scheduled) -> bool:
    """Whether one single lock was held round all orders of a ring of which the histories have no step: they seem to let two threads be inside it at
    once."""
    inner = finding.between.finding
    is_of_ring = inner and len(inner.orders) > 1 and {name_in(key) for key in inner.keys} == {waiting.lock for waiting in ring.waits}
    gate = gate_of_all(inner) if is_of_ring else None
    return gate is not None and scheduled.left_out.get(type_of(name_in(gate.key))) == IS_ABSENT


def judgement_without(finding: Finding, scheduled: Scheduled, at_end: AtEnd, folder: str, recorded: Recorded) -> Judgement | None:
    """Why a cycle has no ring in histories that say all of it; nothing if that isn't known. The single locks may be those of another cycle that shares an
    order with it, so there have to be threads for both. A lock that one thread held each time keeps nobody else out, so threads are counted first. A wait
    that didn't end is in no history."""
    inner = finding.between.finding
    if inner is None:
        return None
    lacking = [cycle for cycle in (inner, finding) if not have_enough_threads(cycle, recorded)]
    if lacking:
        is_like = all(may_have_like(cycle, folder, recorded) for cycle in lacking)
        return Judgement(Verdict.NOT_SHOWN, Reason.LIKE_THREADS if is_like else Reason.FEWER_THREADS)
    if len(inner.orders) > 1 and gate_of_all(inner):
        return Judgement(Verdict.NOT_SHOWN, Reason.ONE_LOCK)
    if scheduled.processes != 1:
        return None
    is_pending = any(sighting.event in at_end.held for cycle in (inner, finding) for order in cycle.orders for sighting in order.sightings)
    return Judgement(Verdict.NOT_KNOWN, why=PENDING) if is_pending else Judgement(Verdict.NOT_SHOWN, Reason.NO_RING)


# ---- How many threads had the orders.


def traces_of(order: Order) -> list[str]:
    """The traces that are known to have an order."""
    return list(dict.fromkeys(sighting.event.file for sighting in order.sightings))


def known_traces(cycle: Finding) -> list[list[str]]:
    """The traces of each order of a cycle of which all are named."""
    return [traces_of(order) for order in cycle.orders if 0 < order.traces <= len(order.sightings)]


def slots_of(traces: list[str], most: int, recorded: Recorded) -> list[Slot]:
    """The threads of traces, at most so many of each. Runs of signal handlers are of the thread that they interrupt."""
    return [(number_of_thread(file) or thread_of(file), number) for file in traces for number in range(min(most, recorded.stands_for(file)))]


def have_enough_threads(cycle: Finding, recorded: Recorded) -> bool:
    """Whether each order can be had by a thread of its own. Where it isn't known which traces have one, or more have it than are named, there is one."""
    return can_each_have_one(known_traces(cycle), recorded)


def can_each_have_one(orders: list[list[str]], recorded: Recorded) -> bool:
    """Whether a thread of its own can be found for each order, among those that its traces are of."""
    choices = [slots_of(traces, len(orders), recorded) for traces in orders]
    taken: Dict[Slot, int] = {}
    return all([finds_slot(number, choices, taken, set()) for number in range(len(choices))])


def finds_slot(number: int, choices: List[List[Slot]], taken: Dict[Slot, int], passed: Set[Slot]) -> bool:
    """Gives an order a thread of its own, if others can have another one then."""
    for slot in choices[number]:
        if slot not in passed:
            passed.add(slot)
            if slot not in taken or finds_slot(taken[slot], choices, taken, passed):
                taken[slot] = number
                return True
    return False


def may_have_like(cycle: Finding, folder: str, recorded: Recorded) -> bool:
    """Whether there are enough threads for a cycle with others that are like those that had its orders, and ran at the same time; or whether that isn't
    known: as of a trace that is of several threads, or of runs of a signal's handler, which may have come in anywhere."""
    lives = lives_in(folder)
    alone = [traces for traces in known_traces(cycle) if not any(lives.has_like(thread) or not lives.tells_of(thread) for thread in map(thread_of, traces))]
    return not lives.are_known or can_each_have_one(alone, recorded)


def are_too_few_alike(cycle: Finding | None, folder: str, recorded: Recorded) -> bool:
    """Whether threads that others are like had all orders, but too few of them at the same time: another one may do then what these did, and nothing is
    known to keep it apart."""
    lives = lives_in(folder)
    orders = [[file for file in traces_of(order) if lives.has_like(thread_of(file))] for order in (cycle.orders if cycle else ())]
    return bool(orders) and all(orders) and not can_meet(orders, [], lives, recorded)


def can_meet(orders: list[list[str]], chosen: list[str], lives: Lives, recorded: Recorded) -> bool:
    """Whether a thread of its own can be found for each order, all of which ran at the same time, beside those that were chosen."""
    if not orders:
        return True
    may = [file for file in orders[0] if chosen.count(file) < recorded.stands_for(file)
           and all(other == file or lives.overlap(thread_of(file), thread_of(other)) for other in chosen)]
    return any(can_meet(orders[1:], chosen + [file], lives, recorded) for file in may)
