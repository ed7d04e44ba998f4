"""What a provoked run is told: for each order of a finding where its first lock is taken, and where its second one is asked for."""
from __future__ import annotations

import functools
import os
import re
import signal
from dataclasses import dataclass, field
from typing import Tuple

from ..ask.signal_links import as_reported, records_of_marks
from ..ask.verdict import type_of_key
from ..base.files import is_elf
from ..base.words import class_of_lock, is_of_library, name_in, plain_key
from ..binaries.symbols import Address
from ..places.places import NO_PLACE, Places, classes_in
from ..program.findings import Finding, Order
from ..record.building import SOURCES
from ..record.handlers import THREADS, Handler
from .standing import Standing
from .table import Place

MOST_PLACES = 64  # of an order, each
SOURCE = re.compile("(/.*):[0-9]+ ")  # of a place in words
OF_RECORDER = {name for name in SOURCES if name.endswith(".so")}  # the libraries that a recorded program has besides its own
NUMBERED = re.compile("~[0-9]+$")  # ends the name of a class that has namesakes: a run doesn't know which one it is

Chain = Tuple[Address, ...]  # callers, the innermost first


@dataclass
class PlannedOrder:
    """An order with all places that the recording has of it."""

    order: Order
    is_of_types: bool  # the order's keys are types, and no single locks
    start: Place | None  # where the first lock is, if it is static, or its class, if a run knows that
    end: Place | None  # the same of the second one
    holds: set[Chain] = field(default_factory=set)
    wants: set[Chain] = field(default_factory=set)
    handler: Handler | None = None  # of a signal that comes in with the first lock held, if its handler takes the second one

    def key(self, key: str) -> str:
        """A key of a trace as the order has it."""
        return type_of_key(key) if self.is_of_types else key

    def lines(self) -> list[str]:
        """Its places, as the plan of a run has them."""
        places = {("hold", chain[0]) for chain in self.holds} | {("want", chain[0]) for chain in self.wants}
        if self.handler:
            word = "timer" if self.handler.is_by_timers else "signal"
            places.add(("%s-%d" % (word, number_of_signal(self.handler.signal)), Address(self.handler.module, self.handler.offset)))
        return ["%s %s %s" % (word, NO_PLACE if place.offset is None else "%x" % place.offset, place.module)
                for word, place in sorted(places, key=lambda pair: (pair[0], pair[1].module, pair[1].offset or 0))]


def known_places(folder: str) -> dict[str, Place]:
    """What a run knows of the locks of a recording, by their classes: where static locks are, and classes whose places are in words."""
    classes = classes_in(folder) or []
    numbered = {NUMBERED.sub("", made.name) for made in classes if NUMBERED.search(made.name)}
    known: dict[str, Place] = {made.name: (real_path(made.place.module), made.place.offset) for made in classes
                               if made.kind == "static" and made.place.offset is not None}
    known.update({made.name: (made.name, None) for made in classes
                  if made.place.offset is None and NUMBERED.sub("", made.name) not in numbered})
    return known


def plan_of(finding: Finding, known: dict[str, Place], set_of_handler: list[str]) -> list[PlannedOrder]:
    """The plan of a finding, by the orders of the single locks that make it, or if there are none by those of its types: where each order is first in
    each of its first traces, of which a finding names one."""
    inner = finding.between.finding if finding.between else None
    plan = [planned_order(order, inner is None, known) for order in (inner or finding).orders]
    return plan + ([order_by_signal(inner or finding, finding.handler, inner is None, known, set_of_handler)] if finding.handler else [])


def planned_order(order: Order, is_of_types: bool, known: dict[str, Place]) -> PlannedOrder:
    planned = PlannedOrder(order, is_of_types, known_of(order.start, known), known_of(order.end, known))
    for sighting in order.sightings:
        add_place(planned.wants, Places(sighting.event.file), sighting.event.record)
        add_place(planned.holds, Places(sighting.since.file), sighting.since.record)
    return planned


def order_by_signal(finding: Finding, handler: Handler, is_of_types: bool, known: dict[str, Place], traces: list[str]) -> PlannedOrder:
    """The order of the lock that is held where a signal comes in, and the one that its handler takes."""
    order = Order(finding.keys[-1], "", finding.keys[0])
    planned = PlannedOrder(order, is_of_types, known_of(order.start, known), known_of(order.end, known), handler=handler)
    marks, places = records_of_marks(traces), {trace: Places(trace) for trace in traces}
    for found, key, records_of in ((planned.holds, order.start, marks.enabled), (planned.wants, order.end, marks.used)):
        for trace, record in [record for lock, records in records_of.items() if planned.key(as_reported(lock[0])) == key for record in records]:
            add_place(found, places[trace], record)
    return planned


def number_of_signal(name: str) -> int:
    """The number of a signal such as SIGUSR1 or SIGRTMIN+2, or 0 if this system hasn't it."""
    plain, sign, beyond = name.partition("+")
    number = getattr(signal, plain, None)
    return int(number) + int(beyond or 0) if number is not None else 0


def why_not_by_signal(finding: Finding) -> str:
    """Why no signal can be sent for a finding with a handler; empty if one can."""
    handler = finding.handler
    if not handler:
        return ""
    if any(order.signal for order in finding.orders):
        return "it needs two signals at once, and only one is sent at a time"
    if handler.sent_to == THREADS and not handler.is_alone:
        return "%s was only sent to certain threads, and which threads these are in another run isn't known" % handler.signal
    if handler.offset is None and handler.file:
        return "no signals are sent to programs in Python"
    if handler.offset is None or not number_of_signal(handler.signal):
        return "the address of the handler for %s isn't known" % handler.signal
    return why_not_watched(finding, handler)


def why_not_watched(finding: Finding, handler: Handler) -> str:
    """Whether a lock is one that isn't watched in a run: then nobody would be seen to come to it."""
    inside = [key for key in finding.keys if is_of_library(key)]
    if inside:
        return "%s is a lock inside the C library, and none of these is watched" % plain_key(inside[0])
    inner = finding.between.finding if finding.between else None
    others = [key for key, single in zip(finding.keys, (inner or finding).keys) if handler.is_other(key) or handler.is_other(single)]
    return "%s is neither a mutex nor a read-write lock, and no others are watched" % plain_key(others[0]) if others else ""


def file_of(place: Address) -> str:
    """The file of a place: its module, or the source that its words begin with; empty if they name none."""
    words = SOURCE.match(place.module)
    return place.module if place.offset is not None else words.group(1) if words else ""


def foreign_words(folder: str, program: str, traces: list[str], plans: list[list[PlannedOrder]]) -> list[str]:
    """Why the recording in a folder may not be of this program as it is now. Of a script it is only known whether it has changed."""
    said = []
    recorded = {real_path(module) for trace in traces[:1] for module in Places(trace).modules}
    if recorded and is_elf(program) and real_path(program) not in recorded:
        said.append("%s isn't among the programs and libraries of the recording in %s; threads are held back in those alone" % (program, folder))
    made = os.stat(os.path.join(folder, "SUMMARY")).st_mtime
    planned = {file_of(chain[0]) for plan in plans for order in plan for chain in order.holds | order.wants}
    for module in sorted(planned - {""}):
        if not os.path.exists(module):
            said.append("%s, which was recorded, isn't there any more" % module)
        elif os.stat(module).st_mtime > made:
            said.append("%s has changed since it was recorded, so its places may be others now" % module)
    return said


def known_of(key: str, known: dict[str, Place]) -> Place | None:
    """What is known of a lock: where it is itself, or else of which class it is."""
    name = name_in(key)
    of_class = known.get(class_of_lock(name))
    return known.get(name) or (of_class if of_class and of_class[1] is None else None)


def add_place(found: set[Chain], places: Places, record: int) -> None:
    """Adds the callers of a record. Threads are held back by the innermost one, since the same code may be reached in another way; what has
    happened is told by all of them, but for those of the recorder, by which a routine that runs once is called: no run has these."""
    callers = [caller for caller in places.callers(record) if os.path.basename(caller.module) not in OF_RECORDER] if len(found) < MOST_PLACES else []
    if callers:
        found.add(tuple(callers))


# ---- Which finding a cycle of threads is.


def is_at(stack: list[Place], chains: set[Chain]) -> bool:
    """Whether a thread's stack has the callers of one of these places, in their order. A recording leaves out callers between them."""
    return any(has_callers(stack, chain) for chain in chains)


def has_callers(stack: list[Place], chain: Chain) -> bool:
    rest = iter(stack)
    return all(any(as_in_run(caller) == place for place in rest) for caller in chain)


def as_in_run(caller: Address) -> Place:
    """A place of the recording as a run has it."""
    return (caller.module if caller.offset is None else real_path(caller.module)), caller.offset


@functools.lru_cache(maxsize=None)
def real_path(module: str) -> str:
    """The path of a module as the system has it, which a program may have opened by another one."""
    return os.path.realpath(module)


def orders_at(thread: Standing, plan: list[PlannedOrder]) -> set[int]:
    """The orders, from 1 on, that a thread is at."""
    return {number for number, planned in enumerate(plan, 1)
            if is_at(thread.waits, planned.wants) and (is_at(thread.holds, planned.holds) or thread.orders >> (number - 1) & 1)
            and can_be(thread.held_place, planned.start) and can_be(thread.awaited_place, planned.end)}


def can_be(place: Place | None, known: Place | None) -> bool:
    """Whether a lock of this place, or class, can be the one of which that is known."""
    return place is None or known is None or place == known


def is_cycle_of(threads: list[Standing], plan: list[PlannedOrder]) -> bool:
    """Whether each of these threads is at an order of the plan, and each order has a thread."""
    orders = [orders_at(thread, plan) for thread in threads]
    return all(orders) and set().union(*orders) == set(range(1, len(plan) + 1))
