"""What many findings of a kernel go through, in words: which order or use of a lock, in how many traces, and what the task does that has it first."""
from __future__ import annotations

from dataclasses import replace

from ..ask.causes import ENABLED
from ..base.words import counted
from ..places.sources import Sources, own_keys_of
from ..program.findings import Cause, Fact
from .sentences import Names, cells_of, order_words, part_of_enabled, part_of_order, part_of_used, row_words


def is_told(cause: Cause | None) -> bool:
    """Whether there is something to say of a cause: that several findings have it, or what is the rarest part of one."""
    return cause is not None and (len(cause.findings) > 1 or cause.is_rarest)


def fact_words(fact: Fact, names: Names) -> str:
    if len(fact) == 3:
        return order_words((fact[0], fact[1], fact[2]), names)
    mark, key = fact
    return "%s %s" % (names.key(key), "held with " + mark if mark.endswith(ENABLED) else "taken in a " + mark)


def cause_words(cause: Cause, names: Names) -> str:
    """How many findings go through it, in how many traces it is, and what it is."""
    several = len(cause.facts) > 1
    what = "acquisition" if several else "order" if len(cause.facts[0]) == 3 else "use of a lock"
    more = ", and %s" % counted(len(cause.facts) - 1, "more", "more") if several else ""
    count, verb = len(cause.findings), "goes" if len(cause.findings) == 1 else "go"
    return "{:,} of {} {} through one {}, in {:,} of {}: {}{}".format(
        count, counted(cause.all_findings, "finding"), verb, what, cause.traces, counted(cause.all_traces, "trace"), fact_words(cause.facts[0], names), more)


def doing_words(cause: Cause, sources: Sources, names: Names) -> str:
    """What the task does that has it first, and where."""
    finding, fact = cause.findings[0], cause.facts[0]
    shown = names.beside(own_keys_of(finding))
    order = next((order for order in finding.orders if order.dependency == fact), None)
    part = part_of_order(order, shown) if order else (part_of_enabled if fact[0].endswith(ENABLED) else part_of_used)(finding, shown)
    return row_words(cells_of(replace(part, who=""), [event.file for event in finding.own_events()], sources, 1))
