"""What the traces of a recording say of a finding besides the checker: by how many threads it was, and what to look at first."""
from __future__ import annotations

import functools
import os
import re
from typing import Iterable

from ..base.files import contents
from ..base.words import bytes_of, class_of_lock, name_in, stands_for_several, text_of, type_of_class, unquoted
from ..program.findings import Finding, Gate
from ..program.verdicts import Level, Verdict
from ..record import kernels
from ..record.summary import Summary
from ..record.threads import number_of_thread

ACQUISITION = re.compile(rb'^acq,("(?:[^"]|"")*"|[^,\r\n]*),([0-7]),', re.MULTILINE)

VERDICTS, LEVELS = list(Verdict), list(Level)  # the strongest first
WITH_DEPTH = (Level.PERHAPS, Level.UNKNOWN, Level.CLASSES, Level.TYPES)


@functools.lru_cache(maxsize=1 << 14)
def type_of_key(key: str) -> str:
    """The key with its type in the place of a single lock."""
    name, _, sub_class = key.rpartition("/")
    return "%s/%s" % (type_of_class(class_of_lock(name)), sub_class)


class Recorded:
    """What a recording says that the checker wasn't asked: how many threads a trace stands for, and how many locks a type has."""

    def __init__(self, traces: list[str], summary: Summary | None = None) -> None:
        self.traces = traces
        self.others_like = summary.stand_ins() if summary else {}
        # Some recorders only count the threads whose traces weren't written since they say the same as several others.
        self.has_uncounted = summary is not None and summary.number("threads-alike") > 0 and not self.others_like
        self.locks: dict[str, int] | None = None
        self.sizes: dict[int, list[str]] | None = None
        self.depths: dict[int, int] = {}  # for a finding's number, with how many callers it is gone
        self.is_of_kernel: bool | None = None  # if it is known: whether all traces are of a kernel

    def alike(self, trace: str) -> set[str]:
        """The traces that say the same as one, with that one."""
        if self.sizes is None:
            self.sizes = {}
            for other in self.traces:
                self.sizes.setdefault(size_of(other), []).append(other)
        others = self.sizes.get(size_of(trace), [])
        own = contents(trace) if len(others) > 1 else None
        return {trace} | {other for other in others if own is not None and contents(other) == own}

    def threads_of(self, traces: Iterable[str]) -> int:
        """The threads that traces are of: their own, those of traces that say the same, and those whose traces weren't written
        because of that, as far as the summary says which trace each says the same as."""
        others = {other for trace in set(traces) for other in self.alike(trace)}
        like = sum(self.stands_for(name) - 1 for name in {os.path.basename(other) for other in others})
        return len({number_of_thread(other) or os.path.basename(other) for other in others}) + like

    def stands_for(self, trace: str) -> int:
        """How many threads one trace is of: its own, and those whose traces weren't written since they say the same."""
        name = os.path.basename(trace)
        return 1 + self.others_like.get(name[:-4] if name.endswith(".csv") else name, 0)

    def are_of_one_thread(self, inner: Finding) -> bool:
        """Whether one thread did all of a finding, by its own code and in runs of signal handlers: no trace of another thread has an order of it. The
        checker names the first traces of each; where there are more, they aren't of one thread."""
        numbers = {number_of_thread(event.file) for event in inner.own_events()}
        numbers |= {number_of_thread(sighting.event.file) for order in inner.orders for sighting in order.sightings}
        return len(numbers) == 1 and None not in numbers and all(order.traces <= len(order.sightings) for order in inner.orders)

    def who_words(self, finding: Finding, inner: Finding) -> str:
        """What is said of who did what was seen between single locks."""
        return ", " + thread_words(inner, self)

    def steps_words(self, finding: Finding, inner: Finding | None) -> str:
        """Which order of steps may say more of a finding, if the traces are of several recordings."""
        return ""

    def seen_in(self, finding: Finding) -> list[str]:
        """In which recordings the parts of a finding are, if there are several."""
        return []

    def is_kernels(self) -> bool:
        if self.is_of_kernel is None:
            self.is_of_kernel = bool(self.traces) and all(map(kernels.is_of_kernel, {os.path.dirname(trace) for trace in self.traces}))
        return self.is_of_kernel

    def may_be_more(self, traces: Iterable[str]) -> bool:
        """Whether there may be more threads whose traces weren't written: they say the same as several that were."""
        return self.has_uncounted and any(len(self.alike(trace)) > 1 for trace in set(traces))

    def has_several(self, key: str) -> bool:
        """Whether the type of a key has several locks in the traces. A name that stands for several counts as that."""
        if self.locks is None:
            self.locks = {}
            for name in {name for trace in self.traces for name in names_in(trace)}:
                lock = type_of_key(name)
                self.locks[lock] = self.locks.get(lock, 0) + (2 if stands_for_several(name_in(name)) else 1)
        return self.locks.get(key, 0) > 1


def size_of(trace: str) -> int:
    try:
        return os.path.getsize(bytes_of(trace))
    except OSError:
        return -1


def names_in(trace: str) -> set[str]:
    """The keys that a trace takes."""
    found = set(ACQUISITION.findall(contents(trace) or b""))
    return {"%s/%s" % (unquoted(text_of(name)), text_of(sub_class)) for name, sub_class in found}


# ---- The finding between single locks.


def gate_of_all(finding: Finding) -> Gate | None:
    """A single lock that was held round all orders of a finding."""
    orders = {order.dependency for order in finding.orders}
    return next((gate for gate in finding.gates
                 if orders <= set(gate.dependencies) and not stands_for_several(name_in(gate.key))), None)


def thread_words(inner: Finding, recorded: Recorded) -> str:
    """By how many threads: those of the records that are shown. If no trace alone has them all, there are two at least."""
    traces = [event.file for event in inner.own_events()]
    count = recorded.threads_of(traces)
    if count <= 1 and (inner.only or recorded.are_of_one_thread(inner)):
        return "by 1 thread" if len(inner.orders) == 1 else "by one thread"
    return "by %s%d threads" % ("at least " if recorded.may_be_more(traces) else "", max(count, 2))


def is_guarded(inner: Finding) -> bool:
    """Whether one lock was held each time, or one thread did it all."""
    return len(inner.orders) > 1 and (gate_of_all(inner) is not None or bool(inner.only))


def by_importance(findings: list[Finding]) -> list[Finding]:
    """What to look at first comes first: by the verdict, then what counts, by the level, what no lock guards, and of cycles the shortest."""
    def rank(finding: Finding) -> tuple[int, bool, int, bool, bool, int]:
        inner = finding.between.finding if finding.between else None
        is_other = inner is None or inner.type != "circle"
        return (VERDICTS.index(finding.verdict or Verdict.NOT_KNOWN), not finding.is_counted, LEVELS.index(finding.level or Level.UNKNOWN),
                bool(inner) and is_guarded(inner), is_other, 0 if is_other else len(inner.orders))
    return sorted(findings, key=rank)
