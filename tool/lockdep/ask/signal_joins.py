"""Findings in which a handler waits for the end of the very thread that it interrupts. pthread_join refuses that by EDEADLK, so these aren't reported."""
from __future__ import annotations

from ..base.files import text_in
from ..base.words import class_of_lock, name_in, type_of_class
from ..finish.joins import THREAD
from ..program.findings import Finding
from .signal_links import Marks, as_reported, records_of_marks


def without_own_joins(findings: list[Finding], traces: list[str]) -> list[Finding]:
    """The findings without those that only such joins make."""
    of_joins = [finding for finding in findings if finding.keys[0].startswith(THREAD)]
    if not of_joins:
        return findings
    marks, own = records_of_marks(traces), {trace: own_thread(trace) for trace in traces}
    return [finding for finding in findings if finding not in of_joins or joins_another(finding, marks, own)]


def own_thread(trace: str) -> str:
    """The lock that a thread is to those who join it: the first that its trace takes, if it isn't given back at once, as who joins it does."""
    records = [line for line in text_in(trace).split("\n") if line.startswith(("acq,", "rel,"))]
    key = records[0][4:].rpartition(",")[0] if records else ""
    return key if key.startswith(THREAD) and records[1:2] != ["rel," + key] else ""


def joins_another(finding: Finding, marks: Marks, own: dict[str, str]) -> bool:
    """Whether the handler joins a thread other than one in which the finding's last lock is held with the signal unblocked."""
    joined, held = type_of_key(finding.keys[0]), type_of_key(finding.keys[-1])
    threads = {lock[0] for lock in marks.used if type_of_key(as_reported(lock[0])) == joined}
    held_in = {trace for lock, records in marks.enabled.items() for trace, _ in records if type_of_key(as_reported(lock[0])) == held}
    return finding.type != "double" and any(own[trace] != thread for thread in threads for trace in held_in)


def type_of_key(key: str) -> str:
    return type_of_class(class_of_lock(name_in(key)))
