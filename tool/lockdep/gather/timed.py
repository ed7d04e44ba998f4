"""Which findings of what was gathered need a wait that gives up at a time. Of each recording that marks such waits, the table has the orders that are gone
if these are tries. An order that is gone in all recordings that have it is a try in the gathered trace, too, and the checker is asked about that."""
from __future__ import annotations

import os
import tempfile

from ..ask.timed import gone_without, lines_between_locks, marked_in, with_tries, written_again
from ..base.files import write_in_place
from ..base.words import bytes_of
from ..program.checker import REFUSED
from ..program.condensed import LockOrder, facts_in
from ..program.findings import Finding
from ..program.verdicts import Judgement, Level, Reason, Verdict
from .facts import Program
from .names import TIMED_ENTRY, TIMED_ORDER, in_recording, name_of_key, recording_of
from .orders import Seen, Table, seen_once


def entry_of(order: LockOrder) -> bytes:
    """An order of single locks as the table has those of classes."""
    return b"%s/%s%s%s/%s" % (name_of_key(order[0]), order[0][-1:], order[1], name_of_key(order[2]), order[2][-1:])


def timed_entries(program: Program, folder: str, traces: list[str], trace: bytes, room: str) -> set[bytes]:
    """The orders of a recording, by its single locks, that it has only by waits with a limit."""
    records = marked_in(folder, Reason.TIMED)
    answer = program.condensed(written_again(traces, records, room)) if records else None
    if answer is None or answer.status >= REFUSED:
        return set()
    return {TIMED_ORDER + entry_of(order) for order in set(facts_in(trace)[0]) - set(facts_in(answer.output)[0])}


def timed_table(program: Program, number: int, lot: str, folder: str, traces: list[str], trace: bytes) -> Table:
    """The same as a table of this recording, with the names that its locks have in what is gathered."""
    with tempfile.TemporaryDirectory(prefix="lockdep-") as room:
        entries = timed_entries(program, folder, traces, trace, room)
    return renamed({entry: seen_once(number, lot) for entry in entries}, in_recording(trace, number)[1] if entries else {})


def renamed(table: Table, names: dict[bytes, bytes]) -> Table:
    """The table with the names that locks have in what is gathered."""
    def entry_for(entry: bytes) -> bytes:
        found = TIMED_ENTRY.match(entry)
        if not found:
            return entry
        start, first, middle, second, end = found.groups()
        return start + names.get(first, first) + middle + names.get(second, second) + end
    return {entry_for(entry): seen for entry, seen in table.items()}


def timed_orders(trace: bytes, table: Table) -> set[LockOrder]:
    """The orders of what was gathered that all recordings have only by waits with a limit. That of a single lock is of one recording."""
    timed: set[LockOrder] = set()
    for order in set(facts_in(trace)[0]):
        entry = entry_of(order)
        count = table.get(TIMED_ORDER + entry, Seen()).count
        is_of_one = any(recording_of(name_of_key(key)) for key in (order[0], order[2]))
        if count and (is_of_one or count == table.get(entry, Seen()).count):
            timed.add(order)
    return timed


def judge_timed(findings: list[Finding], trace: bytes, table: Table) -> None:
    """Judges the findings between single locks that need waits with a limit."""
    asked = [finding for finding in findings if finding.level is Level.LOCKS]
    timed = timed_orders(trace, table) if asked and any(entry.startswith(TIMED_ORDER) for entry in table) else set()
    if not timed:
        return
    with tempfile.TemporaryDirectory(prefix="lockdep-") as room:
        path = os.path.join(room, "timed.csv")
        records: list[int] = []
        orders, _ = facts_in(trace, records)
        write_in_place(bytes_of(path), with_tries(trace, [record for order, record in zip(orders, records) if order in timed]))
        left = lines_between_locks([path])
    for finding in gone_without(asked, left) if left is not None else ():
        finding.judged = Judgement(Verdict.NOT_SHOWN, Reason.TIMED)
