"""Which findings between single locks need a wait that gives up at a time, or a signal that comes only when its thread had taken its last lock. A recording
marks such acquisitions. The traces are written again with them as tries, which wait for nobody, and the same command is asked about those."""
from __future__ import annotations

import os
import re
from typing import Dict, List

from ..base.files import contents, write_in_place
from ..base.words import bytes_of, is_of_library, text_of
from ..program.checker import BY_LOCKS, REFUSED, ask
from ..program.findings import Finding, findings_of, report_lines
from ..program.verdicts import BETWEEN_LOCKS, Judgement, Level, Reason, Verdict
from ..record.folder import WEAK

WITH_TRIES = b"lockdep,2"  # the header of a trace that may have tries
MARKED = (Reason.TIMED, Reason.LATE)
LINE = re.compile(r"^(task-[0-9]+\.csv) ([1-9][0-9]*) (%s)$" % "|".join(reason.value for reason in MARKED), re.MULTILINE)
ACQUISITION = re.compile(rb"^(acq,.*,)(w|rr?)$")

Records = Dict[str, List[int]]  # of traces: the numbers of their acquisitions that are marked


def marked_in(folder: str, reason: Reason) -> Records:
    """The acquisitions that a recording marks in this way, by trace."""
    marked: Records = {}
    for trace, record, word in LINE.findall(text_of(contents(os.path.join(folder, WEAK)) or b"")):
        if word == reason.value:
            marked.setdefault(trace, []).append(int(record))
    return marked


def with_tries(trace: bytes, records: list[int]) -> bytes:
    """A trace of a recording, one record a line, in which these acquisitions are tries."""
    lines = trace.split(b"\n")
    lines[0] = WITH_TRIES
    for record in records:
        lines[record - 1:record] = [ACQUISITION.sub(rb"\1t\2", line) for line in lines[record - 1:record]]
    return b"\n".join(lines)


def written_again(traces: list[str], records: Records, room: str) -> list[str]:
    """The traces, of which those with such acquisitions are in the room."""
    again = []
    for trace in traces:
        name = os.path.basename(trace)
        again.append(os.path.join(room, name) if name in records else trace)
        if name in records:
            write_in_place(bytes_of(again[-1]), with_tries(contents(trace) or b"", records[name]))
    return again


def lines_between_locks(traces: list[str]) -> set[str] | None:
    """The report's lines of what is seen between single locks, or perhaps; None if that can't be said."""
    answer = ask(BY_LOCKS + traces, with_errors=True)
    if answer.status >= REFUSED:
        return None
    return set(report_lines([finding for finding in findings_of(answer.output) if finding.level in BETWEEN_LOCKS]))


def gone_without(findings: list[Finding], left: set[str]) -> list[Finding]:
    """The findings that aren't seen between locks any more. Each order that still is stays in a finding that says so: one of such orders
    alone, if there is one."""
    gone: list[Finding] = []
    said: set[str] = set()
    for finding in sorted(findings, key=lambda finding: not left.issuperset(finding.lines)):
        still = left.intersection(finding.lines)
        if still.issuperset(finding.lines) or still - said:
            said |= still
        else:
            gone.append(finding)
    return gone


def may_be_late(finding: Finding) -> bool:
    """Whether it may need a late signal. Of a lock inside the C library a thread's first use is known, and not its last one: a signal isn't known to come
    after that."""
    return finding.type != "circle" and not is_of_library(finding.keys[-1])


def judge_marked(findings: list[Finding], folder: str, traces: list[str], room: str) -> None:
    """Judges the findings between locks that need what the recording marks, in one of these ways alone. The room is an empty folder."""
    for reason in MARKED:
        records = marked_in(folder, reason)
        asked = [finding for finding in findings if finding.level is Level.LOCKS and not finding.judged and (reason is Reason.TIMED or may_be_late(finding))]
        left = lines_between_locks(written_again(traces, records, room)) if records and asked else None
        for finding in gone_without(asked, left) if left is not None else ():
            finding.judged = Judgement(Verdict.NOT_SHOWN, reason)
