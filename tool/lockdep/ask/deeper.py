"""Whether a finding is gone if classes are named by more callers: then it comes from a function through which many locks are
made. The traces are made again, from the recording itself, in a folder of their own, and checked by the same command."""
from __future__ import annotations

import os
import re

from ..base.files import contents
from ..base.words import class_of_lock, text_of, type_of_class, unquoted
from ..program.checker import REFUSED, ask
from ..program.checker import BY_CLASSES, BY_LOCKS
from ..program.findings import Finding, findings_of, report_lines
from ..record.folder import OBJECTS
from ..record.trace_names import traces_in
from .asking import Asked
from .remade import Remade, finish_program
from .verdict import WITH_DEPTH

DEPTHS = (3, 6, 16)  # callers
NAME = re.compile(r'^(acq|rel),("(?:[^"]|"")*"|[^,\r\n]*),', re.MULTILINE)


def type_of_lock(name: str) -> str:
    return type_of_class(class_of_lock(name))


def names_of(trace: str) -> list[tuple[str, str]]:
    """What each record that takes or gives back a lock does, and with a lock of which type."""
    return [(verb, type_of_lock(unquoted(name))) for verb, name in NAME.findall(text_of(contents(trace) or b""))]


def pair_names(shallow: str, deep: str, names: dict[str, str]) -> bool:
    """Sets the names of a trace beside those of the same trace with more callers. Returns whether each of the latter has one
    counterpart."""
    ours, theirs = names_of(shallow), names_of(deep)
    if len(ours) != len(theirs):
        return False
    for (verb, name), (other_verb, deep_name) in zip(ours, theirs):
        if verb != other_verb or names.setdefault(deep_name, name) != name:
            return False
    return True


def renamed(line: str, names: dict[str, str]) -> str:
    """A line of a report with the names of fewer callers."""
    words = []
    for word in line.split(" "):
        name, slash, sub_class = word.rpartition("/")
        words.append(names.get(name, name) + slash + sub_class if slash else word)
    return " ".join(words)


def lines_at(asked: Asked, deeper: str) -> set[str] | None:
    """The lines of what is found with more callers, by the names of fewer; None if that can't be said."""
    names: dict[str, str] = {}
    folder = deeper if asked.reason else os.path.join(deeper, OBJECTS)
    for trace in asked.traces:
        if not pair_names(trace, os.path.join(folder, os.path.basename(trace)), names):
            return None
    answer = ask((BY_CLASSES if asked.reason else BY_LOCKS) + traces_in(folder), with_errors=True)
    if answer.status >= REFUSED:
        return None
    return {renamed(line, names) for line in report_lines(findings_of(answer.output))}


def depths_of(folder: str, asked: Asked, findings: list[Finding], room: str) -> dict[int, int]:
    """For each finding that is gone with more callers, the least number of them. The room is an empty folder."""
    doubtful = [finding for finding in findings if finding.level in WITH_DEPTH and finding.type == "circle"]
    remade = Remade(folder, room) if doubtful else None
    finish = finish_program() if remade and remade.is_there else None
    depths: dict[int, int] = {}
    for depth in DEPTHS if finish else ():
        deeper = remade.make(finish, depth) if depth > remade.frames else None
        lines = lines_at(asked, deeper) if deeper else None
        for finding in doubtful if lines is not None else ():
            if not set(finding.lines) <= lines:
                depths.setdefault(finding.number, depth)
    return depths
