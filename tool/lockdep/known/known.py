"""Which findings are known: a list of known findings, held against what was found and where its locks are made now. An entry of a
list can't hide a finding of locks that are made elsewhere now, or one with a stronger verdict: then it is stale, and hides nothing."""
from __future__ import annotations

import os
import re
from collections import Counter
from dataclasses import dataclass, field

from ..ask.blocked import Blocked
from ..ask.breaches import Breach
from ..base.words import class_of_lock, name_in, type_of_class, visible
from ..binaries.cplusplus import without_parameters
from ..binaries.symbols import Frame
from ..places.sources import Sources, own_keys_of
from ..places.where_made import place_now
from ..program.findings import Finding, by_line, handlers_of, numbered, report_lines
from .stale import Judge
from .suppressions import BLANKS, COMMENT, LISTED, OLD_VERDICT, TEXT, Entry, comments_of, entries_of, is_verdict, listed_words, pattern_text, today
from .taking_part import TakingPart

FIRST_LINE = "# Known findings, for the option --known of lockdep run: lines of a report, comments and blank lines."
PLACE_COMMENT = re.compile(r"#   [^ ]+: ")


@dataclass
class Sorted:
    """Findings held against a list: those that are new, those that are known, and what is to be said of the list. Of those that are
    known by the tool's own list of libraries, `libraries` has the reasons too."""

    new: list[Finding]
    known: list[Finding] = field(default_factory=list)
    libraries: list[tuple[Finding, str]] = field(default_factory=list)
    blocked: list[Blocked] = field(default_factory=list)
    known_blocked: int = 0
    breaches: list[Breach] = field(default_factory=list)
    known_breaches: list[Breach] = field(default_factory=list)
    known_lines: int = 0
    gone: list[str] = field(default_factory=list)
    stale: list[str] = field(default_factory=list)
    moved: list[str] = field(default_factory=list)


# ---- Patterns.


def names_of_type(name: str, sources: Sources) -> tuple[str, ...]:
    """The type of a lock as reports have it, which may be shortened, and in full, as people write it."""
    type = type_of_class(class_of_lock(name))
    names = [type] + [made.type for made in sources.made_as(name) if made.name != type]
    return tuple(dict.fromkeys(map(sources.demangler.text, names)))


def classes_of(keys: list[str], sources: Sources) -> list[tuple[str, ...]]:
    """The types of keys, each once."""
    return list(dict.fromkeys(names_of_type(name_in(key), sources) for key in keys))


def modules_of(keys: list[str], sources: Sources) -> list[str]:
    """The names of the files in which keys' locks are made, or lie; empty for one that isn't known."""
    several = [sources.made_as(name_in(key)) for key in keys]
    return list(dict.fromkeys(os.path.basename(made.place.module) if made and made.place.offset is not None else ""
                              for all_made in several for made in all_made or [None]))


def frames_of(events: list, sources: Sources) -> list[tuple[str, str]]:
    """The function and the path of each caller of some records, with and without the function's parameters."""
    return names_of([frame for event in events for frame in sources.frames(event)])


def names_of(frames: list[Frame]) -> list[tuple[str, str]]:
    return list(dict.fromkeys([(frame.function, frame.path) for frame in frames] +
                              [(without_parameters(frame.function), frame.path) for frame in frames]))


def fits_finding(entry: Entry, finding: Finding, sources: Sources) -> bool:
    if not entry.is_pattern or entry.type != finding.type:
        return False
    keys = own_keys_of(finding)
    frames, handler = frames_of(finding.events(), sources), finding.handler
    frames += names_of([handler.frame(sources.symbols)]) if handler else []
    return entry.hides(finding.type, classes_of(keys, sources), frames, handler.signal if handler else "",
                       modules_of(keys, sources), finding.verdict)


def fits_blocked(entry: Entry, thread: Blocked | Breach, sources: Sources) -> bool:
    return entry.is_pattern and entry.hides(thread.type, classes_of(thread.keys, sources), frames_of(thread.events, sources),
                                            modules=modules_of(thread.keys, sources))


def pattern_of(breach: Breach, sources: Sources) -> str:
    """The pattern that fits a breach: of its classes, and of the function in which the lock was taken or wasn't held."""
    functions = [without_parameters(frame.function) for frame in sources.frames(breach.events[0]) if frame.function]
    return pattern_text(breach.type, [names[0] for names in classes_of(breach.keys, sources)], functions[0] if functions else "")


def reason_in(libraries: list[Entry], finding: Finding, sources: Sources) -> str | None:
    """The reason of the entry of the list of libraries that fits a finding, if one does."""
    fitting = [] if finding.is_note else [entry.reason for entry in libraries if fits_finding(entry, finding, sources)]
    return fitting[0] if fitting else None


# ---- All together.


def sort(findings: list[Finding], blocked: list[Blocked], entries: list[Entry], sources: Sources, traces: list[str] = (),
         breaches: list[Breach] = (), libraries: list[Entry] = ()) -> Sorted:
    """Holds what was found against a list, and then against that of libraries. The traces are those of the recording, if there is
    one."""
    result = Sorted([])
    judge = Judge(findings, TakingPart(sources, list(traces)))
    fresh = judge.fresh(entries)
    result.stale, result.moved = judge.stale, judge.moved
    lines, patterns = {entry.line for entry in fresh if not entry.is_pattern}, [entry for entry in fresh if entry.is_pattern]
    used: set[int] = set()
    hidden = lines & set(judge.findings)
    for finding in findings:
        fitting = [entry for entry in patterns if fits_finding(entry, finding, sources)]
        used.update(entry.number for entry in fitting)
        hidden.update(finding.lines if fitting else ())
        is_listed = bool(fitting) or set(finding.lines) <= lines
        reason = None if is_listed else reason_in(libraries, finding, sources)
        (result.known if is_listed or reason is not None else result.new).append(finding)
        result.libraries += [] if reason is None else [(finding, reason)]
    for thread in blocked:
        fitting = [entry for entry in patterns if fits_blocked(entry, thread, sources)]
        used.update(entry.number for entry in fitting)
        result.blocked += [] if fitting else [thread]
        result.known_blocked += bool(fitting)
    for breach in breaches:
        fitting = [entry for entry in patterns if fits_blocked(entry, breach, sources)]
        used.update(entry.number for entry in fitting)
        (result.known_breaches if fitting else result.breaches).append(breach)
    numbered(result.new)
    result.known_lines = len(hidden)
    result.gone = sorted({entry.text for entry in entries if not judge.is_expired(entry) and
                          (entry.number not in used if entry.is_pattern else entry.line not in judge.findings)})
    return result


# ---- Writing a list.


class Comments:
    """The comments under a line of a report: the strongest verdict of its findings, and where its locks are made."""

    def __init__(self, findings: list[Finding], taking: TakingPart) -> None:
        self.taking, self.findings = taking, by_line(findings)

    def of(self, line: str) -> list[str]:
        words = [listed_words(finding.judgement) for finding in self.findings.get(line, ()) if finding.judgement]
        verdict = [COMMENT + min(words, key=list(LISTED).index)] if words else []
        now = [(made.name, place_now(made, self.taking.sources, shown=True)) for made in self.taking.made(line)]
        return verdict + [comment for name, place in now if place for comment in comments_of(name, place)]


def is_comment_of_entry(line: str) -> bool:
    line = line.strip(BLANKS + "\r")
    return is_verdict(line) or any(pattern.match(line) for pattern in (PLACE_COMMENT, TEXT, OLD_VERDICT))


def list_of(findings: list[Finding], old: str, sources: Sources, traces: list[str] = (), breaches: list[Breach] = (),
            libraries: list[Entry] = (), name: str = "") -> str:
    """A list of all findings but those of the list of libraries, with a pattern for each breach. In an existing one, of this name, comments and
    patterns stay, and entries that weren't found are removed."""
    found, kept = report_lines(findings), []
    listed: Counter[str] = Counter()
    of_lines = by_line(findings)
    comments = Comments(findings, TakingPart(sources, list(traces)))
    entries = {entry.number: entry for entry in entries_of(old, name)}
    patterns = [entry for entry in entries.values() if entry.is_pattern and not entry.is_expired(today())]
    hidden = {line for finding in findings if any(fits_finding(entry, finding, sources) for entry in patterns + list(libraries))
              for line in finding.lines}
    for number, line in enumerate(old.split("\n")[:-1] if old.endswith("\n") else old.split("\n") if old else [], 1):
        entry = entries.get(number)
        is_surplus = entry and not entry.is_pattern and listed[entry.line] >= handlers_of(of_lines.get(entry.line, []))
        if is_surplus or is_comment_of_entry(line):
            continue
        kept.append(line)
        listed.update([entry.line] if entry else [])
        kept += comments.of(entry.line) if entry and not entry.is_pattern else []
    if not old:
        kept.append(FIRST_LINE)
    for line in found:
        missing = 0 if line in hidden else handlers_of(of_lines[line]) - listed[line]
        kept += ([visible(line)] + comments.of(line)) * missing
    kept += dict.fromkeys(pattern_of(breach, sources) for breach in breaches
                          if not any(fits_blocked(entry, breach, sources) for entry in patterns))
    return "".join(line + "\n" for line in kept)


def with_others(text: str, findings: list[Finding], sources: Sources, traces: list[str], name: str) -> str:
    """A list with an entry more for each line of those findings that its entries don't hide, as they are of a recording whose locks are made elsewhere."""
    new = sort(findings, [], entries_of(text, name), sources, traces).new
    comments = Comments(new, TakingPart(sources, list(traces)))
    return text + "".join(each + "\n" for line in report_lines(new) for each in [visible(line)] + comments.of(line))
