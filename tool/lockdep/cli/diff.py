"""`lockdep diff`: the findings of two recordings beside each other: which are new, which are gone, and which are the same, by their
names and by where their locks are made; and so what the programs did against what they say of their locks, by its classes and function."""
from __future__ import annotations

import gc
import json
import os
import sys
from dataclasses import dataclass, field, replace
from typing import List, Tuple

from ..ask.asking import TOO_MANY_LOCKS, ask_about
from ..ask.blocked import sources_wanted
from ..ask.breaches import breaches_in
from ..ask.verdict import Recorded
from ..base.files import complain, need_output, text_named, writing
from ..base.saying import Refusal
from ..base.words import bytes_of, class_of_lock, counted, name_in, type_of_class, visible
from ..binaries.cplusplus import without_parameters
from ..gather.facts import Program
from ..gather.findings import Back, InRecordings, findings_in
from ..gather.agreement import gathered_in
from ..gather.gathered import LEFT, Gathered
from ..gather.told import SAID, UNGATHERED
from ..gather.recordings import Bad, check_events, check_threads, judge, summaries_of, traces_of
from ..known.known import pattern_of
from ..known.suppressions import pattern_text
from ..places.sources import Sources, keys_of, sources_of
from ..places.where_made import Place, place_now, place_of
from ..program.checker import program_path
from ..program.findings import Finding, finding_of
from ..record.complete import check_files, is_gathered, need_recording
from ..record.summary import Summary
from ..say.terminal import Writer, text_stream
from ..say.verdict_words import verdict_of
from .options import no_option

Read = Tuple[List["Side"], str]  # findings, and what is left out
WHAT = "which is neither the folder of a recording or of `gather` nor JSON of `lockdep run --json`"


@dataclass
class Side:
    """A finding of one of the two, with where its locks are made, and its verdict, in a sentence and in a word."""

    head: str
    lines: frozenset[str]
    seen: str = ""
    verdict: str = ""
    places: dict[str, list[Place]] = field(default_factory=dict)

    def is_same(self, other: Side) -> bool:
        """Whether both are the same finding: of the same lines, and no lock is made elsewhere."""
        shared = [name for name in self.places if name in other.places]
        return self.lines == other.lines and all(
            any(not one.is_elsewhere(another) for one in self.places[name] for another in other.places[name]) for name in shared)

    def same_in(self, others: dict[frozenset[str], list[Side]]) -> Side | None:
        """The first of the others that is the same finding."""
        return next((other for other in others.get(self.lines, ()) if self.is_same(other)), None)

    def beside(self, before: Side) -> Side:
        """The same finding with what its verdict was before, if that was another one."""
        is_other = before.verdict != self.verdict and before.verdict and self.verdict
        return replace(self, seen="%s; it was %s" % (self.seen, before.verdict)) if is_other else self


def by_lines(sides: list[Side]) -> dict[frozenset[str], list[Side]]:
    several: dict[frozenset[str], list[Side]] = {}
    for side in sides:
        several.setdefault(side.lines, []).append(side)
    return several


def side_of_finding(finding: Finding, seen: str, verdict: str, places: dict[str, list[Place]]) -> Side:
    return Side(finding.head, frozenset(finding.lines), seen, verdict, {name: where for name, where in places.items() if where})


def places_of(finding: Finding, sources: Sources) -> dict[str, list[Place]]:
    """Where the locks of a finding are made, by types."""
    places: dict[str, list[Place]] = {}
    for made in dict.fromkeys(made for key in keys_of(finding) for made in sources.made_as(name_in(key))):
        place = place_now(made, sources)
        places.setdefault(type_of_class(made.name), []).extend([place] if place else [])
    return places


def sides_of_folder(folder: str) -> list[Side]:
    asked = ask_about(folder)
    is_damaged = asked.said and not any(code in asked.said for code in TOO_MANY_LOCKS)
    if asked.is_refused or asked.left_out or is_damaged:
        sys.stderr.buffer.write(asked.answer.said if asked.is_refused else asked.why_left_out or asked.said)
        raise Refusal("the traces of %s were refused" % visible(folder))
    findings = [finding for finding in asked.findings() if not finding.is_note]
    sources, recorded, breaches = sources_of(findings, [folder]), Recorded(asked.traces), breaches_in(folder)
    sources_wanted(breaches, sources)
    sources.ask()
    return sides_of_findings(findings, recorded, sources) + [Side(breach.sentence, frozenset([pattern_of(breach, sources)])) for breach in breaches]


def side_of_json(number: int, said: dict) -> Side:
    places: dict[str, list[Place]] = {}
    for lock in said.get("locks", []):
        places.setdefault(type_of_class(lock["class"]), []).append(place_of(lock["kind"], lock["place"]))
    word = str(said.get("judged", {}).get("verdict", "")).replace("-", " ")
    return side_of_finding(finding_of(number, said), said.get("verdict", ""), word, places)


def is_note(number: int, said: dict) -> bool:
    """Whether a finding of a file is a note, as those of a folder are that have a type nested in itself."""
    return finding_of(number, said).is_note and "happened" not in said


def side_of_breach(said: dict) -> Side:
    """A breach of a file, by the same pattern as that of a folder."""
    classes = [type_of_class(class_of_lock(name_in(key))) for key in said["keys"]]
    frames = said["records"][0]["places"] if said["records"] else []
    functions = [without_parameters(frame["function"]) for frame in frames if frame.get("function")]
    return Side(said["sentence"], frozenset([pattern_text(said["type"], classes, functions[0] if functions else "")]))


def sides_of_json(name: str) -> Read:
    """The findings of a file, with the places that it has."""
    try:
        said = json.loads(text_named(name, WHAT))
        findings = [side_of_json(number, finding) for number, finding in enumerate(list_in(said, "findings"), 1) if not is_note(number, finding)]
        return findings + [side_of_breach(breach) for breach in said.get("breaches", [])], str(said.get("left_out", ""))
    except json.JSONDecodeError as error:
        raise Refusal("%s, %s, can't be read: line %d is no JSON: %s" % (visible(name), WHAT, error.lineno, visible(error.msg)))
    except (ValueError, KeyError, TypeError, AttributeError, RecursionError):
        raise Refusal("%s, %s, can't be read: it has something else than a finding" % (visible(name), WHAT))


def list_in(said: dict, name: str) -> list:
    if not isinstance(said[name], list):
        raise TypeError("it is no list")
    return said[name]


def sides_of_gathered(folder: str) -> Read:
    program = Program(program_path())
    gathered = gathered_in(folder, program)
    back = Back(gathered, program)
    findings = [finding for finding in findings_in(gathered, back) if not finding.is_note]
    sources = sources_of(findings, shown=(), kept=back.kept.callers(), made=back.kept.classes())
    return sides_of_findings(findings, InRecordings(gathered, back), sources), "; ".join(unseen_in(gathered))


def unseen_in(gathered: Gathered) -> list[str]:
    """What a gathered folder says nothing more of, in words."""
    said = {LEFT: "that can't be judged", b"breaches": SAID[b"breaches"], UNGATHERED.encode(): "whose signal handlers weren't looked at"}
    seen = {name: gathered.counts.get(name) or gathered.lists.get(name) for name in said}
    return ["%s %s" % (counted(seen[name].count, "recording"), words) for name, words in said.items() if seen[name] and seen[name].count]


def sides_of_findings(findings: list[Finding], recorded: Recorded, sources: Sources) -> list[Side]:
    return [side_of_finding(finding, verdict_of(finding, recorded), finding.verdict.words if finding.verdict else "", places_of(finding, sources))
            for finding in findings]


def sides_of(name: str) -> Read:
    """The findings of a recording, of what was gathered, or of a file, and what is left out there."""
    if is_gathered(name):
        return sides_of_gathered(name)
    if not os.path.isdir(name):
        return sides_of_json(name)
    summaries = checked_recording(name)
    return sides_of_folder(name), lost_in(name, summaries)


def checked_recording(folder: str) -> list[Summary]:
    """The summary of a recording. What is none is refused, and what has less than was recorded. (Traces of single locks may be missing.)"""
    check_files(folder)
    need_recording(folder)
    try:
        summaries, traces = summaries_of(folder), traces_of(folder)
        check_threads(traces, summaries)
        check_events(traces, summaries)
        return summaries
    except Bad as bad:
        raise Refusal("%s: %s" % (visible(folder), bad.why))


def lost_in(folder: str, summaries: list[Summary]) -> str:
    """What a recording left out, in words."""
    try:
        for summary in summaries:
            judge(folder, summary, [])
    except Bad as bad:
        return bad.why
    return ""


def write_list(writer: Writer, word: str, sides: list[Side]) -> None:
    for side in sides:
        writer.line("%s: %s%s" % (word, side.head, "; " + side.seen if side.seen else ""))


def write_sides(fresh: list[Side], gone: list[Side], same: list[Side]) -> None:
    writer = Writer(text_stream(sys.stdout.fileno()))
    writer.line("%s new, %s gone, %s the same" % (counted(len(fresh), "finding"), "{:,}".format(len(gone)), "{:,}".format(len(same))))
    for word, sides in (("new", fresh), ("gone", gone), ("same", same)):
        write_list(writer, word, sides)
    writer.stream.flush()


def main(words: list[str]) -> int:
    gc.disable()  # (as `gather` does, whose findings these may be)
    need_output()
    for word in words:
        if word.startswith("-") and not os.path.exists(word):
            raise Refusal(no_option("diff", word, []))
    if len(words) != 2:
        raise Refusal("which two recordings? lockdep diff OLD NEW")
    (old, old_left_out), (new, left_out) = map(sides_of, words)
    for name, what in zip(words, (old_left_out, left_out)):
        if what:
            complain(bytes_of("lockdep: not all of %s was checked: %s\n" % (visible(name), visible(what))))
    known, there = by_lines(old), by_lines(new)
    before = [(side, side.same_in(known)) for side in new]
    same = [side.beside(other) for side, other in before if other]
    fresh = [side for side, other in before if not other]
    gone = [side for side in old if not side.same_in(there)]
    with writing():
        write_sides(fresh, gone, same)
    return 1 if fresh else 2 if left_out else 0
