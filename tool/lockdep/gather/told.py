"""What `lockdep gather` says: which recordings something is to be said of, the findings, those that are known, and the status."""
from __future__ import annotations

import os
import tempfile

from ..base.command_line import Words
from ..base.files import STANDARD_OUTPUT, complain, text_in, text_named, write_form, write_in_place, writing
from ..base.words import bytes_of, counted, text_of, visible
from ..known.known import list_of, sort, with_others
from ..known.suppressions import Entry, entries_of
from ..places.sources import sources_of
from ..program.findings import Finding, numbered
from ..record.losses import singular, words_of_loss
from ..record.summary import Count, Summary
from ..say.forms import text_of_form
from ..say.report import known_lines
from ..say.text import write_gathered
from .facts import TOO_LONG, TOO_LONG_NAME, TOO_MANY, TOO_TANGLED, WHY_FOLDED
from .findings import Back, FoundInRecordings, InRecordings, levels_of
from .gathered import FOLDED, FOLDED_LOCKS, LEFT, RECORDED, TRACE, TRACES, Gathered
from .names import at_level, type_of
from .recordings import ACCEPTED, NEVER_RAN, UNGATHERED, WEAK_ACQUISITIONS

LIST = "the list of known findings"

# What is said of recordings besides their findings.
SAID = {
    b"breaches": "of a program that did something against what it says of its locks, which `lockdep confirm` shows",
    b"blocked": "with a thread that waited for a lock at its end, which `lockdep run --help=all` explains",
    WEAK_ACQUISITIONS.encode(): "with acquisitions that wait for a time only: findings that need these say so",
    b"by-classes": "without traces of single locks, or with more locks than can be told apart: it isn't known what is seen between locks of these",
    NEVER_RAN.encode(): "with signal handlers that never ran, which `lockdep confirm` names: what these take isn't known",
}

# Why single locks are folded.
WHY = {
    WHY_FOLDED[TOO_MANY]: "the checker takes 8,192 keys",
    WHY_FOLDED[TOO_LONG]: "a trace may have 1,000,000 events",
    WHY_FOLDED[TOO_TANGLED]: "at most 256 keys may lead to one another",
    TOO_LONG_NAME: "some names are too long to have the recording's number",
}


def say(text: str) -> None:
    complain(bytes_of("lockdep: %s\n" % visible(text)))


def known_entries(line: Words) -> list[Entry]:
    """The entries of a list of known findings, if one is given."""
    name = line.last("--known")
    return entries_of(text_named(name, LIST), name) if name else []


class Told:
    """What was gathered and found, of which the command line says what is known."""

    def __init__(self, line: Words, entries: list[Entry], gathered: Gathered, back: Back, findings: list[Finding]) -> None:
        self.line, self.gathered, self.back, self.findings = line, gathered, back, findings
        self.recorded = InRecordings(gathered, back)
        self.sources = sources_of(findings, shown=line.values.get("--source", []), kept=back.kept.callers(), made=back.kept.classes())
        self.known = line.last("--known")
        self.sorted = sort(findings, [], entries, self.sources, [gathered.trace])
        self.look_at_each(entries)
        self.accepted = line.values.get("--accept-left-out", [])

    def look_at_each(self, entries: list[Entry]) -> None:
        """A finding is known only if it is that by the places of each recording that is named for it, so none hides what another one has elsewhere."""
        new = set(map(id, self.sorted.new))
        for several in self.back.of_each(self.sorted.known):
            others = [other for _, other in several]
            there = sort(others, [], entries, sources_of(others), [self.gathered.trace])
            self.sorted.stale = list(dict.fromkeys(self.sorted.stale + there.stale))
            new_there = set(map(id, there.new))
            new |= {id(finding) for finding, other in several if id(other) in new_there}
        self.sorted.known = [finding for finding in self.findings if id(finding) not in new]
        self.sorted.new = numbered([finding for finding in self.findings if id(finding) in new])
        self.sorted.known_lines = min(self.sorted.known_lines, len({line for finding in self.sorted.known for line in finding.lines}))

    def tell(self, folder: str, forms: dict[str, str]) -> int:
        """Says it, and returns the status."""
        self.say_gathered(folder)
        self.write_known()
        for words in known_lines(self.known, self.sorted) if self.known else ():
            say(words)
        unseen = self.ungathered()
        lost = self.left_out() + unseen
        if STANDARD_OUTPUT not in forms.values():
            self.write_text()
        self.write_forms(forms, lost)
        if lost:
            say("left out: %s" % ", ".join(lost))
        counted_ones = [finding for finding in self.sorted.new if not finding.is_note and (finding.is_counted or not self.line.has("--confirmed-only"))]
        if counted_ones or b"breaches" in self.gathered.lists:
            return int(self.line.last("--error-exitcode", "1"))
        return 2 if unseen else 0

    # ---- Recordings.

    def say_gathered(self, folder: str) -> None:
        gathered, back = self.gathered, self.back
        say("%s with %s, in %s" % (counted(gathered.count(RECORDED), "recording"), counted(gathered.count(TRACES), "trace"), folder))
        if gathered.count(FOLDED_LOCKS):
            why = " and ".join(words for reason, words in WHY.items() if FOLDED + reason in gathered.lists)
            say("%s folded into %s#rest, since %s: those in the fewest orders" % (
                counted(gathered.count(FOLDED_LOCKS), "single lock is", "single locks are"), "CLASS", why))
        accepted = sorted(name for name in gathered.lists if name.startswith(ACCEPTED.encode()))
        said = {**SAID, **{name: "with a loss that is accepted, %s" % text_of(name[len(ACCEPTED):]) for name in accepted}}
        for name, words in said.items():
            seen = gathered.lists.get(name)
            if seen:
                say("%s %s: %s" % (counted(seen.count, "recording"), words, back.listed(seen)))

    def left_out(self) -> list[str]:
        """The recordings that were skipped, in words."""
        count = self.gathered.count(LEFT)
        return ["%s that can't be judged" % counted(count, "recording")] if count else []

    def ungathered(self) -> list[str]:
        """The recordings of which something wasn't looked at that nobody has accepted, in words."""
        seen = self.gathered.lists.get(UNGATHERED.encode())
        if not seen:
            return []
        is_accepted = UNGATHERED in self.accepted
        words = words_of_loss(UNGATHERED, "") or ""
        words = singular(words) if seen.count == 1 else words
        say("%s%d %s: %s" % ("accepted as left out: " if is_accepted else "", seen.count, words, self.back.listed(seen)))
        return [] if is_accepted else ["%d %s" % (seen.count, words.partition(":")[0])]

    # ---- Findings.

    def write_known(self) -> None:
        """Writes the list of what was found, with an entry for each place that it has in recordings. The comments of an earlier one stay."""
        name, traces = self.line.last("--write-known"), [self.gathered.trace]
        if not name:
            return
        text = list_of(self.findings, text_in(name), self.sources, traces, name=name)
        for several in self.back.of_each(self.findings):
            others = [other for _, other in several]
            text = with_others(text, others, sources_of(others), traces, name)
        write_form(name, text)

    def write_text(self) -> None:
        with writing():
            left = write_gathered(self.sorted.new, self.sources, self.recorded)
        if left:
            say("%s not shown here; --json - shows all" % counted(left, "more finding is", "more findings are"))

    def write_forms(self, forms: dict[str, str], lost: list[str]) -> None:
        if not forms:
            return
        for is_of_locks, part in levels_of(finding.json for finding in self.findings) if "json" in forms else ():
            self.back.put(part, is_of_locks)
        said = {**self.gathered.counts, **self.gathered.lists}
        summary = Summary([Count(text_of(name), seen.count) for name, seen in said.items()])
        with tempfile.TemporaryDirectory(prefix="lockdep-") as room:
            found = FoundInRecordings(self.sorted.new, self.sorted.known, self.sources, self.recorded, [self.gathered.trace], ", ".join(lost), summary=summary)
            found.gathered, found.types, found.only_counted = self.gathered, os.path.join(room, "types.csv"), self.line.has("--confirmed-only")
            write_in_place(bytes_of(found.types), at_level(self.gathered.files[TRACE], type_of))
            for form, name in forms.items():
                write_form(name, text_of_form(form, found))
