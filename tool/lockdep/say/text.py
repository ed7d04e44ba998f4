"""The findings as text, with their sources."""
from __future__ import annotations

import sys
from typing import Sequence

from ..ask.breaches import Breach
from ..ask.verdict import Recorded
from ..base.words import counted, name_in
from ..binaries.symbols import place_words
from ..places.sources import Sources
from ..program.findings import Cause, Finding
from .cause_words import cause_words, doing_words, is_told
from .explanation import Annotator, block_of
from .groups import MOST_BESIDE, MOST_GROUPS, MOST_OTHERS, Group, groups_by_cause, groups_told
from .sentences import ROW_INDENT, VERDICT_INDENT, Names, lines_of, order_words, title
from .terminal import Writer, is_coloured, text_stream
from .verdict_words import notes_of, said_of, verdict_of

NOT_SHOWN = "%s shown here; `lockdep confirm --all` shows each finding of a kernel, and its JSON has all"


class Text:
    """Writes findings, each as a block after an empty line: what is wrong in plain words, or, if that is asked for, all that is known of each."""

    def __init__(self, writer: Writer, sources: Sources, recorded: Recorded, findings: list[Finding], is_verbose: bool) -> None:
        self.writer, self.sources, self.recorded, self.is_verbose = writer, sources, recorded, is_verbose
        self.annotator, self.names = Annotator(sources), Names(findings, sources)

    def finding(self, finding: Finding) -> None:
        self.writer.line("")
        if self.is_verbose:
            self.block(finding)
        else:
            strong = finding.verdict.words if finding.verdict else ""
            for number, line in enumerate(lines_of(finding, self.sources, self.recorded, self.names, self.writer.width)):
                self.writer.line(line, strong=line if number == 0 else strong if line.startswith(VERDICT_INDENT + strong) else "")

    def block(self, finding: Finding) -> None:
        self.annotator.begin_block()
        for line in block_of(finding, notes_of(finding, self.recorded), said_of(finding, self.recorded), self.sources):
            self.writer.line(self.sources.demangler.text(line.text), self.annotator.under(line.items))

    def breach(self, breach: Breach) -> None:
        """What was done against what the program says of its locks, and where."""
        self.writer.line("")
        self.annotator.begin_block()
        names = self.annotator.under(tuple(name_in(key) for key in breach.keys))
        self.writer.line(self.sources.demangler.text(breach.sentence), names)
        for words, event in breach.lines():
            self.writer.line("  %s: %s" % (words, place_words(self.sources.frames(event)) or "unknown"))

    def group(self, group: Group, most: int | None = None) -> int:
        """The first finding of a group, and the others, at most so many, by one line each. Returns how many findings are left."""
        first, others, left = group.findings[0], group.findings[1:], 0
        if group.cause and is_told(group.cause):
            self.cause(group.cause)
        self.finding(first)
        if others and group.cause:
            self.writer.line("  %s through it:" % counted(len(others), "more finding goes", "more findings go"))
        elif others:
            shared = "this order, %s" % order_words(group.order, self.names) if group.order and not self.is_verbose else group.shared
            self.writer.line("  %s %s:" % (counted(len(others), "more finding has", "more findings have"), shared))
        if most is not None and len(others) > most:
            others, left = others[:most], len(others) - most
        for other in others:
            head, seen = self.head_of(other)
            self.writer.line(self.sources.demangler.text("    %s%s" % (head, "; " + seen if seen else "")))
        if left:
            self.writer.line("    and %s" % counted(left, "more", "more"))
        return left

    def cause(self, cause: Cause) -> None:
        """What findings of a kernel go through."""
        self.writer.line("")
        self.writer.line(cause_words(cause, self.names))
        self.writer.line(ROW_INDENT + doing_words(cause, self.sources, self.names))

    def head_of(self, finding: Finding) -> tuple[str, str]:
        """A finding and its verdict, to be said in one line."""
        if self.is_verbose:
            return finding.head, verdict_of(finding, self.recorded)
        is_judged = finding.verdict and not self.recorded.is_kernels()
        return "%d. %s" % (finding.number, title(finding, self.names)), finding.verdict.words if is_judged else ""

    def groups(self, groups: list[Group], most: int | None = None, most_others: int | None = None) -> int:
        """Writes the groups, at most so many, and with so many other findings. Returns how many findings are left."""
        shown = groups if most is None else groups[:most]
        return sum(self.group(group, most_others) for group in shown) + sum(len(group.findings) for group in groups[len(shown):])


def write_gathered(findings: list[Finding], sources: Sources, recorded: Recorded) -> int:
    """Writes the findings of what was gathered, each with all that is known, or the first groups if they are many. Returns how many findings are left."""
    stream = text_stream(sys.stdout.fileno())
    writer = Writer(stream, has_colours=is_coloured(stream, ""))
    writer.line("findings %d" % sum(not finding.is_note for finding in findings))
    text, groups = Text(writer, sources, recorded, findings, is_verbose=True), groups_told(findings)
    left = len(findings) - sum(len(group.findings) for group in groups) + text.groups(groups, most_others=MOST_OTHERS)
    stream.flush()
    return left


def write_blocks(findings: list[Finding], breaches: list[Breach], sources: Sources, recorded: Recorded, is_verbose: bool, color: str = "", head: str = "",
                 below: Sequence[str] = (), is_all: bool = True) -> None:
    """Writes a first line, which is how much was found if it isn't given, each finding as a block, or by their causes the first ones, and what follows. Under a
    first line of their own, findings that are told with all that is known begin with what is wrong in plain words."""
    stream = text_stream(sys.stdout.fileno())
    writer = Writer(stream, has_colours=is_coloured(stream, color))
    number = sum(not finding.is_note for finding in findings) + len(breaches)
    writer.line(head or ("findings %d" % number if is_verbose else counted(number, "finding")))
    text = Text(writer, sources, recorded, findings, is_verbose)
    plain = Text(writer, sources, recorded, findings, False)
    for finding in findings if is_all else ():
        for form in (plain, text) if head and is_verbose else (text,):
            form.finding(finding)
    left = 0 if is_all else text.groups(groups_by_cause(findings), MOST_GROUPS, MOST_BESIDE)
    if left:
        below = ["", NOT_SHOWN % counted(left, "finding isn't", "findings aren't"), *below]
    for breach in breaches:
        text.breach(breach)
    for line in below:
        writer.line(line)
    stream.flush()
