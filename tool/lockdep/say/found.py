"""What every form of the findings shows."""
from __future__ import annotations

import os
import re
import time
from dataclasses import dataclass, field

from ..ask.blocked import Blocked
from ..ask.breaches import Breach
from ..ask.signals import Signals
from ..ask.verdict import Recorded
from ..base.words import counted, name_in
from ..places.places import traces_of_classes
from ..places.sources import Sources
from ..program.checker import text_answer
from ..program.findings import Finding
from ..record.summary import Summary
from .cause_words import cause_words, doing_words, is_told
from .judged import ring_of
from .sentences import Names, mending, row_words, rows_of, title, verdict_lines
from .verdict_words import remarks_of

TYPE_CHECKING = False
if TYPE_CHECKING:
    from typing import Callable, TypeVar
    Words = TypeVar("Words")

NAME = "[a-z][a-z -]*"  # of a count
COUNT = "^%s (\\d+)$"  # a line of the checker's report
HANG = "Waiting for a lock at the end, which is what a deadlock looks like:"
MOST_OF_TIME = "[0-9]{1,11}"


@dataclass
class Found:
    """Findings, with all that forms say of them."""

    new: list[Finding]
    known: list[Finding]
    sources: Sources
    recorded: Recorded
    files: list[str]
    left_out: str = ""
    waiting: list[str] = field(default_factory=list)
    blocked: list[Blocked] = field(default_factory=list)
    summary: Summary = field(default_factory=Summary)
    raw: bytes = b""
    known_blocked: int = 0
    breaches: list[Breach] = field(default_factory=list)
    known_breaches: list[Breach] = field(default_factory=list)
    signals: Signals | None = None  # if the recording has any
    libraries: list[tuple[Finding, str]] = field(default_factory=list)  # known by the tool's own list, each with its reason
    only_counted: bool = False  # what doesn't count with --confirmed-only is no failure of JUnit
    all_names: Names | None = None
    words: dict = field(default_factory=dict)  # of findings, by what makes them

    def __post_init__(self) -> None:
        self.known_ones = set(map(id, self.known))

    @property
    def findings(self) -> list[Finding]:
        """The new findings, without notes of types that are nested in themselves."""
        return [finding for finding in self.new if not finding.is_note]

    @property
    def has_known(self) -> bool:
        """Whether something was found that is known: a finding that is no note, a blocked thread, or a breach."""
        return self.known_blocked > 0 or bool(self.known_breaches) or any(not finding.is_note for finding in self.known)

    @property
    def names(self) -> Names:
        """What the locks of all findings are called."""
        if self.all_names is None:
            self.all_names = Names(self.new + self.known, self.sources)
        return self.all_names

    @property
    def has_causes(self) -> bool:
        """Whether the findings are sorted by their causes, as those of a kernel."""
        return any(finding.cause for finding in self.findings)

    def is_told(self, finding: Finding) -> bool:
        """Whether forms other than JSON have a finding: of those that have one cause, the first."""
        return finding.cause is None or finding is finding.cause.findings[0]

    @property
    def told(self) -> list[Finding]:
        return list(filter(self.is_told, self.findings))

    @property
    def shown(self) -> list[Finding]:
        """The findings that are shown one by one, by a form for people."""
        return self.told

    @property
    def untold(self) -> str:
        """How many findings other forms than JSON don't have, in words; empty if they have all."""
        left = len(self.findings) - len(self.told)
        return "%s the same causes. %s" % (counted(left, "more finding has", "more findings have"), self.who_has_all) if left else ""

    @property
    def who_has_all(self) -> str:
        """Which forms have all findings."""
        return "The JSON has all." if self.has_causes else "The JSON, SARIF and JUnit have all."

    @property
    def why_undrawn(self) -> str:
        """Why there is no picture of these findings; empty if there may be one."""
        return ""

    def is_known(self, finding: Finding) -> bool:
        return id(finding) in self.known_ones

    def once(self, make: Callable[..., Words], finding: Finding, *more: object) -> Words:
        """What a function makes of a finding, for all forms that say it."""
        key = make, id(finding)
        if key not in self.words:
            self.words[key] = make(finding, *more)
        return self.words[key]

    def title(self, finding: Finding) -> str:
        """What is wrong, in a line."""
        return self.once(title, finding, self.names)

    def rows(self, finding: Finding) -> list[str]:
        """What each thread does, in words."""
        return list(map(row_words, self.once(rows_of, finding, self.sources, self.names)))

    def remarks(self, finding: Finding) -> list[str]:
        """What else is said about a finding: its notes, and its verdict."""
        return self.once(remarks_of, finding, self.recorded)

    def all_remarks(self, finding: Finding) -> list[str]:
        """The cause of a kernel's finding; the remarks, of which the verdict says how the steps stand still, or what keeps them apart, if that is known; and
        what mends a cycle. (Of a signal that is a remark.)"""
        mend = "" if finding.handler else self.once(mending, finding, self.sources, self.recorded, self.names)
        remarks = self.remarks(finding)
        if ring_of(finding) and not finding.happened:
            remarks = remarks[:-1] + self.once(verdict_lines, finding, self.sources, self.recorded)
        return self.cause_lines(finding) + remarks + (["to mend it: " + mend] if mend else [])

    def cause_lines(self, finding: Finding) -> list[str]:
        """What the finding goes through, if others do, too, or if it is rare; and what is done there."""
        cause = finding.cause
        return [cause_words(cause, self.names), doing_words(cause, self.sources, self.names)] if cause and is_told(cause) else []

    def verdict_of(self, finding: Finding) -> str:
        """The verdict behind a finding in a list; empty if nothing was asked, or if the traces are of a kernel."""
        return ": " + finding.verdict.words if finding.verdict and not self.recorded.is_kernels() else ""

    def level(self, finding: Finding) -> str:
        """SARIF's level, by the verdict."""
        if self.is_known(finding) or finding.is_note:
            return "note"
        return "error" if finding.is_counted else "warning"

    def reason_of(self, finding: Finding) -> str:
        """Why the tool's own list of libraries has a finding; empty if it doesn't."""
        return next((reason for other, reason in self.libraries if other is finding), "")

    def class_files(self) -> list[str]:
        """The traces of classes, of which the picture is."""
        return traces_of_classes(self.files)

    @property
    def checked(self) -> str:
        """What was checked, in words."""
        traces, events, classes = self.counts()
        return "%s, %s, %s" % (counted(traces, "trace"), counted(events, "event"), counted(classes, "lock class", "lock classes"))

    def counts(self) -> tuple[int, int, int]:
        """How many traces, events and classes were checked: as the recording says, otherwise as the checker does."""
        events, classes = self.summary.find("events"), self.summary.find("classes")
        if events and classes:
            return len(self.files), events.number or 0, classes.number or 0
        report = text_answer(["check", "--many", "--"] + self.files)
        keys = [line.split(" ")[1] for line in report.split("\n") if line.startswith("usage ")]
        return number_of_property(report, "traces"), number_of_property(report, "events"), len({name_in(key) for key in keys})

    def numbers(self) -> dict[str, int]:
        """The counts of the recording, by their names in the summary."""
        return {count.code: count.number for count in self.summary.counts if count.number is not None and re.fullmatch(NAME, count.code)}


def number_of_property(report: str, name: str) -> int:
    """A count of the checker's report."""
    found = re.search(COUNT % name, report, re.MULTILINE)
    return int(found.group(1)) if found else 0


def moment() -> time.struct_time:
    """The time, or the one that the variable SOURCE_DATE_EPOCH gives, so that the same run can give the same bytes."""
    given = os.environ.get("SOURCE_DATE_EPOCH", "")
    return time.gmtime(int(given) if re.fullmatch(MOST_OF_TIME, given) else time.time())
