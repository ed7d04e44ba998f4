"""What a recording's traces are asked: the checker, once, about its single locks; and if that can't be, about its classes."""
from __future__ import annotations

import os

from ..program.checker import BY_CLASSES, BY_LOCKS, REFUSED, Answer, ask
from ..record.folder import OBJECTS, PROVOKED, SIGNALS
from ..record.trace_names import traces_in

TYPE_CHECKING = False
if TYPE_CHECKING:
    from ..program.findings import Held
    from .signals import Signals

NO_OBJECTS = "the recording has no traces of single locks"
REFUSED_OBJECTS = "the traces of single locks were refused"
TOO_MANY_LOCKS = (b"T6 TooManyKeys", b"M1 TooTangled")  # of these there are traces by classes, which say less


class Asked:
    """What the checker answered about a recording: `reason` says why it wasn't asked about single locks, if so, and `said` what
    it wrote on standard error then. A refused answer is about the traces of classes."""

    def __init__(self, folder: str, answer: Answer, traces: list[str], reason: str = "", said: bytes = b"") -> None:
        self.folder, self.answer, self.traces, self.reason, self.said = folder, answer, traces, reason, said
        self.found: list | None = None
        self.signals: Signals | None = None

    @property
    def is_refused(self) -> bool:
        return self.answer.status >= REFUSED

    @property
    def has_findings(self) -> bool:
        """Whether something was found, also a note of a type that is nested in itself. Without findings the list is empty."""
        of_signals = bool(self.signals and self.signals.findings)
        return of_signals or self.answer.status == 1 or b'{"type":' in self.answer.output

    @property
    def left_out(self) -> list[str]:
        """What couldn't be asked, in words."""
        return self.signals.left_out if self.signals else []

    @property
    def why_left_out(self) -> bytes:
        """What the checker said about that."""
        return self.signals.said if self.signals else b""

    def findings(self) -> list:
        """What was found. If single locks weren't asked about, it isn't known what a finding was seen between."""
        if self.found is None:
            self.found = self.read_findings() if self.has_findings else []
        return list(self.found)

    def ends(self) -> dict[str, list[Held]]:
        """What each trace holds at its end. Where single locks couldn't be asked about, that is asked of the classes."""
        from ..program.findings import ends_of
        answer = ask(BY_LOCKS + self.traces, with_errors=True) if self.reason else self.answer
        return ends_of(answer.output) if answer.status < REFUSED else {}

    def read_findings(self) -> list:
        import gc
        from ..program.findings import Between, findings_of, numbered
        from ..program.verdicts import Level
        from ..record import summary
        from ..record.kernels import is_of_kernel
        from .blocked import standing_at_end
        from .judging import AtEnd, judge
        from .verdict import Recorded, by_importance
        gc.disable()  # (findings live until the end, and with many of them a third of the time went into looking for garbage among them)
        findings = findings_of(self.answer.output)
        for finding in findings:
            finding.between = finding.between or Between(Level.UNKNOWN, reason=self.reason)
        if findings:
            counted = summary.read(self.folder)
            stood = tuple(blocked.orders for blocked in (standing_at_end(self, counted) if counted else ()))
            held = frozenset() if self.reason else frozenset(held.event for several in self.ends().values() for held in several)
            judge(findings, AtEnd(stood, held), self.folder, self.traces, Recorded(self.traces, counted))
        for finding in self.signals.findings if self.signals else ():
            finding.place = len(findings) + 1
            findings.append(finding)
        if is_of_kernel(self.folder):
            from .causes import by_cause
            return numbered(by_cause(findings, self.traces))
        ranked = numbered(by_importance(findings))  # whatever happens later, they keep their numbers
        if os.path.exists(os.path.join(self.folder, PROVOKED)):
            from .happened import take_happened
            take_happened(ranked, self.folder)
        return by_importance(ranked)


def ask_about(folder: str) -> Asked:
    """Asks about all traces of a recording: those of its threads, and those of signal handlers."""
    asked = ask_about_threads(folder)
    if not asked.is_refused and os.path.lexists(os.path.join(folder, SIGNALS)):
        from .signals import ask_about_signals
        asked.signals = ask_about_signals(folder)
    return asked


def ask_about_threads(folder: str) -> Asked:
    objects = traces_in(os.path.join(folder, OBJECTS))
    reason, said = NO_OBJECTS, b""
    if objects:
        answer = ask(BY_LOCKS + objects, with_errors=True)
        if answer.status < REFUSED:
            return Asked(folder, answer, objects)
        reason, said = REFUSED_OBJECTS, answer.said
    traces = traces_in(folder)
    if not traces:  # (of a program that takes no lock, whose handlers ran)
        return Asked(folder, Answer(b"", 0, b""), [])
    return Asked(folder, ask(BY_CLASSES + traces, with_errors=True), traces, reason, said)
