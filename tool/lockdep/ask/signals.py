"""Signal handlers of a recording. One that took a lock has a set of traces of its own, in which its runs are interrupts, and the checker is asked about
each set: its doubles and inversions are findings, beside those of the threads' own traces. Of handlers that never ran nothing is known but that."""
from __future__ import annotations

import os
import re
from dataclasses import replace

from ..base.files import text_in
from ..base.room import room_for
from ..base.words import visible
from ..binaries.symbols import Address, Symbols
from ..places.places import Places
from ..program.checker import REFUSED, Answer, ask
from ..program.checker import BY_LOCKS
from ..program.findings import Finding, findings_of
from ..program.verdicts import Judgement, Level, Verdict
from ..record.folder import OF_SIGNALS, SIGNALS, WEAK
from ..record.handlers import THREADS, Handler, handlers_in, words_of_handler
from ..record.trace_names import traces_in
from .signal_gates import note_gates
from .signal_joins import without_own_joins
from .signal_links import Links, links_of, marks_of
from .timed import judge_marked

TYPE_CHECKING = False
if TYPE_CHECKING:
    from concurrent.futures import Executor

QUEUED = re.compile("(?<=,[0-7]),r$")
TO_THREADS = "%s was sent to single threads alone, so code of other threads isn't checked against it"
SIGNALS_UNORDERED = "the order of steps doesn't say when a signal may come in"
NEVER_RAN = "handlers that never ran: %s; what these take isn't known"
MOST_AT_ONCE = 64


# ---- The files.


# ---- What was found.


class Signals:
    """The handlers of a recording's signals: those that took a lock, those that never ran, what was found about them, and of which it couldn't be
    asked."""

    def __init__(self, folder: str) -> None:
        self.folder = os.path.join(folder, SIGNALS)
        self.ran, self.never = (handlers_in(folder, name) for name in OF_SIGNALS)
        self.findings: list[Finding] = []
        self.refused: list[Handler] = []
        self.said = b""  # why, by the checker
        self.known: Symbols | None = None

    def traces_of(self, handler: Handler) -> list[str]:
        return traces_in(os.path.join(self.folder, str(handler.number)))

    def ask(self) -> None:
        """Asks the checker about all sets, several at once."""
        from concurrent.futures import ThreadPoolExecutor
        found: list[Finding] = []
        with ThreadPoolExecutor(min(MOST_AT_ONCE, os.cpu_count() or 1)) as pool, room_for(os.path.dirname(self.folder)) as room:
            links = self.links(pool, room) if len(self.ran) > 1 else [None] * len(self.ran)
            answers = list(pool.map(self.answer_about, self.ran, links))
            for handler, added, answer in zip(self.ran, links, answers):
                if answer.status < REFUSED:
                    found += self.findings_about(handler, added, answer, room)
                else:
                    self.refused.append(handler)
                    self.said += answer.said
        self.findings = [finding for type in ("double", "inversion") for finding in found if finding.type == type]

    def findings_about(self, handler: Handler, links: Links | None, answer: Answer, room: str) -> list[Finding]:
        """The doubles and inversions of a handler's set."""
        found, traces = findings_of(answer.output), self.traces_of(handler)
        of_set, again = os.path.join(self.folder, str(handler.number)), os.path.join(room, str(handler.number))
        if found and os.path.lexists(os.path.join(of_set, WEAK)):
            os.mkdir(again)
            judge_marked(found, of_set, traces + ([links.path] if links else []), again)
        found = without_own_joins([finding for finding in found if may_happen(finding, handler)], traces)
        for finding in found:
            take_handler(finding, handler)
            if finding.level in (Level.LOCKS, Level.PERHAPS) and not finding.judged:
                finding.judged = Judgement(Verdict.NOT_KNOWN, why=SIGNALS_UNORDERED)
        note_gates(found, handler, traces)
        return found

    def links(self, pool: Executor, room: str) -> list[Links | None]:
        """What other signals add to the set of each handler: orders in other threads. (Of a signal's handlers only one is installed at a time.)"""
        of_each = list(pool.map(links_of, self.ran, pool.map(marks_of, map(self.traces_of, self.ran))))
        of_others = [[link for links in of_each for link in links if link.handler.signal != own.signal
                      and not (link.handler.is_in_one_thread and own.is_in_one_thread)] for own in self.ran]
        return [Links(links, os.path.join(room, "links-%d.csv" % number)) if links else None for number, links in enumerate(of_others)]

    def answer_about(self, handler: Handler, links: Links | None) -> Answer:
        traces = self.traces_of(handler)
        if not traces:
            return Answer(b"", REFUSED, b"%s has no traces\n" % os.fsencode(os.path.join(self.folder, str(handler.number))))
        if not links:
            return ask(BY_LOCKS + traces, with_errors=True)
        links.write()
        answer = ask(BY_LOCKS + traces + [links.path], with_errors=True)
        if answer.status < REFUSED:
            answer.output = links.with_records(answer.output)
        return answer

    @property
    def left_out(self) -> list[str]:
        """What couldn't be checked, in words."""
        return ["%s, the traces of which were refused" % words_of_handler(handler, self.symbols) for handler in self.refused]

    @property
    def symbols(self) -> Symbols:
        """Where the handlers are, all of which are looked up at once."""
        if self.known is None:
            self.known = Symbols()
            for handler in self.ran + self.never:
                handler.want(self.known)
            self.known.ask()
        return self.known

    def run_in(self, trace: str) -> Handler | None:
        """The handler whose runs a trace of the threads' own ones is of: in its set the trace of this name has the same records in an interrupt, and
        perhaps releases at the end."""
        own, name = records_of(trace), os.path.basename(trace)
        sets = [(handler, os.path.join(self.folder, str(handler.number), name)) for handler in self.ran]
        return next((handler for handler, other in sets if is_run(other) and records_of(other)[:len(own)] == own), None)

    def lines(self) -> list[str]:
        """What is said of handlers besides the findings."""
        lines = [TO_THREADS % self.named([handler]) for handler in self.ran if handler.sent_to == THREADS]
        of_functions: dict[Handler, list[Handler]] = {}
        for handler in self.never:
            of_functions.setdefault(replace(handler, signal=""), []).append(handler)
        never = ", ".join(map(self.named, of_functions.values()))
        return lines + ([NEVER_RAN % never] if never else [])

    def named(self, handlers: list[Handler]) -> str:
        """The signals of one function, such as `SIGINT/SIGTERM (stop at server.c:40)`."""
        frame = handlers[0].frame(self.symbols)
        place = (frame.words if frame.path or frame.address else frame.function) or "at an unknown place"
        return "%s (%s)" % ("/".join(dict.fromkeys(handler.signal for handler in handlers)), visible(place))


def records_of(trace: str) -> list[tuple[str, list[Address]]]:
    """The acquisitions and releases of a trace, with their callers. A reader who queues behind writers is one of these in a set."""
    places = Places(trace)
    return [(QUEUED.sub(",w", line), places.callers(record)) for record, line in enumerate(text_in(trace).split("\n"), 1)
            if line.startswith(("acq,", "rel,"))]


def is_run(trace: str) -> bool:
    """Whether a trace of a set is that of a handler's runs."""
    return "\nenter," in text_in(trace)


def may_happen(finding: Finding, handler: Handler) -> bool:
    """Whether it isn't a circle, which is in the threads' own traces too, nor an inversion that takes a second thread where there is none."""
    return finding.type == "double" or (finding.type == "inversion" and (not handler.is_alone or is_order_of_handler(finding)))


def is_order_of_handler(finding: Finding) -> bool:
    """Whether the handler itself takes the one lock with the other one held."""
    return len(finding.orders) == 1 and finding.orders[0].event is not None and not finding.orders[0].signal and is_run(finding.orders[0].event.file)


def take_handler(finding: Finding, handler: Handler) -> None:
    """Makes a finding one of a signal, also between single locks."""
    finding.handler = handler
    if finding.used.takes == "w" and finding.is_about(handler.is_queued):
        finding.used = replace(finding.used, takes="r")
        finding.json["used"]["takes"] = "r"
    finding.lines = [with_state(line, handler) for line in finding.lines]
    finding.json["lines"] = finding.lines
    if finding.between and finding.between.finding:
        take_handler(finding.between.finding, handler)


def with_state(line: str, handler: Handler) -> str:
    """A line of a report, such as `double hardirq table/0`, with the handler in the place of the state."""
    type, _, keys = line.split(" ", 2)
    return " ".join((type, handler.state, keys))


def ask_about_signals(folder: str) -> Signals:
    signals = Signals(folder)
    signals.ask()
    return signals
