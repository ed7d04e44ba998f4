"""What the checker found, as values: the JSON of `lockdep explain --json`, version 1, or 3 with `--locks`; 2 was that of earlier ones."""
from __future__ import annotations

import json
from dataclasses import dataclass, field
from itertools import takewhile
from typing import Tuple

from ..base.saying import Refusal
from ..base.words import text_of, visible
from .events import MALFORMED, Event, Held
from .verdicts import BY_LEVELS, Judgement, Level, Verdict

TYPE_CHECKING = False
if TYPE_CHECKING:
    from typing import Callable, Iterator
    from ..record.provoked import Attempts, Happened
    from ..record.handlers import Handler

VERSIONS = (1, 2, 3)
STATES = ("hardirq", "softirq")

Fact = Tuple[str, ...]  # an order as findings have it, or a usage mark with its key


@dataclass(frozen=True)
class Sighting:
    """The first occurrence of an order in a trace: the record that takes the second lock, and the one that took the first."""

    event: Event
    since: Event


@dataclass(frozen=True)
class Order:
    """An order of two locks: of the held key and the one that is taken, each with its mode and record, if these are known; in how many traces it is,
    and where in the first ones."""

    start: str
    kind: str
    end: str
    held: str | None = None
    since: Event | None = None
    takes: str | None = None
    event: Event | None = None
    signal: str = ""  # that comes in while the first is held, if its handler is what takes the second
    handler: str = ""
    traces: int = 0
    sightings: tuple[Sighting, ...] = ()

    @property
    def dependency(self) -> tuple[str, str, str]:
        return self.start, self.kind, self.end

    @property
    def line(self) -> str:
        """The order as a finding's lines have it."""
        return "circle %s %s %s" % self.dependency


@dataclass(frozen=True)
class Use:
    """How a key came to be used in a state, or with it enabled: by a record that takes it, or that turns interrupts on while it
    is held."""

    event: Event | None = None
    takes: str | None = None
    turns_on: str = ""
    held: str | None = None
    since: Event | None = None


@dataclass(frozen=True)
class Gate:
    """A key that was always held round these dependencies."""

    key: str
    dependencies: tuple[tuple[str, str, str], ...]


@dataclass
class Between:
    """What a finding was seen between, with the finding between single locks if there is one. For a trace that couldn't be
    asked about, it is unknown, for a reason."""

    level: Level
    finding: Finding | None = None
    reason: str = ""


@dataclass
class Finding:
    """One finding of the JSON: its place there, from 1 on, and its number among those that are shown."""

    place: int
    type: str
    irq: str
    keys: list[str]
    lines: list[str]
    notes: list[str] = field(default_factory=list)
    orders: list[Order] = field(default_factory=list)
    used: Use = Use()
    enabled: Use = Use()
    gates: list[Gate] = field(default_factory=list)
    only: str = ""
    between: Between | None = None
    judged: Judgement | None = None  # by what a recording says of it
    json: dict = field(default_factory=dict)
    number: int = 0
    happened: Happened | None = None  # in a run of `lockdep provoke`
    attempts: Attempts | None = None  # all of its runs
    handler: Handler | None = None  # of a signal, if it is what comes in
    cause: Cause | None = field(default=None, compare=False, repr=False)  # of a kernel's: it knows its findings

    @property
    def rule(self) -> str:
        """What SARIF and JUnit call a finding of this kind."""
        return "signal-" + self.type if self.handler else self.type

    @property
    def state(self) -> str:
        """What may come in: a state of interrupts, or a signal."""
        return self.handler.signal if self.handler else self.irq

    @property
    def head(self) -> str:
        """The first line of the finding in the explanation."""
        if self.type != "circle" or not self.orders:
            return self.lines[0]
        words = [word for order in self.orders for word in (order.kind, order.end)]
        return " ".join(["circle", self.orders[0].start] + words)

    @property
    def level(self) -> Level | None:
        return self.between.level if self.between else None

    @property
    def judgement(self) -> Judgement | None:
        """What is known of the finding; nothing if single locks weren't asked about."""
        judged = self.judged or (BY_LEVELS[self.level] if self.level else None)
        if self.happened and (self.happened.is_final or judged is None):
            return Judgement(Verdict.HAPPENED)
        return Judgement(Verdict.NOT_KNOWN, why=self.happened.words) if self.happened and not judged.is_counted else judged

    @property
    def verdict(self) -> Verdict | None:
        return self.judgement.verdict if self.judgement else None

    @property
    def is_note(self) -> bool:
        """A type nested in itself is a note, and no finding."""
        return self.level is Level.NESTED and not self.happened

    @property
    def is_counted(self) -> bool:
        """Whether it makes a run fail of which only that counts which is possible, or not known."""
        return self.judgement is None or self.judgement.is_counted

    @property
    def is_narrow(self) -> bool:
        """Whether a signal has to come in at a narrow moment, since the lock that its handler waits for knows its owner."""
        return self.handler is not None and self.type == "double" and self.is_about(self.handler.is_narrow)

    def is_about(self, kind: Callable[[str], bool]) -> bool:
        """Whether a lock of the finding, or of the one between single locks, is of this kind."""
        inner = self.between.finding if self.between else None
        return any(map(kind, self.keys + (inner.keys if inner else [])))

    def edges(self) -> set[tuple[str, str, str]]:
        """The edges of the picture that belong to the finding: from, to, and label."""
        edges = {(order.start, order.end, order.kind) for order in self.orders}
        if self.type != "circle":
            edges.add((self.keys[-1], self.keys[0], self.irq))
        return edges

    def own_events(self) -> list[Event]:
        """The records that the finding itself names, each once."""
        events = [event for order in self.orders for event in (order.event, order.since)]
        events += [event for use in (self.used, self.enabled) for event in (use.event, use.since)]
        return list(dict.fromkeys(event for event in events if event))

    def events(self) -> list[Event]:
        """Those, and the ones that the finding between single locks names."""
        inner = self.between.finding.own_events() if self.between and self.between.finding else []
        return list(dict.fromkeys(self.own_events() + inner))


@dataclass
class Cause:
    """An acquisition that findings go through: the orders and marks that it makes in them, first the one of most; how many of all traces have these, at most;
    whether more traces have all else that is in them; and of how many findings they are. The first of them, a shortest one, has the first order or mark."""

    held: Event
    facts: list[Fact]
    traces: int
    all_traces: int
    is_rarest: bool
    findings: list[Finding]
    all_findings: int


# ---- Reading.


def state_of(word: object) -> str:
    """A state of interrupts, which texts contain as it is."""
    if word != "" and word not in STATES:
        raise ValueError("the state %r" % word)
    return str(word)


def event_of(said: dict, name: str) -> Event | None:
    """The record that an order or a use has under this name, or None if it has none."""
    file = said.get("since_file") if name == "since" else None
    return Event(str(file or said["file"]), int(said[name])) if "file" in said and name in said else None


def sighting_of(said: dict) -> Sighting:
    return Sighting(Event(str(said["file"]), int(said["record"])), Event(str(said.get("since_file") or said["file"]), int(said["since"])))


def order_of(said: dict) -> Order:
    traces = said.get("traces") or {"count": 0, "first": []}
    return Order(str(said["from"]), str(said["kind"]), str(said["to"]), said.get("held"), event_of(said, "since"),
                 said.get("takes"), event_of(said, "record"), str(said.get("signal") or ""), str(said.get("handler") or ""),
                 int(traces["count"]), tuple(map(sighting_of, traces["first"])))


def use_of(said: dict, irq: str) -> Use:
    return Use(event_of(said, "record"), said.get("takes"), state_of(said.get("turns_on", irq)), said.get("held"),
               event_of(said, "since"))


def gate_of(said: dict) -> Gate:
    return Gate(str(said["gate"]), tuple((str(order["from"]), str(order["kind"]), str(order["to"])) for order in said["orders"]))


def between_of(number: int, said: dict) -> Between:
    return Between(Level(said["kind"]), finding_of(number, said["finding"]) if "finding" in said else None)


def finding_of(number: int, said: dict) -> Finding:
    irq = state_of(said.get("irq", ""))
    keys = [str(key) for key in (said["keys"] if "keys" in said else [said["key"]])]
    finding = Finding(number, str(said["type"]), irq, keys, [str(line) for line in said["lines"]], json=said, number=number)
    finding.notes = [str(note) for note in said.get("notes") or []]
    take_records(finding)
    finding.gates = [gate_of(gate) for gate in said.get("gates") or []]
    finding.only = str(said.get("only") or "")
    finding.between = between_of(number, said["between"]) if "between" in said else None
    if not finding.lines or not keys:
        raise ValueError("a finding without lines or keys")
    return finding


def take_records(finding: Finding) -> None:
    """Takes the orders and marks of a finding from its JSON, with the records that are there by now."""
    said = finding.json
    finding.orders = [order_of(order) for order in said.get("orders") or []]
    finding.used, finding.enabled = (use_of(said[name], finding.irq) if said.get(name) else Use(turns_on=finding.irq) for name in ("used", "enabled"))


def listed(versions: tuple[int, ...]) -> str:
    """Such as `1`, or `1, 2 and 3`."""
    words = list(map(str, versions))
    return " and ".join([", ".join(words[:-1])] * (len(words) > 1) + words[-1:])


def json_of(raw: bytes, versions: tuple[int, ...] = VERSIONS) -> dict:
    """What `explain --json` wrote, if it is of a version that is read here."""
    said = json.loads(text_of(raw))
    if said["lockdep"] not in versions:
        raise Refusal("`explain --json` wrote version %s, and this program reads version %s"
                      % (visible(str(said["lockdep"])), listed(versions)))
    return said


def findings_in_turn(raw: bytes) -> Iterator[dict]:
    """The findings of what `explain --json` wrote, one after the other, since often the first ones are enough. Each is a line."""
    return (json.loads(text_of(line.rstrip(b","))) for line in takewhile(lambda line: line.startswith(b"{"), raw.split(b"\n")[1:]))


def findings_said(said: dict) -> list[Finding]:
    return [finding_of(number, finding) for number, finding in enumerate(said["findings"], 1)]


UNREADABLE = "what `explain --json` wrote can't be read: %s"


def findings_of(raw: bytes, versions: tuple[int, ...] = VERSIONS) -> list[Finding]:
    """The findings of what `explain --json` wrote."""
    try:
        return findings_said(json_of(raw, versions))
    except MALFORMED as error:
        raise Refusal(UNREADABLE % visible(repr(error)))


def ends_of(raw: bytes) -> dict[str, list[Held]]:
    """What each trace holds at its end, the oldest first, by its file."""
    try:
        return {str(end["file"]): [Held(str(held["key"]), str(held["mode"]), Event(str(end["file"]), int(held["record"]))) for held in end["holds"]]
                for end in json_of(raw)["ends"]}
    except MALFORMED as error:
        raise Refusal(UNREADABLE % visible(repr(error)))


def numbered(findings: list[Finding]) -> list[Finding]:
    """The same findings, with the numbers by which they are shown."""
    for number, finding in enumerate(findings, 1):
        finding.number = number
    return findings


def report_lines(findings: list[Finding]) -> list[str]:
    """The report's lines of these findings, each once."""
    return list(dict.fromkeys(line for finding in findings for line in finding.lines))


def by_line(findings: list[Finding]) -> dict[str, list[Finding]]:
    """The findings of each line of the report."""
    of_lines: dict[str, list[Finding]] = {}
    for finding in findings:
        for line in finding.lines:
            of_lines.setdefault(line, []).append(finding)
    return of_lines


def handlers_of(findings: list[Finding]) -> int:
    """How often a list of known findings has to have a line: once for each handler without a name, or of one name, that the line is of."""
    return len({(finding.handler.module, finding.handler.offset) if finding.handler else None for finding in findings})
