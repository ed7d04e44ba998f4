"""What the findings of a kernel come from. One wrong nesting closes cycles with hundreds of right orders, and each of them is a finding. So findings are put
together by what would have to be wrong for all the rest to be right, and by how many tasks speak for it. Each finding goes through orders and usage marks,
and each of these is made by an acquisition: of the lock that is held, or of the one that is taken in an interrupt. The acquisition through which the most
findings go, for each trace that has what it makes, is the first cause; and so on with the findings that are left."""
from __future__ import annotations

import functools
import heapq
from collections import Counter
from dataclasses import dataclass, field
from typing import Iterator

from ..base.words import text_of, unquoted
from ..program.checker import REFUSED, ask, program_path
from ..program.condensed import facts_in
from ..program.findings import Cause, Event, Fact, Finding, Use

WORKERS = 4  # that condense traces at once, as many as check them
ENABLED = "s on"  # behind what interrupts a lock that is held with it on, as marks are called
CERTAIN = 1 << 31  # of a finding that goes through nothing else: more traces than there can be


@dataclass
class Candidate:
    """An acquisition, and of what it makes all that at most so many traces have, for each finding that goes through it, by the finding's place."""

    held: Event
    traces: int
    facts: dict[int, list[Fact]] = field(default_factory=dict)


class Causes:
    """Looks for the causes of findings, with what each is made by, and in how many traces each order and mark is."""

    def __init__(self, findings: list[Finding], traces: list[str]) -> None:
        self.findings, self.traces = findings, traces
        self.made = [made_by(finding) for finding in findings]
        self.count = traces_with({fact for made in self.made for fact in made}, traces)
        self.left = set(range(len(findings)))

    def candidates(self) -> Iterator[Candidate]:
        """Each acquisition, with what it makes that is in one trace, in at most two, and so on."""
        of_events: dict[Event, list[tuple[int, int, Fact]]] = {}
        for place, made in enumerate(self.made):
            for fact, event in made.items():
                of_events.setdefault(event, []).append((self.count[fact], place, fact))
        for event, several in of_events.items():
            for most in sorted({count for count, _, _ in several}):
                candidate = Candidate(event, most)
                for count, place, fact in several:
                    if count <= most:
                        candidate.facts.setdefault(place, []).append(fact)
                yield candidate

    def rest(self, candidate: Candidate, place: int) -> int:
        """How many traces have each order and mark of a finding besides those of a candidate."""
        return min((self.count[fact] for fact in self.made[place] if fact not in candidate.facts[place]), default=CERTAIN)

    def rank(self, candidate: Candidate) -> tuple[float, int, int]:
        """What speaks for a candidate: how many findings go through it for each trace that has it, then how many traces have all else of one of these, and
        then how much it makes. It only falls when findings are taken away."""
        places = [place for place in candidate.facts if place in self.left]
        made = {fact for place in places for fact in candidate.facts[place]}
        return len(places) / candidate.traces, max((self.rest(candidate, place) for place in places), default=0), len(made)

    def cause(self, candidate: Candidate) -> Cause:
        """The cause that a candidate is, of the findings that are left and go through it."""
        places = sorted(place for place in candidate.facts if place in self.left)
        facts = [fact for fact, _ in Counter(fact for place in places for fact in candidate.facts[place]).most_common()]
        places.sort(key=lambda place: (facts[0] not in candidate.facts[place], len(self.made[place])))
        is_rarest = candidate.traces < min(self.rest(candidate, place) for place in places)
        return Cause(candidate.held, facts, candidate.traces, len(self.traces), is_rarest, [self.findings[place] for place in places], len(self.findings))

    def all(self) -> list[Cause]:
        """The causes, the first one first."""
        candidates = list(self.candidates())
        ranked = [(negative(self.rank(candidate)), number) for number, candidate in enumerate(candidates)]
        heapq.heapify(ranked)
        found: list[Cause] = []
        while self.left and ranked:
            before, number = heapq.heappop(ranked)
            now = negative(self.rank(candidates[number]))
            if now != before:
                heapq.heappush(ranked, (now, number))
            elif now[0]:
                found.append(self.cause(candidates[number]))
                self.left -= set(candidates[number].facts)
        return found


def negative(rank: tuple[float, int, int]) -> tuple[float, int, int]:
    return -rank[0], -rank[1], -rank[2]


def by_cause(findings: list[Finding], traces: list[str]) -> list[Finding]:
    """The findings of a kernel, each with its cause: those of the first one first. What was found without a record has none, and comes last."""
    causes = Causes(findings, traces)
    sorted_ones = []
    for cause in causes.all():
        for finding in cause.findings:
            finding.cause = cause
        sorted_ones += cause.findings
    return sorted_ones + [findings[place] for place in sorted(causes.left)]


def made_by(finding: Finding) -> dict[Fact, Event]:
    """What a finding goes through, and the acquisition that makes each."""
    made: dict[Fact, Event] = {order.dependency: order.since or order.event for order in finding.orders if order.event}
    if finding.type == "circle":
        return made
    for mark, key, use in ((finding.irq, finding.keys[0], finding.used), (finding.irq + ENABLED, finding.keys[-1], finding.enabled)):
        event = acquisition_of(use)
        if event:
            made[mark, key] = event
    return made


def acquisition_of(use: Use) -> Event | None:
    """What takes a lock that is used so: the lock is held already if interrupts are turned on."""
    return use.since if use.takes is None and use.since else use.event


# ---- In how many traces something is.


@functools.lru_cache(maxsize=1 << 14)
def key_of(named: bytes) -> str:
    """A key as findings have it, by its name and subclass in a trace."""
    name, _, sub_class = named.rpartition(b",")
    return "%s/%s" % (unquoted(text_of(name)), text_of(sub_class))


def facts_of(program: str, trace: str) -> set[Fact] | None:
    """What a trace says, unless it can't be condensed."""
    answer = ask(["condense", "--many", "--workers", "1", "--", trace], with_errors=True, path=program)
    if answer.status >= REFUSED:
        return None
    orders, marks = facts_in(answer.output)
    return {(key_of(held), kind.decode().strip(), key_of(taken)) for held, kind, taken in orders} | {(mark.decode(), key_of(key)) for mark, key in marks}


def facts_in_turn(program: str, traces: list[str]) -> Iterator[set[Fact] | None]:
    """What each trace says, or none for one that can't be condensed."""
    from concurrent.futures import ThreadPoolExecutor
    with ThreadPoolExecutor(WORKERS) as workers:
        yield from workers.map(functools.partial(facts_of, program), traces)


def traces_with(facts: set[Fact], traces: list[str]) -> dict[Fact, int]:
    """How many traces have each of these: at least the one of which the record is. One that can't be condensed counts for none: only what comes first among
    the findings hangs on that."""
    count = Counter(fact for said in facts_in_turn(program_path(), traces) for fact in facts & (said or set()))
    return {fact: max(1, count[fact]) for fact in facts}
