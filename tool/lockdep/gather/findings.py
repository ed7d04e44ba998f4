"""The findings of what was gathered, brought back to the recordings: each order and mark with the recordings that have it, and with the records of the
first one that is still there."""
from __future__ import annotations

import copy
import json
import os
from heapq import heapify, heappop, heappush
from itertools import accumulate, islice
from typing import Iterable, Iterator

from ..ask.verdict import Recorded, by_importance, type_of_key
from ..base.saying import Refusal, typed
from ..base.words import bytes_of, counted, name_in, text_of, visible
from ..program.checker import BY_LOCKS, REFUSED, ask
from ..program.findings import Between, Finding, finding_of, findings_said, numbered, take_records
from ..program.verdicts import Judgement, Level, Verdict
from ..places.sources import Sources
from ..say.found import Found
from ..say.groups import groups_told
from .facts import Program
from .gathered import RECORDED, TRACE, TRACES, Gathered
from .kept_places import MARKS, MOST_KEPT, KeptPlaces, Wanted, entry_of, events_of, text_of_file, wanted_of
from .names import class_of, is_lock
from .nights import words_of_lots
from .orders import Number, Seen
from .places import OCCURRENCE, Places, Recordings, parts_of
from .timed import judge_timed
from .whole import UNCOUNTED, Wholes

NO_LOCKS = "some recordings have no traces of single locks"
OF_ONE = "`lockdep confirm` of that recording says what the order of its steps shows"
OF_TRACE = "a trace by itself has no order of steps"
OF_EACH = "the order of steps that each recording has is of its own steps alone"
GONE = "%s isn't there any more, so the order of its steps isn't known"
OWN_CYCLE = ", a cycle of %s own"  # behind locks of a longer one, of which no recording has all
TOGETHER = "only by several recordings together"
PARTLY = "some recordings have only a part of it"
NOT_COMPARED = "%s: single locks of one recording can't be compared with those of another"
MOST_SHOWN = 400  # orders of the findings on a page: a table has a column for each task, and rows of each
MOST_DRAWN = 300  # orders and marks of a picture: more of them take Graphviz half a minute
MOST_LOOKED_FOR = 5000  # orders and marks of findings whose records are looked for
SEPARATORS = set(",;")
NO_RECORDS = "no records are shown for %s: none of the recordings that are named is there any more and has it"


class Back:
    """Brings findings back to their recordings."""

    def __init__(self, gathered: Gathered, program: Program) -> None:
        self.table = gathered.table
        self.wholes, self.are_all_counted = Wholes(self.table), UNCOUNTED not in gathered.lists
        self.recordings = Recordings(gathered.recordings, program)
        self.kept = KeptPlaces(gathered.places, self.recordings.roots, self.recordings.kept_root)
        self.found_in: dict[Wanted, Number] = {}
        self.places: dict[tuple[bool, Wanted], dict] = {}
        self.seen_of: dict[tuple[bool, Wanted], Seen] = {}  # of these that were asked for, since many findings have the same orders
        self.said_of: dict[tuple[bool, Wanted], dict] = {}
        self.looked_for: set[tuple[bool, Wanted]] = set()

    # ---- Which recordings.

    def seen(self, what: Wanted, is_of_locks: bool) -> Seen:
        """The recordings that have an order or a mark."""
        if (is_of_locks, what) not in self.seen_of:
            self.seen_of[is_of_locks, what] = self.looked_up(what, is_of_locks)
        return self.seen_of[is_of_locks, what]

    def looked_up(self, what: Wanted, is_of_locks: bool) -> Seen:
        """The same by the table. A single lock's name says of which recording it is."""
        if is_of_locks:
            numbers = [number for number in (self.recordings.number_of(name_in(key)) for key in keys_of(what)) if number]
            if numbers:
                return Seen((("", 1),), (max(numbers, key=len),))
            what = at_classes(what)
        return self.table.get(entry_of(what), Seen())

    def whole(self, said: dict, is_of_locks: bool) -> Seen | None:
        """The recordings that have all orders and marks of a finding; None if it isn't known which they are. A single lock's recording has all of it only if
        each order is of that one."""
        several = [what for what, _ in parts_of(said)]
        seen = [self.seen(what, is_of_locks) for what in several]
        common = set(seen[0].first).intersection(*(each.first for each in seen[1:]))
        if is_of_locks and any(self.recordings.number_of(name_in(key)) for what in several for key in keys_of(what)) or all(each.is_whole for each in seen):
            numbers = tuple(sorted(common))
            return Seen((("", len(numbers)),) if numbers else (), numbers)
        counted_ones = self.wholes.seen({entry_of(at_classes(what) if is_of_locks else what) for what in several}, not is_of_locks)
        return counted_ones if counted_ones.count or self.are_all_counted else None

    def why_open(self, said: dict) -> str:
        """Why what is seen between classes may be between single locks: those of a recording that has only a part of it can't be compared with others. So
        no recording hides what others say."""
        whole = (self.whole(said, False) or Seen()).count
        is_of_each = all(self.seen(what, False).count == whole for what, _ in parts_of(said))
        return "" if whole and is_of_each else NOT_COMPARED % (PARTLY if whole else TOGETHER)

    def said(self, what: Wanted, is_of_locks: bool) -> dict:
        """The recordings of an order or a mark, as the JSON has them."""
        if (is_of_locks, what) not in self.said_of:
            seen = self.seen(what, is_of_locks)
            of_lots = words_of_lots(seen)
            self.said_of[is_of_locks, what] = {"count": seen.count, "first": self.names(seen), **({"seen": of_lots} if of_lots else {})}
        return self.said_of[is_of_locks, what]

    def names(self, seen: Seen) -> list[str]:
        return [self.recordings.names.get(number, "") for number in seen.first]

    def listed(self, seen: Seen) -> str:
        more = "" if seen.is_whole else " and %s more" % "{:,}".format(seen.count - len(seen.first))
        return ", ".join(map(in_a_list, self.names(seen))) + more

    # ---- Where.

    def look(self, wanted: list[tuple[bool, Wanted]]) -> None:
        """Looks for the records of each of these: in the first recording that is still there, several of one recording at once, and then among what was kept."""
        self.looked_for.update(wanted)
        left = {what: iter(self.seen(what[1], what[0]).first) for what in wanted if what not in self.places}
        asked_of: dict[Number, list[tuple[bool, Wanted]]] = {}
        numbers: list[Number] = []  # a heap of those of the latter

        def ask_next(several: Iterable[tuple[bool, Wanted]]) -> None:
            for what in several:
                for number in islice(left[what], 1):
                    asked_of.setdefault(number, []).append(what)
                    if len(asked_of[number]) == 1:
                        heappush(numbers, number)
        ask_next(left)
        while numbers:
            first = heappop(numbers)
            here = asked_of.pop(first)
            for is_of_locks in (False, True):
                asked = [what for of_locks, what in here if of_locks == is_of_locks]
                found = self.recordings.places(first, asked, is_of_locks) if asked else {}
                self.places.update({(is_of_locks, what): place for what, place in found.items()})
                self.found_in.update({} if is_of_locks else dict.fromkeys(found, first))
            ask_next(what for what in here if what not in self.places)
        kept = [what for is_of_locks, what in wanted if not is_of_locks and (False, what) not in self.places]
        self.places.update({(False, what): place for what in kept for place in [self.kept.place(what)] if place})

    def of_each(self, findings: list[Finding]) -> Iterator[list[tuple[Finding, Finding]]]:
        """For each recording that is named and is there the findings of which it has a part, each with the same one by that one's records."""
        asked_of: dict[Number, list[Finding]] = {}
        for finding in findings:
            for number in sorted({number for what, _ in parts_of(finding.json) for number in self.seen(what, False).first}):
                asked_of.setdefault(number, []).append(finding)
        for number, several in sorted(asked_of.items()):
            wanted = dict.fromkeys(what for finding in several for what, _ in parts_of(finding.json))
            places = self.recordings.places(number, list(wanted), False)
            if places:
                yield [(finding, with_records(finding, places)) for finding in several]

    def put(self, said: dict, is_of_locks: bool) -> None:
        """Puts recordings into a finding of the JSON."""
        for what, part in parts_of(said):
            part["recordings"] = self.said(what, is_of_locks)
        whole = self.whole(said, is_of_locks)
        if whole is not None:
            said["recordings"] = {"count": whole.count, "first": self.names(whole)}


def take_away(said: dict) -> None:
    """Takes out of a finding of the JSON what can only be said of one recording's traces, and the records of what was gathered."""
    for _, part in parts_of(said):
        for name in (*OCCURRENCE, "traces"):
            part.pop(name, None)
    said.update({name: [] for name in ("notes", "gates") if name in said})
    said.pop("only", None)


def with_records(finding: Finding, places: Places) -> Finding:
    """The same finding with these records in the place of its own, without those of what was seen between single locks."""
    said = {name: copy.deepcopy(value) for name, value in finding.json.items() if name != "between"}
    for what, part in parts_of(said):
        part.update(places.get(what, {}))
    other = finding_of(finding.number, said)
    other.judged, other.between = finding.judged, Between(finding.between.level, reason=finding.between.reason) if finding.between else None
    return other


def in_a_list(name: str) -> str:
    """A recording's name as it is shown: in quotes if it has what stands between such names, or behind them."""
    return typed(visible(name)) if set(name) & SEPARATORS else visible(name)


def keys_of(what: Wanted) -> list[str]:
    return [what[2]] if what[0] in MARKS else [what[0], what[2]]


def at_classes(what: Wanted) -> Wanted:
    """An order or a mark by the classes of its locks."""
    return tuple(class_key(word) if "/" in word else word for word in what)


def class_key(key: str) -> str:
    name, _, sub_class = key.rpartition("/")
    return "%s/%s" % (text_of(class_of(bytes_of(name))), sub_class)


def levels_of(several: Iterable[dict]) -> Iterator[tuple[bool, dict]]:
    """The findings of the JSON, each with the one between single locks, and whether it is that."""
    for said in several:
        yield False, said
        inner = said.get("between", {}).get("finding")
        if inner:
            yield True, inner


def findings_in(gathered: Gathered, back: Back) -> list[Finding]:
    """What the checker finds in what was gathered, the most important first."""
    answer = ask(BY_LOCKS + [gathered.trace], with_errors=True)
    if answer.status >= REFUSED:
        raise Refusal(answer.reason)
    said = json.loads(text_of(answer.output))
    for _, part in levels_of(said["findings"]):
        take_away(part)
    findings = findings_said(said)
    judge_timed(findings, gathered.files[TRACE], back.table)
    if b"by-classes" in gathered.lists:
        hide_classes(findings)
    for finding in findings:
        reason = back.why_open(finding.json) if finding.level in (Level.CLASSES, Level.TYPES) else ""
        if reason:
            finding.judged = Judgement(Verdict.NOT_KNOWN, why=reason)
            leave_open(finding, reason)
    ranked = numbered(by_importance(findings))
    put_places(ranked, back)
    return ranked


def put_places(findings: list[Finding], back: Back) -> None:
    """Puts records into findings, the first of which are the most important: into so many as can be looked for in some seconds."""
    several = [(finding, finding.between.finding if finding.between else None) for finding in findings]
    levels = [(is_of_locks, each, parts_of(each.json)) for pair in several for is_of_locks, each in enumerate(pair) if each]
    wanted = dict.fromkeys((is_of_locks, what) for is_of_locks, _, parts in levels for what, _ in parts)
    back.look(list(wanted)[:MOST_LOOKED_FOR])
    for is_of_locks, each, parts in levels:
        found = [(part, back.places[is_of_locks, what]) for what, part in parts if (is_of_locks, what) in back.places]
        for part, place in found:
            part.update(place)
        if found:
            take_records(each)


def places_text(back: Back, sources: Sources, is_of_all: bool) -> bytes:
    """The file of places: of the orders and marks of findings, or of all, since a recording may be gone when its order makes a cycle."""
    if is_of_all:
        back.look([(False, what) for what in all_wanted(back.table) if what not in back.kept.lines][:MOST_KEPT])
    found = {what: back.places[False, what] for what in back.found_in}
    sources.want_events(events_of(found.values()))
    sources.want_made([made for what, place in found.items() for made in back.kept.made_for(what, place["file"])])
    sources.ask()
    for what, place in found.items():
        back.kept.take(what, place, back.found_in[what], sources)
    return text_of_file(back.kept.lines)


def all_wanted(table: Iterable[bytes]) -> list[Wanted]:
    """The orders of a table, and the marks of those states of interrupts of which it has both kinds: others can't be in a finding."""
    several = [what for what in map(wanted_of, table) if what]
    kinds = {what[:2] for what in several if what[0] in MARKS}
    return [what for what in several if what[0] not in MARKS or kinds.issuperset((mark, what[1]) for mark in MARKS)]


def hide_classes(findings: list[Finding]) -> None:
    """Some recordings have no single locks: it isn't known whether a name without a number is one lock in them."""
    for finding in findings:
        between = finding.between
        if between and not finding.judged and between.level is Level.LOCKS and between.finding and not any(is_lock(bytes_of(name_in(key))) for key in between.finding.keys):
            leave_open(finding, NO_LOCKS)


def leave_open(finding: Finding, reason: str) -> None:
    """Leaves open whether single locks make a finding."""
    finding.between = Between(Level.UNKNOWN, reason=reason)
    finding.json["between"] = {"kind": Level.UNKNOWN.value}


class InRecordings(Recorded):
    """What several recordings say of a finding."""

    def __init__(self, gathered: Gathered, back: Back) -> None:
        super().__init__([gathered.trace])
        self.back = back
        self.whole_of: dict[int, Seen | None] = {}

    def seen_in(self, finding: Finding) -> list[str]:
        """For each order and mark of a finding the recordings that have it."""
        seen = [(what, words_of_wanted(what, finding), self.back.seen(what, False)) for what, _ in parts_of(finding.json)]
        lines = ["%s: in %s: %s%s" % (words, counted(each.count, "recording"), self.back.listed(each), "; " + of_lots if of_lots else "")
                 for _, words, each in seen for of_lots in [words_of_lots(each)]]
        return lines + [NO_RECORDS % words for what, words, _ in seen if (False, what) in self.back.looked_for and (False, what) not in self.back.places]

    def whole(self, finding: Finding, inner: Finding) -> Seen | None:
        """The recordings that have all of a finding: by its single locks, unless these make another cycle than that of the finding, which none of them has."""
        if id(finding) not in self.whole_of:
            whole = self.back.whole(inner.json, True)
            is_of_locks = whole and whole.count or ends_by_types(inner) == ends_by_types(finding)
            self.whole_of[id(finding)] = whole if is_of_locks else self.back.whole(finding.json, False)
        return self.whole_of[id(finding)]

    def who_words(self, finding: Finding, inner: Finding) -> str:
        """How many recordings have all of it."""
        whole = self.whole(finding, inner)
        if whole is None:
            return ""
        own = "" if ends_by_types(inner) == ends_by_types(finding) or not whole.count or self.has_all(finding) else OWN_CYCLE % (
            "its" if len(inner.orders) == 1 else "their")
        return own + self.words_of_whole(whole)

    def has_all(self, finding: Finding) -> bool:
        return bool((self.back.whole(finding.json, False) or Seen()).count)

    def words_of_whole(self, whole: Seen) -> str:
        names = self.back.names(self.there_first(whole))
        if whole.count < 2:
            return ", all in %s" % in_a_list(names[0]) if whole.count else ", " + TOGETHER
        return ", all in %s, as %s" % (counted(whole.count, "recording"), in_a_list(names[0]))

    def steps_words(self, finding: Finding, inner: Finding | None) -> str:
        whole = self.whole(finding, inner) if inner else None
        if not whole or not whole.count:
            return OF_EACH
        first = self.there_first(whole).first[0]
        if not self.back.recordings.is_there(first):
            return GONE % in_a_list(self.back.recordings.names.get(first, ""))
        return OF_ONE if os.path.isdir(self.back.recordings.roots[first]) else OF_TRACE

    def there_first(self, seen: Seen) -> Seen:
        """The same recordings, those first that are there."""
        return Seen(seen.lots, tuple(sorted(seen.first, key=lambda number: not self.back.recordings.is_there(number))))


def ends_by_types(finding: Finding) -> set[tuple[str, str]]:
    """What each order of a finding leads from and to."""
    return {(type_of_key(order.start), type_of_key(order.end)) for order in finding.orders}


def words_of_wanted(what: Wanted, finding: Finding) -> str:
    """An order or a mark, in words."""
    if what[0] in MARKS:
        return "%s used %s" % (what[2], "in %s" % what[1] if what[0] == MARKS[0] else "with %ss on" % what[1])
    return " ".join(what)


class FoundInRecordings(Found):
    """What forms show of it."""

    gathered: Gathered
    types: str  # the trace by types, of which the picture is

    def class_files(self) -> list[str]:
        return [self.types]

    first_ones: list[Finding] | None = None  # those that are shown, once these were asked for

    @property
    def shown(self) -> list[Finding]:
        if self.first_ones is None:
            told = [group.findings[0] for group in groups_told(self.findings)]
            orders = list(accumulate(len(finding.orders) for finding in told))
            self.first_ones = [finding for place, finding in enumerate(told) if place == 0 or orders[place] <= MOST_SHOWN]
        return self.first_ones

    @property
    def why_undrawn(self) -> str:
        edges = {edge for finding in self.findings for edge in finding.edges()}
        return "The picture isn’t drawn, since it has more than %d arrows." % MOST_DRAWN if len(edges) > MOST_DRAWN else ""

    @property
    def checked(self) -> str:
        return "%s with %s" % (counted(self.gathered.count(RECORDED), "recording"), counted(self.gathered.count(TRACES), "trace"))
