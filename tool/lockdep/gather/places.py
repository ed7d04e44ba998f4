"""Where an order or a mark of what was gathered comes from: the records of a recording that is still there. The checker says which: it is asked about the
recording's traces and one more, the last, that closes a cycle with each order, and gives each mark its counterpart. So each order is part of a finding,
and the finding names its first record."""
from __future__ import annotations

import os
import tempfile
import zlib
from collections import Counter
from itertools import takewhile
from typing import Dict, Iterator, NamedTuple

from ..base.files import MOST_OF_FILE, is_file, write_in_place
from ..base.saying import Refusal
from ..base.words import bytes_of, text_of
from ..program.checker import BY_CLASSES, BY_LOCKS, REFUSED, ask
from ..program.findings import findings_in_turn
from ..record.complete import is_gathered
from .facts import TOO_MUCH, Program, by_classes
from .gathered import TRACE, Listed
from .kept_places import MARKS, OF_CHECKER, Wanted
from .names import in_recording, quoted, recording_of
from .orders import Number, words_of_number
from .recordings import traces_of

Places = Dict[Wanted, dict]  # for each the occurrence, as the checker's JSON has it

OCCURRENCE = ("file",) + OF_CHECKER
MOST_TANGLED = 256  # lock classes that lead to one another which the checker takes


def field_of(key: str) -> str:
    """A key as the two fields of a record."""
    name, _, sub_class = key.rpartition("/")
    return "%s,%s" % (text_of(quoted(bytes_of(name))), sub_class)


def closing_trace(wanted: list[Wanted]) -> str:
    """A trace in which the locks of each order are taken the other way round, and each lock with a mark is used in interrupts and outside them."""
    lines = ["lockdep,1"]
    for first, second, third in wanted:
        if first in MARKS:
            taken = ["acq,%s,w" % field_of(third), "rel,%s" % field_of(third)]
            lines += taken + ["enter,%s" % second] + taken + ["leave"]
        else:
            lines += ["acq,%s,w" % field_of(third), "acq,%s,w" % field_of(first), "rel,%s" % field_of(first), "rel,%s" % field_of(third)]
    return "\n".join(lines) + "\n"


def parts_of(said: dict) -> list[tuple[Wanted, dict]]:
    """The orders and marks of a finding of the JSON, each with its occurrence."""
    parts: list[tuple[Wanted, dict]] = [((order["from"], order["kind"], order["to"]), order) for order in said.get("orders", [])]
    keys = said.get("keys") or [said["key"]]
    return parts + [((mark, said["irq"], keys[-place]), said[mark]) for place, mark in enumerate(MARKS) if mark in said]


def places_in(found: Found, wanted: list[Wanted], words: list[str]) -> Places:
    """Where the traces have these, by keys of types or of single locks, as the words of the question say; what they don't have is missing. Marks are asked
    for by themselves, since one makes a finding with each lock that an order leads to."""
    marks = [what for what in wanted if what[0] in MARKS]
    places: Places = {}
    for asked in [*bundles([what for what in wanted if what[0] not in MARKS]), *([marks] if marks else [])]:
        places.update(places_of(found, asked, words))
    return places


class Together:
    """Locks that orders join, at most so many."""

    def __init__(self, most: int) -> None:
        self.most = most
        self.above: dict[str, str] = {}
        self.sizes: dict[str, int] = {}

    def top(self, lock: str) -> str:
        while self.above.get(lock, lock) != lock:
            self.above[lock] = lock = self.above.get(self.above[lock], self.above[lock])
        return lock

    def has_joined(self, first: str, second: str) -> bool:
        """Joins what two locks are joined with, unless these are too many."""
        upper, lower = self.top(first), self.top(second)
        size = self.sizes.get(upper, 1) + (self.sizes.get(lower, 1) if upper != lower else 0)
        if size > self.most:
            return False
        self.above[lower], self.sizes[upper] = upper, size
        return True


def bundles(orders: list[Wanted]) -> Iterator[list[Wanted]]:
    """The orders in parts. Of each part at most as many locks are joined as the checker takes of those that lead to one another."""
    while orders:
        together, taken, left = Together(MOST_TANGLED), [], []
        for order in orders:
            (taken if together.has_joined(order[0], order[2]) else left).append(order)
        yield taken
        orders = left


def places_of(found: Found, wanted: list[Wanted], words: list[str]) -> Places:
    """The same, asked all at once, or in halves if that is too much."""
    places: Places = {}
    with tempfile.TemporaryDirectory(prefix="lockdep-") as room:
        closing = os.path.join(room, "closing.csv")
        write_in_place(bytes_of(closing), bytes_of(closing_trace(wanted)))
        asked = by_classes(found.traces, room) if found.is_by_classes else found.traces
        answer = ask(words + asked + [closing], with_errors=True)
    if answer.status >= REFUSED:
        return in_halves(found, wanted, words) if len(wanted) > 1 and any(code in answer.said for code in TOO_MUCH) else places
    own, left = dict(zip(asked, found.traces)), set(wanted)
    for what, occurrence in (part for finding in takewhile(lambda _: left, findings_in_turn(answer.output)) for part in parts_of(finding)):
        if what in left and occurrence.get("file") in own:
            left.discard(what)
            places[what] = dict({name: occurrence[name] for name in OF_CHECKER if name in occurrence}, file=own[occurrence["file"]])
    return places


def in_halves(found: Found, wanted: list[Wanted], words: list[str]) -> Places:
    """The same, asked about one half after the other, since all together close too many cycles."""
    middle = len(wanted) // 2
    return {**places_of(found, wanted[:middle], words), **places_of(found, wanted[middle:], words)}


def root_of(listed: Listed) -> str:
    """What leads to a recording from here: its name as it was given, if that leads to the same one from the current folder, else its path."""
    return listed.name if os.path.abspath(listed.name) == listed.path else listed.path


def names_apart(roots: dict[Number, str]) -> dict[Number, str]:
    """What recordings are called: one that has another one's path, as on another machine, by the gathered folder that it is of, too, and one whose path was
    recorded over by its number."""
    counts = Counter(roots.values())
    names = {number: "%s: %s" % (roots[number[:1]], root) if counts[root] > 1 and len(number) > 1 else root for number, root in roots.items()}
    of_names = Counter(names.values())
    return {number: "%s (recording %s)" % (name, words_of_number(number)) if of_names[name] > 1 else name for number, name in names.items()}


def traces_at(path: str) -> list[str]:
    """The traces that a recording with this path was gathered by."""
    if not os.path.isdir(path):
        return [path]
    return [os.path.join(path, TRACE)] if is_gathered(path) else traces_of(path)


class Found(NamedTuple):
    """A recording that was found again: its traces, whether it was gathered by their classes, and how it calls the locks that have these names in what was
    gathered. It has no traces if they are gone, or are another one's."""

    traces: list[str]
    is_by_classes: bool
    names: dict[str, str]


class Recordings:
    """The recordings of what was gathered, by number, as far as they are still there. Another one may have the path of one by now: it says something else
    than what was gathered, by the sum of that."""

    def __init__(self, recordings: list[Listed], program: Program) -> None:
        self.roots = {listed.number: root_of(listed) for listed in recordings}
        self.sums = {listed.number: listed.sum for listed in recordings}
        self.sums_at: dict[str, set[str]] = {}
        for number, root in self.roots.items():
            self.sums_at.setdefault(root, set()).add(self.sums[number])
        self.names = names_apart(self.roots)
        self.program = program
        self.found: dict[Number, Found] = {}
        self.numbers: dict[str, Number] = {}  # of the locks that were asked for
        self.there: dict[Number, bool] = {}  # whether these are, which were asked for

    def is_there(self, number: Number) -> bool:
        """Whether something has a recording's path."""
        if number not in self.there:
            self.there[number] = os.path.lexists(self.roots.get(number, ""))
        return self.there[number]

    def look(self, number: Number) -> Found:
        if number not in self.found:
            self.found[number] = Found([], False, {})
            path = self.roots.get(number, "")
            traces = traces_at(path)
            if not traces or not all(is_file(trace, MOST_OF_FILE) for trace in traces):
                return self.found[number]
            answer, is_by_classes = self.program.condensed_of(traces)
            if answer.status < REFUSED and (is_gathered(path) or self.sums[number] == str(zlib.crc32(answer.output))):
                _, names = in_recording(answer.output, number[-1])
                self.found[number] = Found(traces, is_by_classes, {text_of(made): text_of(own) for own, made in names.items()})
        return self.found[number]

    def kept_root(self, number: Number) -> str:
        """What a recording is called of which only places are kept: by its number too, if another one has its path, or had it."""
        root = self.roots.get(number, "")
        is_alone = len(self.sums_at.get(root, ())) < 2 and (self.look(number).traces or not os.path.lexists(root))
        return root if is_alone else "%s (recording %s)" % (root, words_of_number(number))

    def number_of(self, name: str) -> Number:
        """The recording that a lock of what was gathered is from; empty for a name that isn't of one recording."""
        if name not in self.numbers:
            self.numbers[name] = self.number_by(name)
        return self.numbers[name]

    def number_by(self, name: str) -> Number:
        number: Number = ()
        while True:
            own = recording_of(bytes_of(name))
            number += () if own is None else (own,)
            if own is None or not is_gathered(self.roots.get(number, "")):
                return number
            name = self.look(number).names.get(name, name)

    def own_name(self, number: Number, name: str) -> str:
        """How a recording's own traces call a lock of what was gathered."""
        for depth in range(1, len(number) + 1):
            name = self.look(number[:depth]).names.get(name, name)
        return name

    def own_key(self, number: Number, key: str) -> str:
        name, _, sub_class = key.rpartition("/")
        return "%s/%s" % (self.own_name(number, name), sub_class)

    def places(self, number: Number, wanted: list[Wanted], is_of_locks: bool) -> Places:
        """Where a recording has these orders and marks, by the names of what was gathered."""
        try:
            found = self.look(number)
            if not found.traces or is_gathered(self.roots[number]):
                return {}
            if not is_of_locks:
                return places_in(found, wanted, BY_LOCKS)
            own = {what: self.own(number, what) for what in wanted}
            places = places_in(found, list(own.values()), BY_CLASSES)
            return {what: places[own[what]] for what in wanted if own[what] in places}
        except (Refusal, ValueError, KeyError):
            return {}

    def own(self, number: Number, what: Wanted) -> Wanted:
        first, second, third = what
        return (first if first in MARKS else self.own_key(number, first), second, self.own_key(number, third))
