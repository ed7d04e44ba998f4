"""Whether the files of what was gathered agree with one another, since it may come from anywhere: orders and marks are those of the trace, and all that is
counted or named is of recordings that are listed."""
from __future__ import annotations

import re
from collections import Counter

from ..base.saying import Refusal
from ..base.words import text_of, visible
from ..program.checker import REFUSED
from ..program.condensed import LockOrder, facts_in
from .gathered import FOLDED, FOLDED_LOCKS, LEFT, LEFT_OUT, MARK, ORDERS, PLACES, RECORDED, RECORDINGS, TRACE, TRACES, Gathered
from .kept_places import entry_of
from .memory import limited_memory, used_memory
from .names import BETWEEN, TIMED_ORDER, WHOLE, owner_of
from .orders import USED, Seen, at_levels, entries_of, merge_tables, number_of_words, words_of_number
from .timed import entry_of as entry_of_locks

TYPE_CHECKING = False
if TYPE_CHECKING:
    from typing import Iterator
    from .facts import Program

LOT_FORM = re.compile("(?=.*[^ ])([0-9]{4}-(0[1-9]|1[0-2])-(0[1-9]|[12][0-9]|3[01]))? ([!-~]{1,64})?")
DESCRIPTOR = re.compile("^/dev/fd/[0-9]+: ")  # how the checker was given a trace that is no file
STATE = re.compile("\t[0-9]{1,10}|%s.*\t" % LEFT_OUT)  # of a recording in the list, with its sum

MOST_SAID = 400  # letters of what contradicts the rest

# What contradicts the rest, by file.
WORDS = {RECORDINGS: "recording %s as `gather` lists none", MARK: "`%s` with another count than the recordings", TRACE: "%s, of a recording without it",
         ORDERS: "`%s` otherwise than the trace and the recordings", PLACES: "a place of %s in a recording without it"}


def gathered_in(folder: str, program: Program, has_places: bool = True) -> Gathered:
    """What was gathered in a folder. What contradicts itself is refused, and what takes more memory than a recording may."""
    try:
        with limited_memory(used_memory()):
            gathered = Gathered(folder, has_places=has_places)
            if facts_of(gathered.files[TRACE]):
                check_agreement(gathered)
            check_trace(gathered, program)
            return gathered
    except MemoryError:
        raise Refusal("%s can't be read: to read it takes too much memory" % visible(folder))


def check_trace(gathered: Gathered, program: Program) -> None:
    """Refuses a trace that says something else by its records than is read off it as a condensed one."""
    answer = program.condensed_texts([gathered.files[TRACE]])
    if answer.status >= REFUSED:
        raise Refusal("%s can't be read: its file `%s`: %s" % (visible(gathered.folder), TRACE, DESCRIPTOR.sub("", answer.reason)))
    if facts_of(answer.output) != facts_of(gathered.files[TRACE]):
        raise gathered.damaged(TRACE)
    gathered.files[TRACE] = answer.output


def facts_of(trace: bytes) -> list[set] | None:
    """The orders and marks of a condensed trace; None if it has what is in none, and so is refused."""
    try:
        return [set(those) for those in facts_in(trace)]
    except (KeyError, IndexError, ValueError):
        return None


def check_agreement(gathered: Gathered) -> None:
    found = Agreement(gathered)
    if gathered.count(FOLDED_LOCKS) and not any(name.startswith(FOLDED) for name in gathered.lists):
        raise gathered.damaged(MARK, "counts `%s` single locks, and has no line `%s` that says why" % (text_of(FOLDED_LOCKS), text_of(FOLDED) + "REASON"))
    for name, against in ((RECORDINGS, found.recordings), (MARK, found.counts), (ORDERS, found.entries), (TRACE, found.locks), (PLACES, found.places)):
        for what in against():
            said = visible(what[:MOST_SAID]) + (".." if len(what) > MOST_SAID else "")
            raise Refusal("%s contradicts itself: its file `%s` has %s" % (visible(gathered.folder), name, WORDS[name] % said))


class Agreement:
    """What in the files of a gathered folder doesn't agree with the rest."""

    def __init__(self, gathered: Gathered) -> None:
        self.gathered, self.table = gathered, gathered.table
        self.orders, self.marks = facts_in(gathered.files[TRACE])
        self.numbers = {listed.number for listed in gathered.recordings}
        self.above = {number[:depth] for number in self.numbers for depth in range(1, len(number))}
        self.lots = {listed.number: listed.lot for listed in gathered.recordings if listed.number not in self.above and not listed.state}
        self.there = Counter(self.lots.values())
        self.tops = self.numbers | {()}
        self.fit: set[tuple] = set()

    def recordings(self) -> Iterator[str]:
        before: tuple[int, ...] = ()
        for listed in self.gathered.recordings:
            if listed.number <= before or not STATE.fullmatch("%s\t%s" % (listed.state, listed.sum)) or listed.number[:-1] not in self.tops:
                yield words_of_number(listed.number)
            before = listed.number

    def counts(self) -> Iterator[str]:
        """What is counted otherwise than the recordings in the list."""
        gathered = self.gathered
        are = {RECORDED: self.there, LEFT: Counter(listed.lot for listed in gathered.recordings if listed.state)}
        yield from (text_of(name) for name, there in are.items() if dict(gathered.counts[name].lots) != there)
        yield from ("lot " + lot for lot in gathered.lots if not LOT_FORM.fullmatch(lot) or gathered.of_lots[lot] != self.there[lot])
        yield from (text_of(name) for name, seen in gathered.lists.items() if not self.fits(seen))
        if not all(dict(gathered.counts[TRACES].lots).get(lot, 0) >= count for lot, count in self.there.items()):
            yield text_of(TRACES)

    def fits(self, seen: Seen) -> bool:
        """Whether there are as many recordings of each night and build, and those that are named are among them. Many entries are alike."""
        if (seen.lots, seen.first) in self.fit:
            return True
        counts, named = Counter(dict(seen.lots)), Counter(self.lots.get(number) for number in seen.first)
        if counts - self.there or named - counts or list(seen.first) != sorted(set(seen.first)):
            return False
        self.fit.add((seen.lots, seen.first))
        return True

    def entries(self) -> Iterator[str]:
        """The orders and marks that the table or the trace alone has, and those of other recordings."""
        entries = {entry for entry in self.table if not entry.startswith((TIMED_ORDER, WHOLE))}
        yield from map(text_of, sorted(entries ^ entries_of(self.orders, self.marks)))
        yield from (text_of(entry) for entry, seen in self.table.items() if not seen.count or not self.fits(seen))
        timed = {TIMED_ORDER + entry_of_locks(order) for order in self.orders}
        yield from (text_of(entry) for entry in self.table if entry.startswith(TIMED_ORDER) and b"#" in entry and entry not in timed)
        types = types_of(self.orders, self.marks)
        yield from (text_of(entry) for entry, by_types in types.items() if not is_among(self.table.get(entry, Seen()), self.table.get(by_types, Seen())))
        for begin in (TIMED_ORDER, WHOLE):
            yield from map(text_of, self.without_parts([entry for entry in self.table if entry.startswith(begin)], types))

    def without_parts(self, lines: list[bytes], types: dict[bytes, bytes]) -> list[bytes]:
        """Those of these entries of which more recordings are said than have one of its parts, by classes or by types."""
        several = merge_tables(dict.fromkeys(parts_of_entry(entry), self.table[entry]) for entry in lines)
        at_types = merge_tables({types.get(part, part): self.table[entry] for part in parts_of_entry(entry)} for entry in lines)
        wrong = {part for part, seen in several.items() if not self.fits(seen) or not is_among(seen, self.table.get(part, Seen()))}
        wrong |= {part for part in several for by_types in [types.get(part, part)] if not is_among(at_types[by_types], self.table.get(by_types, Seen()))}
        return [entry for entry in lines if wrong and not wrong.isdisjoint(parts_of_entry(entry))]

    def locks(self) -> Iterator[str]:
        """Orders and marks of single locks that are of no recording, or not of one that has them."""
        at_classes = at_levels(self.orders, self.marks)[0]
        for held, kind, taken in {*self.orders, *[(key, b"", key) for _, key in self.marks]}:
            owner, other = sorted((owner_of(key, self.above) for key in (held, taken)), key=len)
            seen = self.table[at_classes[held] + kind + at_classes[taken]] if kind else Seen((("", 1),))
            is_there = any(number[:len(other)] == other for number in seen.first) if other and seen.is_whole else other in self.tops
            if other[:len(owner)] != owner or not is_there:
                yield text_of(held + kind + taken if kind else held)

    def places(self) -> Iterator[str]:
        for what, line in self.gathered.places.items():
            seen, number = self.table.get(entry_of(what), Seen()), number_of_words(line["recording"])
            if number not in self.lots or not seen.count or seen.is_whole and number not in seen.first:
                yield " ".join(what)


def types_of(orders: list[LockOrder], marks: list[tuple[bytes, bytes]]) -> dict[bytes, bytes]:
    """For each order and mark by classes the same by types."""
    classes, types = at_levels(orders, marks)
    found = {classes[held] + kind + classes[taken]: types[held] + kind + types[taken] for held, kind, taken in orders}
    return {**found, **{USED % mark + classes[key]: USED % mark + types[key] for mark, key in marks}}


def is_among(seen: Seen, others: Seen) -> bool:
    """Whether these recordings may all be among others."""
    there = dict(others.lots)
    return all(count <= there.get(lot, 0) for lot, count in seen.lots) and (not others.is_whole or set(seen.first) <= set(others.first))


def parts_of_entry(entry: bytes) -> list[bytes]:
    """The orders and marks by classes that all recordings of an entry have which is neither. No recording has two such entries of one kind with one part."""
    if entry.startswith(WHOLE):
        return entry[len(WHOLE):].split(BETWEEN)
    return [entry[len(TIMED_ORDER):]] if entry.startswith(TIMED_ORDER) and b"#" not in entry else []
