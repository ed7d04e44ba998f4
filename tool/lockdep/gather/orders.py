"""Which recordings have an order or a usage mark: a table by classes and types, with at most 16 recordings named and the others counted. It is read off
the checker's condensed traces. A recording is called by its number, and one that was gathered before by its numbers in turn, the outermost first.
Recordings are counted by their lot: the night and the build that they are of, as `2026-11-30 4f2a`; that of recordings without these is empty."""
from __future__ import annotations

import functools
from collections import Counter
from operator import itemgetter
from typing import Dict, Iterable, Tuple

from ..program.condensed import LockOrder
from .names import class_of, name_of_key, type_of

MOST_NAMED = 16  # recordings of an order
MOST_ENTRIES = 4_000_000  # of a table: an order takes two records of a trace, and has an entry by classes and one by types
MOST_DIGITS = 18  # of a number in a file
MOST_ALIKE = 1 << 14  # kinds of entries that are kept in mind, since many are alike but for the order
MOST_NESTED = 256  # gathered folders in one another

Number = Tuple[int, ...]
Table = Dict[bytes, "Seen"]

USED = b"used %s "  # begins what the table calls a mark: `used hardirq KEY` in a hardirq, `used hardirqs on KEY` with hardirqs on


class Seen:
    """The recordings that have something: how many of each lot, and the first ones."""
    __slots__ = ("lots", "first")

    def __init__(self, lots: tuple[tuple[str, int], ...] = (), first: tuple[Number, ...] = ()) -> None:
        self.lots, self.first = lots, first

    def __add__(self, other: Seen) -> Seen:
        """Those of this one and of another one, which have no recording in common."""
        first = self.first
        if len(first) < MOST_NAMED or other.first and other.first[0] < first[-1]:
            first = tuple(sorted(first + other.first)[:MOST_NAMED])
        return Seen(sum_of(self.lots, other.lots), first)

    @property
    def count(self) -> int:
        return sum(count for _, count in self.lots)

    def below(self, above: Number) -> Seen:
        """The same as parts of a recording."""
        return Seen(self.lots, tuple(above + number for number in self.first)) if above else self

    @property
    def is_whole(self) -> bool:
        return self.count == len(self.first)


def seen_once(number: int, lot: str) -> Seen:
    return Seen(((lot, 1),), ((number,),))


def sum_of(lots: tuple[tuple[str, int], ...], others: tuple[tuple[str, int], ...]) -> tuple[tuple[str, int], ...]:
    """The counts of lots together."""
    if len(lots) == 1 == len(others) and lots[0][0] == others[0][0]:
        return ((lots[0][0], lots[0][1] + others[0][1]),)
    return tuple(sorted((Counter(dict(lots)) + Counter(dict(others))).items()))


def words_of_number(number: Number) -> str:
    """A recording's number as it stands behind the `#` of its locks: `7@3` is recording 7 of recording 3."""
    return "@".join(map(str, number[::-1]))


def number_of_words(words: str) -> Number:
    if words.count("@") >= MOST_NESTED:
        raise ValueError("it has too many gathered folders in one another")
    return tuple(map(count_in, words.split("@")[::-1]))


def count_in(words: str | bytes) -> int:
    """A number in a file. What may be long is no number."""
    if not words.isdigit() or len(words) > MOST_DIGITS:
        raise ValueError("%r is no count" % words[:MOST_DIGITS])
    return int(words)


def entries_of(orders: list[LockOrder], marks: list[tuple[bytes, bytes]]) -> set[bytes]:
    """What the table has of a recording: its orders and marks, by classes and by types."""
    entries: set[bytes] = set()
    for at_level in at_levels(orders, marks):
        entries.update([at_level[held] + kind + at_level[taken] for held, kind, taken in orders])
        entries.update([USED % mark + at_level[key] for mark, key in marks])
    return entries


def at_levels(orders: list[LockOrder], marks: list[tuple[bytes, bytes]]) -> list[dict[bytes, bytes]]:
    """The keys of these by classes and by types."""
    keys = {key for held, _, taken in orders for key in (held, taken)} | {key for _, key in marks}
    names = {key: name_of_key(key) for key in keys}
    return [{key: b"%s/%s" % (level(name), key[-1:]) for key, name in names.items()} for level in (class_of, type_of)]


def orders_of_locks(orders: list[LockOrder]) -> dict[bytes, int]:
    """In how many orders each lock is, by its name."""
    of_names: dict[bytes, int] = {}
    for key, count in Counter(key for held, _, taken in orders for key in {held, taken} if b"#" in key).items():
        of_names[name_of_key(key)] = of_names.get(name_of_key(key), 0) + count
    return of_names


def merge_tables(tables: Iterable[Table]) -> Table:
    """The table of recordings that are in no two of these."""
    merged: Table = {}
    together = functools.lru_cache(MOST_ALIKE)(Seen.__add__)
    for table in tables:
        for entry, seen in table.items():
            merged[entry] = together(merged[entry], seen) if entry in merged else seen
    return merged


# ---- In a file.

def lots_in(*tables: Table) -> list[str]:
    """The lots of these, in the order of their bytes."""
    return sorted({lot for table in tables for seen in table.values() for lot, _ in seen.lots} - {""})


def text_of_table(table: Table, lots: list[str]) -> bytes:
    """A line for each entry, in the order of their bytes: the entry, how many recordings have it, and the numbers of the first ones; and where these have a
    night or a build, how many have it of each lot, by its place."""
    places = {lot: place for place, lot in enumerate([""] + lots)}

    @functools.lru_cache(MOST_ALIKE)
    def fields(of_lots: tuple[tuple[str, int], ...], first: tuple[Number, ...]) -> bytes:
        more = "\t" + " ".join("%d:%d" % (places[lot], count) for lot, count in of_lots) if any(lot for lot, _ in of_lots) else ""
        return ("\t%d\t%s%s\n" % (Seen(of_lots).count, " ".join(map(words_of_number, first)), more)).encode()
    return b"".join([entry + fields(seen.lots, seen.first) for entry, seen in sorted(table.items(), key=itemgetter(0))])


def check_lines(raw: bytes, most: int) -> None:
    """Refuses a file of more lines than one is written with, before it is taken apart."""
    if raw.count(b"\n") > most:
        raise ValueError("it has too many lines")


def table_in(raw: bytes, lots: list[str]) -> Table:
    """The table in a file."""
    check_lines(raw, MOST_ENTRIES)
    all_lots = [""] + lots
    seen_by = functools.lru_cache(MOST_ALIKE)(lambda fields: seen_in(fields.split(b"\t"), all_lots))
    return {entry: seen_by(fields) for entry, _, fields in (line.partition(b"\t") for line in raw.split(b"\n")[:-1])}


def seen_in(fields: list[bytes], lots: list[str]) -> Seen:
    """A line of a table, behind the entry. Of what was gathered by an earlier version, and of recordings without a night and a build, only the sum is there."""
    count, numbers = fields[:2]
    pairs = [pair.partition(b":") for pair in fields[2].split()] if len(fields) > 2 else []
    of_lots = tuple(sorted((lots[count_in(place)], count_in(number)) for place, _, number in pairs)) or ((("", count_in(count)),) if count_in(count) else ())
    first = tuple(number_of_words(words) for words in numbers.decode().split())
    if len(fields) > 3 or len(first) > MOST_NAMED or sum(number for _, number in of_lots) != count_in(count):
        raise ValueError("it has a line that nobody wrote")
    return Seen(of_lots, first)
