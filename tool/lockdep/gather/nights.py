"""The nights and the builds of what was gathered: which of them an order was seen in, and forgetting those that are too old, or of a build that is gone."""
from __future__ import annotations

import datetime
import functools
import re

from ..base.saying import Refusal
from ..base.words import visible
from ..program.condensed import HELD, MARKS, TAKEN, facts_in
from .facts import Facts
from .gathered import COUNTS, RECORDED, Listed
from .names import TIMED_ORDER, WHOLE, owner_of
from .orders import Number, Seen, Table, entries_of, number_of_words

BUILD = re.compile("[!-~]{1,64}")
NIGHT = re.compile("[0-9]{4}-[0-9]{2}-[0-9]{2}")
MOST_BUILDS = 4  # that a text names
FIRST_YEAR = "1970"  # before all of its days


class Kept:
    """Which lots are kept: those of a day or later, and of no build that is forgotten. One whose night or build isn't known is kept."""

    def __init__(self, since: str = "", forgotten: list[str] | None = None) -> None:
        self.since, self.forgotten = since, forgotten or []

    def has(self, lot: str) -> bool:
        night, _, build = lot.partition(" ")
        return not (night and night < self.since) and not (build and build in self.forgotten)

    @property
    def is_all(self) -> bool:
        return not self.since and not self.forgotten


def lot_of(night: str, build: str) -> str:
    return "%s %s" % (night, build) if night or build else ""


def checked_night(text: str, option: str) -> str:
    """A day as it is compared with others: by four digits of its year and two of its month and its day."""
    try:
        night = datetime.datetime.strptime(text if NIGHT.fullmatch(text) else "", "%Y-%m-%d").date().isoformat() if text else ""
    except ValueError:
        night = FIRST_YEAR
    if text and night <= FIRST_YEAR:
        raise Refusal("%s takes a day, such as 2026-11-30, of 1970 or later, and not '%s'" % (option, visible(text)))
    return night


def checked_build(text: str, option: str) -> str:
    if text and not BUILD.fullmatch(text):
        raise Refusal("%s takes 1 to 64 visible ASCII characters, and not '%s'" % (option, visible(text)))
    return text


def words_of_lots(seen: Seen) -> str:
    """Between which nights something was seen, and in which builds; empty if that isn't known."""
    return words_of(tuple(lot for lot, _ in seen.lots))


@functools.lru_cache(maxsize=1024)
def words_of(lots: tuple[str, ...]) -> str:
    """The same of these lots, which many orders share."""
    nights = sorted({lot.partition(" ")[0] for lot in lots} - {""})
    of_builds = [lot.partition(" ") for lot in lots]
    builds = list(dict.fromkeys(build for _, _, build in sorted(of_builds) if build))
    words = [("first on %s, last on %s" % (nights[0], nights[-1]) if len(nights) > 1 else "on " + nights[0])] if nights else []
    more = " and %d more" % (len(builds) - MOST_BUILDS) if len(builds) > MOST_BUILDS else ""
    words += ["build%s %s%s" % ("s" * (len(builds) > 1), ", ".join(builds[-MOST_BUILDS:]), more)] if builds else []
    return "; ".join(words)


# ---- Forgetting.

def forget(part: Facts, kept: Kept) -> None:
    """Takes the lots that aren't kept out of what was gathered, and with them the orders that no other one has."""
    if kept.is_all or all(kept.has(lot) for lot, _ in part.counts[RECORDED].lots):
        return
    gone = gone_of(part.listed, kept)
    part.listed = [listed for listed in part.listed if listed.number not in gone]
    part.orders, part.lists, part.counts = (kept_table(table, kept, gone) for table in (part.orders, part.lists, part.counts))
    part.texts = [kept_trace(text, part.orders, gone) for text in part.texts]
    part.places = {what: line for what, line in part.places.items() if number_of_words(line["recording"]) not in gone}
    held = set().union(*(entries_of(*facts_in(text)) for text in part.texts))
    part.orders = {entry: seen for entry, seen in part.orders.items() if entry in held or entry.startswith((TIMED_ORDER, WHOLE))}


def gone_of(several: list[Listed], kept: Kept) -> set[Number]:
    """The recordings that are forgotten, and what was gathered before of which none is left."""
    above = {listed.number[:depth] for listed in several for depth in range(1, len(listed.number))}
    left = {listed.number[:depth] for listed in several if listed.number not in above and kept.has(listed.lot) for depth in range(1, len(listed.number) + 1)}
    return {listed.number for listed in several} - left


def kept_table(table: Table, kept: Kept, gone: set[Number]) -> Table:
    """A table without what is forgotten. What has no recordings at all, as a reason why locks were folded, stays."""
    left = {entry: Seen(tuple(pair for pair in seen.lots if kept.has(pair[0])), tuple(number for number in seen.first if number not in gone))
            for entry, seen in table.items()}
    return {entry: seen for entry, seen in left.items() if seen.lots or not table[entry].lots or entry in COUNTS}


def kept_trace(trace: bytes, table: Table, gone: set[Number]) -> bytes:
    """A condensed trace without the orders and marks that the table hasn't any more, and without single locks of recordings that are forgotten."""
    above = {number[:depth] for number in gone for depth in range(1, len(number))}
    lines: list[bytes] = []
    are_kept: list[bool] = []  # of what is held
    held, letter, mark = b"", b"", b""
    for line in trace.split(b"\n"):
        key, _, mode = line[4:].rpartition(b",")
        is_kept = True
        if line.startswith(b"rel,"):
            is_kept = are_kept.pop()
            if is_kept and not are_kept and not mark and lines[-1].startswith(b"acq,"):  # (of what it was held for nothing is left)
                lines.pop()
                is_kept = False
        elif line.startswith(b"acq,"):
            if not mark and not are_kept:
                held, letter = key, HELD[mode]
            entries = entries_of([], [(mark, key)]) if mark else entries_of([(held, letter + TAKEN[mode], key)], []) if are_kept else set()
            is_kept = entries <= table.keys() and owner_of(key, above) not in gone and all(are_kept)
            are_kept.append(is_kept)
        mark = MARKS.get(line, mark)
        lines += [line] * is_kept
    return b"\n".join(lines)
