"""Which recordings have the whole of a cycle: of each recording the table has its orders and marks that are part of some cycle of it, or lead from where a
lock is used in an interrupt to where one is taken with these on. They are kept for all that leads to one another together, so a cycle is in one such entry
or in none."""
from __future__ import annotations

from functools import reduce
from itertools import chain, compress
from operator import and_
from typing import Dict, Iterable, List, Set, Tuple

from ..program.condensed import LockOrder
from .names import BETWEEN, WHOLE
from .orders import USED, Seen, Table, at_levels, merge_tables

MOST_PARTS = 4096  # orders and marks of an entry
ROUNDS = 8  # in which arrows are taken away that lead nowhere, before all others are looked at
UNCOUNTED = b"whole-uncounted"  # the list of recordings that have more, or were gathered before by a version that didn't count them

Graph = Dict[bytes, Set[bytes]]
Arrow = Tuple[bytes, bytes, Tuple[bytes, ...]]  # from, to, and the order or mark that it is


def whole_entries(orders: list[LockOrder], marks: list[tuple[bytes, bytes]]) -> list[bytes]:
    """The entries of a recording, one for all that leads to one another."""
    classes, types = at_levels(orders, marks)
    arrows = [(types[held], types[taken], (held, kind, taken)) for held, kind, taken in orders]
    for mark, key in marks:
        state, is_on = mark.partition(b"s on")[:2]
        arrows.append((types[key], state, (mark, key)) if is_on else (state, types[key], (mark, key)))
    arrows = without_ends(arrows)
    parts = parts_of([arrow[:2] for arrow in arrows])
    found: dict[int, set[bytes]] = {}
    for start, end, what in arrows:
        if parts[start] == parts[end]:
            entry = USED % what[0] + classes[what[1]] if len(what) == 2 else classes[what[0]] + what[1] + classes[what[2]]
            found.setdefault(parts[start], set()).add(entry)
    return [WHOLE + BETWEEN.join(sorted(entries)) if len(entries) <= MOST_PARTS else UNCOUNTED for entries in found.values()]


def without_ends(arrows: list[Arrow]) -> list[Arrow]:
    """The arrows without those that begin or end where no other one goes on: mostly none are left."""
    for _ in range(ROUNDS):
        starts, ends = {arrow[0] for arrow in arrows}, {arrow[1] for arrow in arrows}
        left = [arrow for arrow in arrows if arrow[0] in ends and arrow[1] in starts]
        if len(left) == len(arrows):
            break
        arrows = left
    return arrows


def parts_of(arrows: Iterable[tuple[bytes, bytes]]) -> dict[bytes, int]:
    """A number for each node, the same for those that lead to one another: by going back along the arrows, from those first that are left last."""
    ahead: Graph = {}
    back: Graph = {}
    for start, end in arrows:
        ahead.setdefault(start, set()).add(end)
        back.setdefault(end, set()).add(start)
    parts: dict[bytes, int] = {}
    for node in reversed(left_in_turn(ahead, list(dict.fromkeys([*ahead, *back])))):
        waiting = [node] if node not in parts else []
        number = len(parts)
        while waiting:
            each = waiting.pop()
            if each not in parts:
                parts[each] = number
                waiting += back.get(each, ())
    return parts


def left_in_turn(ahead: Graph, nodes: list[bytes]) -> list[bytes]:
    """The nodes in the order in which a search in depth leaves them."""
    left: List[bytes] = []
    seen: Set[bytes] = set()
    waiting = [(node, False) for node in nodes]
    while waiting:
        node, is_left = waiting.pop()
        if is_left:
            left.append(node)
        elif node not in seen:
            seen.add(node)
            waiting.append((node, True))
            waiting += [(other, False) for other in ahead.get(node, ()) if other not in seen]
    return left


class Wholes:
    """The entries of what was gathered, each by its place: for each order or mark by classes, and by types, those that have it."""

    def __init__(self, table: Table) -> None:
        entries = [entry for entry in table if entry.startswith(WHOLE)]
        self.seen_of = [table[entry] for entry in entries]
        self.places: dict[bytes, list[int]] = {}
        for place, entry in enumerate(entries):
            for part in entry[len(WHOLE):].split(BETWEEN):
                self.places.setdefault(part, []).append(place)
        self.of_types: dict[bytes, list[list[int]]] = {}
        for part, places in self.places.items():
            self.of_types.setdefault(entry_of_types(part), []).append(places)
        self.bits_of: dict[tuple[bytes, bool], int] = {}
        self.seen_by_bits: dict[int, Seen] = {}  # many findings are of the same entries

    def bits(self, part: bytes, is_of_types: bool) -> int:
        """A bit for each entry that has an order or a mark."""
        if (part, is_of_types) not in self.bits_of:
            bits = bytearray(len(self.seen_of) // 8 + 1)
            for place in chain.from_iterable(self.of_types.get(part, ()) if is_of_types else [self.places.get(part, [])]):
                bits[place // 8] |= 1 << place % 8
            self.bits_of[part, is_of_types] = int.from_bytes(bits, "little")
        return self.bits_of[part, is_of_types]

    def seen(self, wanted: set[bytes], is_of_types: bool) -> Seen:
        """The recordings that have all of these orders and marks, which are by types, or by classes."""
        bits = reduce(and_, (self.bits(part, is_of_types) for part in wanted))
        if bits not in self.seen_by_bits:
            those = compress(self.seen_of, map(int, reversed(bin(bits)[2:])))
            self.seen_by_bits[bits] = merge_tables({WHOLE: seen} for seen in those).get(WHOLE, Seen())
        return self.seen_by_bits[bits]


def entry_of_types(entry: bytes) -> bytes:
    """An entry by types."""
    return b" ".join([(word.partition(b"@")[0] or word[:-2]) + word[-2:] if b"@" in word else word for word in entry.split(b" ")])
