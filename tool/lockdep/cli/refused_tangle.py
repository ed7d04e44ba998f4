"""Why too many lock classes lead to one another: how many do, by how many orders and interrupt links, and which order to look at first. That is one of a cycle
of them, without which the fewest still lead to one another, for each trace that has it. Those that one trace alone has from one lock go together."""
from __future__ import annotations

import functools
from collections import Counter
from typing import Callable, Iterable, Set, Tuple

from ..ask.causes import ENABLED, facts_in_turn
from ..base.words import bytes_of, counted, plain_key, text_of
from ..gather.whole import parts_of
from ..program.findings import Fact

Arrow = Tuple[bytes, bytes]  # between keys; from a key that is held with interrupts on to their state, and from that to a key that is taken in them


class Knot:
    """The most keys that lead to one another by arrows, and these arrows, each with the places of the traces that have it."""

    def __init__(self, arrows: dict[Arrow, list[int]]) -> None:
        parts = parts_of(arrows)
        sizes = Counter(part for node, part in parts.items() if is_key(node))
        largest = sizes.most_common(1)[0] if sizes else (0, 0)
        self.size = largest[1]  # (a key by itself counts as one)
        self.arrows = {arrow: traces for arrow, traces in arrows.items() if {parts[node] for node in arrow} == {largest[0]}}
        self.ahead: dict[bytes, Set[bytes]] = {}
        for start, end in self.arrows:
            self.ahead.setdefault(start, set()).add(end)

    def without(self, gone: Iterable[Arrow]) -> Knot:
        left = set(self.arrows).difference(gone)
        return Knot({arrow: self.arrows[arrow] for arrow in left})

    @property
    def orders(self) -> list[Arrow]:
        return [arrow for arrow in self.arrows if all(map(is_key, arrow))]

    @property
    def links(self) -> int:
        """How many interrupt links there are: from each key that is held with interrupts on to each that is taken in them."""
        starts, ends = Counter(end for _, end in self.arrows), Counter(start for start, _ in self.arrows)
        return sum(starts[state] * ends[state] for state in starts if not is_key(state))

    def bundles(self) -> list[list[Arrow]]:
        """The arrows one by one, but those together that one trace alone has from one key."""
        bundles: dict[tuple, list[Arrow]] = {}
        for arrow, traces in sorted(self.arrows.items()):
            is_alone = len(traces) == 1 and is_key(arrow[0])
            bundles.setdefault((arrow[0], traces[0]) if is_alone else arrow, []).append(arrow)
        return list(bundles.values())

    def cycle(self) -> set[Arrow]:
        """A shortest cycle through an arrow that the fewest traces have. What all cycles have in common is in it."""
        start, end = min(self.arrows, key=lambda arrow: (len(self.arrows[arrow]), arrow))
        before: dict[bytes, bytes] = {end: start}
        waiting = [end]
        for node in waiting:
            for other in sorted(self.ahead[node]):
                if other not in before:
                    before[other] = node
                    waiting.append(other)
        found, node = {(start, end)}, start
        while node != end:
            found.add((before[node], node))
            node = before[node]
        return found

    def first(self) -> tuple[list[Arrow], int]:
        """What to look at first, and how many keys lead to one another without it."""
        cycle = self.cycle()
        bundles = sorted((bundle for bundle in self.bundles() if not cycle.isdisjoint(bundle)), key=lambda bundle: len(self.arrows[bundle[0]]))
        best, first, fewest = -1.0, bundles[0], self.size
        for bundle in bundles:
            traces = len(self.arrows[bundle[0]])
            if best >= (self.size - 1) / traces:
                break  # (nor do those of as many traces or more take away so many for each)
            left = self.without(bundle).size
            if (self.size - left) / traces > best:
                best, first, fewest = (self.size - left) / traces, bundle, left
        return first, fewest


def is_key(node: bytes) -> bool:
    return b"/" in node


def arrow_of(fact: Fact, level: Callable[[str], str]) -> Arrow:
    if len(fact) == 3:
        return bytes_of(level(fact[0])), bytes_of(level(fact[2]))
    mark, key = fact[0], bytes_of(level(fact[1]))
    return (key, bytes_of(mark[:-len(ENABLED)])) if mark.endswith(ENABLED) else (bytes_of(mark), key)


def words_of(arrow: Arrow) -> str:
    start, end = [plain_key(text_of(node)) for node in arrow]
    if not is_key(arrow[1]):
        return "%s held with %s%s" % (start, end, ENABLED)
    return "%s before %s" % (start, end) if is_key(arrow[0]) else "%s taken in a %s" % (end, start)


def facts_of_tangle(program: str, traces: list[str], level: Callable[[str], str], most: int) -> dict[str, str]:
    """What is said of traces of which more keys lead to one another, at this level, than may; nothing if one of them does by itself, or none does."""
    arrows: dict[Arrow, list[int]] = {}
    arrow_at = functools.lru_cache(maxsize=None)(lambda fact: arrow_of(fact, level))
    for number, facts in enumerate(facts_in_turn(program, traces)):
        if facts is None:
            return {}
        for arrow in set(map(arrow_at, facts)):
            arrows.setdefault(arrow, []).append(number)
    knot = Knot(arrows)
    if knot.size <= most:
        return {}
    (bundle, left), by_orders = knot.first(), Knot({arrow: knot.arrows[arrow] for arrow in knot.orders}).size
    having = knot.arrows[bundle[0]]
    more = " and %s" % counted(len(bundle) - 1, "more", "more") if len(bundle) > 1 else ""
    return {"keys": "{:,}".format(knot.size), "orders": counted(len(knot.orders), "order"), "links": counted(knot.links, "interrupt link"),
            "most": "{:,}".format(by_orders) if by_orders > 1 else "none", "first": words_of(bundle[0]) + more,
            "count": "{:,} of {}".format(len(having), counted(len(traces), "trace")), "file": traces[having[0]],
            "left": "{:,} do".format(left) if left > 1 else "none does"}
