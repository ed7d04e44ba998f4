"""Which classes take part in a line of a report. A line between types is about objects of these types; those that were made
elsewhere, and were never taken so, have no part in it."""
from __future__ import annotations

import re

from ..ask.verdict import type_of_key
from ..base.words import class_of_lock, name_in, text_of
from ..places.places import Made, traces_of_classes
from ..places.sources import Sources
from ..program.checker import REFUSED, ask

KEY = re.compile("/[0-7]$")
ORDER = re.compile(r"circle (\S+/[0-7]) [ES][RN] (\S+/[0-7])")


def keys_of_line(line: str) -> list[str]:
    return list(dict.fromkeys(word for word in line.split(" ")[1:] if KEY.search(word)))


class TakingPart:
    """The classes that take part in lines, by the orders that the checker's graph of these traces has. It is asked if a type has
    several classes; if it refuses, or without traces, all classes of a type take part."""

    def __init__(self, sources: Sources, traces: list[str]) -> None:
        self.sources, self.traces = sources, traces
        self.orders: dict[tuple[str, str], set[str]] | None = None

    def made(self, line: str) -> list[Made]:
        """The classes that take part in a line, each once."""
        of_names = {name_in(key): self.sources.made_as(name_in(key)) for key in keys_of_line(line)}
        all_made = list(dict.fromkeys(made for several in of_names.values() for made in several))
        order = ORDER.fullmatch(line)
        if not order or all(len(several) <= 1 for several in of_names.values()):
            return all_made
        names = self.classes_of(order.group(1), order.group(2))
        return [made for made in all_made if made.name in names] or all_made

    def classes_of(self, start: str, end: str) -> set[str]:
        """The classes of the locks that were held, or taken, where a lock of the one type was held and one of the other taken."""
        if self.orders is None:
            self.orders = {}
            for held, taken in self.edges():
                classes = self.orders.setdefault((type_of_key(held), type_of_key(taken)), set())
                classes.update([self.class_of(held), self.class_of(taken)])
        return self.orders.get((type_of_key(start), type_of_key(end)), set())

    def class_of(self, key: str) -> str:
        name = name_in(key)
        return name if name in self.sources.classes else class_of_lock(name)

    def edges(self) -> list[tuple[str, str]]:
        from ..program.graph import edges_of
        traces = traces_of_classes(self.traces)
        answer = ask(["graph", "--many", "--"] + traces, with_errors=True) if traces else None
        return edges_of(text_of(answer.output)) if answer and answer.status < REFUSED else []
