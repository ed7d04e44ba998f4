"""The lines of a text, each with what it names."""
from __future__ import annotations

from dataclasses import dataclass
from typing import Union

from ..program.findings import Event

INDENT = 4  # how far what is put under a line stands to the right of it
Item = Union[Event, str]  # a record, or the name in a key


@dataclass(frozen=True)
class Line:
    """A line of an explanation, with what it names, in turn."""

    text: str
    items: tuple[Item, ...] = ()

    def indented(self, by: int) -> Line:
        return Line(" " * by + self.text, self.items)
