"""What a program did against what it says of its own locks by lockdep.h: locks of a class that it took against the order that it
gives them, and locks that it says it holds and didn't. The recorder finds these itself."""
from __future__ import annotations

import os
from dataclasses import dataclass

from ..base.files import text_in
from ..program.findings import Event

NAME = "breaches"  # the file of a recording that has them, a line each: what it is against, the keys, and the sentence
WORDS = {"order": ("taken", "held since"), "hold": ("asserted",)}  # of the places of each, of which a line of the file has two


@dataclass(frozen=True)
class Breach:
    """A breach, with where the lock was taken or wasn't held, and where the one was taken that was held."""

    type: str
    keys: tuple[str, ...]
    sentence: str
    events: tuple[Event, ...]

    @property
    def name(self) -> str:
        return "%s %s" % (self.type, " ".join(self.keys))

    def lines(self) -> list[tuple[str, Event]]:
        """What stands before each place."""
        return list(zip(WORDS[self.type], self.events))


def breaches_in(folder: str) -> list[Breach]:
    """The breaches of a recording, in the order of its file."""
    name, found = os.path.join(folder, NAME), []
    for number, line in enumerate(text_in(name).split("\n")):
        fields = line.split("\t")
        if len(fields) == 4 and fields[0] in WORDS:
            events = tuple(Event(name, 2 * number + place) for place, _ in enumerate(WORDS[fields[0]], 1))
            sentence = "%s: %s" % (fields[0], fields[3])
            found.append(Breach(fields[0], tuple(key + "/0" for key in fields[1:3] if key), sentence, events))
    return found
