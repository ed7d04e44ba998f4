"""How the runs for one finding differ: by its schedule, or by the places of its orders; which order waits long for the others; and how long."""
from __future__ import annotations

from dataclasses import dataclass
from typing import Iterator

LONG_PAUSE = 10000  # milliseconds for which a thread is held back at a point of the schedule, or at an order that is come to once
PAUSES = (300, 100, 30)  # milliseconds of a pause, by turns; they get shorter where pauses make the program fail
LONGER = 1.5  # how many times as long as the recorded run a thread may be held back


@dataclass(frozen=True)
class Way:
    """How threads are held back in a run: by the schedule, or else by places; at which orders the first pause is long, from 1 on; and the milliseconds of a
    long pause, and of others."""

    is_scheduled: bool
    waits: frozenset[int]
    long: int
    pause: int


class Ways:
    """The ways of the runs for one finding, of which each may hang on what the ones before have shown."""

    def __init__(self, orders: int, is_scheduled: bool, pause: str, recorded_seconds: float) -> None:
        self.orders, self.is_scheduled = orders, is_scheduled
        self.given = int(pause or 0)
        self.long = max(LONG_PAUSE, int(LONGER * recorded_seconds * 1000))
        self.shorter = 0  # how often a pause has made the program fail
        self.has_turned_off = False  # whether threads turned off from the schedule: a long pause shows no more than that, and a short one may
        self.waiting: set[int] = set()  # orders that wait long

    def next(self, run: int) -> Way:
        """The first run follows the schedule, and each one after a round of runs by places: of those in which orders wait long all do at once, and in each
        second round each in its turn."""
        rounds, place = divmod(run - 1, self.orders + self.is_scheduled)
        turn = place + 1 - self.is_scheduled
        if turn == 0:
            return Way(True, frozenset(), self.longest(), self.usual(PAUSES[0]))
        return Way(False, self.waits(rounds, turn), self.longest(), self.usual(self.by_turns(rounds, turn)))

    def waits(self, rounds: int, turn: int) -> frozenset[int]:
        """The orders that wait long in a run by places after so many rounds. A thread that is held back may keep others from theirs."""
        if self.shorter or self.has_turned_off:
            return frozenset()
        return frozenset(self.waiting & {turn} if rounds % 2 else self.waiting)

    def by_turns(self, rounds: int, turn: int) -> int:
        """The usual pause in such a run. A thread may do something else because another one is held back for long: then each run has another pause, and the
        shortest one comes first."""
        return PAUSES[-1 - (rounds * self.orders + turn - 1) % len(PAUSES)] if self.has_turned_off else PAUSES[rounds % len(PAUSES)]

    def usual(self, length: int) -> int:
        """A pause, unless another one is given, or a shorter one is needed."""
        length = self.given or length
        return min(length, PAUSES[min(self.shorter, len(PAUSES) - 1)]) if self.shorter else length

    def longest(self) -> int:
        return PAUSES[min(self.shorter, len(PAUSES)) - 1] if self.shorter else self.long

    def shorten(self) -> bool:
        """A pause has made the program fail. Whether a shorter one is left."""
        self.shorter += 1
        return self.shorter < len(PAUSES)


def pauses(way: Way, orders: int) -> Iterator[str]:
    """What the plan has behind each order: the first pause at it, if that is another one."""
    for order in range(1, orders + 1):
        yield "order %d %d" % (order, way.long) if order in way.waits else "order %d" % order
