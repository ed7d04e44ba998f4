"""What findings were seen between, by the checker, and what is known of each: whether the recorded steps can stand still there."""
from __future__ import annotations

from dataclasses import dataclass, field
from enum import Enum

from .events import Event
from .schedules import Ring


class Level(Enum):
    """What the checker says that a finding was seen between."""

    LOCKS = "locks"
    PERHAPS = "perhaps"  # locks, if those that share a name are one
    UNKNOWN = "unknown"
    CLASSES = "classes"
    TYPES = "types"
    NESTED = "nested"  # a type in itself: a note, and no finding


BETWEEN_LOCKS = (Level.LOCKS, Level.PERHAPS)


class Verdict(Enum):
    """What is known of a finding, in the order in which findings come, the strongest first."""

    HAPPENED = "happened"
    POSSIBLE = "possible"
    BY_JOIN = "possible-by-a-join"
    NOT_KNOWN = "not-known"
    NOT_SHOWN = "not-shown"
    APART = "kept-apart"
    CLASSES = "between-classes"

    @property
    def words(self) -> str:
        return self.value.replace("-", " ")


class Reason(Enum):
    """Why no schedule of the recorded steps stands still at a finding between single locks."""

    ORDER = "order"
    LIKE_THREADS = "like-threads"
    FEWER_THREADS = "fewer-threads"
    ONE_LOCK = "one-lock"
    NO_RING = "no-ring"
    TIMED = "timed"
    LATE = "late"
    TURNED_OFF = "turned-off"

    @property
    def is_counted(self) -> bool:
        """Whether a run fails by such a finding where only what is possible or not known counts."""
        return self in (Reason.ORDER, Reason.LIKE_THREADS)


COUNTED = (Verdict.HAPPENED, Verdict.POSSIBLE, Verdict.NOT_KNOWN)


@dataclass(frozen=True)
class Judgement:
    """The verdict of a finding: of what isn't shown the reason, of what isn't known why, and the ring of the history that shows it, with the callers of
    its steps, and which locks the steps take that have to wait."""

    verdict: Verdict
    reason: Reason | None = None
    why: str = ""
    ring: Ring | None = None
    callers: dict[Event, list] = field(default_factory=dict, compare=False, repr=False)
    locks: dict[Event, str] = field(default_factory=dict, compare=False, repr=False)

    def callers_of_ring(self) -> dict[Event, list]:
        return {event: self.callers.get(event, []) for event in self.ring.events()} if self.ring else {}

    @property
    def is_counted(self) -> bool:
        return self.verdict in COUNTED or self.reason is not None and self.reason.is_counted


OF_LEVELS = {
    Level.LOCKS: Verdict.NOT_KNOWN,
    Level.PERHAPS: Verdict.NOT_KNOWN,
    Level.UNKNOWN: Verdict.NOT_KNOWN,
    Level.CLASSES: Verdict.CLASSES,
    Level.TYPES: Verdict.CLASSES,
    Level.NESTED: Verdict.CLASSES,
}  # as long as no history was asked
BY_LEVELS = {level: Judgement(verdict) for level, verdict in OF_LEVELS.items()}
