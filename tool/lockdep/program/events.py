"""What the JSON of the proved program names everywhere: records of files; and what reading it raises if it isn't that."""
from __future__ import annotations

from dataclasses import dataclass

MALFORMED = (ValueError, KeyError, TypeError, AttributeError, IndexError, RecursionError)


@dataclass(frozen=True)
class Event:
    """A record of a trace."""

    file: str
    record: int


@dataclass(frozen=True)
class Held:
    """A lock that a trace holds at its end, and the record that took it."""

    key: str
    mode: str
    event: Event
