"""What the checker said of histories, as values: the JSON of `lockdep schedule --json`, version 1."""
from __future__ import annotations

import json
import os
from dataclasses import dataclass
from typing import Iterator

from ..base.saying import Refusal
from ..base.words import text_of, visible
from .events import MALFORMED, Event, Held

VERSION = 1
POSSIBLE = "possible"  # the verdict of a ring at which a schedule of the recorded steps stands still
NOT_KNOWN, NOT_SHOWN, APART = "not known", "not shown", "kept apart"  # the others, the strongest first


@dataclass(frozen=True)
class Place:
    """A step of a task: the record of the history."""

    task: str
    event: Event


@dataclass(frozen=True)
class Waiting:
    """A task of a ring: the step at which it waits for a lock, in which mode, and what it holds there."""

    place: Place
    lock: str
    mode: str
    holds: tuple[Held, ...]


@dataclass(frozen=True)
class Forced:
    """Why no schedule comes to a ring: what a task has to do, or can't do, by the word for it; at which record, and which record of another task makes it
    do that, if there are such."""

    task: str
    by: str
    event: Event | None
    after: Place | None


@dataclass(frozen=True)
class Ring:
    """Tasks each of which would wait for the next one: what is known of that, and whether one of them joins a thread. If it is possible, how far each task
    goes on in the schedule, in their order; else what keeps them apart."""

    verdict: str
    joins: bool
    waits: tuple[Waiting, ...]
    schedule: tuple[Place, ...]
    because: tuple[Forced, ...]

    def events(self) -> Iterator[Event]:
        """The steps that it names."""
        for waiting in self.waits:
            yield waiting.place.event
            yield from (held.event for held in waiting.holds)
        yield from (place.event for place in self.schedule)
        for forced in self.because:
            yield from (event for event in (forced.event, forced.after and forced.after.event) if event)


@dataclass(frozen=True)
class History:
    """A file: how many steps of how many tasks it has, its rings, and how many rings weren't tried."""

    file: str
    steps: int
    tasks: int
    rings: tuple[Ring, ...]
    not_tried: int
    are_all_tried: bool


def place_of(said: dict, file: str) -> Place:
    return Place(str(said["task"]), Event(file, int(said["record"])))


def waiting_of(said: dict, file: str) -> Waiting:
    holds = tuple(Held(str(held["lock"]), str(held["mode"]), Event(file, int(held["record"]))) for held in said["holds"])
    return Waiting(place_of(said, file), str(said["waits_for"]), str(said["mode"]), holds)


def forced_of(said: dict, file: str) -> Forced:
    event = Event(file, int(said["record"])) if "record" in said else None
    return Forced(str(said["task"]), str(said["by"]), event, place_of(said["after"], file) if "after" in said else None)


def ring_of(said: dict, file: str) -> Ring:
    return Ring(str(said["verdict"]), bool(said["joins"]), tuple(waiting_of(step, file) for step in said["steps"]),
                tuple(place_of(place, file) for place in said.get("schedule") or ()), tuple(forced_of(reason, file) for reason in said.get("because") or ()))


def history_of(said: dict, folder: str) -> History:
    file = os.path.join(folder, os.path.basename(str(said["file"]))) if folder else str(said["file"])
    return History(file, int(said["steps"]), int(said["tasks"]), tuple(ring_of(ring, file) for ring in said["rings"]), int(said["not_tried"]),
                   bool(said["all_tried"]))


def histories_of(raw: bytes, folder: str = "") -> list[History]:
    """The histories of what `schedule --json` wrote. They may be called as if they were in another folder."""
    try:
        said = json.loads(text_of(raw))
        if said["schedule"] != VERSION:
            raise Refusal("`schedule --json` wrote version %s, and this program reads version %d" % (visible(str(said["schedule"])), VERSION))
        return [history_of(history, folder) for history in said["histories"]]
    except MALFORMED as error:
        raise Refusal("what `schedule --json` wrote can't be read: %s" % visible(repr(error)))
