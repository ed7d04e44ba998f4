"""What the histories of a recording say of rings of tasks that wait for one another: the proved program decides each. The histories are made for that, and
aren't kept."""
from __future__ import annotations

import csv
import os
from dataclasses import dataclass, field
from itertools import islice

from ..base.files import contents, opened_text
from ..base.room import room_for
from ..base.words import class_of_lock, lines_of, text_of, type_of_class
from ..binaries.symbols import Address
from ..places.places import Places
from ..program.checker import REFUSED, ask
from ..program.findings import Event
from ..program.schedules import History, Ring, histories_of
from ..record import summary
from ..record.folder import HISTORY, Folder
from ..record.recorders import PTHREAD, RECORDERS
from .histories import histories_in, write_histories

AS_JSON = ["schedule", "--json", "--"]
ORDER = "order"  # why a step comes later: it takes a lock that another task has had before
ENDS = "history-ends"  # counts the processes whose history ends before they do
OF_ANOTHER = "the recorder of %s keeps no order of steps"
UNMADE = "the order of its steps can't be made again from the recording itself"
GONE = "the recording has no raw.tar.gz, and so no order of its steps"
WITHOUT = "the order of its steps wasn't recorded"
REFUSAL = "the order of its steps was refused: %s"
UNGUARDED = "this Python ran without its global lock, by which its steps have an order"
ENDED = "the order of its steps isn't recorded to the end, as where there is no more room than --history gives"
NOT_TRIED = "threads could wait for one another in more ways than are tried"


@dataclass
class Scheduled:
    """The rings of a recording, where their steps come from, which locks those take that have to wait for a release, the types of the locks that aren't in the
    histories, each with the word for why, why these don't say all, if so, and how many there are, one for each process; the traces that were made with them,
    and what their recorder leaves out."""

    rings: list[Ring] = field(default_factory=list)
    callers: dict[Event, list[Address]] = field(default_factory=dict)
    locks: dict[Event, str] = field(default_factory=dict)
    left_out: dict[str, str] = field(default_factory=dict)
    why: str = ""
    processes: int = 0
    traces: frozenset[str] = frozenset()
    absent: str = ""


def orders_of(ring: Ring) -> frozenset[tuple[str, str]]:
    """The orders that a ring has, by types: each task holds what the one before it waits for."""
    locks = [type_of(waiting.lock) for waiting in ring.waits]
    return frozenset(zip(locks[-1:] + locks[:-1], locks))


def type_of(lock: str) -> str:
    return type_of_class(class_of_lock(lock))


def left_out_in(path: str) -> dict[str, str]:
    """The types of the locks that aren't in histories, each with the word for why."""
    names = [name for name in sorted(os.listdir(path)) if name.endswith(".left-out")]
    lines = [line.rpartition(" ") for name in names for line in lines_of(text_of(contents(os.path.join(path, name)) or b""))]
    return {type_of(lock): why for lock, _, why in lines}


def language_of(recorder: str) -> str:
    """Whose locks a recorder sees, in words. A recording of a newer version may name one that isn't known here."""
    known = RECORDERS.get(recorder)
    return known.language if known else recorder


def callers_of(histories: list[History], room: str) -> dict[Event, list[Address]]:
    """Where the steps of all rings come from."""
    callers: dict[Event, list[Address]] = {}
    for history in histories:
        places = Places(os.path.join(room, os.path.basename(history.file)))
        events = {event for ring in history.rings for event in ring.events()}
        callers.update((event, places.callers(event.record)) for event in events)
    return callers


def locks_of(histories: list[History], room: str) -> dict[Event, str]:
    """The locks that steps take which have to wait until another task has released them."""
    locks: dict[Event, str] = {}
    for history in histories:
        events = {forced.after.event for ring in history.rings for forced in ring.because if forced.by == ORDER and forced.after}
        records = sorted(event.record for event in events)
        with opened_text(os.path.join(room, os.path.basename(history.file)), newline="") as file:
            lines = [next(islice(file, record - before - 1, None), "") for before, record in zip([0] + records, records)]
        locks.update((Event(history.file, record), (next(csv.reader([line]), []) + ["", "", ""])[2]) for record, line in zip(records, lines))
    return locks


def scheduled_in(folder: str) -> Scheduled:
    """What the histories of a recording say, or why there are none."""
    recorder = summary.recorder_of(folder)
    if recorder and not (recorder in RECORDERS and RECORDERS[recorder].keeps_order):
        return Scheduled(why=OF_ANOTHER % language_of(recorder))
    with room_for(folder) as room:
        into, remade = os.path.join(room, HISTORY), os.path.join(room, "remade")
        os.mkdir(into)
        os.mkdir(remade)
        made = write_histories(folder, into, remade)
        return Scheduled(why=why_unmade(folder, recorder)) if made is None else asked_about(folder, room, made)


def why_unmade(folder: str, recorder: str) -> str:
    """Why there are no histories of a recording whose own ones couldn't be made. A recorder that does all by itself keeps nothing else in raw.tar.gz."""
    if any(os.path.exists(os.path.join(folder, name)) for name in ("raw", "raw.tar.gz")):
        return UNMADE
    has_script = recorder in RECORDERS and RECORDERS[recorder].script is not None
    return WITHOUT if has_script and "raw.tar.gz" not in Folder(folder).listed() else GONE


def asked_about(folder: str, room: str, made: str) -> Scheduled:
    """What the program says of the histories in a room. They are called as they are in the recording, if they are made there."""
    files, counted = histories_in(room), summary.read(made, is_first=True)
    if not files:
        return Scheduled(why=UNGUARDED if counted and counted.number("unguarded") else WITHOUT)
    answer = ask(AS_JSON + files, with_errors=True)
    if answer.status >= REFUSED:
        return Scheduled(why=REFUSAL % answer.reason)
    histories = histories_of(answer.output, os.path.join(folder, HISTORY))
    ends = counted is not None and counted.number(ENDS) > 0
    why = ENDED if ends else "" if all(history.are_all_tried for history in histories) else NOT_TRIED
    into = os.path.join(room, HISTORY)
    recorder = RECORDERS.get(summary.recorder_of(folder), PTHREAD)
    return Scheduled([ring for history in histories for ring in history.rings], callers_of(histories, into), locks_of(histories, into), left_out_in(into), why,
                     len(histories), frozenset(os.listdir(made)), recorder.unordered)
