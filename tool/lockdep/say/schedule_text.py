"""What is known of the rings of histories as text: where tasks stand still, how they come there, or what keeps them apart."""
from __future__ import annotations

from ..base.words import class_of_lock, counted
from ..places.places import Places
from ..places.sources import Sources
from ..program.schedules import APART, NOT_KNOWN, NOT_SHOWN, POSSIBLE, Forced, History, Ring, Waiting
from .explanation import Annotator
from .lines import Line
from .steps import MODES, awaited
from .terminal import Writer

BY_A_JOIN = "possible by a join"  # of a ring with a join: it is false if the thread is joined only when it has said under the lock that it is done
HEADS = {
    POSSIBLE: "these recorded steps, in another order, stand still",
    BY_A_JOIN: "these recorded steps, in another order, stand still, unless the thread is joined only when it has said that it is done",
    APART: "in this recording starts, joins and messages keep these steps apart",
    NOT_SHOWN: "no other order of the recorded steps that keeps who takes a lock after whom stands still here",
    NOT_KNOWN: "this wasn't tried to its end",
}
REASONS = {  # what a task has to do, or can't: the words for it, with its record, and with the other task's
    "ring": "{task} comes to record {record}",
    "message": "{task} has to go on to record {record}, which gives what record {after} of {other} gets",
    "order": "{task} has to go on to record {record}, which releases what record {after} of {other} takes",
    "none left": "so {task} has no such step left",
    "never released": "{task} never releases what it takes at record {record}, which record {after} of {other} takes",
}
MOST_REASONS = 12  # that are printed of one ring; the JSON has all of them


def word_of(ring: Ring) -> str:
    return BY_A_JOIN if ring.verdict == POSSIBLE and ring.joins else ring.verdict


def waiting_line(waiting: Waiting, awaited_locks: set[str]) -> Line:
    """What a task waits for, and what it holds of what others of the ring wait for. The JSON has all that it holds."""
    event, holds = waiting.place.event, [held for held in waiting.holds if held.key in awaited_locks]
    words = ["%s%s since record %d" % (held.key, MODES.get(held.mode, ""), held.event.record) for held in holds]
    text = "  %s: %s: record %d waits for %s%s%s" % (waiting.place.task, event.file, event.record, awaited(waiting.lock), MODES.get(waiting.mode, ""),
                                                    ", and holds " + ", ".join(words) if words else "")
    names = tuple(class_of_lock(lock) for lock in [waiting.lock] + [held.key for held in holds])
    return Line(text, (event,) + tuple(held.event for held in holds) + names)


def way_line(ring: Ring) -> Line:
    """How far the ring's tasks go on in the schedule. The JSON has how far each of the others does."""
    own = {waiting.place.task for waiting in ring.waits}
    words = ["%s to record %d" % (place.task, place.event.record) for place in ring.schedule if place.task in own]
    others = len(ring.schedule) - len(words)
    return Line("  until then %s%s" % (", then ".join(words), ", and %s before" % counted(others, "other task") if others else ""))


def reason_line(reason: Forced) -> Line:
    record, after, other = (reason.event.record if reason.event else 0), (reason.after.event.record if reason.after else 0), reason.after and reason.after.task
    words = REASONS.get(reason.by, "{task}: " + reason.by).format(task=reason.task, record=record, after=after, other=other)
    return Line("  " + words, tuple(event for event in (reason.event, reason.after and reason.after.event) if event))


def block_of(ring: Ring) -> list[Line]:
    word = word_of(ring)
    awaited_locks = {waiting.lock for waiting in ring.waits}
    lines = [Line("%s: %s" % (word, HEADS[word]) if word in HEADS else word)] + [waiting_line(waiting, awaited_locks) for waiting in ring.waits]
    lines += [way_line(ring)] if ring.schedule else []
    lines += [reason_line(reason) for reason in ring.because[:MOST_REASONS]]
    left = len(ring.because) - MOST_REASONS
    return lines + ([Line("  and %s" % counted(left, "more step"))] if left > 0 else [])


def head_of(history: History) -> str:
    words = "%s: %s of %s, %s" % (history.file, counted(history.steps, "step"), counted(history.tasks, "task"), counted(len(history.rings), "ring"))
    if not history.are_all_tried:
        return words + "; not all rings were tried: a limit was met"
    return words + ("; %d more over the locks of one that is possible" % history.not_tried if history.not_tried else "")


def places_of(lines: list[Line], sources: Sources) -> None:
    """Looks up where the records of lines come from, without reading a history, which may be long."""
    events = list(dict.fromkeys(item for line in lines for item in line.items if not isinstance(item, str)))
    places = {file: Places(file) for file in dict.fromkeys(event.file for event in events)}
    for event in events:
        sources.take_record(event, None, places[event.file])
    sources.want_names(item for line in lines for item in line.items if isinstance(item, str))
    sources.ask()


def write_histories(histories: list[History], sources: Sources, writer: Writer) -> None:
    """Writes each history with its rings, each a block after an empty line."""
    blocks = [[block_of(ring) for ring in history.rings] for history in histories]
    places_of([line for of_history in blocks for block in of_history for line in block], sources)
    annotator = Annotator(sources)
    for history, of_history in zip(histories, blocks):
        writer.line(head_of(history))
        for block in of_history:
            writer.line("")
            annotator.begin_block()
            for line in block:
                writer.line(sources.demangler.text(line.text), annotator.under(line.items))
