"""Findings as text: each line with the records and the keys that it names, under which their sources are put."""
from __future__ import annotations

import os
from typing import Iterable

from ..ask.verdict import gate_of_all
from ..base.words import name_in, plain_key, stands_for_several
from ..places.sources import Sources
from ..program.findings import Event, Finding, Order, Use
from ..record.kernels import is_of_kernel
from ..record.threads import name_of_thread, of_recording
from .judged import judged_lines
from .lines import Item, Line
from .steps import task_words


def key_words(key: str, mode: str | None) -> str:
    return "%s %s" % (key, mode) if mode else key


def held_words(sources: Sources, since: Event | None, held: str | None, key: str) -> tuple[str, tuple[Item, ...]]:
    """Which lock is held, and since when."""
    if not since:
        return "", ()
    lock = sources.key_at(since) or key
    return ", with %s held since record %d" % (key_words(lock, held), since.record), (name_in(lock), since)


def order_line(order: Order, sources: Sources) -> Line:
    """The first occurrence of an order. The locks after the colon have the names that the trace gives them."""
    head = "  %s %s %s: " % order.dependency
    items: tuple[Item, ...] = (name_in(order.start), name_in(order.end))
    if not order.event:
        return Line(head.rstrip(), items)
    lock = sources.key_at(order.event) or order.end
    more, held = held_words(sources, order.since, order.held, order.start)
    text = "%s: record %d takes %s%s" % (order.event.file, order.event.record, key_words(lock, order.takes), more)
    return Line(head + text, items + (order.event, name_in(lock)) + held)


def use_line(head: str, use: Use, key: str, sources: Sources) -> Line:
    """The first occurrence of a mark."""
    if not use.event:
        return Line("  %s" % head)
    begin = "  %s: %s: record %d " % (head, use.event.file, use.event.record)
    if use.takes is not None or not use.since:
        lock = sources.key_at(use.event) or key
        return Line(begin + "takes " + key_words(lock, use.takes), (use.event, name_in(lock)))
    more, held = held_words(sources, use.since, use.held, key)
    return Line("%sturns %ss on%s" % (begin, use.turns_on, more), (use.event,) + held)


def occurrence_lines(finding: Finding, sources: Sources) -> list[Line]:
    """Where a finding comes from."""
    if finding.handler:
        from .signal_text import occurrence_lines as lines_of_signal
        return lines_of_signal(finding, finding.handler, sources)
    lines = [order_line(order, sources) for order in finding.orders]
    if finding.type != "circle":
        lines.append(use_line("used in %s" % finding.irq, finding.used, finding.keys[0], sources))
        lines.append(use_line("used with %ss on" % finding.irq, finding.enabled, finding.keys[-1], sources))
    return lines


def thread_of(event: Event | None, traces: Iterable[str] = ()) -> str:
    """The thread of a record, which is called as its trace and by its name, behind what a task does; empty for a trace of another name. It is told from threads
    of other traces, which may be of another recording."""
    name, suffix = os.path.splitext(os.path.basename(event.file)) if event else ("", "")
    if event and suffix == ".csv" and is_of_kernel(os.path.dirname(event.file)):
        return " (%s)" % name  # it has the task's own name
    if event is None or not name.startswith("task-") or suffix != ".csv":
        return ""
    own, of = name_of_thread(event.file), of_recording(event.file, traces)
    return " (%s%s, %s)" % (name, of, own) if own else " (%s%s)" % (name, of)


def task_lines(finding: Finding) -> list[Line]:
    """How it ends in a deadlock: what each task does, with its thread."""
    if finding.handler:
        from .signal_text import end_lines
        return end_lines(finding)
    traces = {event.file for event in finding.own_events()}
    parts = [words + thread_of(order.event, traces) for words, order in zip(task_words(finding), finding.orders)]
    if finding.type != "circle":
        parts = ["task 1 holds %s%s" % (finding.keys[-1], thread_of(finding.enabled.event, traces))] + parts
        parts.append("a %s comes in at task 1 and waits for %s" % (finding.irq, finding.keys[0]))
    names = tuple(dict.fromkeys(name_in(key) for order in finding.orders for key in (order.start, order.end)))
    return [Line("  " + part, () if number else names) for number, part in enumerate(parts)]  # (where a class is made is said once in a block)


def head_line(finding: Finding) -> Line:
    keys = [order.start for order in finding.orders] if finding.type == "circle" else finding.keys
    return Line(finding.head, tuple(name_in(key) for key in keys))


def notes_of_locks(inner: Finding) -> list[str]:
    """The notes of a finding between single locks that aren't said by what it was seen between: a lock that it was always
    under, or the only thread."""
    notes, gate = list(inner.notes), gate_of_all(inner)
    for place, other in enumerate(inner.gates[:len(notes)]):
        notes[place] += "; but %s is several locks" % plain_key(other.key) if stands_for_several(name_in(other.key)) else ""
    if gate and len(inner.orders) > 1:
        del notes[inner.gates.index(gate)]
    elif inner.only:
        notes = notes[:-1]
    return notes


def inner_lines(finding: Finding, sources: Sources) -> list[Line]:
    """Where the finding between single locks comes from, as far as that isn't said above, and what is noted of it."""
    inner = finding.between.finding if finding.between else None
    if not inner:
        return []
    if inner.handler:
        is_same = (inner.used, inner.enabled) == (finding.used, finding.enabled) and all(
            (one.event, one.since) == (other.event, other.since) for one, other in zip(inner.orders, finding.orders))
        return [] if is_same else [line.indented(2) for line in occurrence_lines(inner, sources)]
    above = {(order.event, order.since) for order in finding.orders}
    lines = [order_line(order, sources) for order in inner.orders if order.event and (order.event, order.since) not in above]
    if inner.type != "circle" and (inner.used, inner.enabled) != (finding.used, finding.enabled):
        places = occurrence_lines(inner, sources)[len(inner.orders):]
        lines += [line for line, use in zip(places, (inner.used, inner.enabled)) if use.event]
    lines += [Line("  note: " + note) for note in notes_of_locks(inner) if note not in finding.notes]
    return [line.indented(2) for line in lines]


def block_of(finding: Finding, notes: list[str], seen: list[str], sources: Sources) -> list[Line]:
    """A finding: where it comes from, how it ends, what is noted of it, what was seen of it, and where its threads stood still."""
    lines = [head_line(finding)] + occurrence_lines(finding, sources) + task_lines(finding)
    lines += [Line("  note: " + note) for note in notes]
    lines += [Line("  " + words) for words in seen] + [Line("    " + words) for words in judged_lines(finding, sources)]
    lines += [Line("  " + words) for words in finding.happened.lines()] if finding.happened else []
    return lines + inner_lines(finding, sources)


class Annotator:
    """What is put under the lines of a text: where their records come from, and where their classes are made, which is said once
    in a block."""

    def __init__(self, sources: Sources) -> None:
        self.sources = sources
        self.said: set[str] = set()

    def begin_block(self) -> None:
        self.said.clear()

    def under(self, items: tuple[Item, ...]) -> list[str]:
        notes = []
        for item in items:
            notes += [self.record_note(item)] if isinstance(item, Event) else self.class_notes(item)
        return [note for note in dict.fromkeys(notes) if note]

    def record_note(self, event: Event) -> str:
        from ..binaries.symbols import place_words
        place = place_words(self.sources.frames(event))
        return "record %d: %s" % (event.record, place) if place else ""

    def class_notes(self, name: str) -> list[str]:
        notes = []
        for made in self.sources.made_as(name):
            if made.name not in self.said:
                self.said.add(made.name)
                words = self.sources.made_words(made)
                notes += ["%s: %s" % (self.sources.demangler.text(made.name), words)] if words else []
        return notes
