"""A finding in plain words, in every form: what is wrong, what each thread holds and waits for and where, whether the recorded steps can stand still so, and
what mends it."""
from __future__ import annotations

import itertools
import os
import re
from collections import Counter
from dataclasses import dataclass
from typing import Iterable, Tuple

from ..ask.judging import traces_of
from ..ask.verdict import Recorded, gate_of_all
from ..base.words import CALLED_FROM, counted, is_of_library, name_in, plain_key, stands_for_several, text_of
from ..binaries.cplusplus import without_parameters
from ..binaries.loading import C_LIBRARY
from ..binaries.symbols import Frame
from ..finish.joins import THREAD
from ..places.sources import Sources, own_keys_of
from ..program.findings import Event, Finding, Order
from ..program.schedules import Forced, Ring, Waiting
from ..program.verdicts import Level, Reason, Verdict
from ..record.handlers import Handler
from ..record.threads import MAIN, TASK, name_of_thread, of_recording, thread_called, thread_of
from .groups import Dependency
from .judged import TAKES, RingStep, form_of, in_turn, ring_of
from .kernel_words import words_of_kernel
from .signal_text import calls_of, mending_words
from .steps import MODES, TYPES
from .terminal import WIDTH
from .verdict_words import verdict_and_why

SINGLE = re.compile(r"(.+)#(?:\d{1,5}|rest)(?:@\d+)*")  # a single lock, behind its class
VARIABLE = re.compile(r"[A-Za-z_]\w*")
SUMMED = re.compile(r"([A-Za-z_][\w.]*)#[0-9a-f]{8}")  # a variable's name that another one has too
OF_CODE = re.compile(r"\+0x[0-9a-f]|:\d")  # a name that is a place in code, or a line
OF_FILE = re.compile(r"[^:~\s]+\.\w+:([A-Za-z_{][^~+]*)")  # a variable's or member's name, behind its file's
OF_TYPE = re.compile(r"(.+)@([0-9a-f]{8})")  # a class of a type, with the sum of the place that makes its locks
DEEPEST = 4  # callers of a place that tell two rows apart
MADE_AT, STARTED_AT = "made at ", "started at "  # between a word for a lock, or a thread, and the line that makes it
THE_LOCK = "the lock "
GAP = "   "  # between the columns of a table
VERDICT_INDENT, ROW_INDENT = " " * 3, " " * 5  # before lines below a title
MESSAGE, MOST_MESSAGES = "message", 2  # what keeps steps apart: of one thread to another; and how many are said


class Names:
    """What locks are called in a text: a variable by its own name, unless two of these findings' classes have one name; and a lock that is named by code
    by the line that makes it, if that is known."""

    def __init__(self, findings: list[Finding], sources: Sources) -> None:
        self.sources = sources
        self.findings_with = Counter(key for finding in findings for key in set(finding.keys))
        kinds = sorted({kind_of(name_in(key)) for finding in findings for key in all_keys_of(finding)})
        self.lines = lines_that_make([kind for kind in kinds if OF_CODE.search(kind)], sources)
        named = Counter(map(own_name, {type_of(kind) for kind in kinds}))
        self.called = {kind: own_name(kind) if named[own_name(kind)] == 1 else whole_name(type_of(kind), sources) for kind in kinds}

    def kind(self, name: str) -> str:
        """The class of a lock, such as `accounts`."""
        kind = kind_of(name)
        return self.sources.demangler.text(self.called.get(kind, kind))

    def of_kind(self, name: str) -> str:
        """Of which class a lock is, or on which line it is made, behind a word for it."""
        line = self.lines.get(kind_of(name))
        verb = STARTED_AT if name.startswith(THREAD) else MADE_AT
        return verb + line if line else "of " + self.kind(name)

    def key(self, key: str, is_numbered: bool = False, made: str = "") -> str:
        """The class of a key, or its single lock, with what is said of where it is made, and its subclass unless that is 0."""
        name, _, sub_class = key.rpartition("/")
        number = name[len(kind_of(name)):] if is_numbered else ""
        of_line = " ".join(["lock", number[1:], self.of_kind(name)] if number else [THE_LOCK.strip(), self.of_kind(name)])
        words = of_line if kind_of(name) in self.lines else self.kind(name) + number
        return words + made + (" (subclass %s)" % sub_class if sub_class != "0" else "")

    def beside(self, keys: list[str]) -> dict[str, str]:
        """What keys are called beside each other: by their classes, by single locks where two are of one class, and by the lines that make them where two
        classes are of one type."""
        shown, kinds = {key: self.key(key) for key in keys}, list(dict.fromkeys(kind_of(name_in(key)) for key in keys))
        for call in (lambda key: self.key(key, True), lambda key: self.made_key(key, kinds)):
            locks = Counter(words for _, words in {(name_in(key), words.partition(" (subclass ")[0]) for key, words in shown.items()})
            shown = {key: call(key) if locks[words.partition(" (subclass ")[0]] > 1 else words for key, words in shown.items()}
        return shown

    def of_ring(self, ring: Ring) -> dict[str, str]:
        """The same of the locks that a ring's tasks wait for."""
        return self.beside([key_of(waiting.lock) for waiting in ring.waits])

    def made_key(self, key: str, kinds: list[str]) -> str:
        """A single lock, with the line that makes its class, by as many callers as tell those of its type among these apart, or else the sum of that place."""
        kind = kind_of(name_in(key))
        found, alike = OF_TYPE.fullmatch(kind), [other for other in kinds if type_of(other) == type_of(kind)]
        line = lines_that_make(alike, self.sources).get(kind) or lines_that_make([kind], self.sources).get(kind)
        return self.key(key, True, " (%s%s)" % (MADE_AT, line) if line else "@" + found.group(2) if found else "")


def all_keys_of(finding: Finding) -> list[str]:
    """The keys of a finding, of the one between single locks, and of the steps that make it."""
    inner, ring = finding.between.finding if finding.between else None, ring_of(finding)
    return own_keys_of(finding) + (own_keys_of(inner) if inner else []) + ([key_of(waiting.lock) for waiting in ring.waits] if ring else [])


def kind_of(name: str) -> str:
    """The class of a single lock's name, or of a name of a class, which may end in a sum."""
    found = SINGLE.fullmatch(name)
    return found.group(1) if found else name


def type_of(kind: str) -> str:
    """A class's type, without the sum of the place that makes its locks; the class itself if it has none."""
    found = OF_TYPE.fullmatch(kind)
    return found.group(1) if found else kind


def own_name(kind: str) -> str:
    """A variable's or member's name, without its file, or what tells it from others."""
    found = OF_FILE.fullmatch(type_of(kind)) or SUMMED.fullmatch(type_of(kind))
    return found.group(1) if found else type_of(kind)


def whole_name(kind: str, sources: Sources) -> str:
    """A variable's name with its file, as far as that is known."""
    frames = [frame for made in sources.made_as(kind)[:1] for frame in sources.frames_of(made) if frame.path]
    return "%s:%s" % (os.path.basename(frames[0].path), own_name(kind)) if VARIABLE.fullmatch(own_name(kind)) and not OF_FILE.fullmatch(kind) and frames else kind


def lines_that_make(kinds: list[str], sources: Sources) -> dict[str, str]:
    """For classes that are named by code the lines that make them, by as many callers as tell these apart; nothing if that isn't known of all. No line
    of the C library makes a lock, which starts a program that has no lines."""
    made = {kind: sources.made_as(kind) for kind in kinds}
    frames = {kind: [frame for frame in sources.frames_of_callers(several[0]) if frame.path and not frame.address.startswith(C_LIBRARY)]
              for kind, several in made.items() if len(several) == 1}
    for depth in range(DEEPEST if len(frames) == len(kinds) and all(frames.values()) else 0):
        lines = {kind: os.path.basename(place_of(places[min(depth, len(places) - 1)])) for kind, places in frames.items()}
        if len(set(lines.values())) == len(lines):
            return lines
    return {}


# ---- What is wrong.


def title(finding: Finding, names: Names) -> str:
    """What is wrong, in a line."""
    if finding.handler:
        return title_of_signal(finding, finding.handler, names)
    if finding.type == "circle":
        return title_of_cycle(finding, names)
    first, last, state = names.key(finding.keys[0]), names.key(finding.keys[-1]), finding.irq
    if finding.type not in TYPES:
        return finding.head
    return "%s is taken in a %s, and held %ss on" % (first, state, ("with %s" if finding.type == "double" else "where " + last + " is taken, which is held with %s") % state)


def title_of_signal(finding: Finding, handler: Handler, names: Names) -> str:
    first, last = names.key(finding.keys[0]), names.key(finding.keys[-1])
    if is_of_library(finding.keys[0]):
        return "the handler of %s calls %s, and may interrupt other code in such a call" % (handler.signal, calls_of(finding.keys[0]))
    if finding.type == "double":
        return "%s is taken by the handler of %s while other code holds it" % (first, handler.signal)
    return "%s is taken by the handler of %s, and held where %s is taken, which other code holds when %s comes in" % (first, handler.signal, last, handler.signal)


def keys_of_rows(finding: Finding) -> list[str]:
    """The locks of the rows, by their classes."""
    inner, ring = finding.between.finding if finding.between else None, ring_of(finding)
    held = [key_of(waiting.lock) for waiting in ring.waits[-1:] + ring.waits[:-1]] if ring and ring.schedule else []
    locks = held or ([order.start for order in inner.orders] if inner else [])
    return list(dict.fromkeys(kind_of(name_in(key)) + key[len(name_in(key)):] for key in locks))


def title_keys(finding: Finding) -> list[str]:
    """The locks of a cycle, unless the rows have a cycle of others that was found in its place."""
    keys, of_rows = list(dict.fromkeys([order.start for order in finding.orders] or finding.keys)), keys_of_rows(finding)
    is_same = {type_of(kind_of(name_in(key))) for key in keys} == {type_of(name_in(key)) for key in of_rows}
    return keys if is_same or not of_rows else of_rows


def title_of_cycle(finding: Finding, names: Names) -> str:
    keys = title_keys(finding)
    shown, joined = names.beside(keys), [key for key in keys if key.startswith(THREAD)]
    if joined and len(keys) == 2:
        other = next(key for key in keys if key != joined[0])
        return "%s is joined while %s is held, which it takes" % (thread_named(shown[joined[0]]), shown[other])
    if len(keys) > 1:
        words = [thread_named(shown[key]) if key in joined else shown[key] for key in keys]
        return "%s are %s in %s" % (all_of(words), "waited for" if joined else "taken", "both orders" if len(words) == 2 else "a ring")
    return title_of_one_class(finding, names.of_kind(name_in(keys[0])), shown[keys[0]])


def title_of_one_class(finding: Finding, of_kind: str, lock: str) -> str:
    """Of a class of which one lock is taken with another one held: how many locks, if the steps or the single locks say it."""
    inner, ring = finding.between.finding if finding.between else None, ring_of(finding)
    locks = {waiting.lock for waiting in ring.waits} if ring else set(map(name_in, inner.keys)) if inner else set()
    if len(locks) > 1:
        return "%d locks %s are taken in %s" % (len(locks), of_kind, "both orders" if len(locks) == 2 else "a ring")
    if not locks or any(map(stands_for_several, locks)):
        return "a lock %s is taken while one is held" % of_kind
    return "%s is taken while it is held" % lock


def thread_named(shown: str) -> str:
    """A thread, of which what is shown of its lock tells the function that it runs, or the line that starts it."""
    return "the thread " + shown[len(THE_LOCK if shown.startswith(THE_LOCK) else THREAD):]


# ---- What each thread does.


@dataclass(frozen=True)
class Part:
    """What a thread does in a finding: which lock it holds and which one it waits for, in words, with the records; the file of its trace, and who it is if
    that isn't a thread by itself. What a thread that is joined holds is its own life, which it took at no record."""

    trace: str
    holds: str = ""
    since: Event | None = None
    waits: str = ""
    at: Event | None = None
    who: str = ""


def mode_words(mode: str | None) -> str:
    """How a lock is taken, if not by a writer; whether readers may be recursive is a matter of the checker's."""
    return MODES.get((mode or "").replace("rr", "r"), "")


def holds_words(key: str, mode: str | None, shown: dict[str, str]) -> str:
    if is_of_library(key):
        return "calls " + calls_of(key)
    return "has yet to end" if key.startswith(THREAD) else "holds %s%s" % (shown[key], mode_words(mode))


def waits_words(key: str, mode: str | None, shown: dict[str, str]) -> str:
    if is_of_library(key):
        return "calls " + calls_of(key)
    if key.startswith(THREAD):
        return "waits for the end of " + (thread_named(shown[key]) if shown[key].startswith(THE_LOCK) else shown[key][len(THREAD):])
    return "waits for %s%s" % (shown[key], mode_words(mode))


def words_of_ring_step(step: RingStep, shown: dict[str, str]) -> str:
    """What a task of a ring does."""
    key = key_of(step.lock)
    if step.verb != TAKES:
        return waits_words(key, step.mode, shown)
    return "begins" if key.startswith(THREAD) else "takes %s%s" % (shown[key], mode_words(step.mode))


def parts_of(finding: Finding, names: Names) -> list[Part]:
    """What each thread does: by the steps of the ring that the verdict is about, if there is one; else by the single locks, if they were seen so; else by
    the classes."""
    ring = ring_of(finding)
    if ring:
        shown = names.of_ring(ring)
        first = min(range(len(ring.waits)), key=lambda at: ring.waits[at].place.task)
        return [part_of_waiting(waiting, finding, shown) for waiting in ring.waits[first:] + ring.waits[:first]]
    inner = finding.between.finding if finding.between else None
    seen = inner if inner and not finding.handler else finding
    shown = names.beside(own_keys_of(seen))
    are_others = seen is finding and finding.between is not None and finding.between.level in (Level.CLASSES, Level.TYPES)
    parts = [part_of_order(order, shown, are_others) for order in seen.orders]
    return parts if seen.type == "circle" else [part_of_enabled(seen, shown)] + parts + [part_of_used(seen, shown)]


def key_of(lock: str) -> str:
    """The key of a lock of a history, whose steps have no subclasses."""
    return lock + "/0"


def part_of_waiting(waiting: Waiting, finding: Finding, shown: dict[str, str]) -> Part:
    held = next((held for held in waiting.holds if key_of(held.key) in shown), None)  # (a writer before whom readers wait may hold nothing)
    events = finding.own_events()
    trace = os.path.join(os.path.dirname(events[0].file) if events else "", waiting.place.task + ".csv")
    since = held.event if held and not held.key.startswith(THREAD) else None
    holds = holds_words(key_of(held.key), held.mode, shown) if held else ""
    return Part(trace, holds, since, waits_words(key_of(waiting.lock), waiting.mode, shown), waiting.place.event)


def part_of_order(order: Order, shown: dict[str, str], are_others: bool = False) -> Part:
    """What a thread does by an order; of a class in itself, of which it takes another lock than it holds."""
    holds, waits = holds_words(order.start, order.held, shown), waits_words(order.end, order.takes, shown)
    if are_others and order.start == order.end:
        words = shown[order.start]
        one = "one lock " + (words[len(THE_LOCK):] if words.startswith(THE_LOCK) else "of " + words)
        holds, waits = "holds %s%s" % (one, mode_words(order.held)), "waits for another one%s" % mode_words(order.takes)
    since = None if order.start.startswith(THREAD) else order.since
    return Part(order.event.file if order.event else "", holds, since, waits, order.event)


def part_of_enabled(finding: Finding, shown: dict[str, str]) -> Part:
    """Who holds the lock when the interrupt, or the signal, comes in."""
    use = finding.enabled
    comes = "when %s comes in" % finding.handler.signal if finding.handler else "with %ss on" % finding.irq
    event = use.since if use.takes is None and use.since else use.event
    return Part(event.file if event else "", holds_words(finding.keys[-1], use.takes or use.held, shown), event, who=comes)


def part_of_used(finding: Finding, shown: dict[str, str]) -> Part:
    """Who waits for the lock in the interrupt, or the signal's handler."""
    use = finding.used
    who = "the handler of %s" % finding.handler.signal if finding.handler else "in a %s" % finding.irq
    return Part(use.event.file if use.event else "", waits=waits_words(finding.keys[0], use.takes, shown), at=use.event, who=who)


# ---- Where.


def path_of(frame: Frame) -> str:
    """A file, from the current folder if it lies below that, so that a terminal or an editor finds it."""
    here = os.path.join(text_of(os.getcwdb()), "")
    return frame.shown or (frame.path[len(here):] if frame.path.startswith(here) else frame.path)


def place_of(frame: Frame) -> str:
    return "%s:%d" % (path_of(frame), frame.line) if frame.path else frame.address


def function_of(frames: list[Frame]) -> str:
    return without_parameters(frames[0].function) if frames else ""


def frames_at(event: Event, sources: Sources) -> list[Frame]:
    """The callers of a record, from the first one on that has a line, if one has."""
    frames = sources.frames(event)
    return list(itertools.dropwhile(lambda frame: not frame.path, frames)) or frames


def line_at(event: Event, sources: Sources) -> str:
    """The line that a record comes from, or if that isn't known which record it is."""
    frames = frames_at(event, sources)
    return place_of(frames[0]) if frames else "record %d of %s" % (event.record, os.path.basename(event.file))


def where(event: Event, sources: Sources, depth: int = 1, function: str = "") -> str:
    """Where a record comes from, with so many callers; its function too, if that isn't this one."""
    frames = frames_at(event, sources)[:depth]
    own = function_of(frames)
    words = line_at(event, sources) + (" in %s" % own if own and own != function else "")
    return CALLED_FROM.join([words] + [" at ".join(filter(None, (without_parameters(frame.function), place_of(frame)))) for frame in frames[1:]])


def who_words(part: Part, traces: Iterable[str] = ()) -> str:
    """Which thread: by the number of its trace, of which recording that is if one of the others is of another one, and its name if that is known."""
    if part.who:
        return part.who
    own, words = name_of_thread(part.trace), thread_called(os.path.splitext(os.path.basename(part.trace))[0]) + of_recording(part.trace, traces)
    return "%s, %s" % (words, own) if own else words


Row = Tuple[str, str, str, str]  # a thread's function, what it holds and where it took that, what it waits for and where, and who it is


def cells_of(part: Part, traces: Iterable[str], sources: Sources, depth: int) -> Row:
    """The row of a thread of a finding, which has these traces."""
    function = function_of(frames_at(part.at or part.since, sources)) if part.at or part.since else ""
    holds = cell_of(part.holds, part.since, sources, max(depth, depth_of_hold(part, sources)), function)
    return function, holds, cell_of(part.waits, part.at, sources, depth, function), who_words(part, traces)


def depth_of_hold(part: Part, sources: Sources) -> int:
    """By how many callers of a hold the function is told that is still running when the thread waits. One that only takes the lock has returned by then."""
    held, waiting = ([without_parameters(frame.function) for frame in frames_at(event, sources)] if event else [] for event in (part.since, part.at))
    return next((depth for depth, function in enumerate(held[:DEEPEST], 1) if function and function in waiting), 1)


def cell_of(what: str, event: Event | None, sources: Sources, depth: int, function: str) -> str:
    """What a thread does with a lock, and where; a lock may be called by a line itself."""
    joint = ", at " if MADE_AT in what or STARTED_AT in what else ", "
    return what + (joint + where(event, sources, depth, function) if event else "")


def rows_of(finding: Finding, sources: Sources, names: Names) -> list[Row]:
    """A row for each thread; with callers only where these tell two places apart."""
    parts = parts_of(finding, names)
    depth = depth_of(parts, sources)
    traces = {part.trace for part in parts if not part.who}
    return [cells_of(part, traces, sources, depth) for part in parts]


def depth_of(parts: list[Part], sources: Sources) -> int:
    """By how many callers as many places of a finding differ as can be told apart."""
    events = [event for part in parts for event in (part.since, part.at) if event]
    return max(range(1, DEEPEST + 1), key=lambda depth: (told_apart({where(event, sources, depth) for event in events}), -depth))


def told_apart(places: set[str]) -> int:
    """How many of these places differ: one of which fewer callers are known may be another one."""
    return sum(not any(other.startswith(place + CALLED_FROM) for other in places) for place in places)


def row_words(row: Row) -> str:
    """A row as a sentence, such as `pays holds accounts, abba.c:6, and waits for journal, abba.c:7 (thread 1)`."""
    function, holds, waits, who = row
    return "%s%s (%s)" % (function + " " if function else "", ", and ".join(cell for cell in (holds, waits) if cell), who)


def table(rows: list[Row], width: int) -> list[str]:
    """Rows as lines: in columns, or if that is too wide each cell on a line of its own, under its function and thread."""
    widths = [max(map(len, column)) for column in zip(*rows)]
    used = [place for place, each in enumerate(widths) if each]
    lines = [GAP.join(row[place].ljust(widths[place]) for place in used).rstrip() for row in rows]
    if max(map(len, lines)) <= width:
        return lines
    return [line for row in rows for line in stacked(row)]


def stacked(row: Row) -> list[str]:
    function, who = row[0], row[3]
    return [" ".join(words for words in (function, "(%s)" % who) if words)] + ["    " + cell for cell in row[1:3] if cell]


# ---- Whether it can happen.


def verdict_lines(finding: Finding, sources: Sources, recorded: Recorded) -> list[str]:
    """What `provoke` made of the finding, and the verdict, with the steps that show it, or its reason."""
    happened = finding.happened
    lines = [happened.words] + ([happened.sent] if happened.sent else []) if happened else []
    if happened and happened.is_final or not (finding.between or recorded.is_kernels()):
        return lines
    return lines + [words_of_kernel(finding) if recorded.is_kernels() else judged_line(finding, sources, recorded)]


def judged_line(finding: Finding, sources: Sources, recorded: Recorded) -> str:
    """The verdict by the recorded steps."""
    (verdict, why), ring = verdict_and_why(finding, recorded), ring_of(finding)
    if ring and ring.schedule and not (finding.judged and finding.judged.reason is Reason.TURNED_OFF):
        return schedule_words(verdict, finding, ring, sources)
    is_apart = finding.judged is not None and finding.judged.verdict is Verdict.APART
    messages = messages_words([each for each in ring.because if each.by == MESSAGE][:MOST_MESSAGES], finding, sources) if ring and is_apart else []
    if finding.judged and finding.judged.reason is Reason.ONE_LOCK:
        why = why.replace("one lock", gate_words(finding, sources), 1)
    if messages:
        return "%s: in this recording, %s" % (verdict, ", and ".join(messages))
    return "%s: %s" % (verdict, why) if why else verdict


def gate_words(finding: Finding, sources: Sources) -> str:
    """The single lock that was held each time, if its name is known."""
    inner = finding.between.finding if finding.between else None
    gate = gate_of_all(inner) if inner else None
    if not gate:
        return "one lock"
    kind = kind_of(name_in(gate.key))
    line = lines_that_make([kind], sources).get(kind) if OF_CODE.search(kind) else ""
    return THE_LOCK + MADE_AT + line if line else sources.demangler.text(own_name(kind))


def messages_words(several: list[Forced], finding: Finding, sources: Sources) -> list[str]:
    """Messages that keep threads apart, by their lines alone."""
    named = tasks_words([task for each in several for task in (each.after.task if each.after else "", each.task)])
    return [message_words(each, finding, sources, *named[2 * at:2 * at + 2]) for at, each in enumerate(several)]


def message_words(forced: Forced, finding: Finding, sources: Sources, other: str, task: str) -> str:
    after, lock = forced.after, (finding.judged.locks.get(forced.after.event, "") if finding.judged and forced.after else "")
    events = (forced.event, after and after.event)
    depth = (all(events) and depth_apart([events], sources)) or 1
    place, later = [short_place(event, sources, depth) if event else "a step" for event in events]
    return form_of(forced, lock, sources).format(task=task, other=other, place=place, after=later, lock=lock or "the lock")


def tasks_words(tasks: list[str]) -> list[str]:
    """What tasks of a history are called where they are mentioned in turn. One that takes locks has a trace, and so a number."""
    others = list(dict.fromkeys(task for task in tasks if task and not TASK.fullmatch(task) and task != MAIN))
    called = {task: "another thread" if at == 0 else "a further thread" for at, task in enumerate(others)}
    words = [called.get(task) or thread_of(task) for task in tasks]
    return ["that thread" if len(others) == 1 and task in tasks[:at] and task in called else words[at] for at, task in enumerate(tasks)]


def schedule_words(verdict: str, finding: Finding, ring: Ring, sources: Sources) -> str:
    """How far each thread goes on: all but the last one stop when they hold what others wait for, and the last one goes on to its wait."""
    shown, last = Names([finding], sources).of_ring(ring), {place.task: place.event for place in ring.schedule}
    turns = in_turn(ring)
    parts = [part_of_waiting(waiting, finding, shown) for waiting in turns]
    depth, at = depth_of_halts(parts, sources), {}
    for waiting, part in zip(turns, parts[:-1]):
        at.setdefault(halt_of(part, last.get(waiting.place.task), sources, depth), []).append(thread_words(part))
    halts = [halt_words(threads, *halt) for halt, threads in at.items()] + [
        "%s goes on to %s" % (thread_words(parts[-1]), short_place(parts[-1].at, sources, depth))]
    end = ", unless the thread is joined only when it has said that it is done" if ring.joins else ""
    return "%s: %s, and %s%s" % (verdict, ", ".join(halts[:-1]), halts[-1], end)


def depth_of_halts(parts: list[Part], sources: Sources) -> int:
    """By which caller's line the two places of each thread differ; if none tells them apart, that by which most places of all threads do."""
    return depth_apart([(part.since, part.at) for part in parts if part.since and part.at], sources) or depth_of(parts, sources)


def depth_apart(pairs: Iterable[tuple[Event, Event]], sources: Sources) -> int:
    """By which caller's line the two places of each pair differ; 0 if none tells all of them apart."""
    return next((depth for depth in range(1, DEEPEST + 1)
                 if all(short_place(one, sources, depth) != short_place(other, sources, depth) for one, other in pairs)), 0)


def halt_of(part: Part, last: Event | None, sources: Sources, depth: int) -> tuple[str, str]:
    """How far a thread goes on, by its last step, and where that is: until it holds its lock, or is in the call that waits, as a condition's does once it is
    woken; one that is joined has begun, and one that holds nothing comes to its wait."""
    if not part.since:
        return ("begin%s", "") if part.holds else ("come%s to", short_place(part.at, sources, depth))
    held, waits = short_place(part.since, sources, depth), short_place(part.at, sources, depth)
    is_in_wait = last is not None and sources.frames(last) and short_place(last, sources, depth) == waits != held
    return ("stop%s in the middle of", waits) if is_in_wait else ("stop%s after", held)


def halt_words(threads: list[str], verb: str, place: str) -> str:
    """Where threads stop."""
    who = threads[0] if len(threads) == 1 else "threads %s" % all_of([words.replace("thread ", "") for words in threads])
    return " ".join(words for words in (who, verb % ("s" if len(threads) == 1 else ""), place) if words)


def all_of(words: list[str]) -> str:
    """Such as `1, 2 and 3`."""
    return "%s and %s" % (", ".join(words[:-1]), words[-1])


def short_place(event: Event, sources: Sources, depth: int = 1) -> str:
    """The line of a record, or of the caller that tells it from others, without its folders, which the rows have."""
    frames = frames_at(event, sources)[:depth]
    return os.path.basename(place_of(frames[-1]) if frames else line_at(event, sources))


def thread_words(part: Part) -> str:
    return who_words(part).partition(",")[0]


# ---- What mends it.


def mending(finding: Finding, sources: Sources, recorded: Recorded, names: Names) -> str:
    """What the recording says would mend it: of two orders the one that fewer threads have, where a thread is joined too early, or what keeps a signal's
    handler out. Empty if it says nothing."""
    if finding.handler:
        return mending_words(finding, names.key)
    if not finding.is_counted and finding.verdict is not Verdict.BY_JOIN:
        return ""
    inner = finding.between.finding if finding.between else None
    orders = (inner or finding).orders if finding.type == "circle" else []
    early = next((order for order in orders if order.end.startswith(THREAD)), None)
    if early:
        return "release %s before the thread is joined" % names.key(early.start)
    is_alone = all(names.findings_with[key] == 1 for key in finding.keys)  # else what mends one finding may make another one
    return rarer_words(orders, sources, recorded, names) if len(orders) == 2 and is_alone else ""


def threads_with(order: Order, recorded: Recorded) -> int:
    """How many threads have an order, with those that their traces stand for."""
    return sum(map(recorded.stands_for, traces_of(order))) + max(0, order.traces - len(order.sightings))


def rarer_words(orders: list[Order], sources: Sources, recorded: Recorded, names: Names) -> str:
    """Which of two orders fewer threads have."""
    rare, other = sorted(orders, key=lambda order: threads_with(order, recorded))
    few, many = threads_with(rare, recorded), threads_with(other, recorded)
    if not 0 < few < many or is_within(rare, other):
        return ""
    shown, since, at = names.beside([rare.start, rare.end]), rare.since if few == 1 else None, rare.event if few == 1 else None
    place = " (%s)" % where(since, sources) if since else ""
    is_of_callee = since and at and function_of(frames_at(since, sources)) != function_of(frames_at(at, sources))
    mend = "release it before %s" % short_place(at, sources) if is_of_callee else "take %s before it" % shown[rare.end]
    return "%s %s %s first%s, and %d the other way round: %s" % (counted(few, "thread"), "takes" if few == 1 else "take", shown[rare.start], place, many, mend)


def is_within(order: Order, other: Order) -> bool:
    """Whether the first lock of an order is one that the other order takes, so that its second lock was held before, as that of a condition's wait is."""
    return not {sighting.since for sighting in order.sightings}.isdisjoint(sighting.event for sighting in other.sightings)


# ---- All of it.


def lines_of(finding: Finding, sources: Sources, recorded: Recorded, names: Names, width: int = 0) -> list[str]:
    """A finding: its title, a row for each thread, its verdict, and what mends it."""
    rows = rows_of(finding, sources, names)
    lines = ["%d. %s" % (finding.number, title(finding, names))] + [ROW_INDENT + line for line in table(rows, (width or WIDTH) - len(ROW_INDENT))]
    return lines + [VERDICT_INDENT + line for line in lines_below(finding, sources, recorded, names)]


def lines_below(finding: Finding, sources: Sources, recorded: Recorded, names: Names) -> list[str]:
    """What stands below the rows: the verdict, and what mends the finding."""
    mend = mending(finding, sources, recorded, names)
    return verdict_lines(finding, sources, recorded) + (["to mend it: " + mend] if mend else [])


def order_words(order: Dependency, names: Names) -> str:
    """An order that findings share, such as `accounts before journal`."""
    shown = names.beside([order[0], order[2]])
    return "%s before %s" % (shown[order[0]], shown[order[2]])
