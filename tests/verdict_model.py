#!/usr/bin/env python3
"""A model of the verdict between locks: a plain program over the definitions, which shares no code with lockdep.

It reads traces, works out their facts between single locks, between classes and between types, and decides each verdict by trying
everything. `judge` says what is wrong with an output of `lockdep explain --locks --json`, and `judge_plain` with one of `lockdep
explain --json`. `answer` and `answer_plain` write right outputs of their own, so the judge can be tested without the program:

    tests/verdict_model.py explain [--locks] [--confirmed-only] --json FILE...

The traces have to be well formed. Nothing here is fast."""
from __future__ import annotations

import csv
import json
import random
import sys
from typing import Any, Callable, Dict, FrozenSet, Iterator, List, NamedTuple, Optional, Sequence, Set, Tuple, Union

STATES = ("hardirq", "softirq")
KINDS = ("ER", "EN", "SR", "SN")
VERDICTS = ("locks", "perhaps", "unknown", "classes", "types", "nested")
MOST_TRACES = 16  # of an order that are listed
BETWEEN_LISTS = '\n],"ends":['
MOST_TOGETHER = 256
MOST_KEYS = 8192

Record = List[str]
Object = Dict[str, Any]


# ---- Names: a single lock is TYPE@PLACE#NUMBER, its class is TYPE@PLACE.

def class_of(name: str) -> str:
    """What stands before the last `#`, if anything does."""
    end = name.rfind("#")
    return name[:end] if end > 0 else name


def type_of_class(class_name: str) -> str:
    """What stands before the first `@`, if anything does."""
    end = class_name.find("@")
    return class_name[:end] if end > 0 else class_name


def type_of(name: str) -> str:
    return type_of_class(class_of(name))


def is_rest(name: str) -> bool:
    """Whether the name stands for several locks of its class, as `accounts#rest` and `accounts#rest@2` do."""
    stem, _, number = name.rpartition("#")
    return stem != "" and number.split("@")[0] == "rest"


# ---- Facts: dependencies and marks.

class Key(NamedTuple):
    """A name and a subclass. Keys compare in the report's order, since names are ASCII."""
    name: str
    sub: int

    def text(self) -> str:
        return "%s/%d" % self


class Dependency(NamedTuple):
    start: Key
    kind: str
    end: Key

    def text(self) -> str:
        return "%s %s %s" % (self.start.text(), self.kind, self.end.text())


class Mark(NamedTuple):
    """That a key was used in a state, or with it enabled: by a writer, or by a reader."""
    state: str
    use: str
    is_read: bool
    key: Key


Fact = Union[Dependency, Mark]
Rename = Callable[[str], str]


def in_report(dependency: Dependency) -> Tuple[Key, Key, int]:
    """The place of a dependency in the report's order."""
    return dependency.start, dependency.end, KINDS.index(dependency.kind)


def renamed_key(key: Key, rename: Rename) -> Key:
    """The subclass stays, whatever the name becomes."""
    return Key(rename(key.name), key.sub)


def renamed(fact: Fact, rename: Rename) -> Fact:
    if isinstance(fact, Dependency):
        return Dependency(renamed_key(fact.start, rename), fact.kind, renamed_key(fact.end, rename))
    return fact._replace(key=renamed_key(fact.key, rename))


def names_of(fact: Fact) -> List[str]:
    return [fact.start.name, fact.end.name] if isinstance(fact, Dependency) else [fact.key.name]


# ---- What a task does, record by record.

class Lock(NamedTuple):
    """A lock as it was taken: by its own key, in this mode, by this record."""
    key: Key
    mode: str
    record: int


class Frame:
    """The task's frame or that of an interrupt, with its flags and the locks that are held in it, oldest first."""

    def __init__(self, kind: str) -> None:
        self.kind = kind
        self.flags = {"hardirq": kind != "hardirq", "softirq": kind == "task"}
        self.held: List[Lock] = []


class Moment(NamedTuple):
    """A record that can give facts: it takes a lock or turns a flag on. `enabled` are the states whose interrupts can come in."""
    record: int
    frame: str
    enabled: Tuple[str, ...]
    held: Tuple[Lock, ...]
    taken: Optional[Lock]
    turned_on: str


def is_read(mode: str) -> bool:
    return mode.lstrip("t") in ("r", "rr")


def is_try(mode: str) -> bool:
    return mode.startswith("t")


def read_records(file: str) -> List[Record]:
    with open(file, newline="", encoding="ascii") as text:
        return [record for record in csv.reader(text) if record]


def enabled_in(frame: Frame) -> Tuple[str, ...]:
    """A softirq comes in only if both flags are on."""
    return tuple(state for state in STATES if frame.flags["hardirq"] and frame.flags[state])


def moments_of(records: Sequence[Record]) -> List[Moment]:
    return walked(records)[0]


def kept_after(records: Sequence[Record]) -> List[Lock]:
    """What a task holds after its trace, in all its frames, oldest first."""
    return [lock for frame in walked(records)[1] for lock in frame.held]


def walked(records: Sequence[Record]) -> Tuple[List[Moment], List[Frame]]:
    """The moments of a trace, and the frames that are open at its end. A release gives back the newest lock of exactly its key, and so
    the very lock that it names."""
    frames = [Frame("task")]
    moments = []
    for number, record in enumerate(records[1:], 2):
        word, frame = record[0], frames[-1]
        if word == "acq":
            taken = Lock(Key(record[1], int(record[2])), record[3], number)
            moments.append(Moment(number, frame.kind, enabled_in(frame), tuple(frame.held), taken, ""))
            frame.held.append(taken)
        elif word == "rel":
            release(frame, Key(record[1], int(record[2])))
        elif word == "enter":
            frames.append(Frame(record[1]))
        elif word == "leave":
            frames.pop()
        else:
            frame.flags[record[1]] = word == "on"
            if word == "on":
                moments.append(Moment(number, frame.kind, enabled_in(frame), tuple(frame.held), None, record[1]))
    return moments, frames


def release(frame: Frame, key: Key) -> None:
    """Gives back the newest lock of the key that is held in the frame."""
    newest = max(place for place, lock in enumerate(frame.held) if lock.key == key)
    del frame.held[newest]


# ---- Where facts occur.

class Occurrence(NamedTuple):
    """A moment of a trace that gives a fact, the held lock through which it does, if it is one, and the keys that writers hold round
    that lock."""
    trace: int
    moment: Moment
    held: Optional[Lock]
    inside: FrozenSet[Key]


def facts_through(moment: Moment, lock: Lock) -> List[Fact]:
    """The facts that a moment gives through a lock that is held then, by the locks' own keys."""
    if moment.taken is None:
        return [Mark(state, "enabled", is_read(lock.mode), lock.key) for state in moment.enabled]
    if is_try(moment.taken.mode):
        return []
    letters = ("S" if is_read(lock.mode) else "E") + ("R" if moment.taken.mode == "rr" else "N")
    return [Dependency(lock.key, letters, moment.taken.key)]


def facts_of_taking(moment: Moment, lock: Lock) -> List[Mark]:
    """The marks that a moment gives to the lock that it takes. A try waits for nobody, so it isn't used in a state."""
    used = [moment.frame] if moment.frame in STATES and not is_try(lock.mode) else []
    return ([Mark(state, "used", is_read(lock.mode), lock.key) for state in used]
            + [Mark(state, "enabled", is_read(lock.mode), lock.key) for state in moment.enabled])


def occurrences_in(trace: int, moments: Sequence[Moment]) -> Iterator[Tuple[Fact, Occurrence]]:
    """All facts of a trace with their occurrences, in the order of records, and at one record the newest held lock first."""
    for moment in moments:
        for place in reversed(range(len(moment.held))):
            lock = moment.held[place]
            inside = frozenset(other.key for other in moment.held[:place] if not is_read(other.mode))
            for fact in facts_through(moment, lock):
                yield fact, Occurrence(trace, moment, lock, inside)
        if moment.taken is not None:
            for mark in facts_of_taking(moment, moment.taken):
                yield mark, Occurrence(trace, moment, None, frozenset())


# ---- Walks.

Walk = Tuple[Dependency, ...]


def may_follow(letters: str, next_letters: str) -> bool:
    """A recursive reader doesn't wait for a reader."""
    return not (letters[1] == "R" and next_letters[0] == "S")


def is_strong(walk: Walk) -> bool:
    return all(one.end == other.start and may_follow(one.kind, other.kind) for one, other in zip(walk, walk[1:]))


def is_closed(walk: Walk) -> bool:
    return walk[-1].end == walk[0].start and may_follow(walk[-1].kind, walk[0].kind)


def closing(first: Dependency) -> Callable[[Dependency], bool]:
    """Whether a walk that begins with a dependency is closed if it ends with another one."""
    return lambda last: is_closed((first, last))


# ---- A level: the facts of all traces with keys renamed.

class Level:
    """The facts of all traces by one kind of names: those of single locks, classes or types. A fact that a name is left out of has no
    occurrence. `to_type` says of which type one of these names is."""

    def __init__(self, traces: Sequence[Sequence[Tuple[Fact, Occurrence]]], rename: Rename, to_type: Rename,
                 is_left_out: Callable[[str], bool] = lambda name: False) -> None:
        self.rename = rename
        self.to_type = to_type
        self.occurrences: Dict[Fact, List[Occurrence]] = {}
        for trace in traces:
            for fact, occurrence in trace:
                if not any(is_left_out(name) for name in names_of(fact)):
                    self.occurrences.setdefault(renamed(fact, rename), []).append(occurrence)
        self.dependencies = sorted((fact for fact in self.occurrences if isinstance(fact, Dependency)), key=in_report)
        self.marks = [fact for fact in self.occurrences if isinstance(fact, Mark)]
        self.from_key: Dict[Key, List[Dependency]] = {}
        for dependency in self.dependencies:
            self.from_key.setdefault(dependency.start, []).append(dependency)
        self.circles: Dict[Dependency, Optional[Walk]] = {}
        self.settled: Optional[bool] = None

    def is_settled(self) -> bool:
        if self.settled is None:
            self.settled = not is_tangled(self)
        return self.settled

    def keys_marked(self, state: str, use: str) -> List[Key]:
        return sorted({mark.key for mark in self.marks if (mark.state, mark.use) == (state, use)})

    def links(self, state: str, enabled: Key, used: Key) -> List[str]:
        """The interrupt links of a state from a key that is used with it enabled to one that is used in it, as their two letters."""
        return [("S" if holds_read else "E") + ("R" if wants_read else "N")
                for holds_read in (False, True) for wants_read in (False, True)
                if Mark(state, "enabled", holds_read, enabled) in self.occurrences
                and Mark(state, "used", wants_read, used) in self.occurrences]

    def after(self, dependency: Dependency) -> List[Dependency]:
        return [other for other in self.from_key.get(dependency.end, []) if may_follow(dependency.kind, other.kind)]

    def circle_from(self, first: Dependency) -> Optional[Walk]:
        """A closed strong walk that begins with a dependency, such that none that does is shorter."""
        if first not in self.circles:
            self.circles[first] = shortest_walk(self, [first], closing(first))
        return self.circles[first]

    def on_circles(self) -> List[Dependency]:
        return [dependency for dependency in self.dependencies if self.circle_from(dependency)]


def shortest_walk(level: Level, firsts: Sequence[Dependency], is_end: Callable[[Dependency], bool],
                  rng: Optional[random.Random] = None) -> Optional[Walk]:
    """A shortest strong walk that begins with one of some dependencies and ends with one that is an end, if there is one. What may
    follow a walk depends on its last dependency alone, so no dependency has to be gone through twice. With an `rng` one of several is
    drawn."""
    walks = [(first,) for first in firsts]
    seen = set(firsts)
    while walks:
        if rng:
            rng.shuffle(walks)
        for walk in walks:
            if is_end(walk[-1]):
                return walk
        longer = []
        for walk in walks:
            for dependency in level.after(walk[-1]):
                if dependency not in seen:
                    seen.add(dependency)
                    longer.append(walk + (dependency,))
        walks = longer
    return None


def inversion_walk(level: Level, used: Key, enabled: Key, link: str, rng: Optional[random.Random] = None) -> Optional[Walk]:
    """A shortest strong walk from the key that is used in a state to the one that is used with it enabled, which a link closes."""
    firsts = [dependency for dependency in level.from_key.get(used, []) if may_follow(link, dependency.kind)]
    return shortest_walk(level, firsts, lambda last: last.end == enabled and may_follow(last.kind, link), rng)


def is_double_by(link: str) -> bool:
    """Whether an interrupt link from a key to itself may follow itself."""
    return may_follow(link, link)


def is_tangled(level: Level) -> bool:
    """Whether so many keys lead to each other, by dependencies and links of whatever letters, that the level isn't settled."""
    arrows: Dict[Key, Set[Key]] = {}
    for dependency in level.dependencies:
        arrows.setdefault(dependency.start, set()).add(dependency.end)
    for state in STATES:
        used = level.keys_marked(state, "used")
        for enabled in level.keys_marked(state, "enabled"):
            arrows.setdefault(enabled, set()).update(used)
    if len(arrows) <= MOST_TOGETHER:
        return False
    reached = {key: reached_from(key, arrows) for key in arrows}
    return any(sum(1 for other in reached[key] if key in reached.get(other, ())) > MOST_TOGETHER for key in arrows)


def reached_from(key: Key, arrows: Dict[Key, Set[Key]]) -> Set[Key]:
    """The keys that arrows lead to from a key, by one or more of them."""
    found: Set[Key] = set()
    new = [key]
    while new:
        for other in arrows.get(new.pop(), ()):
            if other not in found:
                found.add(other)
                new.append(other)
    return found


# ---- Findings.

class Finding(NamedTuple):
    """What an output chooses for a finding. Of an inversion the first key is used in the state, the second with it enabled. The link
    is that of a double or an inversion."""
    type: str
    state: str
    keys: Tuple[Key, ...]
    walk: Walk
    link: str


def circle_of(walk: Walk) -> Finding:
    return Finding("circle", "", tuple(dependency.start for dependency in walk), walk, "")


def doubles_of(level: Level, rng: Optional[random.Random] = None) -> List[Finding]:
    """The doubles in the report's order, each with a link that makes it one."""
    found = []
    for state in STATES:
        for key in level.keys_marked(state, "used"):
            links = [link for link in level.links(state, key, key) if is_double_by(link)]
            if links:
                found.append(Finding("double", state, (key,), (), rng.choice(links) if rng else links[0]))
    return found


def inversions_of(level: Level, rng: Optional[random.Random] = None) -> List[Finding]:
    """The inversions in the report's order, each with a shortest walk."""
    found = []
    for state in STATES:
        for used in level.keys_marked(state, "used"):
            for enabled in level.keys_marked(state, "enabled"):
                walks = [(walk, link) for link in level.links(state, enabled, used)
                         for walk in [inversion_walk(level, used, enabled, link, rng)] if walk]
                if rng:
                    rng.shuffle(walks)
                if walks:
                    walk, link = min(walks, key=lambda found: len(found[0]))
                    found.append(Finding("inversion", state, (used, enabled), walk, link))
    return found


def circles_of(level: Level, rng: Optional[random.Random] = None) -> List[Finding]:
    """The circles that are reported: each dependency on one that is in no earlier one begins one, a shortest."""
    found: List[Finding] = []
    for first in level.on_circles():
        if not any(first in circle.walk for circle in found):
            walk = shortest_walk(level, [first], closing(first), rng)
            assert walk
            found.append(circle_of(walk))
    return found


def findings_of(level: Level, rng: Optional[random.Random] = None) -> List[Finding]:
    """What `explain` tells, in its order."""
    return circles_of(level, rng) + doubles_of(level, rng) + inversions_of(level, rng)


# ---- Verdicts.

class Levels(NamedTuple):
    """The facts between single locks without the names that stand for several, all those between single locks, those between
    classes, and those between types; and what each trace holds at its end."""
    locks: Level
    perhaps: Level
    classes: Level
    types: Level
    ends: List[List[Lock]]


def levels_of(traces: Sequence[Sequence[Record]]) -> Levels:
    facts = [list(occurrences_in(number, moments_of(records))) for number, records in enumerate(traces)]
    return Levels(
        locks=Level(facts, lambda name: name, type_of, is_rest),
        perhaps=Level(facts, lambda name: name, type_of),
        classes=Level(facts, class_of, type_of_class),
        types=Level(facts, type_of, lambda name: name),
        ends=[kept_after(records) for records in traces])


def witnesses(level: Level, finding: Finding, rng: Optional[random.Random] = None) -> List[Finding]:
    """What of a level makes a finding between types: the circles from dependencies that are members of its walk by their types, or
    the doubles or inversions that are it by their types."""
    if finding.type == "circle":
        return [circle_of(walk) for walk in map(level.circle_from, level.dependencies)
                if walk and renamed(walk[0], level.to_type) in finding.walk]
    found = doubles_of(level, rng) if finding.type == "double" else inversions_of(level, rng)
    return [other for other in found
            if other.state == finding.state and tuple(renamed_key(key, level.to_type) for key in other.keys) == finding.keys]


def is_one_nested(finding: Finding) -> bool:
    """Whether a finding is one type nested in itself: each dependency leads from a key to the same key."""
    return finding.type == "circle" and all(dependency.start == dependency.end for dependency in finding.walk)


def verdict_of(levels: Levels, finding: Finding) -> str:
    """The levels are asked in turn. One that isn't settled can't be asked, and so ends it."""
    for verdict in ("locks", "perhaps", "classes"):
        level = getattr(levels, verdict)
        if not level.is_settled():
            return "unknown"
        if witnesses(level, finding):
            return verdict
    return "nested" if is_one_nested(finding) else "types"


def rank(verdict: str) -> int:
    """The place of a verdict among findings. Those with one verdict are in the order of `explain`."""
    return VERDICTS.index(verdict)


def status_of(verdicts: Sequence[str]) -> int:
    return int(any(verdict != "nested" for verdict in verdicts))


def status_confirmed(verdicts: Sequence[str]) -> int:
    return int(any(verdict in ("locks", "unknown") for verdict in verdicts))


# ---- Notes.

class Gate(NamedTuple):
    key: Key
    guarded: Walk


def gates_of(level: Level, walk: Walk) -> List[Gate]:
    """The keys of which a lock is held round two dependencies of a walk or more, wherever they occur, by a writer and since before the
    dependency's held lock. A gate goes by the level's names too, and may be a name that stands for several locks."""
    inside = {dependency: frozenset.intersection(*(
        frozenset(renamed_key(key, level.rename) for key in occurrence.inside)
        for occurrence in level.occurrences[dependency])) for dependency in walk}
    gates = [Gate(key, tuple(dependency for dependency in walk if key in inside[dependency]))
             for key in sorted(frozenset().union(*inside.values()))]
    return [gate for gate in gates if len(gate.guarded) >= 2]


def only_trace(level: Level, walk: Walk) -> Optional[int]:
    """The trace that has all occurrences of all dependencies of a walk, if one has."""
    traces = {occurrence.trace for dependency in walk for occurrence in level.occurrences[dependency]}
    return traces.pop() if len(traces) == 1 else None


# ---- What an output says of a finding, as objects of JSON.

def object_of_fact(level: Level, files: Sequence[str], fact: Fact) -> Object:
    """The first occurrence of a fact."""
    first = level.occurrences[fact][0]
    said: Object = {"file": files[first.trace], "record": first.moment.record}
    if first.moment.taken is not None:
        said["takes"] = first.moment.taken.mode
    else:
        said["turns_on"] = first.moment.turned_on
    if first.held is not None:
        said.update(held=first.held.mode, since=first.held.record)
    return said


def object_of_dependency(dependency: Dependency) -> Object:
    return {"from": dependency.start.text(), "kind": dependency.kind, "to": dependency.end.text()}


def traces_of(level: Level, files: Sequence[str], fact: Fact) -> Object:
    """How many traces have a fact, and the first of them, each with its first occurrence."""
    firsts: Dict[int, Occurrence] = {}
    for occurrence in level.occurrences[fact]:
        firsts.setdefault(occurrence.trace, occurrence)
    return {"count": len(firsts), "first": [{"file": files[trace], "record": first.moment.record, **since(first)}
                                            for trace, first in sorted(firsts.items())[:MOST_TRACES]]}


def since(occurrence: Occurrence) -> Object:
    return {} if occurrence.held is None else {"since": occurrence.held.record}


def object_of_order(level: Level, files: Sequence[str], dependency: Dependency) -> Object:
    return {**object_of_dependency(dependency), **object_of_fact(level, files, dependency), "traces": traces_of(level, files, dependency)}


def object_of_end(file: str, kept: Sequence[Lock]) -> Object:
    return {"file": file, "holds": [{"key": lock.key.text(), "mode": lock.mode, "record": lock.record} for lock in kept]}


def ends_of(levels: Levels, files: Sequence[str]) -> List[Object]:
    """What the traces hold at their end that hold something there."""
    return [object_of_end(file, kept) for file, kept in zip(files, levels.ends) if kept]


def text_of_gate(gate: Gate) -> str:
    return "always inside %s: %s" % (gate.key.text(), ", ".join(dependency.text() for dependency in gate.guarded))


def object_of_gate(gate: Gate) -> Object:
    return {"gate": gate.key.text(), "orders": [object_of_dependency(dependency) for dependency in gate.guarded]}


def notes_of(level: Level, files: Sequence[str], finding: Finding) -> Object:
    """The members of a circle or an inversion that speak against it: its notes in words, and then as objects."""
    gates = gates_of(level, finding.walk)
    only = only_trace(level, finding.walk) if finding.type == "circle" else None
    words = [text_of_gate(gate) for gate in gates] + ([] if only is None else ["only in " + files[only]])
    said: Object = {"notes": words, "gates": [object_of_gate(gate) for gate in gates]}
    if only is not None:
        said["only"] = files[only]
    return said


def lines_of(finding: Finding) -> List[str]:
    if finding.type == "circle":
        return ["circle " + dependency.text() for dependency in finding.walk]
    return [" ".join([finding.type, finding.state, *(key.text() for key in finding.keys)])]


def marks_of(finding: Finding) -> Tuple[Mark, Mark]:
    """The marks that the link of a double or an inversion stands for: that of use in the state, and that of use with it enabled."""
    return (Mark(finding.state, "used", finding.link[1] == "R", finding.keys[0]),
            Mark(finding.state, "enabled", finding.link[0] == "S", finding.keys[-1]))


def object_of(level: Level, files: Sequence[str], finding: Finding) -> Object:
    """All that is said of a finding by a level's names, but for its verdict."""
    said: Object = {"type": finding.type}
    if finding.type != "circle":
        said["irq"] = finding.state
    if finding.type == "double":
        said["key"] = finding.keys[0].text()
    else:
        said["keys"] = [key.text() for key in finding.keys]
    said["lines"] = lines_of(finding)
    if finding.type != "double":
        said["orders"] = [object_of_order(level, files, dependency) for dependency in finding.walk]
    if finding.type != "circle":
        said["used"], said["enabled"] = (object_of_fact(level, files, mark) for mark in marks_of(finding))
    if finding.type != "double":
        said.update(notes_of(level, files, finding))
    return said


def json_of(value: Any) -> str:
    return json.dumps(value, separators=(",", ":"), ensure_ascii=False)


def head_of(verdicts: Sequence[str]) -> str:
    counts = {verdict: sum(1 for other in verdicts if other == verdict) for verdict in VERDICTS}
    return '{"lockdep":3,"counts":%s,"findings":[' % json_of(counts)


def text_of(head: str, *lists: Sequence[Object]) -> str:
    """An output: one line for each finding, between the first and the last, and then in the same way for each end, if it has ends."""
    texts = ["".join(["\n", ",\n".join(map(json_of, objects))]) if objects else "" for objects in lists]
    return head + BETWEEN_LISTS.join(texts) + "\n]}\n"


def plainly(said: Object) -> Object:
    """A finding as version 1 of the format has it, with notes in words alone, and orders without their traces."""
    plain = {name: value for name, value in said.items() if name not in ("gates", "only")}
    if "orders" in plain:
        plain["orders"] = [{name: value for name, value in order.items() if name != "traces"} for order in plain["orders"]]
    return plain


# ---- A right output.

class Answer(NamedTuple):
    text: str
    status: int
    status_confirmed: int


def between_of(levels: Levels, files: Sequence[str], finding: Finding, rng: Optional[random.Random]) -> Object:
    verdict = verdict_of(levels, finding)
    if verdict not in ("locks", "perhaps"):
        return {"kind": verdict}
    level = getattr(levels, verdict)
    choices = witnesses(level, finding, rng)
    nested = rng.choice(choices) if rng else choices[0]
    return {"kind": verdict, "finding": object_of(level, files, nested)}


def answer(levels: Levels, files: Sequence[str], rng: Optional[random.Random] = None) -> Answer:
    """A right output of `explain --locks --json`. With an `rng`, whatever may be chosen is chosen by it."""
    said = []
    for finding in findings_of(levels.types, rng):
        between = between_of(levels, files, finding, rng)
        said.append(dict(object_of(levels.types, files, finding), between=between))
    said.sort(key=lambda one: rank(one["between"]["kind"]))
    verdicts = [one["between"]["kind"] for one in said]
    return Answer(text_of(head_of(verdicts), said, ends_of(levels, files)), status_of(verdicts), status_confirmed(verdicts))


def answer_plain(level: Level, files: Sequence[str]) -> Answer:
    """A right output of `explain --json`, by the names of a level."""
    said = [plainly(object_of(level, files, finding)) for finding in findings_of(level)]
    return Answer(text_of('{"lockdep":1,"findings":[', said), int(said != []), int(said != []))


# ---- The judge. It takes what an output chooses, decides whether that may be chosen, and says all the rest by itself.

class Malformed(ValueError):
    """An output that doesn't have the format's shape."""


class Told(NamedTuple):
    """What an output tells of a finding: its own line, what it chooses, and its verdict with the nested finding's choice."""
    line: str
    said: Object
    finding: Finding
    verdict: str
    nested: Optional[Finding]


def read_key(text: str) -> Key:
    name, _, sub = text.rpartition("/")
    return Key(name, int(sub))


def read_finding(said: Object) -> Finding:
    """What the object of a finding chooses. The link isn't written; it shows in the marks."""
    if said["type"] not in ("circle", "double", "inversion"):
        raise Malformed("a finding of type %r" % said["type"])
    walk = tuple(Dependency(read_key(order["from"]), str(order["kind"]), read_key(order["to"])) for order in said.get("orders", ()))
    if said["type"] == "circle":
        return circle_of(walk)
    keys = (said["key"],) if said["type"] == "double" else said["keys"]
    if len(keys) != (1 if said["type"] == "double" else 2):
        raise Malformed("a finding with %d keys" % len(keys))
    return Finding(said["type"], said["irq"], tuple(read_key(key) for key in keys), walk, "")


def read_line(line: str, has_verdict: bool) -> Told:
    said = json.loads(line)
    if not has_verdict:
        return Told(line, said, read_finding(said), "", None)
    between = said["between"]
    nested = read_finding(between["finding"]) if "finding" in between else None
    return Told(line, said, read_finding(said), between["kind"], nested)


def items_of(lines: Sequence[str]) -> List[str]:
    """The items of a list of which each has a line of its own."""
    for line in lines[:-1]:
        if not line.endswith(","):
            raise Malformed("no comma after %s" % line)
    return [line[:-1] for line in lines[:-1]] + list(lines[-1:])


def read_output(text: str, has_verdict: bool) -> Tuple[str, List[Told], List[str]]:
    """The first line of an output, its findings, and the lines of its ends, if it has any. What has another shape is malformed."""
    head, *lines = text.split("\n")
    if lines[-2:] != ["]}", ""]:
        raise Malformed("the end is %r" % text[-20:])
    lines = lines[:-2]
    between = BETWEEN_LISTS.strip("\n")
    if has_verdict and lines.count(between) != 1:
        raise Malformed("no list of ends, or several")
    place = lines.index(between) if has_verdict else len(lines)
    try:
        json.loads(text)
        return head, [read_line(line, has_verdict) for line in items_of(lines[:place])], items_of(lines[place + 1:])
    except (AttributeError, IndexError, KeyError, TypeError, ValueError) as fault:
        raise Malformed("%s: %s" % (type(fault).__name__, fault)) from fault


def faults_of_circle(level: Level, walk: Walk) -> List[str]:
    if not walk:
        return ["the circle has no order"]
    if any(dependency not in level.occurrences for dependency in walk):
        return ["the circle has an order that no trace has"]
    if not is_strong(walk) or not is_closed(walk):
        return ["the circle isn't a closed strong walk"]
    shortest = level.circle_from(walk[0])
    assert shortest
    return ["the circle isn't a shortest one from its first order"] if len(walk) > len(shortest) else []


def fitting_links(level: Level, finding: Finding) -> List[str]:
    """The links that make the keys, with the walk that was chosen, a double or an inversion."""
    links = level.links(finding.state, finding.keys[-1], finding.keys[0])
    if finding.type == "double":
        return [link for link in links if is_double_by(link)]
    return [link for link in links if may_follow(link, finding.walk[0].kind) and may_follow(finding.walk[-1].kind, link)]


def faults_of_inversion(level: Level, finding: Finding) -> List[str]:
    if not finding.walk or any(dependency not in level.occurrences for dependency in finding.walk):
        return ["the inversion has no order, or one that no trace has"]
    if not is_strong(finding.walk) or (finding.walk[0].start, finding.walk[-1].end) != finding.keys:
        return ["the inversion's orders are no strong walk between its keys"]
    lengths = [len(walk) for link in level.links(finding.state, finding.keys[1], finding.keys[0])
               for walk in [inversion_walk(level, *finding.keys, link)] if walk]
    return ["the inversion's walk isn't a shortest one"] if lengths and len(finding.walk) > min(lengths) else []


def faults_of_choice(level: Level, finding: Finding) -> List[str]:
    """Why a finding can't be one of this level, or may not be told by this walk."""
    if finding.type == "circle":
        return faults_of_circle(level, finding.walk)
    faults = faults_of_inversion(level, finding) if finding.type == "inversion" else []
    return faults or ([] if fitting_links(level, finding) else ["the keys are no %s" % finding.type])


def object_of_choice(level: Level, files: Sequence[str], finding: Finding, said: Object) -> Object:
    """What has to be said of a finding that may be chosen: with the link that shows in what is said, if that fits."""
    links = fitting_links(level, finding) if finding.type != "circle" else [""]
    objects = [object_of(level, files, finding._replace(link=link)) for link in links]
    fitting = [one for one in objects if all(one.get(mark) == said.get(mark) for mark in ("used", "enabled"))]
    return (fitting or objects)[0]


def compare(wanted: str, found: str) -> List[str]:
    if wanted == found:
        return []
    place = next((place for place, (one, other) in enumerate(zip(wanted, found)) if one != other), min(len(wanted), len(found)))
    start = max(0, place - 60)
    return ["says ..%s.. and not ..%s.." % (found[start:place + 60], wanted[start:place + 60])]


def faults_of_nested(level: Level, told: Told) -> List[str]:
    """Why the nested finding can't be one that the finding was seen by."""
    if told.nested is None:
        return ["the nested finding is missing"]
    faults = faults_of_choice(level, told.nested)
    if faults:
        return ["nested: " + fault for fault in faults]
    one, other = told.nested, told.finding
    if one.type == "circle" == other.type:
        is_of = renamed(one.walk[0], level.to_type) in other.walk
    else:
        is_of = ((one.type, one.state) == (other.type, other.state)
                 and tuple(renamed_key(key, level.to_type) for key in one.keys) == other.keys)
    return [] if is_of else ["the nested finding isn't one of this finding"]


def faults_of_told(levels: Levels, files: Sequence[str], told: Told) -> List[str]:
    """What is wrong with a finding and its verdict."""
    faults = faults_of_choice(levels.types, told.finding)
    if faults:
        return faults
    verdict = verdict_of(levels, told.finding)
    if told.verdict != verdict:
        return ["the verdict is %r and not %r" % (told.verdict, verdict)]
    between: Object = {"kind": verdict}
    if verdict in ("locks", "perhaps"):
        level = getattr(levels, verdict)
        faults = faults_of_nested(level, told)
        if faults:
            return faults
        assert told.nested
        between["finding"] = object_of_choice(level, files, told.nested, told.said["between"]["finding"])
    wanted = object_of_choice(levels.types, files, told.finding, told.said)
    return compare(json_of(dict(wanted, between=between)), told.line)


def faults_of_circles(level: Level, circles: Sequence[Finding]) -> List[str]:
    """What is wrong with the circles that are reported, in the order of `explain`: each dependency on a circle that is in no earlier
    one has to begin one, and no other may."""
    wanted: List[Dependency] = []
    found = {circle.walk[0]: circle.walk for circle in circles}
    covered: Set[Dependency] = set()
    for dependency in level.on_circles():
        if dependency not in covered:
            wanted.append(dependency)
            covered.update(found.get(dependency, ()))
    firsts = [circle.walk[0] for circle in circles]
    return [] if firsts == wanted else ["circles begin with %s and not with %s" % (
        [one.text() for one in firsts], [one.text() for one in wanted])]


def in_explain(finding: Finding) -> Any:
    """The place of a finding in the order of `explain`."""
    if finding.type == "circle":
        return 0, in_report(finding.walk[0])
    return 1 + (finding.type == "inversion"), STATES.index(finding.state), finding.keys


def faults_of_list(level: Level, findings: Sequence[Finding]) -> List[str]:
    """What is missing among the findings, or there without a reason, or twice. They are in the order of `explain`."""
    faults = faults_of_circles(level, [finding for finding in findings if finding.type == "circle"])
    for kind, others in (("double", doubles_of(level)), ("inversion", inversions_of(level))):
        wanted = [(one.state, one.keys) for one in others]
        found = [(one.state, one.keys) for one in findings if one.type == kind]
        if wanted != found:
            faults.append("%ss are %s and not %s" % (kind, found, wanted))
    return faults


def judge(levels: Levels, files: Sequence[str], output: Answer) -> List[str]:
    """What is wrong with an output of `explain --locks --json`, and with its statuses, without and with `--confirmed-only`."""
    try:
        head, told, ends = read_output(output.text, True)
    except Malformed as fault:
        return ["malformed: %s" % fault]
    faults = ["finding %d: %s" % (number, fault) for number, one in enumerate(told, 1) for fault in faults_of_told(levels, files, one)]
    if faults:
        return faults
    in_turn = sorted(told, key=lambda one: in_explain(one.finding))
    faults = faults_of_list(levels.types, [one.finding for one in in_turn])
    if told != sorted(in_turn, key=lambda one: rank(one.verdict)):
        faults.append("the order of findings")
    verdicts = [one.verdict for one in told]
    faults += ["the first line: " + fault for fault in compare(head_of(verdicts), head)]
    faults += ["the ends: " + fault for fault in compare("\n".join(map(json_of, ends_of(levels, files))), "\n".join(ends))]
    for what, wanted, found in (("the status", status_of(verdicts), output.status),
                                ("the status of --confirmed-only", status_confirmed(verdicts), output.status_confirmed)):
        if wanted != found:
            faults.append("%s is %d and not %d" % (what, found, wanted))
    return faults


def judge_plain(level: Level, files: Sequence[str], text: str, status: int) -> List[str]:
    """What is wrong with an output of `explain --json`, by the names of a level."""
    try:
        head, told, _ = read_output(text, False)
    except Malformed as fault:
        return ["malformed: %s" % fault]
    faults = compare('{"lockdep":1,"findings":[', head)
    for one in told:
        faults += faults_of_choice(level, one.finding)
    if faults:
        return faults
    for one in told:
        faults += compare(json_of(plainly(object_of_choice(level, files, one.finding, one.said))), one.line)
    findings = [one.finding for one in told]
    if findings != sorted(findings, key=in_explain):
        faults.append("the order of findings")
    return faults + faults_of_list(level, findings) + ([] if status == int(told != []) else ["the status is %d" % status])


# ---- The model in the place of the program, to try the tests themselves.

def refusal_of(files: Sequence[str], traces: Sequence[Sequence[Record]]) -> str:
    """The record at which there are too many keys, if there is one."""
    keys: Set[Tuple[str, ...]] = set()
    for file, records in zip(files, traces):
        for number, record in enumerate(records, 1):
            if record[0] in ("acq", "rel"):
                keys.add(tuple(record[1:3]))
            if len(keys) > MOST_KEYS:
                return "%s: record %d: T6 TooManyKeys" % (file, number)
    return ""


def main(words: Sequence[str]) -> int:
    """Answers `explain --json FILE...` and `explain --locks --json FILE...`, with or without `--confirmed-only` and `--workers=N`."""
    files = [word for word in words[1:] if not word.startswith("--")]
    traces = [read_records(file) for file in files]
    levels = levels_of(traces)
    refusal = refusal_of(files, traces) or ("" if levels.types.is_settled() else "M1 TooTangled")
    if refusal:
        print("lockdep: " + refusal, file=sys.stderr)
        return 2
    said = answer(levels, files) if "--locks" in words else answer_plain(levels.perhaps, files)
    sys.stdout.write(said.text)
    return said.status_confirmed if "--confirmed-only" in words else said.status


if __name__ == "__main__":
    sys.exit(main(sys.argv[1:]))
