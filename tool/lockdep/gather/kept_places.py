"""The places of what was gathered that are kept in its folder, since the recordings may be deleted: for an order or a mark by types, the record of the first
recording that has it, and the callers of that record, in words. A line of the file `places` is JSON of one."""
from __future__ import annotations

import json
import os
from typing import Dict, Iterable, Tuple

from ..base.words import bytes_of, is_of_library, name_in, text_of, type_of_class
from ..binaries.symbols import PLACE, Address, Frame
from ..places.places import CLASSES, MOST_DIGITS, Made, classes_in, folders_of
from ..places.sources import OFFSET, Sources
from ..program.findings import Event
from .orders import USED, Number, check_lines, count_in, number_of_words, words_of_number

TYPE_CHECKING = False
if TYPE_CHECKING:
    from typing import Callable

Wanted = Tuple[str, ...]  # (from, kind, to) for an order, ("used" or "enabled", irq, key) for a mark
Lines = Dict[Wanted, dict]
OF_CHECKER = ("record", "takes", "turns_on", "held", "since")  # what the checker's JSON has of an occurrence, besides its file
RECORDS = ("record", "since")  # of these, what has callers
OF_CLASS = ("name", "kind", "place_name", "type")  # what is kept of where a class is made, besides its record and its callers
MARKS = ("used", "enabled")
MARK_NAMES = {"used": b"%s", "enabled": b"%ss on"}  # in the table, for a state of interrupts
MOST_KEPT = 100_000  # places of a folder
MOST_OF_PLACES = 1 << 25  # bytes of these: what is read of others in a few seconds
MOST_KEPT_CALLERS = 64


def entry_of(what: Wanted) -> bytes:
    """What the table calls an order or a mark."""
    first, second, third = map(bytes_of, what)
    return USED % (MARK_NAMES[what[0]] % second) + third if what[0] in MARKS else b"%s %s %s" % (first, second, third)


def wanted_of(entry: bytes) -> Wanted:
    """An order or a mark by types of the table; empty for another entry."""
    words = tuple(text_of(entry).split(" "))
    if words[0] == "used" and "@" not in words[-1]:
        return ("enabled", words[1][:-1], words[3]) if len(words) == 4 else ("used", words[1], words[2])
    return words if len(words) == 3 and "/" in words[2] and "@" not in words[0] + words[2] else ()


def lines_in(raw: bytes, above: Number = ()) -> Lines:
    """The lines of a file, as parts of this recording. One that isn't as it was written is a ValueError."""
    check_lines(raw, MOST_KEPT)
    try:
        return dict(line_in(line, above) for line in raw.split(b"\n")[:-1])
    except (KeyError, TypeError, AttributeError, RecursionError):
        raise ValueError("it has a line that nobody wrote")


def line_in(line: bytes, above: Number) -> tuple[Wanted, dict]:
    said = json.loads(text_of(line))
    what, number, inside = tuple(map(text_in, said["of"])), above + number_of_words(said["recording"]), text_in(said["inside"])
    callers = {str(record_in(count_in(record))): callers_in(several) for record, several in said["callers"].items()}
    classes = [class_in(each) for each in said.get("classes", [])]
    kept = {name: record_in(said[name]) if name in RECORDS else text_in(said[name]) for name in OF_CHECKER if name in said}
    if len(what) != 3 or len(callers) > len(RECORDS) or os.path.isabs(inside) or ".." in inside.split("/"):
        raise ValueError("it has a line that nobody wrote")
    return what, dict(kept, recording=words_of_number(number), inside=inside, callers=callers, classes=classes)


def text_in(value: object) -> str:
    """A text that can be written and be part of a path."""
    if not isinstance(value, str) or "\0" in value or not value.isascii() and not bytes_of(value):
        raise ValueError("it is no text")
    return value


def callers_in(several: list) -> list[str]:
    callers = list(map(text_in, several))
    if not all(map(PLACE.fullmatch, callers)):
        raise ValueError("it has a line that nobody wrote")
    return callers[:MOST_KEPT_CALLERS]


def class_in(said: dict) -> dict:
    return dict({name: text_in(said[name]) for name in OF_CLASS}, record=record_in(said["record"]), callers=callers_in(said["callers"]))


def record_in(value: object) -> int:
    """The number of a record."""
    if type(value) is not int or not 0 < value < 10 ** MOST_DIGITS:
        raise ValueError("it is no record")
    return value


def text_of_lines(lines: Lines) -> bytes:
    return b"".join(bytes_of(json.dumps({"of": list(what), **lines[what]}, sort_keys=True) + "\n") for what in sorted(lines)[:MOST_KEPT])


def text_of_file(lines: Lines) -> bytes:
    """The same as a gathered folder has it: the first ones, for which there is room."""
    text = text_of_lines(lines)
    return text if len(text) <= MOST_OF_PLACES else text[:text.rfind(b"\n", 0, MOST_OF_PLACES) + 1]


def lines_in_file(raw: bytes) -> Lines:
    """The lines of the file of a gathered folder, which is no longer than one is written."""
    if len(raw) > MOST_OF_PLACES:
        raise ValueError("it has more bytes than are written")
    return lines_in(raw)


def merged_lines(several: Iterable[Lines]) -> Lines:
    """Of what several parts have kept of one order the first recording's."""
    merged: Lines = {}
    for lines in several:
        for what, line in lines.items():
            other = merged.get(what)
            if other is None or number_of_words(line["recording"]) < number_of_words(other["recording"]):
                merged[what] = line
    return merged


class MadeAt:
    """Where the classes of a recording are made, by their names and types, and by the functions that make them."""

    def __init__(self, several: list[Made]) -> None:
        self.several = several
        self.of_names: dict[str, list[int]] = {}
        self.of_functions: dict[tuple[str, str], list[int]] = {}
        for place, made in enumerate(several):
            for name in {made.name, type_of_class(made.name)}:
                self.of_names.setdefault(name, []).append(place)
            if made.place.is_code:
                self.of_functions.setdefault(functions_of(made), []).append(place)

    def of(self, names: set[str]) -> list[Made]:
        """The classes with these names or types, and those that the same functions make."""
        own = {place for name in names for place in self.of_names.get(name, ())}
        functions = {functions_of(self.several[place]) for place in own if self.several[place].place.is_code}
        return [self.several[place] for place in sorted(own.union(*(self.of_functions[each] for each in functions)))]


class KeptPlaces:
    """Those of what was gathered, the paths of whose recordings are given by number, and what these are called that may be gone."""

    def __init__(self, lines: Lines, roots: dict[Number, str], kept_root: Callable[[Number], str]) -> None:
        self.lines, self.roots, self.kept_root = lines, roots, kept_root
        self.asked: dict[Wanted, dict] = {}
        self.made_at: dict[str, MadeAt] = {}  # by the folder

    def file(self, line: dict) -> str:
        root = self.kept_root(number_of_words(line["recording"]))
        return os.path.join(root, line["inside"]) if line["inside"] else root

    def place(self, what: Wanted) -> dict | None:
        """The occurrence, as the checker's JSON has it."""
        line = self.lines.get(what)
        self.asked.update({what: line} if line else {})
        return dict({name: line[name] for name in OF_CHECKER if name in line}, file=self.file(line)) if line else None

    def class_record(self, line: dict, said: dict) -> Event:
        return Event(os.path.join(self.kept_root(number_of_words(line["recording"])), CLASSES), said["record"])

    def callers(self) -> dict[Event, list[Address]]:
        """The callers of the occurrences that were asked for, and of what makes their classes."""
        several = [(Event(self.file(line), int(record)), callers) for line in self.asked.values() for record, callers in line["callers"].items()]
        several += [(self.class_record(line, said), said["callers"]) for line in self.asked.values() for said in line["classes"]]
        return {event: [Address(words, None) for words in callers] for event, callers in several}

    def classes(self) -> list[Made]:
        """Where the classes of these are made."""
        return [Made(said["name"], Address(said["callers"][0], None, said["kind"] != "static"), said["kind"], said["place_name"], said["type"],
                     self.class_record(line, said)) for line in self.asked.values() for said in line["classes"] if said["callers"]]

    def made_for(self, what: Wanted, file: str) -> list[Made]:
        """The classes of an order or a mark in a recording with this file, and those that the same functions make, which lists tell apart by their lines."""
        folder = os.path.dirname(file)
        if folder not in self.made_at:
            self.made_at[folder] = MadeAt([made for each in folders_of(file) for made in classes_in(each) or [] if not is_of_library(made.name)])
        return self.made_at[folder].of({name_in(key) for key in (what[0], what[2])})

    def take(self, what: Wanted, place: dict, number: Number, sources: Sources) -> None:
        """Keeps where a recording has an order or a mark."""
        callers = {str(event.record): words_of_frames(sources.frames(event)) for event in events_of([place])}
        classes = [dict(zip(OF_CLASS, (made.name, made.kind, made.place_name, made.type)), record=made.record.record, callers=made_by)
                   for made in self.made_for(what, place["file"]) for made_by in [words_of_frames(sources.frames_of_callers(made))] if made_by]
        inside = os.path.relpath(place["file"], self.roots[number]) if place["file"] != self.roots[number] else ""
        self.lines[what] = dict({name: place[name] for name in OF_CHECKER if name in place}, recording=words_of_number(number), inside=inside, callers=callers,
                                classes=classes)


def functions_of(made: Made) -> tuple[str, str]:
    return made.kind, OFFSET.sub("", made.place_name)


def words_of_frames(frames: list[Frame]) -> list[str]:
    return [words for words in map(words_of, frames) if PLACE.fullmatch(words)][:MOST_KEPT_CALLERS]


def words_of(frame: Frame) -> str:
    """A caller as a place in words. Without a known file it is that of its module, and has no line."""
    return "%s:%d %s" % (frame.path or frame.address, frame.line, frame.function)


def events_of(places: Iterable[dict]) -> list[Event]:
    return [Event(place["file"], place[name]) for place in places for name in RECORDS if name in place]
