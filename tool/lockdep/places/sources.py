"""Where the records and the classes of findings are in the source. All are gathered first; then they are looked up at once."""
from __future__ import annotations

import os
import re
from typing import Iterable

from ..base.files import contents
from ..base.words import bytes_of, class_of_lock, is_of_library, name_in, text_of, type_of_class
from ..binaries.cplusplus import Demangler
from ..binaries.symbols import Frame, Symbols, place_words, without_wrappers
from ..program.findings import Event, Finding
from .places import Made, Places, classes_in, folders_of, key_of_record, record_lines

AROUND = 5  # how many source lines are shown above a record's line, and below it
MOST_OF_SOURCE = 1 << 23  # bytes
MOST_OF_LINE = 200  # letters
OFFSET = re.compile(r"\+0x[0-9a-f]+")  # in code, as names of places have it

# File names of sources. Debug information can name any file, and lines of other files aren't shown.
SUFFIXES = tuple(
    ".c .cc .cpp .cxx .c++ .h .hh .hpp .hxx .h++ .inc .inl .ipp .tcc .tpp .def .y .l .yy .ll .re .cu .s .m .mm .rs .go "
    ".d .f .f90 .adb .ads .pas .zig .nim .swift .pyx .py .pyw .java .kt .scala .groovy".split())


class Sources:
    """All that is known about the records and the classes that were asked for. If folders are named, only files of these are shown."""

    def __init__(self, shown: Iterable[str] | None = None) -> None:
        self.shown = None if shown is None else [os.path.join(os.path.realpath(folder), "") for folder in shown]
        self.symbols, self.demangler = Symbols(), Demangler()
        self.callers: dict[Event, list] = {}
        self.records: dict[Event, tuple[int, str]] = {}
        self.classes: dict[str, Made] = {}
        self.types: dict[str, list[Made]] = {}
        self.read_folders: dict[str, bool] = {}
        self.files: dict[str, list[str] | None] = {}

    # ---- Gathering.

    def want_events(self, events: Iterable[Event]) -> None:
        """Reads the records, and where they come from."""
        wanted: dict[str, set[int]] = {}
        for event in events:
            if event not in self.records:
                wanted.setdefault(event.file, set()).add(event.record)
        for name, records in wanted.items():
            lines, places = record_lines(contents(name) or b"", records), Places(name, records)
            for record in records:
                self.take_record(Event(name, record), lines.get(record), places)

    def take_record(self, event: Event, line: tuple[int, str] | None, places: Places) -> None:
        if line:
            self.records[event] = line
        if event not in self.callers:
            self.take_callers({event: places.callers(event.record)})

    def take_callers(self, callers: dict[Event, list]) -> None:
        """Takes where records come from, of files that may be gone."""
        self.callers.update(callers)
        for caller in (caller for several in callers.values() for caller in several):
            self.symbols.want(caller)

    def read_classes(self, folder: str) -> bool:
        """Reads where classes are made, if a recording in this folder says it. Of several folders with a class the last one
        counts."""
        if folder not in self.read_folders:
            found = classes_in(folder)
            self.read_folders[folder] = found is not None
            for made in [made for made in found or [] if not is_of_library(made.name)]:  # (those are made nowhere)
                self.take_class(made)
        return self.read_folders[folder]

    def take_class(self, made: Made) -> None:
        self.classes[made.name] = made
        self.types.setdefault(type_of_class(made.name), []).append(made)

    def want_names(self, names: Iterable[str]) -> None:
        self.want_made([made for name in dict.fromkeys(names) for made in self.made_as(name)])

    def want_made(self, several: list[Made]) -> None:
        for made in several:
            for place in made.places():
                self.symbols.want(place)
        self.want_events(made.record for made in several if made.record)

    def ask(self) -> None:
        self.symbols.ask()

    # ---- Looking up.

    def made_as(self, name: str) -> list[Made]:
        """The classes of a name, which may be that of a class, of a single lock, or of a type."""
        found = self.classes.get(name) or self.classes.get(class_of_lock(name))
        return [found] if found else [made for made in self.types.get(name, []) if self.classes.get(made.name) is made]

    def key_at(self, event: Event | None) -> str:
        """The key that a record takes; empty if it takes none, or isn't known."""
        return key_of_record(self.records[event][1]) if event in self.records else ""

    def shown_key(self, key: str) -> str:
        return self.demangler.text(key)

    def frames(self, event: Event) -> list[Frame]:
        """The functions that a record comes from, innermost first: without wrappers, if there are others."""
        return without_wrappers([frame for place in self.callers.get(event, []) for frame in self.symbols.frames(place)])

    def frames_of(self, made: Made) -> list[Frame]:
        """Where a class is made."""
        frames: list[Frame] = []
        for place in made.places():
            if not frames or not frames[0].path:
                frames = self.symbols.frames(place)
        return without_wrappers(frames)

    def frames_of_callers(self, made: Made) -> list[Frame]:
        """Where a class is made, with all callers that it is known by."""
        return self.frames(made.record) if self.callers.get(made.record) else self.frames_of(made)

    def alike(self, made: Made) -> list[Made]:
        """The other classes that the same functions make, by the names of their places."""
        functions = OFFSET.sub("", made.place_name)
        return [other for other in self.classes.values() if other is not made and other.kind == made.kind and
                OFFSET.sub("", other.place_name) == functions]

    def text_at(self, frame: Frame, made: Made) -> str:
        """How a line reads where a class is made, with single spaces; empty if that isn't known, or if the file has changed or the recording is gone since."""
        record = made.record
        if not frame.path or (record and (has_changed(frame.path, record.file) or not os.path.exists(bytes_of(record.file)))):
            return ""
        text = next((line for number, line in self.excerpt(frame) if number == frame.line), "")
        return " ".join(text.split())[:MOST_OF_LINE]

    def made_words(self, made: Made) -> str:
        """Such as `static abba.c:3`."""
        frames = self.frames_of(made)
        return "%s %s" % (made.kind, place_words(frames)) if frames else ""

    def line_of(self, event: Event) -> Frame | None:
        """The record's innermost function that has a line of the program's own."""
        return next((frame for frame in self.frames(event) if frame.path and not frame.is_wrapper), None)

    def may_be_shown(self, name: str) -> bool:
        """Whether a file looks like source, and lies where source is shown from. A link is what it leads to."""
        if "\0" in name:
            return False
        path = os.path.realpath(bytes_of(name))
        return text_of(path).lower().endswith(SUFFIXES) and (self.shown is None or text_of(path).startswith(tuple(self.shown)))

    def excerpt(self, frame: Frame) -> list[tuple[int, str]]:
        """The lines around a source line, with their numbers. Only what looks like source is shown."""
        if frame.path not in self.files:
            raw = contents(frame.path, MOST_OF_SOURCE) if self.may_be_shown(frame.path) else None
            self.files[frame.path] = None if raw is None else text_of(raw).split("\n")
        lines = self.files[frame.path]
        if not lines or frame.line > len(lines):
            return []
        first = max(1, frame.line - AROUND)
        return list(enumerate(lines[first - 1:frame.line + AROUND], first))


def has_changed(source: str, trace: str) -> bool:
    """Whether a source file was written after a trace, so that its lines may have changed."""
    try:
        return os.stat(bytes_of(source)).st_mtime > os.stat(bytes_of(trace)).st_mtime
    except OSError:
        return False


def own_keys_of(finding: Finding) -> list[str]:
    """The keys of a finding's locks, each once, without those of gates."""
    return list(dict.fromkeys(list(finding.keys) + [key for order in finding.orders for key in (order.start, order.end)]))


def keys_of(finding: Finding) -> list[str]:
    """The keys that a finding names, each once."""
    keys = own_keys_of(finding) + [gate.key for gate in finding.gates]
    if finding.between and finding.between.finding:
        keys += keys_of(finding.between.finding)
    return list(dict.fromkeys(keys))


def sources_of(findings: list[Finding], folders: Iterable[str] = (), shown: Iterable[str] | None = None, kept: dict[Event, list] | None = None,
               made: Iterable[Made] = ()) -> Sources:
    """The sources of findings, looked up. Where some records come from, and where some classes are made, may have been kept."""
    sources = Sources(shown)
    sources.take_callers(kept or {})
    for each in made:
        sources.take_class(each)
    events = list(dict.fromkeys(event for finding in findings for event in finding.events()))
    sources.want_events(events)
    for finding in findings:
        sources.take_callers(finding.judged.callers_of_ring() if finding.judged else {})
    for folder in dict.fromkeys([folder for file in dict.fromkeys(event.file for event in events) for folder in folders_of(file)] + list(folders)):
        sources.read_classes(folder)
    keys = [key for finding in findings for key in keys_of(finding)] + [sources.key_at(event) for event in events]
    sources.want_names(name_in(key) for key in dict.fromkeys(keys) if key)
    for handler in dict.fromkeys(finding.handler for finding in findings if finding.handler):
        handler.want(sources.symbols)
    sources.ask()
    return sources
