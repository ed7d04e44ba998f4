"""What a recording has beside its traces: the callers of each record, in TRACE.places, and where its classes are made, in
`classes`; and the records themselves."""
from __future__ import annotations

import csv
import os
import re
import struct
from dataclasses import dataclass
from itertools import islice
from typing import BinaryIO

from ..base.files import MOST_OF_FILE, opened
from ..base.words import bytes_of, counted, text_of
from ..binaries.symbols import PLACE, Address
from ..program.findings import Event
from ..record.folder import OBJECTS, is_in_signals

CLASSES = "classes"  # the file of a recording that says where its classes are made
MAGIC, OF_TEXTS = b"places1\n", b"places2\n"
MOST_MODULES = 100000
MOST_OF_PATH = 4096
MOST_FRAMES = 64
MOST_PLACES = 4_000_000  # lines of places in words that are read
MOST_DIGITS = 7  # of a record's number
MOST_CLASSES = 100_000  # lines of `classes`: a trace that is accepted has at most 8,192 keys
MOST_OF_CLASS = 1 << 16  # bytes of such a line
LINE = re.compile(b"[^\r\n]+")
NO_PLACE = "-"
WITH_TYPE = 7  # columns of a class whose type is known: the last one names its place
OFFSET = re.compile("(0x)?[0-9a-fA-F]{1,16}")
PART = re.compile(r"\+0x([0-9a-f]{1,16})(#[^/]*)?$")


def file_of_places(trace: str) -> str:
    """The file with a trace's places. Those of a trace of single locks may be beside the one of classes, whose records are the
    same."""
    own, folder = trace + ".places", os.path.dirname(trace)
    if os.path.basename(folder) != OBJECTS or os.path.exists(bytes_of(own)):
        return own
    return os.path.join(os.path.dirname(folder), os.path.basename(own))


def traces_of_classes(traces: list[str]) -> list[str]:
    """The traces of classes that a recording has beside those of single locks; the same traces if it has none."""
    plain = [os.path.join(os.path.dirname(os.path.dirname(trace)), os.path.basename(trace)) for trace in traces
             if os.path.basename(os.path.dirname(trace)) == OBJECTS]
    return plain if plain and all(map(os.path.exists, plain)) else traces


def read_number(file: BinaryIO) -> int:
    number: int = struct.unpack("=I", file.read(4))[0]
    return number


def read_text(file: BinaryIO) -> str:
    return text_of(file.read(min(read_number(file), MOST_OF_PATH)))


class Places:
    """The callers of a trace's records, which a recording has beside the trace."""

    def __init__(self, trace: str, wanted: set[int] | None = None) -> None:
        self.name, self.modules, self.count, self.start, self.wanted = file_of_places(trace), [], 0, 0, wanted
        self.words: dict[int, list[Address]] = {}
        self.texts: list[list[str]] = []  # those of places in words of which each record has a number
        try:
            with opened(self.name) as file:
                if file.read(1).isdigit():
                    self.read_words(file)
                file.seek(0)
                self.read_head(file)
        except (OSError, struct.error, MemoryError):
            self.count = 0

    def read_head(self, file: BinaryIO) -> None:
        magic = file.read(len(MAGIC))
        if magic == OF_TEXTS:
            self.texts = [read_text(file).split("\t") for _ in range(min(read_number(file), MOST_PLACES))]
            self.start = file.tell()
        if magic != MAGIC:
            return
        self.modules = [read_text(file) for _ in range(min(read_number(file), MOST_MODULES))]
        self.count = min(read_number(file), MOST_FRAMES)
        self.start = file.tell()

    def read_words(self, file: BinaryIO) -> None:
        """Reads places in words: a line `RECORD FILE:LINE FUNCTION` for each caller of a record. Other lines are ignored, and so are records that nobody
        asks for."""
        file.seek(0)
        for line in islice(file, MOST_PLACES):
            number, _, place = text_of(line[:MOST_OF_PATH].rstrip(b"\n")).partition(" ")
            record = int(number) if number.isdecimal() and len(number) <= MOST_DIGITS else 0
            if record and (self.wanted is None or record in self.wanted) and PLACE.fullmatch(place):
                callers = self.words.setdefault(record, [])
                callers += [Address(place, None)] * (len(callers) < MOST_FRAMES)

    def callers(self, record: int) -> list[Address]:
        """The callers of a record, the innermost first."""
        if self.words:
            return self.words.get(record, [])
        if not (self.count or self.texts) or record < 1:
            return []
        try:
            with opened(self.name) as file:
                if self.texts:
                    file.seek(self.start + (record - 1) * 4)
                    return [Address(place, None) for place in self.texts[read_number(file)] if PLACE.fullmatch(place)]
                file.seek(self.start + (record - 1) * self.count * 8)
                words = struct.unpack("=%dQ" % self.count, file.read(8 * self.count))
        except (OSError, struct.error, IndexError):
            return []
        return [Address(self.modules[word >> 48], word & (1 << 48) - 1) for word in words if word >> 48 < len(self.modules)]


# ---- Records.


def record_lines(raw: bytes, wanted: set[int]) -> dict[int, tuple[int, str]]:
    """The wanted records of a trace that was accepted, each with its line and that line's number. Each line that isn't blank is
    a record, since no field of an accepted trace has a line end."""
    raw = raw[3:] if raw.startswith(b"\xef\xbb\xbf") else raw
    if b"\r" not in raw and b"\n\n" not in raw and raw[:1] != b"\n":  # (each line is a record)
        lines = raw.split(b"\n", max(wanted))
        return {record: (record, text_of(lines[record - 1])) for record in wanted if 0 < record <= len(lines) and lines[record - 1]}
    found, number, end = {}, 1, 0
    for record, line in enumerate(islice(LINE.finditer(raw), max(wanted)), 1):
        between = raw[end:line.start()]
        number, end = number + len(between) - between.count(b"\r\n"), line.end()
        if record in wanted:
            found[record] = number, text_of(line.group())
    return found


def key_of_record(line: str) -> str:
    """The key that a record takes; empty if it takes none."""
    try:
        fields = next(csv.reader([line]), [])
    except csv.Error:
        return ""
    return "%s/%s" % (fields[1], fields[2]) if len(fields) > 2 and fields[0] == "acq" else ""


# ---- Classes.


@dataclass(frozen=True)
class Made:
    """Where a class is made: its name, its place, of which kind it is, as `static` or `heap`, what names its place, and its type in
    full. Both are the name itself, unless the class is named by a type."""

    name: str
    place: Address
    kind: str
    place_name: str
    type: str = ""
    record: Event | None = None  # of the callers that make it, if a recording has them

    def places(self) -> list[Address]:
        """Where to look: first the variable that the lock is part of, according to the name of its place,
        VARIABLE+0xNUMBER, since variables have known lines."""
        part = PART.search(self.place_name)
        inside = int(part.group(1), 16) if part and self.kind == "static" else 0
        if self.place.offset is None or not 0 < inside < self.place.offset:
            return [self.place]
        return [Address(self.place.module, self.place.offset - inside, self.place.is_code), self.place]


def made_of(line: str, record: Event | None = None) -> Made | None:
    """A line of `classes`: name, module, offset and kind, and for a class whose type is known that type in full, how it was found, and
    the name of its place, with tabs between them. For a place in words the
    offset is a dash."""
    fields = line.split("\t")
    if len(fields) < 4 or fields[1] == NO_PLACE:
        return None
    name, module, offset, kind = fields[:4]
    place_name, type = (fields[WITH_TYPE - 1], fields[4]) if len(fields) == WITH_TYPE else (name, name)
    if offset == NO_PLACE:
        return Made(name, Address(module, None), kind, place_name, type, record)
    if not OFFSET.fullmatch(offset):
        return None
    return Made(name, Address(module, int(offset, 16), kind != "static"), kind, place_name, type, record)


def folders_of(trace: str) -> list[str]:
    """The folders that may have the classes of a trace: its own, and for a trace of single locks the recording's."""
    folder = os.path.dirname(trace)
    above = os.path.dirname(folder)
    if is_in_signals(folder):
        return [folder, os.path.dirname(above)]
    return [folder, above] if os.path.basename(folder) == OBJECTS else [folder]


def classes_in(folder: str) -> list[Made] | None:
    """The classes that a folder's recording names, or None if it has none. No more are read than a recording may have."""
    name = os.path.join(folder, CLASSES)
    try:
        with opened(name, MOST_OF_FILE) as file:
            lines = [line.rstrip(b"\n") for line in islice(iter(lambda: file.readline(MOST_OF_CLASS), b""), MOST_CLASSES)]
    except (OSError, ValueError):
        return None
    found = [made_of(text_of(line), Event(name, number)) for number, line in enumerate(lines, 1)]
    return [made for made in found if made]


def why_too_many(folder: str) -> str:
    """Why the classes of a recording aren't read: they are more, or longer, than any recorder writes; empty if they are read."""
    try:
        with opened(os.path.join(folder, CLASSES), MOST_OF_FILE) as file:
            for number, line in enumerate(iter(lambda: file.readline(MOST_OF_CLASS), b""), 1):
                if number > MOST_CLASSES:
                    return "its file %s has more than %s" % (CLASSES, counted(MOST_CLASSES, "line"))
                if len(line) == MOST_OF_CLASS:
                    return "its file %s has a line of more than %s" % (CLASSES, counted(MOST_OF_CLASS - 1, "byte"))
    except (OSError, ValueError):
        pass
    return ""
