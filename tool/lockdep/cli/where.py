"""`lockdep where`: puts source lines under the records and classes of a text on standard input.

Under a line with `FILE: record N`, and each later ` record N` of the same line, comes the place of that record; under one with
names of classes where they are made, once in a line and the indented lines under it."""
from __future__ import annotations

import os
import re
import sys

from ..base.files import need_output, writing
from ..base.saying import Refusal
from ..base.words import text_of, visible
from ..binaries.symbols import has_addr2line
from ..places.places import folders_of
from ..places.sources import Sources
from ..program.findings import Event
from ..record.folder import DEFAULT_FOLDERS, OBJECTS
from ..say.explanation import Annotator
from ..say.lines import INDENT, Item
from ..say.terminal import Writer, text_stream
from .options import no_option

RECORD = re.compile(r"record (\d+)")
KEY = re.compile(r"(.+)/[0-7]$")
WORDS = re.compile(r"record \d+|[^ ]+")
FOUND = re.compile(r"findings (?!0$)|clean no$")


class Reader:
    """Reads a text: which records and classes each line names."""

    def __init__(self, sources: Sources, given: str) -> None:
        self.sources, self.given = sources, given
        self.is_trace_known: dict[str, bool] = {}

    def is_trace(self, name: str) -> bool:
        """Whether there is a trace of this name, or places of one."""
        if name not in self.is_trace_known:
            self.is_trace_known[name] = os.path.exists(name + ".places") or os.path.exists(name)
        return self.is_trace_known[name]

    def file_before(self, before: str) -> str:
        """The file's name that ends here, which may have spaces: the longest that there is. If there is none, the last word is
        looked for in the given folder: the text may come from somewhere else."""
        bare = before.lstrip(" ")
        starts = [0] + [match.end() for match in re.finditer(" ", bare)]
        found = next((bare[start:] for start in starts if start < len(bare) and self.is_trace(bare[start:])), None)
        if found is not None:
            return found
        name = bare.rpartition(" ")[2]
        inside = OBJECTS if os.path.basename(os.path.dirname(name)) == OBJECTS else ""
        there = os.path.join(self.given, inside, os.path.basename(name))
        return there if self.is_trace(there) else name

    def items_of(self, line: str) -> tuple[Item, ...]:
        """The records and the classes that a line names, in turn."""
        items: list[Item] = []
        file = ""
        for match in WORDS.finditer(line):
            word = match.group()
            record = RECORD.fullmatch(word)
            if record and file:
                items.append(Event(file, int(record.group(1))))
            elif word.endswith(":") and RECORD.match(line[match.end():].lstrip(" ")):
                file = self.file_before(line[:match.end() - 1])
                for folder in folders_of(file):
                    self.sources.read_classes(folder or ".")
            elif not record:
                key = KEY.fullmatch(word.rstrip(":,"))
                items += [key.group(1)] if key else []
        return tuple(items)


def wanted(lines: list[str], reader: Reader) -> list[tuple[str, tuple[Item, ...]]]:
    """The lines with what they name, all of which is looked up."""
    read = [(line, reader.items_of(line)) for line in lines]
    items = [item for _, named in read for item in named]
    reader.sources.want_events(item for item in items if isinstance(item, Event))
    reader.sources.want_names(item for item in items if isinstance(item, str))
    reader.sources.ask()
    return read


def notes_under(lines: list[str], place: int) -> set[str]:
    """What stands under a line already, if the text has sources."""
    indent = len(lines[place]) - len(lines[place].lstrip(" ")) + INDENT
    notes = set()
    for line in lines[place + 1:]:
        bare = line.lstrip(" ")
        if len(line) - len(bare) != indent:
            break
        notes.add(bare)
    return notes


def write_text(read: list[tuple[str, tuple[Item, ...]]], sources: Sources) -> None:
    """Writes the text. A line that isn't indented begins a block."""
    stream = text_stream(sys.stdout.fileno())
    writer, annotator = Writer(stream), Annotator(sources)
    lines = [sources.demangler.text(line) for line, _ in read]
    for place, (line, items) in enumerate(read):
        if not line.startswith(" "):
            annotator.begin_block()
        notes = annotator.under(items)
        written = notes_under(lines, place) if notes else set()
        writer.line(lines[place], [note for note in notes if note not in written])
    stream.flush()


def folder_of(words: list[str], sources: Sources) -> str:
    """The recording: the one that is named, or one of those that a command makes by default."""
    if len(words) > 1:
        raise Refusal("one folder, and not %d; `where --help` says how to call this" % len(words))
    if not words:
        return next((folder for folder in DEFAULT_FOLDERS if sources.read_classes(folder)), DEFAULT_FOLDERS[0])
    if words[0].startswith("-") and not os.path.isdir(words[0]):
        raise Refusal("there is no folder %s, and %s" % (visible(words[0]), no_option("where", words[0], [])))
    if not sources.read_classes(words[0]):
        raise Refusal("%s has no recording" % visible(words[0]))
    return words[0]


def main(words: list[str]) -> int:
    need_output()
    sources = Sources()
    given = folder_of(words, sources)
    lines = text_of(sys.stdin.buffer.read()).split("\n")
    lines = lines[:-1] if lines[-1] == "" else lines
    if not lines:
        raise Refusal("there is no text: was what should write it refused?")
    read = wanted(lines, Reader(sources, given))
    if sources.symbols.is_asked and not has_addr2line():
        sys.stderr.write("where: addr2line isn't there, so places are modules and offsets; it is a part of binutils\n")
    if not any(sources.read_folders.values()):
        write_text(read, sources)
        raise Refusal("there is no recording: no folder was given, `%s` has none, and the text names no trace of one" % given)
    with writing():
        write_text(read, sources)
    return 1 if any(FOUND.match(line) for line in lines) else 0
