"""Where locks were made, as lists of known findings and recordings have it, and whether two such places are the same."""
from __future__ import annotations

import os
from dataclasses import dataclass, replace

from ..base.words import CALLED_FROM

TYPE_CHECKING = False  # (as in `typing`, which takes as long to import as all the rest)
if TYPE_CHECKING:
    from .places import Made
    from .sources import Sources
    from ..binaries.symbols import Frame

UP = ".."
NAMED = "named"  # the kind of a class that the program names


@dataclass(frozen=True)
class Caller:
    """A function of a place, with its file and line, and how that reads, as far as they are known."""

    function: str
    file: str
    line: str
    text: str = ""

    def is_elsewhere(self, other: Caller, is_exact: bool) -> bool:
        """Whether the other one is in another function or file, or in a line that reads otherwise. An unknown file is no known one."""
        is_same = is_same_file(self.file, other.file) if is_exact else is_same_path(self.file, other.file)
        return self.function != other.function or not is_same or self.text != other.text != "" != self.text

    @property
    def source(self) -> str:
        return "%s:%s" % (self.file, self.line) if self.line else self.file

    @property
    def words(self) -> str:
        return "%s at %s" % (self.function, self.source) if self.function else self.source


@dataclass(frozen=True)
class Place:
    """Where a lock was made: its kind, such as `static` or `made in`, and its callers, the innermost first. Only that one is known
    if an earlier version wrote the list."""

    kind: str
    callers: tuple[Caller, ...]

    def is_elsewhere(self, other: Place, is_exact: bool = False) -> bool:
        """Whether the other place is of another kind, or has another function, file or text among the callers that both have."""
        return self.kind != other.kind or any(one.is_elsewhere(another, is_exact) for one, another in zip(self.callers, other.callers))

    def has_lines_of(self, other: Place) -> bool:
        """Whether the callers that both have are in the same lines."""
        return all(one.line == another.line for one, another in zip(self.callers, other.callers))

    def with_text(self, source: str, text: str) -> Place:
        """The place with how the line of a caller reads."""
        return replace(self, callers=tuple(replace(caller, text=text) if caller.source == source else caller for caller in self.callers))

    @property
    def words(self) -> str:
        return "%s %s" % (self.kind, CALLED_FROM.join(caller.words for caller in self.callers))

    @property
    def where(self) -> str:
        """The words behind `made`."""
        return self.words.partition(" ")[2] if self.kind == "made in" else "at " + self.words


def is_same_path(one: str, other: str) -> bool:
    """Whether one path is the end of the other. What leads out of a folder says nothing."""
    first, second = ([part for part in path.split("/") if part != UP][::-1] for path in (one, other))
    return all(part == another for part, another in zip(first, second))


def is_same_file(listed: str, now: str) -> bool:
    """Whether the path of a list is that of a file now. In the current folder it is the whole path below it; elsewhere the end of
    one path may be the other one, since the list may be from another machine."""
    shown = shown_path(now)
    is_below = bool(now) and not shown.startswith(("/", UP + "/")) and not listed.startswith(("/", UP + "/"))
    return listed == shown if is_below else is_same_path(listed, now)


def shown_path(path: str) -> str:
    """A path as a list has it: from the current folder on, if that and the file have a folder in common; otherwise the whole path."""
    here = os.getcwd()
    whole = os.path.normpath(os.path.join(here, path))
    return os.path.relpath(whole, here) if whole.split("/")[1] == here.split("/")[1] else whole


# ---- Places in words.


def caller_of(words: str) -> Caller:
    """A caller from words, as `main at heap.cc:6` or `abba.c:3`. A module with an offset is a file without a line."""
    function, joint, file = words.rpartition(" at ")
    if not joint:
        function, joint, file = words.rpartition(" in ")
    path, colon, line = file.rpartition(":")
    if colon and line.isdigit():
        return Caller(function, path, line)
    return Caller(function, file.rpartition("+")[0] or file, "")


def place_of(kind: str, words: str) -> Place:
    """A place from words, as `main at heap.cc:6 < run at x.cc:1`."""
    return Place(kind, tuple(caller_of(caller) for caller in words.split(CALLED_FROM)))


# ---- Places of today.


def caller_of_frame(frame: Frame, shown: bool, text: str) -> Caller:
    if frame.path:
        return Caller(frame.function, shown_path(frame.path) if shown else frame.path, str(frame.line), text)
    return Caller(frame.function, frame.address.rpartition("+")[0] or frame.address, "")


def place_now(made: Made, sources: Sources, shown: bool = False) -> Place | None:
    """Where a class is made now. One that the program names is the same wherever that is."""
    frames = sources.frames_of_callers(made) if made.kind != NAMED else []
    texts = [sources.text_at(frame, made) if made.place.is_code else "" for frame in frames]
    callers = tuple(caller_of_frame(frame, shown, text) for frame, text in zip(frames, texts))
    return Place(made.kind, callers) if frames else None
