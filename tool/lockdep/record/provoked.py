"""What `lockdep provoke` made happen: the file `provoked.json` of a recording, and where the threads in it stood still, in words."""
from __future__ import annotations

import hashlib
import json
import os
from dataclasses import dataclass

from ..base.files import contents, text_in
from ..base.saying import write_error
from ..base.words import bytes_of, counted, visible
from ..binaries.symbols import Address, Frame, Symbols, without_wrappers
from .folder import OBJECTS, PROVOKED

VERSION = 1  # of provoked.json
DEEPEST = 6  # callers of a thread that are shown
OFFSET = "+0x"


@dataclass(frozen=True)
class Stood:
    """A thread that stood still: its number and name, what it holds and waits for, in words, and its callers where it waits and where it took
    what it holds, innermost first."""

    number: int
    name: str
    locks: str
    waits: tuple[Address, ...]
    holds: tuple[Address, ...]

    @property
    def words(self) -> str:
        return "thread %d%s %s" % (self.number, ' "%s"' % visible(self.name) if self.name else "", self.locks)


@dataclass(frozen=True)
class Attempts:
    """All runs of `provoke` for a finding: how many there were, and in how many of them its threads stood still; what to type to try it again; why nothing
    happened in the last ones, if so; and the modules of the process that stood still, with their builds, and what became of its core dump. All in words."""

    runs: int
    times: int
    again: str
    why: str = ""
    modules: tuple[str, ...] = ()
    core: str = ""

    def words(self, is_final: bool) -> str:
        """How often it happened, or stood still if something could have ended that."""
        did = "happened" if is_final else "stood still"
        happened = "it %s in %d of %s of `lockdep provoke`" % (did, self.times, counted(self.runs, "run")) if self.times else ""
        return "; ".join(filter(None, (happened, self.why)))


class Happened:
    """That a finding happened: in which run, and its threads; for how many seconds they stood, if something could have ended that, and what, in words;
    and which signal `provoke` sent, in words, if it did."""

    def __init__(self, run: int, threads: list[Stood], seconds: float = 0.0, doubts: tuple[str, ...] = (), sent: str = "") -> None:
        self.run, self.threads, self.seconds, self.doubts, self.sent = run, threads, seconds, doubts, sent
        self.symbols: Symbols | None = None

    @property
    def is_final(self) -> bool:
        return not self.doubts

    @property
    def words(self) -> str:
        if self.is_final:
            return "happened in run %d of `lockdep provoke`" % self.run
        return "stood still for %g s in run %d of `lockdep provoke`: %s" % (self.seconds, self.run, ", ".join(self.doubts))

    def frames(self, places: tuple[Address, ...]) -> list[Frame]:
        """The callers, innermost first, all of which are looked up at once."""
        if self.symbols is None:
            self.symbols = Symbols()
            for place in (place for thread in self.threads for place in thread.waits + thread.holds):
                self.symbols.want(place)
            self.symbols.ask()
        return without_wrappers([frame for place in places for frame in self.symbols.frames(place)])[:DEEPEST]

    def lines(self) -> list[str]:
        """Each thread, and where it waits and took what it holds."""
        lines = ["  " + self.sent] if self.sent else []
        for thread in self.threads:
            lines.append("  " + thread.words)
            lines += ["      waits  " + frame.words for frame in self.frames(thread.waits)]
            lines += ["      took   " + frame.words for frame in self.frames(thread.holds)]
        return lines


def recording_of(folder: str) -> str:
    """What tells a recording from another one in the same folder: its classes, and its traces with their sizes."""
    checksum = hashlib.sha256()
    for inner in ("", OBJECTS):
        try:
            names = sorted(name for name in os.listdir(os.path.join(folder, inner)) if name.startswith("task-") and name.endswith(".csv"))
            checksum.update(bytes_of("".join("%s %d\n" % (name, os.path.getsize(os.path.join(folder, inner, name))) for name in names)))
        except OSError:
            continue
    checksum.update(contents(os.path.join(folder, "classes")) or b"")
    return checksum.hexdigest()


def read_provoked(folder: str) -> list[dict]:
    """What the file says of this recording; nothing if there is none, or it is about another one. That it is damaged is said."""
    if not os.path.lexists(os.path.join(folder, PROVOKED)):
        return []
    try:
        said = json.loads(text_in(os.path.join(folder, PROVOKED)))
        return [each for each in said["provoked"] if isinstance(each, dict)] if said["recording"] == recording_of(folder) else []
    except (ValueError, KeyError, TypeError, RecursionError):
        say_damaged(folder)
        return []


def say_damaged(folder: str) -> None:
    write_error("lockdep: %s is damaged, so what `provoke` did isn't known" % visible(os.path.join(folder, PROVOKED)))


def write_provoked(folder: str, said: list[dict]) -> None:
    with open(os.path.join(folder, PROVOKED), "w", encoding="utf-8", errors="surrogateescape") as file:
        json.dump({"lockdep": VERSION, "recording": recording_of(folder), "provoked": said}, file, indent=1)


def text_of_place(place: Address) -> str:
    return place.module if place.offset is None else "%s%s%x" % (place.module, OFFSET, place.offset)


def place_of(text: str) -> Address:
    """A place is a module and an offset, or words of the program's language."""
    module, _, offset = text.rpartition(OFFSET)
    return Address(module, int(offset, 16)) if module else Address(text, None)


def happened_of(said: dict) -> Happened:
    threads = [Stood(int(thread["number"]), str(thread["name"]), str(thread["locks"]), tuple(map(place_of, thread["waits"])),
                     tuple(map(place_of, thread["holds"]))) for thread in said["threads"]]
    return Happened(int(said["run"]), threads, float(said.get("seconds", 0)), tuple(map(str, said.get("doubts", ()))), str(said.get("sent", "")))


def attempts_of(said: dict) -> Attempts | None:
    """Nothing of an earlier version's."""
    if "again" not in said:
        return None
    return Attempts(int(said["runs"]), int(said["times"]), str(said["again"]), str(said.get("why", "")), tuple(map(str, said.get("modules", ()))),
                    str(said.get("core", "")))
