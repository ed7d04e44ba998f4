"""Finishes a recording that was made by lockdep_record.h, whose traces are there already: recorders/embed/finish, and the end of `record`."""
from __future__ import annotations

import hashlib
import os
import re

from ..base.files import opened_text
from ..base.saying import Refusal, write_error
from ..record import losses
from ..record.folder import DEFAULT_FOLDER, DEFAULT_FOLDERS, OBJECTS
from ..record.folder import fault, remove, remove_tree
from ..record.summary import Count, File, Summary, write
from .finishing import MOST_LOCKS, REST, Tally, write_classes, write_lines

USAGE = """Finishes a recording that was made by lockdep_record.h, so that `lockdep check`, `where` and `confirm` can read it.

Usage: finish [FOLDER]

  FOLDER  the recording, `lockdep-traces` if it isn't given, or else `traces`: task-NNNN.csv, the trace of a task, and
          task-NNNN.csv.places, its places if ldr_places was called for it

It writes FOLDER/SUMMARY, FOLDER/summary.json, FOLDER/classes and FOLDER/objects, and prints what was seen and what was left
out. A name CLASS#N is that of a single lock: FOLDER/objects keeps it, and the traces themselves get CLASS. A record at the end
of a trace that was cut off is removed, and so is a trace without a single byte. Of traces that are the same to the byte 32 are
kept.

The status is 0; 1 if something was left out, or if that isn't known; and 2 if no lock was seen.
"""
MOST_ALIKE = 32  # how many traces that are the same to the byte are kept: as many as the recorders of Python, Java and Rust keep
MOST_NAME = 59  # bytes of a name that has room for REST
MODES = ("w", "r", "rr", "tw", "tr", "trr")
SUBCLASSES = tuple("01234567")
LEFT = re.compile(r"^([0-9]+) left ([a-k])$", re.M)  # in the file of places: what was left out
ENDED = re.compile(r"^[0-9]+ end ?$", re.M)
# What the letters there count, as the header has them.
LETTERS = {"a": "interrupts", "b": "unseen-releases", "c": "beyond-held", "d": "beyond-events", "e": "refused-words", "f": "left-interrupts",
           "g": "unseen-enters", "h": "refused-flags", "i": "kept-locks", "j": "refused-puts", "k": "lost-places"}
# What is counted, in the order of SUMMARY. Nothing is lost by interrupts that came in, so they are told under what was recorded.
LOSSES = ("threads-alike", "held-at-end") + tuple(LETTERS.values())[1:] + ("cut-traces", "lost-threads", "unended-traces", "unplaced-traces")
INTERRUPTS = "interrupts came in %d times although they were off: `on` stands before them"
UNSEEN = ("no lock was seen, so a report of this recording says nothing: is ldr_acquire called where locks are taken, and ldr_end or "
          "ldr_flush before the end?")


SINGLE = re.compile("(.+)(?:#(?:0|[1-9][0-9]*)|%s)" % REST, re.S)  # the name of a single lock, or of all those of a class that have none


class Line:
    """A line of a trace, whatever trace it stands in: by classes, and by single locks."""

    def __init__(self, text: str, own: set[str]) -> None:
        self.text, self.of_class, self.single, self.key, self.name = text, text, text, "", ""
        self.event = text[:3] if text[:4] in ("acq,", "rel,") else ""
        self.is_told_apart = True
        if self.event:
            self.look_at_lock(text[4:], own)

    def look_at_lock(self, rest: str, own: set[str]) -> None:
        """`own` has the single locks that keep their names: there is room for so many, and others are told by their classes."""
        before, comma, mode = rest.rpartition(",")
        self.key = before if comma and mode in MODES else rest  # the name with its subclass, as both are written
        name, comma, subclass = self.key.rpartition(",")
        written = name if comma and subclass in SUBCLASSES else self.key
        is_quoted = len(written) > 1 and written[0] == written[-1] == '"'
        plain = written[1:-1] if is_quoted else written
        match = SINGLE.fullmatch(plain)
        of = match.group(1) if match else plain
        if match and (plain in own or len(own) < MOST_LOCKS):
            own.add(plain)
        else:
            plain = of + REST
            self.is_told_apart = len(of.replace('""', '"').encode("utf-8", "surrogateescape")) <= MOST_NAME
        self.name, single = ('"%s"' % of, '"%s"' % plain) if is_quoted else (of, plain)
        self.of_class, self.single = (self.event + "," + each + rest[len(written):] for each in (self.name, single))


class Trace:
    """What is counted in a trace, and which locks are held at its end."""

    def __init__(self, lines: list[Line]) -> None:
        self.events = max(0, len(lines) - 1)
        self.operations = sum(1 for line in lines if line.event)
        held: list[str] = []
        for line in lines:
            if line.event == "acq":
                held.append(line.key)
            elif line.event:
                give_back(held, line.key)
        self.held = [key[:-2] if key.endswith(",0") else key for key in held]


def give_back(held: list[str], key: str) -> None:
    """The newest lock of this name is given back, if there is one."""
    for at in range(len(held) - 1, -1, -1):
        if held[at] == key:
            del held[at]
            return


class Finish:
    """All traces of a folder, in turn."""

    def __init__(self, path: str) -> None:
        self.path, self.tally = path, Tally("embed")
        self.lines: dict[str, Line] = {}
        self.own: set[str] = set()  # the single locks that have names of their own
        self.told_apart: dict[str, str] = {}  # what an earlier finish of these traces has told apart, by the trace
        self.traces: dict[bytes, Trace] = {}  # by the digests of their texts
        self.alike: dict[bytes, int] = {}

    def text(self, name: str) -> str:
        with opened_text(os.path.join(self.path, name), "\n") as file:
            return file.read()

    def line(self, text: str) -> Line:
        found = self.lines.get(text)
        if found is None:
            found = self.lines[text] = Line(text, self.own)
        return found

    def source(self, name: str) -> str:
        """The text of a trace. If it is by classes, since it was finished before, it is that by single locks."""
        text, earlier = self.text(name), self.told_apart.get(name, "")
        is_same = earlier and [self.line(line).of_class for line in earlier.split("\n")] == text.split("\n")
        return earlier if is_same else text

    def drop(self, name: str) -> None:
        for each in (name, name + ".places"):
            remove(os.path.join(self.path, each))

    def take(self, name: str) -> None:
        """Takes a trace. It is kept, beside the same by single locks, or dropped."""
        text = self.source(name)
        if not text:
            self.tally.add("lost-threads")
            self.drop(name)
            return
        lines = [self.line(line) for line in text.split("\n")[:-1]]  # (a last line without an end is cut off)
        digest = hashlib.sha256(text.encode("utf-8", "surrogateescape")).digest()
        self.alike[digest] = self.alike.get(digest, 0) + 1
        if digest not in self.traces:
            self.traces[digest] = Trace(lines)
        self.count(name, self.traces[digest], not text.endswith("\n"))
        if self.alike[digest] > MOST_ALIKE:
            self.tally.add("threads-alike")
            self.drop(name)
        else:
            self.tally.add("threads")
            self.keep(name, lines, not text.endswith("\n"))

    def count(self, name: str, trace: Trace, is_cut: bool) -> None:
        self.tally.add("operations", trace.operations)
        self.tally.add("events", trace.events)
        self.tally.add("cut-traces", is_cut)
        self.tally.note_end(name[:-len(".csv")], trace.held, waits=False, has_ended=True)
        self.take_counts(name + ".places")

    def take_counts(self, name: str) -> None:
        """What was left out, which stands at the end of the places, and whether that is there."""
        try:
            text = self.text(name)
        except FileNotFoundError:
            text = ""
        for number, letter in LEFT.findall(text):
            self.tally.add(LETTERS[letter], int(number))
        if not ENDED.search(text):
            self.tally.add("unended-traces" if text else "unplaced-traces")

    def keep(self, name: str, lines: list[Line], is_cut: bool) -> None:
        if is_cut or any(line.of_class != line.text for line in lines):
            write_lines(os.path.join(self.path, name), [line.of_class for line in lines])
        if lines:
            write_lines(os.path.join(self.path, OBJECTS, name), [line.single for line in lines])

    def run(self) -> Summary:
        objects = os.path.join(self.path, OBJECTS)
        if is_folder(objects):
            self.told_apart = {name: self.text(os.path.join(OBJECTS, name)) for name in trace_names(objects)}
        remove_tree(objects)
        os.mkdir(objects)
        for name in trace_names(self.path):
            self.take(name)
        if not all(line.is_told_apart for line in self.lines.values()):
            remove_tree(objects)
        write_classes(self.path, [])
        return self.summary()

    def summary(self) -> Summary:
        classes = {line.name for line in self.lines.values() if line.event == "acq"}
        threads = self.tally.numbers.get("threads", 0)
        counts = self.tally.recorded(1 if threads else 0, len(classes))
        if self.tally.numbers.get("interrupts"):
            counts[-1].words = INTERRUPTS % self.tally.numbers["interrupts"]
        return Summary(counts + self.tally.counts(LOSSES))


def trace_names(path: str) -> list[str]:
    names = [name for name in os.listdir(path) if name.startswith("task-") and name.endswith(".csv")]
    return sorted((name for name in names if is_plain(os.path.join(path, name))), key=os.fsencode)


def is_plain(path: str) -> bool:
    return os.path.isfile(path) and not os.path.islink(path)


def is_folder(path: str) -> bool:
    return os.path.isdir(path) and not os.path.islink(path)


# ---- A recording by `record`: the program wrote the traces there, and they stay as they are.

OWN = ("settings", "SUMMARY", "wrappers")  # what isn't the program's


def is_trace(name: str) -> bool:
    """Whether a file is a trace that the program wrote, or the places of one."""
    trace = name[:-len(".places")] if name.endswith(".places") else name
    number = trace[len("task-"):-len(".csv")]
    return trace == "task-%s.csv" % number and number.strip("0123456789") == "" != number


def unread_files(raw: str) -> list[str]:
    """All other files there that aren't the recording's own."""
    found = []
    for folder, folders, files in os.walk(raw):
        for name in files + [name for name in folders if os.path.islink(os.path.join(folder, name))]:
            path = os.path.join(folder, name)
            inner = os.path.relpath(path, raw)
            if not (is_trace(inner) and is_plain(path)) and inner not in OWN and not inner.startswith("again/"):
                found.append(inner)
    return sorted(found, key=os.fsencode)


def finish(path: str, raw: str) -> Summary:
    """Finishes copies of what a program wrote. There may be no trace."""
    import shutil
    for name in os.listdir(raw):
        if is_trace(name) and is_plain(os.path.join(raw, name)):
            shutil.copyfile(os.path.join(raw, name), os.path.join(path, name))
    done = Finish(path)
    summary = done.run()
    if not summary.number("threads"):
        summary.add_unseen("embed-empty" if summary.number("lost-threads") else "embed-off")
    elif not summary.operations():
        summary.add_unseen("embed-nothing")
    summary.add("unread-files", [File(name) for name in unread_files(raw)])
    return summary


# ---- By itself.

def folder_of(words: list[str]) -> str:
    for word in words[:1]:
        if word[:1] == "-" and word != "-":
            raise Refusal("unknown option %s; `finish --help` says how to call this" % word)
    if len(words) > 1:
        raise Refusal("one folder, and not %d; `finish --help` says how to call this" % len(words))
    path = words[0] if words else next(filter(is_unfinished, DEFAULT_FOLDERS), DEFAULT_FOLDER)
    if not os.path.isdir(path):
        raise Refusal("there is no folder %s" % path)
    if os.path.lexists(os.path.join(path, "RECORDED")):
        raise Refusal("%s has a recording that `record` made" % path)
    if not trace_names(path):
        raise Refusal("%s has no traces: they are called task-0001.csv and so on" % path)
    return path


def is_unfinished(path: str) -> bool:
    """Whether a folder has traces that no `record` made."""
    return os.path.isdir(path) and bool(trace_names(path)) and not os.path.lexists(os.path.join(path, "RECORDED"))


def finish_alone(path: str) -> int:
    """Finishes the traces of a folder, and says what was seen. The result is the status."""
    try:
        summary = Finish(path).run()
        write(path, summary, "embed")
    except OSError as error:
        raise Refusal(fault(error, path))
    lost = [count for count in summary.counts if count.lost()]
    say("%s, %s, %s" % (losses.counted(summary.number("threads"), "task"), losses.counted(summary.operations(), "operation"),
                        losses.counted(summary.number("classes"), "class", "classes")))
    if lost:
        say("left out, so a clean report says nothing of it: " + ", ".join(in_words(count) for count in lost))
    if summary.number("unplaced-traces"):
        say("call ldr_places, whose file tells the end of a trace")
    if not summary.operations():
        say(UNSEEN)
        return 2
    return 1 if lost else 0


def in_words(count: Count) -> str:
    words = count.words or count.code
    return "%d %s" % (count.number or 0, losses.singular(words) if count.number == 1 else words)


def say(text: str) -> None:
    write_error("finish: " + text)


def main(words: list[str]) -> int:
    if words[:1] in (["-h"], ["--help"]):
        print(USAGE, end="")
        return 0
    try:
        return finish_alone(folder_of(words))
    except Refusal as refusal:
        say(refusal.line or "")
        return refusal.status
