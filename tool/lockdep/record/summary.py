"""The summary of a recording: counts by code, each perhaps with words, notes, and files with a reason. They are kept in summary.json, and SUMMARY is
their text. Recordings by an earlier version, and by recorders that don't know this tool, have SUMMARY alone."""
from __future__ import annotations

import os
import re

from ..base.files import contents, text_in
from ..base.quick_json import parsed
from ..base.saying import Refusal
from ..base.words import text_of, visible
from . import losses, notes as lines

VERSION = 1  # of summary.json
OTHER_VERSION = "its summary.json is of version %s of recordings, and this tool knows version %d"
DAMAGE = (ValueError, KeyError, TypeError, IndexError, AttributeError)  # what a summary.json raises that isn't as it was written
NUMBER = re.compile(r"[-+]?[0-9][0-9.,]*(?:[eE][-+]?[0-9]+)?")
UNCOUNTED = ("loaded ", "incomplete ")  # begin lines with the path of a file, or with a reason, which may end with a number
NOTED = (lines.WAITING, lines.HELD_AT_END) + losses.BREACHES  # whose lines are notes from the first one on
STARTED, LOADED = "started", "loaded"  # the programs that were started, and all files that were loaded, until others are put in their place
MOST_DIGITS = 20  # of a count
MOST_LINES = 100_000  # of a SUMMARY: it has some hundred, and one for each file that it names
MOST_VALUES = 400_000  # of a summary.json, by its commas and brackets
WITH_TEXT = ("linux",)  # recorders whose summary.json doesn't have all: they write SUMMARY themselves, also where there is no Python


class TooLong(ValueError):
    """A summary that is longer than any recorder writes one."""


class File:
    """A program or another file that is named under a count: how often it ran, and the code of the reason."""
    __slots__ = ("path", "times", "why")

    def __init__(self, path: str, times: int | None = None, why: str | None = None) -> None:
        self.path, self.times, self.why = path, times, why

    def text(self, home: str | None) -> str:
        times = "" if self.times is None else ", " + losses.counted(self.times, "time")
        return self.path + times + (": " + losses.sentence(self.why, home) if self.why else "")


class Count:
    """A line of a summary with what stands under it. Without a number it is a line of another kind, as `unseen static`."""
    __slots__ = ("code", "number", "words", "notes", "files")

    def __init__(self, code: str, number: int | None, words: str | None = None, notes: list[str] | None = None,
                 files: list[File] | None = None) -> None:
        self.code, self.number, self.words, self.notes, self.files = code, number, words, notes or [], files or []

    def lost(self) -> str | None:
        """What was left out, if this is a count of it that isn't 0."""
        if not self.number or self.code in losses.UNLOST or self.code.startswith(losses.OF_A_HANDLER):
            return None
        if self.words is None:
            code = self.code
            return "%d %s" % (self.number, code[len("left out: "):] if code.startswith("left out: ") else code)
        words = self.words.partition(":")[0]
        return "%d %s" % (self.number, losses.singular(words) if self.number == 1 else words)

    def listed(self, home: str | None) -> list[str]:
        """The files under it, a line each."""
        return [file.text(home) for file in self.files] or [note[2:] for note in self.notes if note.startswith("  ")]


class Summary:
    """All counts of a recording, in their order."""

    def __init__(self, counts: list[Count] | None = None, home: str | None = None) -> None:
        self.counts, self.home = counts or [], home

    def find(self, code: str) -> Count | None:
        return next((count for count in self.counts if count.code == code and count.number is not None), None)

    def number(self, code: str) -> int:
        count = self.find(code)
        return (count.number or 0) if count else 0

    def operations(self) -> int:
        """How many operations were seen. Earlier recordings call them calls."""
        return self.number("operations") or self.number("calls seen")

    def left_out(self) -> list[str]:
        return [lost for lost in (count.lost() for count in self.counts) if lost]

    def listed(self, *codes: str) -> list[str]:
        return [line for code in codes for count in [self.find(code)] if count for line in count.listed(self.home)]

    def after(self, word: str) -> list[str]:
        """What stands behind a word in the lines that begin with it."""
        return [count.code[len(word) + 1:] for count in self.counts if count.number is None and count.code.startswith(word + " ")]

    def files_of(self, word: str) -> list[File]:
        """The files of a line without a number."""
        return [file for count in self.counts if count.number is None and count.code == word for file in count.files]

    def drop(self, word: str) -> None:
        """Takes out the lines that begin with a word."""
        self.counts = [count for count in self.counts if count.number is not None or count.code.split(" ")[0] != word]

    def add(self, code: str, files: list[File], number: int | None = None) -> None:
        """Counts some files, if there are any."""
        if files:
            words = (losses.COUNTS.get(code) or losses.NOTES[code])[0]
            self.counts.append(Count(code, len(files) if number is None else number, words, [], files))

    def add_unseen(self, reason: str) -> None:
        self.counts.append(Count("unseen " + reason, None))

    # ---- What stands under the counts.

    def lines_under(self, code: str) -> list[str]:
        return [note for count in self.counts if count.code == code for note in count.notes]

    def waiting(self) -> list[str]:
        """The lines of the threads that waited for a lock at the end."""
        return [line for line in self.lines_under(lines.WAITING) if line.startswith(lines.TRACE)]

    def at_end(self) -> dict[str, bool]:
        """The traces of threads that waited for a lock at the end or held one, each with whether it waited."""
        held = [line for line in self.lines_under(lines.HELD_AT_END) if line.startswith(lines.TRACE)]
        return {line.split(" ")[0]: waits for ends, waits in ((self.waiting(), True), (held, False)) for line in ends}

    def stand_ins(self) -> dict[str, int]:
        """The traces that stand for others, each with how many these are."""
        return dict(found for found in map(lines.stood_in_for, self.lines_under("threads-alike")) if found)

    def reasons(self) -> list[str]:
        """The codes of why nothing, or not everything, was seen."""
        all_of_them = ["no-file"] if self.number("refused-processes") else []
        for words in self.after("unseen"):
            all_of_them += words.split()
        return list(dict.fromkeys(all_of_them))


# ---- As text.

def check_length(text: str, signs: str, most: int, what: str) -> None:
    """Refuses a summary that has more than any recorder writes, before it is taken apart."""
    if sum(map(text.count, signs)) > most:
        raise TooLong("it has more than {:,} {}".format(most, what))


def parse(text: str) -> list[Count]:
    """The counts of a SUMMARY, by this version or an earlier one."""
    check_length(text, "\n", MOST_LINES, "lines")
    counts: list[Count] = []
    if "\0" in text:
        raise ValueError("it has a zero byte")
    for line in text.split("\n"):
        name, _, number = line.rpartition(" ")
        if line.startswith("  ") and counts:
            add_line(counts[-1], line[2:])
        elif line and not line.startswith(" "):
            is_number = bool(name) and not line.startswith(UNCOUNTED) and NUMBER.fullmatch(number)
            counts.append(Count(name, number_in(number)) if is_number else Count(line, None))
    return counts


def number_in(text: str) -> int:
    """A count. Anything else that is a number is damage."""
    if not text.isdigit() or len(text) > MOST_DIGITS:
        raise ValueError("%s is no count" % text[:MOST_DIGITS])
    return int(text)


def add_line(count: Count, line: str) -> None:
    is_first = count.words is None and not count.notes and count.code not in NOTED
    if is_first:
        count.words = line.lstrip(" ")
    else:
        count.notes.append(line)


def text_of_summary(summary: Summary) -> str:
    lines: list[str] = []
    for count in summary.counts:
        lines.append(count.code if count.number is None else "%s %d" % (count.code, count.number))
        lines += ["  " + line for line in ([count.words] if count.words is not None else []) + count.notes]
        lines += ["    " + file.text(summary.home) for file in count.files]
    return "".join(line + "\n" for line in lines)


# ---- As JSON.

def known_words(code: str) -> str | None:
    """The words of a code that needn't be written."""
    return (losses.COUNTS.get(code) or losses.NOTES.get(code) or (None,))[0]


def json_of(summary: Summary, recorder: str) -> str:
    """The summary as JSON, a count on each line."""
    counts = [json_count(count) for count in summary.counts if not count.code.startswith("unseen ")]
    return '{"recording":%d,"recorder":%s,"counts":[\n%s\n],"unseen":%s}\n' % (
        VERSION, quoted(recorder), ",\n".join(counts), json_list(summary.reasons()))


def json_count(count: Count) -> str:
    members = ['"code":' + quoted(count.code)]
    if count.number is not None:
        members.append('"count":%d' % count.number)
    if count.words != known_words(count.code):
        members.append('"words":' + ("null" if count.words is None else quoted(count.words)))
    if count.notes:
        members.append('"notes":' + json_list(count.notes))
    if count.files:
        members.append('"files":[%s]' % ",".join(json_file(file) for file in count.files))
    return "{%s}" % ",".join(members)


def json_file(file: File) -> str:
    members = ['"path":' + quoted(file.path)]
    if file.times is not None:
        members.append('"times":%d' % file.times)
    if file.why:
        members.append('"why":' + quoted(file.why))
    return "{%s}" % ",".join(members)


def json_list(texts: list[str]) -> str:
    return "[%s]" % ",".join(quoted(text) for text in texts)


def quoted(text: str) -> str:
    """A text as JSON has it. (The module `json` takes longer to import than the whole summary takes to write.)"""
    escaped = text.replace("\\", "\\\\").replace('"', '\\"')
    return '"%s"' % "".join(letter if " " <= letter <= "~" else unicode_escape(ord(letter)) for letter in escaped)


def unicode_escape(code: int) -> str:
    if code < 0x10000:
        return "\\u%04x" % code
    return "\\u%04x\\u%04x" % (0xd800 + (code - 0x10000 >> 10), 0xdc00 + (code - 0x10000 & 0x3ff))


def from_json(text: str) -> list[Count]:
    return counts_in(json_in(text))


def json_in(text: str) -> dict:
    check_length(text, ",[{", MOST_VALUES, "values")
    return parsed(text)


def counts_in(content: dict) -> list[Count]:
    """The counts of summary.json, as this tool or a recorder in C writes it (recorders/pthread/finish/summary.c)."""
    if content.get("recording") != VERSION:
        raise Refusal(OTHER_VERSION % (visible(repr(content.get("recording"))[:MOST_DIGITS]), VERSION))
    counts = [count_of(entry) for entry in content["counts"]]
    counts += [Count("unseen " + reason, None) for reason in content["unseen"] if reason != "no-file"]
    started, loaded = files_in(content.get(STARTED, [])), [File(path) for path in content.get(LOADED, [])]
    return counts + [Count(word, None, None, [], files) for word, files in ((STARTED, started), (LOADED, loaded)) if files]


def count_of(entry: dict) -> Count:
    if "unseen" in entry:
        return Count("unseen " + entry["unseen"], None)
    if "signal" in entry:
        return Count(lines.of_signal(entry), None)
    code = text_value(entry["code"])
    return Count(code, number_value(entry["count"]) if "count" in entry else None, entry.get("words", known_words(code)), lines.of_entry(entry), files_in(entry.get("files", [])))


def files_in(entries: list[dict]) -> list[File]:
    return [File(text_value(entry["path"]), number_value(entry["times"]) if "times" in entry else None, entry.get("why")) for entry in entries]


def text_value(value: object) -> str:
    if not isinstance(value, str):
        raise ValueError("%r is no text" % (value,))
    return value


def number_value(value: object) -> int:
    """A count. Anything else is damage."""
    if type(value) is not int or not 0 <= value < 10 ** MOST_DIGITS:
        raise ValueError("%r is no count" % (value,))
    return value


# ---- In a folder.

def read(folder: str, home: str | None = None, is_first: bool = False) -> Summary | None:
    """The summary of a recording: none if its traces weren't made. The first one, as a recorder has written it, lacks what this tool finds out, and
    counts only where that is added."""
    try:
        content = json_in(text_in(os.path.join(folder, "summary.json")))
        if content["recorder"] not in WITH_TEXT:
            return Summary(counts_in(content), home) if is_first or STARTED not in content else None
    except DAMAGE:
        pass
    raw = contents(os.path.join(folder, "SUMMARY"))
    try:
        return None if raw is None else Summary(parse(text_of(raw)), home)
    except ValueError:
        return None


def recorder_of(folder: str) -> str:
    """The name of the recorder that made a recording; empty if that isn't known."""
    try:
        return str(json_in(text_in(os.path.join(folder, "summary.json")))["recorder"])
    except DAMAGE:
        return ""


def write(folder: str, summary: Summary, recorder: str) -> None:
    """Writes the summary as text and as JSON."""
    put(os.path.join(folder, "SUMMARY"), text_of_summary(summary))
    put(os.path.join(folder, "summary.json"), json_of(summary, recorder))


def put(path: str, text: str) -> None:
    """Writes a file. (`open` has more to find out about a file than it takes to write a short one, and a recording has many of these.)"""
    raw = text.encode("utf-8", "surrogateescape")
    file = os.open(path, os.O_WRONLY | os.O_CREAT | os.O_TRUNC | os.O_CLOEXEC, 0o666)
    try:
        while raw:
            raw = raw[os.write(file, raw):]
    finally:
        os.close(file)
