"""What is wrong with a refused record, by what the trace has up to it: facts by names, which are what the table `words` needs.

Records are read as the program reads them: a record ends with its line unless a double quote is open, and blank lines
aren't records. A record of several lines is always refused, so each one before the refused record is a line. Texts have a
character for each byte. Nothing is known if a line ends with a CR alone, since editors count such lines differently.

A trace may have a million records, but few different ones, since it has few locks: only different lines are taken apart,
and only those that still matter at the refused record are followed one by one."""
from __future__ import annotations

import re
from collections import Counter
from itertools import compress

MARK = b"\xef\xbb\xbf"  # the byte order mark, in UTF-8
LONGEST_TEXT = 80  # characters of a text that are shown
LONGEST_NAME = 64
LONGEST_LINE = LONGEST_TEXT + 1
NEAR = 1000  # lines that are looked at one by one for the end of a quote
OF_THE_PAST = ("S1", "S3", "S5")  # what these refuse depends on earlier records
PLAIN = re.compile('[^",]+')
IRQS = ("enter", "on", "off")
LOCKS = ("acq", "rel")


class LoneCr(Exception):
    """A line ends with a CR alone."""


def shown(text: str, longest: int, more: str = "") -> str:
    """Bytes that a terminal might interpret as \\xNN, and a long text cut."""
    safe = ""
    for at, letter in enumerate(text):
        if len(safe) >= longest:
            return safe + more
        safe += letter if " " <= letter <= "~" else "\\x%02x" % ord(letter)
    return safe


class Record:
    """A record: its lines, from the first to the last, and its fields. Its end may be missing, if the trace is only looked
    at up to there."""

    def __init__(self, first: int) -> None:
        self.first = self.last = first
        self.is_cut = False
        self.lines: list[str] = []
        self.fields: list[str] = []
        self.parts: list[str] = []  # of the last field
        self.state = "start"

    def end_field(self) -> None:
        self.fields.append("".join(self.parts))
        self.parts, self.state = [], "start"

    def take(self, line: str) -> None:
        """Takes the next line. A field that begins with a double quote goes on until the quote is closed."""
        if "\r" in line[:-1]:
            raise LoneCr
        if self.lines:
            self.parts.append("\n")
        text = line[:-1] if line.endswith("\r") else line
        self.lines.append(text)
        at = 0
        while at < len(text):
            at = self.take_quoted(text, at) if self.state == "quoted" else self.take_plain(text, at)
        if self.is_open() and text != line:
            self.parts.append("\r")

    def take_inside(self, lines: list[bytes]) -> None:
        """Takes lines without a double quote, in a field that goes on behind them."""
        text = b"\n".join(lines)
        if text.count(b"\r") != text.count(b"\r\n") + text.endswith(b"\r"):
            raise LoneCr
        self.parts += ["\n", text.decode("latin-1")]

    def take_quoted(self, line: str, at: int) -> int:
        end = line.find('"', at)
        self.parts.append(line[at:] if end < 0 else line[at:end])
        if end < 0:
            return len(line)
        self.state = "closed"
        return end + 1

    def take_plain(self, line: str, at: int) -> int:
        plain = PLAIN.match(line, at)
        if plain:
            self.parts.append(plain.group())
            self.state = "inside"
            return plain.end()
        if line[at] == ",":
            self.end_field()
        elif self.state == "start":
            self.state = "quoted"
        else:
            self.parts.append('"')
            self.state = "quoted" if self.state == "closed" else "inside"
        return at + 1

    def is_open(self) -> bool:
        return self.state == "quoted"

    def field(self, number: int) -> str:
        return self.fields[number] if number < len(self.fields) else ""

    def lock(self) -> str:
        return self.field(1) + "/" + self.field(2)


def next_quoted(lines: list[bytes], begin: int) -> int:
    """The next line that has a double quote, or the end."""
    for number in range(begin, min(begin + NEAR, len(lines))):
        if b'"' in lines[number]:
            return number
    far = b"\n".join(lines[begin + NEAR:])
    at = far.find(b'"')
    return len(lines) if at < 0 else begin + NEAR + far.count(b"\n", 0, at)


def record_at(lines: list[bytes], at: int, is_whole: bool = True) -> Record:
    """The record that begins with a line. One that is open at the end is shown by its first line."""
    record, end = Record(at + 1), at
    while end < len(lines) and (end == at or record.is_open()):
        record.take(lines[end].decode("latin-1"))
        begin = end = end + 1
        if record.is_open():
            end = next_quoted(lines, begin)
            if end > begin:
                record.take_inside(lines[begin:end])
    record.last = end
    record.is_cut = not is_whole and end == len(lines)
    is_open = record.is_open()
    record.end_field()
    if is_open and not record.is_cut:
        record.state, record.last, record.lines = "quoted", record.first, record.lines[:1]
    return record


class Past:
    """What a trace has done up to a record: the locks that are held, each with its frame, and of each frame the interrupt, the line that it came in
    at, and the lines since which hardirqs and softirqs are off."""

    def __init__(self) -> None:
        self.held: list[tuple[int, str]] = []
        self.frames: list[dict[str, str | int]] = [{"irq": "", "since": 0, "hardirq": 0, "softirq": 0}]

    def frame(self) -> int:
        return len(self.frames) - 1

    def here(self) -> str:
        return ", ".join(shown(name, LONGEST_TEXT, "...") for frame, name in self.held if frame == self.frame())

    def go_on(self, record: Record, line: int) -> None:
        """What a record does that stands on a line."""
        verb, irq = record.field(0), record.field(1)
        if verb == "acq":
            self.held.append((self.frame(), record.lock()))
        elif verb == "rel":
            self.release((self.frame(), record.lock()))
        elif verb == "enter":
            self.frames.append({"irq": irq, "since": line, "hardirq": line if irq == "hardirq" else 0, "softirq": line})
        elif verb == "leave":
            self.frames.pop()
        elif verb == "on":
            self.frames[-1][irq] = 0
        elif verb == "off":  # (what is off already stays off since the first of such lines)
            self.frames[-1][irq] = self.frames[-1][irq] or line

    def release(self, lock: tuple[int, str]) -> None:
        for at in range(len(self.held) - 1, -1, -1):
            if self.held[at] == lock:
                del self.held[at]
                return


def kept(records: dict[bytes, Record], times: Counter[bytes]) -> dict[str, int]:
    """How many more times each lock was taken than released, by the different lines and how often each stands there."""
    count: Counter[str] = Counter()
    for line, record in records.items():
        verb = record.field(0)
        if verb in LOCKS:
            count[record.lock()] += times[line] if verb == "acq" else -times[line]
    return count


def open_interrupts(records: dict[bytes, Record], times: Counter[bytes]) -> int:
    signs = {"enter": 1, "leave": -1}
    return sum(signs.get(record.field(0), 0) * times[line] for line, record in records.items())


def what_matters(records: dict[bytes, Record], times: Counter[bytes], code: str) -> set[bytes]:
    """The different lines that a refusal with this code depends on. For the locks that are held these are the lines of
    locks that were taken more often than released, since an interrupt that is over has released what it took."""
    if code == "S3":
        return {line for line, record in records.items() if record.field(0) in IRQS + ("leave",)}
    count = kept(records, times)
    verbs = ("enter", "leave") if open_interrupts(records, times) else ()
    return {line for line, record in records.items()
            if record.field(0) in verbs or record.field(0) in LOCKS and count[record.lock()] > 0}


def past_of(lines: list[bytes], first: int, code: str) -> Past:
    """What a trace has done in lines that follow its header, of which the first one has this number."""
    past = Past()
    if code not in OF_THE_PAST:
        return past
    times = Counter(lines)
    records = {line: record_at([line], 0) for line in times if line.strip(b"\r")}
    matters = what_matters(records, times, code)
    for at in compress(range(len(lines)), map(matters.__contains__, lines)):
        past.go_on(records[lines[at]], first + at)
    return past


class Facts(dict):
    """What is found, by names. `case` is the line of the table that fits."""

    def tell(self, record: Record, code: str, past: Past) -> None:
        """What is wrong with a record that was refused with this code."""
        text = "\n".join(line[:LONGEST_LINE] for line in record.lines[:LONGEST_TEXT])
        self.update(first=record.first, last=record.last, text=shown(text, LONGEST_TEXT, "..."))
        if record.is_cut:
            self.tell_cut(record, code)
        elif is_unclosed(record, code):
            self["case"] = "quote"
        elif code == "T1":
            self.tell_header(record, text)
        elif code == "T2":
            self.tell_record(record)
        elif code == "T3":
            self.tell_name(record.field(1))
        elif code == "T4" and has_space(record.field(2)):
            self["case"] = "space"
        elif code == "T5":
            self.tell_mode(record.field(3))
        elif code == "S1":
            self.tell_release(record, past)
        elif code == "S3":
            self.tell_enter(record.field(1), past)
        elif code == "S5":
            self.update(since=past.frames[-1]["since"], locks=past.here(), case="held")

    def tell_cut(self, record: Record, code: str) -> None:
        """A record is so long that its end wasn't looked at."""
        if record.last > record.first:
            self["last"] = None
        if code == "T3" and len(record.fields) == 2:
            self["case"] = "longer"

    def tell_header(self, record: Record, text: str) -> None:
        verb = record.field(0)
        if verb == "lockdep" and len(record.fields) == 2 and re.fullmatch("[3-9]|[1-9][0-9]+", record.fields[1]):
            self["case"] = "newer"
        elif re.fullmatch(" *lockdep *, *[12] *", text):
            self["case"] = "space"
        elif text[:1] in ("#", ";", "/"):
            self["case"] = "comment"
        elif verb in LOCKS + IRQS + ("leave",):
            self["case"] = "event"
        elif re.fullmatch("(traces|findings) [0-9]+", text) or text == "digraph lockdep {":
            self["case"] = "report"

    def tell_record(self, record: Record) -> None:
        verb, count = record.field(0), len(record.fields)
        self.update(fields="1 field" if count == 1 else "%d fields" % count, verb=shown(verb, LONGEST_TEXT, "..."))
        if verb in LOCKS + ("leave",):
            self["case"] = verb
        elif verb == "lockdep":
            self["case"] = "header"
        elif verb in IRQS:
            self["case"] = "space" if count == 2 and has_space(record.fields[1]) else "irq"
        elif verb[:1] in ("#", ";", "/"):
            self["case"] = "comment"
        elif verb.strip(" \t") != verb:
            self["case"] = "space"
        else:
            self["unknown"] = self["verb"]

    def tell_name(self, name: str) -> None:
        self["bytes"] = len(name)
        if not name:
            self["case"] = "empty"
        elif " " in name:
            self["case"] = "space"
        elif re.search("[^!-~]", name):
            self["case"] = "ascii"
        elif len(name) > LONGEST_NAME:
            self["case"] = "long"

    def tell_mode(self, mode: str) -> None:
        lower = mode.lower()
        self.update(mode=shown(mode, LONGEST_TEXT, "..."), lower=shown(lower, LONGEST_TEXT, "..."))
        if mode in ("tw", "tr", "trr"):
            self["case"] = "try"
        elif has_space(mode):
            self["case"] = "space"
        elif lower != mode and lower in ("w", "r", "rr", "tw", "tr", "trr"):
            self["case"] = "case"

    def tell_release(self, record: Record, past: Past) -> None:
        here = past.here()
        self.update(lock=shown(record.lock(), LONGEST_TEXT, "..."), held="what is: " + here if here else "nothing is", since=past.frames[-1]["since"])
        if any(frame < past.frame() and name == record.lock() for frame, name in past.held):
            self["case"] = "outside"

    def tell_enter(self, irq: str, past: Past) -> None:
        frame = past.frames[-1]
        self["irq"] = irq
        if past.frame() and (irq == "softirq" or frame["irq"] == "hardirq"):
            self.update(frame=frame["irq"], case="nested")
        elif irq == "hardirq":
            self.update(since=frame["hardirq"], case="hardirq")
        else:
            self.update(which="softirqs" if frame["softirq"] else "hardirqs", since=frame["softirq"] or frame["hardirq"], case="softirq")


def has_space(text: str) -> bool:
    return text.startswith(" ") or text.endswith(" ")


def is_unclosed(record: Record, code: str) -> bool:
    """Whether what is wrong comes from a double quote that is open at the end: it took in the fields behind it, or is in the last one."""
    return record.is_open() and (code, len(record.fields)) in (("T1", 2), ("T4", 3), ("T5", 4)) or record.is_open() and code == "T2"


def record_starts(lines: list[bytes], raw: bytes) -> list[int] | range:
    """Where records begin, if each one is a line."""
    if b"\n\n" not in raw and b"\r" not in raw and lines[:1] != [b""]:
        return range(len(lines))
    return [at for at, line in enumerate(lines) if line and line != b"\r"]


def facts_of(raw: bytes, is_whole: bool, code: str, number: int) -> Facts:
    """What the trace, or its beginning, says about record `number`, which was refused with a code."""
    lines = raw[len(MARK):].split(b"\n") if raw.startswith(MARK) else raw.split(b"\n")
    if not lines[-1]:
        lines.pop()
    starts = record_starts(lines, raw)
    facts = Facts()
    if number > len(starts):
        return Facts(case="empty") if not starts and code == "T1" and is_whole else facts
    try:
        at = starts[number - 1]
        if b"\r" in raw and any(b"\r" in line[:-1] for line in set(lines[:at])):
            raise LoneCr
        record, after_header = record_at(lines, at, is_whole), starts[0] + 1
        facts.tell(record, code, past_of(lines[after_header:at], after_header + 1, code))
    except (LoneCr, IndexError, KeyError):  # (the last two come of a trace that was changed meanwhile)
        return Facts()
    return facts
