"""Reads what the processes of a recording wrote by the recorders of Python, Java, Rust and Go. `recorders/log.md` describes the form."""
from __future__ import annotations

import os

from ..base.files import opened, opened_text
from ..base.saying import Refusal
from ..record.folder import HISTORY, is_number
from .finishing import MOST_RECORDS
from .handler_sets import Source
from .joins import STARTED, Joins

TYPE_CHECKING = False  # for a tool that checks types, it is true
if TYPE_CHECKING:
    from typing import Any, Hashable, Iterator

RELEASE = 2
TIMED = (5, 6)  # modes of waits that give up at a time
RECORDS = frozenset("AR")  # begin lines with an acquisition or a release
DONE = frozenset("ARWGBME")  # begin lines that say what a task did
PAGE = "page"  # the further file with counts that aren't text
MOST_FIRST = 4096  # bytes that are looked at for a first line
ROW = "<8Q"  # the form of a row of these
FIRST = "process "  # begins the first line of a process's own file
OTHER_VERSION = "this was recorded by another version of the recorder: build the program again with this one, and record it"


class Task:
    """The records of a task, each a code and a place."""

    def __init__(self, process: Process) -> None:
        self.process, self.waits, self.has_ended = process, False, False
        self.records: list[tuple[int, int]] = []
        self.broken_off: list[list[int]] = []
        self.name, self.life = "", 0  # what its thread is called, and which lock it is; 0 if it isn't joined
        self.first: int | None = None
        self.member: int | None = None  # which one it is in the history; 0 if that has no steps of it
        self.trace = ""  # the name of its trace, once it has one
        self.source, self.is_main = 0, False
        self.sources: list[int] = []
        self.last = 0  # the last of its lines that says what it did
        self.parts = [self]  # its traces in other states, the last written one at the end

    @property
    def source_key(self) -> Hashable:
        """The handler of which these are runs."""
        return self.process.key_of_source(self.source)

    @property
    def state(self) -> list[Hashable]:
        """The handlers that may come in."""
        return [self.process.key_of_source(number) for number in self.sources]

    def is_seen(self) -> bool:
        return any(part.records for part in self.parts)

    def take_part(self, other: Task) -> None:
        """Another trace of this task is written with this one, if there is room for both."""
        if sum(2 * len(part.records) for part in self.parts + [other]) < MOST_RECORDS:
            self.parts = sorted(self.parts + [other], key=lambda part: part.last)
            other.parts = []
            self.waits = self.parts[-1].waits

    def is_last_timed(self) -> bool:
        """Whether the last record is of a wait that gives up at a time."""
        return bool(self.records) and self.records[-1][0] & 7 in TIMED

    def steps(self) -> Iterator[tuple[Hashable, bool]]:
        """The locks that are taken and released."""
        return ((code >> 3, code & 7 == RELEASE) for code, _ in self.records)

    def content(self) -> Hashable:
        """What is equal for equal traces."""
        return tuple((self.process.key(code >> 3), code & 7) for part in self.parts for code, _ in part.records)


class Told:
    """A class as a process tells it: its name, where it is made, how, and what else tells it apart."""

    def __init__(self, name: str, place: str, kind: str, made: str = "") -> None:
        self.name, self.place, self.kind, self.made = name, place, kind, made


class Process:
    """What a process wrote."""

    def __init__(self) -> None:
        self.number = self.pid = self.began = self.lines = 0
        self.path = ""  # of its own file
        self.program = self.library = ""  # its file, and where the sources of its language's own library are
        self.is_inner = False  # an interpreter beside the main one of a process, which is counted
        self.told: dict[int, Told] = {}  # its classes
        self.classes: dict[int, Any] = {}  # these once they have names
        self.unknown: Any = None  # the class of a lock whose own isn't there
        self.keys: dict[int, tuple[int, int]] = {}
        self.places: dict[int, list[str]] = {}
        self.tasks: dict[int, Task] = {}
        self.counts: dict[str, int] = {}
        self.of_page: list[str] = []  # what is counted in a row of the page
        self.words: list[str] | None = None
        self.starts: list[str] = []
        self.libraries: list[tuple[str, bool]] = []
        self.sources: dict[int, Source] = {}
        self.runs: dict[int, int] = {}
        self.reentrant: set[int] = set()
        self.joins = Joins(set(), [])
        self.left_out: set[Hashable] = set()  # the threads that aren't written, by their keys
        self.taken: dict[int, Any] = {}  # what traces take, by the codes of records

    # ---- Its files.

    def read(self, path: str, further: list[str]) -> None:
        """Reads its own file, and the further ones."""
        self.path = path
        if os.path.exists(path + ".lost") or os.path.isfile(path) and not os.path.getsize(path):
            self.counts["unwritten"] = 1
        if os.path.isfile(path):
            self.take_all(lines_of(path))
        damaged = sum([self.take_all(lines_of("%s-%s" % (path, name)), True) for name in further if name not in (PAGE, HISTORY)])
        self.counts["unwritten"] = self.counts.get("unwritten", 0) + damaged
        if PAGE in further:
            self.read_page("%s-%s" % (path, PAGE))
        threads: set[Hashable] = {key for key, (made, _) in self.keys.items() if made in self.told and self.told[made].kind == STARTED}
        self.joins = Joins(threads, self.tasks.values())
        self.left_out = {key for key in threads if not self.joins.is_kept(key)}
        self.join_parts()

    def read_page(self, path: str) -> None:
        """Adds up the counts of all rows, one of which each processor has."""
        import struct
        size = struct.calcsize(ROW)
        with opened(path) as file:
            rows = file.read()
        for row in struct.iter_unpack(ROW, rows[:len(rows) // size * size]):
            for code, number in zip(self.of_page, row):
                self.counts[code] = self.counts.get(code, 0) + number

    def take_all(self, lines: list[str], is_further: bool = False) -> bool:
        """Takes the lines of a file. Most are records, and what one says was mostly said by another before, so it is known by its text. A damaged line is
        counted, and ends a further file, which is one task's. Returns whether it did."""
        tasks: dict[str, Task] = {}
        records: dict[str, tuple[int, int]] = {}
        for self.lines, line in enumerate(lines, self.lines + 1):
            try:
                if line[:1] not in RECORDS:
                    self.take(line)
                    continue
                _, number, text = line.split(" ", 2)
                task, record = tasks.get(number), records.get(text)
                if task is None or record is None:
                    self.take(line)
                    task = tasks[number] = self.tasks[int(number)]
                    records[text] = task.records[-1]
                    continue
                task.records.append(record)
                task.last, task.has_ended = self.lines, False
            except (ValueError, IndexError, KeyError, TypeError):
                if is_further:
                    return True
                self.counts["unwritten"] = 1
        return False

    def join_parts(self) -> None:
        """Puts the traces of a task together. The main thread's are all those of tasks that handlers may come in at."""
        for number, task in self.tasks.items():
            first = self.tasks.get(task.first if task.first is not None else number, task)
            first.is_main = task.is_main = first.is_main or task.first is not None
            if first is not task:
                first.take_part(task)

    # ---- A line.

    def take(self, line: str) -> None:
        kind, _, rest = line.partition(" ")
        if kind == "S":
            name, count = rest.split()
            self.counts[name] = int(count)
        elif kind == "C":
            number, *told = rest.split("\t")
            self.told[int(number)] = Told(*told)
        elif kind == "K":
            key, of, ordinal = map(int, rest.split())
            self.keys[key] = of, ordinal
        elif kind == "P":
            number, _, text = rest.partition("\t")
            self.places[int(number)] = [place for place in text.split("\t") if place]
        elif kind == "N":
            number, _, name = rest.partition("\t")
            self.task(int(number)).name = name
        elif kind in ("H", "Y", "O"):
            self.take_handler(kind, rest)
        elif kind in ("process", "F", "Z", "Q", "L", "X", "D", "V"):
            self.take_own(kind, rest)
        else:
            self.take_record(kind, list(map(int, rest.split())))

    def take_own(self, kind: str, rest: str) -> None:
        """Takes a line that says something of the process."""
        if kind == "process":
            words = rest.split()
            self.pid, self.began, self.is_inner = int(words[0]), int(words[1]), words[2:] == ["inner"]
        elif kind == "F":
            self.program = rest
        elif kind == "Z":
            self.library = rest
        elif kind == "Q":
            self.of_page = rest.split()
        elif kind == "L":
            self.words = [word for word in rest.split("\t") if word]
        elif kind == "X":
            self.starts.append(rest)
        else:
            self.libraries.append((rest, kind == "V"))

    def take_handler(self, kind: str, rest: str) -> None:
        """Takes a line that says something of a handler of a signal, or of locks that may be taken again in one."""
        if kind == "H":
            numbers, signal, name, file = rest.split("\t")
            number, ordinal, at = map(int, numbers.split())
            self.sources[number] = Source(signal, name, file, at, ordinal)
        elif kind == "Y":
            number, count = map(int, rest.split())
            self.runs[number] = count
        else:
            self.reentrant.add(int(rest))

    def task(self, number: int) -> Task:
        if number not in self.tasks:
            self.tasks[number] = Task(self)
        return self.tasks[number]

    def take_record(self, kind: str, words: list[int]) -> None:
        task = self.task(words[0])
        task.last = self.lines
        if kind in DONE:
            task.has_ended = kind == "E"
        if kind in "AR":
            task.records.append((words[1], words[2]))
        elif kind == "B":
            del task.records[words[1]:]
        elif kind == "M":
            task.records[words[1]] = words[2], task.records[words[1]][1]
        elif kind in "WG":
            task.waits = kind == "W"
        elif kind == "T":
            task.life = words[1]
        elif kind == "J":
            task.member = words[1]
        elif kind == "I":
            task.broken_off.append(words[1:])
        elif kind == "U":
            task.first, task.source, task.sources, task.is_main = words[1], words[2], words[3:], True

    # ---- What was read.

    def key_of_source(self, number: int) -> Hashable:
        return self.sources[number].key if number in self.sources else None

    def key(self, number: int) -> tuple[Any, int, int]:
        """A lock of this process: its class, its number there, and the process. Threads write what they need concurrently, so a class
        may come after its lock in the file, or be missing if the process was killed."""
        of, ordinal = self.keys.get(number, (0, 0))
        return self.classes.get(of) or self.unknown(), ordinal, self.number


def lines_of(path: str) -> list[str]:
    """The lines of a file, without one that was cut off, as by a full disk."""
    with opened_text(path, "\n") as file:
        return file.read().split("\n")[:-1]


def files_in(raw: str) -> dict[str, list[str]]:
    """The files of each process: by its own one the further ones, those of tasks at the end."""
    found: dict[str, list[str]] = {}
    for name in os.listdir(raw):
        words = name.split("-")
        if len(words) in (2, 3) and is_number(words[0]) and is_number(words[1]) and (len(words) == 2 or words[2].isalnum()):
            found.setdefault("-".join(words[:2]), []).extend(words[2:])
    return {name: sorted(further, key=lambda word: (is_number(word), int(word) if is_number(word) else 0, word)) for name, further in found.items()}


def began(raw: str, name: str, further: list[str]) -> tuple[int, str]:
    """When a process began to write, by the first line of its own file, or else of the next one."""
    path = os.path.join(raw, name)
    if not os.path.isfile(path):
        path = os.path.join(raw, "%s-%s" % (name, further[0]))
    with opened_text(path) as file:
        words = file.readline(MOST_FIRST).split()
    return (int(words[2]) if len(words) > 2 and words[2].isdigit() else 0), path


def is_of_other_version(path: str) -> bool:
    """Whether a process's own file doesn't begin as this version writes it."""
    try:
        with opened_text(path) as file:
            first = file.readline()
    except FileNotFoundError:
        return False
    return first.endswith("\n") and not first.startswith(FIRST)


def read_all(raw: str) -> list[Process]:
    """The processes of a recording, those that began first coming first. What another version of the tool recorded is refused."""
    files, processes = files_in(raw), []
    if any(is_of_other_version(os.path.join(raw, name)) for name in files):
        raise Refusal(OTHER_VERSION)
    for name in sorted(files, key=lambda name: began(raw, name, files[name])):
        process = Process()
        process.read(os.path.join(raw, name), files[name])
        processes.append(process)
    return processes


def lines_with(raw: str, kind: str) -> list[str]:
    """What the lines of a kind say that are in the own files of processes, each once."""
    names = sorted(name for name in files_in(raw) if os.path.isfile(os.path.join(raw, name)))
    lines = (line for name in names for line in lines_of(os.path.join(raw, name)))
    return list(dict.fromkeys(line[len(kind) + 1:] for line in lines if line.startswith(kind + " ")))


def started_in(raw: str) -> list[tuple[str, bool]]:
    """The programs that were started, and whether each was told where the recording is."""
    words = [line.split(" ", 3) for line in lines_with(raw, "X")]
    return [(path.partition("\t")[0], reason == "recorded") for _, _, reason, path in words]
