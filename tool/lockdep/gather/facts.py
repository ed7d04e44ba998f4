"""What recordings say together: one condensed trace, and which recordings have which orders. It is put together in steps.

The checker takes 8,192 keys. If there are more, single locks are folded: a lock becomes one of `CLASS#rest`, which stands for several locks, so what is
known between classes stays the same. Those in the fewest orders go first. A lock is kept if those that rank before it leave room for it beside all
classes; that is so in all recordings only if it is in each part of them, so the locks that are left don't depend on the grouping. (They may where one
trace can't say so much, or too many keys lead to one another, since then half of those that a part has left are folded.)"""
from __future__ import annotations

import json
import os
import signal
import subprocess
import tempfile
import zlib
from collections import Counter
from typing import IO, Iterable

from ..base.files import opened
from ..base.saying import Refusal
from ..base.words import bytes_of, reason_of, text_of
from ..program.checker import REFUSED, Answer
from .gathered import FOLDED, FOLDED_LOCKS, HEADER, MOST_EVENTS, Listed, recordings_in, text_of_recordings
from .kept_places import Lines, lines_in, merged_lines, text_of_lines
from .names import TIMED_ENTRY, at_level, class_of, is_rest, keys_in, name_of_key, quoted, rest_of, with_names
from .orders import Number, Seen, Table, lots_in, merge_tables, number_of_words, table_in, text_of_table, words_of_number

MOST_KEYS = 8192
MOST_TRACES = 4096  # of a run
MOST_AT_ONCE = 1 << 26  # bytes of condensed traces that are merged at once, unless two have more
MOST_OF_RESULT = 1 << 30  # bytes that the result of a task has
TOO_LONG = b"E3 TooLong"
TOO_MANY, TOO_TANGLED = b"T6 TooManyKeys", b"M1 TooTangled"
TOO_MUCH = {TOO_MANY: "more than 8,192 lock classes", TOO_LONG: "more orders than one trace can say",
            TOO_TANGLED: "more than 256 lock classes that lead to one another"}


TOO_LONG_NAME = b"long-names"
WHY_FOLDED = {TOO_MANY: b"keys", TOO_LONG: b"events", TOO_TANGLED: b"tangles"}


class Lacking(Exception):
    """What a task can't be done without, and this machine lacks: another one may have it. It is no fault of a recording."""


class TooMuch(Refusal):
    """All recordings together are more than the checker takes, even with no single locks told apart. The largest one has the most orders and marks."""

    def __init__(self, line: str | None, largest: Number) -> None:
        super().__init__(line)
        self.largest = largest


class Program:
    """The checker's program, which is asked to condense."""

    def __init__(self, path: str) -> None:
        self.path = path

    def ask(self, files: list[str], descriptors: tuple[int, ...] = ()) -> Answer:
        words = [self.path, "condense", "--many", "--workers", "1", "--"] + [os.fsencode(name) for name in files]
        try:
            done = subprocess.run(words, stdin=subprocess.DEVNULL, stdout=subprocess.PIPE, stderr=subprocess.PIPE, pass_fds=descriptors)
        except OSError as error:
            raise Lacking("%s can't be run: %s" % (self.path, reason_of(error)))
        if done.returncode < 0:
            raise Lacking("the checker was ended by %s" % signal.Signals(-done.returncode).name)
        return Answer(done.stdout, done.returncode, done.stderr)

    def condensed(self, files: list[str]) -> Answer:
        """One trace that says what these do, of which there may be more than a run takes."""
        if len(files) <= MOST_TRACES:
            return self.ask(files)
        answers = [self.ask(files[at:at + MOST_TRACES]) for at in range(0, len(files), MOST_TRACES)]
        refused = next((answer for answer in answers if answer.status >= REFUSED), None)
        return refused or self.condensed_texts([answer.output for answer in answers])

    def condensed_of(self, traces: list[str]) -> tuple[Answer, bool]:
        """The same of a recording's traces, and whether by their classes, since their single locks are too much."""
        answer = self.condensed(traces)
        if not any(code in answer.said for code in TOO_MUCH):
            return answer, False
        with tempfile.TemporaryDirectory(prefix="lockdep-") as room:
            made = by_classes(traces, room)
            answer = self.condensed(made)
        for trace, path in zip(traces, made):
            answer.said = answer.said.replace(bytes_of(path), bytes_of(trace))
        return answer, True

    def condensed_texts(self, texts: list[bytes]) -> Answer:
        """The same of traces that are no files. Those that were condensed can be joined: at the end nothing is held, and all is as at the beginning."""
        files = [file_with(group) for group in grouped(texts)]
        try:
            return self.ask(["/dev/fd/%d" % file.fileno() for file in files], tuple(file.fileno() for file in files))
        finally:
            for file in files:
                file.close()


def by_classes(traces: list[str], room: str) -> list[str]:
    """The traces without the numbers of their locks, as files of the room: those of classes, with the same records."""
    made: list[str] = []
    for trace in traces:
        with opened(trace) as given, tempfile.NamedTemporaryFile(dir=room, delete=False) as file:
            file.writelines(at_level(line, class_of) for line in given)
        made.append(file.name)
    return made


def file_with(texts: list[bytes]) -> IO[bytes]:
    """Condensed traces as one, in a file without a name, which is gone when the process is."""
    file = tempfile.TemporaryFile()
    file.write(HEADER)
    for text in texts:
        file.write(memoryview(text)[len(HEADER):])
    file.flush()
    return file


def grouped(texts: list[bytes]) -> list[list[bytes]]:
    """Condensed traces in groups, each of which has no more events than a trace may have."""
    groups: list[list[bytes]] = []
    room = 0
    for text in texts:
        events = text.count(b"\n") - 1
        if events > room or not groups:
            groups.append([])
            room = MOST_EVENTS
        groups[-1].append(text)
        room -= events
    return groups


def joined(head: dict, parts: list[bytes]) -> bytes:
    """JSON, and bytes behind it: nothing of that is code."""
    return json.dumps({**head, "lengths": list(map(len, parts))}).encode() + b"\n" + b"".join(parts)


def apart(raw: bytes) -> tuple[dict, list[bytes]]:
    line, _, rest = raw.partition(b"\n")
    head, at, parts = json.loads(line), 0, []
    for length in head.pop("lengths"):
        parts.append(rest[at:at + length])
        at += length
    return head, parts


class Facts:
    """What some recordings say: condensed traces, which are one once they are merged, and what is known beside them."""

    def __init__(self, texts: list[bytes] | None = None) -> None:
        self.texts = texts or []
        self.orders: Table = {}
        self.lists: Table = {}  # the recordings of which something is to be said
        self.counts: Table = {}  # how many recordings there are, and the like
        self.locks: dict[bytes, int] = {}  # in how many orders each single lock is that is kept
        self.bad: list[tuple[Number, str, bool]] = []  # those that can't be gathered, why, and whether that may be another one elsewhere
        self.sums: dict[Number, int] = {}  # of what each recording says
        self.listed: list[Listed] = []  # the recordings of what was gathered before
        self.places: Lines = {}  # of these, which are kept
        self.lots: list[str] = []  # of these, with those that are forgotten
        self.digest = ""  # of the files of what was gathered before
        self.room = MOST_KEYS  # for single locks

    def packed(self) -> bytes:
        """All of it as bytes that can come from anywhere."""
        tables = [self.orders, self.lists, self.counts]
        lots = lots_in(*tables)
        texts = [text_of_table(table, lots) for table in tables] + [text_of_recordings(self.listed, lots), text_of_lines(self.places)] + self.texts
        said = {"lots": lots, "room": self.room, "locks": {text_of(name): count for name, count in self.locks.items()},
                "bad": [[words_of_number(number), why, may_differ] for number, why, may_differ in self.bad],
                "sums": {words_of_number(number): total for number, total in self.sums.items()}}
        return zlib.compress(joined(said, texts), 1)

    @classmethod
    def unpacked(cls, raw: bytes) -> Facts:
        facts, (said, texts) = cls(), apart(zlib.decompressobj().decompress(raw, MOST_OF_RESULT))
        facts.orders, facts.lists, facts.counts = (table_in(text, said["lots"]) for text in texts[:3])
        facts.listed, facts.places, facts.texts = recordings_in(texts[3], said["lots"]), lines_in(texts[4]), texts[5:]
        facts.room, facts.locks = int(said["room"]), {bytes_of(name): int(count) for name, count in said["locks"].items()}
        facts.bad = [(number_of_words(words), str(why), bool(may_differ)) for words, why, may_differ in said["bad"]]
        facts.sums = {number_of_words(words): int(total) for words, total in said["sums"].items()}
        return facts


def merged(program: Program, parts: Iterable[Facts]) -> Facts:
    """What several parts say together, in one condensed trace. What is long is put together by and by."""
    gathered, size = [], 0
    for part in parts:
        gathered.append(part)
        size += sum(map(len, part.texts))
        if size > MOST_AT_ONCE and len(gathered) > 1:
            gathered = [merged_at_once(program, gathered)]
            size = sum(map(len, gathered[0].texts))
    return merged_at_once(program, gathered)


def merged_at_once(program: Program, parts: list[Facts]) -> Facts:
    facts = Facts([text for part in parts for text in part.texts])
    facts.orders, facts.lists, facts.counts = (merge_tables([getattr(part, name) for part in parts]) for name in ("orders", "lists", "counts"))
    facts.places = merged_lines(part.places for part in parts)
    for part in parts:
        facts.locks.update(part.locks)
        facts.bad += part.bad
        facts.listed += part.listed
        facts.sums.update(part.sums)
        facts.room = min(facts.room, part.room)
    condense(program, facts)
    return facts


def condense(program: Program, facts: Facts) -> None:
    """Makes one trace of all. If it can't say so much, or too many keys lead to one another, as by way of a lock that stands for several, fewer
    single locks are told apart."""
    if not facts.texts:
        return
    fold(facts, TOO_MANY)
    answer = program.condensed_texts(facts.texts)
    while answer.status >= REFUSED and (TOO_LONG in answer.said or TOO_TANGLED in answer.said) and facts.locks:
        facts.room = min(facts.room, len(facts.locks)) // 2
        fold(facts, TOO_LONG if TOO_LONG in answer.said else TOO_TANGLED)
        answer = program.condensed_texts(facts.texts)
    if answer.status >= REFUSED:
        raise refusal_of(answer, facts.orders)
    facts.texts = [answer.output]


def refusal_of(answer: Answer, orders: Table) -> Refusal:
    """Why all recordings together can't be checked."""
    much = next((words for code, words in TOO_MUCH.items() if code in answer.said), "")
    counts = Counter(number for seen in orders.values() for number in seen.first)
    largest = max(counts, key=lambda number: (counts[number], number), default=())
    return TooMuch("all recordings together have " + much, largest) if much else Refusal(answer.reason)


# ---- Folding.

def fold(facts: Facts, why: bytes) -> None:
    """Folds as many single locks as there is no room for, and keeps why."""
    keys = {key for text in facts.texts for key in keys_in(text)}
    of_locks = keys_of_locks(keys, facts.locks)
    if len(keys) <= MOST_KEYS and len(of_locks) <= facts.room:
        return
    others = keys - {key for several in of_locks.values() for key in several}
    others |= {quoted(rest_of(name)) + key[-len(",0"):] for name, several in of_locks.items() for key in several}
    room = min(facts.room, MOST_KEYS - len(others))
    gone = beyond(sorted(of_locks, key=lambda name: (-facts.locks[name], name)), of_locks, room)
    facts.counts = merge_tables([facts.counts, {FOLDED_LOCKS: Seen((("", sum(not is_rest(name) for name in gone)),))}])
    facts.lists.update({FOLDED + WHY_FOLDED[why]: Seen()} if gone else {})
    for name in gone:
        del facts.locks[name]
    names = {name: rest_of(name) for name in gone}
    facts.texts = [with_names(text, names) for text in facts.texts]
    facts.orders = {entry: seen for entry, seen in facts.orders.items() if b"#" not in entry or not names.keys() & TIMED_ENTRY.split(entry)}


def keys_of_locks(keys: set[bytes], locks: dict[bytes, int]) -> dict[bytes, list[bytes]]:
    """The keys of each single lock; they differ in the subclass."""
    of_locks: dict[bytes, list[bytes]] = {}
    for key in keys:
        name = name_of_key(key)
        if name in locks:
            of_locks.setdefault(name, []).append(key)
    return of_locks


def beyond(ranked: list[bytes], of_locks: dict[bytes, list[bytes]], room: int) -> list[bytes]:
    """The locks for whose keys there is no room, from the first such one on."""
    for place, name in enumerate(ranked):
        room -= len(of_locks[name])
        if room < 0:
            return ranked[place:]
    return []
