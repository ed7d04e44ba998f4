"""The histories of processes, from the steps that the recorders of Python, Java, Rust and Go wrote (`recorders/log.md`, "Steps"). What a history has
is what finish/histories.c of the recorder of pthreads has, which makes it of its own form."""
from __future__ import annotations

import os
import struct
from array import array

from ..base.files import opened
from ..base.words import bytes_of
from ..record.folder import HISTORY
from ..record.recorders import RECORDERS
from ..record.recording import MOST_MEGABYTES
from ..record.losses import words_of_loss
from ..record.summary import Count, put
from .log import Process, Task

TYPE_CHECKING = False  # for a tool that checks types, it is true
if TYPE_CHECKING:
    from typing import BinaryIO, Iterator
    from .class_names import Names

NAMES, TAKES, RELEASES, GIVES, GETS, BEGINS, JOINS, BREAKS, PASSES, AGAIN = range(1, 11)  # the verbs of steps, and of one more kind of record
WORDS = {TAKES: "take", RELEASES: "release", GIVES: "give", GETS: "get", AGAIN: "again"}
MODES = ("w", "tw", "", "r", "tr", "lr", "lw") + ("w",) * 9  # by their numbers; that of a release is empty
WRITERS, PLAIN_READER, TRY = (0, 1, 6), 3, 1
VERB, ABOUT, PLACE, NUMBER = 15, 8, 36, (1 << 28) - 1  # where numbers begin in the second word of a step, and their bits
OF_RECORD = (1 << ABOUT) - 1  # the mode and the verb of a record
HEAD, WORD = struct.Struct("<2Q"), 8  # of a chunk: its task and its bytes
TAKEN_BY_ANOTHER, NOT_HELD, ABSENT, BROKEN_OFF, UNSTARTED = "taken-by-another", "not-held", "absent", "broken-off", "unstarted"
COUNTED = ((TAKEN_BY_ANOTHER, "history-taken-by-another"), (NOT_HELD, "history-not-held"))
MOST_NAME = 64  # bytes of a name in a history
MAGIC = b"places2\n"


# ---- The steps of a process.

class Steps:
    """The steps that a process wrote, each a task and a word, in the order in which they came. Those of a chunk that is a task's own have times; otherwise
    each says its task, and comes after those before it in the file."""

    def __init__(self, path: str) -> None:
        self.tasks, self.times, self.words = array("Q"), array("Q"), array("Q")
        with opened(path) as file:
            self.end = int.from_bytes(file.read(WORD), "little")
            while self.read_chunk(file):
                pass
        if self.times:
            self.put_in_order()

    def read_chunk(self, file: BinaryIO) -> bool:
        head = file.read(HEAD.size)
        task, size = HEAD.unpack(head) if len(head) == HEAD.size else (0, 0)
        raw = file.read(min(size, MOST_MEGABYTES << 20))
        both = array("Q", raw[:len(raw) // HEAD.size * HEAD.size])
        firsts, words = both[::2], both[1::2]
        if 0 in words:  # (nothing was written from there on)
            del firsts[words.index(0):], words[words.index(0):]
        self.words += words
        self.tasks += array("Q", [task]) * len(words) if task else firsts
        if task:
            self.times += firsts
        return size > 0

    def put_in_order(self) -> None:
        order = sorted(range(len(self.times)), key=self.times.__getitem__)
        if self.end:
            del order[sum(time < self.end for time in self.times):]
        self.tasks, self.words = array("Q", map(self.tasks.__getitem__, order)), array("Q", map(self.words.__getitem__, order))

    def joined(self) -> dict[int, int]:
        """The tasks that are joined, each with the place of its last step."""
        last = dict(zip(self.tasks, range(len(self.tasks))))
        return {task: last[task] for task in {word >> ABOUT & NUMBER for word in self.words if word & VERB == JOINS} if task in last}


# ---- What becomes of them.

class Lock:
    """A lock: its key in the log, or the member that it is the life of; who has it, each with how often and whether as a writer; and why it is left out."""
    __slots__ = ("key", "life", "holders", "fault", "name")

    def __init__(self, key: int = 0, life: Member | None = None) -> None:
        self.key, self.life, self.fault, self.name = key, life, "", ""
        self.holders: dict[int, list[int]] = {}

    def take(self, member: int, is_writer: bool) -> bool | None:
        """A member takes it. Returns whether it had it before; nothing if the lock is left out."""
        own, holders = self.holders.get(member), self.holders
        if not holders and not self.fault:
            holders[member] = [1, is_writer]
            return False
        others = len(holders) - (own is not None)
        if others and (is_writer or any(held[1] for by, held in holders.items() if by != member)) or own and is_writer and not own[1]:
            self.fault = self.fault or TAKEN_BY_ANOTHER
        if self.fault:
            return None
        if own:
            own[0] += 1
        else:
            holders[member] = [1, is_writer]
        return own is not None

    def release(self, member: int) -> bool:
        """Whether a member doesn't have it any more, which releases it."""
        own = self.holders.get(member)
        if own is None:
            self.fault = self.fault or NOT_HELD
        if self.fault or not own:
            return False
        own[0] -= 1
        if not own[0]:
            del self.holders[member]
        return not own[0]


class Member:
    """What takes steps, by its number; its life, if it was seen to start; and the message that who joins it gets."""
    __slots__ = ("number", "name", "task", "life", "end")

    def __init__(self, number: int) -> None:
        self.number, self.name, self.end = number, "", 0
        self.task: Task | None = None
        self.life = 0  # the number of its lock


class History:
    """What a process did. Its records have two words: a member and what it is about, and a place, a mode and a verb."""

    def __init__(self, process: Process, steps: Steps) -> None:
        self.process, self.members, self.locks, self.by_number = process, {}, [Lock()], {}
        self.abouts, self.ways = array("Q"), array("Q")
        self.messages: dict[int, bool] = {}  # those that were given, each with whether somebody gets it
        self.own = 0  # how many messages are the history's own
        self.keys: set[int] = set()  # all that locks had
        self.broken_off: set[int] = set()  # those of locks for which a wait was broken off
        self.find_tasks()
        ends = {at: self.member(number) for number, at in steps.joined().items()}
        for number in set(steps.tasks):
            self.member(number)
        for at, (number, word) in enumerate(zip(steps.tasks, steps.words)):
            self.take_step(self.members[number], word & VERB, word >> 4 & 15, word >> ABOUT & NUMBER, word >> PLACE)
            if at in ends:
                self.end(ends[at])

    def member(self, number: int) -> Member:
        if number not in self.members:
            self.members[number] = Member(number)
        return self.members[number]

    def find_tasks(self) -> None:
        """Finds the task of each member, by whose trace it is called: the thread's own first one, rather than one of the runs of handlers in it."""
        for task in sorted(self.process.tasks.values(), key=lambda task: task.source != 0):
            member = self.member(task.member) if task.member else None
            if member and member.task is None:
                member.task = self.process.tasks.get(task.first or 0, task)

    # ---- A step.

    def take_step(self, member: Member, verb: int, mode: int, about: int, place: int) -> None:
        if verb == TAKES:
            self.take(member, self.lock_at(about), mode, place)
        elif verb == RELEASES:
            self.release(member, self.lock_at(about))
        elif verb == PASSES:
            self.take(member, self.lock_at(about), mode, place)
            self.release(member, self.lock_at(about))
        elif verb == NAMES:
            self.locks[self.lock_at(about)].key = place
            self.keys.add(place)
        elif verb == GIVES:
            self.give(member, 2 * about, place)
        elif verb == GETS:
            self.get(member, 2 * about, place)
        elif verb == BEGINS:
            self.begin(member, 2 * about)
        elif verb == BREAKS:
            self.broken_off.add(about)
        elif verb == JOINS:
            self.join(member, self.member(about), mode, place)

    def lock_at(self, number: int) -> int:
        if number not in self.by_number:
            self.by_number[number] = len(self.locks)
            self.locks.append(Lock())
        return self.by_number[number]

    def add(self, member: Member, verb: int, about: int, mode: int = 0, place: int = 0) -> None:
        self.abouts.append(member.number << 32 | about)
        self.ways.append(place << ABOUT | mode << 4 | verb)

    def take(self, member: Member, lock: int, mode: int, place: int) -> None:
        """A plain reader who takes it once more may wait behind a writer; nobody else who has it takes anything."""
        was_held = self.locks[lock].take(member.number, mode in WRITERS)
        if was_held is False:
            self.add(member, TAKES, lock, mode, place)
        elif was_held and mode == PLAIN_READER:
            self.add(member, AGAIN, lock, 0, place)

    def release(self, member: Member, lock: int, place: int = 0) -> None:
        if self.locks[lock].release(member.number):
            self.add(member, RELEASES, lock, 0, place)

    def give(self, member: Member, message: int, place: int = 0) -> None:
        self.messages[message] = False
        self.add(member, GIVES, message, 0, place)

    def get(self, member: Member, message: int, place: int = 0) -> None:
        if message in self.messages:
            self.messages[message] = True
            self.add(member, GETS, message, 0, place)

    def begin(self, member: Member, message: int) -> None:
        self.get(member, message)
        member.life = len(self.locks)
        self.locks.append(Lock(life=member))
        self.take(member, member.life, TRY, 0)

    def end(self, member: Member) -> None:
        """Who joins it gets a message from its end: nothing after the join comes before that, whoever takes the thread as a lock."""
        if member.life:
            self.own += 1
            member.end = 2 * self.own + 1  # (messages of the recorder's own are even)
            self.give(member, member.end)
            self.release(member, member.life)

    def join(self, member: Member, other: Member, mode: int, place: int) -> None:
        """A thread that isn't known to have ended has nothing that who joins it could wait for."""
        if other.end:
            self.take(member, other.life, mode, place)
            self.release(member, other.life, place)
            self.get(member, other.end, place)

    # ---- Names.

    def name_members(self) -> None:
        unnamed = 0
        for member in self.members.values():
            member.name = member.task.trace if member.task else ""
            if not member.name:
                unnamed += 1
                member.name = "thread-%d" % unnamed

    def leave_out_absent(self) -> set[int]:
        """Leaves out the locks that tasks take of which no steps are noted. Returns their keys, and those of locks that traces have and no step."""
        unordered = {code >> 3 for task in self.process.tasks.values() if task.member == 0 for code, _ in task.records}
        for lock in self.locks[1:]:
            if lock.key in unordered:
                lock.fault = ABSENT
        taken = {code >> 3 for task in self.process.tasks.values() for code, _ in task.records}
        return unordered | taken - self.keys - self.process.joins.threads

    def leave_out_unstarted(self) -> None:
        """Leaves out what threads take whose starts weren't seen: nothing says what comes before them. One thread is there from the beginning, but if
        several have no start, it isn't known which."""
        unstarted = {member.number for member in self.members.values() if not member.life}
        for about, way in zip(self.abouts, self.ways) if len(unstarted) > 1 else ():
            if way & VERB == TAKES and about >> 32 in unstarted:
                lock = self.locks[about & 0xFFFFFFFF]
                lock.fault = lock.fault or UNSTARTED

    def name_locks(self, names: Names) -> None:
        """The first lock of a name has it, and the further ones have a number behind it. A name that is too long then is cut."""
        counts: dict[str, int] = {}
        taken = set()
        for lock in self.locks[1:]:
            name = lock.name = self.name_of(lock, names)
            while lock.name in taken:
                counts[name] = counts.get(name, 1) + 1
                mark = "+%d" % counts[name]
                lock.name = name[:MOST_NAME - len(mark)] + mark
            taken.add(lock.name)

    def name_of(self, lock: Lock, names: Names) -> str:
        if lock.life is None:
            return names.of_lock(self.process.key(lock.key))
        task = lock.life.task
        is_kept = task is not None and self.process.joins.is_kept(task.life)
        return names.of_lock(self.process.key(task.life)) if task and is_kept else "thread:" + lock.life.name

    # ---- Its files.

    def write(self, path: str, names: Names, has_ended: bool, sees_starts: bool) -> None:
        self.name_members()
        if not sees_starts:
            self.leave_out_unstarted()
        absent = self.leave_out_absent()
        self.name_locks(names)
        left_out = ["%s %s" % (lock.name, lock.fault) for lock in self.locks[1:] if lock.fault in (TAKEN_BY_ANOTHER, NOT_HELD, UNSTARTED)]
        for keys, why in ((self.broken_off, BROKEN_OFF), (absent if not has_ended else (), ABSENT)):
            left_out += sorted("%s %s" % (names.of_lock(self.process.key(key)), why) for key in keys)
        if left_out:
            put(path + ".left-out", "".join(line + "\n" for line in left_out))
        lives = [lock.name for lock in self.locks[1:] if lock.life and not lock.fault]
        places = array("I", [0] * (1 + len(lives)))
        with open(path + ".csv", "w", encoding="ascii", newline="\n") as file:
            file.write("history,1\n" + "".join("thread,%s\n" % name for name in lives))
            file.writelines(self.lines(places))
        self.write_places(path + ".csv.places", places)

    def lines(self, places: array) -> Iterator[str]:
        """The records, whose places are noted. Most are like earlier ones but for their places."""
        known: dict[tuple[int, int], str] = {}
        numbers: dict[int, int] = {}
        for about, way in zip(self.abouts, self.ways):
            record = about, way & OF_RECORD
            if record not in known:
                known[record] = self.line(*record, numbers)
            if known[record]:
                places.append(way >> ABOUT)
                yield known[record]

    def line(self, about: int, way: int, numbers: dict[int, int]) -> str:
        """A record; empty if it isn't written. Messages are numbered in the order in which they are given."""
        verb, number, member = way & VERB, about & 0xFFFFFFFF, self.members[about >> 32].name
        if verb in (GIVES, GETS):
            return "%s,%s,%d\n" % (member, WORDS[verb], numbers.setdefault(number, len(numbers) + 1)) if self.messages[number] else ""
        lock = self.locks[number]
        return "" if lock.fault else "%s,%s,%s%s\n" % (member, WORDS[verb], lock.name, "," + MODES[way >> 4] if verb == TAKES else "")

    def write_places(self, path: str, places: array) -> None:
        """Writes the places of records: the texts of all, each the lines of its callers, and of each record the number of one."""
        texts = [bytes_of("\t".join(self.process.places.get(number, ()))) for number in range(max(self.process.places, default=0) + 1)]
        with open(path, "wb") as file:
            file.write(MAGIC + struct.pack("<I", len(texts)) + b"".join(struct.pack("<I", len(text)) + text for text in texts))
            places.tofile(file)


def has_history(process: Process) -> bool:
    """Whether a process has steps whose order is known. Without the interpreter's lock there is none."""
    return os.path.isfile(process.path + "-" + HISTORY) and not process.counts.get("unguarded")


def write_histories(folder: str, names: Names, processes: list[Process], recorder: str) -> list[Count]:
    """Writes the histories of all processes that have steps. Returns what isn't in them, as lines of SUMMARY."""
    all_steps = {process.path: Steps(process.path + "-" + HISTORY) for process in processes if has_history(process)}
    lost = dict.fromkeys(["history-ends"] + [code for _, code in COUNTED], 0)
    for process in processes if all_steps else []:
        steps = all_steps.pop(process.path, None)
        has_ended = process.counts.get("history-ends", 0) > 0 or (steps.end > 0 if steps else any(task.records for task in process.tasks.values()))
        lost["history-ends"] += has_ended
        if steps:
            history = History(process, steps)
            history.write(os.path.join(folder, "process-%04d" % process.number), names, has_ended, RECORDERS[recorder].sees_starts)
            for fault, code in COUNTED:
                lost[code] += sum(lock.fault == fault for lock in history.locks)
    return [Count(code, number, words_of_loss(code, recorder)) for code, number in lost.items() if number]
