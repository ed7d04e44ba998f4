#!/usr/bin/env python3
"""Says whether histories are well formed: check.py FILE.. prints a line for each of them, and the first record of one that isn't, by its number. Each has as
many places as records. `check.py --function FILE PROGRAM N` says in which function of a program record N has its place, and `check.py --order FILE SAID`
whether writers took the locks in the order that the program order.c has said."""
import csv
import os
import re
import struct
import subprocess
import sys

NAME = re.compile(r"[!-~]{1,64}\Z")
MODES = {prefix + mode for prefix in ("", "t", "l") for mode in ("w", "r", "rr")}
PLACES = b"places1\n"


class Refused(Exception):
    pass


def demand(is_so, what):
    if not is_so:
        raise Refused(what)


class History:
    """What is so after the records up to now."""

    def __init__(self):
        self.kinds, self.used, self.holders, self.given, self.got, self.tasks, self.steps = {}, set(), {}, set(), 0, set(), 0

    def record(self, fields):
        for name in fields:
            demand(NAME.match(name), "H3 BadName")
        if len(fields) == 2:
            self.declare(*fields)
        else:
            self.step(*fields)

    def declare(self, kind, lock):
        demand(kind in ("thread", "once") and lock not in self.kinds and lock not in self.used, "H2 BadRecord")
        self.kinds[lock] = kind

    def step(self, task, verb, about, *mode):
        demand(verb in ("take", "again", "release", "give", "get") and len(mode) == (verb == "take"), "H2 BadRecord")
        self.tasks.add(task)
        self.steps += 1
        if verb in ("give", "get"):
            demand(re.match(r"(0|[1-9][0-9]{0,9})\Z", about) and int(about) < 2 ** 32, "H2 BadRecord")
        else:
            self.used.add(about)
        getattr(self, verb)(task, about, *mode)

    def take(self, task, lock, mode):
        demand(mode in MODES, "H4 BadMode")
        holders, mode = self.holders.setdefault(lock, {}), mode.lstrip("tl")
        demand(not any("w" in (mode, other) for by, other in holders.items() if by != task), "H9 TakenByAnother")
        demand(task not in holders, "H10 TakenAgain")
        holders[task] = mode

    def again(self, task, lock):
        demand(self.holders.get(lock, {}).get(task) in ("r", "rr"), "H11 NotHeld")

    def release(self, task, lock):
        demand(self.holders.get(lock, {}).pop(task, None), "H11 NotHeld")

    def give(self, task, number):
        demand(number not in self.given, "H12 GivenTwice")
        self.given.add(number)

    def get(self, task, number):
        demand(number in self.given, "H13 NotGiven")
        self.got += 1


def read(path):
    """The history of a file, which is well formed."""
    history = History()
    with open(path, encoding="ascii", newline="") as file:
        for number, fields in enumerate(csv.reader(file), 1):
            try:
                if number == 1:
                    demand(fields == ["history", "1"], "H1 NoHeader")
                else:
                    history.record(fields)
            except Refused as refused:
                raise Refused("record %d: %s: %s" % (number, refused, ",".join(fields)))
    history.records = number
    return history


def places_of(path):
    """The places of the records there: of each its words."""
    with open(path + ".places", "rb") as file:
        demand(file.read(len(PLACES)) == PLACES, "no places")
        for _ in range(struct.unpack("<I", file.read(4))[0]):
            file.seek(struct.unpack("<I", file.read(4))[0], os.SEEK_CUR)
        each = struct.unpack("<I", file.read(4))[0]
        return list(struct.iter_unpack("<%dQ" % each, file.read()))


def function_of(path, program, number):
    """The function of the program in which the innermost caller of a record is."""
    offset = (places_of(path)[number - 1][0] & (1 << 48) - 1) - 1
    symbols = [line.split() for line in subprocess.run(["nm", program], stdout=subprocess.PIPE, check=True, text=True).stdout.splitlines()]
    return max((int(line[0], 16), line[2]) for line in symbols if len(line) == 3 and line[1] in "tT" and int(line[0], 16) <= offset)[1]


def takers_in(path):
    """Of each lock who took it as a writer, one after the other."""
    takers = {}
    with open(path, encoding="ascii", newline="") as file:
        for fields in csv.reader(file):
            if fields[1] == "take" and fields[3].lstrip("tl") == "w":
                takers.setdefault(fields[2], []).append(fields[0])
    return takers


def difference(path, said):
    """What isn't so in the history of a program that has said who took its locks. It knows its threads by numbers."""
    found, tasks = takers_in(path), {}
    with open(said, encoding="ascii") as file:
        for name, *threads in (line.split() for line in file):
            takers = next((takers for lock, takers in found.items() if lock == name or lock.startswith("init_%s+" % name)), [])
            if len(takers) != len(threads):
                return "%s was taken %d times, and not %d" % (name, len(threads), len(takers))
            for number, (thread, task) in enumerate(zip(threads, takers), 1):
                if tasks.setdefault(thread, task) != task:
                    return "%s was taken by %s, and not by %s, when it was taken for the %d. time" % (name, tasks[thread], task, number)
    return "" if len(set(tasks.values())) == len(tasks) else "two threads are one task"


def main(paths):
    if paths[:1] == ["--order"]:
        print(difference(paths[1], paths[2]) or "the same")
        return 0
    if paths[:1] == ["--function"]:
        print(function_of(paths[1], paths[2], int(paths[3])))
        return 0
    status = 0
    for path in paths:
        try:
            history = read(path)
            demand(len(places_of(path)) == history.records, "not a place for each record")
            print("%s: %d steps of %d tasks, %d locks, %d messages" % (path, history.steps, len(history.tasks), len(history.used), len(history.given)))
        except Refused as refused:
            print("%s: %s" % (path, refused))
            status = 1
    return status


if __name__ == "__main__":
    sys.exit(main(sys.argv[1:]))
