"""Histories that are made of the steps which the recorders of languages write (recorders/log.md, "Steps")."""
import os
import shutil
import struct
import tempfile
import unittest

from lockdep.finish import log_traces
from lockdep.finish.log_history import BEGINS, BREAKS, GETS, GIVES, JOINS, NAMES, PASSES, RELEASES, TAKES
from lockdep.places.places import Places

WRITE, TRY, READ, TIMED = 0, 1, 3, 6
# A process whose locks a and b, and c, of a class that has several of its name, have the keys 1, 2 and 3; and two tasks, the members 1 and 2.
LOG = ["process 1 1", "C 1\ta\tx:1 f\tmade in", "C 2\tb\tx:2 f\tmade in", "C 3\tc\tx:3 f\tmade in", "K 1 1 1", "K 2 2 1", "K 3 3 0",
       "P 1\tx:7 g\tx:9 main", "J 1 1", "A 1 8 0", "R 1 10 0", "E 1", "J 2 2", "A 2 16 0", "R 2 18 0", "E 2"]
NAMED = [(1, NAMES, 1, 1), (1, NAMES, 2, 2)]


def word(verb, about, place=0, mode=0):
    return verb | mode << 4 | about << 8 | place << 36


def takes(member, lock, mode=WRITE, place=0):
    return member, TAKES, lock, place, mode


def releases(member, lock):
    return member, RELEASES, lock


def chunk_of_all(steps):
    raw = b"".join(struct.pack("<2Q", member, word(*of)) for member, *of in steps)
    return struct.pack("<2Q", 0, len(raw)) + raw


def chunk_of(member, steps, room=8):
    """A chunk of a member, whose steps come with their times. The rest of it isn't written yet."""
    raw = b"".join(struct.pack("<2Q", time, word(*of)) for time, *of in steps).ljust(16 * room, b"\0")
    return struct.pack("<2Q", member, len(raw)) + raw


class Orders(unittest.TestCase):
    def setUp(self):
        self.room = tempfile.mkdtemp()
        self.addCleanup(shutil.rmtree, self.room)
        self.raw, self.made, self.histories = (os.path.join(self.room, name) for name in ("raw", "made", "history"))
        for folder in (self.raw, self.made, self.histories):
            os.mkdir(folder)

    def process(self, chunks, log=(), end=0, number=1):
        with open(os.path.join(self.raw, "%d-0" % number), "w", encoding="utf-8") as file:
            file.write("".join(line + "\n" for line in LOG + list(log)))
        if chunks is not None:
            with open(os.path.join(self.raw, "%d-0-history" % number), "wb") as file:
                file.write(struct.pack("<Q", end) + b"".join(chunks))

    def finish(self):
        """The counts of what isn't in the histories."""
        made, _ = log_traces.finish(self.made, self.raw, "python", False, histories=self.histories)
        return {count.code: count.number for count in made.counts if count.code.startswith("history-")}

    def text(self, name):
        path = os.path.join(self.histories, name)
        if not os.path.exists(path):
            return None
        with open(path, encoding="utf-8") as file:
            return file.read()

    def history(self, steps, **about):
        """The records of the history of one process, without its first one, for steps without times or chunks."""
        for folder in (self.raw, self.histories):
            shutil.rmtree(folder)
            os.mkdir(folder)
        self.process(steps if steps and isinstance(steps[0], bytes) else [chunk_of_all(NAMED + steps)], **about)
        self.counts = self.finish()
        return self.text("process-0001.csv").replace("task-000", "t").split("\n")[1:-1]

    def test_rows(self):
        both = [takes(1, 1), takes(1, 2), releases(1, 2), releases(1, 1)]
        for about, steps, wanted in (
                ("nothing", [], []),
                ("two locks", both, ["t1,take,a#1,w", "t1,take,b#1,w", "t1,release,b#1", "t1,release,a#1"]),
                ("modes", [takes(1, 1, TRY), releases(1, 1), takes(1, 1, TIMED), releases(1, 1), takes(1, 2, 5), releases(1, 2)],
                 ["t1,take,a#1,tw", "t1,release,a#1", "t1,take,a#1,lw", "t1,release,a#1", "t1,take,b#1,lr", "t1,release,b#1"]),
                ("at once", [takes(1, 1), (1, PASSES, 2), releases(1, 1)], ["t1,take,a#1,w", "t1,take,b#1,w", "t1,release,b#1", "t1,release,a#1"]),
                ("again", [takes(1, 1), takes(1, 1), releases(1, 1), releases(1, 1)], ["t1,take,a#1,w", "t1,release,a#1"]),
                ("a reader again", [takes(1, 1, READ), takes(1, 1, READ), releases(1, 1), releases(1, 1)],
                 ["t1,take,a#1,r", "t1,again,a#1", "t1,release,a#1"]),
                ("two readers", [takes(1, 1, READ), takes(2, 1, READ), releases(1, 1), releases(2, 1)],
                 ["t1,take,a#1,r", "t2,take,a#1,r", "t1,release,a#1", "t2,release,a#1"]),
                ("messages, of which one is got", [(1, GIVES, 7), (1, GIVES, 8), (2, GETS, 8), (2, GETS, 9)], ["t1,give,1", "t2,get,1"]),
                ("a thread without a name", [takes(5, 1), releases(5, 1)], ["thread-1,take,a#1,w", "thread-1,release,a#1"])):
            with self.subTest(about):
                self.assertEqual(self.history(steps), wanted)
                self.assertEqual((self.counts, self.text("process-0001.left-out")), ({}, None))

    def test_a_thread_that_is_started_and_joined(self):
        for mode, end in ((WRITE, "w"), (TIMED, "lw")):
            steps = [(1, GIVES, 3), (2, BEGINS, 3), takes(2, 1), releases(2, 1), (1, JOINS, 2, 0, mode)]
            self.assertEqual(self.history(steps), [
                "thread,thread:t2", "t1,give,1", "t2,get,1", "t2,take,thread:t2,tw", "t2,take,a#1,w", "t2,release,a#1", "t2,give,2", "t2,release,thread:t2",
                "t1,take,thread:t2," + end, "t1,release,thread:t2", "t1,get,2"])
        goes_on = [(2, BEGINS, 0), takes(2, 1), (1, JOINS, 2), releases(2, 1)]  # (so it wasn't its end that was waited for)
        self.assertEqual(self.history(goes_on), ["thread,thread:t2", "t2,take,thread:t2,tw", "t2,take,a#1,w", "t2,release,a#1", "t2,release,thread:t2"])

    def test_locks_of_one_name_are_told_apart(self):
        steps = [(1, NAMES, 5, 3), (1, NAMES, 6, 3), takes(1, 5), takes(1, 6), releases(1, 6), releases(1, 5)]
        self.assertEqual(self.history(steps), ["t1,take,c#rest,w", "t1,take,c#rest+2,w", "t1,release,c#rest+2", "t1,release,c#rest"])
        self.assertEqual(self.history([(1, NAMES, 5, 3), takes(1, 5), (1, NAMES, 5, 1), releases(1, 5), takes(1, 2), releases(1, 2)])[0], "t1,take,a#1+2,w")

    def test_what_isnt_well_formed_leaves_a_lock_out(self):
        for steps, code, word_of in (([takes(1, 1), takes(2, 1), releases(1, 1), releases(2, 1)], "history-taken-by-another", "taken-by-another"),
                                     ([takes(1, 1, READ), takes(1, 1), releases(1, 1), releases(1, 1)], "history-taken-by-another", "taken-by-another"),
                                     ([takes(1, 1, READ), takes(2, 1), releases(1, 1)], "history-taken-by-another", "taken-by-another"),
                                     ([takes(1, 1), releases(2, 1)], "history-not-held", "not-held")):
            self.assertEqual(self.history(steps + [takes(2, 2), releases(2, 2)]), ["t2,take,b#1,w", "t2,release,b#1"])
            self.assertEqual((self.counts, self.text("process-0001.left-out")), ({code: 1}, "a#1 %s\n" % word_of))

    def test_locks_that_it_lacks(self):
        unordered = ["J 3 0", "A 3 8 0", "R 3 10 0"]
        for about, steps, log, wanted in (
                ("taken by a task without steps", [takes(1, 1), releases(1, 1), takes(2, 2), releases(2, 2)], unordered, "a#1 absent\n"),
                ("in a trace alone", [takes(1, 1), releases(1, 1)], ["A 3 24 0", "R 3 26 0"], "c#rest absent\n"),
                ("a wait that was broken off", [takes(1, 1), releases(1, 1), (1, BREAKS, 2)], [], "b#1 broken-off\n")):
            with self.subTest(about):
                self.history(steps, log=log)
                self.assertEqual(self.text("process-0001.left-out"), wanted)
        self.history([takes(1, 1), releases(1, 1)], log=["A 3 24 0", "R 3 26 0", "S history-ends 1"])
        self.assertIsNone(self.text("process-0001.left-out"))  # (it may be in what is missing)

    def test_steps_in_the_order_of_their_times(self):
        one = chunk_of(1, [(1, NAMES, 1, 1), (2, TAKES, 1), (5, RELEASES, 1)])
        two = chunk_of(2, [(3, NAMES, 2, 2), (4, TAKES, 2), (8, RELEASES, 2)])
        later = chunk_of(1, [(9, TAKES, 1), (10, RELEASES, 1)], 2)
        wanted = ["t1,take,a#1,w", "t2,take,b#1,w", "t1,release,a#1", "t2,release,b#1", "t1,take,a#1,w", "t1,release,a#1"]
        for chunks, end, count in (([one, two, later], 0, 6), ([two, one, later], 0, 6), ([two, one, later, chunk_of(0, [], 0), b"x" * 99], 0, 6),
                                   ([two, one, later], 9, 4), ([one, two, later], 5, 2), ([two, one, later[:-16]], 0, 5)):
            self.assertEqual(self.history(chunks, end=end), wanted[:count])
            self.assertEqual(self.counts, {"history-ends": 1} if end else {})

    def test_what_ends_before_its_process(self):
        for log, wanted in ((["S history-ends 1"], {"history-ends": 1}), (["S history-ends 1", "S history-ends 0"], {})):
            self.history([takes(1, 1), releases(1, 1)], log=log)
            self.assertEqual(self.counts, wanted)
        self.process(None, number=2)  # (which took locks, and has no steps at all)
        self.assertEqual(self.finish(), {"history-ends": 1})

    def test_the_steps_of_a_handler_are_those_of_its_thread(self):
        log = ["J 3 1", "H 1 1 5\tSIGUSR1\thandles\tx", "U 3 3 1", "A 3 24 0", "R 3 26 0"]
        for lines in (log, log[:1] + ["U 1 1 0 1"] + log[1:]):
            self.assertEqual(self.history([(1, NAMES, 3, 3), takes(1, 3), releases(1, 3)], log=lines), ["t1,take,c#rest,w", "t1,release,c#rest"])

    def test_a_process_without_the_global_lock_has_none(self):
        self.process([chunk_of_all(NAMED + [takes(1, 1), releases(1, 1)])], log=["S unguarded 1"])
        self.assertEqual((self.finish(), os.listdir(self.histories)), ({}, []))

    def test_the_place_of_each_record(self):
        self.assertEqual(self.history([takes(1, 1, place=1), releases(1, 1), (1, GIVES, 2), (2, BEGINS, 2), (1, JOINS, 2, 1)])[0], "thread,thread:t2")
        places = Places(os.path.join(self.histories, "process-0001.csv"))
        found = [[place.module for place in places.callers(number)] for number in (1, 2, 3, 4, 99)]
        self.assertEqual(found, [[], [], ["x:7 g", "x:9 main"], [], []])


if __name__ == "__main__":
    unittest.main()
