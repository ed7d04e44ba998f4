"""A finding in plain words: what is wrong, a row for each thread, whether it can happen, and what mends it."""
from __future__ import annotations

import io
import unittest
from unittest import mock

from cases import between, circle, circle_by, finding, findings
from lockdep.ask.verdict import Recorded
from lockdep.binaries.symbols import Address, Frame
from lockdep.places.places import Made
from lockdep.places.sources import Sources
from lockdep.program.events import Event, Held
from lockdep.program.findings import Finding
from lockdep.program.schedules import APART, POSSIBLE, Forced, Place, Ring, Waiting
from lockdep.program.verdicts import Judgement, Reason, Verdict
from lockdep.record.handlers import Handler
from lockdep.record.provoked import Happened
from lockdep.say.groups import groups_of
from lockdep.say.sentences import Names, lines_of, lines_that_make, mending, rows_of, title, verdict_lines
from lockdep.say.terminal import Writer
from lockdep.say.text import Text

HISTORY = "t/history/process-0001.csv"


def at(*words: str) -> list[Address]:
    """Callers as places in words, innermost first."""
    return [Address(each, None) for each in words]


def event(record: int) -> Event:
    return Event(HISTORY, record)


def waiting(task: int, holds: str, lock: str, record: int, mode: str = "w") -> Waiting:
    """A task that took one lock at a record and waits for another one at the next."""
    return Waiting(Place("task-%04d" % task, event(record + 1)), lock, mode, (Held(holds, "w", event(record)),))


def before(place: Place) -> Place:
    """The last step of a task before this one."""
    return Place(place.task, event(place.event.record - 1))


def ring(*waits: Waiting, joins: bool = False, verdict: str = POSSIBLE, because: tuple[Forced, ...] = ()) -> Ring:
    return Ring(verdict, joins, waits, tuple(before(wait.place) for wait in waits) if verdict == POSSIBLE else (), because)


def judged(said: dict, judgement: Judgement) -> Finding:
    found = finding(said)
    found.judged = judgement
    return found


ABBA = circle("a/0", "b/0", between=between("locks", circle("a/0", "b/0")))


class OfAFinding(unittest.TestCase):
    def setUp(self) -> None:
        self.sources = Sources()

    def take(self, places: dict[int, tuple[str, ...]]) -> None:
        """Where records of the history come from, with their callers."""
        self.sources.take_callers({event(record): at(*words) for record, words in places.items()})
        self.sources.ask()

    def names(self, found: Finding) -> Names:
        return Names([found], self.sources)

    def title(self, said: dict, **more: object) -> str:
        found = finding(said)
        for name, value in more.items():
            setattr(found, name, value)
        return title(found, self.names(found))

    def lines(self, found: Finding) -> list[str]:
        return lines_of(found, self.sources, Recorded([]), self.names(found))


class Titles(OfAFinding):
    def test_cycles(self) -> None:
        rows = ((("a/0", "b/0"), "a and b are taken in both orders"), (("a/0", "b/0", "c/1"), "a, b and c (subclass 1) are taken in a ring"),
                (("x/0", "y/0", "z/0", "y/0"), "x, y and z are taken in a ring"), (("a#1/0", "a#2/0"), "a#1 and a#2 are taken in both orders"),
                (("state/0", "thread:worker/0"), "the thread worker is joined while state is held, which it takes"),
                (("thread:worker/0", "state/0"), "the thread worker is joined while state is held, which it takes"),
                (("a/0", "thread:one/0", "b/0"), "a, the thread one and b are waited for in a ring"), (("a/0",), "a lock of a is taken while one is held"))
        for keys, wanted in rows:
            self.assertEqual(self.title(circle(*keys)), wanted)

    def test_a_class_in_itself(self) -> None:
        for locks, wanted in ((("p#1/0", "p#2/0"), "2 locks of p are taken in both orders"), (("p#1/0", "p#2/0", "p#3/0"), "3 locks of p are taken in a ring"),
                              (("p#1/0",), "p is taken while it is held"), (("p#rest/0",), "a lock of p is taken while one is held")):
            self.assertEqual(self.title(circle("p/0", between=between("locks", circle(*locks)))), wanted)

    def test_a_class_in_itself_has_another_lock(self) -> None:
        for level, wanted in (("classes", ("holds one lock of p", "waits for another one")), ("unknown", ("holds p", "waits for p"))):
            found = finding(circle("p/0", between=between(level)))
            row, = rows_of(found, self.sources, self.names(found))
            self.assertEqual(tuple(cell.partition(",")[0] for cell in row[1:3]), wanted)

    def test_the_locks_of_the_rows_are_named(self) -> None:
        for locks, wanted in ((("a#1/0", "b#2/0"), "a and b are taken in both orders"), (("a#1/0", "c/0"), "a and c are taken in both orders"),
                              (("S::m@00000001#1/0", "b/0"), "S::m and b are taken in both orders"), (("b/0", "c#1/0", "d/0"), "b, c and d are taken in a ring"),
                              (("b#1/0", "b#2/0"), "2 locks of b are taken in both orders")):
            self.assertEqual(self.title(circle("a/0", "b/0", between=between("locks", circle(*locks)))), wanted)
        said = circle("a/0", "b/0", between=between("locks", circle("a/0", "b/0")))
        found = judged(said, Judgement(Verdict.POSSIBLE, ring=ring(waiting(1, "c", "d", 2), waiting(2, "d", "c", 5))))
        self.assertEqual(title(found, self.names(found)), "c and d are taken in both orders")

    def test_a_file_stands_before_a_name_that_two_have(self) -> None:
        self.assertEqual(self.title(circle("main.c:a/0", "lib.c:b/0")), "a and b are taken in both orders")
        self.assertEqual(self.title(circle("main.c:a/0", "lib.c:a/0")), "main.c:a and lib.c:a are taken in both orders")
        self.assertEqual(self.title(circle("main.py:7/0", "Pool::m/0")), "main.py:7 and Pool::m are taken in both orders")

    def test_a_lock_of_code_is_called_by_the_line_that_makes_it(self) -> None:
        def take(lines: dict[str, tuple[str, ...]]) -> None:
            for number, (name, places) in enumerate(lines.items(), 1):
                record = Event("t/classes", number)
                self.sources.take_callers({record: at(*places)})
                self.sources.take_class(Made(name, Address(places[0], None), "init", name, name, record))
            self.sources.ask()
        take({"q:2": ("q.py:2 <module>",), "queue.__init__:42~q:3": ("q.py:3 <module>",)})
        self.assertEqual(self.title(circle("q:2/0", "queue.__init__:42~q:3/0")), "the lock made at q.py:2 and the lock made at q.py:3 are taken in both orders")
        self.assertEqual(self.title(circle("q:2/0")), "a lock made at q.py:2 is taken while one is held")
        take({"thread:main+0x2d": ("s.c:14 main",)})
        self.assertEqual(self.title(circle("state/0", "thread:main+0x2d/0")), "the thread started at s.c:14 is joined while state is held, which it takes")
        take({"make+0x1~main+0x5": ("s.c:3 make", "s.c:9 main"), "make+0x1~main+0x9": ("s.c:3 make", "s.c:10 main"), "main+0x7": ("s.c:12 main",)})
        self.assertEqual(self.title(circle("make+0x1~main+0x5/0", "main+0x7/0")), "the lock made at s.c:3 and the lock made at s.c:12 are taken in both orders")
        self.assertEqual(self.title(circle("make+0x1~main+0x5/0", "make+0x1~main+0x9/0")), "the lock made at s.c:9 and the lock made at s.c:10 are taken in both orders")
        self.assertEqual(self.title(circle("main+0x7#1/0", "main+0x7#2/0")), "lock 1 made at s.c:12 and lock 2 made at s.c:12 are taken in both orders")
        self.assertEqual(self.title(circle("main+0x7/0", between=between("locks", circle("main+0x7#1/0", "main+0x7#2/0")))), "2 locks made at s.c:12 are taken in both orders")
        self.assertEqual(self.title(circle("main+0x7/0", "other+0x1/0")), "main+0x7 and other+0x1 are taken in both orders")

    def test_a_member_is_called_by_its_type(self) -> None:
        for keys, wanted in ((("cls.cc:Store::lock@353d72de/0", "b/0"), "Store::lock and b"), (("tested.store.mu@0ba017e8#1/0", "b/0"), "tested.store.mu and b"),
                             (("a.cc:Store::lock@00000001/0", "b.cc:Store::lock@00000002/0"), "a.cc:Store::lock and b.cc:Store::lock"),
                             (("S::m@00000001#1/0", "S::m@00000001#2/0"), "S::m#1 and S::m#2"), (("queue.__init__:42~q:3/0", "b/0"), "queue.__init__:42~q:3 and b"),
                             (("S::m@00000001/0", "S::m@00000002/0"), "S::m@00000001 and S::m@00000002"),
                             (("S::m@00000001#1/0", "S::m@00000002#1/0"), "S::m#1@00000001 and S::m#1@00000002"),
                             (("S::m@00000001#1/0", "S::m@00000002#1/1"), "S::m#1@00000001 and S::m#1@00000002 (subclass 1)")):
            self.assertEqual(self.title(circle(*keys)), wanted + " are taken in both orders")
        for number, places in enumerate((("s.c:9 main",), ("s.c:10 main",), ("s.c:3 make", "s.c:11 main"), ("s.c:3 make", "s.c:12 main")), 1):
            record = Event("t/classes", number)
            self.sources.take_callers({record: at(*places)})
            self.sources.take_class(Made("S::m@0000000%d" % number, Address(places[0], None, True), "heap", "main+0x1", "S::m", record))
        self.sources.ask()
        self.assertEqual(self.title(circle("S::m@00000003#1/0", "S::m@00000004#1/0")), "S::m#1 (made at s.c:11) and S::m#1 (made at s.c:12) are taken in both orders")
        self.assertEqual(self.title(circle("S::m@00000001#1/0", "S::m@00000003#1/0")), "S::m#1 (made at s.c:9) and S::m#1 (made at s.c:3) are taken in both orders")
        self.assertEqual(self.title(circle("S::m@00000001#1/0", "S::m@00000002#1/0")), "S::m#1 (made at s.c:9) and S::m#1 (made at s.c:10) are taken in both orders")
        self.assertEqual(self.title(circle("S::m@00000001/0", "S::m@00000002/0")), "S::m (made at s.c:9) and S::m (made at s.c:10) are taken in both orders")

    def test_names_that_end_in_a_sum(self) -> None:
        self.assertEqual(self.title(circle("lock#3567b4f1/0", "b/0")), "lock and b are taken in both orders")
        for name, place in (("lock", "a.c:4"), ("lock#3567b4f1", "b.c:7")):
            self.sources.take_class(Made(name, Address(place, None), "static", name, name))
        self.sources.symbols.want(Address("a.c:4", None)), self.sources.symbols.want(Address("b.c:7", None))
        self.sources.ask()
        self.assertEqual(self.title(circle("lock/0", "lock#3567b4f1/0")), "a.c:lock and b.c:lock are taken in both orders")

    def test_interrupts_and_signals(self) -> None:
        double = {"type": "double", "irq": "hardirq", "key": "a/0", "lines": ["double hardirq a/0"]}
        inversion = {"type": "inversion", "irq": "softirq", "keys": ["a/0", "b/0"], "lines": ["inversion softirq a/0 b/0"]}
        other = {"type": "other", "key": "a/0", "lines": ["other a/0"]}
        handler = Handler("SIGHUP", "on_hup")
        self.assertEqual(self.title(double), "a is taken in a hardirq, and held with hardirqs on")
        self.assertEqual(self.title(inversion), "a is taken in a softirq, and held where b is taken, which is held with softirqs on")
        self.assertEqual(self.title(other), "other a/0")
        self.assertEqual(self.title(double, handler=handler), "a is taken by the handler of SIGHUP while other code holds it")
        self.assertEqual(self.title(inversion, handler=handler),
                         "a is taken by the handler of SIGHUP, and held where b is taken, which other code holds when SIGHUP comes in")
        self.assertEqual(self.title(dict(double, key="libc:malloc/0"), handler=handler),
                         "the handler of SIGHUP calls malloc, free or the like, and may interrupt other code in such a call")


    def test_no_line_of_the_c_library_makes_a_lock(self) -> None:
        """A program without lines has its static objects made by a call of the C library's, which may have lines."""
        start, own = Frame("call_init", "csu/libc-start.c", 145, "libc.so.6+27376"), Frame("main", "main.c", 7, "program+7")
        for frames, wanted in (([Frame("", "", 0, "program+b5"), start], {}), ([start, own], {"program+0xb5": "main.c:7"})):
            sources = mock.Mock(made_as=lambda kind: [kind], frames_of_callers=lambda made, frames=frames: frames)
            self.assertEqual({kind: line.rpartition(" ")[2] for kind, line in lines_that_make(["program+0xb5"], sources).items()}, wanted)


class Rows(OfAFinding):
    def rows(self, *waits: Waiting) -> list[tuple[str, str, str, str]]:
        found = judged(ABBA, Judgement(Verdict.POSSIBLE, ring=ring(*waits)))
        return rows_of(found, self.sources, self.names(found))

    def test_the_steps_that_stand_still(self) -> None:
        self.take({2: ("m.c:9 pays",), 3: ("m.c:10 pays",), 5: ("m.c:40 opens",), 6: ("m.c:18 audits",)})
        self.assertEqual(self.rows(waiting(1, "a", "b", 2), waiting(2, "b", "a", 5, "r")), [
            ("pays", "holds a, m.c:9", "waits for b, m.c:10", "thread 1"),
            ("audits", "holds b, m.c:40 in opens", "waits for a as a reader, m.c:18", "thread 2")])

    def test_callers_stand_only_where_places_are_alike_without(self) -> None:
        self.take({2: ("w.c:1 lock", "m.c:9 pays", "m.c:30 main"), 3: ("w.c:1 lock", "m.c:10 pays", "m.c:30 main"),
                   5: ("w.c:1 lock", "m.c:17 audits"), 6: ("w.c:1 lock", "m.c:18 audits")})
        self.assertEqual(self.rows(waiting(1, "a", "b", 2), waiting(2, "b", "a", 5)), [
            ("lock", "holds a, w.c:1 < pays at m.c:9", "waits for b, w.c:1 < pays at m.c:10", "thread 1"),
            ("lock", "holds b, w.c:1 < audits at m.c:17", "waits for a, w.c:1 < audits at m.c:18", "thread 2")])

    def test_a_lock_that_a_function_takes_for_its_caller_has_that_one_too(self) -> None:
        """Which still runs when the thread waits."""
        self.take({2: ("l.h:5 lock", "m.c:4 audit", "m.c:30 main"), 3: ("m.c:9 balance", "m.c:7 audit", "m.c:30 main"), 5: ("m.c:17 note",), 6: ("m.c:18 note",)})
        self.assertEqual(self.rows(waiting(1, "a", "b", 2), waiting(2, "b", "a", 5)), [
            ("balance", "holds a, l.h:5 in lock < audit at m.c:4", "waits for b, m.c:9", "thread 1"), ("note", "holds b, m.c:17", "waits for a, m.c:18", "thread 2")])

    def test_a_caller_whose_function_is_not_known(self) -> None:
        self.take({2: ("w.c:1 lock", "m.c:9"), 3: ("w.c:1 lock", "m.c:10"), 5: ("w.c:1 lock", "m.c:17"), 6: ("w.c:1 lock", "m.c:18")})
        self.assertEqual(self.rows(waiting(1, "a", "b", 2), waiting(2, "b", "a", 5))[0], ("lock", "holds a, w.c:1 < m.c:9", "waits for b, w.c:1 < m.c:10", "thread 1"))

    def test_places_on_one_line_are_told_apart_by_their_callers_as_far_as_they_can_be(self) -> None:
        self.take({record: ("w.c:1 both", "m.c:%d %s" % caller) for record, caller in ((2, (5, "ab")), (3, (5, "ab")), (5, (6, "ba")), (6, (6, "ba")))})
        found = judged(ABBA, Judgement(Verdict.POSSIBLE, ring=ring(waiting(1, "a", "b", 2), waiting(2, "b", "a", 5))))
        self.assertEqual([row[1] for row in rows_of(found, self.sources, self.names(found))], ["holds a, w.c:1 < ab at m.c:5", "holds b, w.c:1 < ba at m.c:6"])
        self.assertEqual(verdict_lines(found, self.sources, Recorded([])), ["possible: thread 1 stops after m.c:5, and thread 2 goes on to m.c:6"])

    def test_a_verdict_names_the_lines_by_which_a_threads_places_differ(self) -> None:
        """Not those of callers, which may stand on one line: the rows have these."""
        self.take({2: ("m.c:4 both", "m.c:30 first"), 3: ("m.c:5 both", "m.c:30 first"), 5: ("m.c:4 both", "m.c:30 second"), 6: ("m.c:5 both", "m.c:30 second")})
        found = judged(ABBA, Judgement(Verdict.POSSIBLE, ring=ring(waiting(1, "a", "b", 2), waiting(2, "b", "a", 5))))
        self.assertEqual(rows_of(found, self.sources, self.names(found))[0][1:3], ("holds a, m.c:4 < first at m.c:30", "waits for b, m.c:5 < first at m.c:30"))
        self.assertEqual(verdict_lines(found, self.sources, Recorded([])), ["possible: thread 1 stops after m.c:4, and thread 2 goes on to m.c:5"])

    def test_a_thread_may_stop_in_the_call_that_waits(self) -> None:
        """As in a condition's wait, which has released the lock that it takes again: its last step is of the line of the wait."""
        self.take({2: ("m.c:10 get",), 4: ("m.c:11 get",), 5: ("m.c:11 get",), 7: ("m.c:20 show",), 8: ("m.c:21 show",)})
        woken = Waiting(Place("task-0001", event(5)), "b", "w", (Held("a", "w", event(2)),))
        found = judged(ABBA, Judgement(Verdict.POSSIBLE, ring=ring(woken, waiting(2, "b", "a", 7))))
        self.assertEqual(verdict_lines(found, self.sources, Recorded([])), ["possible: thread 1 stops in the middle of m.c:11, and thread 2 goes on to m.c:21"])

    def test_a_place_of_which_fewer_callers_are_known_is_no_other_one(self) -> None:
        self.take({2: ("m.c:4 both", "m.c:30 main"), 3: ("m.c:5 both", "m.c:30 main"), 5: ("m.c:4 both",), 6: ("m.c:5 both", "m.c:30 main")})
        self.assertEqual([row[1:3] for row in self.rows(waiting(1, "a", "b", 2), waiting(2, "b", "a", 5))],
                         [("holds a, m.c:4", "waits for b, m.c:5"), ("holds b, m.c:4", "waits for a, m.c:5")])

    def test_a_function_without_a_line_gives_way_to_its_caller(self) -> None:
        self.take({2: ("libmine.so:0 lock", "m.c:9 pays"), 3: ("libmine.so:0 lock", "m.c:10 pays"), 5: ("libmine.so:0 lock",), 6: ("m.c:18 audits",)})
        self.assertEqual(self.rows(waiting(1, "a", "b", 2), waiting(2, "b", "a", 5)), [
            ("pays", "holds a, m.c:9", "waits for b, m.c:10", "thread 1"), ("audits", "holds b, libmine.so in lock", "waits for a, m.c:18", "thread 2")])

    def test_a_writer_before_whom_a_reader_waits_may_hold_nothing(self) -> None:
        self.take({2: ("m.c:2 r",), 3: ("m.c:3 r",), 5: ("m.c:5 s",), 6: ("m.c:6 s",), 8: ("m.c:8 w",)})
        writer = Waiting(Place("task-0003", event(8)), "b", "w", ())
        found = judged(ABBA, Judgement(Verdict.POSSIBLE, ring=ring(waiting(1, "a", "b", 2, "r"), writer, waiting(2, "b", "a", 5))))
        self.assertEqual([row[1:3] for row in rows_of(found, self.sources, self.names(found))], [
            ("holds a, m.c:2", "waits for b as a reader, m.c:3"), ("", "waits for b, m.c:8"), ("holds b, m.c:5", "waits for a, m.c:6")])
        self.assertEqual(verdict_lines(found, self.sources, Recorded([])), ["possible: thread 1 stops after m.c:2, thread 3 comes to m.c:8, and thread 2 goes on to m.c:6"])

    def test_callers_that_tell_nothing_apart_are_left_out(self) -> None:
        self.take({record: ("m.c:%d both" % (record % 3 + 1), "m.c:30 main") for record in (2, 3, 5, 6)})
        self.assertEqual([row[1:3] for row in self.rows(waiting(1, "a", "b", 2), waiting(2, "b", "a", 5))],
                         [("holds a, m.c:3", "waits for b, m.c:1"), ("holds b, m.c:3", "waits for a, m.c:1")])

    def test_a_thread_that_is_joined_and_single_locks_of_one_class(self) -> None:
        self.take({3: ("m.c:3 work",), 5: ("m.c:5 main",), 6: ("m.c:6 main",)})
        self.assertEqual([row[1:] for row in self.rows(waiting(1, "thread:work#1", "p#1@2", 2), waiting(2, "p#1@2", "thread:work#1", 5))], [
            ("has yet to end", "waits for p, m.c:3", "thread 1"), ("holds p, m.c:5", "waits for the end of work, m.c:6", "thread 2")])
        self.assertEqual([row[1].partition(",")[0] for row in self.rows(waiting(1, "p#1", "p#2", 2), waiting(2, "p#2", "p#1", 5))], ["holds p#1", "holds p#2"])

    def test_without_a_schedule_the_single_locks_and_the_first_records(self) -> None:
        found = finding(circle("a/0", "b/0", between=between("locks", circle("a#1/0", "b#1/0"))))
        self.assertEqual(rows_of(found, self.sources, self.names(found)), [
            ("", "holds a, record 2 of task-0001.csv", "waits for b, record 3 of task-0001.csv", "thread 1"),
            ("", "holds b, record 2 of task-0002.csv", "waits for a, record 3 of task-0002.csv", "thread 2")])

    def test_rows_that_are_too_long_are_broken_at_their_columns(self) -> None:
        found = judged(ABBA, Judgement(Verdict.POSSIBLE, ring=ring(waiting(1, "a", "b", 2), waiting(2, "b", "a", 5))))
        self.take({record: ("%s/m.c:%d f" % ("/long" * 12, record),) for record in (2, 3, 5, 6)})
        self.assertEqual(self.lines(found)[1:4], ["     f (thread 1)", "         holds a, %s/m.c:2" % ("/long" * 12), "         waits for b, %s/m.c:3" % ("/long" * 12)])


class Verdicts(OfAFinding):
    def setUp(self) -> None:
        super().setUp()
        self.take({2: ("m.c:9 pays",), 3: ("m.c:10 pays",), 5: ("m.c:17 audits",), 6: ("m.c:18 audits",), 8: ("m.c:17 audits",), 9: ("m.c:19 audits",)})

    def verdict(self, *judgement: object, **more: object) -> list[str]:
        return verdict_lines(judged(ABBA, Judgement(*judgement, **more)), self.sources, Recorded([]))

    def test_what_stands_still(self) -> None:
        two = waiting(1, "a", "b", 2), waiting(2, "b", "a", 5)
        self.assertEqual(self.verdict(Verdict.POSSIBLE, ring=ring(*two)), ["possible: thread 1 stops after m.c:9, and thread 2 goes on to m.c:18"])
        self.assertEqual(self.verdict(Verdict.BY_JOIN, ring=ring(*two, joins=True)), [
            "possible by a join: thread 1 stops after m.c:9, and thread 2 goes on to m.c:18, unless the thread is joined only when it has said that it is done"])
        self.assertEqual(self.verdict(Verdict.POSSIBLE, ring=ring(waiting(2, "a", "b", 5), waiting(4, "b", "c", 8), waiting(1, "c", "a", 2))), [
            "possible: threads 2 and 4 stop after m.c:17, and thread 1 goes on to m.c:10"])
        self.assertEqual(self.verdict(Verdict.POSSIBLE, ring=ring(waiting(1, "thread:t", "b", 2), waiting(2, "b", "thread:t", 5))), [
            "possible: thread 1 begins, and thread 2 goes on to m.c:18"])

    def test_what_does_not(self) -> None:
        because = Forced("task-0002", "message", event(2), None), Forced("thread-1", "message", event(2), Place("task-0002", event(6)))
        apart = ring(waiting(1, "a", "b", 2), waiting(2, "b", "a", 5), verdict=APART, because=because[1:])
        self.assertEqual(self.verdict(Verdict.APART, ring=apart), ["kept apart: in this recording, thread 2 goes on at m.c:18 only when another thread has passed m.c:9"])
        self.take({2: ("w.c:1 post", "m.c:9 pays"), 6: ("w.c:1 wait", "m.c:18 audits")})  # (both in one line of what does it for others)
        self.assertEqual(self.verdict(Verdict.APART, ring=apart), ["kept apart: in this recording, thread 2 goes on at m.c:18 only when another thread has passed m.c:9"])
        self.setUp()
        several = because[1], Forced("thread-1", "message", event(5), Place("task-0001", event(9))), because[1]
        self.assertEqual(self.verdict(Verdict.APART, ring=ring(waiting(1, "a", "b", 2), verdict=APART, because=several)), [
            "kept apart: in this recording, thread 2 goes on at m.c:18 only when another thread has passed m.c:9, and thread 1 goes on at m.c:19 only when that thread has passed m.c:17"])
        for task, later in (("main", "the main thread"), ("thread-2", "a further thread"), ("task-0012", "thread 12")):
            two = because[1], Forced(task, "message", event(5), Place("task-0001", event(9)))
            self.assertEqual(self.verdict(Verdict.APART, ring=ring(waiting(1, "a", "b", 2), verdict=APART, because=two)), [
                "kept apart: in this recording, thread 2 goes on at m.c:18 only when another thread has passed m.c:9, and thread 1 goes on at m.c:19 only when %s has passed m.c:17" % later])
        self.assertEqual(self.verdict(Verdict.APART), ["kept apart: starts, joins and messages keep these steps apart in this recording"])
        self.assertEqual(self.verdict(Verdict.NOT_SHOWN, Reason.ONE_LOCK), ["not shown: one lock was held each time"])
        self.assertEqual(self.verdict(Verdict.NOT_KNOWN, why="it is so"), ["not known: it is so"])
        self.assertEqual(verdict_lines(finding(circle("a/0", "b/0", between=between("classes"))), self.sources, Recorded([])),
                         ["between classes; no two locks were taken both ways"])
        self.assertEqual(verdict_lines(finding(circle("a/0", "b/0")), self.sources, Recorded([])), [])


class Mending(OfAFinding):
    def mend(self, said: dict) -> str:
        found = finding(said)
        return mending(found, self.sources, Recorded([]), self.names(found))

    def test_the_order_that_fewer_threads_have(self) -> None:
        self.assertEqual(self.mend(circle_by(((1, 2, 3), 4), "a/0", "b/0")),
                         "1 thread takes b first (record 2 of task-0004.csv), and 3 the other way round: take a before it")
        self.assertEqual(self.mend(circle_by(((1, 2), (3, 4)), "a/0", "b/0")), "")
        self.assertEqual(self.mend(circle_by(((1, 2), 3, 4), "a/0", "b/0", "c/0")), "")

    def test_nothing_is_said_of_what_is_kept_apart_or_shares_a_lock_with_another_finding(self) -> None:
        said = circle_by(((1, 2, 3), 4), "a/0", "b/0", between=between("locks", circle_by(((1, 2, 3), 4), "a/0", "b/0")))
        found, others = judged(said, Judgement(Verdict.NOT_KNOWN)), findings([said, circle("b/0", "c/0")])
        self.assertIn("take a before it", mending(found, self.sources, Recorded([]), self.names(found)))
        self.assertEqual(mending(found, self.sources, Recorded([]), Names(others, self.sources)), "")
        found.judged = Judgement(Verdict.APART)
        self.assertEqual(mending(found, self.sources, Recorded([]), self.names(found)), "")

    def test_a_lock_that_a_called_function_takes_is_not_taken_before(self) -> None:
        of_callee = "1 thread takes b first (m.c:10 in close), and 3 the other way round: release it before m.c:20"
        for function, wanted in (("close", "1 thread takes b first (m.c:10 in close), and 3 the other way round: take a before it"), ("leave", of_callee)):
            trace = "t/objects/task-0004.csv"
            self.sources.take_callers({Event(trace, 2): at("m.c:10 close"), Event(trace, 3): at("m.c:20 " + function)})
            self.sources.ask()
            self.assertEqual(self.mend(circle_by(((1, 2, 3), 4), "a/0", "b/0")), wanted)

    def test_a_lock_that_was_held_before_and_is_taken_again(self) -> None:
        """As by a condition's wait under another lock, which is taken with the first one held."""
        again, trace = circle_by(((1, 2, 3), 1), "a/0", "b/0"), "t/objects/task-0001.csv"
        again["orders"][1]["traces"] = {"count": 1, "first": [{"file": trace, "record": 5, "since": 3}]}
        self.assertEqual(self.mend(again), "")

    def test_a_join(self) -> None:
        self.assertEqual(self.mend(circle("state/0", "thread:worker/0")), "release state before the thread is joined")


class Written(OfAFinding):
    def test_findings_that_share_an_order(self) -> None:
        several = findings([circle("{a =}/0", "{b =}/0", other, between=between("classes")) for other in ("c/0", "d/0")])
        stream = io.StringIO()
        Text(Writer(stream, 0), self.sources, Recorded([]), several, is_verbose=False).groups(groups_of(several))
        self.assertIn("\n  1 more finding has this order, {a =} before {b =}:\n    2. {a =}, {b =} and d are taken in a ring; between classes\n", stream.getvalue())

    def test_what_provoke_made_happen(self) -> None:
        found = judged(ABBA, Judgement(Verdict.NOT_SHOWN, Reason.ONE_LOCK))
        found.happened = Happened(3, [], sent="SIGHUP was sent by `lockdep provoke`")
        self.assertEqual(self.lines(found)[3:], ["   happened in run 3 of `lockdep provoke`", "   SIGHUP was sent by `lockdep provoke`"])
        found.happened = Happened(3, [], 10.0, ("a timer is armed",))
        self.assertEqual(self.lines(found)[3:], ["   stood still for 10 s in run 3 of `lockdep provoke`: a timer is armed", "   not shown: one lock was held each time"])

    def test_the_title_and_the_verdict_stand_out_on_a_terminal_with_colours(self) -> None:
        found = judged(ABBA, Judgement(Verdict.NOT_SHOWN, Reason.ONE_LOCK))
        for has_colours, wanted in ((True, "\x1b[1m1. a and b are taken in both orders\x1b[0m\n"), (False, "1. a and b are taken in both orders\n")):
            stream = io.StringIO()
            Text(Writer(stream, 0, has_colours), self.sources, Recorded([]), [found], is_verbose=False).finding(found)
            self.assertIn("\n" + wanted, stream.getvalue())
            self.assertTrue(stream.getvalue().startswith("\n"))
        self.assertIn("\n   not shown: one lock was held each time\n", stream.getvalue())


if __name__ == "__main__":
    unittest.main()
