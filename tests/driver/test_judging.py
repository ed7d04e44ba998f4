"""The verdict of each finding: by the rings of the recording's histories, by what it marks, by how many threads had its orders."""
from __future__ import annotations

import os
import tempfile
import unittest
from unittest import mock

from cases import OfARecording, between, circle, circle_by, findings, order, sightings
from lockdep.ask import judging, scheduled, timed
from lockdep.ask.judging import AtEnd, have_enough_threads, judge, made_by, rings_of
from lockdep.ask.lives import lives_in
from lockdep.ask.scheduled import Scheduled, asked_about, locks_of, orders_of, scheduled_in
from lockdep.ask.verdict import Recorded
from lockdep.program.checker import Answer
from lockdep.program.findings import Event, Finding, Held
from lockdep.program.schedules import APART, NOT_KNOWN, NOT_SHOWN, POSSIBLE, Forced, History, Place, Ring, Waiting
from lockdep.program.verdicts import Reason, Verdict
from lockdep.record.folder import FIRST_LINE
from lockdep.record.summary import Summary, parse


def ring(verdict: str, *locks: str, joins: bool = False) -> Ring:
    """A ring of tasks: each holds a lock and waits for the next one."""
    waits = []
    for number, lock in enumerate(locks, 1):
        task, awaited = "task-%04d" % number, locks[number % len(locks)]
        waits.append(Waiting(Place(task, Event("h.csv", 10 + number)), awaited, "w", (Held(lock, "w", Event("h.csv", number)),)))
    return Ring(verdict, joins, tuple(waits), (), ())


def gated(*keys: str) -> list[dict]:
    return [{"gate": "g/0", "orders": [{"from": one, "kind": "EN", "to": other} for one, other in zip(keys, keys[1:] + keys[:1])]}]


class OfRings(unittest.TestCase):
    def made(self, wanted: Ring, *several: tuple[str, ...]) -> list[list[str]]:
        said = findings([circle(*("%s/0" % key for key in keys)) for keys in several])
        return [[key[:-2] for key in one.keys] for one in made_by(orders_of(wanted), said)]

    def test_the_orders_of_a_ring_go_from_what_a_task_holds_to_what_it_waits_for(self) -> None:
        self.assertEqual(orders_of(ring(POSSIBLE, "a", "b", "c")), {("a", "b"), ("b", "c"), ("c", "a")})
        self.assertEqual(orders_of(ring(POSSIBLE, "S::m@one#1", "S::m@two#2")), {("S::m", "S::m")})

    def test_a_ring_makes_the_findings_with_its_orders_alone(self) -> None:
        two, three = ("a", "b"), ("a", "b", "c")
        self.assertEqual(self.made(ring(POSSIBLE, "a#1", "b#2"), two, three), [["a", "b"]])
        self.assertEqual(self.made(ring(POSSIBLE, "c", "a", "b"), two, three), [["a", "b", "c"]])

    def test_findings_of_both_directions_of_one_cycle_are_two(self) -> None:
        self.assertEqual(self.made(ring(POSSIBLE, "a", "b", "c"), ("a", "c", "b"), ("a", "b", "c")), [["a", "b", "c"]])

    def test_if_none_has_its_orders_it_makes_those_inside(self) -> None:
        self.assertEqual(self.made(ring(POSSIBLE, "a#1", "b", "a#2", "c"), ("a", "b"), ("a", "c"), ("b", "c")), [["a", "b"], ["a", "c"]])

    def test_if_none_is_inside_it_makes_those_that_share_an_order(self) -> None:
        self.assertEqual(self.made(ring(POSSIBLE, "a", "b", "c"), ("a", "b"), ("c", "d"), ("c", "a")), [["a", "b"], ["c", "a"]])

    def test_a_ring_that_shares_nothing_makes_none(self) -> None:
        self.assertEqual(self.made(ring(POSSIBLE, "x", "y"), ("a", "b")), [])

    def test_the_strongest_ring_of_a_finding_counts(self) -> None:
        said = findings([circle("a/0", "b/0")])
        of_two = [ring(verdict, "a#%d" % place, "b#%d" % place, joins=joins) for place, (verdict, joins) in enumerate((
            (POSSIBLE, False), (POSSIBLE, True), (NOT_KNOWN, False), (NOT_SHOWN, False), (APART, False)))]
        for place in range(len(of_two)):
            self.assertIs(rings_of(said, of_two[place:][::-1])[1], of_two[place])

    def test_a_finding_that_no_ring_makes_has_the_one_of_the_locks_that_show_it(self) -> None:
        inner = circle("a#1/0", "b#2/0")
        said = findings([circle("a/0", "b/0", between=between("locks", inner)), circle("a/0", "b/0", "c/0", between=between("locks", inner)),
                         circle("c/0", "d/0", between=between("locks", circle("c#1/0", "d#1/0")))])
        self.assertEqual({place: ring.verdict for place, ring in rings_of(said, [ring(APART, "a#1", "b#2"), ring(POSSIBLE, "b#2", "a#3")]).items()},
                         {1: POSSIBLE, 2: POSSIBLE})

    def test_of_rings_that_are_as_strong_the_one_of_fewer_tasks(self) -> None:
        said = findings([circle("a/0", "b/0", "c/0", "d/0")])
        long, short = ring(APART, "a", "b", "c", "d"), ring(APART, "a", "b")
        self.assertIs(rings_of(said, [long, short])[1], short)


class Threads(OfARecording):
    """How many threads had the orders."""

    def enough(self, tasks: tuple, summary: str = "", **more: object) -> bool:
        keys = ["%s/0" % key for key in "abcdef"[:len(tasks)]]
        one = findings([circle_by(tasks, *keys, folder=self.path("objects"), **more)])[0]
        return have_enough_threads(one, Recorded([], Summary(parse(summary))))

    def test_each_order_needs_a_thread_of_its_own(self) -> None:
        for tasks, is_enough in (((1, 2), True), ((1, 1), False), (((1, 2), 1), True), (((1, 2), (1, 2)), True), ((1, (1, 2)), True), ((1, 1, 2), False),
                                 (((1, 2), (2, 3), (1, 3)), True), (((1, 2), (1, 2), (1, 2)), False), (((1, 2), 1, 2), False), (((1, 2, 3), 1, 2), True),
                                 (((1, 2), (1, 3), 1), True), ((1, (1, 2), (2, 3), (1, 2)), False), ((1, (1, 2), (2, 3), (3, 4)), True), ((1,), True)):
            self.assertIs(self.enough(tasks), is_enough, tasks)

    def test_a_trace_is_of_the_threads_that_it_stands_for(self) -> None:
        alike = "threads-alike %d\n  threads whose traces weren't written\n    task-0001 stands for %d of them\n"
        self.assertIs(self.enough((1, 1), alike % (1, 1)), True)
        self.assertIs(self.enough((1, 1, 1), alike % (1, 1)), False)
        self.assertIs(self.enough((1, 1, 1), alike % (2, 2)), True)
        self.assertIs(self.enough((2, 2), alike % (1, 1)), False)

    def test_where_more_traces_have_an_order_than_are_named_there_is_one(self) -> None:
        orders = [dict(order(one, "EN", other, "t/task-0001.csv"), traces=sightings(["t/task-0001.csv"], count))
                  for one, other, count in (("a/0", "b/0", 17), ("b/0", "a/0", 1))]
        self.assertIs(self.enough((1, 1), orders=orders), True)

    def test_where_no_traces_are_named_nobody_knows(self) -> None:
        orders = [order("a/0", "EN", "b/0"), order("b/0", "EN", "a/0")]
        self.assertIs(self.enough((1, 1), orders=orders), True)

    def test_runs_of_handlers_are_of_their_thread(self) -> None:
        os.mkdir(self.path("signals"))
        self.write("signals/threads", "task-0001.csv 1\ntask-0002.csv 1\ntask-0003.csv 2\n")
        self.assertIs(self.enough((1, 2)), False)
        self.assertIs(self.enough((1, 3)), True)


class Judged(OfARecording):
    """What is judged of a cycle between the single locks a#1 and b#2, or of other findings, by what histories say."""

    def setUp(self) -> None:
        super().setUp()
        lives_in.cache_clear()

    def cycle(self, level: str = "locks", tasks: tuple = (1, 2), **more: object) -> dict:
        inner = circle_by(tasks, "a#1/0", "b#2/0", folder=self.path("objects"), **more)
        return circle("a/0", "b/0", between=between(level, None if level in ("unknown", "types") else inner))

    def judged(self, said: list[dict], **about: object) -> list[tuple]:
        """The verdict, the reason, and why, of each."""
        found = findings(said)
        with mock.patch.object(judging, "scheduled_in", return_value=Scheduled(**about)):
            judge(found, AtEnd(), self.folder, [], Recorded([]))
        return [(one.judged.verdict, one.judged.reason, one.judged.why) if one.judged else None for one in found]

    def one(self, *rings: Ring, said: dict | None = None, **about: object) -> tuple:
        return self.judged([said or self.cycle()], rings=list(rings), **about)[0]

    def test_what_a_ring_says(self) -> None:
        for verdict, joins, wanted in ((POSSIBLE, False, (Verdict.POSSIBLE, None, "")), (POSSIBLE, True, (Verdict.BY_JOIN, None, "")),
                                       (NOT_KNOWN, False, (Verdict.NOT_KNOWN, None, judging.UNTRIED)),
                                       (NOT_SHOWN, False, (Verdict.NOT_SHOWN, Reason.ORDER, "")), (APART, True, (Verdict.APART, None, ""))):
            self.assertEqual(self.one(ring(verdict, "a#1", "b#2", joins=joins)), wanted)

    def test_where_the_recorded_run_stood_still_it_happened(self) -> None:
        for stood, verdict in (({("a#1", "b#2"), ("b#2", "a#1")}, Verdict.HAPPENED), ({("a#1", "a#1")}, Verdict.NOT_KNOWN), (set(), Verdict.NOT_KNOWN)):
            found = findings([self.cycle()])
            with mock.patch.object(judging, "scheduled_in", return_value=Scheduled(why=scheduled.ENDED)):
                judge(found, AtEnd((frozenset(stood),)), self.folder, [], Recorded([]))
            self.assertEqual((found[0].verdict, found[0].is_counted), (verdict, True))

    def test_a_ring_says_it_of_each_level_that_may_be_of_single_locks(self) -> None:
        for level, verdict in (("locks", Verdict.POSSIBLE), ("perhaps", Verdict.POSSIBLE), ("unknown", Verdict.POSSIBLE)):
            self.assertEqual(self.one(ring(POSSIBLE, "a#1", "b#2"), said=self.cycle(level))[0], verdict, level)
        for level in ("classes", "types", "nested"):
            self.assertIsNone(self.one(ring(POSSIBLE, "a#1", "b#2"), said=self.cycle(level)), level)

    def test_histories_that_dont_say_all_show_only_what_is_possible(self) -> None:
        for about, why in ((dict(why=scheduled.ENDED), scheduled.ENDED), (dict(left_out={"b": "not-held"}), judging.LEFT_OUT),
                           (dict(left_out={"b": "absent"}), judging.ABSENT % ""),
                           (dict(left_out={"b": "absent"}, absent="no semaphores"), judging.ABSENT % ", which has no semaphores"),
                           (dict(left_out={"b": "broken-off"}), judging.BROKEN_OFF), (dict(left_out={"a": "absent", "b": "broken-off"}), judging.BROKEN_OFF),
                           (dict(left_out={"a": "absent", "b": "not-held"}), judging.LEFT_OUT)):
            self.assertEqual(self.one(ring(POSSIBLE, "a#1", "b#2"), **about), (Verdict.POSSIBLE, None, ""))
            for verdict in (NOT_KNOWN, NOT_SHOWN, APART):
                self.assertEqual(self.one(ring(verdict, "a#1", "b#2"), **about), (Verdict.NOT_KNOWN, None, why))
            self.assertEqual(self.one(said=self.cycle(tasks=(1, 1)), **about), (Verdict.NOT_KNOWN, None, why))

    def test_traces_that_were_not_made_with_the_histories(self) -> None:
        for traces, wanted in ((("task-0001.csv", "task-0002.csv", "classes"), (Verdict.APART, None, "")),
                               (("task-0001.csv",), (Verdict.NOT_KNOWN, None, judging.INSIDE))):
            said = circle_by((1, 2), "a#1/0", "b#2/0", folder=self.path("objects"))
            said["between"] = between("locks", circle_by((1, 2), "a#1/0", "b#2/0", folder=self.path("objects")))
            self.assertEqual(self.one(ring(APART, "a#1", "b#2"), said=said, traces=frozenset(traces)), wanted)

    def test_a_ring_inside_a_lock_that_the_history_lacks(self) -> None:
        for absent, verdict in (({"g": "absent"}, (Verdict.NOT_SHOWN, Reason.ONE_LOCK, "")), ({"g": "not-held"}, (Verdict.POSSIBLE, None, "")),
                                ({}, (Verdict.POSSIBLE, None, ""))):
            self.assertEqual(self.one(ring(POSSIBLE, "a#1", "b#2"), said=self.cycle(gates=gated("a#1/0", "b#2/0")), left_out=absent), verdict)
        self.assertEqual(self.one(ring(POSSIBLE, "a#7", "b#2"), said=self.cycle(gates=gated("a#1/0", "b#2/0")), left_out={"g": "absent"})[0], Verdict.POSSIBLE)

    def test_threads_like_one_that_did_all_of_what_is_kept_apart(self) -> None:
        self.write("lives", "other-9 starts task-0001 1\nother-9 starts task-0002 1\nother-9 starts task-0003 2\n")
        for tasks, verdict in ((((1, 3), 1), Verdict.NOT_SHOWN), (((1, 2), (1, 2)), Verdict.APART), ((3, (1, 3)), Verdict.APART), ((3, 1), Verdict.APART)):
            lives_in.cache_clear()
            self.assertEqual(self.one(ring(APART, "a#1", "b#2"), said=self.cycle(tasks=tasks))[0], verdict, tasks)

    def test_threads_alike_that_do_not_help(self) -> None:
        self.write("lives", "other-9 starts task-0001 1\nother-9 starts task-0002 1\nother-9 starts task-0003 2\n")
        for tasks, reason in (((1, 1), Reason.LIKE_THREADS), ((3, 3), Reason.FEWER_THREADS)):
            lives_in.cache_clear()
            self.assertEqual(self.one(said=self.cycle(tasks=tasks))[:2], (Verdict.NOT_SHOWN, reason), tasks)
        three = circle_by((3, 3, 1), "a#1/0", "b#2/0", "c#1/0", folder=self.path("objects"))  # (task 3 would be needed twice, and none is like it)
        said = circle("a/0", "b/0", "c/0", between=between("locks", three))
        self.assertEqual(self.one(said=said)[:2], (Verdict.NOT_SHOWN, Reason.FEWER_THREADS))

    def test_a_lock_of_another_finding_that_is_left_out_changes_nothing(self) -> None:
        self.assertEqual(self.one(ring(APART, "a#1", "b#2"), left_out={"c": "not-held"}), (Verdict.APART, None, ""))

    def test_without_a_ring_nothing_is_known(self) -> None:
        self.assertEqual(self.one(), (Verdict.NOT_KNOWN, None, judging.NO_RING))

    def test_no_finding_is_compared_with_all_others(self) -> None:
        with mock.patch.object(Finding, "__eq__", side_effect=AssertionError):
            said = self.judged([self.cycle(), self.cycle(), self.cycle("classes")])
        self.assertEqual(said, [(Verdict.NOT_KNOWN, None, judging.NO_RING)] * 2 + [None])

    def test_one_lock_round_all_orders(self) -> None:
        under = self.cycle(gates=gated("a#1/0", "b#2/0"))
        self.assertEqual(self.one(said=under), (Verdict.NOT_SHOWN, Reason.ONE_LOCK, ""))
        one_thread = self.cycle(tasks=(1, 1), gates=gated("a#1/0", "b#2/0"))  # (whose lock keeps nobody else out)
        self.assertEqual(self.one(said=one_thread), (Verdict.NOT_SHOWN, Reason.LIKE_THREADS, ""))
        some = gated("a#1/0", "b#2/0")
        some[0]["orders"].pop()
        self.assertEqual(self.one(said=self.cycle(gates=some)), (Verdict.NOT_KNOWN, None, judging.NO_RING))
        rest = [dict(gated("a#1/0", "b#2/0")[0], gate="g#rest/0")]  # (a name of several locks)
        self.assertEqual(self.one(said=self.cycle(gates=rest)), (Verdict.NOT_KNOWN, None, judging.NO_RING))

    def test_whole_histories_without_a_ring(self) -> None:
        for processes, wanted in ((1, (Verdict.NOT_SHOWN, Reason.NO_RING, "")), (2, (Verdict.NOT_KNOWN, None, judging.NO_RING))):
            self.assertEqual(self.one(processes=processes), wanted)
        self.assertEqual(self.one(processes=1, why=scheduled.ENDED), (Verdict.NOT_KNOWN, None, scheduled.ENDED))
        self.assertEqual(self.one(said=self.cycle("unknown"), processes=1)[0], Verdict.NOT_KNOWN)

    def test_a_wait_that_did_not_end_is_in_no_history(self) -> None:
        said = self.cycle()
        taken = findings([said])[0].between.finding.orders[1].sightings[0].event
        for held, wanted in ((taken, (Verdict.NOT_KNOWN, None, judging.PENDING)), (Event(taken.file, 99), (Verdict.NOT_SHOWN, Reason.NO_RING, ""))):
            found = findings([said])
            with mock.patch.object(judging, "scheduled_in", return_value=Scheduled(processes=1)):
                judge(found, AtEnd(held=frozenset([held])), self.folder, [], Recorded([]))
            self.assertEqual((found[0].judged.verdict, found[0].judged.reason, found[0].judged.why), wanted)

    def test_too_few_threads(self) -> None:
        one = self.cycle(tasks=(1, 1))
        for lives, reason in ((None, Reason.LIKE_THREADS), ("", Reason.FEWER_THREADS), ("m starts task-0001 5\n", Reason.FEWER_THREADS),
                              ("m starts task-0001 5\nm starts o 5\n", Reason.LIKE_THREADS), ("m starts task-0001 5\nm starts o 6\n", Reason.FEWER_THREADS),
                              ("m starts task-0001 5\nm joins task-0001\nm starts o 5\n", Reason.FEWER_THREADS),
                              ("m starts task-0001\nm starts o\n", Reason.LIKE_THREADS), ("m starts task-0002 5\n", Reason.LIKE_THREADS),
                              ("task-0001 starts o 5\n", Reason.FEWER_THREADS)):
            lives_in.cache_clear()
            if lives is not None:
                self.write("lives", lives)
            self.assertEqual(self.one(said=one), (Verdict.NOT_SHOWN, reason, ""), lives)

    def marked(self, word: str, *gone: str) -> mock._patch:
        """A recording that marks a record, without which other lines than these are left between locks."""
        self.write("weak", "task-0001.csv 3 %s\n" % word)
        left = {"circle a/0 EN b/0", "circle b/0 EN a/0", "double hardirq c/0"} - set(gone)
        return mock.patch.object(timed, "lines_between_locks", return_value=left)

    def test_waits_with_a_limit(self) -> None:
        with self.marked("timed", "circle a/0 EN b/0", "circle b/0 EN a/0"):
            for about in (dict(), dict(why=scheduled.WITHOUT), dict(why=scheduled.OF_ANOTHER % "lockdep_record.h")):
                self.assertEqual(self.one(**about), (Verdict.NOT_SHOWN, Reason.TIMED, ""))
            self.assertEqual(self.one(ring(POSSIBLE, "a#1", "b#2"))[0], Verdict.POSSIBLE)
            self.assertEqual(self.one(ring(APART, "a#1", "b#2"))[0], Verdict.APART)
            self.assertEqual(self.one(said=self.cycle("perhaps"))[0], Verdict.NOT_KNOWN)

    def test_waits_with_a_limit_come_before_the_number_of_threads(self) -> None:
        with self.marked("timed", "circle a/0 EN b/0", "circle b/0 EN a/0"):
            self.assertEqual(self.one(said=self.cycle(tasks=(1, 1))), (Verdict.NOT_SHOWN, Reason.TIMED, ""))

    def test_marked_records_without_which_it_is_still_found(self) -> None:
        with self.marked("timed"):
            self.assertEqual(self.one(), (Verdict.NOT_KNOWN, None, judging.NO_RING))
            self.assertEqual(self.one(said=self.cycle(tasks=(1, 1)))[1], Reason.LIKE_THREADS)

    def test_a_signal_that_comes_late_is_of_no_cycle(self) -> None:
        with self.marked("late", "circle a/0 EN b/0", "circle b/0 EN a/0", "double hardirq c/0"):
            self.assertEqual(self.judged([self.cycle(), self.double("c/0"), self.double("libc:malloc/0")]), [
                (Verdict.NOT_KNOWN, None, judging.NO_RING), (Verdict.NOT_SHOWN, Reason.LATE, ""), (Verdict.NOT_KNOWN, None, judging.INTERRUPTS)])

    def double(self, key: str) -> dict:
        said = {"type": "double", "irq": "hardirq", "keys": [key], "lines": ["double hardirq " + key], "orders": []}
        return dict(said, between=between("locks", said))

    def test_of_interrupts_nothing_is_known(self) -> None:
        self.assertEqual(self.judged([self.double("c/0")], rings=[ring(POSSIBLE, "c", "c")]), [(Verdict.NOT_KNOWN, None, judging.INTERRUPTS)])

    def test_findings_that_single_locks_werent_asked_about_have_that_reason(self) -> None:
        found = findings([self.cycle("unknown")])
        found[0].between.reason = "refused"
        with mock.patch.object(judging, "scheduled_in", return_value=Scheduled()):
            judge(found, AtEnd(), self.folder, [], Recorded([]))
        self.assertEqual((found[0].judged.verdict, found[0].judged.why), (Verdict.NOT_KNOWN, "refused"))

    def test_histories_are_asked_only_of_cycles_that_may_be_of_single_locks(self) -> None:
        for said, is_asked in ((self.cycle(), True), (self.cycle("unknown"), True), (self.cycle("types"), False), (self.double("c/0"), False)):
            with mock.patch.object(judging, "scheduled_in", return_value=Scheduled()) as asked:
                judge(findings([said]), AtEnd(), self.folder, [], Recorded([]))
                self.assertIs(asked.called, is_asked)


HISTORY = """{"schedule":1,"histories":[{"file":"process-0001.csv","steps":9,"tasks":2,"all_tried":%s,"not_tried":0,"rings":[
{"verdict":"possible","joins":false,"steps":[{"task":"task-0001","record":3,"waits_for":"b","mode":"w","holds":[{"lock":"a","mode":"w","record":2}]},
{"task":"task-0002","record":7,"waits_for":"a","mode":"w","holds":[{"lock":"b","mode":"w","record":6}]}],
"schedule":[{"task":"task-0001","record":2},{"task":"task-0002","record":6}]}]}]}"""


class OfHistories(OfARecording):
    """What the histories say, and why they don't say all."""

    def asked(self, all_tried: str = "true", left_out: str = "", summary: str = "", status: int = 1, said: bytes = b"") -> Scheduled:
        room, made = tempfile.mkdtemp(dir=self.folder), tempfile.mkdtemp(dir=self.folder)
        into = os.path.join(room, "history")
        os.mkdir(into)
        for name, text in (("process-0001.csv", "history,1\n"), ("process-0001.csv.places", "2 /srv/server+10\n"), ("process-0001.left-out", left_out)):
            with open(os.path.join(into, name), "w", encoding="utf-8") as file:
                file.write(text)
        with open(os.path.join(made, "summary.json"), "w", encoding="utf-8") as file:
            file.write('{"recording":1,"recorder":"pthread","counts":[%s],"unseen":[]}' % summary)
        with mock.patch.object(scheduled, "ask", return_value=Answer((HISTORY % all_tried).encode(), status, said)):
            return asked_about("traces", room, made)

    def test_the_rings_are_called_as_in_the_recording(self) -> None:
        found = self.asked()
        self.assertEqual([(waiting.place.task, waiting.place.event) for waiting in found.rings[0].waits],
                         [("task-0001", Event("traces/history/process-0001.csv", 3)), ("task-0002", Event("traces/history/process-0001.csv", 7))])
        self.assertEqual((found.why, found.left_out), ("", {}))

    def test_why_they_dont_say_all(self) -> None:
        ended = '{"code":"history-ends","count":%d}'
        for about, why in ((dict(summary=ended % 0), ""), (dict(summary=ended % 1), scheduled.ENDED), (dict(all_tried="false"), scheduled.NOT_TRIED),
                           (dict(all_tried="false", summary=ended % 2), scheduled.ENDED)):
            found = self.asked(**about)
            self.assertEqual((found.why, len(found.rings)), (why, 1), about)

    def test_histories_that_are_refused_say_nothing(self) -> None:
        found = self.asked(status=2, said=b"lockdep: line 3 is wrong\n")
        self.assertEqual((found.rings, found.why.partition(":")[0]), ([], scheduled.REFUSAL.partition(":")[0]))

    def test_locks_that_are_left_out_by_their_types(self) -> None:
        self.assertEqual(self.asked(left_out="S::m@one#1 absent\nplain not-held\n").left_out, {"S::m": "absent", "plain": "not-held"})

    def test_the_locks_that_steps_wait_for_are_named(self) -> None:
        self.write("process-0001.csv", 'history,1\na,take,m,w\na,release,m\nb,take,"m,n",r\nb,release,"m,n"\na,take,"m,n",w\n')
        def ring_after(record: int, by: str = "order") -> Ring:
            forced = Forced("a", by, Event("h/process-0001.csv", 3), Place("b", Event("h/process-0001.csv", record)))
            return Ring(APART, False, (), (), (forced,))
        history = History("h/process-0001.csv", 5, 2, (ring_after(6), ring_after(2), ring_after(4, "message"), ring_after(9)), 0, True)
        self.assertEqual(locks_of([history], self.folder), {Event("h/process-0001.csv", record): lock for record, lock in ((2, "m"), (6, "m,n"), (9, ""))})

    def test_other_recordings_have_none(self) -> None:
        for recorder, listed, why in (("embed", "", scheduled.OF_ANOTHER % "lockdep_record.h"), ("pthread", "", scheduled.GONE),
                                      ("python", "", scheduled.WITHOUT), ("java", "raw.tar.gz\n", scheduled.GONE)):
            self.write("RECORDED", FIRST_LINE + "\n" + listed)
            self.write("summary.json", '{"recording":1,"recorder":"%s","counts":[],"unseen":[]}' % recorder)
            self.assertEqual(scheduled_in(self.folder), Scheduled(why=why))

    def test_a_python_without_its_global_lock(self) -> None:
        self.write("summary.json", '{"recording":1,"recorder":"python","counts":[{"code":"unguarded","count":1}],"unseen":[]}')
        with mock.patch.object(scheduled, "write_histories", return_value=self.folder):
            self.assertEqual(scheduled_in(self.folder).why, scheduled.UNGUARDED)

    def test_a_recording_without_the_order_of_its_steps(self) -> None:
        with mock.patch.object(scheduled, "write_histories", return_value="made"):
            self.assertEqual(scheduled_in(self.folder).why, scheduled.WITHOUT)

    def test_histories_that_cant_be_made(self) -> None:
        for name, why in (("raw", scheduled.UNMADE), ("raw.tar.gz", scheduled.UNMADE), ("nothing", scheduled.GONE)):
            with mock.patch.object(scheduled, "write_histories", return_value=None):
                self.write(name, "")
                self.assertEqual(scheduled_in(self.folder).why, why)
                os.unlink(self.path(name))


if __name__ == "__main__":
    unittest.main()
