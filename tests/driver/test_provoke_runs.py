"""How runs of `lockdep provoke` go by a schedule, how they differ, and what could end a standstill."""
from __future__ import annotations

import dataclasses
import os
import signal
import subprocess
import sys
import tempfile
import time
import unittest
from unittest import mock

from cases import between, circle, finding
from lockdep.ask.happened import turn_off
from lockdep.binaries.symbols import Address
from lockdep.program.events import Event, Held as Holds
from lockdep.program.schedules import POSSIBLE, Place, Ring, Waiting
from lockdep.program.verdicts import Judgement, Reason, Verdict
from lockdep.provoke import course as provoke_course, recorded, runs, standing, system
from lockdep.provoke.course import History, Step, course_in
from lockdep.provoke.ending import ENDING
from lockdep.provoke.provoke import Ended, heed_signals
from lockdep.provoke.reasons import KEPT_BACK, LATE, NOT_COME, Tried, Turn, turning
from lockdep.provoke.recorded import Recorded, Stillness
from lockdep.provoke.runs import Outcome
from lockdep.provoke.standing import Doubt, doubts
from lockdep.provoke.table import (BY_ANYBODY, BY_HOLDER, BY_OTHERS, FIRST_THREAD, IN_JOIN, IN_LOCK, INTERRUPTIBLE, MOST_CALLERS, MOST_ORDERS, MOST_POINTS,
                                   THREAD, WAITS, WITHOUT_HANDLERS, WRITES, Counts, Held, Last, Modules, Table, Thread, Timer)
from lockdep.provoke.tries import Tries, still_words
from lockdep.provoke.ways import LONG_PAUSE, Ways

HISTORY = """history,1
thread,thread:t1
thread,thread:t2
main,give,1
main,give,2
main,give,3
t1,get,2
t1,take,thread:t1,tw
t1,take,g,w
t1,release,g
t1,take,a,w
t1,take,b,w
t1,release,b
t1,release,a
t2,get,3
t2,take,thread:t2,tw
t2,take,g,w
t2,release,g
t2,take,b,w
t2,take,a,w
"""
CALLS = {9: 1, 11: 2, 12: 2, 17: 1, 19: 2, 20: 3}  # of the records that take: where they are called


class Calls:
    """The calls of the records, in the place of the files that a history has beside it."""

    def __init__(self, name: str) -> None:
        self.name = name

    def callers(self, record: int) -> list[Address]:
        return [Address("/no/program", CALLS[record])] if record in CALLS else []


def waiting(task: str, record: int, lock: str, held: str, since: int) -> Waiting:
    return Waiting(Place(task, Event("h.csv", record)), lock, "w", (Holds(held, "w", Event("h.csv", since)),))


RING = Ring(POSSIBLE, False, (waiting("t1", 12, "b", "a", 11), waiting("t2", 20, "a", "b", 19)),
            (Place("t1", Event("h.csv", 11)), Place("main", Event("h.csv", 6)), Place("t2", Event("h.csv", 19))), ())


def last(stands: int = 0, waits: int = 0, passed: tuple[int, ...] = ()) -> Last:
    return Last((0,) * MOST_ORDERS, stands, waits, False, 0, 0, (0,) + passed + (0,) * (MOST_POINTS - len(passed)))


class ACourse(unittest.TestCase):
    def setUp(self) -> None:
        with tempfile.TemporaryDirectory() as folder, mock.patch.object(provoke_course, "Places", Calls):
            path = os.path.join(folder, "h.csv")
            with open(path, "w") as file:
                file.write(HISTORY)
            self.course = course_in(RING, History(path, RING))

    def test_threads_are_known_by_their_starts_and_steps_by_their_calls(self) -> None:
        """The first thread that main starts takes no step. The lock g is taken in the order of the schedule; where t1 waits it has not taken b."""
        self.assertEqual(self.course.lines(5000, 30), [
            "thread 2", "take-1 1 /no/program", "take-1 2 /no/program", "take-2 2 /no/program", "stop 1 5000",
            "thread 3", "take-1 1 /no/program", "take-1 2 /no/program", "take-1 3 /no/program", "stop 2 5000",
            "after 4 1 30"])

    def test_the_locks_of_a_stop(self) -> None:
        self.assertEqual([self.course.locks_at(stop) for stop in self.course.stops()], [("a", "b"), ("b", "a")])

    def test_where_a_thread_turns_off(self) -> None:
        rows = (
            ("all come", last(passed=(3, 2, 1, 3, 2, 1)), None),
            ("one ends after its first step", last(passed=(3, 2, 1, 3)), (19, NOT_COME % "task t2", False)),
            ("one never begins", last(passed=(3, 2, 1)), (17, NOT_COME % "task t2", False)),
            ("one ends when the other has gone on by the time", last(3, 0, (3, 2, 3, 3)), (19, NOT_COME % "task t2", True)),
            ("one waits for a lock of the other", last(3, 4, (3, 2, 1, 1)), (17, KEPT_BACK % ("task t2", "task t1"), False)),
            ("one comes when the other goes on", last(3, 0, (3, 2, 3, 3, 2, 1)), (20, LATE % ("task t2", "task t1"), True)))
        for name, what, wanted in rows:
            found = turning(self.course, what)
            self.assertEqual((found.step.record, found.why, found.is_late) if found else None, wanted, name)

    def test_what_turned_off_is_not_shown(self) -> None:
        for verdict, then in ((Verdict.POSSIBLE, Verdict.NOT_SHOWN), (Verdict.BY_JOIN, Verdict.NOT_SHOWN), (Verdict.NOT_KNOWN, Verdict.NOT_KNOWN)):
            one = finding(circle("a/0", "b/0", between=between("locks", circle("a/0", "b/0"))))
            one.judged = Judgement(verdict, ring=RING)
            turn_off(one, "in 1 run by the schedule its threads turned off at a.c:3")
            self.assertEqual((one.verdict, one.judged.ring), (then, RING))
            self.assertEqual(one.judged.reason, Reason.TURNED_OFF if then is Verdict.NOT_SHOWN else None)


class TheWays(unittest.TestCase):
    def said(self, ways: Ways, runs: int) -> list[tuple[bool, set[int]]]:
        return [(way.is_scheduled, set(way.waits)) for way in map(ways.next, range(1, runs + 1))]

    def test_the_schedule_comes_first_and_then_orders_that_are_seldom_come_to_wait_long(self) -> None:
        ways = Ways(2, True, "", 0)
        ways.waiting = {1, 2}
        self.assertEqual(self.said(ways, 6), [(True, set()), (False, {1, 2}), (False, {1, 2}), (True, set()), (False, {1}), (False, {2})])
        ways.waiting = {2}
        self.assertEqual(self.said(ways, 6)[1:], [(False, {2}), (False, {2}), (True, set()), (False, set()), (False, {2})])
        ways.has_turned_off = True
        self.assertEqual(self.said(ways, 3), [(True, set()), (False, set()), (False, set())])

    def test_pauses_differ(self) -> None:
        """All orders wait in turn by one pause, and then by another one. Where threads turned off from the schedule, each run has another one."""
        for is_scheduled, has_turned_off, given, wanted in (
                (True, False, "", [300, 300, 300, 300, 100, 100, 300, 30, 30, 300]), (False, False, "", [300, 300, 100, 100, 30, 30, 300]),
                (True, True, "", [300, 30, 100, 300, 300, 30, 300, 100]), (True, True, "40", [40, 40, 40])):
            ways = Ways(2, is_scheduled, given, 0)
            ways.has_turned_off = has_turned_off
            self.assertEqual([ways.next(run).pause for run in range(1, len(wanted) + 1)], wanted)

    def test_without_a_schedule(self) -> None:
        ways = Ways(2, False, "", 0)
        ways.waiting = {1, 2}
        self.assertEqual(self.said(ways, 4), [(False, {1, 2}), (False, {1, 2}), (False, {1}), (False, {2})])

    def test_pauses_are_shorter_when_they_made_the_program_fail(self) -> None:
        ways = Ways(2, True, "", 60)
        found = [ways.next(1)]
        for _ in range(3):
            ways.shorten()
            found.append(ways.next(1))
        self.assertEqual([(way.long, way.pause) for way in found], [(90000, 300), (300, 100), (100, 30), (30, 30)])
        self.assertEqual((Ways(2, True, "", 1).next(1).long, Ways(2, True, "50", 1).next(1).pause), (LONG_PAUSE, 50))


def thread(number: int, awaited: int, held: int, releasing: int, call: int = IN_LOCK) -> Thread:
    """As one is read that waits in this call, with the bits that are added to it."""
    return Thread(os.getpid(), number, 1, WAITS, 1, WRITES, awaited, (), 0, 0, call & ~(INTERRUPTIBLE | WITHOUT_HANDLERS), 0,
                  (Held(held, WRITES, releasing, 0, ()),), call & INTERRUPTIBLE > 0, call & WITHOUT_HANDLERS == 0)


class TheEndOfARun(unittest.TestCase):
    def setUp(self) -> None:
        self.started: list[subprocess.Popen] = []
        self.addCleanup(lambda: [child.kill() or child.wait() for child in self.started])
        for number in (*ENDING, signal.SIGABRT):
            self.addCleanup(signal.signal, number, signal.getsignal(number))

    def sleeper(self, *words: str) -> subprocess.Popen:
        """A process that has done this, and sleeps."""
        python = [sys.executable, "-c", "; ".join(["import signal, time", *words, "print(flush=True)", "time.sleep(600)"])]
        self.started.append(subprocess.Popen(python, stdout=subprocess.PIPE))
        self.addCleanup(self.started[-1].stdout.close)
        self.started[-1].stdout.readline()
        return self.started[-1]

    def tries(self, folder: str) -> mock.Mock:
        holder = mock.Mock(command=lambda words: words, environment=lambda _: dict(os.environ))
        return mock.Mock(spec=Tries, room=folder, command=["sleep", "600"], holder=holder, given="", beside="", dumps=False, is_kept=False, limit=600, sure=600,
                         write_plan=lambda *_: "")

    def test_a_signal_that_comes_as_the_command_starts_ends_that_too(self) -> None:
        """It has no signals blocked then but those that were before."""
        heeds, really, blocked = mock.Mock(), subprocess.Popen, []

        def starts(*words: object, **options: object) -> subprocess.Popen:
            self.started.append(really(*words, **options))
            blocked.append(standing.mask_in("/proc/%d/status" % self.started[-1].pid, standing.BLOCKED))
            os.kill(os.getpid(), signal.SIGTERM)
            heeds()  # (where a signal that isn't held back would have come before)
            return self.started[-1]

        before = standing.mask_in("/proc/self/status", standing.BLOCKED)
        heed_signals()
        with tempfile.TemporaryDirectory() as folder, mock.patch("lockdep.provoke.runs.subprocess.Popen", starts):
            table = Table(os.path.join(folder, "table"))
            with self.assertRaises(Ended):
                Tries.run(self.tries(folder), 1, 1, mock.Mock(pause=0), table)
        self.assertEqual(self.started[0].poll(), -signal.SIGKILL)
        self.assertEqual((heeds.call_count, blocked, standing.mask_in("/proc/self/status", standing.BLOCKED)), (1, [before], before))

    def test_another_signal_leaves_nothing_running(self) -> None:
        heed_signals()
        with self.assertRaises(Ended):
            os.kill(os.getpid(), signal.SIGTERM)
        os.kill(os.getpid(), signal.SIGINT)

    def test_a_core_dump_is_waited_for_however_long_it_takes(self) -> None:
        """A handler's wait isn't. (The process is killed at the last look, and has ended at the next one.)"""
        child = self.sleeper("signal.signal(signal.SIGABRT, lambda *_: None)")
        for dumping in (3, 0):
            looks = iter([True] * dumping)
            with mock.patch.multiple(runs, GRACE=0.01, is_dumping=lambda _: next(looks, False)):
                runs.end_by_abort(child.pid)
            self.assertEqual((list(looks), child.poll()), ([], None))

    def test_a_handler_that_waits_when_it_is_out_of_force_is_not_waited_for(self) -> None:
        child = self.sleeper("signal.signal(signal.SIGABRT, lambda *_: (signal.signal(signal.SIGABRT, signal.SIG_DFL), time.sleep(600)))")
        with mock.patch.object(runs, "GRACE", 1):
            runs.end_by_abort(child.pid)
        self.assertEqual((standing.is_ended_by(child.pid, signal.SIGABRT), child.poll()), (True, None))

    def test_a_process_ends_by_sigabrt_unless_it_does_something_about_it(self) -> None:
        rows = (("pass", True), ("signal.signal(signal.SIGABRT, lambda *_: None)", False), ("signal.signal(signal.SIGABRT, signal.SIG_IGN)", False),
                ("signal.pthread_sigmask(signal.SIG_BLOCK, [signal.SIGABRT])", False))
        for words, wanted in rows:
            child = self.sleeper(words)
            self.assertEqual(standing.is_ended_by(child.pid, signal.SIGABRT), wanted, words)
            child.send_signal(signal.SIGSTOP)
            while system.state_of(child.pid, child.pid) not in system.STOPPED:
                time.sleep(0.001)
            self.assertFalse(standing.is_ended_by(child.pid, signal.SIGABRT), words)

    def test_a_process_without_a_handler_is_waited_for(self) -> None:
        """Also where it is slow to end. Its first thread may have ended."""
        ends = "import ctypes, threading; threading.Thread(target=time.sleep, args=(600,)).start(); print(flush=True); ctypes.CDLL(None).pthread_exit(None)"
        for child, state in ((self.sleeper(), standing.ASLEEP), (self.sleeper(ends), "Z")):
            while system.state_of(child.pid, child.pid) != state:
                time.sleep(0.001)
            with mock.patch.object(runs, "GRACE", -1):
                self.assertTrue(system.is_there(child.pid))
                runs.end_by_abort(child.pid)
                self.assertFalse(system.is_there(child.pid))


class WhatCameOfIt(unittest.TestCase):
    def test_orders_of_one_place_are_come_to_once_each(self) -> None:
        for lines, reached, once in ((("x", "x"), 2, {1}), (("x", "x"), 3, set()), (("x", "y"), 2, set()), (("x", "y"), 1, {1})):
            tried = Tried([mock.Mock(lines=lambda line=line: [line]) for line in lines], {1: Counts(reached, 0, 0, 0)})
            self.assertEqual(tried.seldom_come_to(), once, (lines, reached))

    def test_who_went_on_once_may_do_so_again(self) -> None:
        tried, table = Tried([]), mock.Mock(spec=Table)
        tried.take(Outcome(), table)
        self.assertEqual(tried.doubts(), [])
        for went_on in (2.8, 0.3):
            tried.take(Outcome(went_on=went_on), table)
            self.assertEqual(tried.doubts(), [Doubt("threads had stood still for 2.8 s in an earlier run, and gone on", False)])

    def test_an_order_that_is_over_before_another_one_begins_is_held_long(self) -> None:
        for first, second, wanted in (((5, 9), (10, 10), {1, 2}), ((5, 10), (10, 10), {2}), ((11, 12), (10, 10), {2}), ((0, 0), (10, 10), {2})):
            tried, counts = Tried([mock.Mock(lines=lambda line=line: [line]) for line in "xy"]), [Counts(3 * (first[0] > 0), 0, 0, 0, *first), Counts(1, 0, 0, 0, *second)]
            tried.take(Outcome(), mock.Mock(counts=lambda order: counts[order]))
            self.assertEqual(tried.seldom_come_to(), wanted, (first, second))

    def test_orders_of_one_place_to_which_threads_come_late(self) -> None:
        for first, last_time, wanted in ((5, 305, set()), (5, 306, {1})):
            tried, counts = Tried([mock.Mock(lines=lambda: ["x"])] * 2), Counts(4, 0, 0, 0, first, last_time)
            tried.take(Outcome(), mock.Mock(counts=lambda order: counts))
            self.assertEqual(tried.seldom_come_to(), wanted)

    def test_the_schedule_is_refuted_only_by_each_of_its_runs_and_others(self) -> None:
        step = Step(1, "t2", "a", "w")
        off, late = Turn(step, NOT_COME % "task t2"), Turn(step, NOT_COME % "task t2", True)
        for turns, runs, wanted, words in (([off], 1, False, "in 1 run by"), ([off], 2, True, "in 1 run by"), ([off, off], 4, True, "in each of 2 runs by"),
                                           ([off, None], 4, False, "in 1 of 2 runs by"), ([late, off], 4, False, "in each of 2 runs by"), ([], 2, False, "")):
            tried = Tried([], runs=runs)
            for turn in turns:
                tried.follow(turn)
            wanted_words = words and words + " the schedule its threads turned off at a step of task t2: task t2 doesn't come there"
            self.assertEqual((tried.is_refuted(), tried.turning_words()), (wanted, wanted_words), turns)
        self.assertFalse(Tried([], runs=4, followed=1, turns=[off], failed=[3, 3], ended=1).is_refuted())

    def test_what_waited_at_the_limit_is_the_reason(self) -> None:
        self.assertEqual(Tried([], ended=1, waited="thread 1 waited").words(""), "1 run was ended at the limit while thread 1 waited")

    def test_a_run_that_failed_is_no_reason_for_the_others(self) -> None:
        """Only if all runs ended as the recorded one didn't, the finding wasn't tried. A signal has the number of the run's status, below 0."""
        missed = [mock.Mock(handler=None)]
        rows = (([-6], 10, "1 of 10 runs ended with SIGABRT, and the recorded one didn't; no thread was seen to come to the second lock of order 1 by a wait without an end"),
                ([-6, 3, -6], 4, "3 of 4 runs ended with SIGABRT or status 3, and the recorded one didn't; "
                                 "no thread was seen to come to the second lock of order 1 by a wait without an end"),
                ([3], 1, "holding threads back made the program end with status 3"))
        for failed, runs, wanted in rows:
            self.assertEqual(Tried(missed, {1: Counts(0, 0, 0, 0)}, runs=runs, failed=failed).words(""), wanted)

    def test_a_signal_that_ended_the_recorded_run_too(self) -> None:
        """The recorder's status is a shell's: 143 for SIGTERM, which is number 15."""
        for recorded, status, wanted in ((143, -15, False), (143, -6, True), (0, -15, True), (3, 3, False), (0, 3, True), (None, 3, False), (143, 0, False)):
            tries = mock.Mock(recorded=Recorded(1.0, recorded))
            self.assertEqual(Tries.has_failed(tries, Outcome(status=status)), wanted, (recorded, status))

    def test_which_run_goes_on_is_said_on_a_terminal(self) -> None:
        tries = mock.Mock(spec=Tries, plans={1: [], 3: []})
        for is_terminal, said in ((True, ["finding 1: run 2 of 10, and then 1 finding"]), (False, [])):
            with mock.patch("lockdep.provoke.tries.say") as say, mock.patch("sys.stderr", mock.Mock(isatty=lambda: is_terminal)):
                Tries.tell_run(tries, 1, 2, 10)
            self.assertEqual([call.args[0] for call in say.call_args_list], said)


class TheWatch(unittest.TestCase):
    def setUp(self) -> None:
        table, self.gone, self.awake = mock.Mock(spec=Table), False, False
        table.threads.return_value = [thread(1, 20, 10, BY_HOLDER), thread(2, 10, 20, BY_HOLDER)]
        self.watch = standing.Watch(table, mock.Mock(), 1.0)

    def looks(self, seconds: float, count: int) -> list[bool]:
        """Whether two threads have stood for a second, at looks that are so many seconds apart."""
        clock = iter(range(1, count + 1))
        with mock.patch.multiple(standing, is_asleep=lambda _: not self.awake, are_gone=lambda _: self.gone, going_on=lambda *_: 0, doubts=lambda *_: [],
                                 described=lambda *_: ["stands"]), \
                mock.patch.object(standing.time, "monotonic", lambda: seconds * next(clock)):
            return [self.watch.look() for _ in range(count)]

    def test_threads_stand_for_a_time_that_was_seen(self) -> None:
        self.assertEqual(self.looks(0.021, 50).index(True), 48)

    def test_where_the_machine_stood_nothing_is_sure(self) -> None:
        self.assertEqual((self.looks(100.0, 10), self.watch.still), ([False] * 10, True))

    def test_threads_that_are_gone_stand_no_longer(self) -> None:
        """(So their run is over at its limit.)"""
        self.looks(0.021, 10)
        self.gone = self.awake = True
        self.assertEqual((self.looks(0.021, 1), self.watch.still), ([False], False))

    def test_threads_that_are_being_ended_stood_until_then(self) -> None:
        """The system wakes each thread of a process that ends, and some may be gone before others."""
        self.looks(0.021, 20)
        self.awake = True
        self.looks(0.021, 1)
        self.gone = True
        self.looks(0.021, 1)
        self.assertEqual((self.watch.has_stood(), self.watch.standing, self.watch.longest), (True, ["stands"], 0.0))

    def test_threads_that_were_awake_stand_anew(self) -> None:
        self.looks(0.021, 40)
        self.awake = True
        self.looks(0.021, 1)
        self.awake = False
        self.assertEqual((self.looks(0.021, 49).index(True), self.watch.longest > 0.7), (48, True))

    def test_who_ends_it_may_be_gone_when_that_is_looked_for(self) -> None:
        """Another process releases a lock and ends while it is looked for what could end the standstill: nothing is left that could, but the threads go on."""
        def looks_on(*_: object) -> list[Doubt]:
            self.watch.table.threads.return_value = []
            return []
        self.looks(0.021, 47)
        with mock.patch.multiple(standing, is_asleep=lambda _: True, are_gone=lambda _: False, going_on=lambda *_: 0, doubts=looks_on), \
                mock.patch.object(standing.time, "monotonic", lambda: 0.021 * 48):
            self.assertFalse(self.watch.look())

    def test_each_process_has_places_in_its_own_program(self) -> None:
        """A child that runs another program shares a lock, and not the addresses of code."""
        class Programs(Modules):
            def __init__(self, thread: Thread, table: Table) -> None:
                self.parts, self.bases = [(0, 100, "/program/%d" % thread.process)], {"/program/%d" % thread.process: 0}
        both = [dataclasses.replace(thread(1, 20, 10, BY_HOLDER), process=5, callers=(7,)), dataclasses.replace(thread(2, 10, 20, BY_HOLDER), process=6, callers=(8,))]
        self.watch.table.threads.return_value = both
        self.assertEqual([each.waits for each in standing.described(both, self.watch.table, Programs)], [[("/program/5", 7)], [("/program/6", 8)]])

    def test_the_recorded_run_stands_still_if_that_is_seen_often(self) -> None:
        still, clock = Stillness(), iter(range(100, 10000, 100))
        with mock.patch.multiple(recorded, calls_of=lambda _: [["202", "0x1", "0x0", "0x2", "0x0"]], recorded_below=lambda _: []), \
                mock.patch.object(recorded.time, "monotonic", lambda: still.looked + next(clock)):
            self.assertEqual([still.is_sure(1) for _ in range(22)].index(True), 20)


class WhatCouldEndIt(unittest.TestCase):
    def found(self, releasing: int, going: int, call: int = IN_LOCK, timers: tuple[Timer, ...] = (), family: tuple[int, ...] = (),
              caught: int = 14, blocked: int = 0, second: int | None = None, writers: tuple[Thread, ...] = (), unwatched: tuple[int, ...] = (),
              limited: bool = False) -> list[Doubt]:
        """Of two threads, of which the second one runs no handlers, and may be of another process. The signal that is caught has one."""
        table = mock.Mock(spec=Table)
        table.timers.return_value, table.last.return_value = timers, last()
        with mock.patch.multiple(standing, heeded_by=lambda process, threads: 1 << caught >> 1 if threads else 0, tasks_of=lambda _: [2],
                                 descendants=lambda process: list(family), mask_in=lambda *_: blocked, goes_on=lambda process, stuck: process > 0,
                                 writers_before=lambda *_: list(writers), signals_of_timers=lambda _: set(unwatched),
                                 has_limit_of_processor_time=lambda _: limited):
            other = dataclasses.replace(thread(2, 10, 20, releasing, WITHOUT_HANDLERS), process=second or os.getpid())
            return doubts([thread(1, 20, 10, releasing, call), other], going, table)

    def test_other_threads(self) -> None:
        nobody = [Doubt("2 other threads can go on, though no thread may release what another one holds", False)]
        interrupts = "1 other thread can go on, and may interrupt one of these"
        rows = ((0, 0, IN_LOCK, []), (0, 2, IN_LOCK, nobody), (BY_HOLDER, 2, WITHOUT_HANDLERS, []), (BY_HOLDER, 0, IN_LOCK, []),
                (BY_HOLDER, 2, IN_LOCK, [Doubt("2 other threads can go on, and may set a handler for a signal, and send that", False)]),
                (BY_OTHERS, 1, IN_LOCK, [Doubt("1 other thread can go on, and any thread may release such a lock", False)]),
                (BY_ANYBODY, 1, IN_LOCK, [Doubt("1 other thread can go on, and any thread may release such a lock", True)]),
                (BY_HOLDER, 0, INTERRUPTIBLE, []), (BY_HOLDER, 1, INTERRUPTIBLE, [Doubt(interrupts, True)]),
                (BY_HOLDER, 1, INTERRUPTIBLE | IN_JOIN, [Doubt(interrupts, False)]))
        for releasing, going, call, wanted in rows:
            self.assertEqual(self.found(releasing, going, call, caught=0), wanted, (releasing, going, call))

    def test_a_writer_before_whom_a_reader_waits(self) -> None:
        """If its wait is broken off, the reader goes on."""
        writer = thread(3, 20, 0, BY_HOLDER, INTERRUPTIBLE)
        self.assertEqual(self.found(BY_HOLDER, 1, WITHOUT_HANDLERS, caught=0, writers=(writer,)), [Doubt("1 other thread can go on, and may interrupt one of these", True)])
        handled = [Doubt("1 other process goes on, and may send a signal that has a handler: SIGUSR1", False)]
        self.assertEqual(self.found(BY_HOLDER, 0, WITHOUT_HANDLERS, family=(7,), caught=10, writers=(thread(3, 20, 0, BY_HOLDER),)), handled)

    def test_timers_that_are_not_watched(self) -> None:
        for unwatched, limited, caught, wanted in (((10,), False, 10, "SIGUSR1"), ((10,), False, 14, ""), ((), True, 24, "SIGXCPU"), ((), False, 24, "")):
            said = [Doubt("a timer or a limit may be armed, and %s has a handler" % wanted, True)] if wanted else []
            self.assertEqual(self.found(BY_HOLDER, 0, caught=caught, unwatched=unwatched, limited=limited), said, (unwatched, limited, caught))

    def test_another_process_that_waits_for_a_signal_may_have_a_timer(self) -> None:
        child = subprocess.Popen(["sh", "-c", "exec python3 -c 'import signal; print(flush=True); signal.pause()'"], stdout=subprocess.PIPE)
        self.addCleanup(child.wait)
        self.addCleanup(child.kill)
        child.stdout.readline()
        while system.call_of(child.pid, child.pid)[:1] not in (["34"], ["130"]):
            time.sleep(0.001)
        self.assertEqual((standing.goes_on(child.pid, set()), system.is_endless(child.pid, child.pid, set())), (True, True))

    def test_a_handler_runs_in_a_thread_that_stands(self) -> None:
        handler = [Doubt("1 other thread can go on, and may send a signal that has a handler: SIGUSR1", False)]
        of_fault = [Doubt("1 other thread can go on, and may set a handler for a signal, and send that", False)]
        for call, going, caught, wanted in ((IN_LOCK, 1, 10, handler), (WITHOUT_HANDLERS, 1, 10, []), (IN_LOCK, 0, 10, []), (IN_LOCK, 1, 11, of_fault)):
            self.assertEqual(self.found(BY_HOLDER, going, call, caught=caught), wanted, (call, going, caught))

    def test_no_handler_runs_in_a_thread_that_blocks_all_signals(self) -> None:
        """But for SIGKILL and SIGSTOP, 9 and 19, and two of the C library, which can't be blocked. Those of faults, as 11, may stay unblocked."""
        never = 1 << 8 | 1 << 18 | 3 << 31
        for blocked, reached in ((~never, False), (~never & ~(1 << 10), False), (~never & ~(1 << 9), True), (~never & ~(1 << 33), True)):
            self.assertEqual(bool(self.found(BY_HOLDER, 1, caught=0, blocked=blocked)), reached, blocked)

    def test_a_handler_of_another_thread_may_release_what_not_only_the_holder_can_or_interrupt(self) -> None:
        handler = [Doubt("1 other process goes on, and may send a signal that has a handler: SIGUSR1", False)]
        for releasing, added, wanted in ((BY_HOLDER, 0, []), (BY_OTHERS, 0, handler), (BY_HOLDER, INTERRUPTIBLE, handler)):
            self.assertEqual(self.found(releasing, 0, WITHOUT_HANDLERS | added, family=(7,), caught=10), wanted, (releasing, added))

    def test_what_the_recording_says_of_locks_that_are_handed_over(self) -> None:
        for is_handed_over in (False, True):
            with tempfile.TemporaryDirectory() as folder:
                table = Table(os.path.join(folder, "table"), is_handed_over)
                self.assertEqual(table.last(), dataclasses.replace(last(), is_handed_over=is_handed_over))

    def test_what_is_read_of_a_call(self) -> None:
        for added, wanted in ((0, (False, True)), (INTERRUPTIBLE, (True, True)), (WITHOUT_HANDLERS, (False, False))):
            with tempfile.TemporaryDirectory() as folder:
                table = Table(os.path.join(folder, "table"))
                with open(table.path, "r+b") as file:
                    file.seek(FIRST_THREAD)
                    file.write(THREAD.pack(7, 8, 1, WAITS, 1, WRITES, 9, 0, 0, *[0] * MOST_CALLERS, 0, 0, 0, IN_JOIN | added, 0))
                found = table.threads()
            self.assertEqual([(each.call, each.is_interruptible, each.runs_handlers) for each in found], [(IN_JOIN, *wanted)])

    def test_the_program_stands_still_if_nobody_else_can_go_on(self) -> None:
        for going, wanted in ((0, "the program stands still"), (1, "its threads stand still, and 1 other thread can go on"),
                              (2, "its threads stand still, and 2 other threads can go on")):
            self.assertEqual(still_words(Outcome(going=going)), wanted)

    def test_a_signal_that_all_threads_block_ends_nothing(self) -> None:
        """As that of a timer whose handler is where the only thread stands."""
        before = signal.signal(signal.SIGUSR2, lambda *_: None)
        self.assertTrue(standing.is_caught(os.getpid(), signal.SIGUSR2))
        signal.pthread_sigmask(signal.SIG_BLOCK, [signal.SIGUSR2])
        try:
            self.assertFalse(standing.is_caught(os.getpid(), signal.SIGUSR2))
        finally:
            signal.pthread_sigmask(signal.SIG_UNBLOCK, [signal.SIGUSR2])
            signal.signal(signal.SIGUSR2, before)

    def test_other_processes(self) -> None:
        handler = [Doubt("1 other process goes on, and may send a signal that has a handler: SIGUSR1", False)]
        real_time = [Doubt("1 other process goes on, and may send a signal that has a handler: SIGRTMIN", False)]
        for family, caught, wanted in (((7,), 10, handler), ((-7,), 10, []), ((), 10, []), ((7,), 11, []), ((7,), 34, real_time), ((7,), 33, [])):
            self.assertEqual(self.found(BY_HOLDER, 0, family=family, caught=caught), wanted, (family, caught))

    def test_the_end_of_one_process_releases_its_robust_locks(self) -> None:
        robust = [Doubt("2 other processes go on, and may end one of these, which releases its robust locks", False)]
        for releasing, second, family, wanted in ((BY_OTHERS, 2, (7, 8), robust), (BY_OTHERS, 2, (), []), (BY_OTHERS, None, (7, 8), []), (0, 2, (7, 8), [])):
            self.assertEqual(self.found(releasing, 0, family=family, caught=0, second=second), wanted, (releasing, second, family))

    def test_processes_that_wait_only_for_stuck_ones(self) -> None:
        waits_for = {2: {1}, 3: {2}, 4: {5}, 5: {4, 6}, 6: {7}}
        with mock.patch.object(standing, "goes_on", lambda process, stands: not waits_for.get(process, {0}) <= stands):
            self.assertEqual(standing.going_beside({1}, set(range(2, 7))), {4, 5, 6})

    def test_who_waits_only_in_turn_goes_on(self) -> None:
        """Threads that wake one another all wait where each is looked at, but not at the same time."""
        sleeps = iter(({5: "1", 6: "7"}, {5: "2", 6: "7"}) * 2)
        with mock.patch.multiple(standing, is_endless=lambda *_: True, goes_on=lambda *_: False, sleeps_of=lambda _: next(sleeps), tasks_of=lambda _: [5, 6]):
            self.assertEqual(standing.going_on([thread(4, 20, 10, BY_ANYBODY)], mock.Mock(spec=Table, last=last, path="")), 1)
            self.assertEqual(standing.going_beside({1}, {2}), {2})
        own = os.getpid()
        before = system.sleeps_of(own)
        time.sleep(0.001)
        self.assertNotEqual(system.sleeps_of(own), before)

    def test_a_child_or_a_pipe_that_is_waited_for(self) -> None:
        own = os.getpid()
        with subprocess.Popen(["cat"], stdin=subprocess.PIPE) as reader:
            while system.call_of(reader.pid, reader.pid)[:1] != [system.READ] or system.state_of(reader.pid, reader.pid) != standing.ASLEEP:
                time.sleep(0.001)
            self.assertEqual([system.is_endless(reader.pid, reader.pid, stands) for stands in ({own}, {own + 1})], [True, False])
            rows = ((["61", "0x7"], {7}), (["61", "0xffffffff"], {reader.pid}), (["247", "0x1", "0x7"], {7}), (["247", "0x0", "0x7"], {reader.pid}))
            for call, wanted in rows:
                self.assertEqual(system.children_awaited(own, call), wanted, call)

    def test_timers(self) -> None:
        own, now = os.getpid(), time.monotonic()
        armed = [Doubt("a timer is armed, and SIGALRM has a handler", True)]
        rows = ((Timer(own, 14, now + 60, 0), armed), (Timer(own, 14, now - 1, 0), []), (Timer(own, 14, now - 1, 1), armed), (Timer(own, 14, 0, 1), []),
                (Timer(own, 10, now + 60, 0), []), (Timer(own + 1, 14, now + 60, 0), []),
                (Timer(own, -1, now + 60, 0), [Doubt("a timer is armed that runs a function", True)]))
        for timer, wanted in rows:
            self.assertEqual(self.found(BY_HOLDER, 0, timers=(timer,)), wanted, timer)


if __name__ == "__main__":
    unittest.main()
