"""What shows a verdict: the steps of a schedule, or what keeps one from coming to its wait; in text and in each form."""
from __future__ import annotations

import dataclasses
import json
import os

from cases import OfARecording, between, circle_by, findings
from lockdep.ask.verdict import Recorded
from lockdep.binaries.symbols import Address, Frame
from lockdep.places.sources import Sources
from lockdep.program.findings import Event, Finding, Held
from lockdep.program.schedules import APART, NOT_KNOWN, NOT_SHOWN, POSSIBLE, Forced, Place, Ring, Waiting
from lockdep.program.verdicts import Judgement, Reason, Verdict
from lockdep.record import threads
from lockdep.say.as_json import json_of_run
from lockdep.say.explanation import block_of
from lockdep.say.found import Found
from lockdep.say.judged import MOST_FORCED, judged_lines
from lockdep.say.junit import junit
from lockdep.say.page_finding import finding_html
from lockdep.say.sarif import sarif
from lockdep.say.verdict_words import verdict_of

HISTORY = "t/history/process-0001.csv"


def at(record: int) -> Event:
    return Event(HISTORY, record)


def step(task: int, record: int) -> Place:
    return Place("task-%04d" % task, at(record))


def waiting(task: int, record: int, lock: str, *holds: tuple[str, int], mode: str = "w") -> Waiting:
    return Waiting(step(task, record), lock, mode, tuple(Held(held, "w", at(since)) for held, since in holds))


WAITS = (waiting(1, 5, "b#2", ("g", 2), ("a#1", 4)), waiting(2, 9, "a#1", ("b#2", 8), mode="r"))
SHOWN = Ring(POSSIBLE, False, WAITS, (step(3, 1), step(2, 8), step(1, 4)), ())


class Placed(Sources):
    """Sources in which each step of the history is at the line of its number, but for some that have no caller."""

    def __init__(self, *placeless: int) -> None:
        super().__init__()
        self.callers = {at(record): [] if record in placeless else [Address("/srv/server", record)] for record in range(1, 30)}

    def frames(self, event: Event) -> list[Frame]:
        return [Frame("run", "/src/server.c", event.record, "")] if self.callers.get(event) else []


class OfRings(OfARecording):
    def judged(self, judgement: Judgement, tasks: tuple = (1, 2)) -> Finding:
        inner = circle_by(tasks, "a#1/0", "b#2/0", folder=self.path("objects"))
        found = findings([circle_by(tasks, "a/0", "b/0", folder=self.path("objects"), between=between("locks", inner))])[0]
        found.judged = judgement
        return found

    def shown(self, ring: Ring = SHOWN, verdict: Verdict = Verdict.POSSIBLE, reason: Reason | None = None, locks: dict[Event, str] | None = None) -> Finding:
        return self.judged(Judgement(verdict, reason, ring=ring, locks=locks or {}))

    def forced(self, *because: Forced, placeless: tuple[int, ...] = (), lock: str = "m#1") -> list[str]:
        found = self.shown(Ring(APART, False, WAITS, (), because), Verdict.APART, locks={at(7): lock})
        return judged_lines(found, Placed(*placeless))


class Text(OfRings):
    def test_a_schedule_says_who_takes_what_in_its_order_and_then_who_waits(self) -> None:
        self.assertEqual(judged_lines(self.shown(), Placed()), [
            "first, 1 other thread goes on", "thread 2 takes b#2: run at server.c:8", "thread 1 takes a#1: run at server.c:4",
            "thread 1 waits for b#2: run at server.c:5", "thread 2 waits for a#1 as a reader: run at server.c:9"])

    def test_others_that_go_on_before_are_counted(self) -> None:
        for others, words in (((), []), ((3, 4), ["first, 2 other threads go on"])):
            ring = Ring(POSSIBLE, False, WAITS, tuple(step(task, 1) for task in others) + (step(1, 4), step(2, 8)), ())
            self.assertEqual(judged_lines(self.shown(ring), Placed())[:-4], words)

    def test_a_step_without_a_caller_is_a_record(self) -> None:
        self.assertEqual(judged_lines(self.shown(), Placed(8))[1], "thread 2 takes b#2: record 8")

    def test_a_thread_that_is_joined(self) -> None:
        ring = Ring(POSSIBLE, True, (waiting(1, 5, "thread:worker", ("a#1", 4)), waiting(2, 9, "a#1", ("thread:worker", 8))), (step(2, 8), step(1, 4)), ())
        self.assertEqual(judged_lines(self.shown(ring, Verdict.BY_JOIN), Placed())[3], "thread 1 waits for the thread's end, thread:worker: run at server.c:5")

    def test_a_thread_has_its_name(self) -> None:
        self.write("tasks", "task-0001.csv 17 payer\n")
        threads.names_in.cache_clear()
        self.assertEqual(judged_lines(self.shown(), Placed())[2], "thread 1 (payer) takes a#1: run at server.c:4")

    def test_each_word_of_what_forces_a_task(self) -> None:
        for forced, placeless, lock, line in (
                (Forced("task-0001", "ring", at(4), None), (), "", "thread 1 has to come to run at server.c:4"),
                (Forced("task-0001", "message", at(6), step(2, 7)), (), "",
                 "thread 2 goes on at run at server.c:7 only when thread 1 has passed run at server.c:6"),
                (Forced("task-0001", "message", at(6), step(2, 7)), (7,), "", "thread 2 begins only when thread 1 has passed run at server.c:6"),
                (Forced("task-0001", "order", at(6), step(2, 7)), (6,), "m#1", "thread 2 takes m#1 at run at server.c:7 only when thread 1 has released it"),
                (Forced("task-0001", "order", at(6), step(2, 7)), (6,), "thread:worker#1",
                 "thread 2 goes on at run at server.c:7 only when thread 1 has ended"),
                (Forced("task-0001", "none left", None, None), (), "", "so thread 1 is past the last place where it would wait"),
                (Forced("task-0001", "never released", at(6), step(2, 7)), (), "m#1",
                 "thread 1 never releases what it takes at run at server.c:6, and thread 2 takes it at run at server.c:7")):
            self.assertEqual(self.forced(forced, placeless=placeless, lock=lock), [line])

    def test_many_steps_are_counted(self) -> None:
        lines = self.forced(*[Forced("task-0001", "ring", at(4), None)] * (MOST_FORCED + 2))
        self.assertEqual((len(lines), lines[-1]), (MOST_FORCED + 1, "and 2 more steps"))

    def test_what_no_ring_shows_has_no_lines(self) -> None:
        self.assertEqual(judged_lines(self.judged(Judgement(Verdict.NOT_SHOWN, Reason.TIMED)), Placed()), [])
        self.assertEqual(judged_lines(self.shown(Ring(NOT_KNOWN, False, WAITS, (), ()), Verdict.NOT_KNOWN), Placed()), [])

    def test_they_stand_under_the_verdict(self) -> None:
        found = self.shown()
        lines = [line.text for line in block_of(found, [], [verdict_of(found, Recorded([]))], Placed())]
        place = lines.index("  possible: a#1, b#2, by 2 threads: these recorded steps, in another order, stand still")
        self.assertEqual(lines[place + 2], "    thread 2 takes b#2: run at server.c:8")


class Verdicts(OfRings):
    """The line of each verdict."""

    def said(self, judgement: Judgement, tasks: tuple = (1, 2)) -> str:
        return verdict_of(self.judged(judgement, tasks), Recorded([]))

    def test_each_verdict(self) -> None:
        two = "a#1, b#2, by 2 threads: "
        apart, order = (Ring(verdict, False, WAITS, (), ()) for verdict in (APART, NOT_SHOWN))
        for judgement, words in (
                (Judgement(Verdict.POSSIBLE, ring=SHOWN), "possible: " + two + "these recorded steps, in another order, stand still"),
                (Judgement(Verdict.BY_JOIN, ring=SHOWN), "possible by a join: " + two + "these recorded steps, in another order, stand still, unless the "
                 "thread is joined only when it has said that it is done"),
                (Judgement(Verdict.NOT_KNOWN, why="why"), "not known: " + two + "why"),
                (Judgement(Verdict.APART, ring=apart), "kept apart: " + two + "starts, joins and messages keep these steps apart in this recording"),
                (Judgement(Verdict.NOT_SHOWN, Reason.ORDER, ring=order), "not shown: " + two + "these steps don't stand still while threads take each lock "
                 "in the order in which they did; other orders aren't tried"),
                (Judgement(Verdict.NOT_SHOWN, Reason.TIMED), "not shown: " + two + "only by waits with a time limit")):
            self.assertEqual(self.said(judgement), words)

    def test_one_thread(self) -> None:
        for reason, words in (
                (Reason.LIKE_THREADS, "others like the threads that did this may do it at the same time; too few of them did"),
                (Reason.FEWER_THREADS, "fewer threads than it takes did this, and no others are known to be like them")):
            os.makedirs(self.path("signals"), exist_ok=True)
            self.write("signals/threads", "task-0001.csv 1\n")
            threads.numbers_in.cache_clear()
            self.assertEqual(self.said(Judgement(Verdict.NOT_SHOWN, reason), (1, 1)), "not shown: a#1, b#2, by one thread: " + words)

    def test_a_ring_of_other_locks_is_said_by_its_own(self) -> None:
        ring = Ring(POSSIBLE, False, (waiting(1, 5, "b#7", ("a#1", 4)), waiting(2, 9, "a#1", ("b#7", 8))), (step(1, 4), step(2, 8)), ())
        self.assertTrue(self.said(Judgement(Verdict.POSSIBLE, ring=ring)).startswith("possible: b#7, a#1, by 2 threads: these recorded steps"))


class Forms(OfRings):
    def found(self, finding: Finding, sources: Sources) -> Found:
        return Found([finding], [], sources, Recorded([]), [])

    def json(self, finding: Finding) -> dict:
        return json.loads(json_of_run(self.found(finding, Placed())))["findings"][0]["judged"]

    def test_json_of_what_is_possible(self) -> None:
        judged = self.json(self.shown())
        self.assertEqual({name: judged[name] for name in ("verdict", "counts", "because")}, {"verdict": "possible", "counts": True, "because": []})
        self.assertEqual([(place["task"], place["record"]) for place in judged["schedule"]], [("task-0003", 1), ("task-0002", 8), ("task-0001", 4)])
        first = judged["ring"][0]
        self.assertEqual({name: first[name] for name in ("task", "file", "record", "waits_for", "mode")},
                         {"task": "task-0001", "file": HISTORY, "record": 5, "waits_for": "b#2", "mode": "w"})
        self.assertEqual(first["places"], [{"function": "run", "file": "/src/server.c", "line": 5}])
        self.assertEqual([(held["lock"], held["mode"], held["record"]) for held in first["holds"]], [("g", "w", 2), ("a#1", "w", 4)])

    def test_json_of_what_keeps_steps_apart(self) -> None:
        because = (Forced("task-0001", "message", at(6), step(2, 7)), Forced("task-0001", "none left", None, None))
        judged = self.json(self.shown(Ring(APART, False, WAITS, (), because), Verdict.APART))
        self.assertEqual((judged["verdict"], judged["counts"], judged["schedule"]), ("kept-apart", False, []))
        self.assertEqual((judged["because"][0]["by"], judged["because"][0]["record"], judged["because"][0]["after"]["task"]), ("message", 6, "task-0002"))
        self.assertEqual(judged["because"][1], {"task": "task-0001", "by": "none left"})

    def test_json_of_what_no_ring_shows(self) -> None:
        self.assertEqual(self.json(self.judged(Judgement(Verdict.NOT_SHOWN, Reason.LIKE_THREADS))), {"verdict": "not-shown", "counts": True,
                                                                                                   "reason": "like-threads"})
        self.assertEqual(self.json(self.judged(Judgement(Verdict.NOT_KNOWN, why="why"))), {"verdict": "not-known", "counts": True, "why": "why"})

    def test_json_counts_verdicts(self) -> None:
        self.assertEqual(json.loads(json_of_run(self.found(self.shown(), Placed())))["counts"], {"possible": 1})

    def test_sarif_has_the_schedule_as_a_second_flow(self) -> None:
        result = json.loads(sarif(self.found(self.shown(), Placed())))["runs"][0]["results"][0]
        flow = result["codeFlows"][1]
        self.assertEqual((result["level"], flow["message"]["text"]), ("error", "the recorded steps in another order, in which they stand still"))
        self.assertEqual([(thread["id"], [(one["executionOrder"], one["location"]["physicalLocation"]["region"]["startLine"]) for one in thread["locations"]])
                          for thread in flow["threadFlows"]], [("task-0002", [(1, 8), (4, 9)]), ("task-0001", [(2, 4), (3, 5)])])
        self.assertIn("Thread 2 takes b#2: run at server.c:8.", result["message"]["text"])

    def test_sarif_of_what_is_kept_apart_has_one_flow_and_is_a_warning(self) -> None:
        ring = Ring(APART, False, WAITS, (), (Forced("task-0001", "none left", None, None),))
        result = json.loads(sarif(self.found(self.shown(ring, Verdict.APART), Placed())))["runs"][0]["results"][0]
        self.assertEqual((result["level"], len(result["codeFlows"])), ("warning", 1))
        self.assertIn("So thread 1 is past the last place where it would wait.", result["message"]["text"])

    def test_junit_has_the_steps(self) -> None:
        self.assertIn("\n  thread 2 takes b#2: run at server.c:8\n", junit(self.found(self.shown(), Placed())))

    def test_junit_skips_what_does_not_make_the_status(self) -> None:
        apart = self.shown(Ring(APART, False, WAITS, (), (Forced("task-0001", "none left", None, None),)), Verdict.APART)
        for found, only_counted, counts, element in ((apart, False, 'failures="1" errors="0" skipped="0"', '<failure type="circle" message="a and b are taken in both orders">'),
                                                     (apart, True, 'failures="0" errors="0" skipped="1"', '<skipped message="a and b are taken in both orders: kept apart">'),
                                                     (self.shown(), True, 'failures="1" errors="0" skipped="0"', '<failure type="circle" message="a and b are taken in both orders">')):
            text = junit(dataclasses.replace(self.found(found, Placed()), only_counted=only_counted))
            self.assertIn(counts, text)
            self.assertIn(element, text)

    def test_the_page_has_a_table_of_the_schedule(self) -> None:
        finding = self.shown()
        text = finding_html(finding, self.found(finding, Placed()))
        self.assertIn('<p class="note">Possible: thread 2 stops after server.c:8, and thread 1 goes on to server.c:5.</p>', text)
        self.assertIn("<h3>The recorded steps that stand still, in another order</h3>\n", text)
        table = text.partition("in another order</h3>")[2].partition("</table>")[0]
        self.assertIn('<th scope="col">Thread 2</th><th scope="col">Thread 1</th>', table)
        self.assertIn('<tr><td class="time">1</td><td data-task="Thread 2"><span class="takes" title="b#2">takes b</span><br><a href="#record-1-1">run at server.c:8</a></td>'
                      '<td data-task="Thread 1"></td></tr>\n', table)
        self.assertIn('<td data-task="Thread 2"><span class="waits" title="a#1">waits for a as a reader</span><br><a href="#record-1-4">run at server.c:9</a></td>', table)
        self.assertEqual(table.count("<tr><td"), 5)  # (the last row says that it is a deadlock)
        self.assertEqual(text.count('<div class="record" id="record-1-'), 4)

    def test_the_page_says_what_keeps_steps_apart(self) -> None:
        finding = self.shown(Ring(APART, False, WAITS, (), (Forced("task-0001", "none left", None, None),)), Verdict.APART)
        text = finding_html(finding, self.found(finding, Placed()))
        self.assertEqual(text.count('<th scope="col">Thread 1<br>') + text.count('<th scope="col">Thread 2<br>'), 2)
        self.assertIn('<h3>What keeps these steps apart</h3>\n<pre tabindex="0"><code>so thread 1 is past the last place where it would wait\n</code></pre>', text)
        self.assertNotIn("stand still, in another order", text)
