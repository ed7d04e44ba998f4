"""Findings as values: reading the checker's JSON, what was seen between locks, and groups."""
import io
import os
import tempfile
import unittest

from cases import between, circle, finding, findings, order, sightings
from lockdep.ask.timed import gone_without, marked_in, with_tries
from lockdep.ask.verdict import Recorded, by_importance
from lockdep.base.saying import Refusal
from lockdep.base.words import as_sentence
from lockdep.known.known import Sorted
from lockdep.places.sources import Sources
from lockdep.program.findings import Event, findings_of
from lockdep.program.verdicts import Judgement, Level, Reason, Verdict
from lockdep.record.summary import Summary, parse
from lockdep.record.threads import called, of_recording
from lockdep.say.explanation import thread_of
from lockdep.say.groups import groups_of
from lockdep.say.report import NOT_JUDGED, Recording, Report, ReportOptions
from lockdep.say.sentences import Names, rows_of
from lockdep.say.steps import task_words
from lockdep.say.terminal import Writer
from lockdep.say.text import Text
from lockdep.say.verdict_words import notes_of, verdict_of


def gate(key, *keys):
    orders = [{"from": one, "kind": "EN", "to": other} for one, other in zip(keys, keys[1:] + keys[:1])]
    return {"gate": key, "orders": orders}


def stands_for(number):
    """The summary of a recording in which a trace stands for so many others."""
    return Summary(parse("threads-alike %d\n  threads whose traces weren't written\n    task-0002 stands for %d of them\n" % (number, number)))


class NamesOfThreads(unittest.TestCase):
    def setUp(self):
        self.folder = tempfile.TemporaryDirectory()
        self.addCleanup(self.folder.cleanup)
        with open(os.path.join(self.folder.name, "tasks"), "wb") as file:
            file.write(b"task-0001.csv 17 the payer\ntask-0002.csv 17 a\x1b[1mb\ntask-0003.csv 17 \ntask-0004.csv\ntask-0006.csv 18 \n")

    def trace(self, name, *folder):
        return os.path.join(self.folder.name, *folder, name)

    def test_a_thread_is_called_by_its_name_too(self):
        for folder in ((), ("objects",)):
            self.assertEqual(thread_of(Event(self.trace("task-0001.csv", *folder), 2)), " (task-0001, the payer)")
            self.assertEqual(thread_of(Event(self.trace("task-0002.csv", *folder), 2)), " (task-0002, a\\x1b[1mb)")
        self.assertEqual(called("task-0001", self.trace("task-0001.csv")), "task-0001 (the payer)")

    def test_one_without_a_name(self):
        for name in ("task-0003", "task-0004", "task-0005"):
            self.assertEqual(thread_of(Event(self.trace(name + ".csv"), 2)), " (%s)" % name)
        self.assertEqual(thread_of(Event("/nowhere/task-0001.csv", 2)), " (task-0001)")
        self.assertEqual(thread_of(Event("other.csv", 2)), "")
        self.assertEqual(thread_of(None), "")

    def test_one_of_another_process_is_told_apart(self):
        for folder in ((), ("objects",)):
            one, same, unknown, other = (self.trace("task-000%d.csv" % number, *folder) for number in (1, 3, 4, 6))
            self.assertEqual([of_recording(each, [one, same, unknown, other]) for each in (one, unknown, other)], [" of process 17", "", " of process 18"])
            self.assertEqual([of_recording(each, [one, same, unknown]) for each in (one, same, unknown)], ["", "", ""])

    def test_one_of_another_recording_is_told_apart(self):
        events = [Event("x/m1/objects/task-0001.csv", 2), Event("y/m2/task-0001.csv", 2), Event("y/m2/task-0002.csv", 2)]
        self.assertEqual([thread_of(event, [each.file for each in events]) for event in events], [" (task-0001 of m1)", " (task-0001 of m2)", " (task-0002 of m2)"])
        alike = [Event("x/m/objects/task-0001.csv", 2), Event("y/m/objects/task-0001.csv", 4)]
        self.assertEqual([thread_of(event, [each.file for each in alike]) for event in alike], [" (task-0001 of x/m)", " (task-0001 of y/m)"])
        for one, other in (("m/objects/task-0001.csv", "m/task-0001.csv"), ("m/task-0001.csv", "m/signals/1/task-0001.csv")):
            self.assertEqual(of_recording(one, [one, other]), "")
        self.assertEqual(of_recording("task-0001.csv", ["task-0001.csv", "m/task-0001.csv"]), " of .")
        said = finding(dict(circle("a/0", "b/0"), orders=[order("a/0", "EN", "b/0", "x/m1/task-0001.csv"), order("b/0", "EN", "a/0", "x/m2/task-0001.csv")]))
        self.assertEqual([row[3] for row in rows_of(said, Sources(), Names([said], Sources()))], ["thread 1 of m1", "thread 1 of m2"])

    def test_a_sentence_keeps_a_locks_name(self):
        for remark, sentence in (("d/0 EN e/0: in 2 recordings: x", "d/0 EN e/0: in 2 recordings: x."), ("not known: d", "Not known: d."),
                                 ("task-0002 takes b", "Task-0002 takes b."), ("it isn't.", "It isn't."), ("std::m/0 used in hardirq", "std::m/0 used in hardirq.")):
            self.assertEqual(as_sentence(remark), sentence)


class Reading(unittest.TestCase):
    def test_a_finding_has_its_head_and_its_records(self):
        one = finding(circle("a/0", "b/0", between=between("classes")))
        self.assertEqual(one.head, "circle a/0 EN b/0 EN a/0")
        self.assertEqual([(event.file[-8:], event.record) for event in one.own_events()],
                         [("0001.csv", 3), ("0001.csv", 2), ("0002.csv", 3), ("0002.csv", 2)])
        self.assertIs(one.level, Level.CLASSES)

    def test_what_is_no_json_of_a_version_that_is_read_is_refused(self):
        for raw in (b"", b"[]", b'{"lockdep":4,"findings":[]}', b'{"lockdep":2}', b'{"lockdep":2,"findings":[{"type":"circle"}]}',
                    b'{"lockdep":2,"findings":[{"type":"circle","keys":["a/0"],"lines":["x"],"between":{"kind":"new"}}]}'):
            with self.assertRaises(Refusal):
                findings_of(raw)

    def test_a_nested_type_is_a_note(self):
        one = finding(circle("a/0", between=between("nested")))
        self.assertTrue(one.is_note)
        self.assertFalse(one.is_counted)

    def test_what_confirmed_only_counts(self):
        of_levels = [level.value for level in Level if finding(circle("a/0", between=between(level.value))).is_counted]
        self.assertEqual(of_levels, ["locks", "perhaps", "unknown"])
        said = findings([circle("a/0", between=between("locks")) for _ in Verdict])
        for one, verdict in zip(said, Verdict):
            one.judged = Judgement(verdict)
        self.assertEqual([one.verdict.value for one in said if one.is_counted], ["happened", "possible", "not-known"])

    def test_one_confirmed_finding_makes_the_status(self):
        possible, by_join, apart, classes = map(Judgement, (Verdict.POSSIBLE, Verdict.BY_JOIN, Verdict.APART, Verdict.CLASSES))
        order, one_lock = Judgement(Verdict.NOT_SHOWN, Reason.ORDER), Judgement(Verdict.NOT_SHOWN, Reason.ONE_LOCK)
        for judged, status in ((apart, possible), 9), ((possible, apart), 9), ((by_join, one_lock, classes), 0), ((one_lock, order), 9), ((by_join,), 0):
            report = Report(Recording("", Summary()), ReportOptions(error_exitcode=9, confirmed_only=True), None)
            report.sorted = Sorted(findings([circle("%d/0" % number, between=between("locks")) for number in range(len(judged))]))
            for one, judgement in zip(report.sorted.new, judged):
                one.judged = judgement
            self.assertEqual(report.status, status, judged)


class Hung(unittest.TestCase):
    """The status of a run at whose end a thread waited for a lock."""

    HUNG = "waiting 1\n  task-0001 waits for m\nat-exit 0\n"

    def status(self, summary, lost, **options):
        report = Report(Recording("", Summary(parse(summary)), lost, status=0), ReportOptions(**options), None)
        report.sorted = Sorted([])
        return report.status

    def test_a_hang_with_something_left_out_is_not_judged(self):
        self.assertEqual(self.status(self.HUNG, "3 tries"), NOT_JUDGED)
        self.assertEqual(self.status(self.HUNG, ""), 0)
        self.assertEqual(self.status(self.HUNG, "3 tries", error_exitcode=9), 9)
        self.assertEqual(self.status("waiting 1\n  task-0001 waits for m\nat-exit 1\n", "", error_exitcode=9), 0)


def rank_of(judgement):
    return judgement.verdict, judgement.is_counted


class Verdicts(unittest.TestCase):
    recorded = Recorded([])

    def said(self, kind, inner=None, **more):
        return verdict_of(finding(circle("a/0", "b/0", between=between(kind, inner), **more)), self.recorded)

    def test_by_how_many_threads(self):
        self.assertEqual(self.said("locks", circle("a#1/0", "b#2/0")), "not known: a#1, b#2, by 2 threads")

    def test_threads_that_a_trace_stands_for_count(self):
        recorded = Recorded([], stands_for(4094))
        one = finding(circle("a/0", "b/0", between=between("locks", circle("a#1/0", "b#2/0"))))
        self.assertEqual(verdict_of(one, recorded), "not known: a#1, b#2, by 4096 threads")

    def test_threads_of_traces_that_say_the_same_count(self):
        with tempfile.TemporaryDirectory() as folder:
            traces = [os.path.join(folder, "task-%04d.csv" % number) for number in range(1, 5)]
            for trace, text in zip(traces, ("lockdep,2\n", "lockdep,2\n", "lockdep,1\n", "none")):
                with open(trace, "w") as file:
                    file.write(text)
            recorded = Recorded(traces, stands_for(40))
            self.assertEqual([recorded.threads_of([trace]) for trace in traces], [42, 42, 1, 1])

    def test_threads_that_are_only_counted_may_be_more(self):
        with tempfile.TemporaryDirectory() as folder:
            traces = [os.path.join(folder, "task-%04d.csv" % number) for number in range(1, 4)]
            for trace, text in zip(traces, ("lockdep,2\n", "lockdep,2\n", "none")):
                with open(trace, "w") as file:
                    file.write(text)
            for first, summary, words in ((0, Summary(parse("threads-alike 534\n")), "by at least 3 threads"),
                                          (0, Summary(parse("threads-alike 0\n")), "by 3 threads"),
                                          (2, Summary(parse("threads-alike 534\n")), "by 2 threads"), (0, stands_for(40), "by 43 threads")):
                inner = circle("a#1/0", "b#2/0", orders=[order("a#1/0", "EN", "b#2/0", traces[first]), order("b#2/0", "EN", "a#1/0", traces[2])])
                said = verdict_of(finding(circle("a/0", "b/0", between=between("locks", inner))), Recorded(traces, summary))
                self.assertEqual(said, "not known: a#1, b#2, " + words)

    def test_by_one_thread(self):
        inner = circle("a#1/0", "b#2/0", only="t/objects/task-0001.csv")
        inner["orders"] = [order("a#1/0", "EN", "b#2/0"), order("b#2/0", "EN", "a#1/0", record=7, since=6)]
        self.assertEqual(self.said("locks", inner), "not known: a#1, b#2, by one thread")

    def test_one_thread_has_several_traces_with_runs_of_its_handlers(self):
        with tempfile.TemporaryDirectory() as folder:
            os.makedirs(os.path.join(folder, "signals"))
            os.makedirs(os.path.join(folder, "objects"))
            with open(os.path.join(folder, "signals", "threads"), "w") as file:
                file.write("task-0001.csv 1\ntask-0002.csv 1\ntask-0003.csv 2\n")
            own, run, other = (os.path.join(folder, "objects", "task-%04d.csv" % number) for number in (1, 2, 3))
            for traces, count, words in (([run], 1, "by one thread"), ([run, own], 2, "by one thread"), ([run, other], 2, "by 2 threads"),
                                         ([run], 17, "by 2 threads")):
                orders = [dict(order("a#1/0", "EN", "b#2/0", own), traces=sightings([own], 1)),
                          dict(order("b#2/0", "EN", "a#1/0", run), traces=sightings(traces, count))]
                one = finding(circle("a/0", "b/0", between=between("locks", circle("a#1/0", "b#2/0", orders=orders))))
                self.assertEqual(verdict_of(one, Recorded([own, run, other])), "not known: a#1, b#2, " + words, traces)

    def test_the_first_records_of_one_thread_alone_are_no_proof_of_one(self):
        inner = circle("a#1/0", "b#2/0")
        inner["orders"] = [order("a#1/0", "EN", "b#2/0"), order("b#2/0", "EN", "a#1/0", record=7, since=6)]
        self.assertEqual(self.said("locks", inner), "not known: a#1, b#2, by 2 threads")

    def test_under_a_gate_of_all_orders(self):
        inner = circle("a#1/0", "b#2/0", gates=[gate("g/0", "a#1/0", "b#2/0")])
        self.assertEqual(self.said("locks", inner), "not known: a#1, b#2, under g")

    def test_a_gate_of_some_orders_or_of_several_locks_is_none(self):
        some = circle("a#1/0", "b#2/0", "c/0", gates=[{"gate": "g/0", "orders": gate("g/0", "a#1/0", "b#2/0")["orders"][:1]}])
        self.assertIn("by 3 threads", self.said("locks", some))
        self.assertIn("by 2 threads", self.said("locks", circle("a#1/0", "b#2/0", gates=[gate("g#rest/0", "a#1/0", "b#2/0")])))

    def test_perhaps_names_what_is_several_locks(self):
        self.assertEqual(self.said("perhaps", circle("a#1/0", "b#rest@7/1")),
                         "not known: a#1, b#rest@7/1, by 2 threads: b#rest@7/1 is several locks")

    def test_the_locks_begin_with_the_order_of_the_finding(self):
        inner = circle("b@1#2/0", "c#1/0", "a@2#1/0")
        self.assertTrue(self.said("locks", inner).startswith("not known: a@2#1, b@1#2, c#1, "))

    def test_a_lock_under_itself(self):
        one = finding(circle("p/0", between=between("locks", circle("p#1/0", only="x")), only="x", notes=["only in x"]))
        self.assertEqual(verdict_of(one, self.recorded), "not known: p#1 under itself, by 1 thread")
        self.assertEqual(notes_of(one, self.recorded), ["only in x; but a lock is taken under itself there"])

    def test_what_is_said_without_single_locks(self):
        self.assertEqual(self.said("classes"), "between classes; no two locks were taken both ways")
        self.assertEqual(self.said("types"), "between types, not between classes")
        self.assertEqual(self.said("unknown"), "not known: more than 256 keys lead to one another")

    def test_what_is_gone_with_more_callers(self):
        recorded = Recorded([])
        recorded.depths = {1: 6}
        one = finding(circle("a/0", "b/0", between=between("classes")))
        self.assertTrue(verdict_of(one, recorded).endswith(", and not if places are 6 callers deep"))
        seen = finding(circle("a/0", "b/0", between=between("locks", circle("a#1/0", "b/0"))))
        self.assertNotIn("callers deep", verdict_of(seen, recorded))

    def test_a_gate_that_is_several_locks(self):
        with tempfile.TemporaryDirectory() as folder:
            trace = os.path.join(folder, "task-0001.csv")
            with open(trace, "w") as file:
                file.write('lockdep,2\nacq,g#1,0,w\nrel,g#1,0\nacq,"g#2",0,w\n')
            one = finding(circle("a/0", "b/0", between=between("classes"), notes=["always inside g/0: .."], gates=[gate("g/0", "a/0", "b/0")]))
            self.assertEqual(notes_of(one, Recorded([trace])), ["always inside g/0: ..; but g is several locks"])
            self.assertEqual(notes_of(one, Recorded([])), ["always inside g/0: .."])

    def test_what_nothing_keeps_apart_comes_first(self):
        under = circle("a/0", "b/0", between=between("locks", circle("a/0", "b/0", gates=[gate("g/0", "a/0", "b/0")])))
        perhaps = circle("e/0", "f/0", between=between("perhaps", circle("e#rest/0", "f/0")))
        free = circle("c/0", "d/0", between=between("locks", circle("c/0", "d/0")))
        self.assertEqual([one.keys[0] for one in by_importance(findings([under, perhaps, free]))], ["c/0", "a/0", "e/0"])

    def test_the_verdict_comes_first_then_what_counts(self):
        judged = [Judgement(verdict) for verdict in Verdict if verdict is not Verdict.NOT_SHOWN]
        judged[4:4] = [Judgement(Verdict.NOT_SHOWN, reason) for reason in (Reason.ORDER, Reason.LIKE_THREADS, Reason.FEWER_THREADS, Reason.TIMED)]
        said = findings([circle("x/0", "y/0", between=between("locks")) for _ in judged])
        for one, judgement in zip(said, judged):
            one.judged = judgement
        found = [one.judged for one in by_importance(said[::-1])]
        self.assertEqual(list(map(rank_of, found)), list(map(rank_of, judged)))

    def test_of_one_verdict_the_level_comes_first(self):
        levels = ["locks", "perhaps", "unknown"]
        said = [circle(level + "/0", "x/0", between=between(level)) for level in reversed(levels)]
        self.assertEqual([one.level.value for one in by_importance(findings(said))], levels)
        said = [circle(level + "/0", "x/0", between=between(level)) for level in ("nested", "types", "classes")]
        self.assertEqual([one.level.value for one in by_importance(findings(said))], ["classes", "types", "nested"])

    def test_the_shortest_cycle_of_single_locks_comes_first(self):
        long, short = circle("o#1/0", "s#1/0", "t#1/0"), circle("s#1/0", "t#1/0")
        said = [circle("a/0", "s/0", "t/0", between=between("locks", long)), circle("o/0", "s/0", "t/0", between=between("locks", short))]
        self.assertEqual([one.keys[0] for one in by_importance(findings(said))], ["o/0", "a/0"])


class Timed(unittest.TestCase):
    """Findings that need acquisitions which are tries in another answer."""

    def gone(self, left, *said):
        return [one.keys for one in gone_without(findings(list(said)), {"circle %s EN %s" % tuple(pair.split()) for pair in left})]

    def test_acquisitions_become_tries(self):
        trace = b'lockdep,1\nacq,a,0,w\nacq,"b,1",0,rr\nrel,"b,1",0\n'
        self.assertEqual(with_tries(trace, [3]), b'lockdep,2\nacq,a,0,w\nacq,"b,1",0,trr\nrel,"b,1",0\n')

    def test_what_a_recording_marks_by_traces_and_ways(self):
        with tempfile.TemporaryDirectory() as folder:
            self.assertEqual(marked_in(folder, Reason.TIMED), {})
            with open(os.path.join(folder, "weak"), "w") as file:
                file.write("task-0001.csv 3 timed\ntask-0002.csv 2 late\ntask-0001.csv 5 timed\ntask-0002.csv 0 timed\ntask-0003.csv 4 new-lock\n")
            self.assertEqual([marked_in(folder, reason) for reason in (Reason.TIMED, Reason.LATE)], [{"task-0001.csv": [3, 5]}, {"task-0002.csv": [2]}])

    def test_a_finding_is_gone_if_no_order_of_it_is_left(self):
        self.assertEqual(self.gone([], circle("a/0", "b/0")), [["a/0", "b/0"]])
        self.assertEqual(self.gone(["a/0 b/0", "b/0 a/0"], circle("a/0", "b/0")), [])

    def test_an_order_that_is_left_stays_in_a_finding(self):
        self.assertEqual(self.gone(["a/0 b/0", "b/0 c/0", "c/0 a/0"], circle("a/0", "b/0")), [])

    def test_an_order_that_is_left_stays_in_one_of_such_orders_alone(self):
        two, three = circle("a/0", "b/0"), circle("a/0", "b/0", "c/0")
        self.assertEqual(self.gone(["a/0 b/0", "b/0 c/0", "c/0 a/0"], two, three), [["a/0", "b/0"]])


class Groups(unittest.TestCase):
    def test_findings_that_share_an_order_are_one_group(self):
        shared = [circle("a/0", "b/0", other) for other in ("c/0", "d/0")]
        groups = groups_of(findings([circle("x/0", "y/0")] + shared + [circle("a/0", "b/0")]))
        self.assertEqual([(group.shared, [one.number for one in group.findings]) for group in groups],
                         [("", [1]), ("a/0 EN b/0", [2, 3, 4])])

    def test_each_finding_is_in_one_group(self):
        said = [circle("a/0", "b/0", "c/0"), circle("b/0", "c/0", "d/0"), circle("c/0", "d/0", "e/0"), circle("p/0")]
        members = [one.number for group in groups_of(findings(said)) for one in group.findings]
        self.assertEqual(sorted(members), [1, 2, 3, 4])


class Shown(unittest.TestCase):
    """How much of many findings is printed."""

    def shown(self, said, most=None):
        stream = io.StringIO()
        text = Text(Writer(stream, 0), Sources(), Recorded([]), findings(said), is_verbose=True)
        return text.groups(groups_of(findings(said)), most), stream.getvalue()

    def test_the_first_of_a_group_is_whole_and_the_others_are_one_line(self):
        said = [circle("a/0", "b/0", other, between=between("classes")) for other in ("c/0", "d/0", "e/0")]
        left, text = self.shown(said)
        self.assertEqual((left, text.count("\ncircle ")), (0, 1))
        self.assertIn("  2 more findings have a/0 EN b/0:\n    circle a/0 EN b/0 EN d/0 EN a/0; between classes; no two", text)

    def test_the_rest_of_many_groups_is_counted(self):
        said = [circle("a%d/0" % number, "b%d/0" % number, between=between("classes")) for number in range(30)]
        left, text = self.shown(said, 20)
        self.assertEqual((left, text.count("\ncircle ")), (10, 20))
        self.assertEqual(self.shown(said)[0], 0)

    def test_a_task_waits_for_the_end_of_a_thread(self):
        self.assertEqual(task_words(finding(circle("state/0", "thread:worker/0"))),
                         ["task 1 holds state/0 and waits for the thread's end, thread:worker/0",
                          "task 2 holds thread:worker/0 and waits for state/0"])

    def test_a_task_is_named_with_its_trace(self):
        self.assertIn("\n  task 2 holds b/0 and waits for a/0 (task-0002)\n", self.shown([circle("a/0", "b/0", between=between("classes"))])[1])


if __name__ == "__main__":
    unittest.main()
