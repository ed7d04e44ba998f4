"""What the findings of a kernel come from: which acquisition is named first, by how many findings go through what it makes and how many traces have that."""
from __future__ import annotations

import unittest
from unittest import mock

from cases import circle, findings, order
from lockdep.ask import causes
from lockdep.ask.causes import by_cause, traces_with
from lockdep.places.sources import Sources
from lockdep.program.checker import Answer
from lockdep.program.findings import Event
from lockdep.say.cause_words import cause_words, doing_words, is_told
from lockdep.say.groups import groups_by_cause
from lockdep.say.sentences import Names

TRACES = ["t/one-%d.csv" % number for number in range(1, 51)]


def cycle(*orders):
    """A cycle of these orders, each given by its locks and the place of its held lock: a trace and a record."""
    made = [order(start, "EN", end, file, since + 1, since) for start, end, file, since in orders]
    return circle(*(one["from"] for one in made), orders=made)


class Causes(unittest.TestCase):
    def sorted(self, said, count):
        """The findings by their causes, if so many traces have these orders and marks, and 30 all others."""
        found = findings(said)
        with mock.patch.object(causes, "traces_with", lambda facts, traces: {fact: count.get(fact, 30) for fact in facts}):
            return by_cause(found, TRACES)

    def test_the_order_that_most_findings_share_and_fewest_traces_have_is_first(self):
        rare, hub = ("a/0", "b/0", "t/wrong.csv", 7), ("b/0", "c/0", "t/one-1.csv", 2)
        said = [cycle(("x/0", "y/0", "t/one-2.csv", 2), ("y/0", "x/0", "t/one-3.csv", 2))]
        said += [cycle(rare, hub, ("c/0", other, "t/one-4.csv", 2 * place + 2), (other, "a/0", "t/one-5.csv", 2 * place + 2))
                 for place, other in enumerate(("d/0", "e/0", "f/0"))]
        found = self.sorted(said, {("a/0", "EN", "b/0"): 1, ("b/0", "EN", "c/0"): 20})
        first, *others = groups_by_cause(found)
        self.assertEqual([finding.place for finding in first.findings], [2, 3, 4])
        self.assertEqual((first.cause.held, first.cause.facts, first.cause.traces), (Event("t/wrong.csv", 7), [("a/0", "EN", "b/0")], 1))
        self.assertEqual([len(group.findings) for group in others], [1])

    def test_an_order_of_all_is_not_the_cause_of_two_wrong_ones(self):
        hub = ("b/0", "c/0", "t/one-1.csv", 2)
        said = [cycle((wrong, "b/0", "t/wrong-%s.csv" % wrong[0], 7), hub, ("c/0", other, "t/one-4.csv", 4), (other, wrong, "t/one-5.csv", 4))
                for wrong in ("p/0", "q/0") for other in ("d/0", "e/0")]
        found = self.sorted(said, {("p/0", "EN", "b/0"): 1, ("q/0", "EN", "b/0"): 1, ("b/0", "EN", "c/0"): 20})
        self.assertEqual([group.cause.held for group in groups_by_cause(found)], [Event("t/wrong-p.csv", 7), Event("t/wrong-q.csv", 7)])

    def test_a_lock_that_is_never_released_is_one_cause(self):
        said = [cycle(("a/0", other, "t/wrong.csv", 7), (other, "a/0", "t/one-1.csv", 2 * place + 2)) for place, other in enumerate(("b/0", "c/0", "d/0"))]
        first, = groups_by_cause(self.sorted(said, {("a/0", "EN", other): 1 for other in ("b/0", "c/0", "d/0")}))
        self.assertEqual((len(first.findings), len(first.cause.facts)), (3, 3))
        names = Names(first.findings, Sources())
        self.assertEqual(cause_words(first.cause, names), "3 of 3 findings go through one acquisition, in 1 of 50 traces: a before b, and 2 more")
        self.assertEqual(doing_words(first.cause, Sources(), names), "holds a, record 7 of wrong.csv, and waits for b, record 8 of wrong.csv (task wrong)")

    def test_what_is_right_beside_it_is_no_part_of_it(self):
        """What other traces do too, and what was taken with the same lock held, is counted by itself."""
        said = [cycle(("a/0", other, "t/wrong.csv", 7), (other, "a/0", "t/one-1.csv", 2 * place + 2)) for place, other in enumerate(("b/0", "c/0"))]
        found = self.sorted(said, {("a/0", "EN", "b/0"): 1, ("c/0", "EN", "a/0"): 2})
        self.assertEqual([group.cause.facts for group in groups_by_cause(found)], [[("a/0", "EN", "b/0")], [("c/0", "EN", "a/0")]])

    def test_a_mark_is_a_cause(self):
        event = {"file": "t/wrong.csv", "record": 9, "takes": "w"}
        said = [{"type": "double", "irq": "hardirq", "key": "a/0", "lines": ["double hardirq a/0"], "enabled": event,
                 "used": {"file": "t/one-1.csv", "record": 4, "takes": "w"}}]
        first, = groups_by_cause(self.sorted(said, {("hardirqs on", "a/0"): 1}))
        self.assertTrue(is_told(first.cause))
        names = Names(first.findings, Sources())
        self.assertEqual(cause_words(first.cause, names), "1 of 1 finding goes through one use of a lock, in 1 of 50 traces: a held with hardirqs on")
        self.assertEqual(doing_words(first.cause, Sources(), names), "holds a, record 9 of wrong.csv (task wrong)")

    def test_of_one_finding_nothing_is_said_if_its_orders_are_as_rare(self):
        found = self.sorted([cycle(("a/0", "b/0", "t/one-1.csv", 2), ("b/0", "a/0", "t/one-2.csv", 2))], {})
        self.assertFalse(is_told(found[0].cause))


class Traces(unittest.TestCase):
    def test_in_how_many_traces_something_is_is_read_off_condensed_ones(self):
        one = b'acq,"a,1",0,w\nacq,b,2,w\nrel,b,2\nrel,"a,1",0\non,hardirq\noff,softirq\nacq,b,2,rr\nrel,b,2\n'
        texts = {"one": one, "two": b"acq,b,2,w\nrel,b,2\n", "bad": b""}
        with mock.patch.object(causes, "program_path", lambda: "lockdep"), mock.patch.object(
                causes, "ask", lambda words, with_errors, path: Answer(b"lockdep,1\noff,hardirq\n" + texts[words[-1]], 0, b"")):
            count = traces_with({("a,1/0", "EN", "b/2"), ("hardirqs on", "b/2"), ("hardirq", "b/2")}, ["one", "two", "one", "bad"])
        self.assertEqual(count, {("a,1/0", "EN", "b/2"): 2, ("hardirqs on", "b/2"): 2, ("hardirq", "b/2"): 1})
