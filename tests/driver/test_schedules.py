"""What is known of histories' rings: read from JSON, and as text."""
from __future__ import annotations

import copy
import io
import json
import unittest

from lockdep.base.saying import Refusal
from lockdep.places.sources import Sources
from lockdep.program.schedules import histories_of
from lockdep.say.schedule_text import write_histories
from lockdep.say.terminal import Writer

HISTORY = "traces/history/process-0001.csv"
WAITS = [{"task": "task-0002", "record": 5, "waits_for": "B", "mode": "w",
          "holds": [{"lock": "thread:task-0002", "mode": "w", "record": 3}, {"lock": "A", "mode": "w", "record": 4}]},
         {"task": "task-0001", "record": 9, "waits_for": "A", "mode": "r", "holds": [{"lock": "B", "mode": "rr", "record": 8}]}]
SHOWN = {"verdict": "possible", "joins": False, "steps": WAITS, "schedule": [{"task": "task-0002", "record": 4}, {"task": "task-0001", "record": 8}]}
APART = {"verdict": "kept apart", "joins": False, "steps": WAITS,
         "because": [{"task": "task-0001", "record": 9, "by": "ring"},
                     {"task": "task-0002", "record": 6, "by": "message", "after": {"task": "task-0001", "record": 8}},
                     {"task": "task-0002", "record": 7, "by": "order", "after": {"task": "task-0001", "record": 5}},
                     {"task": "task-0002", "by": "none left"}]}


def said(*rings: dict, **more: object) -> bytes:
    history = {"file": HISTORY, "steps": 1200, "tasks": 2, "all_tried": True, "not_tried": 0, "rings": list(rings)}
    return json.dumps({"schedule": 1, "histories": [dict(history, **more)]}).encode()


def text_of(raw: bytes) -> list[str]:
    stream = io.StringIO()
    write_histories(histories_of(raw), Sources(), Writer(stream, 0))
    return stream.getvalue().split("\n")[:-1]


class Schedules(unittest.TestCase):
    def test_a_ring_that_is_possible_says_how_far_each_task_goes(self) -> None:
        self.assertEqual(text_of(said(SHOWN)), [
            HISTORY + ": 1,200 steps of 2 tasks, 1 ring", "",
            "possible: these recorded steps, in another order, stand still",
            "  task-0002: %s: record 5 waits for B, and holds A since record 4" % HISTORY,
            "  task-0001: %s: record 9 waits for A as a reader, and holds B as a recursive reader since record 8" % HISTORY,
            "  until then task-0002 to record 4, then task-0001 to record 8"])

    def test_a_ring_with_a_join_has_a_word_of_its_own(self) -> None:
        line = text_of(said(dict(SHOWN, joins=True)))[2]
        self.assertTrue(line.startswith("possible by a join: "), line)

    def test_what_keeps_a_ring_apart_is_said(self) -> None:
        self.assertEqual(text_of(said(APART))[-4:], [
            "  task-0001 comes to record 9", "  task-0002 has to go on to record 6, which gives what record 8 of task-0001 gets",
            "  task-0002 has to go on to record 7, which releases what record 5 of task-0001 takes", "  so task-0002 has no such step left"])

    def test_a_lock_that_is_never_released_is_said(self) -> None:
        end = {"task": "task-0002", "record": 6, "by": "never released", "after": {"task": "task-0001", "record": 8}}
        self.assertEqual(text_of(said(dict(APART, because=[end])))[-1],
                         "  task-0002 never releases what it takes at record 6, which record 8 of task-0001 takes")

    def test_many_reasons_are_counted(self) -> None:
        lines = text_of(said(dict(APART, because=APART["because"][:1] * 15)))
        self.assertEqual(lines[-1], "  and 3 more steps")

    def test_what_was_not_tried_is_said(self) -> None:
        head = HISTORY + ": 1,200 steps of 2 tasks, 0 rings; "
        self.assertEqual(text_of(said(all_tried=False, not_tried=7)), [head + "not all rings were tried: a limit was met"])
        self.assertEqual(text_of(said(not_tried=7)), [head + "7 more over the locks of one that is possible"])

    def test_tasks_that_only_come_before_are_counted(self) -> None:
        others = [{"task": "task-0003", "record": 2}, {"task": "task-0004", "record": 3}]
        self.assertEqual(text_of(said(dict(SHOWN, schedule=others + SHOWN["schedule"])))[-1],
                         "  until then task-0002 to record 4, then task-0001 to record 8, and 2 other tasks before")

    def test_another_version_and_other_forms_are_refused(self) -> None:
        for damage in (lambda it: it.update(schedule=2), lambda it: it.pop("histories"), lambda it: it["histories"][0]["rings"][0].pop("verdict"),
                       lambda it: it["histories"][0]["rings"][0]["steps"][0].update(record="one")):
            whole = copy.deepcopy(json.loads(said(SHOWN)))
            damage(whole)
            with self.assertRaises(Refusal):
                histories_of(json.dumps(whole).encode())


if __name__ == "__main__":
    unittest.main()
