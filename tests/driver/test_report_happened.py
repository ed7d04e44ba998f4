"""What `lockdep provoke` made happen: from its file to every output."""
import json
import os
import unittest
from unittest import mock

from cases import OfARecording, between, circle, finding
from lockdep.ask.happened import entry_of, entry_of_none, take_happened, with_earlier
from lockdep.ask.verdict import Recorded, by_importance
from lockdep.base import saying
from lockdep.binaries.symbols import Address
from lockdep.known.suppressions import Entry
from lockdep.places.sources import Sources
from lockdep.program.verdicts import Judgement, Verdict
from lockdep.record.provoked import Happened, Stood, read_provoked, write_provoked
from lockdep.say.as_json import json_of_run
from lockdep.say.found import Found
from lockdep.say.junit import junit
from lockdep.say.sarif import sarif
from lockdep.say.verdict_words import verdict_of

THREADS = [Stood(1, "payer", "holds a and waits for b", (Address("/no/server", 0x20),), (Address("/no/server", 0x10),)),
           Stood(2, "", "holds b and waits for a", (Address("/no/server", 0x40),), ())]


class WhatHappened(OfARecording):
    def setUp(self):
        super().setUp()
        inner = circle("a#1/0", "b#2/0")
        self.found = finding(circle("a/0", "b/0", between=between("classes", inner)))
        write_provoked(self.folder, [entry_of(1, self.found, Happened(2, THREADS))])

    def taken(self, *keys):
        one = finding(circle(*keys, between=between("classes")))
        take_happened([one], self.folder)
        return one

    def test_it_is_told_by_its_lines_and_by_those_between_single_locks(self):
        for keys in (("a/0", "b/0"), ("a#1/0", "b#2/0")):
            self.assertEqual(self.taken(*keys).happened.run, 2)
        for keys in (("a/0", "c/0"), ("a#1/0", "b#1/0"), ("b/0", "a/0", "c/0")):
            self.assertIsNone(self.taken(*keys).happened)

    def test_its_threads_are_those_that_were_written(self):
        self.assertEqual(self.taken("a/0", "b/0").happened.threads, THREADS)

    def test_another_recording_says_nothing(self):
        for name in ("classes", "task-0002.csv", "objects/task-0001.csv", "task-0003.csv"):
            with self.subTest(name):
                self.write(name, "another\n")
                self.assertEqual(read_provoked(self.folder), [])
                self.assertIsNone(self.taken("a/0", "b/0").happened)
                os.unlink(self.path(name)) if name == "task-0003.csv" else self.write(name, "one\n")
                self.assertEqual(len(read_provoked(self.folder)), 1)

    def test_what_lockdep_adds_to_the_folder_is_no_other_recording(self):
        for name in ("report.html", "RECORDED", "task-0001.csv.places"):
            self.write(name, "more\n")
        self.assertEqual(len(read_provoked(self.folder)), 1)

    def test_what_happened_once_is_not_forgotten(self):
        happened, none = entry_of(1, self.found, Happened(2, THREADS)), entry_of_none(1, self.found, "not in 3 runs: ..", "in 1 run by the schedule its threads turned off")
        for several, counts in (([none, happened], (4, 1)), ([happened, none], (4, 1)), ([none, none], (6, 0)), ([happened, happened], (2, 2))):
            said = []
            for each in several:
                said = with_earlier(each, said, 3 if each is none else 1, "again")
            write_provoked(self.folder, said)
            taken = self.taken("a/0", "b/0")
            self.assertEqual((taken.attempts.runs, taken.attempts.times, bool(taken.happened)), counts + (counts[1] > 0,))

    def test_a_file_that_isnt_right_says_nothing_and_is_named(self):
        with open(self.path("provoked.json")) as file:
            right = json.load(file)
        one = right["provoked"][0]
        wrong = [json.dumps(dict(right, provoked=[each])) for each in (
            dict(one, run="x"), dict(one, threads=[{}]), dict(one, threads=[dict(one["threads"][0], waits=["server+0x"])]), dict(one, lines=3), {"lines": one["lines"]})]
        wrong += ["", "{", "[]", "{}", '{"provoked": 3}', json.dumps(dict(right, provoked=7)), json.dumps({"lockdep": 1, "provoked": [one]})]
        for text in wrong + [json.dumps(dict(right, recording=""))]:
            self.write("provoked.json", text)
            with self.subTest(text), mock.patch.object(saying, "kept", []) as said:
                self.assertIsNone(self.taken("a/0", "b/0").happened)
                self.assertEqual(said, ["lockdep: %s is damaged, so what `provoke` did isn't known" % self.path("provoked.json")] if text in wrong else [])

    def test_it_is_the_first_of_all_verdicts(self):
        others = [finding(circle("c/0", "d/0", between=between("locks", circle("c#1/0", "d/0")))) for _ in list(Verdict)[1:]]
        for other, verdict in zip(others, list(Verdict)[1:]):
            other.judged = Judgement(verdict)
        happened = self.taken("a/0", "b/0")
        self.assertIs(list(Verdict)[0], Verdict.HAPPENED)
        self.assertEqual(by_importance(others[::-1] + [happened]), [happened] + others)

    def test_every_output_has_it(self):
        one = self.taken("a/0", "b/0")
        found = Found([one], [], Sources(), Recorded([]), [])
        self.assertEqual(verdict_of(one, found.recorded), "happened in run 2 of `lockdep provoke`; between classes; no two locks were taken both ways")
        self.assertTrue(one.is_counted)
        told = json.loads(json_of_run(found))
        self.assertEqual((told["counts"], told["findings"][0]["level"]), ({"happened": 1}, "error"))
        self.assertEqual(told["findings"][0]["happened"], {"run": 2, "threads": [
            {"number": 1, "name": "payer", "locks": "holds a and waits for b", "waits": [{"address": "server+20"}], "took": [{"address": "server+10"}]},
            {"number": 2, "name": "", "locks": "holds b and waits for a", "waits": [{"address": "server+40"}], "took": []}]})
        result = json.loads(sarif(found))["runs"][0]["results"][0]
        self.assertEqual([(stack["message"]["text"], [frame["location"]["message"]["text"] for frame in stack["frames"]]) for stack in result["stacks"]], [
            ('thread 1 "payer" holds a and waits for b: where it waits', ["server+20"]),
            ('thread 1 "payer" holds a and waits for b: where it took what it holds', ["server+10"]),
            ("thread 2 holds b and waits for a: where it waits", ["server+40"]),
            ("thread 2 holds b and waits for a: where it took what it holds", [])])
        self.assertIn("\n  thread 1 &quot;payer&quot; holds a and waits for b\n      waits  server+20\n      took   server+10\n  thread 2 ", junit(found))

    def test_a_known_finding_stays_a_note(self):
        one = self.taken("a/0", "b/0")
        self.assertEqual(Found([], [one], Sources(), Recorded([]), []).level(one), "note")

    def test_a_list_excuses_nothing_that_happened_but_what_it_says_of_that(self):
        for listed, is_excused in (("possible", False), ("between classes", False), ("happened", True), ("", True)):
            self.assertIs(Entry(1, "circle a/0 EN b/0", line="circle a/0 EN b/0", listed=listed).excuses("happened"), is_excused)


if __name__ == "__main__":
    unittest.main()
