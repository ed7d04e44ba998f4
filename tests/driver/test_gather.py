"""What `lockdep gather` makes of what may come from anywhere: files, tables, nights, and who has all of a cycle."""
from __future__ import annotations

import ast
import io
import json
import os
import re
import unittest
import zlib
from collections import Counter
from unittest import mock

import lockdep
from cases import OfARecording, circle, findings
from lockdep.base import files
from lockdep.base.saying import Refusal
from lockdep.binaries.symbols import Address
from lockdep.gather import agreement, engines, facts, gathered, gathering, kept_places, memory, nights, orders, places, recordings, timed, whole
from lockdep.gather.facts import Facts, Lacking, Program
from lockdep.gather.findings import Back, all_wanted, in_a_list
from lockdep.gather.gathered import Listed
from lockdep.gather.orders import Seen
from lockdep.places import places as places_of_traces
from lockdep.places.places import Places, record_lines
from lockdep.program import condensed
from lockdep.program.checker import Answer
from lockdep.program.findings import Event, findings_in_turn
from lockdep.record import complete, summary
from lockdep.record.summary import from_json, parse
from lockdep.say.groups import groups_told

TOP = os.path.dirname(os.path.abspath(lockdep.__file__))
# Modules that open files themselves: those of this tool, of the system and of what is recorded just now, and programs, of which parts are read.
OPEN_THEMSELVES = {"base/files.py", "binaries/elf.py", "cli/driver.py", "cli/ending.py", "cli/refusal.py", "cli/refused_line.py", "finish/finishing.py",
                   "finish/log.py", "finish/log_history.py", "finish/log_traces.py", "finish/packages.py", "finish/programs.py", "finish/traces.py",
                   "gather/gathered.py", "gather/tasks.py", "known/known_list.py", "parts.py", "program/checker.py",
                   "program/code_words.py", "record/folder.py", "record/go_command.py", "record/provoked.py", "record/recorders.py", "record/recording.py",
                   "record/run_settings.py", "record/rust_locks.py", "say/page.py", "say/report.py", "say/terminal.py"}


def opens(path: str) -> bool:
    with open(path, encoding="utf-8") as file:
        calls = [node for node in ast.walk(ast.parse(file.read())) if isinstance(node, ast.Call)]
    return any(isinstance(call.func, ast.Name) and call.func.id == "open" for call in calls)


class OneReader(OfARecording):
    def test_no_other_module_opens_files(self) -> None:
        found = {os.path.relpath(os.path.join(folder, name), TOP) for folder, _, names in os.walk(TOP) for name in names if name.endswith(".py")
                 and opens(os.path.join(folder, name))}
        self.assertEqual({name for name in found - OPEN_THEMSELVES if not name.startswith("provoke/")}, set())

    def test_only_plain_files_of_some_length_are_read(self) -> None:
        os.mkfifo(self.path("pipe"))
        os.mkdir(self.path("inside"))
        for name in ("pipe", "inside", "missing", "task-0001.csv/x"):
            self.assertIsNone(files.contents(self.path(name)))
            self.assertRaises(OSError, files.opened, self.path(name))
        self.assertEqual(files.contents(self.path("classes"), 4), b"one\n")
        self.assertIsNone(files.contents(self.path("classes"), 3))

    def test_what_is_refused_has_its_reason(self) -> None:
        self.write("SUMMARY", "events 4\n")
        complete.check_folder(self.folder)
        os.symlink("classes", self.path("lives"))
        complete.check_folder(self.folder)
        for name, make, reason in (("weak", os.mkfifo, "weak: it is no plain file"), ("tasks", lambda path: os.symlink("/etc/passwd", path), "tasks: it leads out of the recording"),
                                   ("breaches", lambda path: os.symlink("missing", path), "breaches: No such file or directory"),
                                   ("history", lambda path: open(path, "w").close(), "history: it is no folder")):
            make(self.path(name))
            with self.assertRaises(Refusal) as raised:
                complete.check_folder(self.folder)
            self.assertEqual(raised.exception.line, "%s can't be read: %s" % (self.folder, reason))
            os.unlink(self.path(name))

    def test_counts(self) -> None:
        for text in ("events -4\n", "events 4.5\n", "events 1e9\n", "events +4\n", "events %s\n" % ("9" * 21), "events 1,000\n", "events 4\n\0"):
            self.assertRaises(ValueError, parse, text)
        self.assertEqual([(count.code, count.number) for count in parse("events 4\nunseen static\n")], [("events", 4), ("unseen static", None)])
        with self.assertRaises(Refusal) as raised:
            from_json('{"recording":7,"recorder":"pthread","counts":[],"unseen":[]}')
        self.assertEqual(raised.exception.line, "its summary.json is of version 7 of recordings, and this tool knows version 1")

    def test_lines_of_records(self) -> None:
        raw = b"\xef\xbb\xbfheader\r\n\r\none\n\rtwo\rthree\n"
        self.assertEqual(record_lines(raw, {1, 2, 4, 9}), {1: (1, "header"), 2: (3, "one"), 4: (6, "three")})
        for raw in (b"header\none\n\ntwo", b"header\none\ntwo\n", b"\nheader\none\ntwo\n"):
            last = 4 if b"\n\n" in raw or raw.startswith(b"\n") else 3
            self.assertEqual(record_lines(raw, {3, 4, 9}), {3: (last, "two")})

    def test_only_places_that_are_asked_for_are_kept(self) -> None:
        self.write("task-0001.csv.places", "2 a.c:1 f\n3 a.c:2 g\n" + "2 a.c:3 h\n" * 100 + "99999999999999999999 a.c:1 f\n\u00b2 a.c:1 f\n")
        places = Places(self.path("task-0001.csv"), {2})
        self.assertEqual([len(places.callers(record)) for record in (2, 3)], [64, 0])


class TooLong(OfARecording):
    """What no recorder writes so long is refused before it takes memory and time."""

    def test_classes(self) -> None:
        with mock.patch.object(places_of_traces, "MOST_CLASSES", 3), mock.patch.object(places_of_traces, "MOST_OF_CLASS", 16):
            for text, why in (("", ""), ("a\tm\t1\tstatic\n" * 3, ""), ("a\tm\t1\tstatic\n" * 4, "its file classes has more than 3 lines"),
                              ("a\tm\t1\tstaticstatic\n", "its file classes has a line of more than 15 bytes")):
                self.write("classes", text)
                self.assertEqual(places_of_traces.why_too_many(self.folder), why)
                self.assertLessEqual(len(places_of_traces.classes_in(self.folder)), 3)

    def test_summaries(self) -> None:
        with mock.patch.object(summary, "MOST_LINES", 3), mock.patch.object(summary, "MOST_VALUES", 5):
            self.assertEqual(len(parse("events 4\na 0\nb 0\n")), 3)
            for name, text, why in (("SUMMARY", "events 4\na 0\nb 0\nc 0\n", "it has more than 3 lines"),
                                    ("summary.json", '{"recording":1,"recorder":"pthread","counts":[],"unseen":["a","b"]}', "it has more than 5 values")):
                self.write(name, text)
                with self.assertRaises(recordings.Bad) as raised:
                    recordings.summaries_of(self.folder)
                self.assertEqual(raised.exception.why, "its file %s is too long: %s" % (name, why))
                os.unlink(self.path(name))

    def test_reasons(self) -> None:
        self.assertEqual(recordings.some_of(["1 one", "2 two"]), "1 one, 2 two")
        self.assertEqual(recordings.some_of(["%d" % number for number in range(1018)], "; "), "; ".join(map(str, range(16))) + " and 1,002 more")
        self.assertEqual(recordings.some_of(["x" * 201]), "x" * 200 + "..")
        self.assertEqual(len(recordings.Bad("x" * 100000).why), 8002)


class Told(unittest.TestCase):
    """How many of the findings a text and a page have."""

    def test_few_are_told_each(self) -> None:
        few = findings([circle("a/0", "b/0"), circle("b/0", "a/0")] * 10)
        self.assertEqual([group.findings for group in groups_told(few)], [[finding] for finding in few])

    def test_of_many_the_first_groups(self) -> None:
        apart = findings([circle("a%d/0" % number, "b%d/0" % number) for number in range(50)])
        self.assertEqual([group.findings for group in groups_told(apart)], [[finding] for finding in apart[:20]])
        shared = findings([circle("a/0", "b/0", "c%d/0" % number) for number in range(50)])
        self.assertEqual([(len(group.findings), group.shared) for group in groups_told(shared)], [(50, "a/0 EN b/0")])


class Looked(unittest.TestCase):
    """Where the records of findings are looked for."""

    def test_findings_are_read_as_far_as_they_are_needed(self) -> None:
        for ends in (b"]}\n", b'],"ends":[\n{"file":"a"}\n]}\n'):
            raw = b'{"lockdep":1,"findings":[\n{"type":"circle"},\n{"type":"double"}\n' + ends
            self.assertEqual(list(findings_in_turn(raw)), [{"type": "circle"}, {"type": "double"}])
        self.assertEqual(next(findings_in_turn(b'{"lockdep":1,"findings":[\n{"type":"circle"},\n{"ty')), {"type": "circle"})

    def test_each_recording_is_asked_once(self) -> None:
        a, b, c = [(name, "EN", "d/0") for name in ("a/0", "b/0", "c/0")]
        table = {b"a/0 EN d/0": ((1,), (3,)), b"b/0 EN d/0": ((1,), (2,), (3,)), b"c/0 EN d/0": ((2,),)}
        seen = {entry: Seen((("", len(first)),), first) for entry, first in table.items()}
        back = Back(mock.Mock(table=seen, lists={}, recordings=[], places={}), Program("lockdep"))
        has = {(1,): (), (2,): (b, c), (3,): (a, b)}
        with mock.patch.object(back.recordings, "places") as asked:
            asked.side_effect = lambda number, wanted, _: {what: {"of": number} for what in wanted if what in has[number]}
            back.look([(False, what) for what in (a, b, c)])
        self.assertEqual([(call[0][0], set(call[0][1])) for call in asked.call_args_list], [((1,), {a, b}), ((2,), {b, c}), ((3,), {a})])
        self.assertEqual(back.found_in, {a: (3,), b: (2,), c: (2,)})


class Lists(OfARecording):
    def test_a_list_of_recordings(self) -> None:
        with mock.patch.object(gathering, "MOST_OF_FILE", 8), mock.patch.object(gathering, "MOST_LISTED", 3), mock.patch.object(gathering.sys, "stdin") as given:
            for text, names in (("", []), ("a\n\nb", ["a", "b"]), ("a\r\nb\r\n", ["a", "b"]), ("a\tb\nc", ["a\tb", "c"]), ("12345678", ["12345678"]), ("123456789", None),
                                ("a\0b\n", None), ("a\n\n\n\n", None)):
                self.write("list", text)
                for name in (self.path("list"), "-"):
                    given.buffer = io.BytesIO(text.encode())
                    if names is None:
                        self.assertRaises(Refusal, gathering.names_in_list, name)
                    else:
                        self.assertEqual(gathering.names_in_list(name), names)
            with self.assertRaises(Refusal) as raised:
                gathering.names_in_list("/dev/zero")
        self.assertEqual(raised.exception.line, "/dev/zero, a list of recordings, has more than 8 bytes")


class Tables(unittest.TestCase):
    def test_a_table_comes_back(self) -> None:
        table = {b"A/0 EN B/0": Seen((("", 1), ("2026-11-01 x", 2)), ((1,), (2, 7))), b"C/0 EN D/0": Seen((("", 3),), ((4,),))}
        raw = orders.text_of_table(table, ["2026-11-01 x"])
        self.assertEqual(raw, b"A/0 EN B/0\t3\t1 7@2\t0:1 1:2\nC/0 EN D/0\t3\t4\n")
        again = orders.table_in(raw, ["2026-11-01 x"])
        self.assertEqual({entry: (seen.lots, seen.first) for entry, seen in again.items()}, {entry: (seen.lots, seen.first) for entry, seen in table.items()})

    def test_what_is_alike_is_taken_apart_once(self) -> None:
        table = orders.table_in(b"A/0 EN B/0\t1\t1\nC/0 EN D/0\t1\t1\nE/0 EN F/0\t1\t2\n", [])
        self.assertEqual(len({id(seen) for seen in table.values()}), 2)
        merged = orders.merge_tables([table, dict.fromkeys([b"A/0 EN B/0", b"C/0 EN D/0"], Seen((("", 1),), ((3,),)))])
        self.assertEqual([(seen.lots, seen.first) for seen in merged.values()], [((("", 2),), ((1,), (3,)))] * 2 + [((("", 1),), ((2,),))])
        self.assertEqual(len({id(seen) for seen in merged.values()}), 2)

    def test_a_name_of_several_locks_is_no_try(self) -> None:
        trace = b"lockdep,1\nacq,%s,0,w\nacq,D,0,w\nrel,D,0\nrel,%s,0\n"
        table = {b"weak timed C#%s/0 EN D/0" % name: Seen((("", 1),), ((1,),)) for name in (b"rest", b"1@1")}
        self.assertEqual([len(timed.timed_orders(trace % (name, name), table)) for name in (b"C#rest", b"C#1@1")], [0, 1])

    def test_what_is_no_table(self) -> None:
        for line in (b"A\n", b"A\t1\n", b"A\tx\t1\n", b"A\t-1\t1\n", b"A\t1\t" + b"9" * 5000 + b"\n", b"A\t1\t1\t1:1\n", b"A\t2\t1\t0:1\n", b"A\t1\t1\t0:1\tx\n",
                     b"A\t17\t" + b"1 " * 17 + b"\n", b"A\t1\t\xff\n"):
            self.assertRaises((ValueError, IndexError), orders.table_in, line, [])

    def test_facts_come_back_as_json(self) -> None:
        facts = Facts([b"lockdep,1\n"])
        facts.bad, facts.sums, facts.locks = [((7,), "why\udcff", True)], {(7,): 5}, {b"C#1\xff": 2}
        facts.orders = {b"A/0 EN B/0": Seen((("x y", 1),), ((7,),))}
        again = Facts.unpacked(facts.packed())
        self.assertEqual((again.texts, again.bad, again.sums, again.locks, again.orders[b"A/0 EN B/0"].lots), (facts.texts, facts.bad, facts.sums, facts.locks, (("x y", 1),)))


    def test_files_of_too_many_lines(self) -> None:
        made = {"gathered.csv": b"lockdep,1\n" + b"\n" * 1_000_000, "orders": b"", "recordings": b"", "places": b""}
        said = {name: Seen() for name in gathered.COUNTS}
        gathered.Gathered("many", {**made, gathered.MARK: gathered.mark_of(said, made, [])})
        for name, raw in (("gathered.csv", made["gathered.csv"] + b"\n"), ("GATHERED", gathered.mark_of(said, made, []) + b"\n" * 100_000),
                          ("recordings", b"\n" * 400_001), ("places", b"\n" * 100_001), ("places", b" " * (1 << 25) + b"\n")):
            files_of = {**made, name: raw}
            with self.assertRaises(Refusal) as raised:
                gathered.Gathered("many", {gathered.MARK: gathered.mark_of(said, files_of, []), **files_of})
            self.assertEqual(raised.exception.line, "many is damaged: its file `%s` isn't as `gather` wrote it" % name)

    def test_more_than_a_folder_has(self) -> None:
        gathering.check_room(400_000, 100_000)
        for there, what in (((400_001, 1), "400,000 recordings"), ((1, 100_001), "100,000 nights and builds")):
            with self.assertRaises(Refusal) as raised:
                gathering.check_room(*there)
            self.assertEqual(raised.exception.line, "a folder can't have more than %s, and these are more: forget earlier nights by --since" % what)


class Refused(OfARecording):
    """What is refused names the file that is wrong, and what is wrong with it."""

    MADE = {"gathered.csv": b"lockdep,1\nacq,A,0,w\nacq,B,0,w\nrel,B,0\nrel,A,0\n", "orders": b"A/0 EN B/0\t1\t1\n", "recordings": b"1\t\t7\tx\t/x\n", "places": b""}

    def reason(self, what, *words) -> str:
        with self.assertRaises(Refusal) as raised:
            what(*words)
        return raised.exception.line

    def test_files_of_what_was_gathered(self) -> None:
        said = {name: Seen() for name in gathered.COUNTS}
        mark = gathered.mark_of(said, self.MADE, [])
        gathered.Gathered("all", {**self.MADE, gathered.MARK: mark})
        for name, raw, words in (("gathered.csv", b"", "`gathered.csv` is empty"), ("gathered.csv", b"\0\xff\n" * 9, "`gathered.csv` is no condensed trace"),
                                 ("gathered.csv", b"lockdep,1\n", None), ("orders", b"A/0 EN B/0\t1\t1\n" * 99, "`orders` has more lines than the records of `gathered.csv` can have")):
            made = {**self.MADE, name: raw}
            given = {**made, gathered.MARK: gathered.mark_of(said, made, [])}
            if words:
                self.assertEqual(self.reason(gathered.Gathered, "all", given), "all is damaged: its file " + words)
            else:
                gathered.Gathered("all", given)
            if raw != self.MADE[name] and raw:
                self.assertIn("its file `%s` isn't as `gather` wrote it" % name, self.reason(gathered.Gathered, "all", {**made, gathered.MARK: mark}))
        without = re.sub(b"crc32 orders.*\n", b"", mark)
        self.assertEqual(self.reason(gathered.Gathered, "all", {**self.MADE, gathered.MARK: without}), "all is damaged: its file `GATHERED` has no sum of `orders`")
        old = mark.replace(gathered.FIRST_LINE, gathered.FORMAT_2)
        self.assertEqual(self.reason(gathered.Gathered, "all", {**self.MADE, gathered.MARK: old}),
                         "all is damaged: its file `GATHERED` has a sum of `places`, which format 2 hasn't")

    def test_marks(self) -> None:
        for text, words in (("", "is empty"), ("gathered by lockdep, format 4\nx\n", "is of format 4; this tool reads 2 and 3"), ("something\n", "isn't as `gather` wrote it")):
            self.write("GATHERED", text)
            self.assertEqual(self.reason(gathered.mark_in, self.folder), "%s can't be read: its file `GATHERED` %s" % (self.folder, words))

    def test_where_nothing_can_be_made(self) -> None:
        os.symlink(self.folder, self.path("link"))
        self.assertEqual(self.reason(gathered.check_output, self.path("link")), "%s is in the way and is a link; choose another one by -o" % self.path("link"))
        self.write("file", "x")
        self.assertEqual(self.reason(gathered.check_output, self.path("file")), "%s is in the way and is no folder; choose another one by -o" % self.path("file"))
        os.mkdir(self.path("all"))
        for name in self.MADE:
            self.write("all/" + name, "x")
        self.assertEqual(self.reason(gathered.check_output, self.path("all")), "%s has no `GATHERED` that can be read; choose another folder by -o" % self.path("all"))
        os.unlink(self.path("all/orders"))
        self.assertEqual(self.reason(gathered.check_output, self.path("all")),
                         "%s is in the way and wasn't made by `gather`; choose another folder by -o" % self.path("all"))
        for flags, words in ((os.ST_RDONLY, "Read-only file system"), (0, "Permission denied")):
            with mock.patch.object(gathered.os, "access", lambda *words: False), mock.patch.object(gathered.os, "statvfs", lambda *words: mock.Mock(f_flag=flags)):
                self.assertEqual(self.reason(gathered.check_output, self.path("new")), "nothing can be made in %s: %s" % (self.folder, words))

    def test_a_folder_that_is_named(self) -> None:
        self.assertEqual(self.reason(gathering.check_names, self.folder, [self.folder]),
                         "{0} is one of the recordings: to go on with {0}, add to it by --add -o {0}, without naming it".format(self.folder))

    def test_what_is_no_recording(self) -> None:
        os.mkdir(self.path("empty"))
        self.assertEqual(self.reason(complete.check_folder, self.path("empty")), self.path("empty") + " has no recording")
        self.assertEqual(self.reason(complete.check_folder, self.folder), self.folder + " has no recording: it has neither a file SUMMARY nor a file GATHERED")
        os.mkfifo(self.path("GATHERED"))
        self.assertEqual(self.reason(complete.check_folder, self.folder), self.folder + " has no recording: its file GATHERED is no plain file")

    def test_what_isnt_there(self) -> None:
        self.assertEqual(self.reason(files.text_named, self.path("no"), "a list"), self.path("no") + ", a list, can't be read: it isn't there")


class Whole(unittest.TestCase):
    def test_what_leads_to_one_another(self) -> None:
        cases = (([("A,0", "B,0")], [], []), ([("A,0", "B,0"), ("B,0", "A,0")], [], ["A/0 EN B/0  B/0 EN A/0"]), ([("A,0", "A,0")], [], ["A/0 EN A/0"]),
                 ([("A@x#1,0", "B#1,0"), ("B#2,0", "A@y,0"), ("B,0", "C,0")], [], ["A@x/0 EN B/0  B/0 EN A@y/0"]),
                 ([("A,0", "B,0"), ("B,0", "A,0"), ("C,0", "D,0"), ("D,0", "C,0"), ("A,0", "C,0")], [], ["A/0 EN B/0  B/0 EN A/0", "C/0 EN D/0  D/0 EN C/0"]),
                 ([("T,0", "P,0")], [("hardirq", "T,0"), ("hardirqs on", "P,0"), ("softirqs on", "T,0")], ["T/0 EN P/0  used hardirq T/0  used hardirqs on P/0"]),
                 ([], [("softirq", "T,0"), ("softirqs on", "T,0")], ["used softirq T/0  used softirqs on T/0"]))
        for pairs, marks, parts in cases:
            found = whole.whole_entries([(one.encode(), b" EN ", other.encode()) for one, other in pairs], [(mark.encode(), key.encode()) for mark, key in marks])
            self.assertEqual(sorted(found), [b"whole " + part.encode() for part in parts], pairs)

    def test_long_chains_end(self) -> None:
        chain = [(b"K%d,0" % number, b" EN ", b"K%d,0" % (number + 1)) for number in range(20000)]
        self.assertEqual(whole.whole_entries(chain, []), [])
        self.assertEqual(whole.whole_entries(chain + [(b"K20000,0", b" EN ", b"K0,0")], []), [whole.UNCOUNTED])

    def test_who_has_all(self) -> None:
        wholes = whole.Wholes({b"whole A@x/0 EN B/0  B/0 EN A@x/0": Seen((("", 3),), ((1,), (2,), (5,))), b"whole A@y/0 EN B/0  B/0 EN A@y/0": Seen((("", 1),), ((4,),))})
        for wanted, is_of_types, first in (({b"A/0 EN B/0", b"B/0 EN A/0"}, True, ((1,), (2,), (4,), (5,))), ({b"A@y/0 EN B/0", b"B/0 EN A@y/0"}, False, ((4,),)),
                                           ({b"A@x/0 EN B/0", b"B/0 EN A@y/0"}, False, ())):
            self.assertEqual(wholes.seen(wanted, is_of_types).first, first)


    def test_no_recording_has_all_twice(self) -> None:
        one, other, longer = b"A/0 EN B/0", b"B/0 EN A/0", b"whole A/0 EN B/0  B/0 EN A/0  B/0 EN C/0"
        named = tuple((number,) for number in range(1, 17))
        lines = ["whole A/0 EN B/0  B/0 EN A/0", longer.decode()]  # which both have the order of A and B, and the latter alone that of C
        found = object.__new__(agreement.Agreement)
        found.orders, found.marks = condensed.facts_in(b"lockdep,1\nacq,A,0,w\nacq,B,0,w\nrel,B,0\nrel,A,0\nacq,B,0,w\nacq,A,0,w\nrel,A,0\nacq,C,0,w\nrel,C,0\nrel,B,0\n")
        found.lots, found.there, found.fit = {(number,): "" for number in range(1, 21)}, Counter({"": 20}), set()
        for wholes, wrong in ((((10, named[:4]), (8, named[4:8])), []), (((10, named[:4]), (9, named[4:8])), lines),
                              (((2, named[:2]), (2, named[1:3])), lines), (((1, ((19,),)), (1, ((3,),))), lines[1:])):
            found.table = {one: Seen((("", 20),), named), other: Seen((("", 18),), named), b"B/0 EN C/0": Seen((("", 9),), named[:9]),
                           **{entry: Seen((("", count),), first) for entry, (count, first) in zip((b"whole A/0 EN B/0  B/0 EN A/0", longer), wholes)}}
            if wholes[1][0] == 1:
                found.table[b"B/0 EN C/0"] = Seen((("", 2),), named[:2])
            self.assertEqual(sorted(found.entries()), wrong, wholes)


class Nested(unittest.TestCase):
    def test_what_is_too_deep(self) -> None:
        most = orders.MOST_NESTED
        self.assertEqual(len(orders.number_of_words("@".join(["1"] * most))), most)
        self.assertRaises(ValueError, orders.number_of_words, "@".join(["1"] * (most + 1)))
        part = Facts([b"lockdep,1\n"])
        part.listed = [Listed((1,) * most, "", "1", "a", "/a")]
        with mock.patch.object(recordings, "kept_part", return_value=part), self.assertRaises(recordings.Bad) as raised:
            recordings.facts_of_gathered(recordings.Task(Program("unused"), []), 1, "all")
        self.assertEqual(raised.exception.why, "it has 256 gathered folders in one another: add to a folder by --add")

    def test_each_reader_has_its_limit(self) -> None:
        def read(folder: str, has_places: bool) -> None:
            bytes(2 * memory.MOST_MEMORY)
        with mock.patch.object(agreement, "Gathered", read), self.assertRaises(Refusal) as raised:
            agreement.gathered_in("all", Program("unused"))
        self.assertEqual(raised.exception.line, "all can't be read: to read it takes too much memory")


class Nights(unittest.TestCase):
    def test_what_is_kept(self) -> None:
        for since, builds, lots in (("", [], ["", "2026-11-01 a", " b"]), ("2026-11-02", [], ["", "2026-11-02 a", " b"]), ("", ["a"], ["", "2026-11-01 ", "2026-11-01 b"])):
            self.assertEqual([lot for lot in lots if nights.Kept(since, builds).has(lot)], lots)
        self.assertFalse(nights.Kept("2026-11-02").has("2026-11-01 a") or nights.Kept("", ["a"]).has("2026-11-01 a"))

    def test_days(self) -> None:
        for text, night in (("2026-11-01", "2026-11-01"), ("2026-1-5", None), ("\uff12026-11-01", None), ("2026-11-01 ", None), (" 2026-11-01", None), ("20261101", None), ("2026-02-30", None), ("", ""), ("1970-01-01", "1970-01-01"), ("0206-11-01", None), ("1969-12-31", None)):
            if night is None:
                self.assertRaises(Refusal, nights.checked_night, text, "--since")
            else:
                self.assertEqual(nights.checked_night(text, "--since"), night)

    def test_words(self) -> None:
        for lots, words in (((("", 3),), ""), ((("2026-11-01 ", 1),), "on 2026-11-01"), (((" a", 1), (" b", 1)), "builds a, b"),
                            ((("2026-11-01 a", 1), ("2026-11-03 a", 1)), "first on 2026-11-01, last on 2026-11-03; build a")):
            self.assertEqual(nights.words_of_lots(Seen(lots)), words)

    def test_a_trace_without_some_orders(self) -> None:
        trace = b"lockdep,1\noff,hardirq\nacq,A,0,w\nacq,B,0,w\nrel,B,0\nacq,C#1@2,0,w\nrel,C#1@2,0\nrel,A,0\non,hardirq\nacq,A,0,w\nrel,A,0\nacq,B,0,w\nrel,B,0\n"
        left = {b"A/0 EN B/0": Seen(), b"A/0 EN C/0": Seen(), b"used hardirqs on A/0": Seen()}
        self.assertEqual(nights.kept_trace(trace, left, {(2,)}), b"lockdep,1\noff,hardirq\nacq,A,0,w\nacq,B,0,w\nrel,B,0\nrel,A,0\non,hardirq\nacq,A,0,w\nrel,A,0\n")
        self.assertEqual(nights.kept_trace(trace, {**left, b"used hardirqs on B/0": Seen()}, set()), trace)
        self.assertEqual(nights.kept_trace(trace, {b"used hardirqs on A/0": Seen()}, {(2,)}),
                         b"lockdep,1\noff,hardirq\non,hardirq\nacq,A,0,w\nrel,A,0\n")


class Questions(unittest.TestCase):
    """Of each part of a question so few locks lead to one another, once its orders are closed, that the checker answers it."""

    def parts(self, pairs: list[tuple[str, str]]) -> list[list[tuple[str, str, str]]]:
        orders = [(first + "/0", "EN", second + "/0") for first, second in pairs]
        parts = list(places.bundles(orders))
        self.assertEqual(Counter(order for part in parts for order in part), Counter(orders))
        return parts

    def test_a_long_chain(self) -> None:
        parts = self.parts([("c%d" % number, "c%d" % (number + 1)) for number in range(1000)])
        self.assertEqual([len(part) for part in parts], [997, 3])  # (after each 255th order, which joins 256 locks, one is left)

    def test_many_orders_of_one_lock(self) -> None:
        self.assertEqual([len(part) for part in self.parts([("a", "b%d" % number) for number in range(600)])], [255, 255, 90])

    def test_what_is_joined_already(self) -> None:
        names = ["k%d" % number for number in range(256)]
        self.assertEqual(len(self.parts([(first, second) for first in names for second in names[:9]])), 1)

    def test_names_that_imitate_lists(self) -> None:
        for name, shown in (("a/b", "a/b"), ("a b: c", "a b: c"), ("a, b", "'a, b'"), ("x; on 2026-01-01", "'x; on 2026-01-01'"), ("a\n", "a\\n")):
            self.assertEqual(in_a_list(name), shown)

    def test_marks_without_a_counterpart_are_not_asked_for(self) -> None:
        entries = [b"a/0 EN b/0", b"used hardirq a/0", b"used hardirqs on b/0", b"used softirqs on a/0"]
        self.assertEqual(all_wanted(entries), [("a/0", "EN", "b/0"), ("used", "hardirq", "a/0"), ("enabled", "hardirq", "b/0")])


class KeptPlaces(unittest.TestCase):
    def test_a_line_that_is_none(self) -> None:
        fine = b'{"callers": {"3": ["a.c:1 f"]}, "inside": "x.csv", "of": ["A/0", "EN", "B/0"], "record": 3, "recording": "1"}\n'
        self.assertEqual(kept_places.lines_in(fine, (7,))["A/0", "EN", "B/0"]["recording"], "1@7")
        for old, new in ((b"x.csv", b"../x.csv"), (b"x.csv", b"/x.csv"), (b"x.csv", b"x\\u0000"), (b"a.c:1 f", b"nowhere"), (b"a.c:1 f", b"\\ud800:1 f"), (b"A/0", b"\\ud800"),
                         (b'"1"', b'"x"'), (b'"3"', b'"x"'), (b'"B/0"', b'"B/0", "C/0"'), (b"{", b"[" * 100000), (b": 3", b": 1e999"), (b": 3", b": " + b"9" * 40),
                         (b": 3", b": true"), (b": 3", b": 0"), (b'"3"', b'"%s"' % (b"9" * 40)), (b"{", b"\n{"), (b'{"3":', b'{"4": [], "5": [], "3":')):
            self.assertRaises(ValueError, kept_places.lines_in, fine.replace(old, new, 1))

    def test_what_a_folder_has_no_room_for(self) -> None:
        line = {"callers": {}, "classes": [], "inside": "x.csv", "record": 3, "recording": "1"}
        lines = {("A%d" % number, "EN", "B/0"): line for number in range(3)}
        whole = kept_places.text_of_lines(lines)
        for most, there in ((len(whole), 3), (len(whole) - 1, 2), (len(whole) // 3, 1), (len(whole) // 3 - 1, 0)):
            with mock.patch.object(kept_places, "MOST_OF_PLACES", most):
                text = kept_places.text_of_file(lines)
                self.assertEqual((text.count(b"\n"), whole.startswith(text)), (there, True))
                self.assertEqual(len(kept_places.lines_in_file(text)), there)
                self.assertRaises(ValueError, kept_places.lines_in_file, text + b" " * most + b"\n")


    def test_where_classes_are_made(self) -> None:
        said = {"callers": ["a.c:1 f", "b.c:2 main"], "kind": "made in", "name": "A@f+0x1", "place_name": "f+0x1", "record": 2, "type": "A"}
        line = {"callers": {}, "classes": [said], "inside": "objects/x.csv", "of": ["A/0", "EN", "B/0"], "record": 3, "recording": "1"}
        kept = kept_places.KeptPlaces(kept_places.lines_in(json.dumps(line).encode() + b"\n"), {}, lambda number: "gone")
        self.assertEqual(kept.classes(), [])
        kept.place(("A/0", "EN", "B/0"))
        made, = kept.classes()
        self.assertEqual((made.name, made.kind, made.place_name, made.type, made.record), ("A@f+0x1", "made in", "f+0x1", "A", Event("gone/classes", 2)))
        self.assertEqual(kept.callers(), {Event("gone/classes", 2): [Address("a.c:1 f", None), Address("b.c:2 main", None)]})
        for name, value in (("callers", ["nowhere"]), ("record", 0), ("kind", 7)):
            line["classes"] = [dict(said, **{name: value})]
            self.assertRaises(ValueError, kept_places.lines_in, json.dumps(line).encode() + b"\n")


class SamePath(OfARecording):
    """Whether a recording that was gathered is what has its path now."""

    def test_what_was_recorded_over_has_its_number(self) -> None:
        several = {(1,): "x", (2,): "y", (3,): "x", (4,): "roll", (4, 1): "x", (4, 2): "z", (4, 3): "z"}
        self.assertEqual(list(places.names_apart(several).values()),
                         ["x (recording 1)", "y", "x (recording 3)", "roll", "roll: x", "roll: z (recording 2@4)", "roll: z (recording 3@4)"])

    def test_another_one_has_its_path(self) -> None:
        path, gone = self.path("task-0001.csv"), self.path("gone.csv")
        told = zlib.crc32(b"told\n")
        self.write("task-0001.csv", "told\n")
        program = mock.Mock(condensed_of=lambda names: (Answer(files.contents(names[0]) or b"", 0, b""), False))
        for several, traces, root in (([(path, told)], [path], path), ([(path, told + 1)], [], path + " (recording 1)"), ([(gone, told)], [], gone),
                                      ([(path, told), (path, told + 1)], [path], path + " (recording 1)"), ([(path, told), (path, told)], [path], path),
                                      ([(gone, told), (gone, told + 1)], [], gone + " (recording 1)"), ([(path, "")], [], path + " (recording 1)")):
            found = places.Recordings([Listed((number,), "", str(total), name, name) for number, (name, total) in enumerate(several, 1)], program)
            self.assertEqual((found.look((1,)).traces, found.kept_root((1,))), (traces, root), several)
        os.truncate(path, files.MOST_OF_FILE + 1)
        program.condensed_of = None  # (nobody is asked about a file of so many bytes)
        self.assertEqual(places.Recordings([Listed((1,), "", str(told), path, path)], program).look((1,)).traces, [])


def marked(text: str) -> dict[str, bytes]:
    return {"GATHERED": gathered.FIRST_LINE + text.encode()}


class Replaced(OfARecording):
    def test_nothing_is_added_to_what_was_changed(self) -> None:
        folder = os.path.join(self.folder, "roll")
        gathered.write(folder, marked("one"), b"")
        for before in (b"", gathered.FIRST_LINE):
            self.assertRaises(Refusal, gathered.write, folder, marked("two"), before)
        gathered.write(folder, marked("three"), marked("one")["GATHERED"])
        gathered.write(folder, marked("four"))
        with mock.patch.object(gathered, "RENAME_EXCHANGE", 1 << 30):  # (which no system knows)
            gathered.write(folder, marked("five"))
            with mock.patch.object(gathered, "check_replaced", side_effect=Refusal("it has something else")):
                self.assertRaises(Refusal, gathered.write, folder, marked("six"))
        self.assertEqual((files.contents(folder + "/GATHERED"), [name for name in os.listdir(self.folder) if name.startswith(".")]), (marked("five")["GATHERED"], []))


class Progress(unittest.TestCase):
    def test_a_line_a_minute(self) -> None:
        said: list[bytes] = []
        with mock.patch.object(engines, "complain", said.append), mock.patch.object(engines.time, "monotonic") as clock, mock.patch.object(engines.sys, "stderr", None):
            clock.return_value = 0
            progress = engines.Progress(100)
            for moment, read in ((1, 10), (59, 20), (61, 30), (62, 40), (122, 50), (500, 100)):
                clock.return_value = moment
                progress(read)
        self.assertEqual(said, [b"lockdep: 30 of 100 recordings\n", b"lockdep: 50 of 100 recordings\n", b"lockdep: 100 of 100 recordings\n"])


class Results(unittest.TestCase):
    def test_whatever_a_recording_raises_is_its_own_fault(self) -> None:
        task = recordings.Task(Program("unused"), [])
        for error in (TypeError("x"), RecursionError(), MemoryError(), OverflowError(), UnicodeDecodeError("utf-8", b"", 0, 1, ""), PermissionError(13, "x", "file"), ValueError("x")):
            with mock.patch.object(recordings, "facts_of_folder", side_effect=error):
                self.assertRaises(recordings.Bad, recordings.facts_of, task, 1, TOP)
        for error in (OSError(28, "no space"), OSError(24, "too many"), FileNotFoundError(2, "no temporary folder")):
            with mock.patch.object(recordings, "facts_of_folder", side_effect=error):
                self.assertRaises(Lacking, recordings.facts_of, task, 1, TOP)

    def test_what_is_too_much_for_the_checker(self) -> None:
        said = b"lockdep: x: record 9: T6 TooManyKeys: more than 256 lock classes in all traces together: pass --many, which takes 8,192\n"
        self.assertEqual(recordings.why_bad(Answer(b"", 2, said)), "T6 TooManyKeys: it has more than 8,192 lock classes")

    def test_a_path_that_no_list_can_have(self) -> None:
        for path in ("/a\nb", "/a\tb"):
            with self.assertRaises(recordings.Bad) as raised:
                recordings.facts_of(recordings.Task(Program("unused"), []), 1, path)
            self.assertEqual(raised.exception.why, "its path has a line break or a tab")

    def test_by_another_tool(self) -> None:
        by = {"version": "1", "tool": "a", "program": "b"}
        for said, words in ((by, ""), (dict(by, tool="c"), "it has another lockdep than this one (1): another tool"), (dict(by, lacks="room"), "room"),
                            ({"version": "1"}, "it has another lockdep than this one (1): another tool and program")):
            self.assertEqual(engines.why_unfit(said, by), words)

    def test_a_worker_comes_when_nothing_is_asked(self) -> None:
        engine = object.__new__(engines.OnDask)
        engine.futures, engine.unfit, engine.scheduler = {}, {}, "one"
        engine.client = mock.Mock(status="running", scheduler_info=lambda: {"id": "one", "workers": {"tcp://a": {"nthreads": 1}}})
        self.assertEqual(engine.ended(), [])

    def test_a_result_and_what_is_behind_it(self) -> None:
        self.assertEqual(facts.apart(facts.joined({"a": 1}, [b"x\n", b"", b"y"])), ({"a": 1}, [b"x\n", b"", b"y"]))
