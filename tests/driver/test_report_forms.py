"""Forms of the findings: where they are written, and what they say."""
import json
import os
import subprocess
import sys
import tempfile
import unittest
from unittest import mock

from cases import between, circle, findings
from lockdep.ask.breaches import Breach
from lockdep.ask.verdict import Recorded
from lockdep.base import files
from lockdep.base.saying import Refusal
from lockdep.binaries.symbols import Address, frame_of
from lockdep.cli import diff
from lockdep.cli.diff import Side
from lockdep.places.places import Made, Places
from lockdep.places.sources import Sources
from lockdep.program.findings import Event, Finding
from lockdep.say import found as forms
from lockdep.say.as_json import compact, json_of_run, with_places
from lockdep.say.found import Found
from lockdep.say.junit import junit
from lockdep.say.sarif import frame_location, location


def status_of(call, **more):
    """The status of a function of this package, called in a process of its own."""
    words = [sys.executable, "-c", "import sys; sys.path[:0] = %r; %s" % (sys.path, call)]
    return subprocess.run(words, stderr=subprocess.PIPE, **more)


class Output(unittest.TestCase):
    def test_a_closed_standard_output_is_refused(self):
        for name in (None, "-"):
            with mock.patch.object(sys, "stdout", None), self.assertRaises(Refusal) as raised:
                files.write_form(name, "text")
            self.assertEqual((raised.exception.status, raised.exception.line), (2, "the text can't be written"))

    def test_a_full_standard_output_of_diff_is_refused(self):
        with mock.patch.object(diff, "sides_of", return_value=([Side("circle a/0 EN b/0", frozenset())], "")), \
                mock.patch.object(diff, "write_sides", side_effect=OSError(28, "No space left on device")):
            with self.assertRaises(Refusal) as raised:
                diff.main(["one", "two"])
            self.assertEqual(raised.exception.status, 2)

    def test_a_reader_of_diff_that_has_enough_needs_no_message(self):
        call = "from lockdep import parts; from lockdep.cli import diff; diff.sides_of = lambda name: ([diff.Side('head', frozenset())] * 9999, ''); " \
            "sys.exit(parts.run('diff', ['one', 'two']))"
        out, into = os.pipe()
        os.close(out)
        done = status_of(call, stdout=into)
        os.close(into)
        self.assertEqual((done.returncode, done.stderr), (2, b""))


class InSarif(unittest.TestCase):
    def test_no_place_is_in_a_header_of_the_system(self):
        """Where nothing but such functions is known, the place is the record's."""
        sources, event, address = Sources(), Event("t/task-0001.csv", 4), Address("/bin/p", 0x20)
        sources.take_callers({event: [address]})
        sources.take_record(event, (5, "acq,a,0,w"), Places(event.file))
        wrapper = frame_of("std::mutex::lock()", "/usr/include/c++/12/bits/std_mutex.h:100", "p+20")
        for frames, place in (([wrapper], ("task-0001.csv", 5)), ([wrapper, frame_of("pays()", "/src/m.cc:9", "p+20")], ("m.cc", 9))):
            sources.symbols.answers[address.module, address.looked_up] = frames
            physical = location(event, "takes a", sources)["physicalLocation"]
            self.assertEqual((os.path.basename(physical["artifactLocation"]["uri"]), physical["region"]["startLine"]), place)
        self.assertNotIn("physicalLocation", frame_location(wrapper))


class Sides(unittest.TestCase):
    def test_json_that_is_too_deep_is_refused(self):
        with tempfile.TemporaryDirectory() as folder:
            name = os.path.join(folder, "deep.json")
            with open(name, "w", encoding="utf-8") as file:
                file.write("[" * 200000)
            with self.assertRaises(Refusal):
                diff.sides_of(name)

    def test_a_recording_without_traces_is_refused_by_its_reason(self):
        with tempfile.TemporaryDirectory() as folder:
            os.mkdir(os.path.join(folder, "raw"))
            open(os.path.join(folder, "raw", "settings"), "w").close()
            with self.assertRaises(Refusal) as raised:
                diff.sides_of(folder)
            self.assertIn("whose traces weren't made", raised.exception.line)

    def test_json_and_a_folder_have_places_by_types(self):
        made = [Made("S::m@%s" % name, Address("s.c:%d %s" % (line, name), None), "heap", name) for line, name in ((3, "one"), (9, "two"))]
        sources = Sources()
        for each in made:
            sources.classes[each.name] = each
            sources.types.setdefault("S::m", []).append(each)
        sources.want_names(["S::m"])
        said = circle("S::m/0", between=between("locks", circle("S::m@one#1/0")))
        places = diff.places_of(findings([said])[0], sources)
        self.assertEqual([place.words for place in places["S::m"]], ["heap one at s.c:3", "heap two at s.c:9"])
        locks = [{"class": "S::m@other", "kind": "heap", "place": "%s at s.c:3" % name} for name in ("one", "three")]
        here = Side("", frozenset(said["lines"]), places=places)
        self.assertTrue(here.is_same(diff.side_of_json(1, dict(said, locks=locks[:1]))))
        self.assertFalse(here.is_same(diff.side_of_json(1, dict(said, locks=locks[1:]))))


class Json(unittest.TestCase):
    def test_hidden_characters_are_escaped(self):
        for text, written in (("a\x9b\u202e\x7f\x1b", '"a\\u009b\\u202e\\u007f\\u001b"'), ("\xe9\U0001f512\udcff", '"\xe9\U0001f512\\udcff"')):
            self.assertEqual(compact(text), written)

    def test_an_occurrence_has_the_name_of_its_thread(self):
        with tempfile.TemporaryDirectory() as folder:
            with open(os.path.join(folder, "tasks"), "w", encoding="utf-8") as file:
                file.write("task-0001.csv 17 payer\n")
            orders = [{"file": os.path.join(folder, "objects", name), "record": 3} for name in ("task-0001.csv", "task-0002.csv")]
            said = with_places({"orders": orders, "key": "a/0"}, Found([], [], Sources(), Recorded([]), []))
        self.assertEqual([order.get("thread") for order in said["orders"]], ["payer", None])
        self.assertNotIn("thread", said)

    def test_known_breaches_come_last(self):
        known, new = (Breach("hold", ("%s/0" % name,), "hold: %s wasn't held" % name, ()) for name in "ab")
        said = json.loads(json_of_run(Found([], [], Sources(), Recorded([]), [], breaches=[new], known_breaches=[known])))
        self.assertEqual([(breach["keys"], breach["known"]) for breach in said["breaches"]], [(["b/0"], False), (["a/0"], True)])


class Once(unittest.TestCase):
    def test_what_several_forms_say_is_made_once(self):
        several = findings([circle("a/0", between=between("locks")), circle("c/0", between=between("locks"))])
        found = Found(several[:1], several[1:], Sources(), Recorded([]), [])
        with mock.patch.object(forms, "rows_of", wraps=forms.rows_of) as rows, mock.patch.object(forms, "remarks_of", wraps=forms.remarks_of) as remarks:
            self.assertEqual(junit(found), junit(found))
            json_of_run(found)
        self.assertEqual((rows.call_count, remarks.call_count), (1, 2))

    def test_no_finding_is_held_against_all_known_ones(self):
        several = findings([circle("a/0", between=between("locks")), circle("c/0", between=between("locks"))])
        with mock.patch.object(Finding, "__eq__", side_effect=AssertionError):
            said = json.loads(json_of_run(Found(several[:1], several[1:], Sources(), Recorded([]), [])))
        self.assertEqual([finding["known"] for finding in said["findings"]], [False, True])


class Junit(unittest.TestCase):
    def test_the_passed_case_says_if_all_is_known(self):
        known, note = (findings([circle("a/0", between=between(kind))]) for kind in ("classes", "nested"))
        for found, blocked, name in (([], 0, "no finding"), (known, 0, "no new finding"), (note, 0, "no finding"), ([], 1, "no new finding")):
            text = junit(Found([], found, Sources(), Recorded([]), [], known_blocked=blocked))
            self.assertIn('<testcase classname="lockdep" name="%s" time="0"/>' % name, text)


if __name__ == "__main__":
    unittest.main()
