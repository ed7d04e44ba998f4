"""Lists of known findings: their grammar, what hides what, and when an entry is stale."""
import os
import unittest
from unittest import mock

from cases import between, circle, findings, order
from lockdep.ask.breaches import Breach
from lockdep.base.saying import Refusal
from lockdep.base.words import lines_of, type_of_class, visible
from lockdep.binaries.symbols import Address, Frame
from lockdep.known.known import list_of, sort
from lockdep.known.suppressions import entries_of, pattern_text, strength
from lockdep.known.taking_part import TakingPart
from lockdep.places.places import Made
from lockdep.places.sources import Sources
from lockdep.places.where_made import Caller, is_same_path, place_of
from lockdep.program.findings import Event
from lockdep.program.verdicts import Judgement, Reason, Verdict
from lockdep.say.report import hides_blocked


class Patterns(unittest.TestCase):
    """The patterns that are written of what is against what a program says of its locks."""

    def test_a_pattern_fits_its_own_text_alone(self):
        for name in ("Striped::stripes[]", "main+0x2d[].m0", "Map<int, char*>::lock", "what?"):
            text = pattern_text("order", [name, name], "f[abi:cxx11]")
            entry = entries_of(text + "\n", "list")[0]
            self.assertTrue(entry.hides("order", [(name,)], [("f[abi:cxx11]", "x.c")]), text)
            self.assertFalse(entry.hides("order", [(name + "x",)], [("f[abi:cxx11]", "x.c")]), text)
            self.assertFalse(entry.hides("order", [(name,)], [("fa", "x.c")]), text)

    def test_a_class_is_named_once_and_an_unknown_function_not_at_all(self):
        self.assertEqual(pattern_text("order", ["account", "account"], ""), "order class:account")

    def test_a_list_has_a_pattern_for_each_breach_that_no_other_one_fits(self):
        sources = Made_up({"a": ("named", []), "b": ("named", [])})
        breaches = [Breach(type, ("%s/0" % name,), "", (Event("breaches", 0),)) for type, name in (("hold", "a"), ("hold", "b"), ("order", "a"))]
        text = list_of([], "# mine\nhold class:b\n", sources, (), breaches + breaches)
        self.assertEqual(text, "# mine\nhold class:b\nhold class:a function:flush_all\norder class:a function:flush_all\n")


class Made_up(Sources):
    """Sources in which the locks of some names are made at places, and all records are of one function."""

    def __init__(self, places, function="flush_all(int)", file="/src/store/disk.c", types={}):
        super().__init__()
        self.classes = {name: Made(name, Address(name, 1), kind, name, types.get(name, name)) for name, (kind, _) in places.items()}
        for made in self.classes.values():
            self.types.setdefault(type_of_class(made.name), []).append(made)
        self.at = {name: frames if isinstance(frames, list) else [frames] for name, (_, frames) in places.items()}
        self.frame = Frame(function, file, 7, "")

    def frames_of(self, made):
        return self.at[made.name]

    def frames(self, event):
        return [self.frame]


def at(file, line=3, function=""):
    return ("static", Frame(function, os.path.abspath(file), line, "m+10"))


TWO = [circle("a/0", "b/0"), circle("c/0", "d/0")]
LINES = "circle a/0 EN b/0\ncircle b/0 EN a/0\n"


def sorted_by(text, places=None, said=TWO, **more):
    return sort(findings(said), [], entries_of(text, "list"), Made_up(places or {}, **more))


def judged_as(verdict, reason=None, *keys):
    """A cycle between single locks with this verdict."""
    said = findings([circle(*(keys or ("a/0", "b/0")), between=between("locks", circle("a#1/0", "b#1/0")))])
    said[0].judged = Judgement(verdict, reason)
    return said


def keys(found):
    return [finding.keys[0] for finding in found]


class Grammar(unittest.TestCase):
    def test_what_a_list_may_have(self):
        text = "# a comment\n\n  circle a/0 EN b/0 \r\ndouble hardirq a/7\ninversion softirq a/0 b/0\n" \
            "cycle class:a function:f* file:x/*.c  # a reason until 2027-03-01\nblocked class:*\ncircle a/0 SR b/0 # known\n"
        entries = entries_of(text, "list")
        self.assertEqual([entry.number for entry in entries], [3, 4, 5, 6, 7, 8])
        self.assertEqual((entries[3].type, entries[3].until, entries[3].fields),
                         ("circle", "2027-03-01", [("class", "a"), ("function", "f*"), ("file", "x/*.c")]))
        self.assertEqual(entries[5].line, "circle a/0 SR b/0")

    def test_what_is_no_finding_is_refused_with_its_line(self):
        for line in ("clean no", "circle a/0 EN b/0 EN a/0", "circle a EN b", "double a/0", "cycle", "cycle class:", "cycle a", "x class:a"):
            with self.assertRaises(Refusal) as raised:
                entries_of("# known\n%s\n" % line, "list")
            self.assertTrue(raised.exception.line.startswith("list: line 2 is no finding"))
        with self.assertRaises(Refusal) as raised:
            list_of([], "# mine\nno finding\n", Made_up({}), name="written")
        self.assertTrue(raised.exception.line.startswith("written: line 2 is no finding"))

    def test_a_reason_with_until_ends_with_a_date(self):
        for reason in ("until 2030-13-01", "until 2030-02-30", "until 2020-01-01.", "until 2020-01-01, ticket 5", "until 1 Jan 2020", "Until", "until 2030-1-1", "until \uff12030-01-01"):
            with self.assertRaises(Refusal) as raised:
                entries_of("\ncycle class:a # by design, %s\n" % reason, "list")
            self.assertEqual(raised.exception.line, "list: line 2 has a reason with `until` and no date at its end, such as `until 2027-03-01`")
        for reason, date in (("until 2030-12-01", "2030-12-01"), ("Until 2028-02-29 ", "2028-02-29"), ("untilled", ""), ("", "")):
            self.assertEqual(entries_of("circle a/0 EN b/0 # x %s\n" % reason, "list")[0].until, date)

    def test_a_name_may_have_a_number_sign(self):
        for line in ("circle x#0123/0 EN y/0", "circle #y/0 EN x/0", "circle #/0 EN #/0", "double hardirq #x/0", "inversion softirq x/0 #y/1"):
            self.assertEqual(entries_of(line + "\n", "list")[0].line, line)
            entry = entries_of(line + " # by design until 2030-12-01\n", "list")[0]
            self.assertEqual((entry.line, entry.until), (line, "2030-12-01"))
        self.assertEqual(entries_of("cycle class:#y class:x # known\n", "list")[0].fields, [("class", "#y"), ("class", "x")])
        self.assertEqual(list_of(findings([circle("#y/0", "x/0")]), "", Made_up({})).split("\n")[1], "circle #y/0 EN x/0")
        self.assertEqual(sorted_by("circle #y/0 EN x/0\ncircle x/0 EN #y/0\n", said=[circle("#y/0", "x/0")]).new, [])

    def test_places(self):
        self.assertEqual(vars(place_of("heap", "main at heap.cc:6 < run at x.cc:1")),
                         {"kind": "heap", "callers": (Caller("main", "heap.cc", "6"), Caller("run", "x.cc", "1"))})
        self.assertEqual(vars(place_of("static", "program+4060")), {"kind": "static", "callers": (Caller("", "program", ""),)})
        self.assertTrue(is_same_path("store/a.cpp", "/home/x/store/a.cpp"))
        self.assertFalse(is_same_path("other/a.cpp", "/home/x/store/a.cpp"))


class Hiding(unittest.TestCase):
    def test_a_finding_is_known_if_all_of_its_lines_are(self):
        result = sorted_by(LINES)
        self.assertEqual((keys(result.new), keys(result.known), result.known_lines), (["c/0"], ["a/0"], 2))
        result = sorted_by("circle a/0 EN b/0\n")
        self.assertEqual((keys(result.new), result.known_lines), (["a/0", "c/0"], 1))

    def test_new_findings_are_numbered_anew(self):
        self.assertEqual([finding.number for finding in sorted_by(LINES).new], [1])

    def test_an_entry_of_a_lock_that_is_made_elsewhere_hides_nothing(self):
        text = "circle a/0 EN b/0\n#   a: static one.c:3\ncircle b/0 EN a/0\n#   a: static one.c:3\n"
        self.assertEqual(keys(sorted_by(text, {"a": at("one.c", 9)}).new), ["c/0"])
        result = sorted_by(text, {"a": at("other.c")})
        self.assertEqual((keys(result.new), result.known_lines), (["a/0", "c/0"], 0))
        self.assertIn("a was made at static one.c:3, and is now at static", result.stale[0])

    def test_another_function_or_kind_is_elsewhere(self):
        text = LINES.replace("\n", "\n#   a: heap main at one.c:3\n")
        made = Frame("main", os.path.abspath("one.c"), 3, "")
        self.assertEqual(keys(sorted_by(text, {"a": ("heap", made)}).new), ["c/0"])
        for kind, function in (("heap", "other"), ("static", "main")):
            result = sorted_by(text, {"a": (kind, Frame(function, made.path, 3, ""))})
            self.assertEqual(len(result.stale), 2)

    def test_a_name_with_an_offset_and_another_line_is_told(self):
        said = [circle("main+0x13/0")]
        text = "circle main+0x13/0 EN main+0x13/0\n#   main+0x13: heap main at one.c:3\n"
        result = sorted_by(text, {"main+0x13": ("heap", Frame("main", os.path.abspath("one.c"), 4, ""))}, said)
        self.assertEqual((result.new, result.moved), ([], ["main+0x13 (one.c:3, and now one.c:4)"]))

    def test_an_entry_past_its_day_hides_nothing(self):
        result = sorted_by("cycle class:* # until 2020-01-31\n")
        self.assertEqual((keys(result.new), len(result.stale)), (["a/0", "c/0"], 1))
        self.assertEqual(sorted_by("cycle class:* # until 9999-12-31\n").new, [])

    def test_an_entry_holds_on_its_last_day(self):
        entry = entries_of("circle a/0 EN b/0 # until 2026-11-30\n", "list")[0]
        self.assertEqual([entry.is_expired(day) for day in ("2026-11-29", "2026-11-30", "2026-12-01")], [False, False, True])

    def test_a_pattern_sees_the_records_of_the_finding_between_single_locks(self):
        inner = circle("a#1/0", "b#1/0", orders=[order("a#1/0", "EN", "b#1/0", record=9), order("b#1/0", "EN", "a#1/0", record=9)])
        found = findings([circle("a/0", "b/0", between=between("locks", inner))])
        sources = Made_up({"a": ("named", []), "b": ("named", [])})
        sources.frames = lambda event: [Frame("at_%d" % event.record, "/src/store/disk.c", 7, "")]
        for text, known in (("cycle function:at_9", 1), ("cycle function:at_3", 1), ("cycle function:at_4", 0)):
            self.assertEqual(len(sort(found, [], entries_of(text + "\n", "list"), sources).known), known, text)

    def test_a_pattern_of_blocked_threads_past_its_day_hides_none(self):
        for text, hides in (("blocked class:*", True), ("blocked class:* # until 9999-12-31", True), ("blocked class:* # until 2020-01-31", False),
                            ("cycle class:blocked", False), ("", False)):
            self.assertEqual(hides_blocked(text), hides, text)

    def test_an_entry_past_its_day_is_told_once(self):
        for text in ("cycle class:* # until 2020-01-31\n", "circle x/0 EN y/0 # until 2020-01-31\n"):
            result = sorted_by(text)
            self.assertEqual(result.gone, [])
            self.assertTrue(result.stale[0].endswith(": it was meant until 2020-01-31, so that entry hides nothing; give it another date, or remove it"))

    def test_a_pattern_fits_a_type_in_full(self):
        places, types = {"Very_l..%00@1": made_in("a"), "b": made_in("b")}, {"Very_l..%00@1": "Very_long_name<int>::m"}
        said = [circle("Very_l..%00/0", "b/0")]
        for pattern, left in (("class:Very_long*", 1), ("class:Very_long_name<*>::m class:b", 0), ("class:Very_l..* class:b", 0), ("class:long* class:b", 1)):
            self.assertEqual(len(sorted_by("cycle %s\n" % pattern, places, said, types=types).new), left, pattern)

    def test_a_pattern_needs_all_classes(self):
        self.assertEqual(keys(sorted_by("cycle class:a class:[bx]\n").new), ["c/0"])
        self.assertEqual(keys(sorted_by("cycle class:a\n").new), ["a/0", "c/0"])

    def test_a_pattern_needs_no_gate(self):
        gates = [{"gate": "g/0", "orders": [{"from": "a/0", "kind": "EN", "to": "b/0"}, {"from": "b/0", "kind": "EN", "to": "a/0"}]}]
        said = [circle("a/0", "b/0", gates=gates, between=between("locks", circle("a#1/0", "b#1/0", gates=gates)))]
        places = {name: ("init", []) for name in ("a", "b", "g")}  # (in files of the same names)
        for text, left in (("class:a class:b", 0), ("module:a module:b", 0), ("class:a class:g", 1)):
            self.assertEqual(len(sorted_by("cycle %s\n" % text, places, said).new), left, text)

    def test_a_pattern_needs_a_function_in_a_file(self):
        for text, left in (("function:flush_*", 0), ("function:flush_all", 0), ("function:flush", 2), ("file:store/*", 0), ("file:store/x.c", 2),
                           ("function:flush_all file:disk.c", 0), ("function:other file:disk.c", 2)):
            self.assertEqual(len(sorted_by("cycle %s\n" % text).new), left, text)

    def test_a_pattern_hides_no_stronger_verdict_and_none_that_is_unknown(self):
        verdicts = list(Verdict)[1:]
        for place, listed in enumerate(verdicts):
            text = "cycle verdict:%s\n" % listed.value
            for verdict in verdicts:
                result = sort(judged_as(verdict), [], entries_of(text, "list"), Made_up({}))
                self.assertEqual(not result.new, verdict in verdicts[place:], (listed, verdict))
            self.assertEqual(len(sorted_by(text).new), 2)  # (of which nothing was asked)
        # A comment of --write-known below a pattern is none of its words.
        text = "cycle verdict:between-classes\n#   possible\n"
        self.assertEqual(len(sort(judged_as(Verdict.POSSIBLE), [], entries_of(text, "list"), Made_up({})).new), 1)

    def test_the_reason_of_what_isnt_shown_is_no_verdict_of_its_own(self):
        for reason in Reason:
            for word, is_hidden in (("not-known", True), ("not-shown", True), ("kept-apart", False)):
                found = judged_as(Verdict.NOT_SHOWN, reason)
                self.assertEqual(not sort(found, [], entries_of("cycle verdict:%s\n" % word, "list"), Made_up({})).new, is_hidden)

    def test_a_pattern_of_a_verdict_that_is_none_is_refused(self):
        for word in ("seen-between-locks", "seen", "happened", "kept", "between-class?s", "possible-by-join"):
            with self.assertRaises(Refusal) as raised:
                entries_of("\ncycle class:a verdict:%s\n" % word, "list")
            self.assertEqual(raised.exception.line, "list: line 2 has a `verdict:` that is none; the verdicts are possible, possible-by-a-join, not-known, "
                             "not-shown, kept-apart, between-classes")

    def test_a_pattern_needs_a_module_of_all_locks(self):
        places = {name: ("init", []) for name in ("a", "b")}  # (in files of the same names)
        for text, left in (("module:a module:b", 0), ("module:[ab] class:*", 0), ("module:a", 1), ("module:a class:a class:b", 1), ("module:x*", 1)):
            self.assertEqual(len(sorted_by("cycle %s\n" % text, places, TWO[:1]).new), left, text)
        self.assertEqual(len(sorted_by("cycle module:*\n", {"a": ("init", [])}, TWO[:1]).new), 1)

    def test_the_file_alone_is_a_module(self):
        sources = Made_up({"a": ("init", [])})
        for path, offset, left in (("/lib/libx.so.3", 16, 0), ("/opt/libx.so.3/libz.so", 16, 1), ("/lib/notlibx.so.3", 16, 1), ("libx.so.3:7", None, 1)):
            sources.classes["a"] = Made("a", Address(path, offset), "init", "a")
            result = sort(findings([circle("a/0")]), [], entries_of("cycle module:libx.so*\n", "list"), sources)
            self.assertEqual(len(result.new), left, path)

    def test_what_was_not_found_is_told(self):
        self.assertEqual(sorted_by("double hardirq x/0\ncycle class:x\n" + LINES).gone, ["cycle class:x", "double hardirq x/0"])


def made_in(*functions, file="one.c", line=3, kind="heap"):
    """Where a lock is made, by these callers, each a line below the one before it."""
    return kind, [Frame(function, os.path.abspath(file), line + place, "") for place, function in enumerate(functions)]


class Libraries(unittest.TestCase):
    """The tool's own list of libraries, beside that of the user."""

    LIST = "cycle class:a class:b # a before b\ncycle class:x # x\n"

    def sorted_by(self, text):
        return sort(findings(TWO), [], entries_of(text, "list"), Made_up({}), libraries=entries_of(self.LIST, "libraries"))

    def test_what_is_hidden_has_its_reason_and_the_rest_is_not_told(self):
        result = self.sorted_by("")
        self.assertEqual((keys(result.new), keys(result.known), [reason for _, reason in result.libraries]), (["c/0"], ["a/0"], ["a before b"]))
        self.assertEqual((result.known_lines, result.gone, result.stale), (0, [], []))

    def test_the_list_of_the_user_comes_first(self):
        result = self.sorted_by(LINES)
        self.assertEqual((keys(result.known), result.libraries, result.known_lines), (["a/0"], [], 2))

    def test_a_list_that_is_written_lacks_what_is_hidden(self):
        text = list_of(findings(TWO), "", Made_up({}), libraries=entries_of(self.LIST, "libraries"))
        self.assertEqual([line for line in text.split("\n") if line.startswith("circle")], ["circle c/0 EN d/0", "circle d/0 EN c/0"])


class OtherLocks(unittest.TestCase):
    """What an entry of a list never hides: a finding in which a class takes part that isn't listed, or with a stronger verdict."""

    TYPES = [circle("S::m/0", "P::m/0", between=between("types"))]
    PLACES = {"S::m@00000001": made_in("setup_a"), "P::m@00000002": made_in("setup_a", line=9)}

    def list_then(self, said, places, later, places_later=None):
        """What a list that is written of one run says of another."""
        text = list_of(findings(said), "", Made_up(places))
        return text, sorted_by(text, places if places_later is None else places_later, later)

    def test_the_same_run_is_known(self):
        text, result = self.list_then(self.TYPES, self.PLACES, self.TYPES)
        self.assertEqual((result.new, result.stale), ([], []), text)

    def test_places_in_two_words(self):
        for kind in ("made in", "any object of", "the class object of"):
            places = {"a": made_in("__init__", file="q.py", kind=kind), "b": made_in("__init__", file="q.py", line=5, kind=kind)}
            text, result = self.list_then(TWO[:1], places, TWO[:1])
            self.assertIn("#   a: %s __init__ at q.py:3\n" % kind, text)
            self.assertEqual((result.new, result.stale), ([], []))

    def test_a_place_in_two_words_that_is_another_now(self):
        places = {"a": made_in("__init__", file="q.py", kind="made in"), "b": made_in("reset", file="q.py", kind="made in")}
        later = dict(places, a=made_in("renew", file="q.py", kind="made in"))
        self.assertIn("a was made in __init__ at q.py:3, and is now in renew at q.py:3", self.list_then(TWO[:1], places, TWO[:1], later)[1].stale[0])

    def test_a_type_whose_locks_are_made_elsewhere(self):
        later = {"S::m@00000003": made_in("setup_b"), "P::m@00000002": self.PLACES["P::m@00000002"]}
        _, result = self.list_then(self.TYPES, self.PLACES, self.TYPES, later)
        self.assertEqual(len(result.new), 1)
        self.assertIn("S::m was made at heap setup_a at one.c:3, and is now at heap setup_b at one.c:3", result.stale[0])

    def test_a_name_of_a_place_that_an_edit_changed(self):
        later = {"S::m@000000aa": made_in("setup_a", line=5), "P::m@000000bb": made_in("setup_a", line=11)}
        self.assertEqual(self.list_then(self.TYPES, self.PLACES, self.TYPES, later)[1].new, [])

    def test_one_more_place_of_a_type(self):
        for more in (made_in("setup_c"), made_in("setup_a", line=20)):
            _, result = self.list_then(self.TYPES, self.PLACES, self.TYPES, dict(self.PLACES, **{"S::m@00000009": more}))
            self.assertEqual((len(result.new), len(result.stale)), (1, 2))
            self.assertIn("S::m is now also made at heap setup_", result.stale[0])

    def test_all_callers_count(self):
        places = dict(self.PLACES, **{"S::m@00000001": made_in("make", "old_server", "main")})
        for functions, stale in ((("make", "old_server", "main"), 0), (("make", "new_server", "main"), 2), (("make", "old_server", "other"), 2)):
            later = dict(self.PLACES, **{"S::m@00000001": made_in(*functions)})
            self.assertEqual(len(self.list_then(self.TYPES, places, self.TYPES, later)[1].stale), stale, functions)

    def test_another_source_file_of_the_same_name(self):
        said = [circle("a/0", "b/0", between=between("locks", circle("a#1/0", "b#1/0")))]
        with mock.patch("os.getcwd", return_value="/work/build"):
            for file, other, shown in (("/work/d1/s.c", "/work/d2/s.c", "../d1/s.c"), ("/src/d1/s.c", "/src/d2/s.c", "/src/d1/s.c"),
                                       ("/work/build/s.c", "/work/build/sub/s.c", "s.c")):
                places, later = {"a": ("static", Frame("", file, 3, ""))}, {"a": ("static", Frame("", other, 3, ""))}
                text, result = self.list_then(said, places, said, later)
                self.assertIn("#   a: static %s:3\n" % shown, text)
                self.assertEqual(len(result.new), 1)
                self.assertEqual(self.list_then(said, places, said)[1].new, [])

    def test_a_list_of_another_machine(self):
        text = LINES.replace("\n", "\n#   seen between locks\n#   a: static ../src/s.c:3\n")
        self.assertEqual(keys(sorted_by(text, {"a": ("static", Frame("", "/elsewhere/src/s.c", 3, ""))}).new), ["c/0"])

    def test_a_stronger_verdict_is_new(self):
        verdicts = list(Verdict)[1:]
        for place, listed in enumerate(verdicts):
            text = list_of(judged_as(listed, Reason.ORDER), "", Made_up({}))
            self.assertIn("\n#   %s\n" % listed.words, text)
            for now in verdicts:
                result = sort(judged_as(now, Reason.ORDER), [], entries_of(text, "list"), Made_up({}))
                by_chance = verdicts[:4]  # possible, by a join, not known, not shown: one run gives this one, and another run that one
                self.assertEqual(bool(result.new), now in verdicts[:place] and not (listed in by_chance and now in by_chance), (listed, now))
        for reason, is_new in ((Reason.ORDER, False), (Reason.LIKE_THREADS, False), (Reason.ONE_LOCK, True), (Reason.TIMED, True), (Reason.FEWER_THREADS, True)):
            text = list_of(judged_as(Verdict.NOT_SHOWN, reason), "", Made_up({}))
            self.assertEqual(text.splitlines()[2], "#   not shown" + (", and not counted" if is_new else ""))
            self.assertEqual(bool(sort(judged_as(Verdict.POSSIBLE), [], entries_of(text, "list"), Made_up({})).new), is_new, reason)
            self.assertEqual(sort(judged_as(Verdict.APART), [], entries_of(text, "list"), Made_up({})).new, [])
        result = sort(judged_as(Verdict.POSSIBLE), [], entries_of(list_of(judged_as(Verdict.APART), "", Made_up({})), "list"), Made_up({}))
        self.assertIn("it was kept apart, and is now possible, so that entry hides nothing; --write-known writes it again", result.stale[0])

    def test_a_list_of_an_earlier_version(self):
        for words, listed in (("seen between locks", Verdict.POSSIBLE), ("not known whether seen between locks", Verdict.POSSIBLE),
                              ("seen only between classes", Verdict.CLASSES), ("seen only between types, as one type nested in itself", Verdict.CLASSES)):
            text = LINES.replace("\n", "\n#   %s\n" % words)
            for verdict in list(Verdict)[1:]:
                result = sort(judged_as(verdict), [], entries_of(text, "list"), Made_up({}))
                self.assertEqual(not result.new, strength(verdict) >= strength(listed), (words, verdict))

    def test_a_list_without_verdicts_excuses_all(self):
        self.assertEqual(sorted_by("circle a/0 EN a/0\n", {}, [circle("a/0", between=between("locks", circle("a#1/0")))]).new, [])

    def test_a_list_of_the_last_version(self):
        text = "circle S::m/0 EN P::m/0\n#   S::m@1: heap setup_a at one.c:3\n#   P::m@2: heap setup_a at one.c:9\n" \
            "circle P::m/0 EN S::m/0\n#   P::m@2: heap setup_a at one.c:9\n"
        places = {"S::m@1": made_in("setup_a", "main"), "P::m@2": made_in("setup_a", "main")}
        self.assertEqual(sorted_by(text, places, self.TYPES).new, [])

    def test_the_classes_that_take_part(self):
        graph = '  "S::m@1/0" -> "P::m@2/0" [label="EN"]\n  "P::m@2/0" -> "S::m@1/0" [label="EN"]\n  "S::m@3/0" -> "Q/0" [label="EN"]\n'
        sources = Made_up({"S::m@1": made_in("a"), "P::m@2": made_in("b"), "S::m@3": made_in("c"), "Q": made_in("d")})
        answer = mock.Mock(status=1, output=graph.encode())
        with mock.patch("lockdep.known.taking_part.ask", return_value=answer):
            taking = TakingPart(sources, ["t/task-0001.csv"])
            self.assertEqual([made.name for made in taking.made("circle S::m/0 EN P::m/0")], ["S::m@1", "P::m@2"])
            self.assertEqual([made.name for made in taking.made("circle S::m/0 EN Q/0")], ["S::m@3", "Q"])
            self.assertEqual([made.name for made in taking.made("double hardirq S::m/0")], ["S::m@1", "S::m@3"])
        answer.status = 2
        with mock.patch("lockdep.known.taking_part.ask", return_value=answer):
            self.assertEqual([made.name for made in TakingPart(sources, ["t"]).made("circle S::m/0 EN P::m/0")], ["S::m@1", "S::m@3", "P::m@2"])


class Lines(unittest.TestCase):
    """Locks that one function makes in several lines, which are told apart by how these read."""

    SAID = [circle("make+0x9~main+0x1/0", "make+0x9~main+0x2/0")]
    NAMES = ["make+0x9~main+0x%d" % number for number in (1, 2, 3)]

    def run_then(self, texts, later, line=3):
        """What a list that is written of locks that are made in lines with these texts says of others, in lines from `line` on."""
        with mock.patch.object(Made_up, "text_at", lambda self, frame, made: texts.get(frame.line, "")):
            text = list_of(findings(self.SAID), "", Made_up(self.places(3)))
        with mock.patch.object(Made_up, "text_at", lambda self, frame, made: later.get(frame.line, "")):
            return text, sorted_by(text, self.places(line), self.SAID)

    def places(self, line):
        return {name: made_in("main", line=line + place) for place, name in enumerate(self.NAMES)}

    def test_how_lines_read_is_written(self):
        text, result = self.run_then({3: "a = make();", 4: "b = make();"}, {3: "a = make();", 4: "b = make();"})
        self.assertIn("#   make+0x9~main+0x1: heap main at one.c:3\n#     at one.c:3: a = make();\n", text)
        self.assertEqual((result.new, result.stale), ([], []))

    def test_comments_are_written_anew(self):
        text, _ = self.run_then({3: "a = make();"}, {})
        self.assertEqual(list_of(findings(self.SAID), text, Made_up(self.places(3))), "".join(
            line + "\n" for line in text.split("\n")[:-1] if not line.startswith("#     at ")))

    def test_another_text_is_another_lock(self):
        _, result = self.run_then({3: "a = make();", 4: "b = make();"}, {3: "c = make();", 4: "b = make();"})
        self.assertEqual(len(result.new), 1)
        self.assertIn("where `a = make();` was and `c = make();` is", result.stale[0])

    def test_texts_in_other_lines(self):
        texts = {3: "a = make();", 4: "b = make();", 5: "c = make();"}
        later = {line + 7: text for line, text in texts.items()}
        self.assertEqual(self.run_then(texts, later, line=10)[1].new, [])

    def test_lines_count_if_their_texts_tell_nothing(self):
        for texts in ({}, {3: "x = make();", 4: "x = make();", 5: "x = make();"}):
            later = {line + 7: text for line, text in texts.items()}
            self.assertEqual(self.run_then(texts, texts)[1].new, [])
            self.assertEqual(len(self.run_then(texts, later, line=10)[1].new), 1)

    def test_a_name_that_the_program_gives_has_no_place(self):
        places = {"a": made_in("one", kind="named"), "b": made_in("two", kind="named")}
        text = list_of(findings(TWO[:1]), "", Made_up(places))
        self.assertNotIn("#   a", text)
        self.assertEqual(sorted_by(text, {"a": made_in("other", kind="named")}, TWO[:1]).stale, [])


class Writing(unittest.TestCase):
    def test_a_new_list_has_places(self):
        text = list_of(findings(TWO[:1]), "", Made_up({"a": at("one.c")}))
        self.assertEqual(text.split("\n")[1:4], ["circle a/0 EN b/0", "#   a: static one.c:3", "circle b/0 EN a/0"])

    def test_what_a_pattern_past_its_day_hid_is_written(self):
        text = list_of(findings(TWO[:1]), "cycle class:* # until 2020-01-31\n", Made_up({}))
        self.assertEqual(text, "cycle class:* # until 2020-01-31\n" + LINES)

    def test_a_verdict_is_written_and_renewed(self):
        said = [circle("a/0", "b/0", between=between("classes"))]
        for old in ("possible", "not shown", "seen between locks", "seen only while a lock was new", "not known whether seen between locks"):
            text = list_of(findings(said), LINES.replace("\n", "\n#   %s\n" % old), Made_up({}))
            self.assertEqual(text, LINES.replace("\n", "\n#   between classes\n"), old)

    def test_what_is_written_anew_may_have_been_written_otherwise(self):
        said = [circle("a/0", "b/0", between=between("classes"))]
        old = LINES.replace("\n", "\r\n  #   a: static old.c:3 \r\n #   seen between locks\r\n")
        self.assertEqual([line.strip() for line in list_of(findings(said), old, Made_up({"a": at("one.c")})).split("\n")],
                         LINES.replace("\n", "\n#   between classes\n#   a: static one.c:3\n").split("\n"))

    def test_comments_and_patterns_stay_and_what_is_gone_goes(self):
        old = "# ours\ncircle x/0 EN y/0\ncycle class:c class:d # why\n circle a/0 EN b/0\n#   a: static old.c:1\n"
        text = list_of(findings(TWO), old, Made_up({"a": at("one.c")}))
        self.assertEqual(text.split("\n"), ["# ours", "cycle class:c class:d # why", " circle a/0 EN b/0", "#   a: static one.c:3",
                                            "circle b/0 EN a/0", "#   a: static one.c:3", ""])


class Odd(unittest.TestCase):
    """What a recording calls a lock's kind, module, function or file may have anything but a tab and a line feed."""

    ODD = ("x\rcircle q/0 EN r/0\r#", "x\ncycle class:*", "x\x85cycle class:*", "x\x0bcycle class:*\x0c", "x\x1ccycle class:*\x1d#\x1e", "x\u2028cycle class:*\u2029",
           "\x1b[31m", "\u202e", "\x00", "x y: z", "a at b", "a < b", "x:3: y", " ", "", "\\n")

    def written(self, odd):
        """A list of what has such a text wherever one may be, and where its locks are made."""
        places = {"a@" + odd: (odd, [Frame(odd, "/src/%s.c" % odd, 3, odd), Frame("", "", 0, odd)]), "b": ("static", Frame(odd, "", 0, odd + "+10"))}
        text = list_of(findings(TWO[:1]), "", Made_up(places), (), [Breach("hold", ("a/0",), "", (Event("breaches", 0),))])
        return text, places

    def test_no_line_is_another_ones(self):
        for odd in self.ODD:
            text, _ = self.written(odd)
            self.assertEqual([line for line in text.split("\n")[1:-1] if not line.startswith("#")],
                             LINES.split("\n")[:-1] + ["hold class:a function:flush_all"], repr(text))
            self.assertEqual(len(text.splitlines()), text.count("\n"))
            self.assertEqual(visible(text), text.replace("\n", "\\n"))
            self.assertEqual([entry.text for entry in entries_of(text, "list")], LINES.split("\n")[:-1] + ["hold class:a function:flush_all"])

    def test_what_is_written_is_found_again(self):
        for odd in self.ODD:
            text, places = self.written(odd)
            result = sorted_by(text, places, TWO[:1])
            self.assertEqual((result.new, result.stale), ([], []), text)
            self.assertEqual(list_of(findings(TWO[:1]), text, Made_up(places)).split("\nhold")[0] + "\n", text[:text.index("hold")])

    def test_another_kind_is_another_place(self):
        text, places = self.written("x\r")
        result = sorted_by(text, dict(places, b=at("other.c")), TWO[:1])
        self.assertEqual((len(result.new), len(result.stale)), (1, 2))

    def test_a_pattern_has_no_function_of_several_lines(self):
        text = pattern_text("hold", ["a"], "f\rcycle class:*\x1b\u202e")
        self.assertEqual(text, "hold class:a function:f?cycle?class:[*]??")
        self.assertTrue(entries_of(text + "\n", "list")[0].hides("hold", [("a",)], [("f\rcycle class:*\x1b\u202e", "x.c")]))

    def test_a_line_ends_with_a_line_feed_alone(self):
        for end in ("\r", "\x0b", "\x0c", "\x1c", "\x1d", "\x1e", "\x85", "\u2028", "\u2029"):
            self.assertEqual([entry.line for entry in entries_of("# one%scycle class:*\ncircle a/0 EN b/0\r\n" % end, "list")], ["circle a/0 EN b/0"])
            self.assertRaises(Refusal, entries_of, "circle a/0 EN b/0%scircle b/0 EN a/0\n" % end, "list")
        self.assertEqual(lines_of("a\r\nb\x85\r\r\n\nc"), ["a", "b\x85\r", "", "c"])
        self.assertEqual((lines_of(""), lines_of("\n")), ([], [""]))


if __name__ == "__main__":
    unittest.main()
