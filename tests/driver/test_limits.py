"""The limits that several languages know: each number is that of recorders/limits, in code and in texts."""
from __future__ import annotations

import importlib.machinery
import importlib.util
import os
import re
import unittest

import lockdep

TOP = os.path.realpath(os.path.join(os.path.dirname(lockdep.__file__), "..", ".."))
CODE = (".c", ".h", ".py", ".java", ".rs", ".go", ".rt")
LEFT_OUT = {"out", "target", "tests", "bench", "__pycache__", "examples", "must-fail"}  # folders
# Constants that have such a name and mean something else.
OTHERS = {("recorders/rust/src/recording/process.rs", "ALIKE"),  # the place of a count
          ("crates/ld_run/src/known_steps.rt", "MOST_LOCKS"),  # of a state that is kept
          ("recorders/pthread/finish/finish.h", "LONGEST_NAME"),  # before it is shortened
          ("recorders/pthread/names/allocations.c", "MOST_CALLERS"),  # of what allocates memory
          ("recorders/pthread/preload/annotations.c", "MOST_ORDERS"),  # that are annotated
          ("tool/lockdep/binaries/cplusplus.py", "MOST_OF_NAME")}  # in C++
# How texts speak of limits. Each way stands in some text, and the numbers are those of one of these limits.
SAYINGS = (
    (("held",), "with {} locks held"), (("held",), "at most {} locks held"), (("held",), "holds at most {} locks"), (("held",), "if {} locks are held"),
    (("held",), "more than {} held locks"), (("held",), "{} locks are held already"),
    (("keys",), "room for {} names"), (("keys",), "room for {} keys"), (("keys",), "checker takes {} keys"), (("keys",), "`--many` has room for {}"),
    (("keys",), "classes beyond {}:"), (("keys",), "up to {} lock keys"), (("keys",), "--many, which takes {}"),
    (("graph-keys",), "more than {} (?:of them|keys|types|single locks|lock classes(?: that)?) lead to one another"),
    (("graph-keys",), "at most {} (?:keys )?may lead to one another"),
    (("events",), "(?:more than|at most|may have|after|first) {} events"), (("events",), "{} records of a task"),
    (("traces",), "(?:takes|at most|beyond) {} traces"), (("traces",), "more than {} traces"),
    (("name", "annotated-name"), "1 to {} bytes"), (("name",), "beyond {} bytes"), (("class-name",), "name of more than {} bytes"),
    (("name-before-rest",), "before its # may have {} bytes"),
    (("type-before-place",), "type has at most {} bytes"), (("apart",), "all locks of its class but the first {}"), (("apart",), "only the first {} nested locks"),
    (("apart",), "classes with more than {} locks"), (("apart-alone",), "for the first {} locks of"), (("handler-sets",), "beyond the first {}:"),
)


def program():
    """recorders/put-limits, as a module."""
    path = os.path.join(TOP, "recorders", "put-limits")
    loader = importlib.machinery.SourceFileLoader("put_limits", path)
    module = importlib.util.module_from_spec(importlib.util.spec_from_loader("put_limits", loader))
    loader.exec_module(module)
    return module


def files_below(*folders: str) -> list[str]:
    found = []
    for folder in folders:
        for above, inner, names in os.walk(os.path.join(TOP, folder)):
            inner[:] = [name for name in inner if name not in LEFT_OUT]
            found += [os.path.relpath(os.path.join(above, name), TOP) for name in names]
    return sorted(found)


def texts() -> dict[str, str]:
    """What people read: documents, helps, and the modules whose sentences name limits."""
    paths = ["README.md", "tool/words", "recorders/embed/lockdep_record.h", "recorders/linux/convert", "crates/ld_words/src/words.rt"]
    paths += [path for path in files_below("docs", "recorders") if path.endswith(".md")] + files_below("tool/help")
    paths += [path for path in files_below("tool/lockdep", "tool/texts") if path.endswith(".py")]
    return {path: program().text_of_file(path) for path in paths}


class Limits(unittest.TestCase):
    def setUp(self) -> None:
        self.program = program()
        self.limits = self.program.limits()

    def test_every_place_has_the_number_of_the_list(self) -> None:
        self.assertEqual(self.program.differing(), [])

    def test_every_limit_has_places_and_a_reason(self) -> None:
        self.assertEqual(sorted(self.limits), sorted(self.program.PLACES))
        with open(os.path.join(TOP, "recorders", "limits"), encoding="utf-8") as file:
            self.assertEqual([line for line in file if line.strip() and not line.startswith("#") and len(line.split()) < 3], [])

    def test_no_constant_of_such_a_name_elsewhere(self) -> None:
        all_places = [place for places in self.program.PLACES.values() for place in places]
        names = {name for _, words in all_places for name in re.findall(r"[A-Z][A-Z_]+[A-Z]|ldMost\w+", words.partition("{}")[0])}
        self.assertIn("MOST_HELD", names)
        defined = re.compile(r"^\s*(?:#define |(?:pub |private |static |final |const |int |long )+|(?=\S))(%s)\b(?:: \w+)?(?: = | +)[0-9][0-9_]*[uUlL]*\b(?! [<>])"
                             % "|".join(sorted(names)), re.MULTILINE)
        known = {(path, name) for path, words in all_places for name in names if re.search(r"\b%s\b" % name, words)}
        found = {(path, name) for path in files_below("recorders", "tool/lockdep", "crates") if path.endswith(CODE)
                 for name in defined.findall(self.program.text_of_file(path))}
        self.assertIn(("recorders/embed/lockdep_record.h", "LDR_HELD"), found)
        self.assertEqual(sorted(found - known - OTHERS), [])

    def test_texts_say_the_numbers_of_the_list(self) -> None:
        all_texts, wrong = texts(), []
        for names, saying in SAYINGS:
            pattern = re.compile(r"\s+".join(saying.split(" ")).replace("{}", self.program.NUMBER), re.IGNORECASE)
            found = [(path, digits) for path, text in all_texts.items() for digits in pattern.findall(text)]
            wrong += ["%s: `%s` with %s" % (path, saying, digits) for path, digits in found
                      if self.program.number_of(digits) not in [self.limits[name] for name in names]]
            wrong += [] if found else ["no text says `%s`" % saying]
        self.assertEqual(wrong, [])


class Putting(unittest.TestCase):
    def setUp(self) -> None:
        self.program = program()

    def test_a_number_is_written_as_the_one_before(self) -> None:
        for text, words, wanted in (("#define MAX_HELD 48   /* of a task */", "#define MAX_HELD {}", "#define MAX_HELD 1234   /* of a task */"),
                                    ("a  =  8192 // 2", "a = {}", "a  =  1234 // 2"), ("const A: u64 = 1_000;", "const A: u64 = {}", "const A: u64 = 1_234;"),
                                    ("at most 8,192", "most {}", "at most 1,234")):
            found = self.program.pattern_of(words).search(text)
            self.assertEqual(self.program.put(text, found, 1234), wanted)

    def test_what_differs_is_said(self) -> None:
        self.program.limits = lambda: dict.fromkeys(self.program.PLACES, 7)
        said = self.program.differing()
        self.assertEqual(len(said), sum(map(len, self.program.PLACES.values())))
        self.assertIn("recorders/embed/lockdep_record.h: `#define LDR_HELD {}u` has 48, and recorders/limits has 7 for held", said)

    def test_a_place_that_is_gone(self) -> None:
        self.assertIn("README.md: no `#define NOTHING {}`", self.program.look("held", 48, "README.md", "#define NOTHING {}", False))

    def test_what_is_proved_is_never_changed(self) -> None:
        path, words = self.program.PLACES["graph-keys"][0]
        before = self.program.text_of_file(path)
        self.assertIn("has 256, and recorders/limits has 7", self.program.look("graph-keys", 7, path, words, True))
        self.assertEqual(self.program.text_of_file(path), before)


if __name__ == "__main__":
    unittest.main()
