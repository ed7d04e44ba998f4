"""The command line, and how a command is recognised."""
import os
import shutil
import stat
import sys
import tempfile
import time
import unittest
from unittest import mock

from lockdep import parts
from lockdep.base.command_line import Help
from lockdep.base.nearest import nearest
from lockdep.base.saying import Refusal
from lockdep.binaries import loading
from lockdep.cli import refusal
from lockdep.cli.options import COMMANDS, CONFIRM, parse
from lockdep.record import recorders


class CommandLines(unittest.TestCase):
    def test_options_end_at_the_first_word(self):
        line = parse(COMMANDS["run"], ["-o", "x", "--frames=5", "--quiet", "./a", "--html", "y"])
        self.assertEqual((line.values, line.rest), ({"-o": ["x"], "--frames": ["5"], "--quiet": ["yes"]}, ["./a", "--html", "y"]))

    def test_options_end_behind_two_hyphens(self):
        self.assertEqual(parse(COMMANDS["record"], ["--no-wait", "--", "-o"]).rest, ["-o"])

    def test_refusals(self):
        for words in (["--nosuch"], ["-o"], ["-o", "--"], ["--frames", "17"], ["--frames=01"], ["--recorder", "perl"], ["--quiet=yes"], ["-"],
                      ["--signals", "some"], ["--signals="], ["--history", "0"], ["--history", "1025"], ["--history", "064"], ["--history", "64MB"], ["--history=On"], ["--known", "-"], ["--write-known", "-"], ["--accept-left-out", "threads"], ["--error-exitcode", "256"], ["--known="]):
            self.assertRaises(Refusal, parse, COMMANDS["run"], words)

    def test_other_spellings_of_an_option(self):
        for command, words in (("run", ["--output", "x", "-q", "-v", "--suppressions=y"]), ("gather", ["--output=x", "--suppressions", "y", "z"]),
                               ("record", ["--output", "x"]), ("provoke", ["--output", "x"])):
            values = parse(COMMANDS[command], words).values
            self.assertEqual(values.pop("-o"), ["x"], command)
            self.assertEqual(values, {"run": {"--quiet": ["yes"], "--verbose": ["yes"], "--known": ["y"]}, "gather": {"--known": ["y"]}}.get(command, {}))
        self.assertTrue(parse(CONFIRM, ["-v", "x"]).has("--verbose"))
        self.assertEqual(parse(COMMANDS["run"], ["-o", "x", "--output", "y", "./a"]).last("-o"), "y")

    def test_only_processor_time_ends_the_look_at_a_trace(self):
        def waits(*_):
            time.sleep(1.5)
            return {"fact": 1}

        def computes(*_):
            while True:
                pass

        for look, wanted in ((waits, {"fact": 1}), (computes, {})):
            with mock.patch.multiple(refusal, PATIENCE=1, content=lambda *_: (b"", True), facts_of=look):
                self.assertEqual(refusal.look_at_trace("trace", [], "", 1), wanted)

    def test_a_refusal_has_the_spelling_that_was_typed(self):
        for words, refused in ((["--output"], "--output takes a folder; "), (["--suppressions", "-"], "--suppressions takes a file, and not `-`; "),
                               (["--suppresions", "x"], "`run` has no option `--suppresions`; did you mean `--suppressions`? "),
                               (["--out=x"], "`run` has no option `--out=x`; did you mean `--output`? "),
                               (["--quite\n"], "`run` has no option `--quite\\n`; did you mean `--quiet`? ")):
            with self.assertRaises(Refusal) as caught:
                parse(COMMANDS["run"], words)
            self.assertTrue(str(caught.exception).startswith(refused), str(caught.exception))

    def test_an_option_that_another_command_does_not_have(self):
        for part, wrong, near in (("confirm", "--verbsoe", "--verbose"), ("view", "--sarfi", "--sarif"), ("report", "--hepl", "--help"),
                                  ("where", "--hepl", "--help"), ("diff", "--hepl", "--help"), ("schedule", "--jsno", "--json")):
            with self.assertRaises(Refusal) as caught:
                parts.main_of(part)([wrong])
            self.assertIn("`%s` has no option `%s`; did you mean `%s`? `lockdep %s --help` lists them" % (part, wrong, near, part), caught.exception.line)

    def test_an_earlier_spelling_is_taken_and_not_shown(self):
        for command in (CONFIRM, COMMANDS["gather"]):
            self.assertTrue(parse(command, ["--strict"]).has("--confirmed-only"), command.name)
            self.assertNotIn("--strict", command.shown)
        self.assertRaises(Refusal, parse, COMMANDS["run"], ["--strict", "./a"])

    def test_how_much_history_is_kept(self):
        for size in ("off", "1", "64", "1024"):
            self.assertEqual(parse(COMMANDS["record"], ["--history", size, "./a"]).last("--history"), size)

    def test_what_is_written_may_go_to_standard_output(self):
        self.assertEqual(parse(COMMANDS["run"], ["--json", "-", "./a"]).values, {"--json": ["-"]})

    def test_help(self):
        for word, is_all in (("-h", False), ("--help", False), ("--help=all", True)):
            with self.assertRaises(Help) as caught:
                parse(COMMANDS["run"], ["--quiet", word])
            self.assertEqual(caught.exception.is_all, is_all)
        self.assertRaises(Refusal, parse, COMMANDS["run"], ["--help=some"])

    def test_what_may_be_left_out_can_be_named_several_times(self):
        line = parse(COMMANDS["run"], ["--accept-left-out", "tries", "--accept-left-out=no-room"])
        self.assertEqual(line.values["--accept-left-out"], ["tries", "no-room"])


class Nearest(unittest.TestCase):
    def test_a_word_that_is_near(self):
        options = list(COMMANDS["run"].options)
        for wrong, word in (("--quite", "--quiet"), ("--frame", "--frames"), ("--know", "--known"), ("--jnuit", "--junit"), ("--htm", "--html"),
                            ("--writeknown", "--write-known"), ("--srif", "--sarif"), ("--recoder", "--recorder"), ("--reocrder", "--recorder"),
                            ("--jsno", "--json"), ("--error-exit", "--error-exitcode"), ("--confirmed", "--confirmed-only"), ("-o", "-o"), ("-x", None),
                            ("--xyz", None), ("--quietly-and-at-length-with-more-letters-than-any", None), ("--q", None), ("-", None), ("", None)):
            self.assertEqual(nearest(wrong, options), word, wrong)

    def test_the_first_of_several(self):
        for wrong, words, word in (("ab", ["ax", "ay"], "ax"), ("abcdef", ["abcdxx", "abcdex"], "abcdex"), ("gr", ["graph", "grid"], "graph"),
                                   ("Check", ["check", "chains"], "check"), ("chekc", ["chains", "check"], "check"), ("x", ["a", "b"], None),
                                   ("abc", ["acb"], "acb"), ("abcd", ["badc"], None), ("relase", ["rel", "release"], "release")):
            self.assertEqual(nearest(wrong, words), word, wrong)


class Recognising(unittest.TestCase):
    def setUp(self):
        self.room = tempfile.mkdtemp()
        self.addCleanup(shutil.rmtree, self.room)

    def program(self, name, content):
        path = os.path.join(self.room, name)
        with open(path, "wb") as file:
            file.write(content)
        os.chmod(path, 0o755)
        return path

    def test_python(self):
        for name in ("python", "python3", "/usr/bin/python3.11", "python3.9"):
            self.assertEqual(recorders.recorder_for(name).name, "python", name)
        self.assertEqual(recorders.recorder_for(self.program("script", b"#!/usr/bin/env python3\n")).name, "python")
        self.assertEqual(recorders.recorder_for(self.program("other", b"#!/bin/sh\n# python\n")).name, "pthread")
        for name in ("python2.7", "pythonic", "python3.1.1"):
            self.assertNotEqual(recorders.recorder_for(name).name, "python", name)

    def test_java(self):
        self.assertEqual(recorders.recorder_for("/opt/jdk/bin/java").name, "java")

    def test_rust(self):
        self.assertEqual(recorders.recorder_for(self.program("built", b"..lockdep_record for LOCKDEP_TRACES..")).name, "rust")

    def test_embed(self):
        both = b"\x7fELF\x02\x01" + bytes(100) + b"ldr1 lockdep,2\0LOCKDEP_TRACES\0"
        self.assertEqual(recorders.recorder_for(self.program("both", both)).name, "embed")
        self.assertEqual(recorders.recorder_for(self.program("no_folder", both.replace(b"LOCKDEP", b"OTHER"))).name, "pthread")
        self.assertEqual(recorders.recorder_for(self.program("text", both[4:])).name, "pthread")

    def test_cargo(self):
        path = os.path.join(self.room, "config.toml")
        for line, is_so in (('rustflags = ["--cfg", "lockdep"]', True), ('rustflags = "--cfg lockdep"', True), ('# "--cfg lockdep"', False),
                            ('rustflags = ["--cfg", "other"]', False)):
            with open(path, "w", encoding="utf-8") as file:
                file.write(line + "\n")
            self.assertEqual(recorders.asks_for_recorder(path), is_so, line)

    def test_a_program_that_cannot_be_read(self):
        path = self.program("unread", b"..lockdep_record for LOCKDEP_TRACES..")
        os.chmod(path, stat.S_IXUSR)
        self.assertEqual(recorders.recorder_for(path).name, "rust" if os.geteuid() == 0 else "pthread")

    def test_what_a_program_is_linked_with(self):
        with open(os.path.realpath(sys.executable), "rb") as file:
            text = file.read()
        if loading.loader(text):
            self.assertTrue(any(name.startswith("libc.so") for name in loading.needed(text)), loading.needed(text))
        self.assertEqual((loading.loader(b"#!/bin/sh\n"), loading.needed(b"#!/bin/sh\n")), (None, []))


if __name__ == "__main__":
    unittest.main()
