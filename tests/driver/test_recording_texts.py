"""The texts that are made from the table of options are those that are committed; and the table has the options that the other commands have."""
import os
import re
import subprocess
import sys
import unittest

from lockdep.cli.options import COMMANDS
from lockdep.program.verdicts import COUNTED, Verdict

TOP = os.path.join(os.path.dirname(os.path.realpath(__file__)), "..", "..")
sys.path.append(os.path.join(TOP, "tool", "texts"))
import texts  # noqa: E402
from other_commands import ALL  # noqa: E402


def help_of(command, option="--help"):
    done = subprocess.run([os.path.join(TOP, "lockdep"), command, option], stdout=subprocess.PIPE, check=True)
    return done.stdout.decode()


def whole_help_of(command):
    return help_of(command, "--help=all" if command in COMMANDS else "--help")


def options_in(text):
    heads = re.findall(r"^ {2,6}(--?[a-z][a-z0-9-]*(?:, --?[a-z][a-z0-9-]*)*)", text, re.M)
    return {name for head in heads for name in head.split(", ")} - {"-h", "--help"}


class Texts(unittest.TestCase):
    def test_what_is_committed_is_what_is_made(self):
        done = subprocess.run([sys.executable, os.path.join(TOP, "tool", "texts", "write"), "--check"], stdout=subprocess.PIPE, check=False)
        self.assertEqual((done.returncode, done.stdout.decode()), (0, ""))

    def test_no_line_is_longer_than_a_terminal_of_120_columns(self):
        for command in COMMANDS:
            self.assertEqual([line for line in whole_help_of(command).split("\n") if len(line) > 123], [])

    def test_what_most_people_need_is_on_one_screen(self):
        for name, command in COMMANDS.items():
            lines = help_of(name).rstrip("\n").split("\n")
            self.assertLessEqual(len(lines), 40, name)
            self.assertEqual([line for line in lines if len(line) > 100], [], name)
            shown = {spelling for option in command.options.values() if option.first for spelling in option.shown}
            self.assertEqual(options_in("\n".join(lines)), shown, name)
            self.assertTrue(0 < len(shown) < len(command.shown), name)
            self.assertEqual(lines[-1], "`lockdep %s --help=all` and `man lockdep-%s` have all options, and the rest." % (name, name))
            self.assertEqual(help_of("help", name).rstrip("\n").split("\n"), lines)

    def test_the_first_screen_of_run_has_each_verdict_and_marks_those_that_count(self):
        marks = dict(re.findall(r"^  ([a-z ]+?) ?([*]?) {2,}\S", help_of("run").partition("Verdicts")[2], re.M))
        self.assertEqual(marks, {verdict.words: "*" if verdict in COUNTED else "" for verdict in Verdict})

    def test_a_command_with_one_form_of_help_has_that_for_all_of_it(self):
        for command in ("confirm", "view", "where", "report", "diff"):
            self.assertEqual(help_of(command, "--help=all"), help_of(command), command)

    def test_the_options_of_the_other_commands(self):
        for command in ALL:
            self.assertEqual(sorted(options_in(whole_help_of(command.name))), sorted(command.shown), command.name)

    def test_what_completions_say_needs_no_quotes_of_a_shell(self):
        said = [command.brief for command in ALL] + [option.brief for command in ALL for option in command.options.values()]
        self.assertEqual([words for words in said if set(words) & set("'\"\\`$[]:!")], [])

    def test_a_sentence_as_mdoc(self):
        self.assertEqual(texts.mdoc("Write it for --known, as `a b`. .x is `--y z`; or --cfg x."),
                         ["Write it for", ".Fl -known ,", "as", ".Ql a b .", "\\&.x is", ".Ql \\-\\-y z ;", "or --cfg x."])


if __name__ == "__main__":
    unittest.main()
