"""What is wrong with a command line that the program refused: facts by names, which are what the table `words` needs."""
from __future__ import annotations

import re

from ..base.command_line import help_file
from ..base.home import HOME
from ..base.nearest import nearest
from ..base.processes import output_of
from .refused_record import shown

OF_PROGRAM = ("check", "explain", "graph", "condense", "schedule", "chains")
COMMANDS = OF_PROGRAM + ("run", "provoke", "record", "where", "confirm", "diff", "view", "help")
WITH_OPTIONS = OF_PROGRAM + ("run", "view")
OPTION = re.compile(r"^ *(?:-[a-zA-Z], )?(--[a-z-]*)", re.M)
LONGEST_WORD = 60
MOST_WORKERS_DIGITS = 5  # a number with more of them is no number of workers
MOST_WORKERS = 65535


class Facts(dict):
    """What is found, by names."""

    def __init__(self, program: str) -> None:
        super().__init__(usage="lockdep COMMAND [OPTIONS] [FILE]...", help="lockdep --help")
        self.program = program

    def wrong(self, case: str, word: str) -> None:
        self.update(case=case, word=shown(word, LONGEST_WORD))

    def help_of(self, command: str) -> str:
        return output_of([self.program, command, "--help"], is_quiet=True)[1].decode("latin-1")

    def options_of(self, command: str) -> list[str]:
        """The options of a command, as its help has them."""
        if command in OF_PROGRAM:
            return OPTION.findall(self.help_of(command))
        with open(help_file(HOME, command, True), encoding="latin-1") as file:
            return OPTION.findall(file.read())

    def look_at(self, words: list[str]) -> None:
        if not all(is_utf8(word) for word in words):
            self["case"] = "text"
            return
        command = words[0] if words else ""
        if command in OF_PROGRAM:
            self.look_at_command(command, words[1:])
        elif command == "help":
            if len(words) > 1 and words[1] not in COMMANDS:
                self.look_for_command(words[1])
        elif command == "version":
            self.wrong("command", command)
            self["nearest"] = "--version"
        elif command.partition("=")[0] in ("--workers", "--many", "--json", "--locks", "--confirmed-only", "--findings"):
            self.wrong("first", command)
        elif command:
            self.look_for_command(command)

    def look_for_command(self, word: str) -> None:
        """An unknown command, or a word that should be one."""
        near = nearest(word, list(COMMANDS))
        self.wrong("command" if near else "no-command", word)
        self["nearest"] = near

    def look_at_command(self, command: str, words: list[str]) -> None:
        self["command"] = command
        help_text = self.help_of(command)
        usage = re.search("^Usage: (.*)", help_text, re.M)
        if usage:
            self.update(usage=usage.group(1), help="lockdep %s --help" % command)
        files = self.look_at_words(words, OPTION.findall(help_text))
        if command == "chains" and files > 1 and "case" not in self:
            self.update(case="one-file", count=files)

    def look_at_words(self, words: list[str], options: list[str]) -> int:
        """Goes through the words after a command up to the first wrong one. The result is how many files there are before it."""
        seen: list[str] = []
        files, left = 0, list(words)
        while left and "case" not in self:
            word = left.pop(0)
            option = word.partition("=")[0]
            if word == "--":
                return files + len(left)
            if not word.startswith("-") or word == "-":
                files += 1
            elif option not in options:
                self.look_for_option(option, options)
            elif option in seen:
                self.wrong("twice", option)
            elif option == "--workers":
                self.look_at_value(word[len("--workers="):] if "=" in word else left.pop(0) if left else None)
            seen.append(option)
        return files

    def look_at_value(self, value: str | None) -> None:
        """The value of --workers."""
        if value is None:
            self["case"] = "no-value"
        elif not re.fullmatch("[0-9]{1,%d}" % MOST_WORKERS_DIGITS, value) or int(value) > MOST_WORKERS:
            self.wrong("value", value)

    def look_for_option(self, option: str, options: list[str]) -> None:
        """An option that the command doesn't have."""
        near = nearest(option, options)
        others = ["`%s`" % command for command in WITH_OPTIONS if option in self.options_of(command)] if not near else []
        self.wrong("option" if near else "other-option" if others else "no-option", option)
        self.update(nearest=near, others=", ".join(others))


def is_utf8(word: str) -> bool:
    """Whether a word, with a character for each byte, is UTF-8."""
    try:
        word.encode("latin-1").decode("utf-8")
    except UnicodeDecodeError:
        return False
    return True
