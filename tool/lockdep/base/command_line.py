"""A command line that was taken apart, by the table of options."""
from __future__ import annotations

import os


ALL_HELP = "--help=all"


class Help(Exception):
    """The help of a command was asked for: what most people need, or all of it."""

    def __init__(self, word: str) -> None:
        super().__init__(word)
        self.is_all = word == ALL_HELP


def help_file(home: str, command: str, is_all: bool) -> str:
    """The file with the help of a command: its first screen, or all of it. Some have only one."""
    path = os.path.join(home, "tool", "help", command)
    return path + "-all" if is_all and os.path.exists(path + "-all") else path


class Words:
    """A command line: the values of its options, each as often as it is given, and the words behind them."""

    def __init__(self) -> None:
        self.values: dict[str, list[str]] = {}
        self.rest: list[str] = []

    def has(self, option: str) -> bool:
        return option in self.values

    def last(self, option: str, default: str = "") -> str:
        return self.values[option][-1] if option in self.values else default
