"""What `lockdep run` was asked for: a file in the folder of the recording, from the recording's beginning until its command has ended.

What begins a run hands the text over in a variable, since the folder may be made by a recorder's own script. Whoever makes the folder takes the text out of
the environment and puts it into the file, so the recorded command has no such variable, and a run inside it has a file of its own. In the environment there
stays LOCKDEP_RUN_HOME alone: it is where the last part of a run is found before there is a file to read, and by it what is written in C or shell knows in
whose name to speak."""
from __future__ import annotations

import os

from ..base.saying import Refusal
from ..base.words import bytes_of, text_of

NAME = ".lockdep-run"
VARIABLE = "LOCKDEP_RUN_SETTINGS"
MOST_BYTES = 131072 - len(VARIABLE) - 2  # of a variable's value, by the kernel's MAX_ARG_STRLEN


class RunSettings:
    """The last value of each option that was given, by the option's name without its dashes, and what the beginning of a run knows besides: the name of the
    recorder, the proved program and its version, and the text of a list of known findings that can be read only once."""

    def __init__(self, values: dict[str, str] | None = None, accepted: list[str] | None = None) -> None:
        self.values, self.accepted = values or {}, accepted or []

    def has(self, name: str) -> bool:
        return bool(self.values.get(name))

    def value(self, name: str) -> str:
        return self.values.get(name, "")

    def raw(self) -> bytes:
        """A line for each value. Neither words nor texts have a zero byte."""
        lines = [name + " " + escaped(value) for name, value in self.values.items() if value]
        lines += ["accept-left-out " + escaped(code) for code in self.accepted]
        return bytes_of("".join(line + "\n" for line in lines))


def escaped(value: str) -> str:
    return value.replace("\\", "\\\\").replace("\n", "\\n")


def plain(value: str) -> str:
    return value.replace("\\\\", "\0").replace("\\n", "\n").replace("\0", "\\")


def settings_of(raw: bytes) -> RunSettings:
    """The settings that a file has."""
    found = RunSettings()
    for line in text_of(raw).split("\n")[:-1]:
        name, _, value = line.partition(" ")
        if name == "accept-left-out":
            found.accepted.append(plain(value))
        else:
            found.values[name] = plain(value)
    return found


def hand_over(settings: RunSettings) -> None:
    raw = settings.raw()
    if len(raw) > MOST_BYTES and settings.value("known-text"):
        raise Refusal("%s, the list of known findings, is too long for one that isn't a plain file: write it to one" % settings.value("known"))
    if len(raw) > MOST_BYTES:
        raise Refusal("the options of this run have more than %d bytes" % MOST_BYTES)
    os.environb[VARIABLE.encode()] = raw


def take_over() -> bytes:
    """What was handed over, which is taken out of the environment; nothing if no run begins the recording."""
    return os.environb.pop(VARIABLE.encode(), b"")


def path_in(folder: str) -> str:
    return os.path.join(folder, NAME)


def read(folder: str) -> RunSettings | None:
    """The settings of a recording whose command has ended; none if the command has removed them."""
    try:
        with open(path_in(folder), "rb") as file:
            return settings_of(file.read())
    except OSError:
        return None


def drop(folder: str) -> None:
    try:
        os.unlink(path_in(folder))
    except OSError:  # (it may not be there, nor the folder)
        pass
