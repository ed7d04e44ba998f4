"""The end of `lockdep run`, when the command has ended: RECORD --end FOLDER STATUS [left]. The recorder makes the traces, and then
they are reported. What was asked for stands in a file of the folder.

The status is the command's. It is that of --error-exitcode if a finding that isn't known was found, or if a thread waited for a lock
when its process ended, and else 2 if the recording can't be judged: nothing of the program was seen, or the traces were refused, or
something was left out, whether anything was found in the rest or not."""
from __future__ import annotations

import errno
import os
import shutil
import signal

from ..base.files import text_in
from ..base.files import complain
from ..base.home import HOME
from ..base.room import Room, RoomMissing
from ..base.saying import Refusal
from ..base.words import bytes_of
from ..program import checker
from ..record import run_settings
from ..record.run_settings import RunSettings
from ..record.summary import Summary
from ..record.trace_names import traces_in
from ..say.recorded import end_quietly, own_summary_quietly, pack, summary_quietly
from ..say.report import NOT_JUDGED, Recording, Report, ReportOptions, report, say

STAGE = "/.lockdep-recorder/record"  # where tool/run made a copy of the script just for one recording
NEEDED = 65536  # bytes that have to be writable
UNJUDGED = "this run isn't judged"
PREFIX = "record: "
WITH_OWN_TRACES = ("python", "java")  # recorders that make their traces themselves
TWO_PROCESSES = "if two processes wrote one trace, as after a fork: a child begins tasks of its own, in files of its own, before it takes a lock"


def report_options(settings: RunSettings) -> ReportOptions:
    known, exitcode = settings.value("known"), settings.value("error-exitcode")
    text = settings.value("known-text") or (text_in(known) if known else "")
    return ReportOptions(known, text, settings.value("write-known"), settings.has("quiet"), int(exitcode) if exitcode else None,
                         settings.has("confirmed-only"), settings.has("strict-known"), settings.value("html"), settings.value("sarif"),
                         settings.value("junit"), settings.value("json"), settings.has("no-library-list"), settings.has("verbose"), settings.value("color"))


def command_end(status: int) -> str:
    """How the command ended. Above 128 a signal has ended it, or what it ran itself."""
    try:
        return "the command ended with status %d, as by %s" % (status, signal.Signals(status - 128).name)
    except ValueError:
        return "the command ended with status %d" % status


def lack_of_space(folder: str, room: str) -> tuple[str, str] | None:
    """Why not as much can be written as is needed, and when it can be; None if it can. A full disk lets files be made, and nothing
    be put into them."""
    name = os.path.join(room, "space")
    try:
        with open(name, "wb") as file:
            file.write(bytes(NEEDED))
        os.unlink(name)
    except OSError as error:
        if error.errno == errno.EFBIG:
            return "the limit of a file's size, `ulimit -f`, is too low for %s" % folder, "with a higher one"
        return "no space left in %s" % folder, "when there is some"
    return None


def without_list(lines: list[str], head: str) -> list[str]:
    """The lines without this one and those of its list, which are indented."""
    if head not in lines:
        return lines
    at = lines.index(head)
    end = next((place for place in range(at + 1, len(lines)) if not lines[place].startswith(PREFIX + "  ")), len(lines))
    return lines[:at] + lines[end:]


class Ending:
    """What is done when the command has ended."""

    def __init__(self, settings: RunSettings, folder: str, status: int, left: list[str], room: str) -> None:
        self.settings, self.folder, self.status, self.left, self.room = settings, folder, status, left, room
        self.recorder = settings.value("recorder")
        self.messages: list[str] = []
        self.is_unmade = False  # whether there is a recording without traces

    def say_messages(self, who_waited: bool = True) -> None:
        """What the recorder said, once, in the words of this tool; perhaps without who waited at the end, of which a finding says more."""
        from ..say.seen import HEADS
        for line in self.messages if who_waited else without_list(self.messages, PREFIX + HEADS["waiting"]):
            line = "lockdep: " + line[len(PREFIX):] if line.startswith(PREFIX) else line
            complain(bytes_of(line.replace("`record --", "`lockdep record --") + "\n"))
        self.messages = []

    def give_up(self, why: str) -> Refusal:
        """Says what was recorded, and why it isn't judged."""
        lack = lack_of_space(self.folder, self.room)
        if lack:  # (the recorder may have said that too)
            self.messages = [line for line in self.messages if line != PREFIX + lack[0]]
        self.say_messages()
        if lack:
            more = "; %s, `lockdep record --finish` of that folder makes the traces" % lack[1] if self.is_unmade else ""
            say(lack[0] + more)
        return Refusal(why + (" (%s)" % command_end(self.status) if self.status else ""))

    def make_traces(self) -> None:
        """Makes the traces, and ends if nothing of the program is in them."""
        if self.recorder in WITH_OWN_TRACES:
            self.look_at_traces()
            return
        ended = end_quietly(HOME, self.folder, self.status, self.left == ["left"], self.settings.accepted)
        self.messages = ended.messages
        if ended.status:
            self.is_unmade = ended.summary is None and os.path.isfile(os.path.join(self.folder, "raw", "settings"))
            raise self.give_up(UNJUDGED)

    def look_at_traces(self) -> None:
        """Says what a recorder that makes its traces itself recorded, and ends if nothing of the program is in them."""
        done = own_summary_quietly(HOME, self.folder)
        self.messages = done.messages
        # (of what the standard library does with its own locks, findings are shown)
        of_library = done.summary is not None and done.summary.find("library-only") is not None
        if done.status > 1 and not of_library:
            raise self.give_up(UNJUDGED)

    def recording(self) -> Recording:
        """What was recorded, and what was left out."""
        done = summary_quietly(HOME, self.folder, self.settings.accepted)
        if lack_of_space(self.folder, self.room):
            raise self.give_up(UNJUDGED)
        summary = done.summary or Summary()
        lost = ", ".join(summary.left_out()) or "see %s" % os.path.join(self.folder, "SUMMARY") if done.status else ""
        return Recording(self.folder, summary, lost, self.status, command_end(self.status), self.say_messages)

    def refuse_traces(self, made: Report) -> Refusal:
        """Says why the traces were refused, and what to do."""
        from . import refusal
        self.say_messages()
        said = made.asked.answer.said
        complain(said)
        words = ["check", "--many"] + traces_in(self.folder)
        complain(refusal.said(os.environ["LOCKDEP"], said.rstrip(b"\n"), [bytes_of(word) for word in words]))
        if self.recorder == "embed":
            say(TWO_PROCESSES)
        return self.give_up("the traces of this run were refused")

    def run(self) -> int:
        self.make_traces()
        recording = self.recording()
        try:
            made = report(recording, report_options(self.settings))
        except Refusal as refusal:
            raise self.give_up(refusal.line) if refusal.line else refusal
        if made.asked.is_refused:
            raise self.refuse_traces(made)
        return made.status

    def pack(self) -> None:
        """Packs the recording itself when it has been asked about, unless something is left that writes into it, or no traces were made of it."""
        if self.recorder not in WITH_OWN_TRACES and self.left != ["left"] and not self.is_unmade:
            pack(self.folder)


def end_in(room: str, words: list[str]) -> int:
    _, folder, status, *left = words
    settings = run_settings.read(folder)
    if settings is None:
        say("the recording is gone: %s was removed while the command ran" % run_settings.path_in(folder))
        raise Refusal("%s (%s)" % (UNJUDGED, command_end(int(status))))
    os.environ["LOCKDEP"] = settings.value("program")
    checker.known_version = settings.value("version")
    os.environ["TMPDIR"] = room  # temporary files of the parts are kept in the folder too
    ending = Ending(settings, folder, int(status), left, room)
    try:
        return ending.run()
    finally:
        ending.pack()


def main(words: list[str]) -> int:
    """Takes the script's own path, and the words after it."""
    script, folder = words[0], words[2]
    try:
        with Room(folder) as room:
            return end_in(room, words[1:])
    except RoomMissing:
        say("nothing can be written in %s any more, so %s" % (folder, UNJUDGED))
        return NOT_JUDGED
    finally:
        run_settings.drop(folder)
        if script.endswith(STAGE):
            shutil.rmtree(os.path.dirname(script), ignore_errors=True)
