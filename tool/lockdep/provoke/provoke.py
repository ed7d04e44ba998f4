"""`lockdep provoke`: makes what was found happen, by runs of the program in which threads are held back where a cycle can close."""
from __future__ import annotations

import os
import signal

from ..ask.asking import ask_about
from ..base.command_line import Words
from ..base.processes import find_command
from ..base.saying import Refusal
from ..base.words import class_of_lock, name_in, type_of_class
from ..places.places import classes_in
from ..program.findings import Finding
from ..program.verdicts import Level, Reason
from ..record.folder import DEFAULT_FOLDER, fault
from ..record.recorders import RECORDERS, Recorder, recorder_for
from ..record.summary import recorder_of
from ..say.recorded import summary_quietly
from .ending import ENDING
from .holders import HOLDERS, Holder
from .plan import why_not_by_signal
from .recorded import Recorded, recorded
from .table import Modules
from .tries import NOT_HAPPENED, NOTHING_TRIED, Tries, say

LONGER = 10  # how many times as long as the recorded run another one may take
LEAST_LIMIT = 30.0  # seconds
OF_TYPES = "no class of locks takes part both ways"
TIMED = "its cycle needs a wait that gives up"
INTERRUPTED = (-signal.SIGINT, 128 + signal.SIGINT)  # statuses of a run that Ctrl-C has ended


def provoke(home: str, line: Words) -> int:
    """Records the command, or takes a recording of it, and tries each cycle that was found."""
    recorder = look_at_command(line)
    holder = holder_of(recorder, home)
    folder, run = line.last("--from"), Recorded()
    if not folder:
        folder = line.last("-o", DEFAULT_FOLDER)
        run = recorded(home, folder, recorder, holder, line)
    asked = ask_about(folder)
    if asked.is_refused:
        raise Refusal("the recording in %s can't be judged; `lockdep confirm %s` says why" % (folder, folder))
    found = [finding for finding in asked.findings() if not finding.is_note]
    if not found:
        if run.status in INTERRUPTED:
            say("the recorded run was interrupted, and nothing was found in it until then")
            return NOTHING_TRIED
        is_lost = asked.left_out or summary_quietly(home, folder).status  # (what was left out may have a finding)
        say("nothing was found in what was recorded, and what was left out isn't judged" if is_lost else "nothing was found, so there is nothing to provoke")
        return NOTHING_TRIED if is_lost else NOT_HAPPENED
    findings = chosen(found, line, set() if holder.numbers is Modules else addressed(folder))
    if not findings:
        return NOTHING_TRIED
    heed_signals()
    try:
        return Tries(folder, line, holder, run, max(LEAST_LIMIT, LONGER * run.seconds)).all(findings, asked.traces)
    except OSError as error:
        raise Refusal(fault(error, folder))
    except Ended as ended:  # (the run has been ended by now)
        signal.signal(ended.number, signal.SIG_DFL)
        os.kill(os.getpid(), ended.number)
        raise


class Ended(BaseException):
    """A signal came that ends this command."""

    def __init__(self, number: int) -> None:
        super().__init__(number)
        self.number = number


def end_by(number: int, frame: object) -> None:
    """Another signal mustn't come between what is ended now."""
    for each in ENDING:
        signal.signal(each, signal.SIG_IGN)
    raise Ended(number)


def heed_signals() -> None:
    """Has the run be ended before a signal ends this command, unless that was started to ignore it."""
    for number in ENDING:
        if signal.getsignal(number) is not signal.SIG_IGN:
            signal.signal(number, end_by)


def look_at_command(line: Words) -> Recorder:
    """The recorder of the command, which may become the words by which that one runs it."""
    if not line.rest:
        raise Refusal("which command? lockdep provoke -- COMMAND")
    recorder = chosen_recorder(line)
    line.rest = recorder.command(line.rest) if line.has("--recorder") else line.rest
    program, status = find_command(line.rest[0])
    if program is None:
        raise Refusal("%s: %s" % (line.rest[0], "there is no such command" if status == 127 else "it can't be run"), status)
    given = line.last("--stdin")
    if given and not os.access(given, os.R_OK):
        raise Refusal("%s can't be read" % given)
    return recorder


def chosen_recorder(line: Words) -> Recorder:
    """The recorder that made the recording, or that was named, or that the command is for."""
    folder, named = line.last("--from"), line.last("--recorder")
    if folder and line.has("-o"):
        raise Refusal("--from and -o both name a recording")
    if folder and not os.path.exists(os.path.join(folder, "SUMMARY")):
        raise Refusal("%s has no recording" % folder)
    made = recorder_of(folder) if folder else ""
    if made and named not in ("", made):
        raise Refusal("the recording in %s was made by the recorder `%s`, and --recorder names another one" % (folder, made))
    return RECORDERS.get(made or named) or recorder_for(line.rest[0])


def holder_of(recorder: Recorder, home: str) -> Holder:
    if recorder.holder is None:
        raise Refusal("`provoke` holds back threads of pthreads, Python and Java, and this is a command for the recorder of " + recorder.language)
    return HOLDERS[recorder.holder](home)


def addressed(folder: str) -> set[str]:
    """The classes of a recording whose places are addresses, and their types: in one of Python or Java those of C libraries."""
    names = {made.name for made in classes_in(folder) or [] if made.place.offset is not None}
    return names | {type_of_class(name) for name in names}


def chosen(findings: list[Finding], line: Words, unheld: set[str]) -> list[tuple[int, Finding]]:
    """The findings that are tried, with their numbers, which stay as they are when something has happened. Those that can't be are named, such as those of locks that aren't watched in a run."""
    wanted = [int(number) for number in line.values.get("--finding", [])]
    found = [(finding.number, finding) for finding in sorted(findings, key=lambda finding: finding.number) if not wanted or finding.number in wanted]
    missing = [number for number in wanted if number not in dict(found)]
    if missing:
        raise Refusal("there is no finding %d: there are %d" % (missing[0], len(findings)))
    reasons = {number: why_untried(finding) or why_unheld(finding, unheld) for number, finding in found}
    for number, reason in reasons.items():
        if reason:
            say("finding %d isn't tried: %s" % (number, reason))
    return [(number, finding) for number, finding in found if not reasons[number]]


def why_unheld(finding: Finding, unheld: set[str]) -> str:
    """Whether a finding is of locks by which this recorder holds nobody back."""
    names = {class_of_lock(name_in(key)) for key in finding.keys}
    return "its locks are those of a C library, for which there is `provoke --recorder pthread`" if names & unheld else ""


def why_untried(finding: Finding) -> str:
    """Why a finding isn't tried; empty if it is."""
    if finding.type != "circle" and not finding.handler:
        return "only cycles of locks and findings of signal handlers are tried"
    if why_not_by_signal(finding):
        return why_not_by_signal(finding)
    if finding.level is Level.TYPES:
        return OF_TYPES
    return TIMED if finding.judged and finding.judged.reason is Reason.TIMED else ""
