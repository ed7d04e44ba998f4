"""The runs by which `lockdep provoke` tries one finding after the other, and what is said of them."""
from __future__ import annotations

import os
import stat
import sys
from dataclasses import replace
from typing import FrozenSet, Tuple

from ..ask.happened import entry_of, entry_of_none, with_earlier
from ..ask.judging import ABSENT
from ..base.command_line import Words
from ..base.processes import find_command
from ..base.saying import typed, write_error
from ..base.words import counted
from ..program.findings import Finding
from ..places.sources import Sources
from ..program.verdicts import Reason, Verdict
from ..record import summary
from ..record.folder import OF_PROVOKE, SIGNALS, Folder
from ..say.sentences import Names, title
from ..record.provoked import Happened, read_provoked, write_provoked
from ..record.trace_names import traces_in
from .course import Course, course_of, made_histories
from .holders import Holder
from .plan import PlannedOrder, foreign_words, is_cycle_of, known_places, plan_of
from .recorded import Recorded
from .reasons import Tried, turning
from .runs import Outcome, Run, adopt_orphans
from .standing import DEFAULT_SURE, Standing, going_words, shell_status, status_words
from .system import text_of_file
from .table import MOST_ORDERS, Place, Table
from .ways import Way, Ways, pauses
from .words import stood

HAPPENED, NOT_HAPPENED, NOTHING_TRIED = 1, 0, 2
DEFAULT_RUNS = "10"
REPEATED = ("--recorder", "--pause", "--while", "--stdin")  # options without which a further try may be another one
FEW_RUNS = 2  # of a finding that the recording speaks against
ALSO, SEMAPHORES = "LOCKDEP_ALSO", "sem"  # what names kinds of locks that are watched, too
MOST_ENDED = 2  # runs for a finding that are ended at their limit
RELEASES = "unseen-releases"  # what a recording counts where a thread released what another one had taken
AGAINST = (Reason.ONE_LOCK, Reason.FEWER_THREADS, Reason.NO_RING)  # what the recording says against a finding

Where = FrozenSet[Tuple[Tuple[Place, ...], Tuple[Place, ...]]]  # threads, by where each waits, and where it took what it holds


def say(text: str) -> None:
    write_error("lockdep: " + text)


def has_input() -> bool:
    """Whether this command was given something to read, which the recorded run has read."""
    try:
        mode = os.fstat(0).st_mode
    except OSError:
        return False
    return stat.S_ISFIFO(mode) or stat.S_ISREG(mode)


def still_words(outcome: Outcome) -> str:
    """What stands still: the program, unless other threads can go on."""
    return "its threads stand still, and " + going_words(outcome.going) if outcome.going else "the program stands still"


def is_watched(finding: Finding) -> bool:
    """Whether the locks of a cycle are all in the order of steps, or semaphores, which are watched if they are recorded."""
    return not finding.judged or finding.judged.why != ABSENT or SEMAPHORES in os.environ.get(ALSO, "")


def is_spoken_against(finding: Finding) -> bool:
    """Whether the recording speaks against a finding: then it is tried last, in few runs."""
    return finding.verdict in (Verdict.APART, Verdict.CLASSES) or (finding.judged is not None and finding.judged.reason in AGAINST)


class Tries:
    """The runs of one command for its findings."""

    def __init__(self, recording: str, line: Words, holder: Holder, recorded: Recorded, limit: float) -> None:
        self.recording, self.line, self.holder, self.recorded, self.limit, self.command = recording, line, holder, recorded, limit, line.rest
        self.runs, self.pause, self.given = int(line.last("--runs", DEFAULT_RUNS)), line.last("--pause"), line.last("--stdin")
        self.beside, self.is_kept, self.dumps = line.last("--while"), line.has("--keep"), line.has("--core")
        self.sure = float(line.last("--sure", str(DEFAULT_SURE)))
        self.room = os.path.join(os.path.realpath(recording), OF_PROVOKE)
        known = summary.read(recording)
        self.is_handed_over = bool(known and known.number(RELEASES))
        self.traces: list[str] = []
        self.findings: dict[int, Finding] = {}
        self.plans: dict[int, list[PlannedOrder]] = {}
        self.courses: dict[int, Course] = {}
        self.happened: list[dict] = []  # also in earlier calls
        self.numbers: set[int] = set()  # of what happened in this one
        self.is_standing = self.is_left = self.is_foreign = False
        self.stood: dict[Where, int] = {}  # which finding threads were that stood at these places; 0: none

    def all(self, findings: list[tuple[int, Finding]], traces: list[str]) -> int:
        """Tries one finding after the other: at last those that the recording speaks against."""
        self.begin(findings, traces)
        if not self.plans:
            return NOTHING_TRIED
        left = sorted(self.plans, key=lambda number: is_spoken_against(self.findings[number]))
        for place, number in enumerate(left):
            if number not in self.numbers and not self.is_left:
                if len(left) > 1:
                    say("finding %d is tried, and then %d more" % (number, len(left) - place - 1))
                self.one(number)
        return HAPPENED if self.is_standing else NOT_HAPPENED

    def begin(self, findings: list[tuple[int, Finding]], traces: list[str]) -> None:
        """Makes the plans, and room for what the runs leave."""
        self.traces = traces
        known = known_places(self.recording)
        with made_histories(self.recording) as histories:
            self.courses = {number: course for number, course in ((number, course_of(finding, histories)) for number, finding in findings) if course}
        for number, finding in findings:
            plan = plan_of(finding, known, self.set_of(finding))
            if number in self.courses or all(planned.holds and planned.wants for planned in plan):
                self.findings[number], self.plans[number] = finding, plan
                if not is_watched(finding):
                    say("finding %d may have a lock that isn't watched, as of a file, a stream or the loader, or a semaphore without LOCKDEP_ALSO=sem" % number)
                if len(plan) > MOST_ORDERS:
                    say("finding %d has %d orders: threads are held back at the first %d of them" % (number, len(plan), MOST_ORDERS))
            else:
                say("finding %d isn't tried: the recording has no places of its orders" % number)
        foreign = foreign_words(self.recording, find_command(self.command[0])[0] or "", traces, list(self.plans.values()))
        self.is_foreign = bool(foreign)
        for words in foreign:
            say(words)
        if self.plans:
            self.make_room()

    def make_room(self) -> None:
        self.happened = read_provoked(self.recording)
        os.makedirs(self.room, exist_ok=True)
        write_provoked(self.recording, self.happened)
        folder = Folder(self.recording)
        folder.lock()
        folder.list_made()
        adopt_orphans()
        if not self.given and has_input():
            say("standard input is empty in these runs; --stdin FILE gives them one")
        say("%s to provoke, each by %s at most; their output goes to %s" % (
            counted(len(self.plans), "finding"), counted(self.runs, "run"), os.path.join(self.recording, OF_PROVOKE)))

    def set_of(self, finding: Finding) -> list[str]:
        """The traces of the handler that a finding has; none if it has none."""
        return traces_in(os.path.join(self.recording, SIGNALS, str(finding.handler.number))) if finding.handler else []

    def one(self, number: int) -> None:
        """Tries one finding, and says what came of it."""
        plan, course = self.plans[number], self.courses.get(number)
        tried = Tried(plan, is_watched=is_watched(self.findings[number]))
        ways = Ways(len(plan), course is not None, self.pause, self.recorded.seconds)
        most = min(self.runs, FEW_RUNS) if is_spoken_against(self.findings[number]) else self.runs
        count = 0
        while count < most and tried.ended < MOST_ENDED:
            count += 1
            self.tell_run(number, count, most)
            way = ways.next(count)
            table = Table(os.path.join(self.room, "table-%d-%d" % (number, count)), self.is_handed_over)
            outcome = self.run(number, count, way, table)
            tried.take(outcome, table)
            outcome.doubts += tried.doubts()
            last = table.last()
            table.remove()
            if outcome.standing and self.take(number, count, outcome, last.sent):
                return
            if outcome.is_too_long:
                say("run %d for finding %d took longer than %d seconds, and was ended while %s" % (count, number, self.limit, tried.waited))
            elif self.has_failed(outcome):
                tried.failed.append(outcome.status or 0)
                say("run %d for finding %d ended with %s, and the recorded one didn't: pauses are shorter from here on" % (
                    count, number, status_words(outcome.status or 0)))
                ways.shorten()
            elif way.is_scheduled and course and not outcome.standing and not self.is_foreign:
                tried.follow(turning(course, last))
            ways.waiting, ways.has_turned_off = tried.seldom_come_to(), bool(tried.turns)
        why = "not in %s: %s" % (counted(count, "run"), tried.words(self.spoken_words(self.findings[number])))
        say("finding %d: %s" % (number, why))
        self.keep(entry_of_none(number, self.findings[number], why, tried.turning_words() if tried.is_refuted() else ""), count)

    def tell_run(self, number: int, count: int, most: int) -> None:
        """On a terminal, where somebody waits: which run goes on, and how many findings come after this one."""
        if sys.stderr.isatty():
            left = sum(each > number for each in self.plans)
            say("finding %d: run %d of %d%s" % (number, count, most, ", and then %s" % counted(left, "finding") if left else ""))

    def spoken_words(self, finding: Finding) -> str:
        """What the recording says against a finding, and the first step that shows it."""
        if not is_spoken_against(finding):
            return ""
        from ..ask.verdict import Recorded as Known
        from ..places.sources import sources_of
        from ..say.judged import judged_lines
        from ..say.verdict_words import judged_words
        ring = finding.judged.ring if finding.judged else None
        between = next((place for place, forced in enumerate(ring.because if ring else ()) if forced.after), 0)
        lines = judged_lines(finding, sources_of([finding]))[between:between + 1]
        return ": ".join([judged_words(finding, Known(self.traces, summary.read(self.recording)))] + lines)

    def has_failed(self, outcome: Outcome) -> bool:
        """Whether a run ended as the recorded one didn't, of which that is known. The recorder has the status of a command that a signal ended as a shell does."""
        return bool(outcome.status) and self.recorded.status not in (None, shell_status(outcome.status or 0))

    def write_plan(self, number: int, way: Way) -> str:
        path, plan, course = os.path.join(self.room, "plan-%d" % number), self.plans[number][:MOST_ORDERS], self.courses.get(number)
        with open(path, "w", encoding="utf-8", errors="surrogateescape") as file:
            for head, planned in zip(pauses(way, len(plan)), plan):
                file.write("\n".join([head, *planned.lines()]) + "\n")
            if way.is_scheduled and course:
                file.write("\n".join(course.lines(way.long, way.pause)) + "\n")
        return path

    def run(self, number: int, count: int, way: Way, table: Table) -> Outcome:
        output = os.open(os.path.join(self.room, "output-%d-%d" % (number, count)), os.O_WRONLY | os.O_CREAT | os.O_TRUNC, 0o666)
        run = Run(self.command, self.holder, self.write_plan(number, way), table, way, self.given, output, self.beside, self.dumps)
        outcome = Outcome()
        try:
            outcome = run.outcome(self.limit, self.sure)
        finally:
            os.close(output)  # (which the command beside the run has, too)
            if outcome.standing and self.is_kept:
                run.load.end()
            else:
                run.end(outcome.process)
        return outcome

    # ---- What happened.

    def finding_of(self, number: int, standing: list[Standing]) -> tuple[int, list[Standing]]:
        """The number of the finding that these threads are: the one that is tried, or another one that is planned, or 0 if it is none; and the
        threads with what is known of their locks by that one's plan."""
        cycle, course = [thread for thread in standing if not thread.is_writer], self.courses.get(number)
        stops = {step.number for step in course.stops()} if course else set()
        points = {thread.point for thread in standing if thread.point}
        if (points and points == stops) or is_cycle_of(cycle, self.plans[number]):
            return number, standing
        others = [replace(thread, orders=0, point=0) for thread in standing]
        cycle = [thread for thread in others if not thread.is_writer]
        return next((each for each in self.plans if is_cycle_of(cycle, self.plans[each])), 0), others

    def take(self, number: int, count: int, outcome: Outcome, sent: tuple[int, ...]) -> bool:
        """Says what happened. Whether no further run is needed for the finding: it happened, or a cycle that is none of those that were found."""
        found, standing = self.finding_of(number, outcome.standing or [])
        where = frozenset((tuple(thread.waits), tuple(thread.holds[:1])) for thread in standing)
        found = self.stood[where] = found or self.stood.get(where, 0)
        is_sure = not outcome.doubts
        self.is_standing |= not any(doubt.is_usual for doubt in outcome.doubts)
        if found in self.numbers and not self.is_kept:
            return found == 0
        what = "finding %d" % found if found else "a cycle that is none of these findings"
        doubts = tuple(doubt.words for doubt in outcome.doubts)
        say("run %d: %s happened: %s" % (count, what, still_words(outcome)) if is_sure else
            "run %d: %s stood still for %.1f s; %s" % (count, what, outcome.stood, "; ".join(doubts)))
        plan, course = (self.plans[found], self.courses.get(found)) if found else ([], None)
        happened = Happened(count, stood(standing, plan, course), 0.0 if is_sure else round(outcome.stood, 1), doubts, self.sent_words(found, sent))
        sys.stdout.write("".join(line + "\n" for line in self.title_of(found) + happened.lines()))
        sys.stdout.flush()
        self.leave(outcome)
        self.numbers.add(found)
        self.keep(entry_of(found, self.findings.get(found), happened, outcome.builds, self.core_words(outcome.process)), count if found == number else 1)
        return found in (0, number) or self.is_kept

    def title_of(self, found: int) -> list[str]:
        """What is wrong, in a line, if it is a finding."""
        return ["%d. %s" % (found, title(self.findings[found], Names([self.findings[found]], Sources())))] if found else []

    def leave(self, outcome: Outcome) -> None:
        """Says which process is left standing, if that was asked for."""
        self.is_left = self.is_kept
        if self.is_kept:
            say("process %d is left standing: `gdb -p %d` looks at it, and `kill %d` ends it" % ((outcome.process,) * 3))

    def sent_words(self, found: int, sent: tuple[int, ...]) -> str:
        """Which signal this command sent to the program, if it did."""
        signals = [planned.handler.signal for planned, times in zip(self.plans.get(found, []), sent) if planned.handler and times]
        return "%s was sent by `lockdep provoke`" % signals[0] if signals else ""

    def core_words(self, process: int) -> str:
        """What became of the core dump of a process, if one was asked for."""
        pattern = text_of_file("/proc/sys/kernel/core_pattern").strip()
        return "of process %d, by the system's core_pattern: %s" % (process, pattern) if self.dumps and process else ""

    def keep(self, said: dict, runs: int) -> None:
        """Writes down what is known of a finding by its runs, with what earlier calls had."""
        options = [word for name in REPEATED if self.line.has(name) for word in (name, self.line.last(name))]
        options += ["--finding", str(said["finding"])] if said["finding"] else []  # (0 is a cycle that is none of them)
        again = ["lockdep", "provoke", "--from", self.recording, *options, "--", *self.command]
        self.happened = with_earlier(said, self.happened, runs, " ".join(map(typed, again)))
        write_provoked(self.recording, self.happened)
