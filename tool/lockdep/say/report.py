"""The last part of `lockdep run`, when the traces are there: they are checked, and what was found is explained, in the forms that
were asked for. All messages go to standard error."""
from __future__ import annotations

import os
import sys
from io import StringIO

from ..ask.asking import Asked, ask_about
from ..base.files import complain
from ..base.saying import Refusal
from ..base.words import bytes_of, counted, visible
from ..program.verdicts import Verdict
from ..record.losses import BREACHES
from ..record.notes import WAITING
from ..record.summary import Summary

TYPE_CHECKING = False  # (as in `typing`, which takes as long to import as all the rest)
if TYPE_CHECKING:
    from typing import Callable
    from ..ask.blocked import Blocked
    from ..ask.breaches import Breach
    from ..known.known import Sorted
    from ..places.sources import Sources
    from ..known.suppressions import Entry
    from .found import Found
    from ..ask.verdict import Recorded

NOT_JUDGED = 2
PAGE = "report.html"
STANDARD_OUTPUT = "-"
IN_PART = "what was left out wasn't checked, so this run isn't judged beyond what was found"
LISTED = "RECORDED"  # the file that lists what a recording made in its folder


class ReportOptions:
    """What the options of `lockdep run` ask for. `known_text` is the text of the list of known findings."""

    def __init__(self, known: str = "", known_text: str = "", write_known: str = "", quiet: bool = False, error_exitcode: int | None = None,
                 confirmed_only: bool = False, strict_known: bool = False, html: str = "", sarif: str = "", junit: str = "",
                 json: str = "", no_libraries: bool = True, verbose: bool = False, color: str = "") -> None:
        self.known, self.known_text, self.write_known = known, known_text, write_known
        self.quiet, self.error_exitcode = quiet, error_exitcode
        self.confirmed_only, self.strict_known = confirmed_only, strict_known
        self.html, self.sarif, self.junit, self.json = html, sarif, junit, json
        self.no_libraries, self.verbose, self.color = no_libraries, verbose, color

    def entries_of_libraries(self) -> list[Entry]:
        from ..base.files import text_in
        from ..known.suppressions import LIBRARIES, entries_of
        return [] if self.no_libraries else entries_of(text_in(LIBRARIES), LIBRARIES)

    @property
    def forms(self) -> dict[str, str]:
        """The files that were asked for, by form."""
        named = {"page": self.html, "sarif": self.sarif, "junit": self.junit, "json": self.json}
        return {form: name for form, name in named.items() if name}


class Recording:
    """What is known of a recording when its traces are there: its summary, what was left out, if anything, in words, and how the
    command ended. `say_messages` prints what the recorder said, if it wasn't printed yet, and perhaps not who waited at the end."""

    def __init__(self, folder: str, summary: Summary, lost: str = "", status: int = 0, command_end: str = "",
                 say_messages: Callable[[bool], None] = lambda who_waited: None) -> None:
        self.folder, self.summary, self.lost = folder, summary, lost
        self.status, self.command_end, self.say_messages = status, command_end, say_messages

    @property
    def is_whole(self) -> bool:
        return not self.lost


class Report:
    """What is to be said of a recording, and the status that `lockdep run` ends with."""

    def __init__(self, recording: Recording, options: ReportOptions, asked: Asked) -> None:
        self.recording, self.options, self.asked = recording, options, asked
        self.page = options.html
        self.is_unwritten = False
        self.sorted: Sorted | None = None
        self.sources: Sources | None = None
        self.all_breaches: list[Breach] = []
        self.recorded: Recorded | None = None

    # ---- What was found.

    def sort(self) -> None:
        """Finds out what is new, and where everything is in the source. Without a finding, a list or a hang there is nothing to
        find out."""
        hung, is_breached = is_hung(self.recording.summary), has_breaches(self.recording.summary)
        if not (self.asked.has_findings or hung or is_breached or self.options.known or self.options.write_known):
            return
        from ..ask.blocked import blocked_threads, sources_wanted
        from ..known.known import sort
        from ..places.sources import sources_of
        from ..known.suppressions import entries_of
        findings = self.asked.findings()
        blocked = blocked_threads(self.asked, self.recording.summary) if hung else []
        self.sources = sources_of(findings, [self.recording.folder])
        from ..ask.breaches import breaches_in
        self.all_breaches = breaches_in(self.recording.folder) if is_breached else []
        if blocked or self.all_breaches:
            sources_wanted(blocked + self.all_breaches, self.sources)
            self.sources.ask()
        entries = entries_of(self.options.known_text, self.options.known)
        self.sorted = sort(findings, blocked, entries, self.sources, self.asked.traces, self.all_breaches, self.options.entries_of_libraries())

    def look_deeper(self) -> None:
        """What the recording itself says of the findings that are new."""
        if not self.sorted:
            return
        from ..ask.verdict import WITH_DEPTH, Recorded
        self.recorded = Recorded(self.asked.traces, self.recording.summary)
        if any(finding.level in WITH_DEPTH for finding in self.sorted.new):
            from ..ask.deeper import depths_of
            from ..base.room import Room
            with Room(self.recording.folder) as room:
                self.recorded.depths = depths_of(self.recording.folder, self.asked, self.sorted.new, room)

    @property
    def new(self) -> list:
        """The new findings, without the notes of types that are nested in themselves."""
        return [finding for finding in self.sorted.new if not finding.is_note] if self.sorted else []

    @property
    def notes(self) -> list:
        return [finding for finding in self.sorted.new if finding.is_note] if self.sorted else []

    @property
    def blocked(self) -> list[Blocked]:
        return self.sorted.blocked if self.sorted else []

    @property
    def breaches(self) -> list[Breach]:
        return self.sorted.breaches if self.sorted else []

    @property
    def has_new(self) -> bool:
        return bool(self.new or self.breaches)

    @property
    def is_hung(self) -> bool:
        """Whether a thread was blocked at the end that no pattern names. What it waits for may be in no trace."""
        hung = is_hung(self.recording.summary)
        return hung and (bool(self.blocked) or not hides_blocked(self.options.known_text))

    @property
    def is_said_of_all(self) -> bool:
        """Whether a finding says of each blocked thread how it stood, in a text that isn't to have all that is known."""
        stood = [finding for finding in self.new if finding.verdict is Verdict.HAPPENED]
        return not self.options.verbose and bool(stood) and all(thread.is_cycle for thread in self.blocked)

    # ---- Files.

    def write_files(self) -> None:
        if self.options.write_known:
            self.write_known()
        forms = self.options.forms
        if not self.page and self.has_new:
            self.choose_page()
        if self.page:
            forms["page"] = self.page
        if forms:
            self.write_forms(forms)

    def choose_page(self) -> None:
        """The page of the folder, unless there is a file of that name that no recording made. It is listed as made by this one."""
        self.page = os.path.join(self.recording.folder, PAGE)
        if os.path.lexists(self.page):
            say("%s exists and wasn't made by a recording, so no page is written; --html names another file" % self.page)
            self.page = ""
            return
        with open(os.path.join(self.recording.folder, LISTED), "a", encoding="utf-8") as file:
            file.write(PAGE + "\n")

    def write_forms(self, forms: dict[str, str]) -> None:
        """Writes the files. If that fails, the reason is printed."""
        from ..base.files import write_form
        from .forms import text_of_form
        try:
            found = found_of(self)
            for form, name in forms.items():
                write_form(name, text_of_form(form, found))
        except Refusal as refusal:
            if refusal.line:
                say(refusal.line)
            say("so some files with the findings are missing")
            self.page = ""
            self.is_unwritten = bool(self.options.forms)

    def write_known(self) -> None:
        from ..base.files import text_in
        from ..base.files import write_in_place
        from ..known.known import list_of
        name = self.options.write_known
        text = list_of(self.asked.findings(), text_in(name), self.sources, self.asked.traces, self.all_breaches, self.options.entries_of_libraries(),
                       name)
        try:
            write_in_place(bytes_of(name), bytes_of(text))
        except OSError:
            raise Refusal("%s can't be written" % visible(name))
        if self.blocked:
            say("%s not in %s: if they are meant, write a pattern, as `blocked class:NAME`" % (
                counted(len(self.blocked), "blocked thread is", "blocked threads are"), visible(name)))

    # ---- What is printed.

    def say_of_libraries(self) -> None:
        """How many findings the list of libraries hides, with each of its reasons."""
        from collections import Counter
        for reason, count in Counter(reason for _, reason in self.sorted.libraries).items() if self.sorted else ():
            say("%s left out, since the tool's own list of libraries has %s (%s); --no-library-list leaves out that list" % (
                counted(count, "finding"), "it" if count == 1 else "them", visible(reason)))

    def say_of_known(self) -> None:
        self.say_of_libraries()
        for words in known_lines(self.options.known, self.sorted) if self.sorted and self.options.known else ():
            say(words)

    def explain(self) -> None:
        """Writes the explanation of what is new, with source lines."""
        from .groups import MOST_GROUPS, groups_of
        from ..binaries.symbols import has_addr2line
        from .terminal import Writer, is_coloured, width_of
        from .text import Text
        news = counted(len(self.new) + len(self.breaches), "finding")
        news = "new: " + news if self.options.known else news
        is_named = self.page not in ("", STANDARD_OUTPUT)
        say("%s; look at %s" % (news, self.page) if is_named else "%s, recorded in %s" % (news, self.recording.folder))
        if self.sources.symbols.is_asked and not has_addr2line():
            say("addr2line isn't there, so places are modules and offsets; it is a part of binutils")
        stream = StringIO()
        width = width_of(sys.stderr)
        text = Text(Writer(stream, width, is_coloured(sys.stderr, self.options.color)), self.sources, self.recorded, self.new, self.options.verbose)
        left = text.groups(groups_of(self.new), MOST_GROUPS if width else None)
        for breach in self.breaches:
            text.breach(breach)
        complain(bytes_of(stream.getvalue()))
        if left:
            say("%s not shown here; `lockdep confirm %s` shows all" % (counted(left, "more finding is", "more findings are"), self.recording.folder))

    def say_uncounted(self) -> None:
        """Which findings don't make the status of --error-exitcode, by their verdicts."""
        from collections import Counter
        left = Counter(finding.verdict.words for finding in self.new if not finding.is_counted) if self.options.confirmed_only else Counter()
        if left:
            say("--confirmed-only doesn't count %s: %s" % (counted(sum(left.values()), "finding"), ", ".join("%d %s" % (number, words) for words, number in left.items())))

    def say_blocked(self) -> None:
        """Who is blocked, with the places of all that is named."""
        from .explanation import Annotator
        from .terminal import Writer, width_of
        from ..base.words import name_in
        stream = StringIO()
        writer, annotator = Writer(stream, width_of(sys.stderr)), Annotator(self.sources)
        for thread in self.blocked:
            writer.line("")
            annotator.begin_block()
            notes = annotator.under(tuple(name_in(key) for key in thread.keys))
            writer.line(self.sources.demangler.text("blocked: " + thread.sentence), notes)
            for event in thread.events:
                writer.line("  %s: record %d" % (event.file, event.record), annotator.under((event,)))
        complain(bytes_of(stream.getvalue()))

    def conclude(self) -> None:
        """What is printed at the end. With --quiet that is nothing, if nothing was found and nothing is in doubt."""
        nothing = "nothing new" if self.sorted and (self.sorted.known_lines or self.sorted.libraries) else "nothing"
        is_stale = bool(self.sorted and self.sorted.stale)
        if self.has_new or self.is_hung:
            self.recording.say_messages(not self.is_said_of_all)
            self.say_of_known()
            if self.has_new:
                self.explain()
                self.say_uncounted()
            else:
                say("%s was found but that a thread waited for a lock at the end" % nothing)
            if self.blocked and not self.is_said_of_all:
                self.say_blocked()
            self.say_end()
            if self.is_judged_in_part:
                say(IN_PART)
        elif not self.recording.is_whole:
            self.say_of_known()
            raise Refusal("%s was found, but what was left out wasn't checked, so this run isn't judged" % nothing)
        elif not self.options.quiet or is_stale:
            self.recording.say_messages(True)
            self.say_of_known()
            say("%s was found%s" % (nothing, "; " + self.note_words() if self.notes else ""))
            self.say_end()

    def note_words(self) -> str:
        return "%s nested in itself, which is a note: `lockdep confirm %s` shows it" % (
            counted(len(self.notes), "type is", "types are"), self.recording.folder)

    def say_end(self) -> None:
        if self.recording.status:
            say(self.recording.command_end)

    # ---- The status.

    @property
    def is_error(self) -> bool:
        """Whether what was found makes the status of --error-exitcode."""
        if self.is_hung or self.breaches or self.options.strict_known and self.sorted and (self.sorted.stale or self.sorted.moved):
            return True
        return any(finding.is_counted or not self.options.confirmed_only for finding in self.new)

    @property
    def is_judged_in_part(self) -> bool:
        """Whether something was found, and the status is that of a run that isn't judged, since something was left out."""
        is_by_option = self.is_error and self.options.error_exitcode is not None
        return (self.has_new or self.is_hung) and not self.recording.is_whole and not is_by_option

    @property
    def status(self) -> int:
        if self.is_error and self.options.error_exitcode is not None:
            return self.options.error_exitcode
        if self.is_judged_in_part:
            return NOT_JUDGED
        return NOT_JUDGED if self.is_unwritten else self.recording.status


def known_lines(known: str, result: Sorted) -> list[str]:
    """What is to be said of a list of known findings."""
    name = visible(known)
    counts = ((result.known_lines, ("line of the report", "lines of the report")), (result.known_blocked, ("blocked thread", "blocked threads")),
              (len(result.known_breaches), ("breach", "breaches")))
    lines = ["%s left out, since %s lists them" % (counted(count, *words), name) for count, words in counts if count]
    lines += ["%s is stale in %s" % (name, stale) for stale in result.stale]
    if result.moved:
        lines.append("%s has other source lines for these names, so its entries may hide other findings; look at them, and write it again by "
                     "--write-known: %s" % (name, ", ".join(result.moved)))
    return lines + ["known, and not found this time: %s" % line for line in result.gone]


def found_of(report: Report) -> Found:
    """What the forms of a run show."""
    from ..ask.verdict import Recorded
    from ..places.sources import Sources
    from .found import Found
    recording, result, signals = report.recording, report.sorted, report.asked.signals
    files, waits = list(report.asked.traces), recording.summary.waiting()
    if result is None:
        return Found([], [], Sources(), Recorded(files), files, recording.lost, waits, summary=recording.summary, signals=signals)
    return Found(result.new, result.known, report.sources, report.recorded, files, recording.lost, waits, report.blocked,
                 recording.summary, known_blocked=result.known_blocked, breaches=report.breaches,
                 known_breaches=result.known_breaches, signals=signals, libraries=result.libraries, only_counted=report.options.confirmed_only)


def is_hung(summary: Summary) -> bool:
    """Whether a thread waited for a lock when its process ended; what decides that is read only if one did."""
    if not summary.number(WAITING):
        return False
    from ..ask.blocked import is_hung as was_hung
    return was_hung(summary)


def has_breaches(summary: Summary) -> bool:
    """Whether something was done against what a program says of its locks."""
    return any(summary.number(code) for code in BREACHES)


def hides_blocked(known_text: str) -> bool:
    """Whether a list has a pattern of blocked threads, whose day hasn't passed."""
    from ..known.suppressions import entries_of, today
    return any(entry.type == "blocked" and not entry.is_expired(today()) for entry in entries_of(known_text, ""))


def say(text: str) -> None:
    complain(bytes_of("lockdep: %s\n" % text))


def report(recording: Recording, options: ReportOptions) -> Report:
    """Checks a recording, writes and prints what was found. What can't be judged is refused; a refused trace is in the answer."""
    asked = ask_about(recording.folder)
    made = Report(recording, options, asked)
    if asked.is_refused:
        return made
    if asked.left_out:
        complain(asked.why_left_out)
        recording.lost = ", ".join(([recording.lost] if recording.lost else []) + asked.left_out)
    made.sort()
    made.look_deeper()
    made.write_files()
    made.conclude()
    return made
