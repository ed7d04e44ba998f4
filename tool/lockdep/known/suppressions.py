"""Lists of known findings: their grammar, what an entry hides, and when it is stale.

A list has, one a line: the lines of findings of a report; patterns, as `cycle class:Session::m function:flush_*`; comments that
begin with `#`; and blank lines. An entry may end with a reason, `# by design until 2027-03-01`. The comments `#   NAME: PLACE`
under a line of a report say where its locks were made when it was written, and one as `#   between classes` which verdict its
findings had; lists of earlier versions don't have that one, or have another."""
from __future__ import annotations

import os
import re
import time
from dataclasses import dataclass, field, replace
from fnmatch import fnmatchcase

from ..base.saying import Refusal
from ..base.words import is_hidden, lines_of, visible
from ..places.where_made import Place, place_of
from ..program.verdicts import Judgement, Verdict

STATE = r"(?:hardirq|softirq|SIG[A-Z0-9]+(?:[+-][0-9]+)?:\S*)"  # what comes in: an interrupt, or a signal with its handler
LINE = re.compile(r"(circle \S+/[0-7] [ES][RN]|double %s|inversion %s \S+/[0-7]) \S+/[0-7]" % (STATE, STATE))
FIELD = re.compile(r"(class|module|function|file|signal|verdict):(\S+)")
PATTERN = re.compile(r"(cycle|circle|double|inversion|blocked|order|hold)((?: +%s)+)" % FIELD.pattern.replace("(", "(?:"))
UNTIL = re.compile(r"\buntil\b", re.IGNORECASE)
DATE = re.compile(r"\buntil ([0-9]{4}-[0-9]{2}-[0-9]{2})\s*$", re.IGNORECASE)
KINDS = ("made in", "any object of", "the class object of")  # of places, those of several words
PLACE = re.compile(r"#   ([^ ]+): (%s|\S+) (.+)" % "|".join(KINDS))
TEXT = re.compile(r"#     at (.+?:[0-9]+): (.+)")  # how the line of a caller reads, under its place
REASON = re.compile(r"\s+# ?(.*)$")
BEGINS_WITH_LINE = re.compile(LINE.pattern + r"(?!\S)")  # the names in one may begin with # too
WHAT = "the list of known findings"
BLANKS = " \t"  # around an entry
LIBRARIES = os.path.join(os.path.dirname(os.path.abspath(__file__)), "libraries.known")  # known findings of libraries, which come with the tool
NO_FINDING = "%s: line %d is no finding: a line is a circle, double or inversion of a report, a pattern, " \
    "a comment (#), or blank"
NO_VERDICT = "%s: line %d has a `verdict:` that is none; the verdicts are %s"
NO_DATE = "%s: line %d has a reason with `until` and no date at its end, such as `until 2027-03-01`"
CYCLE = "circle"  # as reports have it


VERDICTS = list(Verdict)  # the strongest first
COMMENT = "#   "  # begins what is said under a line of a report
NOT_COUNTED = ", and not counted"
# The verdicts that comments have, with how strong each is. Which of those in the second group a run gives hangs on the order in which its steps happened
# to come, so an entry of one excuses the others too; and so of the third.
LISTED = {"happened": 0, "possible": 1, "possible by a join": 1, "not known": 1, "not shown": 1, "not shown" + NOT_COUNTED: 2, "kept apart": 2,
          "between classes": 3}
OLD_CLASSES = re.compile("#   seen only between (classes|types)(, .+)?")  # the one of an earlier version that has a counterpart
OLD_VERDICT = re.compile("#   (seen|perhaps seen|not known whether seen|made to happen) .+")  # the comment that earlier versions wrote instead
# As a pattern has it. One that hides what was made to happen says no verdict.
UP_TO = {verdict.value: verdict for verdict in VERDICTS if verdict is not Verdict.HAPPENED}
strength = VERDICTS.index  # the place of a verdict among all, from the strongest on

def listed_words(judgement: Judgement | None) -> str:
    """The verdict of a finding as comments have it; empty if it has none."""
    if not judgement:
        return ""
    is_more = judgement.verdict is Verdict.NOT_SHOWN and not judgement.is_counted
    return judgement.verdict.words + (NOT_COUNTED if is_more else "")


@dataclass
class Entry:
    """An entry of a list: a line of a report with places, or a pattern."""

    number: int
    text: str
    line: str = ""
    type: str = ""
    fields: list[tuple[str, str]] = field(default_factory=list)
    until: str = ""
    reason: str = ""
    places: dict[str, Place] = field(default_factory=dict)
    last: str = ""  # the name whose place was read last
    listed: str = ""  # the strongest verdict that a line of a report excuses, if that is known
    most: Verdict | None = None  # the strongest verdict that a pattern hides, if it says one

    @property
    def is_pattern(self) -> bool:
        return not self.line

    def is_expired(self, today: str) -> bool:
        return bool(self.until) and today > self.until

    def excuses(self, words: str) -> bool:
        """Whether a line of a report may hide a finding with this verdict, which isn't stronger than the one of the list. If one of them isn't known, it
        may."""
        return "" in (self.listed, words) or LISTED[words] >= LISTED[self.listed]

    def hides(self, type: str, classes: list[tuple[str, ...]], frames: list[tuple[str, str]], signal: str = "",
              modules: list[str] = (), verdict: Verdict | None = None) -> bool:
        """Whether a pattern fits a finding: each of its classes, by one of its names, fits one of the pattern's, if that names any,
        and was made in such a module; a record of the finding comes from such a function and file, its signal is such a one, and
        its verdict isn't stronger, if it names these. An unknown verdict is no such one, and an unknown module neither."""
        of_classes, of_modules, functions, files, signals = ([pattern for name, pattern in self.fields if name == wanted]
                                                             for wanted in ("class", "module", "function", "file", "signal"))
        if self.type != type or signals and not fits_one(signal, signals):
            return False
        if self.most and (verdict is None or strength(verdict) < strength(self.most)):
            return False
        if of_modules and not (modules and all(module and fits_one(module, of_modules) for module in modules)):
            return False
        if of_classes and not all(any(fits_one(name, of_classes) for name in names) for names in classes):
            return False
        if not functions and not files:
            return True
        return any((not functions or fits_one(function, functions)) and (not files or fits_path(path, files))
                   for function, path in frames)


def escaped(text: str) -> str:
    """A text as a pattern that fits it alone. Patterns have no spaces and nothing that can't be shown, so each of these may be any letter."""
    return "".join("[%s]" % letter if letter in "*?[" else "?" if letter.isspace() or is_hidden(letter) else letter for letter in text)


def word_of(text: str) -> str:
    """A text of a recording as one word of a list."""
    return visible(text).replace(" ", "\\x20") or "-"


def comments_of(name: str, place: Place) -> list[str]:
    """Where a lock is made, and how the lines of its callers read, as a list has it: a comment each, whatever the recording calls these."""
    kind = place.kind if place.kind in KINDS else word_of(place.kind)
    texts = dict.fromkeys("#     at %s: %s" % (caller.source, caller.text) for caller in place.callers if caller.text)
    return list(map(visible, ["#   %s: %s" % (word_of(name), replace(place, kind=kind).words), *texts]))


def as_listed(name: str, place: Place) -> Place:
    """A place as it is read in a list in which it was written. So it is found again there, whatever names it has."""
    entry = Entry(0, "")
    for line in comments_of(name, place):
        take_comment(entry, line.strip(BLANKS))
    return entry.places.get(word_of(name), place)


def pattern_text(type: str, classes: list[str], function: str) -> str:
    """The pattern that fits what has these classes and comes from this function, if that is known."""
    fields = ["class:" + escaped(name) for name in dict.fromkeys(classes)] + (["function:" + escaped(function)] if function else [])
    return " ".join([type] + fields)


def fits_one(text: str, patterns: list[str]) -> bool:
    return any(fnmatchcase(text, pattern) for pattern in patterns)


def fits_path(path: str, patterns: list[str]) -> bool:
    """Whether a path fits a pattern, from its beginning or from one of its folders on."""
    parts = path.split("/")
    return any(fits_one("/".join(parts[place:]), patterns) for place in range(len(parts)))


def date_of(reason: str, name: str, number: int) -> str:
    """The date at the end of a reason; empty if it speaks of none. One that can't be read is refused: it would hide for ever."""
    if not UNTIL.search(reason):
        return ""
    found = DATE.search(reason)
    try:
        from datetime import datetime
        datetime.strptime(found.group(1) if found else "", "%Y-%m-%d")
    except ValueError:
        raise Refusal(NO_DATE % (visible(name), number))
    return found.group(1)


def entry_of(number: int, text: str, name: str) -> Entry:
    """The entry of a line that is neither blank nor a comment."""
    line = BEGINS_WITH_LINE.match(text)
    reason = REASON.search(text, line.end() if line else 0)
    bare = text[:reason.start()] if reason else text
    entry = Entry(number, bare)
    pattern = PATTERN.fullmatch(bare)
    if LINE.fullmatch(bare):
        entry.line, entry.type = bare, bare.partition(" ")[0]
    elif pattern:
        entry.type = CYCLE if pattern.group(1) == "cycle" else pattern.group(1)
        entry.fields = FIELD.findall(pattern.group(2))
        entry.most = most_of(entry, name)
    else:
        raise Refusal(NO_FINDING % (visible(name), number))
    entry.reason = reason.group(1) if reason else ""
    entry.until = date_of(entry.reason, name, number)
    return entry


def most_of(entry: Entry, name: str) -> Verdict | None:
    """The strongest verdict that a pattern hides, if it says one. A word that is none is refused."""
    words = [word for field_name, word in entry.fields if field_name == "verdict"]
    if not set(words) <= set(UP_TO):
        raise Refusal(NO_VERDICT % (visible(name), entry.number, ", ".join(UP_TO)))
    return min((UP_TO[word] for word in words), key=strength, default=None)


def is_verdict(line: str) -> bool:
    return line.startswith(COMMENT) and line[len(COMMENT):] in LISTED


def take_comment(entry: Entry, line: str) -> None:
    """Takes what a comment says of the entry above it, if it says something."""
    place = PLACE.fullmatch(line)
    if place:
        entry.last = place.group(1)
        entry.places[entry.last] = place_of(place.group(2), place.group(3))
    text = TEXT.fullmatch(line)
    if text and entry.last:
        entry.places[entry.last] = entry.places[entry.last].with_text(text.group(1), text.group(2))
    if OLD_CLASSES.fullmatch(line):
        entry.listed = Verdict.CLASSES.words
    elif is_verdict(line):
        entry.listed = line[len(COMMENT):]


def entries_of(text: str, name: str) -> list[Entry]:
    """The entries of a list. A line that is none is refused."""
    entries: list[Entry] = []
    for number, line in enumerate(lines_of(text), 1):
        line = line.strip(BLANKS)
        if line and not line.startswith("#"):
            entries.append(entry_of(number, line, name))
        elif entries:
            take_comment(entries[-1], line)
    return entries


def today() -> str:
    return time.strftime("%Y-%m-%d")


def main(words: list[str]) -> int:
    """Refuses a list on standard input that isn't one; its name stands in the words."""
    import sys
    from ..base.words import text_of
    entries_of(text_of(sys.stdin.buffer.read()), words[0])
    return 0
