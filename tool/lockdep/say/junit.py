"""The findings as JUnit: one suite, with a failed case for each finding, or a skipped one where that doesn't make the status."""
from __future__ import annotations

import time

from ..ask.blocked import Blocked
from ..ask.breaches import Breach
from ..base.words import escaped
from ..binaries.symbols import place_words
from ..program.findings import Finding
from .found import Found, moment
from .judged import judged_lines
from .steps import Step, steps_of, task_name, words_of_step

FAILURE, SKIPPED = "failure", "skipped"


def step_words(finding: Finding, step: Step) -> str:
    return "%s: %s (%s: record %d)" % (task_name(finding, step.task + 1), words_of_step(step), step.event.file, step.event.record)


def step_line(finding: Finding, step: Step, found: Found) -> str:
    if not step.event:
        return "  %s: %s" % (task_name(finding, step.task + 1), words_of_step(step))
    place = place_words(found.sources.frames(step.event))
    return "  %s%s" % (step_words(finding, step), ", " + place if place else "")


def case(element: str, kind: str, name: str, message: str, lines: list[str]) -> str:
    """A case that isn't passed; what is skipped has no type."""
    of_type = ' type="%s"' % escaped(kind) if element == FAILURE else ""
    return """<testcase classname="lockdep.%s" name="%s" time="0">
<%s%s message="%s">%s</%s>
</testcase>
""" % (escaped(kind), escaped(name), element, of_type, escaped(message), "".join(escaped(line) + "\n" for line in lines), element)


def is_skipped(finding: Finding, found: Found) -> bool:
    return found.only_counted and not finding.is_counted


def finding_case(finding: Finding, found: Found) -> str:
    """The finding in plain words, and each step with its place."""
    lines = [found.title(finding)] + found.rows(finding)
    lines += [step_line(finding, step, found) for step in steps_of(finding)] + found.all_remarks(finding)
    lines += ["  " + line for line in judged_lines(finding, found.sources)]
    lines += finding.happened.lines() if finding.happened else []
    element, verdict = (SKIPPED, found.verdict_of(finding)) if is_skipped(finding, found) else (FAILURE, "")
    return case(element, finding.rule, finding.head, found.title(finding) + verdict, lines)


def blocked_case(thread: Blocked | Breach, found: Found) -> str:
    lines = [thread.sentence] + ["  %s, %s" % (words, place_words(found.sources.frames(event))) for words, event in thread.lines()]
    return case(FAILURE, thread.type, thread.name, thread.sentence, lines)


def junit(found: Found) -> str:
    """The suite. If nothing new was found it has a passed case; if the recording left something out there is a case with an
    error, and none is passed."""
    cases = [finding_case(finding, found) for finding in found.told] + [blocked_case(thread, found) for thread in
                                                                            found.blocked + found.breaches]
    skipped = sum(is_skipped(finding, found) for finding in found.told)
    failures = len(cases) - skipped
    if found.left_out:
        said = escaped("Not all was checked. Left out: %s." % found.left_out)
        cases.append('<testcase classname="lockdep" name="left out" time="0">\n<error type="left out" message="%s"/>\n'
                     "</testcase>\n" % said)
    elif not cases:
        cases.append('<testcase classname="lockdep" name="%s" time="0"/>\n' % ("no new finding" if found.has_known else "no finding"))
    counts = 'tests="%d" failures="%d" errors="%d" skipped="%d" time="0"' % (len(cases), failures, 1 if found.left_out else 0, skipped)
    return """<?xml version="1.0" encoding="UTF-8"?>
<testsuites name="lockdep" %s>
<testsuite name="lockdep" %s timestamp="%s">
%s</testsuite>
</testsuites>
""" % (counts, counts, time.strftime("%Y-%m-%dT%H:%M:%S", moment()), "".join(cases))
