"""`lockdep view`: what `explain --json` found in traces, as a page, SARIF, JUnit or JSON."""
from __future__ import annotations

import os
import sys

from ..ask.causes import by_cause
from ..ask.happened import take_happened
from ..ask.lives import folder_of
from ..ask.verdict import Recorded, by_importance
from ..base.files import STANDARD_OUTPUT, complain, is_file, same_file, text_named, write_form
from ..base.saying import Refusal
from ..base.words import bytes_of, counted, visible
from ..known.known import sort
from ..known.suppressions import WHAT, entries_of
from ..places.sources import sources_of
from ..program.checker import REFUSED, answer_of
from ..program.findings import Finding, findings_of, numbered
from ..record.folder import SIGNALS
from ..record.kernels import left_out
from ..record.summary import recorder_of
from ..say.forms import text_of_form
from ..say.found import Found
from ..say.groups import MOST_GROUPS
from .options import no_option

# The options that take a value, with the name of the value.
OPTIONS = {"-o": "page", "--output": "page", "--sarif": "sarif", "--junit": "junit", "--json": "json", "--known": "known", "--suppressions": "known"}
GONE = ("--confirmed", "--left-out", "--waiting")  # what they told of a recording, `confirm` finds in it
ELSEWHERE = "`view` has no option `%s`: `lockdep confirm FOLDER` says that of a recording, in these forms too, by --html, --sarif, --junit and --json"
NOT_SHOWN = "lockdep: %s also has traces of signal handlers, which `view` doesn't look at: `lockdep confirm` of that folder does, with --html, --sarif, " \
    "--junit and --json\n"
FORMS = {"page": "-o", "sarif": "--sarif", "junit": "--junit", "json": "--json"}
ORDER = ("json", "sarif", "junit", "page")  # in which forms are made


def take_option(word: str, words: list[str], given: dict[str, str]) -> None:
    """Takes an option with its value, which may be the next word."""
    option, equals, value = word.partition("=")
    if not equals and (not words or words[0] == "--"):
        raise Refusal("%s takes a value; `lockdep view --help` says which" % word)
    if OPTIONS[option] in given:
        raise Refusal("`%s` is given twice" % option)
    given[OPTIONS[option]] = value if equals else words.pop(0)
    if not given[OPTIONS[option]]:
        raise Refusal("%s takes a value, and not an empty word" % option)


def command_line(words: list[str]) -> tuple[dict[str, str], list[str]]:
    """The values of the options that were given, by name, and the names of the traces."""
    given: dict[str, str] = {}
    files, words = [], list(words)
    while words:
        word = words.pop(0)
        option, equals, _ = word.partition("=")
        if word == "--":
            files += words
            break
        if word in OPTIONS or (equals and option.startswith("--") and option in OPTIONS):
            take_option(word, words, given)
        elif option in GONE:
            raise Refusal(ELSEWHERE % option)
        elif word.startswith("-") and word != "-":
            raise Refusal(no_option("view", word, list(OPTIONS)))
        else:
            files.append(word)
    return given, files


def check_output(option: str, name: str, files: list[str], others: list[tuple[str, str]]) -> None:
    """Refuses a form that would overwrite a trace or another form."""
    if name != STANDARD_OUTPUT and os.path.isdir(os.fsencode(name)):
        raise Refusal("%s can't be written: it is a folder" % visible(name))
    for trace in files:
        if name != STANDARD_OUTPUT and is_file(trace) and same_file(name, trace):
            raise Refusal("%s names a trace, %s, which would be lost" % (option, visible(trace)))
    for other, another in others:
        if not name.startswith("/dev/") and same_file(name, another):
            raise Refusal("%s and %s name the same file, %s" % (other, option, visible(name)))


def check_outputs(given: dict[str, str], files: list[str]) -> None:
    named = [(FORMS[form], given[form]) for form in FORMS if form in given]
    for place, (option, name) in enumerate(named):
        check_output(option, name, files, named[:place])


# ---- All together.


def found_in(given: dict[str, str], files: list[str]) -> Found:
    """What was found in the traces."""
    text = text_named(given["known"], WHAT) if "known" in given else ""
    entries = entries_of(text, given.get("known", ""))
    answer = answer_of(["explain", "--json", "--many", "--"] + files)
    findings = findings_of(answer.output, versions=(1,))
    if bool(findings) != bool(answer.status):
        raise Refusal("`explain --json` ended with status %d and wrote %s" % (answer.status, counted(len(findings), "finding")))
    findings = with_happened(findings, files)
    sources = sources_of(findings)
    result, recorded = sort(findings, [], entries, sources), Recorded(files)
    if is_by_cause(recorded, result.new):
        result.new = by_cause(result.new, files)
        numbered(result.new + result.known)
    return Found(result.new, result.known, sources, recorded, files, left_out(files), raw=answer.output)


def is_by_cause(recorded: Recorded, findings: list[Finding]) -> bool:
    """Whether findings are sorted by what they come from: those of a kernel, and too many of traces of which it isn't known who recorded them."""
    is_known = any(recorder_of(os.path.dirname(trace)) for trace in recorded.traces)
    return recorded.is_kernels() or not is_known and len(findings) > MOST_GROUPS


def with_happened(findings: list[Finding], files: list[str]) -> list[Finding]:
    """The findings, those first that `lockdep provoke` made happen, if all traces are of one recording in which it did."""
    folders = sorted(set(map(folder_of, files)))
    if len(folders) == 1:
        take_happened(findings, folders[0])
    for folder in folders:
        if os.path.isdir(os.path.join(folder, SIGNALS)):
            complain(bytes_of(NOT_SHOWN % visible(os.path.join(folder, ""))))
    return by_importance(findings)


def texts_of(given: dict[str, str], found: Found) -> dict[str, str]:
    """The requested forms, each with its text; the page if none was requested."""
    from ..say.as_json import json_of_checker
    forms = [form for form in ORDER if form in given] or ["page"]
    return {form: json_of_checker(found) if form == "json" else text_of_form(form, found) for form in forms}


def status_of(found: Found) -> int:
    """As `confirm` has it: what nothing was found in is judged only if nothing was left out."""
    if found.new:
        return 1
    if found.left_out:
        complain(bytes_of("lockdep: nothing was found, but not all was checked. Left out: %s\n" % visible(found.left_out)))
        return REFUSED
    return 0


def main(words: list[str]) -> int:
    given, files = command_line(words)
    if not files:
        raise Refusal("which traces? lockdep view [-o FILE.html] FILE...")
    check_outputs(given, files)
    if not any(form in given for form in FORMS) and sys.stdout.isatty():
        raise Refusal("the page isn't for a terminal: name a file for it by -o FILE.html")
    found = found_in(given, files)
    for form, text in texts_of(given, found).items():
        write_form(given.get(form), text)
    return status_of(found)
