"""`lockdep confirm`: what was found in a recording, and what it was seen between, with source lines."""
from __future__ import annotations

import os
import subprocess
import sys
from typing import Sequence

from ..ask.asking import Asked, ask_about
from ..ask.blocked import sources_wanted
from ..ask.breaches import Breach, breaches_in
from ..ask.verdict import Recorded
from ..base.command_line import Words
from ..base.files import STANDARD_OUTPUT, is_file, need_output, writing
from ..base.home import HOME
from ..base.saying import Refusal
from ..base.words import visible
from ..places.sources import sources_of
from ..program.findings import Finding
from ..record.complete import LISTED, check_folder
from ..record.folder import DEFAULT_FOLDERS, OBJECTS, PAGE, is_made
from ..record.kernels import is_of_kernel, why_incomplete
from ..record.summary import read
from ..record.trace_names import traces_in
from ..say.text import write_blocks
from .options import CONFIRM, parse

FORMS = {"--html": "html", "--sarif": "sarif", "--junit": "junit", "--json": "json"}
RECORD = os.path.join(HOME, "recorders", "pthread", "record")


class Wanted:
    """What the words ask for."""

    def __init__(self, words: list[str]) -> None:
        line = parse(CONFIRM, words)
        if len(line.rest) > 1:
            raise Refusal("one folder, and not %s; `lockdep confirm --help` says how to call this" % ("two" if len(line.rest) == 2 else len(line.rest)))
        if "" in line.rest:
            raise Refusal("a folder has a name")
        self.folder = "".join(line.rest)
        self.is_confirmed_only, self.is_verbose, self.is_all = line.has("--confirmed-only"), line.has("--verbose"), line.has("--all")
        self.color = line.last("--color")
        self.forms = forms_in(line)


def forms_in(line: Words) -> dict[str, str]:
    """The file of each form that is asked for."""
    forms: dict[str, str] = {}
    for option, form in FORMS.items():
        for name in line.values.get(option, []):
            if name in forms.values():
                raise Refusal("two options name the same file, %s" % visible(name))
            if name != STANDARD_OUTPUT and os.path.isdir(name):
                raise Refusal("%s can't be written: it is a folder" % visible(name))
            forms[form] = name
    return forms


def chosen_folder(folder: str) -> str:
    """The recording: the one that is named, or one of those that a command makes by default."""
    if folder:
        return folder
    return next((name for name in DEFAULT_FOLDERS if is_file(os.path.join(name, "SUMMARY"))), DEFAULT_FOLDERS[0])


def check_forms(folder: str, forms: dict[str, str]) -> None:
    """Refuses a form that would take the place of a file of the recording other than the page that `run` writes."""
    for name in forms.values():
        inside = os.path.relpath(os.path.realpath(name), os.path.realpath(folder))
        if name != STANDARD_OUTPUT and inside != PAGE and (is_made(inside) or inside == LISTED):
            raise Refusal("%s is a file of the recording, which would be lost" % visible(name))


def say_summary(folder: str) -> None:
    """What was recorded. If that is nothing of the program's own, there is nothing to check."""
    if is_of_kernel(folder):
        sys.stderr.write("".join("confirm: %s\n" % why for why in why_incomplete(folder)))
        if not traces_in(folder):
            raise Refusal("%s has no traces" % visible(folder))
        return
    if subprocess.run([RECORD, "--summary", folder], stdin=subprocess.DEVNULL).returncode > 1:
        raise Refusal(None)
    if not traces_in(folder):
        counted = read(folder, HOME)
        if counted and not counted.number("events"):  # (only handlers ran, which took nothing)
            return
        raise Refusal("%s has no traces" % visible(folder))
    if not traces_in(os.path.join(folder, OBJECTS)):
        raise Refusal("%s/objects has no traces of single locks: record again" % visible(folder))


def say_refusal(asked: Asked) -> None:
    sys.stderr.buffer.write(asked.said or b"")
    sys.stderr.buffer.write(asked.answer.said if asked.is_refused else b"")
    if asked.left_out:
        sys.stderr.buffer.write(asked.why_left_out)
        sys.stderr.buffer.write(os.fsencode("confirm: not checked: %s\n" % ", ".join(asked.left_out)))
    sys.stderr.flush()


def depths_in(folder: str, asked: Asked, findings: list[Finding]) -> dict[int, int]:
    """With how many callers findings are gone, in a room that may be elsewhere if the folder can't be written."""
    import tempfile
    from ..ask.deeper import depths_of
    with tempfile.TemporaryDirectory(prefix="lockdep-") as room:
        return depths_of(folder, asked, findings, room)


def write_findings(folder: str, asked: Asked, findings: list[Finding], breaches: list[Breach], is_verbose: bool, color: str = "", head: str = "",
                   below: Sequence[str] = (), is_all: bool = True) -> None:
    recorded = Recorded(asked.traces, read(folder, HOME))
    recorded.depths = depths_in(folder, asked, findings) if findings and not is_of_kernel(folder) else {}
    sources = sources_of(findings, [folder])
    sources_wanted(breaches, sources)
    sources.ask()
    write_blocks(findings, breaches, sources, recorded, is_verbose, color, head, below, is_all)


def are_written(folder: str, asked: Asked, forms: dict[str, str], is_confirmed_only: bool) -> bool:
    """Writes the forms that `run` writes of a recording. Whether all could be."""
    from ..say.report import Recording, Report, ReportOptions
    summary = read(folder, HOME)
    lost_in = why_incomplete(folder) if is_of_kernel(folder) else summary.left_out()
    lost = ", ".join(lost_in + asked.left_out)
    made = Report(Recording(folder, summary, lost), ReportOptions(confirmed_only=is_confirmed_only, **forms), asked)
    made.sort()
    made.look_deeper()
    made.write_forms(made.options.forms)
    return not made.is_unwritten


def main(words: list[str]) -> int:
    wanted = Wanted(words)
    folder = chosen_folder(wanted.folder)
    check_folder(folder)
    check_forms(folder, wanted.forms)
    with writing():
        say_summary(folder)
        need_output()
        asked = ask_about(folder)
        say_refusal(asked)
        if asked.is_refused:
            return 2
        findings, breaches = asked.findings(), breaches_in(folder)
        if STANDARD_OUTPUT not in wanted.forms.values():
            write_findings(folder, asked, findings, breaches, wanted.is_verbose, wanted.color, is_all=wanted.is_all or not is_of_kernel(folder))
        if wanted.forms and not are_written(folder, asked, wanted.forms, wanted.is_confirmed_only):
            return 2
    if asked.left_out or (not findings and why_incomplete(folder)):
        return 2
    counted = [finding for finding in findings if not finding.is_note]
    return 1 if breaches or any(finding.is_counted or not wanted.is_confirmed_only for finding in counted) else 0
