"""`lockdep report`: one finding of a recording, as a page to paste where bugs are reported."""
from __future__ import annotations

import os

from ..ask.asking import ask_about
from ..base.files import need_output, writing
from ..base.saying import Refusal, typed
from ..base.words import counted, visible
from ..binaries.elf import build_words
from ..places.sources import sources_of
from ..program.checker import version
from ..program.findings import Finding
from ..program.verdicts import Verdict
from ..record.complete import check_folder
from .confirm import chosen_folder, say_refusal, write_findings
from .options import no_option

MADE_TO_HAPPEN = "Deadlock, found and made to happen by %s"
HEADS = {Verdict.HAPPENED: "Deadlock, found in a recorded run by %s", Verdict.POSSIBLE: "Possible deadlock, found by %s"}
OTHER = "Locks that are taken in orders that contradict each other, found by %s"
IN_SIGNAL, IN_INTERRUPT = "A lock for which a signal's handler may wait in vain, found by %s", "A lock for which an interrupt may wait in vain, found by %s"


def modules_of(finding: Finding, folder: str) -> list[str]:
    """The modules from which the records of a finding come, each with its build as it is now."""
    callers = [caller for several in sources_of([finding], [folder]).callers.values() for caller in several]
    modules, made = {caller.module for caller in callers if caller.offset is not None}, os.stat(os.path.join(folder, "SUMMARY")).st_mtime
    changed = {module for module in modules if os.path.exists(module) and os.stat(module).st_mtime > made}
    return [build_words(module) + (", which has changed since it was recorded" if module in changed else "") for module in sorted(modules)]


def facts_of(finding: Finding, folder: str) -> list[str]:
    """What stands below a finding: how often it happened, how to repeat it, and with what."""
    attempts, system = finding.attempts, os.uname()
    is_final = finding.happened is None or finding.happened.is_final
    tries = ["runs     " + attempts.words(is_final), "repeat   " + attempts.again] if attempts else [
        "repeat   lockdep provoke --from %s --finding %d -- COMMAND (not tried yet)" % (typed(folder), finding.number)]
    core = ["core     " + attempts.core] if attempts and attempts.core else []
    library = os.confstr("CS_GNU_LIBC_VERSION") if "CS_GNU_LIBC_VERSION" in os.confstr_names else None
    here = ["system   " + ", ".join(filter(None, ("%s %s %s" % (system.sysname, system.release, system.machine), library)))]
    return tries + core + here + ["module   " + module for module in (attempts and attempts.modules) or modules_of(finding, folder)]


def other_head(finding: Finding) -> str:
    return OTHER if finding.type == "circle" else IN_SIGNAL if finding.handler else IN_INTERRUPT


def chosen(words: list[str], findings: list[Finding], folder: str) -> Finding:
    found = next((finding for finding in findings if str(finding.number) == words[0] and not finding.is_note), None)
    if not found:
        count = sum(not finding.is_note for finding in findings)
        raise Refusal("%s has no finding %s; it has %s" % (visible(folder), visible(words[0]), counted(count, "finding")))
    return found


def main(words: list[str]) -> int:
    need_output()
    unknown = next((word for word in words if word.startswith("-")), "")
    if unknown:
        raise Refusal(no_option("report", unknown, []))
    if not 1 <= len(words) <= 2 or not all(words) or not words[0].isdigit():
        raise Refusal("which finding? lockdep report N [FOLDER]")
    folder = chosen_folder((words + [""])[1])
    check_folder(folder)
    asked = ask_about(folder)
    say_refusal(asked)
    if asked.is_refused:
        return 2
    finding = chosen(words, asked.findings(), folder)
    head = MADE_TO_HAPPEN if finding.happened and finding.happened.is_final else HEADS.get(finding.verdict, other_head(finding))
    with writing():
        write_findings(folder, asked, [finding], [], True, "", head % version(), ("", *facts_of(finding, folder)))
    return 0
