"""The findings as SARIF 2.1.0."""
from __future__ import annotations

import hashlib
import json
import os
import re
from urllib.parse import quote

from ..ask.blocked import Blocked
from ..ask.breaches import Breach
from ..base.words import as_sentence, bytes_of, text_of, visible
from ..binaries.symbols import Frame
from ..places.sources import Sources
from ..program.checker import version
from ..program.findings import Event, Finding
from ..record.provoked import Happened, Stood
from .found import HANG, Found
from .judged import judged_lines, ring_of, step_line, steps_of_ring
from .junit import step_words
from .steps import Step, steps_of, task_count, task_name

SCHEMA = "https://docs.oasis-open.org/sarif/sarif/v2.1.0/errata01/os/schemas/sarif-schema-2.1.0.json"

# For each type of finding: its name, what it means, and what helps.
RULES = {
    "circle": (
        "Locks are taken in orders that close a cycle",
        "Tasks take these locks in orders that contradict each other. If they meet, each of them holds a lock that "
        "another one waits for.",
        "Take the locks in one order everywhere, or not one under the other."),
    "double": (
        "A lock is held with interrupts on, and taken in an interrupt",
        "The interrupt can come in at the task that holds the lock, and then waits for it.",
        "Turn that interrupt off wherever the lock is taken outside of it."),
    "inversion": (
        "A lock is held with interrupts on, and taken under one that is taken in an interrupt",
        "The interrupt can come in at the task that holds the first lock, and wait for the second one, whose holder "
        "waits for the first.",
        "Turn that interrupt off wherever the first lock is taken, or don't take it under the second one."),
    "blocked": (
        "A thread waited for a lock when its process ended",
        "The lock was held by another thread, or by one that had ended, and the process didn't end by itself.",
        "Look at who held the lock, and what that thread waited for."),
    "order": (
        "Locks of a class are taken against the order that the program says",
        "The program says by LOCKDEP_ORDERED or LOCKDEP_BY_ADDRESS in which order it takes locks of this class, and took one of them "
        "with one held that comes later.",
        "Take them in that order, or say another one."),
    "hold": (
        "A lock isn't held where the program says that it is",
        "The program says by LOCKDEP_ASSERT_HELD that the thread holds this lock, which it didn't.",
        "Take the lock before, or call the function only with it held."),
}
SIGNAL_RULES = {
    "signal-double": (
        "A signal handler takes a lock that is held where the signal may come in",
        "The signal can come in at the thread that holds the lock, and its handler then waits for the thread that it interrupted.",
        "Block the signal wherever the lock is taken outside of the handler, or let the handler only set a flag or write to a pipe."),
    "signal-inversion": (
        "A signal handler takes a lock under which another one is taken that is held where the signal may come in",
        "The signal can come in at the thread that holds the one lock, and its handler waits for the other one, whose holder waits for the first.",
        "Block the signal wherever the first lock is taken, don't take it under the other one, or let the handler only set a flag or write to a "
        "pipe."),
}  # which a log without such findings doesn't have
ALL_RULES = {**RULES, **SIGNAL_RULES}


def sarif_text(text: str) -> str:
    """A message of SARIF, in which braces and links have a meaning of their own."""
    text = visible(text).replace("{", "{{").replace("}", "}}")
    return re.sub(r"[\\\[\]]", r"\\\g<0>", text) if "](" in text else text


def artifact(name: str) -> dict:
    """A file as a URI, which is relative if the file is below the current folder."""
    here = text_of(os.getcwdb()).rstrip("/") + "/"
    whole = os.path.normpath(os.path.join(here, name))
    if whole.startswith(here):
        return {"uri": quote(bytes_of(whole[len(here):]), safe="/"), "uriBaseId": "%SRCROOT%"}
    return {"uri": "file://" + quote(bytes_of(whole), safe="/")}


def location(event: Event, words: str, sources: Sources) -> dict:
    """Where a record is: its source line, or if that isn't known its line in the trace."""
    frame = sources.line_of(event)
    file, line = (frame.path, frame.line) if frame else (event.file, sources.records.get(event, (0, ""))[0])
    physical: dict = {"artifactLocation": artifact(file)}
    if line:
        physical["region"] = {"startLine": line}
    found: dict = {"physicalLocation": physical, "message": {"text": sarif_text(words)}}
    functions = [inner.function for inner in sources.frames(event)[:1] if inner.function]
    if functions:
        found["logicalLocations"] = [{"name": visible(functions[0]), "kind": "function"}]
    return found


def step_location(finding: Finding, step: Step, sources: Sources) -> dict:
    return location(step.event, step_words(finding, step), sources)


def thread_flow(finding: Finding, steps: list[Step], task: int, sources: Sources) -> dict:
    """What one task does. The order of execution is that of all tasks together."""
    locations = [{"location": step_location(finding, step, sources), "executionOrder": number}
                 for number, step in enumerate(steps, 1) if step.task == task and step.event]
    return {"id": task_name(finding, task + 1), "locations": locations}


def fingerprint(lines: list[str]) -> str:
    """What stays the same as long as the finding's lines do."""
    return hashlib.sha256(bytes_of("\n".join(sorted(lines)))).hexdigest()


def add_steps(result: dict, finding: Finding, sources: Sources) -> None:
    """Where a finding is, and what each task does: where the first task waits, or a signal's handler."""
    all_steps = steps_of(finding)
    steps = [step for step in all_steps if step.event]
    waits = [step for step in steps if step.verb == "waits"] or steps
    if steps:
        flows = [thread_flow(finding, all_steps, task, sources) for task in range(task_count(all_steps))]
        result["locations"] = [step_location(finding, waits[-1 if finding.handler else 0], sources)]
        result["relatedLocations"] = [dict(step_location(finding, step, sources), id=number) for number, step in enumerate(steps, 1)]
        result["codeFlows"] = [{"threadFlows": [flow for flow in flows if flow["locations"]]}] + flows_of_ring(finding, sources)


def flows_of_ring(finding: Finding, sources: Sources) -> list[dict]:
    """The schedule in which the tasks stand still, if there is one: what each does at last, in the order of all."""
    ring = ring_of(finding)
    if not ring or not ring.schedule:
        return []
    steps = list(enumerate(steps_of_ring(ring), 1))
    tasks = dict.fromkeys(step.task for _, step in steps)
    return [{"message": {"text": "the recorded steps in another order, in which they stand still"}, "threadFlows": [
        {"id": task, "locations": [{"location": location(step.event, step_line(step, finding, sources), sources), "executionOrder": number}
                                   for number, step in steps if step.task == task]} for task in tasks]}]


def finding_result(finding: Finding, found: Found) -> dict:
    sentences = [line + "." for line in (found.title(finding), *found.rows(finding))]
    sentences += [as_sentence(remark) for remark in found.all_remarks(finding) + judged_lines(finding, found.sources)]
    result = {"ruleId": finding.rule, "level": found.level(finding), "message": {"text": sarif_text(" ".join(sentences))},
              "partialFingerprints": {"lockdepLines/v1": fingerprint(finding.lines)}}
    if finding.rule in ALL_RULES:
        result["ruleIndex"] = list(ALL_RULES).index(finding.rule)
    if found.is_known(finding):
        reason = found.reason_of(finding)
        result["suppressions"] = [dict({"kind": "external", "status": "accepted"}, **({"justification": sarif_text(reason)} if reason else {}))]
    add_steps(result, finding, found.sources)
    if finding.happened:
        result["stacks"] = [stack for thread in finding.happened.threads for stack in stacks_of(thread, finding.happened)]
    return result


def stacks_of(thread: Stood, happened: Happened) -> list[dict]:
    """Where a thread that stood still waits, and where it took what it holds."""
    return [{"message": {"text": sarif_text("%s: %s" % (thread.words, what))}, "frames": [
        {"location": frame_location(frame)} for frame in happened.frames(places)]}
        for what, places in (("where it waits", thread.waits), ("where it took what it holds", thread.holds))]


def frame_location(frame: Frame) -> dict:
    found: dict = {"message": {"text": sarif_text(frame.words)}}
    if frame.path and not frame.is_wrapper:
        found["physicalLocation"] = {"artifactLocation": artifact(frame.path), "region": {"startLine": frame.line}}
    if frame.function:
        found["logicalLocations"] = [{"name": visible(frame.function), "kind": "function"}]
    return found


def blocked_result(thread: Blocked | Breach, found: Found) -> dict:
    """A thread that was blocked at the end, where it waits, or a breach, where the lock was taken or wasn't held."""
    result = {"ruleId": thread.type, "level": "error", "message": {"text": sarif_text(as_sentence(thread.sentence))},
              "partialFingerprints": {"lockdepLines/v1": fingerprint(["%s %s" % (thread.type, " ".join(thread.keys))])},
              "ruleIndex": list(RULES).index(thread.type)}
    is_blocked = thread.type == "blocked"
    events = [location(event, "record %d" % event.record if is_blocked else words, found.sources) for words, event in thread.lines()]
    result["locations"] = events[:1]
    result["relatedLocations"] = [dict(event, id=number) for number, event in enumerate(events, 1)]
    return result


def sarif_rule(name: str) -> dict:
    short, full, hint = ALL_RULES[name]
    return {"id": name, "shortDescription": {"text": short}, "fullDescription": {"text": full}, "help": {"text": hint},
            "defaultConfiguration": {"level": "error"}}


def invocation_of(found: Found) -> dict:
    invocation: dict = {"executionSuccessful": True}
    warnings = ["Not all was checked. Left out: %s." % found.left_out] if found.left_out else []
    if found.waiting:
        warnings.append("%s %s." % (HANG, "; ".join(found.waiting)))
    notes = [as_sentence(line) for line in (found.signals.lines() if found.signals else []) + ([found.untold] if found.untold else [])]
    if warnings or notes:
        invocation["toolExecutionNotifications"] = [{"level": level, "message": {"text": sarif_text(text)}} for level, texts in (
            ("warning", warnings), ("note", notes)) for text in texts]
    return invocation


def sarif(found: Found) -> str:
    """The log: one line for each result, as for each finding in the JSON. Known findings are suppressed ones."""
    rules = ALL_RULES if any(finding.handler for finding in found.new + found.known) else RULES
    driver = {"name": "lockdep", "version": visible(version().rpartition(" ")[2]), "rules": [sarif_rule(name) for name in rules]}
    here = "file://" + quote(os.getcwdb().rstrip(b"/") + b"/", safe="/")
    run = {"tool": {"driver": driver}, "invocations": [invocation_of(found)], "columnKind": "utf16CodeUnits",
           "originalUriBaseIds": {"%SRCROOT%": {"uri": here}}}
    results = [finding_result(finding, found) for finding in [*filter(found.is_told, found.new), *found.known]]
    results += [blocked_result(thread, found) for thread in found.blocked + found.breaches]
    return '{"$schema": "%s", "version": "2.1.0", "runs": [\n%s, "results": [\n%s\n]}\n]}\n' % (
        SCHEMA, json.dumps(run)[:-1], ",\n".join(map(json.dumps, results)))
