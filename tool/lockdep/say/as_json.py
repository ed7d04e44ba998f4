"""The findings as JSON. That of `lockdep view` is the checker's; that of `lockdep run` has places, verdicts, what is known, and a
summary besides."""
from __future__ import annotations

import json
import re

from ..ask.blocked import Blocked
from ..ask.breaches import Breach
from ..ask.signals import Signals
from ..base.words import HIDDEN, text_of, visible
from ..binaries.symbols import Frame, Symbols
from ..program.findings import Event, Finding, event_of
from ..program.schedules import Forced, Place
from ..program.verdicts import Judgement
from ..record.handlers import Handler
from ..record.provoked import Happened
from ..record.threads import name_of_thread
from .found import Found

VERSION = 3
PARTS = (dict, list)
ESCAPED = re.compile("[%s]" % "".join("%c-%c" % those for those in HIDDEN))


def compact(value: object) -> str:
    """JSON in which characters that other forms don't show are escaped, too, and so are bytes that aren't UTF-8, each as the surrogate that stands for it:
    JSON has to be UTF-8."""
    return ESCAPED.sub(lambda found: "\\u%04x" % ord(found.group()), json.dumps(value, ensure_ascii=False, separators=(",", ":")))


def json_of_checker(found: Found) -> str:
    """What `explain --json` wrote, without the lines of the known findings."""
    if not found.known:
        return text_of(found.raw)
    lines = text_of(found.raw).split("\n")
    numbers = {id(finding.json) for finding in found.new}
    findings = sorted(found.new + found.known, key=lambda finding: finding.place)
    if len(lines) == len(findings) + 3:
        lines = [line.rstrip(",") for finding, line in zip(findings, lines[1:]) if id(finding.json) in numbers]
    else:
        lines = [compact(finding.json) for finding in findings if id(finding.json) in numbers]
    return '{"lockdep":1,"findings":[\n%s]}\n' % (",\n".join(lines) + "\n" if lines else "")


def frames_of(event: Event, found: Found) -> list[dict]:
    """The callers of a record, innermost first."""
    return [said_frame(frame) for frame in found.sources.frames(event)]


def said_frame(frame: Frame) -> dict:
    said = {"function": frame.function, "file": frame.path, "line": frame.line, "address": "" if frame.path else frame.address}
    return {name: value for name, value in said.items() if value}


def with_places(said: object, found: Found) -> object:
    """A value of the checker's JSON, in which each occurrence has its places: `places` of its record, and `since_places`; and the name
    of its `thread`, if that is known. In which traces an order is stays as it was."""
    if isinstance(said, list):
        return [with_places(value, found) if isinstance(value, PARTS) else value for value in said]
    if not isinstance(said, dict):
        return said
    made = {name: with_places(value, found) if isinstance(value, PARTS) and name != "traces" else value for name, value in said.items()}
    if "file" not in said:
        return made
    for name, places in (("record", "places"), ("since", "since_places")):
        event = event_of(said, name)
        if event:
            made[places] = frames_of(event, found)
    thread = name_of_thread(str(said["file"]))
    return dict(made, thread=thread) if thread else made


def locks_of(finding: Finding, found: Found) -> list[dict]:
    """Where the classes of a finding's keys are made."""
    from ..places.sources import keys_of
    from ..binaries.symbols import place_words
    from ..base.words import name_in
    made = {made.name: made for key in keys_of(finding) for made in found.sources.made_as(name_in(key))}
    return [{"class": name, "kind": made[name].kind, "place": place_words(found.sources.frames_of(made[name]))} for name in made]


def finding_json(finding: Finding, found: Found) -> dict:
    said: dict = dict(with_places(finding.json, found))
    said["known"] = found.is_known(finding)
    said.update({"library": found.reason_of(finding)} if found.reason_of(finding) else {})
    said["level"] = found.level(finding)
    said["verdict"] = (found.remarks(finding) or [""])[-1]
    said["remarks"] = found.remarks(finding)
    said["locks"] = locks_of(finding, found)
    if finding.handler:
        said.update(handler_json(finding.handler, found.sources.symbols), sent_to=finding.handler.sent_to, narrow=finding.is_narrow)
    if finding.judgement and not found.recorded.is_kernels():  # (whose names tell no single locks apart)
        said["judged"] = judged_json(finding.judgement, found)
    if finding.happened:
        said["happened"] = happened_json(finding.happened)
    return said


def judged_json(judgement: Judgement, found: Found) -> dict:
    """The verdict: its word, whether it counts, why nothing is known or shown, and the ring of the history, with how far each task goes on or what keeps
    them apart."""
    said: dict = {"verdict": judgement.verdict.value, "counts": judgement.is_counted}
    said.update({"reason": judgement.reason.value} if judgement.reason else {})
    said.update({"why": judgement.why} if judgement.why else {})
    if judgement.ring:
        said["ring"] = [dict(step_json(waiting.place, found), waits_for=waiting.lock, mode=waiting.mode, holds=[
            dict(place_json(held.event, found), lock=held.key, mode=held.mode) for held in waiting.holds]) for waiting in judgement.ring.waits]
        said["schedule"] = [step_json(place, found) for place in judgement.ring.schedule]
        said["because"] = [forced_json(forced, found) for forced in judgement.ring.because]
    return said


def place_json(event: Event, found: Found) -> dict:
    return {"file": event.file, "record": event.record, "places": frames_of(event, found)}


def step_json(place: Place, found: Found) -> dict:
    return dict({"task": place.task}, **place_json(place.event, found))


def forced_json(forced: Forced, found: Found) -> dict:
    said = dict({"task": forced.task, "by": forced.by}, **(place_json(forced.event, found) if forced.event else {}))
    return dict(said, after=step_json(forced.after, found)) if forced.after else said


def handler_json(handler: Handler, symbols: Symbols) -> dict:
    """A signal and its handler. What isn't known is null."""
    frame = handler.frame(symbols)
    return {"signal": handler.signal, "handler": {"name": frame.function or None, "file": frame.path or None, "line": frame.line or None}}


def signals_json(signals: Signals) -> dict:
    """The handlers that ran and took a lock, and those that never ran."""
    ran = [dict(handler_json(handler, signals.symbols), runs=handler.runs, takes=handler.takes, sent_to=handler.sent_to) for handler in signals.ran]
    return {"ran": ran, "never_ran": [handler_json(handler, signals.symbols) for handler in signals.never]}


def happened_json(happened: Happened) -> dict:
    """The run in which a finding happened, and its threads where they stood still."""
    threads = [{"number": thread.number, "name": thread.name, "locks": thread.locks, "waits": [said_frame(frame) for frame in happened.frames(thread.waits)],
                "took": [said_frame(frame) for frame in happened.frames(thread.holds)]} for thread in happened.threads]
    said = {"run": happened.run, "threads": threads}
    if happened.doubts:
        said.update(seconds=happened.seconds, doubts=list(happened.doubts))
    return dict(said, sent=happened.sent) if happened.sent else said


def blocked_json(thread: Blocked, found: Found) -> dict:
    said = {"type": "blocked", "thread": thread.thread.name, "keys": thread.keys, "sentence": thread.sentence,
            "stands_still": thread.is_cycle}
    said["records"] = [{"file": event.file, "record": event.record, "places": frames_of(event, found)} for event in thread.events]
    return said


def breach_json(breach: Breach, found: Found) -> dict:
    said = {"type": breach.type, "keys": breach.keys, "sentence": breach.sentence, "known": breach in found.known_breaches}
    said["records"] = [{"what": words, "places": frames_of(event, found)} for words, event in breach.lines()]
    return said


def json_of_run(found: Found) -> str:
    """One line for each finding, the new ones first."""
    counts: dict[str, int] = {}
    for finding in found.new:
        counts[finding.verdict.value] = counts.get(finding.verdict.value, 0) + 1
    lines = [compact(finding_json(finding, found)) for finding in found.new + found.known]
    rest = {"blocked": [blocked_json(thread, found) for thread in found.blocked],
            "breaches": [breach_json(breach, found) for breach in found.breaches + found.known_breaches], "waiting": found.waiting,
            "left_out": visible(found.left_out), "summary": found.numbers()}
    if found.signals:
        rest["signals"] = signals_json(found.signals)
    head = compact({"lockdep": VERSION, "counts": counts})
    return '%s,"findings":[\n%s],%s\n' % (head[:-1], ",\n".join(lines) + "\n" if lines else "", compact(rest)[1:])
