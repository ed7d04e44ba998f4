"""What `lockdep provoke` made happen: the file `provoked.json` of a recording, and where the threads in it stood still, in words."""
from __future__ import annotations

from dataclasses import replace

from ..program.findings import Finding
from ..program.verdicts import Reason, Verdict
from ..record.provoked import Happened, attempts_of, happened_of, read_provoked, say_damaged, text_of_place

TURNED_OFF = "turned_off"  # what the file has of a finding whose threads turned off from the schedule, in words
LINES = ("locks", "lines")
THREADS = "threads"  # what it has of one that happened


# ---- The file.


def lines_of(number: int, finding: Finding | None) -> dict:
    """A finding, which may be none of those that were found. Its lines are also those between single locks."""
    inner = finding.between.finding if finding and finding.between else None
    return {"finding": number, "lines": finding.lines if finding else [], "locks": inner.lines if inner else []}


def entry_of(number: int, finding: Finding | None, happened: Happened, builds: tuple[str, ...] = (), core: str = "") -> dict:
    """What the file has of a finding that happened."""
    doubts = {"seconds": happened.seconds, "doubts": list(happened.doubts)} if happened.doubts else {}
    others = {name: value for name, value in (("sent", happened.sent), ("modules", list(builds)), ("core", core)) if value}
    threads = [{"number": thread.number, "name": thread.name, "locks": thread.locks, "holds": [text_of_place(place) for place in thread.holds],
                "waits": [text_of_place(place) for place in thread.waits]} for thread in happened.threads]
    return dict(lines_of(number, finding), run=happened.run, **doubts, **others, threads=threads)


def entry_of_none(number: int, finding: Finding, why: str, turned_off: str) -> dict:
    """The same of one that didn't, and why not; perhaps because its threads turned off from its schedule."""
    return dict(lines_of(number, finding), why=why, **({TURNED_OFF: turned_off} if turned_off else {}))


def with_earlier(said: dict, all_said: list[dict], runs: int, again: str) -> list[dict]:
    """What is known by all runs: an entry in the place of an earlier one of its finding. What happened once isn't forgotten."""
    earlier = next((other for other in all_said if said["lines"] and other.get("lines") == said["lines"]), {})
    kept = earlier if THREADS in earlier and THREADS not in said else {}
    counts = {"runs": int(earlier.get("runs", 0)) + runs, "times": int(earlier.get("times", 0)) + (THREADS in said)}
    return [other for other in all_said if other is not earlier] + [{**kept, **said, "again": again, **counts}]


def take_happened(findings: list[Finding], folder: str) -> None:
    """Takes note of what happened, and of whose threads turned off. A file that `provoke` didn't write says nothing, and is named."""
    try:
        known = {tuple(said[name]): (happened_of(said) if THREADS in said else None, attempts_of(said), str(said.get(TURNED_OFF, "")))
                 for said in read_provoked(folder) for name in LINES if said[name]}
    except (ValueError, KeyError, TypeError):
        return say_damaged(folder)
    for finding in findings:
        finding.happened, finding.attempts, turned_off = known.get(tuple(finding.lines), (None, None, ""))
        if turned_off and not finding.happened:
            turn_off(finding, turned_off)


def turn_off(finding: Finding, words: str) -> None:
    """What is possible by locks isn't shown any more if a run turned off from its schedule."""
    if finding.judged and finding.judged.verdict in (Verdict.POSSIBLE, Verdict.BY_JOIN):
        finding.judged = replace(finding.judged, verdict=Verdict.NOT_SHOWN, reason=Reason.TURNED_OFF, why=words)
