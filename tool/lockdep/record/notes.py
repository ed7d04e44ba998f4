"""What stands under a count of a summary, a line each: who waited, what was dropped, which traces stand for others. A recorder in C writes the
values alone."""
from __future__ import annotations

from .losses import counted

WAITING, HELD_AT_END = "waiting", "held-at-end"
TRACE = "task-"  # what the name of a trace begins with


def of_end(trace: str, held: list[str], is_waiting: bool) -> str:
    """What a thread held at its end. If it waited, that was for the last of these locks."""
    if not is_waiting:
        return "%s ended holding %s" % (trace, ", ".join(held))
    before = ", holding " + ", ".join(held[:-1]) if len(held) > 1 else ""
    return "%s waits for %s%s" % (trace, held[-1], before)


def of_breach(said: dict) -> str:
    """What a program did against what it says of its locks, and where."""
    at = "".join(words + said[member] for member, words in (("at", ": at "), ("since", ", held since ")) if member in said)
    return "%s%s, %s" % (said["what"], at, counted(said["times"], "time"))


def of_dropped(classes: list, are_more: bool) -> str:
    """The classes that were dropped most often."""
    named = ["%s (%d)" % (name, number) for name, number in classes]
    return "dropped, as the oldest that was held: " + ", ".join(named + ([".."] if are_more else []))


def of_stand_in(trace: str, others: int) -> str:
    return "  %s stands for %d of them" % (trace, others)


def of_signal(said: dict) -> str:
    """A line of its own, about a signal's handler that ran."""
    return "signal %s %s runs %d takes %d sent-to %s" % (said["signal"], said["handler"], said["runs"], said["takes"], said["sent_to"])


def of_entry(entry: dict) -> list[str]:
    """The lines of an entry of summary.json: they are written out, or made of the values that a recorder in C writes."""
    if "notes" in entry:
        return entry["notes"]
    lines = [of_end(end[0], end[1:], entry["code"] == WAITING) for end in entry.get("ends", [])]
    lines += [of_breach(breach) for breach in entry.get("breaches", [])]
    lines += ["%d: %s" % (number, reason) for number, reason in entry.get("reasons", [])]
    lines += [of_dropped(entry["dropped"], entry.get("more", False))] if "dropped" in entry else []
    return lines + [of_stand_in(trace, others) for trace, others in entry.get("stand_ins", [])]

def stood_in_for(line: str) -> tuple[str, int] | None:
    """The trace of a line of `of_stand_in`, and how many others that is; none of another line."""
    words = line.split()
    return (words[0], int(words[3])) if words[1:3] == ["stands", "for"] else None
