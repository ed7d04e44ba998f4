"""Makes the sets of traces of signals' handlers. In that of a handler its runs are hardware interrupts, and hardirqs are on in the main thread
where it may come in. The other threads' code has them off, since Python runs handlers in the main thread only."""
from __future__ import annotations

import os

from ..record import folder as driver, summary
from . import finishing

MOST_SETS = 32


class Source:
    """A handler of a signal, as a process tells it."""

    def __init__(self, signal, name, file, line, ordinal):
        self.signal, self.name, self.file, self.line = signal, name, file, line
        self.place = signal, name, file, line
        self.key = self.place + (ordinal,)

    def said(self):
        return {"signal": self.signal, "handler": self.name, "module": None, "offset": None, "file": self.file or None, "line": self.line or None}


class Set:
    """The traces of a handler's set, one after the other."""

    def __init__(self, key, reentrant):
        self.key, self.reentrant = key, reentrant

    def of_trace(self, trace):
        """The lines of a trace in this set, and their places."""
        made = Lines(trace)
        for number, (part, start, end) in enumerate(trace.segments):
            is_last = number == len(trace.segments) - 1
            is_main = part.source_key is not None or part.is_main
            lines = [trace.by_lock[at] for at in range(start, end)]
            lines = [as_readers(line, self.reentrant) for line in lines] if is_main else lines
            if part.source_key == self.key:
                made.add_line("enter,hardirq")
                made.add([without_waits(line) if at in trace.ending else line for at, line in enumerate(lines, start)], start)
                made.add_releases(trace if is_last else None)
                made.add_line("leave")
            if part.source_key != self.key or self.key in part.state:
                made.turn(self.key in part.state)
                made.add(lines, start)
                made.add_releases(trace if is_last and part.source_key == self.key else None)
        return made


class Lines:
    """Lines of a trace, with the places of their records."""

    def __init__(self, trace):
        self.lines, self.places, self.is_on, self.places_of = [finishing.HEADER], [], True, {}
        for text in trace.places:
            number, _, place = text.partition(" ")
            self.places_of.setdefault(int(number), []).append(place)

    def add_line(self, line):
        self.lines.append(line)

    def turn(self, is_on):
        if is_on != self.is_on:
            self.add_line("on,hardirq" if is_on else "off,hardirq")
            self.is_on = is_on

    def add(self, lines, start):
        """Adds lines that begin at this one in the trace of the threads."""
        for at, line in enumerate(lines, start):
            self.add_line(line)
            self.places += ["%d %s" % (len(self.lines), place) for place in self.places_of.get(at + 1, [])]

    def add_releases(self, trace):
        """What is held at a trace's end is given back."""
        for taken in reversed(trace.held if trace is not None else []):
            if taken.lock is not None:
                self.add_line(taken.end_of_lock)


def as_readers(line, reentrant):
    """In the main thread a lock that its holder takes again doesn't make that wait, but other threads."""
    if line.startswith("acq,"):
        name, _, mode = line[4:].rpartition(",0,")
        if name in reentrant:
            return "acq,%s,0,%s" % (name, "trr" if mode == "tw" else "rr" if mode == "w" else mode)
    return line


def without_waits(line):
    """A wait in a handler that ends by itself, as a try."""
    before, _, mode = line.rpartition(",")
    return line if mode.startswith("t") or not line.startswith("acq,") else "%s,t%s" % (before, mode)


def taken_in(trace):
    """The locks that each handler waits for in a trace."""
    found = {}
    for part, start, end in trace.segments:
        if part.source_key is not None:
            lines = [trace.by_lock[at] for at in range(start, end) if at not in trace.ending]
            found.setdefault(part.source_key, set()).update(line[4:-2] for line in lines if line.startswith("acq,") and line.endswith(",w"))
    return found


def write_list(folder, name, said):
    import json
    rows = ",\n".join(json.dumps(each) for each in said)
    summary.put(os.path.join(folder, driver.SIGNALS, name), "[\n%s\n]\n" % rows if rows else "[]\n")


def handlers_of(processes):
    """The handlers of all processes by their keys, and how often each ran."""
    sources, runs = {}, {}
    for process in processes:
        for number, source in process.sources.items():
            sources.setdefault(source.key, source)
            runs[source.key] = runs.get(source.key, 0) + process.runs.get(number, 0)
    return sources, runs


def write_sets(folder, processes, traces, reentrant, tally):
    """Writes the sets of the handlers that took a lock, and which ones never ran. The traces come with their names. Returns lines of SUMMARY."""
    sources, runs = handlers_of(processes)
    if not sources:
        return []
    takes = {}
    for _, trace in traces:
        for key, locks in taken_in(trace).items():
            takes.setdefault(key, set()).update(locks)
    taking = [key for key in sources if takes.get(key)]
    tally.add("handlers-beyond-sets", max(0, len(taking) - MOST_SETS))
    os.makedirs(os.path.join(folder, driver.SIGNALS), exist_ok=True)
    said = [dict(sources[key].said(), number=number, runs=runs[key], sent_to="process", takes=len(takes[key]), narrow=[], one_thread=True)
            for number, key in enumerate(taking[:MOST_SETS], 1)]
    for number, key in enumerate(taking[:MOST_SETS], 1):
        write_set(os.path.join(folder, driver.SIGNALS, str(number)), Set(key, reentrant), traces)
    ran = {sources[key].place for key, count in runs.items() if count}
    never = {source.place: source for source in sources.values() if source.place not in ran}
    write_list(folder, driver.OF_SIGNALS[0], said)
    write_list(folder, driver.OF_SIGNALS[1], [source.said() for source in never.values()])
    return [summary.Count("signal %s %s runs %d takes %d sent-to process" % (each["signal"], each["handler"], each["runs"], each["takes"]), None)
            for each in said]


def write_set(folder, of, traces):
    os.makedirs(folder, exist_ok=True)
    for name, trace in traces:
        made = of.of_trace(trace)
        path = os.path.join(folder, name + ".csv")
        finishing.write_lines(path, made.lines)
        finishing.write_lines(path + ".places", made.places)
