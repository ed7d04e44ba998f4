"""What is said of the programs that recorded processes started, and of the libraries that they loaded. (`folder` needs this only where there are some.)"""
from lockdep.finish.libraries import note_others

from . import starts
from .folder import HOME, losses
from .folder import summary as summaries

LONGEST_COMMAND = 160

# The kinds of starts of a Java program's: one whose program isn't looked at yet, and one of a Python.
STARTED, OTHER_PYTHON = "started", "other-python"
OTHERS = (OTHER_PYTHON,) + starts.OTHERS


class Start:
    """A program that a recorded process started."""

    def __init__(self, kind, is_exact, reason, rest):
        self.kind, self.reason = kind, reason
        self.path, *words = rest.split("\t")
        self.words = [word for word in words if word] if is_exact == "1" else []

    def is_of(self, words):
        """Whether a process that these words started may be this one. A script's interpreter comes before the words of its start."""
        return not self.words or words[-len(self.words):] == self.words

    def text(self):
        name = " ".join([self.path] + self.words)
        return name if len(name) <= LONGEST_COMMAND else name[:LONGEST_COMMAND - 3] + "..."


def starts_of(text):
    """The programs that a process started by a line of its file. What a Java program starts is only named there, unless it is Java and recorded too."""
    start = Start(*text.split(" ", 3))
    if start.kind != STARTED:
        return [start]
    kept = []
    for line in starts.from_java([start.path] + start.words):
        found = Start(*line.rstrip("\n")[2:].split(" ", 3))
        if found.kind == starts.PYTHON:
            found.kind, found.reason = OTHER_PYTHON, "python"
        if found.kind != starts.JAVA or start.reason != "recorded":
            kept.append(found)
    return kept


def unreached(processes, started):
    """The starts of Pythons that weren't recorded: those that none of the processes is. What is known best comes first."""
    left = [process.words for process in processes if process.words is not None]
    pythons = [start for start in started if start.kind == starts.PYTHON]
    found = []
    for start in sorted(pythons, key=lambda start: -len(start.words)):
        own = next((words for words in left if start.is_of(words)), None) if start.reason == "-" else None
        if own is None:
            found.append(start)
        else:
            left.remove(own)
    return found


def count_of(code, of, is_counted=True, reasons=losses.REASONS_OF_STARTS):
    """Starts as a count of SUMMARY, with how often there was each. They are named even if they don't count as left out."""
    times = {}
    for start in of:
        line = start.text(), reasons.get(start.reason)
        times[line] = times.get(line, 0) + 1
    notes = ["  " + summaries.File(text, count, why).text(None) for (text, why), count in times.items()]
    words = losses.words_of_loss(code, "python")
    return [summaries.Count(code if is_counted else code + ", not counted", len(of) if is_counted else None, words, notes)] if of else []


def counts_of(processes, is_chosen):
    """The counts of all programs that the processes started. Those with locks of other kinds count as left out unless the user chose this recorder."""
    started = [start for process in processes for text in process.starts for start in starts_of(text)]
    return (count_of("unreached-runs", unreached(processes, started)) +
            count_of("pthread-runs", [start for start in started if start.kind == starts.PTHREAD], not is_chosen, {}) +
            count_of("other-runs", [start for start in started if start.kind in OTHERS], not is_chosen))


def add_libraries(summary, libraries, is_chosen):
    """Adds the libraries that have locks to a summary: of each its path, and whether its locks of pthreads are recorded."""
    found = [summaries.File(path) for path, is_watched in libraries if not is_watched and starts.calls_pthreads(path)]
    summary.add("passed-pthreads" if is_chosen else "other-pthreads", found)
    note_others(HOME, summary, list(dict.fromkeys(path for path, _ in libraries)), is_chosen)
