"""What is said at the end of a recording: what was recorded, what was left out, and why nothing was seen."""
from __future__ import annotations

import os

from ..base.saying import say
from ..record import losses
from ..record.folder import SIGNALS as SIGNALS_FOLDER, modules_of
from ..record.losses import counted
from ..record.summary import Summary, recorder_of
from .advice import ADVICE, advice_of

# Statuses of `record --summary`. That of a recording's end has no difference between the first two.
ALL, LEFT_OUT, NOTHING = 0, 1, 2

HIGHEST_STATUS = 128  # above it, a signal has ended the command

# Modules whose locks are nobody's: those of the loader, the C library with its modules, and the recorder, which has the class `loader`.
NOBODYS = ("ld-linux", "libc.so", "libnss_", "libstdc++.so", "libgcc_s.so")
# The tools that build Rust programs.
RUST_TOOLS = ("cargo", "rustc", "rustdoc", "rustup", "rustfmt", "clippy-driver")
JAVA_LIBRARIES = tuple("lib%s.so" % name for name in "jvm jli java zip net nio jimage jsvml verify management".split())

TYPE_CHECKING = False  # for a tool that checks types, it is true
if TYPE_CHECKING:
    from typing import Sequence

SAYS_NOTHING = "so a report of this recording says nothing of "


def say_what_was_seen(folder: str, summary: Summary, ended: int | None = None, is_all_own: bool = False,
                      accepted: Sequence[str] = ()) -> int:
    """Says what was recorded and why nothing was; `ended` is the command's status, if it has just ended. The result is NOTHING if nothing of
    the program was seen, or nothing of one of its processes. All locks are the program's own if the recorder sees no others."""
    say_counts(folder, summary)
    say_advice(folder, summary, accepted)
    say_lists(summary)
    reasons = summary.reasons()
    if summary.number("library-only") and "library-only" not in accepted:
        say_library_only(summary)
        return NOTHING
    is_seen = summary.operations() and not has_only_signals(summary) and (is_all_own or whose_locks(folder, summary) == "some")
    if not is_seen and not has_handlers(folder):
        return ALL if say_idle_handlers(folder, summary) else say_nothing_seen(summary, reasons, ended)
    if summary.number("refused-processes"):
        say("a program wasn't reached, %sit:" % SAYS_NOTHING)
        say_reasons(summary, ["no-file"])
        return NOTHING
    say_handlers(folder)
    say_files(summary, "semaphore-files", SEMAPHORES)
    say_files(summary, "futex-files", FUTEXES)
    if summary.number("signal-semaphores"):
        say(counted(summary.number("signal-semaphores"), *SIGNALS) + " began at 0, or was posted by a thread that hadn't taken it")
    say_partly(summary, reasons)
    return ALL


def say_what_was_seen_of_own(folder: str, summary: Summary) -> int:
    """The same of a recorder that sees only the program's own locks. The result is LEFT_OUT if something was left out."""
    return say_what_was_seen(folder, summary, is_all_own=True) or (LEFT_OUT if summary.left_out() else ALL)


def status_of_summary(folder: str, summary: Summary, accepted: Sequence[str]) -> int:
    """Says it all again. The status is also about what was left out, unless its code is accepted."""
    seen = say_what_was_seen(folder, summary, accepted=accepted)
    is_lost = say_accepted(summary, accepted)
    if summary.number("library-only") and "library-only" not in accepted:  # of what the standard library does with its own locks, findings are shown
        return LEFT_OUT
    return seen or (LEFT_OUT if is_lost else ALL)


def say_accepted(summary: Summary, accepted: Sequence[str]) -> bool:
    """Says what is accepted as left out. The result is whether more than that was left out."""
    lost = [count.code for count in summary.counts if count.lost()]
    taken = [code for code in lost if code in accepted]
    if taken:
        say("accepted as left out: " + ", ".join(taken))
    return len(taken) < len(lost)


def say_counts(folder: str, summary: Summary) -> None:
    lost = ", ".join(summary.left_out())
    say("%s, %s, %s, %s%s" % (counted(summary.number("processes"), "process", "processes"), counted(summary.number("threads"), "thread"),
                              counted(summary.operations(), "operation"), counted(summary.number("classes"), "class", "classes"),
                              "; left out: " + lost if lost else ""))
    of_libraries = summary.number("library-threads")
    if of_libraries:
        say("%s took locks of C libraries, and %s for these" % (
            counted(of_libraries, "thread"), "has a trace of its own" if of_libraries == 1 else "have traces of their own"))
    if lost:
        say("a clean report says nothing of what was left out; %s says more" % os.path.join(folder, "SUMMARY"))


def say_advice(folder: str, summary: Summary, accepted: Sequence[str]) -> None:
    """What is to be done about what was left out. A program of which nothing was seen can't be accepted, and its reason says what to do."""
    without_advice = (*accepted, "refused-processes")
    lost = [count.code for count in summary.counts if count.lost() and count.code in ADVICE and count.code not in without_advice]
    if lost:
        recorder = recorder_of(folder)
        say_lines("to have all of it judged, do as follows, or accept it by `lockdep run --accept-left-out CODE`:",
                  ["%s: %s" % (code, advice_of(code, recorder)) for code in lost])


# ---- What is listed.

OTHERS = ("other-programs", "passed-programs")

# What is said before the lines that stand under a count, and what behind them: (codes, before, the code that needs it, behind).
LISTS: tuple[tuple[tuple[str, ...], str, str, str], ...] = (
    (("unreached-runs",), "the recorder isn't loaded into these, %stheir own locks:" % SAYS_NOTHING, "", ""),
    (("rust-programs",), "no lock of Rust was seen in these, so a report of this recording says nothing of such locks:", "", ""),
    (OTHERS, "these have other locks than those of pthreads, and a report of this recording says nothing of them:", "other-programs",
     "if these don't matter, as tools of a build, `--recorder pthread` has the rest judged"),
    (("sanitizer-programs",), "not everything is seen in these:", "", ""),
    (("parking-lot", "passed-parking-lot"), "locks of parking_lot weren't looked at, and no recorder sees them. These programs have some:", "parking-lot",
     "if these don't matter, `--recorder rust` has the rest judged"),
    (("std-locks", "passed-std-locks"), "locks of the standard library itself weren't looked at. These crates take some:", "std-locks",
     "if these don't matter, `--recorder rust` has the rest judged"),
    (("unknown-std-locks",), "whether crates take locks of the standard library itself isn't known of these, which have no debug information:", "", ""),
    (("other-libraries", "passed-libraries"), "these libraries have other locks than those of pthreads, and a report of this recording says nothing of them:",
     "other-libraries", "if these don't matter, name the recorder of the program's own locks by --recorder, and the rest is judged"),
    (("other-pthreads",), "locks of pthreads weren't looked at: `--recorder pthread` sees them. These files take such locks:", "other-pthreads",
     "if these don't matter, name the recorder of the program's own locks by --recorder, and the rest is judged"),
    (("passed-pthreads",), "locks of pthreads weren't looked at: `--recorder pthread` sees them. These files take such locks:", "", ""),
)
# The same of the recorders of Python and Java, which name what was started even if it isn't counted as left out.
RUNS: tuple[tuple[str, str], ...] = (
    ("pthread-runs", "locks of pthreads weren't looked at in these: `lockdep run --recorder pthread` sees them:"),
    ("other-runs", "these have locks that this recorder doesn't see, so record them by themselves:"),
)


def say_lists(summary: Summary) -> None:
    say_notes(summary)
    for codes, before, code, behind in LISTS:
        if any(summary.number(each) for each in codes):
            say_lines(before, summary.listed(*codes))
            if code and summary.number(code):
                say(behind)
    for word, before in RUNS:
        for count in summary.counts:
            if count.code.startswith(word):
                say_lines(before, count.listed(summary.home))
    say_of_traces(summary)
    say_of_python(summary)


def say_lines(before: str, lines: list[str]) -> None:
    say(before)
    for line in lines:
        say("  " + line)


HEADS = {
    "waiting": "waiting for a lock at the end, which is what a deadlock looks like:",
    "held-at-end": "ended with a lock held:",
    "out-of-order": "taken against the order that the program says:",
    "not-held": "not held where the program says that it is:",
}


def say_notes(summary: Summary) -> None:
    """Who waited for a lock or held one at the end, and what was done against what the program says of its locks."""
    for count in summary.counts:
        if count.number and count.code in HEADS:
            say_lines(HEADS[count.code], count.notes)


def say_of_traces(summary: Summary) -> None:
    """What is to be done about what was left out of traces by lockdep_record.h."""
    if summary.number("unplaced-traces"):
        say("call ldr_places, whose file tells the end of a trace (%s)" % losses.readme_of("embed", summary.home))
    if summary.number("unread-files"):
        count = summary.find("unread-files")
        say_lines("only files named task-0001.csv and so on are read, beside the other traces; these aren't:", count.listed(summary.home) if count else [])


def has_handlers(folder: str) -> bool:
    """Whether a signal handler took something: a lock, or one inside the C library, as by malloc, in a program that may take no other."""
    if not os.path.lexists(os.path.join(folder, SIGNALS_FOLDER)):
        return False
    from ..ask.signals import Signals
    return bool(Signals(folder).ran)


def idle_handlers(folder: str, summary: Summary) -> int:
    """How many signal handlers ran and took nothing, in a program that takes no locks by itself. 0 if another handler is installed, of which nothing is
    known, or if locks may have been missed."""
    from ..ask.signals import Signals
    idle = [count for count in summary.counts if count.code.startswith("signal ") and " takes 0 " in count.code]
    is_all = set(summary.reasons()) <= {"no-pthread-import"} and not others(summary) and not summary.left_out() and not summary.number("semaphore-files")
    return len(idle) if idle and is_all and not Signals(folder).never else 0


def say_idle_handlers(folder: str, summary: Summary) -> bool:
    """Says that no signal finds a lock held, if that is so. Whether it is."""
    idle = idle_handlers(folder, summary)
    if idle:
        say("%s ran, and took nothing; the program takes no lock by itself" % counted(idle, "signal handler"))
    return idle > 0


def say_handlers(folder: str) -> None:
    """Which signal handlers never ran, and which signals were sent to single threads alone."""
    if os.path.lexists(os.path.join(folder, SIGNALS_FOLDER)):
        from ..ask.signals import Signals
        for line in Signals(folder).lines():
            say(line)


def say_of_python(summary: Summary) -> None:
    unlooked = summary.number("multiprocessing")
    if unlooked:
        say("%s of multiprocessing %s looked at" % (counted(unlooked, "lock"), "wasn't" if unlooked == 1 else "weren't"))
    for name in ("gevent", "eventlet"):
        if summary.number(name):
            say("%s was loaded, whose own locks weren't looked at: only those that take the place of threading's" % name)


# ---- Why nothing was seen, or not everything.

def say_reasons(summary: Summary, reasons: list[str]) -> None:
    for reason in reasons:
        say("  " + losses.sentence(reason, summary.home))


def say_library_only(summary: Summary) -> None:
    say("no lock of the program's own was seen, %sit. Likely reasons:" % SAYS_NOTHING)
    say("  the standard library made all that were seen for itself, as `logging` does when it is imported")
    say("  " + losses.sentence("python-nothing").replace("took no lock", "took no other lock"))


def others(summary: Summary) -> int:
    return sum(summary.number(code) for code in OTHERS)


def say_nothing_seen(summary: Summary, reasons: list[str], ended: int | None) -> int:
    """Says that, and why. The result is NOTHING."""
    is_by_itself = "embed-off" in reasons or "embed-empty" in reasons  # nothing is loaded into such a program
    if not summary.number("processes") and not is_by_itself:
        say("no process was recorded: the recorder wasn't loaded into any")
    for code, reason in (("semaphore-files", "semaphores"), ("futex-files", "futexes"), ("signal-semaphores", "signals")):
        reasons = reasons + [reason] if summary.number(code) else reasons
    if others(summary):  # these are said already
        reasons = [reason for reason in reasons if reason not in losses.OTHER_LANGUAGES]
    is_told = others(summary) + summary.number("unreached-runs") > 0
    if is_told and reasons in ([], ["no-pthread-import"]):
        say("no lock of the program's own was seen, %sit, for that reason" % SAYS_NOTHING)
        return NOTHING
    say("no lock of the program's own was seen, %sit. Likely reasons:" % SAYS_NOTHING)
    say_reasons(summary, reasons)
    if not reasons:
        before = " before it ended with status %d" % ended if (ended or 0) > HIGHEST_STATUS else ""
        say("  none is known: it took no lock%s, or its locks are not those of pthreads" % before)
    if reasons in ([], ["no-pthread-import"]):
        say("record what takes locks, as a test of the program or a server under load, and not what builds it")
    return NOTHING


SEMAPHORES = "the semaphores of %s weren't looked at as locks: with LOCKDEP_ALSO=sem in the environment they are recorded as mutexes"
FUTEXES = "the waits of %s by std::future, std::counting_semaphore or std::atomic aren't seen: what they keep apart may be called possible"

SIGNALS = ("semaphore was left out as no lock: it", "semaphores were left out as no locks: each")


def has_only_signals(summary: Summary) -> bool:
    """Whether semaphores were seen that are no locks, and nothing else."""
    return summary.number("signal-semaphores") > 0 and not summary.number("classes")


def say_files(summary: Summary, code: str, words: str) -> None:
    """The files of which something wasn't looked at, in one line."""
    files = summary.listed(code)
    if files:
        more = summary.number(code) - 1
        say(words % (files[0] + (" and " + counted(more, "other file") if more else "")))


def say_partly(summary: Summary, reasons: list[str]) -> None:
    """What isn't all seen, but for what is said already."""
    said: tuple[str, ...] = ()
    if summary.number("rust-programs"):
        said += ("rust",)
    if summary.number("sanitizer-programs"):
        said += ("sanitizer",)
    if others(summary):
        said += losses.OTHER_LANGUAGES
    partly = [reason for reason in reasons if reason in losses.PARTLY and reason not in said]
    if partly:
        say("not everything is seen:")
        say_reasons(summary, partly)


# ---- Whose locks were seen.

def whose_locks(folder: str, summary: Summary) -> str:
    """`some` of the program's, only those of an `interpreter`, or `none`. The one lock of Go's runtime, with which a program in Go waits until
    that is there, is nobody's."""
    if not summary.operations():
        return "none"
    try:
        modules = modules_of(folder)
    except OSError:
        return "some"
    names = [name for name in (module.rpartition("/")[2] for module in modules) if not is_nobodys(name)]
    own = len([name for name in names if is_interpreters(name)])
    if "go" in summary.reasons() and len(names) == 1:
        return "none"
    if len(names) > own or not modules:
        return "some"
    return "interpreter" if names else "none"


def is_nobodys(name: str) -> bool:
    is_rusts = name in RUST_TOOLS or name.startswith(("cargo-", "librustc_driver-")) or (name.startswith("libLLVM") and "-rust-" in name)
    return name in ("-", "preload.so") or name.startswith(NOBODYS) or is_rusts


def is_interpreters(name: str) -> bool:
    is_python = any(name.startswith(each) and not name[len(each):].strip("0123456789.") for each in ("python", "pypy"))
    return is_python or name.startswith(("libpython", "libpypy")) or name == "java" or name in JAVA_LIBRARIES
