"""What a recording can lack: each reason and each count by its code, with its sentence."""
from __future__ import annotations


# ---- Why no lock was seen, or why a program wasn't recorded: code → sentence. README:NAME in brackets becomes the place of that document.

ONLY_THE_RUNTIMES = "only the runtime's own are seen, and no recorder sees the program's"
REASONS: dict[str, str] = {
    "not-run": "the command couldn't be run",
    "embed": "it contains lockdep_record.h, whose locks are seen by `lockdep run --recorder embed`",
    "openmp": "it takes locks of OpenMP, which are not those of pthreads",
    "python-lock": "it takes locks of Python's C API, by PyThread_acquire_lock or PyMutex_Lock",
    "static": "it is linked statically, so nothing can be preloaded into it",
    "setuid": "it is set-user-id or has capabilities, so the loader preloads nothing into it",
    "other-machine": "it is a program of another word size or machine than the recorder",
    "other-libc": "its C library is not glibc",
    "alone": "it is started without LD_PRELOAD, as by env -i",
    "go": "it is written in Go, whose locks are not those of pthreads; those of package sync are seen if it is built by `lockdep record --recorder go "
          "-- go build`, or run by `lockdep run -- go run`",
    "go-built": "it is built to be recorded, by `lockdep run --recorder go`",
    "go-untold": "it is built to be recorded, and was started without LOCKDEP_TRACES in its environment",
    "rust": "it is written in Rust, or a part of it is: locks of Rust are not those of pthreads; `lockdep run --recorder rust` sees them if "
            "the program uses the crate lockdep_record",
    "rust-plain": "it isn't built to be recorded. If it uses the crate lockdep_record, type RUSTFLAGS='--cfg lockdep' lockdep run -- "
                  "cargo run --target-dir target/lockdep",
    "rust-built": "it is built to be recorded, by `lockdep run --recorder rust`",
    "rust-gone": "it is gone or was started elsewhere, and may be written in Rust, since a tool of Rust's ran",
    "rust-tool": "its own locks are all that was seen, and not those of what it builds",
    "libpython": "it runs Python, or is linked with Python, whose threading.Lock is not a pthread lock: only the interpreter's own locks are seen; "
                 "`lockdep run --recorder python` sees the program's",
    "libjvm": "it runs Java, whose locks are not those of pthreads: only the virtual machine's own locks are seen; "
              "`lockdep run --recorder java` sees the program's",
    "mono": "it runs Mono, whose `lock` and Mutex are not pthread locks: " + ONLY_THE_RUNTIMES,
    "dotnet": "it runs .NET, whose `lock` and Mutex are not pthread locks: " + ONLY_THE_RUNTIMES,
    "haskell": "it is written in Haskell, or a part of it is, whose MVars are not pthread locks: " + ONLY_THE_RUNTIMES,
    "ocaml": "it runs OCaml with threads, whose Mutex.lock tries a pthread lock first and waits only if that fails: orders are seen only "
             "where it waited",
    "perl": "it is the module by which Perl's threads share variables, whose `lock` is not a pthread lock: " + ONLY_THE_RUNTIMES,
    "guile": "it runs Guile, whose mutexes are not pthread locks: " + ONLY_THE_RUNTIMES,
    "erlang": "it runs Erlang, whose processes and drivers wait by locks of its own: " + ONLY_THE_RUNTIMES,
    "node": "it runs JavaScript in Node.js, whose workers wait by Atomics, and not by pthread locks: " + ONLY_THE_RUNTIMES,
    "ruby": "it runs Ruby, whose Mutex and Monitor are not pthread locks: " + ONLY_THE_RUNTIMES,
    "glib": "it takes mutexes of GLib, as by g_mutex_lock, which wait by futexes and are not pthread locks: no recorder sees them",
    "futex": "it waits by futexes itself, as std::counting_semaphore and std::atomic do, and takes no pthread lock: no recorder sees that",
    "sanitizer": "it is built with a sanitizer, which hides the memory of C++ objects: a lock in one is known by where it is first taken, so "
                 "orders may be missed or wrong; record a build without it",
    "python-nothing": "it took no lock of threading or asyncio; the interpreter's own are seen by `--recorder pthread`",
    "python-off": "no Python was started, or one without its environment, as by -I, -E, -S or env -i",
    "java-nothing": "its own classes took no monitor and no lock of java.util.concurrent.locks, but perhaps by reflection or a MethodHandle, which "
                    "isn't seen, or none of them was loaded; those of the JDK are seen if LOCKDEP_JAVA_JDK names them ({README:java})",
    "java-off": "no Java came as far as loading the recorder: none was started, or one without its environment, as by env -i, or it ended "
                "before that",
    "rust-nothing": "it took none of the locks of the crate lockdep_record, as if what takes locks uses std::sync itself",
    "rust-off": "nothing that was run is built with the crate lockdep_record and `--cfg lockdep`, as by RUSTFLAGS='--cfg lockdep', or it runs "
                "without its environment, as by env -i",
    "go-nothing": "it took no sync.Mutex and no sync.RWMutex",
    "go-off": "nothing that was run is built to be recorded, as `go run`, `go test` and `lockdep record --recorder go -- go build` build it, or it "
              "runs without its environment, as by env -i",
    "embed-nothing": "no lock was taken: is ldr_acquire called where locks are taken, and ldr_end or ldr_flush before the end?",
    "embed-off": "nothing wrote a trace, task-0001.csv, to the folder that the environment variable LOCKDEP_TRACES names ({README:embed})",
    "embed-empty": "its traces are empty: call ldr_flush for each task that hangs, as from a watchdog or when SIGINT comes in, and fflush if "
                   "put writes with fwrite ({README:embed}, step 3)",
    "taken-over": "another recording was begun in it, which took over: what that ran is in a folder of its own",
    "no-file": "no file could be made for its recording, as under a limit of memory or of a file's size: raise it (`ulimit -v`, `ulimit -f`)",
    "signals": "the semaphores that it takes are no locks: they began at 0, or were posted by a thread that hadn't taken them",
    "futexes": "it waits by std::future, std::counting_semaphore or std::atomic, which no recorder sees",
    "semaphores": "it takes semaphores, which are looked at only with LOCKDEP_ALSO=sem in the environment",
    "no-pthread-import": "nothing in it calls a pthread lock by itself",
}

# What the recorders of Python and Java have as the reason of a program that they didn't record.
REASONS_OF_STARTS: dict[str, str] = {
    "-": "it wrote nothing, as where it ended at once",
    "-E": "it is started with -E, which hides the recorder from it",
    "-I": "it is started with -I, which hides the recorder from it",
    "-S": "it is started with -S, which hides the recorder from it",
    "java": "it is a Java program",
    "go": "it is written in Go",
    "rust": "it is a Rust program with the crate lockdep_record",
    "embed": "it has lockdep_record.h",
    "python": "it is a Python program",
    "environment": "it is started without the environment that loads the recorder",
}

# Whoever sees only these of a program has seen locks that aren't the program's own.
OTHER_LANGUAGES = ("libpython", "libjvm", "go")
PARTLY = OTHER_LANGUAGES + ("rust", "sanitizer", "taken-over")
NOT_LOADED = ("static", "setuid", "other-machine", "other-libc")  # the recorder isn't loaded into such a program


def sentence(code: str, home: str | None = None) -> str:
    """What a reason means. A code that isn't known, as of a newer recorder, stands for itself."""
    text = REASONS.get(code, code)
    at = text.find("{README:")
    if at < 0:
        return text
    end = text.index("}", at)
    return text[:at] + readme_of(text[at + len("{README:"):end], home) + text[end + 1:]


def readme_of(recorder: str, home: str | None) -> str:
    """Where the README of a recorder is: beside it, or where it is installed."""
    import os
    for folder in ("recorders", "../../share/doc/lockdep/recorders"):
        path = os.path.join(home or "", folder, recorder, "README.md")
        if home and os.path.isfile(path):
            return os.path.realpath(path)
    return "recorders/%s/README.md" % recorder


# ---- Counts: code → what is counted. What stands before the colon is what was left out, and behind it what follows from that.

AN_ORDER = ": an order among them may be missing"
COUNTS: dict[str, tuple[str, ...]] = {  # several sentences if recorders count different things by one code
    "refused-processes": ("programs for which no file could be made, as under a limit: nothing of them was recorded",),
    "small-files": ("programs with a limit that left little room for their recording: what didn't fit is counted below",),
    "lost-threads": ("calls of threads for which there was no room: none of their orders was recorded", "traces without a single byte"),
    "no-room": ("acquisitions for which there was no room" + AN_ORDER,),
    "unknown-memory": ("pieces of memory for which there was no room in a table: locks in them are known by who takes them first",),
    "full-traces": ("acquisitions after a thread's first 1,000,000 events" + AN_ORDER,),
    "beyond-classes": ("acquisitions of classes beyond 8,192: no order that they are part of was recorded",),
    "beyond-traces": ("threads beyond 4,096 whose traces are like no other: nothing of them was recorded",
                      "threads beyond 4,096 traces: nothing of them was recorded"),
    "fork-handlers": ("acquisitions by handlers of fork with 48 locks held already, as an allocator takes all of its own: an order among "
                      "these may be missing",),
    "handlers-beyond-sets": ("handlers that took locks, beyond the first 32: what they interrupt wasn't looked at",),
    "unfollowed-handlers": ("times that a signal's handler was set for which there was no room: its locks count as taken by what it interrupted",
                            "runs of signal handlers beyond the first 64 of a process: the locks that they took count as taken by what they "
                            "interrupted"),
    "masks-unknown": ("runs of signals' handlers that met another mask than was known, as after a direct system call: what may be interrupted there "
                      "isn't certain",),
    "unknown-signals": ("times that there was no room for which signals may interrupt: what they interrupt there isn't known",),
    "beyond-held": ("acquisitions with 48 locks held already" + AN_ORDER, "acquisitions with 48 locks held already"),
    "tries": ("try acquisitions, which version 1 of the format can't say: orders that begin with one are missing",),
    "retried-tries": ("tries of a lock right after one that failed, with other locks held: a thread that waits so is in no trace",),
    "reentered": ("calls from a signal handler that interrupted the recorder, or that one left by a jump" + AN_ORDER,
                  "calls from a signal handler or a finaliser that interrupted the recorder" + AN_ORDER,
                  "operations that interrupted the recorder, as in a signal handler" + AN_ORDER),
    "interrupted": ("threads that an error of a signal handler interrupted in the recorder: their traces end there",
                    "threads that an error interrupted in the recorder, as of a full stack or heap: their traces end there"),
    "unseen-releases": ("releases of locks that the thread wasn't seen to take: another thread, or nobody, was seen to hold them",
                        "releases of locks by a thread that did not take them", "releases of locks that were not seen to be taken"),
    "namespaces": ("libraries loaded by dlmopen into a namespace of their own: their locks aren't seen",),
    "unwritten": ("processes whose recording couldn't be written to its end" + AN_ORDER,),
    "still-running": ("processes that still ran at the end: what they did later isn't recorded",),
    "unrewritten": ("classes of the program's that couldn't be rewritten: what their code does with locks was not recorded",),
    "unrewritten-methods": ("methods of the program's that couldn't be rewritten: what their own code does with locks was not recorded",),
    "synchronizers": ("classes of the program's on AbstractQueuedSynchronizer, and not of a Lock: who waits for their objects wasn't looked at",),
    "multiprocessing": ("locks of multiprocessing: these weren't looked at, so an order among them, or of them with others, is missing",),
    "unguarded": ("processes of a Python without its global lock, for which this recorder isn't made: what it recorded may be wrong",),
    "changed-root": ("processes that changed their root, by chroot: what they did after that isn't recorded",),
    "gevent": ("processes with gevent: only those of its locks that take the place of threading's were looked at",),
    "eventlet": ("processes with eventlet: only those of its locks that take the place of threading's were looked at",),
    "library-only": ("classes of the standard library alone: it makes and takes these locks for itself",),
    "unreached-runs": ("runs of programs that the recorder isn't loaded into: nothing of them was recorded",
                       "runs of programs that the recorder isn't loaded into: none of their own locks was recorded"),
    "pthread-runs": ("runs of programs that call locks of pthreads: these weren't looked at",),
    "other-runs": ("runs of programs with locks that this recorder doesn't see: these weren't looked at",),
    "rust-programs": ("programs in Rust that ran without being recorded: none of the locks of Rust in them was seen",),
    "other-programs": ("programs with locks that are not those of pthreads",),
    "sanitizer-programs": ("programs built with a sanitizer, in which orders may be missed or wrong",),
    "other-pthreads": ("files with locks of pthreads, which were not looked at",),
    "other-libraries": ("libraries with locks that are not those of pthreads, which were not looked at",),
    "library-traces": ("recordings of locks of C libraries that have no traces here, as where there are too many: these weren't looked at",),
    "bound-libraries": ("libraries bound to themselves first, by RTLD_DEEPBIND: their locks aren't seen",),
    "parking-lot": ("programs with locks of the crate parking_lot, which were not looked at",),
    "std-locks": ("crates with locks of the standard library itself, which were not looked at",),
    "unread-files": ("files beside the traces that were not read",),
    "beyond-events": ("calls after 1,000,000 events of a task",),
    "refused-words": ("acquisitions with a name, a subclass or a mode that the format does not have",),
    "left-interrupts": ("calls of interrupts that came in during a call, or that the format cannot say",),
    "unseen-enters": ("ends of interrupts that were not seen to come in",),
    "refused-flags": ("times that interrupts were turned on where the format cannot say it",),
    "kept-locks": ("locks that an interrupt held at its end: they count as given back there",),
    "refused-puts": ("events not taken, or that came after that",),
    "lost-places": ("places of records: source lines will be missing",),
    "cut-traces": ("traces cut off in a record",),
    "unended-traces": ("traces without an end: what was left out of them is not known",),
    "ungathered-signals": ("recordings with traces of signal handlers, which `gather` doesn't look at: `lockdep confirm` of each does",),
    "unplaced-traces": ("traces without places, which tell the end: what was left out of them is not known",),
}

# Counts of what was recorded, and notes by which nothing is lost. The other names are those of earlier recordings.
NOTES: dict[str, tuple[str, ...]] = {
    "threads-alike": ("threads whose traces are those of two others, and weren't written, since a run takes 4,096: nothing is lost by these",
                      "threads whose traces are those of others, and weren't written: nothing is lost by these",
                      "threads that did what others had done, and weren't written: nothing is lost by these",
                      "tasks whose traces are the same as 32 others, and were left out: nothing is lost by these"),
    "repeats": ("records that repeat what their thread had done before: nothing is lost by these",),
    "deep-binding": ("libraries that asked to be bound to themselves first, which was taken away so that their locks are seen: nothing is lost "
                     "by these",),
    "semaphore-files": ("files whose semaphores were not looked at: no order of other locks is lost by these",),
    "signal-semaphores": ("semaphores that began at 0 or were posted by a thread that hadn't taken them, so they are no locks: no order of "
                          "other locks is lost by these",),
    "futex-files": ("files whose waits by std::future, std::counting_semaphore or std::atomic were not looked at: no order of other locks is lost by these",),
    "unnamed-modules": ("modules of the program without debug information: locks of these are named by where they were made; build with -g",),
    "unread-programs": ("programs whose debug information was not read, as by a recorder without libdw: locks are named by where they were made",),
    "assertions": ("times that a program said that it holds a lock: nothing is lost by these",),
    "ignored-locks": ("acquisitions that a program said to ignore: no order that they are part of was recorded",),
    "refused-names": ("names for locks that are not 1 to 48 bytes from 0x21 to 0x7E: these locks are named as without them",),
    "refused-annotations": ("annotations of no lock or no bytes, with a subclass above 7, or without room for them: they were left out",),
    "unknown-annotations": ("annotations that this recorder doesn't know, as of a newer lockdep.h: they were left out",),
    "library-threads": ("threads that took locks of C libraries: they have traces of their own for these",),
    "history-ends": ("processes whose history ends before they did, as where --history leaves no more room: no order is lost by these",),
    "history-taken-by-another": ("locks that were taken while another thread had them, as one that another process releases: they aren't in the history",),
    "history-not-held": ("locks that a thread released which hadn't taken them: they aren't in the history",),
    "passed-programs": ("programs with locks that are not those of pthreads",),
    "passed-parking-lot": ("programs with locks of the crate parking_lot, which were not looked at",),
    "passed-std-locks": ("crates with locks of the standard library itself, which were not looked at",),
    "unknown-std-locks": ("programs without debug information: whether their crates take locks of the standard library itself isn't known",),
    "passed-libraries": ("libraries with locks that are not those of pthreads, which were not looked at",),
    "passed-pthreads": ("files with locks of pthreads, which were not looked at",),
}
RECORDED = ("processes", "threads", "operations", "events", "classes")
BREACHES = ("out-of-order", "not-held")  # findings of the recorder's own
OF_A_HANDLER = "signal "  # begins a line about a signal's handler, which may end with a number
UNLOST = RECORDED + BREACHES + tuple(NOTES) + ("objects", "calls seen", "repeats left out", "waiting", "at-exit", "held-at-end", "small-files")

# Which of several sentences a recorder means, if it isn't the first.
SENTENCES = {
    "python": {"reentered": 1, "unfollowed-handlers": 1, "threads-alike": 1, "unreached-runs": 1},
    "java": {"interrupted": 1, "reentered": 1, "threads-alike": 1},
    "rust": {"beyond-traces": 1, "reentered": 2, "unseen-releases": 1, "threads-alike": 2},
    "go": {"beyond-traces": 1, "unseen-releases": 2},
    "embed": {"lost-threads": 1, "beyond-held": 1, "unseen-releases": 2, "threads-alike": 3},
}


def words_of_loss(code: str, recorder: str) -> str | None:
    """What a recorder says of a count; notes of who waits need no sentence."""
    sentences = COUNTS.get(code) or NOTES.get(code)
    return sentences[SENTENCES.get(recorder, {}).get(code, 0)] if sentences else None


# How the plural that a sentence begins with is changed for a count of one.
SINGULARS = (("files beside the traces that were ", "file beside the traces that was "), ("tries ", "try "), ("libraries ", "library "),
             ("processes ", "process "), ("classes ", "class "))


def singular(text: str) -> str:
    """The words for a count of one."""
    for many, one in SINGULARS:
        if text.startswith(many):
            return one + text[len(many):]
    ends = [at for at in (text.find("s "), text.find("s,")) if at >= 0]
    return text[:min(ends)] + text[min(ends) + 1:] if ends else text


def counted(count: int, one: str, many: str | None = None) -> str:
    """A number with its word."""
    return "%d %s" % (count, one if count == 1 else many or one + "s")
