"""Runs a part of the tool: parts.py PART WORD... It is started by scripts, without anything of the user's: python3 -I -S."""
import os
import signal
import sys
from _frozen_importlib_external import SourceFileLoader  # (without what importlib imports besides)

LEAST = (3, 7)
FAULT = 3  # the status of a fault of the tool itself


HERE = os.path.dirname(os.path.realpath(__file__))
HOME = os.path.dirname(os.path.dirname(HERE))


def write_whole(_, path: str, compiled: bytes, **mode: int) -> None:
    """Writes a compiled module, if all of it can be written. With a limit of a file's size Python leaves a damaged one, which is never written again."""
    made = "%s.%d" % (path, os.getpid())
    try:
        os.makedirs(os.path.dirname(path), exist_ok=True)
        with open(made, "wb") as file:
            file.write(compiled)
        os.replace(made, path)
    except OSError:
        if os.path.exists(made):
            os.unlink(made)


def find_package() -> None:
    """Puts the folder of the package on the path. In a checkout of one's own, what was compiled is kept beside the sources for the next run."""
    sys.dont_write_bytecode = not os.path.exists(os.path.join(HOME, "crates.txt")) or os.stat(HERE).st_uid != os.geteuid()
    SourceFileLoader.set_data = write_whole
    sys.path.insert(0, os.path.dirname(HERE))


PARTS = {  # each with the module and the function that run it
    "view": "cli.view.main", "where": "cli.where.main", "confirm": "cli.confirm.main", "report": "cli.bug_report.main", "schedule": "cli.schedule.main",
    "diff": "cli.diff.main", "gather": "cli.gather.main", "gather-process": "gather.engines.do_tasks", "gather-task": "gather.tasks.do_one",
    "finish": "finish.finish_embed.main", "refusal": "cli.refusal.main", "check-known": "known.suppressions.main",
}
HELPED = ("view", "where", "confirm", "report", "schedule", "diff", "gather")
STOPPED = ("view", "gather")  # parts that leave nothing half-written at a signal, nor a process that they started


def main_of(part):
    """The function that runs a part."""
    module, _, name = PARTS.get(part, "cli.ending.main").rpartition(".")
    return getattr(__import__("lockdep." + module, fromlist=[name]), name)


def is_help(part, words):
    """Writes the help of a part, if that is asked for."""
    asked = {"-h", "--help", "--help=all"}.intersection(words[:words.index("--")] if "--" in words else words)
    if part not in HELPED or not asked:
        return False
    from lockdep.base.command_line import ALL_HELP, help_file
    from lockdep.base.files import need_output, print_file
    need_output()
    print_file(help_file(HOME, part, ALL_HELP in asked))
    return True


def stop(number, _):
    raise SystemExit(128 + number)


def heed_signals(part):
    for number in (signal.SIGHUP, signal.SIGTERM) if part in STOPPED else ():
        if signal.getsignal(number) == signal.SIG_DFL:
            signal.signal(number, stop)


def run(part, words):
    from lockdep.base.files import complain
    from lockdep.base.saying import Refusal
    from lockdep.base.words import bytes_of, text_of
    heed_signals(part)
    try:
        return 0 if is_help(part, words) else main_of(part)([text_of(os.fsencode(word)) for word in words])
    except Refusal as refusal:
        if refusal.line:
            complain(bytes_of("%s: %s\n" % (part if part in ("where", "confirm") else "lockdep", refusal.line)))
        return refusal.status
    except KeyboardInterrupt:
        return 130
    except Exception as error:
        return fault_of(error)


def fault_of(error):
    """Says what nobody has foreseen, and returns the status: none that a finding has."""
    from lockdep.base.files import complain
    from lockdep.base.words import bytes_of, visible
    trace = error.__traceback__
    while trace.tb_next:
        trace = trace.tb_next
    place = "%s:%d" % (os.path.relpath(trace.tb_frame.f_code.co_filename, HERE), trace.tb_lineno)
    complain(bytes_of("lockdep: this is a fault of lockdep itself, at %s: %s\n" % (place, visible("%s: %s" % (type(error).__name__, error)))))
    return FAULT


if __name__ == "__main__":
    if sys.version_info < LEAST:
        sys.exit("lockdep: this needs Python %d.%d or later" % LEAST)
    find_package()
    sys.exit(run(sys.argv[1], sys.argv[2:]))
