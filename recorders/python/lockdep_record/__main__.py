"""The command line: runs a Python program, records its locks, and makes a trace of each of its tasks."""
import os
import sys

USAGE = """Runs a Python program, records the locks of its threads and of its asyncio tasks, and makes a trace of each.

Usage: python3 -m lockdep_record [-o FOLDER] [--] [OPTIONS OF PYTHON] SCRIPT [WORDS]...
       python3 -m lockdep_record [-o FOLDER] [--] -m MODULE [WORDS]...
       python3 -m lockdep_record [-o FOLDER] [--] -c CODE [WORDS]...
       python3 -m lockdep_record [-o FOLDER] --command COMMAND [WORDS]...
       python3 -m lockdep_record --finish FOLDER
       python3 -m lockdep_record --summary FOLDER

  -o FOLDER         writes the traces to FOLDER instead of `lockdep-traces`. Those of an earlier recording are replaced; a file that no
                    recording made is never touched
  --command COMMAND runs a command that isn't a Python script: every Python program that it starts is recorded
  --finish FOLDER   writes the traces of a recording whose recorder was killed
  --summary FOLDER  prints again what was recorded and what was left out. The status is 0 if nothing was left out, 1 if
                    something was, and 2 if no lock of the program's own was seen

The status is the program's, or 128 plus the signal's number if a signal ended it. Instead of 0 it is 2 if no lock of the program's own
was seen, or if it started a Python that couldn't be recorded, as by -E.

SIGHUP, SIGINT, SIGQUIT, SIGTERM, SIGUSR1 and SIGUSR2 are passed on to the program; its traces are written when it has ended.
"""


class Python:
    """The recorder of Python programs."""

    name, called, usage = "python", "python3 -m lockdep_record", USAGE
    is_python, is_command_next = True, False
    is_chosen = True  # by the user, and not by `lockdep run`

    def takes(self, word, words):
        """Whether a word is one of this recorder's own options: each of them ends the options."""
        if word == "--command":
            if not words:
                raise command.Refusal("--command needs a command")
            self.is_python, self.is_chosen = False, "LOCKDEP_RUN_HOME" not in os.environ
        elif word == "--either":
            self.is_python = not words or words[0].endswith((".py", ".pyz")) or not command.is_command(words[0])
        else:
            return False
        self.is_command_next = True
        return True

    def command(self, words):
        return [sys.executable] + words if self.is_python else words

    def environment(self, raw):
        """What the environment needs for Python to load the recorder."""
        hook = os.path.join(os.path.dirname(os.path.abspath(__file__)), "hook")
        paths = [hook] + [path for path in [os.environ.get("PYTHONPATH")] if path]
        return {"PYTHONPATH": os.pathsep.join(paths), "LOCKDEP_PYTHON": os.path.realpath(raw)}


if __name__ == "__main__":
    sys.path[:] = [path for path in sys.path if os.path.abspath(path) != os.path.dirname(os.path.abspath(__file__))]
    sys.path.insert(0, os.path.dirname(os.path.dirname(os.path.abspath(__file__))))
    sys.dont_write_bytecode |= os.path.exists(os.path.join(sys.path[0], "..", "..", "INSTALLED"))
    from lockdep_record import command
    command.main(Python())
