"""Begins the recording in a Python process, or the holding back of its threads, before its script is loaded. The folder of this file is on
PYTHONPATH."""
import os
import sys

# What Python starts for `multiprocessing`, by the first words of its code: this runs none of the program's, and ends after it.
TRACKER = "from multiprocessing.resource_tracker import main"
# And this one forks the processes that run the program's code.
FORK_SERVER = "from multiprocessing.forkserver import main"


def code_of_command():
    """What follows `-c` on this process's command line."""
    with open("/proc/self/cmdline", encoding="utf-8", errors="replace") as file:
        words = file.read().split("\0")
    return words[words.index("-c") + 1] if "-c" in words[:-1] else ""


def begin(package):
    """Takes the place of the locks."""
    code = code_of_command()
    if code.startswith(TRACKER):
        return
    plan = os.environ.get("LOCKDEP_PROVOKE_PLAN")
    sys.path.insert(0, package)
    try:
        if plan:
            from lockdep_record import provoke
        else:
            from lockdep_record import beginning
    finally:
        sys.path.remove(package)
    if plan:
        provoke.begin(plan, os.environ["LOCKDEP_PROVOKE_TABLE"])
    else:
        beginning.begin(os.environ["LOCKDEP_PYTHON"], code.startswith(FORK_SERVER))


# This folder leaves the path in any case, as if it had never been there: the recording may be over, and a process that began in it not.
folder = os.path.dirname(os.path.abspath(__file__))
sys.path[:] = [path for path in sys.path if path != folder]
if "LOCKDEP_PROVOKE_PLAN" in os.environ or os.path.isdir(os.environ.get("LOCKDEP_PYTHON", "")):
    try:
        begin(os.path.dirname(os.path.dirname(folder)))
    except Exception:  # the program runs all the same, and the recorder says that nothing was recorded
        pass
del sys.modules["sitecustomize"]
import sitecustomize  # noqa: E402,F401 the one that would be loaded without the recorder; if there is none, Python expects this error
