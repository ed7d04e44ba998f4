"""How the recording of a process begins: what makes locks is replaced, here and in modules that are loaded later."""
import _thread
import atexit
import os
import sys
import threading
from importlib import _bootstrap

from . import ends, locks, log, places, starts
from .library_locks import count_multiprocessing, replace_asyncio, replace_python_rlocks, replace_semaphores
from .locks import RLock, lock


def drop_unknown(own, real):
    """Takes away from a class what the real one hasn't in this version of Python."""
    for name in ("_at_fork_reinit", "_recursion_count", "locked"):
        if name in vars(own) and not hasattr(real, name):
            delattr(own, name)


# ---- Modules that are loaded later.

class Finder:
    """Waits for modules to be loaded, and removes itself when all of them are."""

    awaited = {"asyncio.locks": replace_asyncio, "multiprocessing.synchronize": count_multiprocessing}

    @staticmethod
    def find_spec(name, path=None, target=None):
        replace = Finder.awaited.pop(name, None)
        if replace is None:
            return None
        if not Finder.awaited:
            sys.meta_path.remove(Finder)
        spec = _bootstrap._find_spec(name, path, target)
        if spec is None:
            return None
        run = spec.loader.exec_module

        def exec_module(module):
            del spec.loader.exec_module
            run(module)
            replace(module)
        spec.loader.exec_module = exec_module
        return spec


# ---- The beginning.

def replace_everywhere(replaced):
    """Modules that were loaded before have the real functions under names of their own. What takes their place comes with their numbers."""
    for name, module in list(sys.modules.items()):
        if name in ("threading", "_thread", locks.__name__) or module is _bootstrap:
            continue
        for own, value in list(vars(module).items()):
            if id(value) in replaced:
                setattr(module, own, replaced[id(value)])


def replace_locks():
    """Replaces the functions that make locks."""
    real_lock = threading.Lock
    threading.Lock = _thread.allocate_lock = _thread.allocate = _thread.LockType = lock
    threading._CRLock = _thread.RLock = RLock  # (`threading.RLock` itself stays, and makes what it finds there)
    replace_everywhere({id(real_lock): lock, id(locks.allocate): lock, id(locks.RealLock): lock, id(locks.RealRLock): RLock})
    replace_python_rlocks()
    replace_semaphores()


def replace_exit():
    """A process that ends through `os._exit` first writes what is left."""
    real_exit = os._exit

    def _exit(status):
        try:
            ends.end_process()
        finally:
            real_exit(status)
    os._exit = _exit


def replace_chroot():
    """A process with another root can't find its file, nor those of the recorder: that is noted before."""
    real_chroot = os.chroot

    def chroot(path):
        log.note_count("changed-root", 1)
        try:
            real_chroot(path)
        except BaseException as error:
            log.note_count("changed-root", -1)
            hide(error)
            raise
    chroot.__doc__ = real_chroot.__doc__
    os.chroot = chroot


def hide(error):
    """Takes the recorder's functions out of the trace of an error, and of those that led to it. What comes in between, as another
    Ctrl-C, isn't an error of the program's hook."""
    try:
        take_out(error)
    except BaseException:
        pass


def take_out(error):
    known = set()
    while error is not None and error not in known:
        known.add(error)
        trace = error.__traceback__
        while trace is not None and trace.tb_next is not None:
            while trace.tb_next is not None and trace.tb_next.tb_frame.f_code.co_filename.startswith(places.own_folder + os.sep):
                trace.tb_next = trace.tb_next.tb_next
            trace = trace.tb_next
        error = error.__cause__ or error.__context__


def replace_hooks():
    """The printed traceback of an uncaught error shows nothing of the recorder."""
    real_hook, real_thread_hook = sys.excepthook, threading.excepthook

    def excepthook(kind, value, trace):
        hide(value)
        real_hook(kind, value, trace)

    def thread_excepthook(words):
        hide(words.exc_value)
        real_thread_hook(words)
    sys.excepthook, threading.excepthook = excepthook, thread_excepthook


def begin_locks():
    """Replaces the locks that this process makes from here on."""
    places.is_typed = getattr(sys, "argv", [])[:1] == ["-c"]
    replace_hooks()
    for own, real in ((lock, locks.RealLock), (RLock, locks.RealRLock)):
        own.__module__ = "_thread"
        drop_unknown(own, real)
    replace_locks()


def begin(folder, is_fork_server):
    """Records this process from here on. Of the server that forks processes for `multiprocessing` only these are recorded."""
    from . import green, handlers, messages, threads
    ends.begin_process(folder, is_fork_server)
    begin_locks()
    threads.replace_threads()
    messages.begin()
    if os.environ.get("LOCKDEP_SIGNALS") != "off":
        handlers.begin()
    replace_exit()
    replace_chroot()
    sys.meta_path.insert(0, Finder)
    Finder.awaited.update(green.AWAITED)
    Finder.awaited.update({"concurrent.futures.thread": messages.replace_work, "concurrent.futures._base": messages.replace_futures})
    starts.begin()
    atexit.register(ends.end_process)
