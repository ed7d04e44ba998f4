"""What a program sees of its locks: everything that is printed has to be the same without the recorder."""
import copy
import os
import pickle
import re
import sys
import threading
import traceback
import weakref


def tried(what, *words, **named):
    try:
        return what(*words, **named)
    except BaseException as error:
        return "%s: %s" % (type(error).__name__, error)


def shown(text):
    return re.sub("owner=[1-9][0-9]*", "owner=..", re.sub("0x[0-9a-f]+", "0x..", text))


def attributes(of):
    """The names of an object's own attributes. The recorder has one more, which says so."""
    return sorted(name for name in vars(of) if not name.startswith("_lockdep_"))


lock, again = threading.Lock(), threading.RLock()
print(shown(repr(lock)), shown(repr(again)), type(lock), type(again), type(lock).__name__)
for each in (lock, again):
    print(tried(each.release), tried(pickle.dumps, each), tried(copy.copy, each), tried(copy.deepcopy, each))
    print(tried(each.acquire, False, 1), tried(each.acquire, True, -2), tried(each.acquire, timeout=1e20), tried(each.acquire, True, None))
    print(tried(each.acquire), tried(each.acquire, False), shown(repr(each)), tried(each.release))
print(lock.locked(), lock.acquire(1), lock.locked(), lock.acquire(0), lock.release())
for each in (lock, again):
    print(each.acquire(), each.__exit__(), each.__enter__(False), each.__exit__(1), each.__enter__(True, 0.5), each.__exit__(1, 2, 3, 4))
    for flag in (2 ** 70, "x", 1.5, None):
        print(tried(each.acquire, flag), tried(each.release))
print(hex(id(lock)) in repr(lock), hex(id(again)) in repr(again))
print(hasattr(again, "locked"), hasattr(lock, "locked"), hasattr(again, "_recursion_count"), hasattr(again, "_owner"), hasattr(again, "__dict__"))
print(threading.RLock.__name__, type(threading.RLock), threading._CRLock is type(again), threading._RLock is threading._PyRLock)
print(weakref.ref(lock)() is lock, weakref.ref(again)() is again, lock == lock, lock != threading.Lock(), hash(again) == hash(again))
for made in (threading._PyRLock, threading.Condition, threading.Semaphore, threading.Event):
    print(attributes(made()), tried(pickle.dumps, made()), tried(copy.deepcopy, made()))


class Own(type(again)):
    """A program's own lock, with attributes of any name."""

    def __init__(self, name):
        self.inner, self.record, self.levels, self.name = 1, 2, 3, name


class OwnPython(threading._RLock):
    def __init__(self, name):
        super().__init__()
        self.name = name


for own in (Own("own"), OwnPython("python")):
    with own:
        print(shown(repr(own)), own.acquire(blocking=False), own._is_owned(), own.release(), attributes(own))
    print(tried(own.release), tried(own._release_save), own._is_owned(), tried(own.acquire, timeout=-2), tried(own.acquire, blocking=True, timeout=1))
    waits = threading.Condition(own)
    print(waits.wait(0.01), tried(waits.notify), own.release(), tried(waits.notify))
print(isinstance(threading.Lock(), type(threading.Lock())), isinstance(threading.BoundedSemaphore(), threading.Semaphore))
print(tried(threading.Condition().wait), tried(threading.Condition().notify), tried(threading.Condition(lock).notify))
print(tried(threading.Semaphore, -1), tried(threading.BoundedSemaphore(1).release), tried(threading.Semaphore().acquire, False, 1))
print(sys.argv[1:], __name__, os.path.basename(__file__), [os.path.basename(path) for path in sys.path[:1]], sorted(os.listdir("/proc/self/fd")))
print(traceback.format_stack()[0].split("/")[-1], len(traceback.format_stack()), __spec__, threading.active_count())


def fails():
    with lock:
        lock.release()


thread = threading.Thread(target=fails, name="failing")
thread.start()
thread.join()
sys.stderr.flush()
raise SystemExit(fails())
