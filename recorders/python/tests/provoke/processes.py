"""Two locks in opposite orders, in processes that `multiprocessing` starts: processes.py [METHOD]"""
import multiprocessing
import sys
import threading

from pairs import run_apart

first, second = threading.Lock(), threading.Lock()


def forwards():
    with first:
        with second:
            pass


def backwards():
    with second:
        with first:
            pass


def work():
    run_apart(forwards, backwards)


if __name__ == "__main__":
    with first:  # (as before any thread is)
        pass
    context = multiprocessing.get_context(sys.argv[1] if sys.argv[1:] else "fork")
    child = context.Process(target=work)
    child.start()
    child.join()
    print("done", child.exitcode)
