"""Three locks that their holder may take again, in a circle of three threads."""
import threading

from pairs import run_apart

rows, index, cache = threading.RLock(), threading._RLock(), threading.RLock()


def insert():
    with rows:
        with rows:
            index.acquire()
            index.release()


def search():
    with index:
        with cache:
            pass


def fill():
    with cache, cache:
        with rows:
            pass


run_apart(insert, search, fill)
