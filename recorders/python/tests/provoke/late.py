"""Two locks in opposite orders, of which one is come to several times, and the other one when a pause at that is over; with `alike`, both on the
same lines."""
import sys
import threading

import pairs
from pairs import run_apart

pairs.APART = 1.5  # seconds
rows = threading.Lock()
index = threading.Lock()


def take(outer, inner):
    with outer:
        with inner:
            pass


def insert():
    for _ in range(3):
        with rows:
            with index:
                pass


def rebuild():
    with index, rows:
        pass


def insert_alike():
    for _ in range(3):
        take(rows, index)


def rebuild_alike():
    take(index, rows)


run_apart(*((insert_alike, rebuild_alike) if sys.argv[1:] == ["alike"] else (insert, rebuild)))
