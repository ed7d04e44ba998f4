"""Two locks in opposite orders."""
import threading

from pairs import run_apart

accounts = threading.Lock()
journal = threading.Lock()


def pay():
    with accounts:
        with journal:
            pass


def audit():
    with journal, accounts:
        pass


run_apart(pay, audit)
