"""Five locks in a circle, of a list."""
import functools
import threading

from pairs import run_apart

forks = [threading.Lock() for _ in range(5)]


def dine(seat):
    forks[seat].acquire()
    forks[(seat + 1) % 5].acquire()
    forks[(seat + 1) % 5].release()
    forks[seat].release()


def seated(seat):
    work = functools.partial(dine, seat)
    work.__name__ = "seat %d" % seat
    return work


run_apart(*map(seated, range(5)))
