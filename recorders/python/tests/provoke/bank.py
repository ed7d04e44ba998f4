"""A class with a lock in each of many objects."""
import threading

from pairs import run_apart


class Account:
    def __init__(self):
        self.lock = threading.RLock()
        self.amount = 0

    def pay_to(self, other, amount):
        with self.lock:
            self.amount -= amount
            other.take(amount)

    def take(self, amount):
        with self.lock:
            self.amount += amount


accounts = [Account() for _ in range(12)]


def downwards():
    for first, second in zip(accounts, accounts[1:]):
        first.pay_to(second, 1)


def upwards():
    for first, second in zip(accounts[1:], accounts):
        first.pay_to(second, 1)


run_apart(downwards, upwards)
