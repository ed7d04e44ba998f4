#!/usr/bin/env python3
"""random_programs.py FOLDER COUNT SEED: records random programs with handlers, and compares what is found in the sets of their signals with what a
model says that knows the programs, and not their recordings. The last line says how many differ."""
from __future__ import annotations

import glob
import json
import os
import random
import shutil
import subprocess
import sys

HERE = os.path.dirname(os.path.abspath(__file__))
RECORDER = os.path.dirname(os.path.dirname(HERE))
LOCKDEP = os.environ.get("LOCKDEP") or os.path.join(RECORDER, "..", "..", "lockdep")
NUMBERS = {"SIGUSR1": "1", "SIGUSR2": "2"}
FLAGS = ("-", "-", "o", "n", "no")  # o: the other signal is in sa_mask; n: SA_NODEFER


def body(steps: int, masks: bool) -> str:
    """Steps of two letters each. Locks are released in any order; a mask may change with locks held; nothing is taken twice."""
    held: list[str] = []
    text = ""
    for _ in range(steps):
        chance = random.random()
        if masks and chance < .35:
            text += random.choice("bu") + random.choice("12")
        elif chance < .7 and len(held) < 3:
            held.append(random.choice([lock for lock in "0123" if lock not in held]))
            text += "a" + held[-1]
        elif held:
            text += "r" + held.pop(random.randrange(len(held)))
    return text + "".join("r" + lock for lock in reversed(held))


class Part:
    """What a body does that begins with a mask: its orders, and by each signal the locks that it holds with that unblocked."""

    def __init__(self, text: str, mask: set[str]) -> None:
        self.orders: set[tuple[str, str]] = set()
        self.enabled: dict[str, set[str]] = {"1": set(), "2": set()}
        self.held: list[str] = []
        self.mask = set(mask)
        for step, number in zip(text[::2], text[1::2]):
            self.take_step(step, number)
            for signal in self.enabled:
                if signal not in self.mask:
                    self.enabled[signal] |= set(self.held)

    def take_step(self, step: str, number: str) -> None:
        if step == "a":
            self.orders |= {(held, number) for held in self.held}
            self.held.append(number)
        elif step == "r":
            self.held.remove(number)
        elif step == "b":
            self.mask.add(number)
        else:
            self.mask.discard(number)


class Program:
    """A random one: what main and a worker do, two handlers, and their flags."""

    def __init__(self) -> None:
        few = random.random() < .5
        main, worker = body(random.randrange(12), True), body(random.randrange(12), True)
        if few:
            main, worker = "b1b2" + main.replace("u1", ""), "b1" + worker
        self.main, self.worker = main, worker
        self.handlers = [body(random.randrange(5), False), body(random.randrange(5), False)]
        self.flags = [random.choice(FLAGS), random.choice(FLAGS)]

    def words(self) -> list[str]:
        return [self.main, self.worker] + self.handlers + self.flags

    def parts(self) -> list[Part]:
        inside = [(set() if "n" in flags else {own}) | ({other} if "o" in flags else set())
                  for own, other, flags in (("1", "2", self.flags[0]), ("2", "1", self.flags[1]))]
        return [Part(self.main, set()), Part(self.worker, set())] + [Part(text, mask) for text, mask in zip(self.handlers, inside)]

    def expected(self) -> set[tuple[str, ...]]:
        """The doubles and inversions, each with its signal and locks."""
        parts = self.parts()
        reach = closed(set().union(*(part.orders for part in parts)))
        found: set[tuple[str, ...]] = set()
        for signal, text in zip("12", self.handlers):
            used = {number for step, number in zip(text[::2], text[1::2]) if step == "a"}
            enabled = set().union(*(part.enabled[signal] for part in parts))
            found |= {("double", signal, lock) for lock in used & enabled}
            found |= {("inversion", signal, first, last) for first in used for last in enabled if (first, last) in reach}
        return found


def closed(orders: set[tuple[str, str]]) -> set[tuple[str, str]]:
    while True:
        more = {(first, last) for first, middle in orders for other, last in orders if middle == other} - orders
        if not more:
            return orders
        orders = orders | more


def lock_of(key: str) -> str:
    return key.split("/")[0].split("#")[0][1:]


def found_in(folder: str) -> set[tuple[str, ...]]:
    """What is found in the sets of a recording."""
    found: set[tuple[str, ...]] = set()
    path = os.path.join(folder, "signals", "sources.json")
    with open(path, encoding="utf-8") as file:
        sources = json.load(file)
    for source in sources:
        traces = sorted(glob.glob(os.path.join(folder, "signals", str(source["number"]), "task-*.csv")))
        done = subprocess.run([LOCKDEP, "explain", "--json", "--many"] + traces, capture_output=True, text=True)
        for finding in json.loads(done.stdout)["findings"]:
            keys = [finding["key"]] if "key" in finding else finding.get("keys", [])
            if finding["type"] != "circle":
                found.add((finding["type"], NUMBERS[source["signal"]]) + tuple(lock_of(key) for key in keys))
    return found


def recorded(program: str, words: list[str], folder: str) -> set[tuple[str, ...]]:
    shutil.rmtree(folder, ignore_errors=True)
    os.makedirs(os.path.join(folder, "raw"))
    environment = dict(os.environ, LD_PRELOAD=os.path.join(RECORDER, "out", "preload.so"), LOCKDEP_RECORD=os.path.join(folder, "raw"))
    subprocess.run([program] + words, env=environment, check=True, timeout=600)
    subprocess.run([os.path.join(RECORDER, "out", "finish"), folder], check=True)
    return found_in(folder)


def main() -> None:
    out, count = sys.argv[1], int(sys.argv[2])
    random.seed(int(sys.argv[3]))
    os.makedirs(out, exist_ok=True)
    program = os.path.join(out, "interprets")
    subprocess.run([os.environ.get("CC", "cc"), "-g", "-O1", "-w", "-o", program, os.path.join(HERE, "interprets.c"), "-pthread"], check=True)
    differ = some = findings = 0
    for _ in range(count):
        one = Program()
        wanted, found = one.expected(), recorded(program, one.words(), os.path.join(out, "one"))
        some += bool(wanted)
        findings += len(wanted)
        if wanted != found:
            differ += 1
            print("differs:", one.words(), "only wanted", sorted(wanted - found), "only found", sorted(found - wanted), flush=True)
    print("%d programs, %d with findings (%d in all): %d differ" % (count, some, findings, differ))


main()
