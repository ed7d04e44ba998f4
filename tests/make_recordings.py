#!/usr/bin/env python3
"""Makes recordings of three programs from the real ones in examples/real: make_recordings.py SEED COUNT FOLDER. Each has all or most of a program's
traces, in which some classes have single locks. The same seed gives the same files. Prints how many traces there are."""
import os
import random
import re
import sys

REAL = os.path.join(os.path.dirname(os.path.dirname(os.path.realpath(__file__))), "examples", "real")
NAME = re.compile("^(acq|rel),([^,\n]*)", re.MULTILINE)
MOST_OF_CLASS = 61  # bytes, of a name that gets a number


def programs():
    """The traces of each program, with the digits of shortened names as they are marked today."""
    for program in sorted(os.listdir(REAL)):
        folder = os.path.join(REAL, program)
        names = sorted(name for name in os.listdir(folder) if name.startswith("task-"))
        yield program, [open(os.path.join(folder, name)).read().replace("#", "%") for name in names]


def make(folder, traces, chance):
    """A recording: with nine of ten traces of a program, and with single locks of a quarter of its classes."""
    kept = [trace for trace in traces if chance.random() < 0.9] or traces
    classes = sorted({name for trace in kept for _, name in NAME.findall(trace)})
    numbers = {name: "#%d" % chance.randint(1, 3) for name in classes if len(name) <= MOST_OF_CLASS and chance.random() < 0.25}
    os.makedirs(os.path.join(folder, "objects"))
    for number, trace in enumerate(kept, 1):
        with open(os.path.join(folder, "objects", "task-%04d.csv" % number), "w") as file:
            file.write(NAME.sub(lambda found: found.group() + numbers.get(found.group(2), ""), trace))
    with open(os.path.join(folder, "classes"), "w") as file:
        file.write("".join("%s\t/usr/bin/program\t%x\tstatic\n" % (name, place) for place, name in enumerate(classes, 16)))
    with open(os.path.join(folder, "SUMMARY"), "w") as file:
        file.write("processes 1\nthreads %d\noperations 10\nevents 10\nclasses %d\n" % (len(kept), len(classes)))
    return len(kept)


def main():
    seed, count, top = int(sys.argv[1]), int(sys.argv[2]), sys.argv[3]
    real, traces = list(programs()), 0
    for number in range(count):
        chance = random.Random(seed * 1000000 + number)
        program, of_program = real[chance.randrange(len(real))]
        traces += make(os.path.join(top, "%s-%06d" % (program, number)), of_program, chance)
    print(traces)


main()
