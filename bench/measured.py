"""Runs a command, and prints at the end how long it took, the processor time of all its processes, and the most memory that they had at one time:
measured.py COMMAND..."""
import os
import resource
import subprocess
import sys
import threading
import time

PAGE = os.sysconf("SC_PAGE_SIZE")
PAUSE = 0.1  # seconds


def family(number):
    """A process and all that it has started."""
    numbers = [number]
    for each in numbers:
        try:
            with open("/proc/%d/task/%d/children" % (each, each)) as file:
                numbers += map(int, file.read().split())
        except OSError:
            continue
    return numbers


def memory_of(number):
    try:
        with open("/proc/%d/statm" % number) as file:
            return int(file.read().split()[1]) * PAGE
    except OSError:
        return 0


def watch(child, seen):
    while child.poll() is None:
        memories = [memory_of(number) for number in family(child.pid)]
        seen.append((sum(memories), max(memories)))
        time.sleep(PAUSE)


begun, seen = time.time(), [(0, 0)]
child = subprocess.Popen(sys.argv[1:])
thread = threading.Thread(target=watch, args=(child, seen))
thread.start()
thread.join()
usage = resource.getrusage(resource.RUSAGE_CHILDREN)
print("%.1f s, %.1f s of processor time, %d MB of memory in all its processes, %d MB in one" % (
    time.time() - begun, usage.ru_utime + usage.ru_stime, max(total for total, _ in seen) >> 20, max(one for _, one in seen) >> 20), file=sys.stderr)
sys.exit(child.returncode)
