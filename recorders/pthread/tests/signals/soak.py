#!/usr/bin/env python3
"""soak.py OUT FOLDER MINUTES [SEED]: records soak.c with one seed after the other by the recorder that is built in OUT, and checks that each run
ends, that nothing was left out, and that its traces are accepted. It is run by hand. The last line is 'N runs, M wrong'."""
from __future__ import annotations

import glob
import os
import shutil
import subprocess
import sys
import time

HERE = os.path.dirname(os.path.abspath(__file__))
LOCKDEP = os.environ.get("LOCKDEP") or os.path.join(HERE, "..", "..", "..", "..", "lockdep")
PATIENCE = 300  # seconds for a run of five
LEFT_OUT = ("reentered", "no-room", "masks-unknown", "no-thread", "unfollowed-handlers")


def has_jumps(seed: int) -> bool:
    return seed % 2 == 1


def record(out: str, folder: str, seed: int) -> str:
    """What went wrong, or nothing."""
    shutil.rmtree(folder, ignore_errors=True)
    os.makedirs(os.path.join(folder, "raw"))
    environment = dict(os.environ, LD_PRELOAD=os.path.join(out, "preload.so"), LOCKDEP_RECORD=os.path.join(folder, "raw"))
    command = [os.path.join(folder, "..", "soak"), "5", str(seed)] + (["jumps"] if has_jumps(seed) else [])
    program = subprocess.Popen(command, env=environment, stdout=subprocess.DEVNULL)
    try:
        status = program.wait(PATIENCE)
    except subprocess.TimeoutExpired:
        return f"process {program.pid} stands still"
    return f"status {status}" if status else ""


def look(out: str, folder: str, seed: int) -> str:
    """A jump out of the recorder is counted, with the call that it has left."""
    left_out = LEFT_OUT[1:] if has_jumps(seed) else LEFT_OUT
    done = subprocess.run([os.path.join(out, "finish"), folder], capture_output=True, text=True)
    if done.returncode:
        return f"finish: {done.returncode} {done.stderr.strip()}"
    with open(os.path.join(folder, "SUMMARY"), encoding="utf-8") as file:
        lost = [line.strip() for line in file if line.split(" ")[0] in left_out]
    traces = sorted(glob.glob(os.path.join(folder, "task-*.csv")))
    checked = subprocess.run([LOCKDEP, "check", "--many"] + traces, capture_output=True, text=True)
    if checked.returncode > 1:
        lost.append(f"check: {checked.stderr.strip()}")
    return "; ".join(lost)


def main() -> int:
    out, folder, minutes = os.path.abspath(sys.argv[1]), os.path.abspath(sys.argv[2]), float(sys.argv[3])
    seed = int(sys.argv[4]) if len(sys.argv) > 4 else 1
    os.makedirs(folder, exist_ok=True)
    subprocess.run([os.environ.get("CC", "cc"), "-std=gnu11", "-g", "-O1", "-w", "-o", os.path.join(folder, "soak"), os.path.join(HERE, "soak.c"),
                    "-pthread", "-ldl", "-lrt"], check=True)
    end, runs, wrong = time.time() + 60 * minutes, 0, 0
    while time.time() < end:
        what = record(out, os.path.join(folder, "run"), seed + runs) or look(out, os.path.join(folder, "run"), seed + runs)
        runs += 1
        if what:
            wrong += 1
            print(f"seed {seed + runs - 1}: {what}", flush=True)
            if "stands still" in what:
                break
    print(f"{runs} runs, {wrong} wrong")
    return wrong != 0


sys.exit(main())
