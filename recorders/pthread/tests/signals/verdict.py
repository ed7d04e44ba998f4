#!/usr/bin/env python3
"""verdict.py FOLDER: what is found in the sets of the handlers of a recording, in one line, each finding once: its kind, its locks, its signal."""
from __future__ import annotations

import glob
import json
import os
import subprocess
import sys

HERE = os.path.dirname(os.path.abspath(__file__))
LOCKDEP = os.environ.get("LOCKDEP") or os.path.join(HERE, "..", "..", "..", "..", "lockdep")


def lock_of(key: str) -> str:
    """Its class, without subclass and number."""
    return key.rpartition("/")[0].partition("#")[0]


def findings_of(folder: str, source: dict) -> list[str]:
    traces = sorted(glob.glob(os.path.join(folder, "signals", str(source["number"]), "task-*.csv")))
    done = subprocess.run([LOCKDEP, "explain", "--json", "--locks", "--many"] + traces, capture_output=True, text=True)
    if done.returncode > 1:
        return ["refused: " + done.stderr.strip()]
    found = [finding for finding in json.loads(done.stdout)["findings"] if finding["type"] != "circle"]
    keys = [[finding["key"]] if "key" in finding else finding["keys"] for finding in found]
    return [" ".join([finding["type"]] + [lock_of(key) for key in of] + [source["signal"]]) for finding, of in zip(found, keys)]


def main() -> None:
    folder = sys.argv[1]
    path = os.path.join(folder, "signals", "sources.json")
    found: set[str] = set()
    if os.path.exists(path):
        with open(path, encoding="utf-8") as file:
            for source in json.load(file):
                found.update(findings_of(folder, source))
    print("; ".join(sorted(found)) or "clean")


main()
