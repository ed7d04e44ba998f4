"""Findings for the unit tests, as the checker's JSON has them, and a recording's folder."""
import json
import os
import tempfile
import unittest

from lockdep.program.findings import findings_of


def order(start, kind, end, file="t/objects/task-0001.csv", record=3, since=2):
    return {"from": start, "kind": kind, "to": end, "file": file, "record": record, "takes": "w", "held": "w", "since": since}


def sightings(traces, count):
    """That so many traces have an order, of which these are the first."""
    return {"count": count, "first": [{"file": trace, "record": 3, "since": 2} for trace in traces]}


def circle(*keys, **more):
    """A cycle through these keys, each order by a trace of its own."""
    orders = [order(key, "EN", keys[(place + 1) % len(keys)], "t/objects/task-%04d.csv" % (place + 1)) for place, key in enumerate(keys)]
    finding = {"type": "circle", "keys": list(keys), "orders": orders, "notes": [], "gates": [],
               "lines": ["circle %s EN %s" % (one["from"], one["to"]) for one in orders]}
    return dict(finding, **more)


def circle_by(tasks, *keys, folder="t/objects", **more):
    """A cycle through these keys, each order by the traces of these tasks alone: a number, or several."""
    orders = []
    for place, (key, by) in enumerate(zip(keys, tasks)):
        traces = ["%s/task-%04d.csv" % (folder, task) for task in (by if isinstance(by, tuple) else (by,))]
        orders.append(dict(order(key, "EN", keys[(place + 1) % len(keys)], traces[0]), traces=sightings(traces, len(traces))))
    return circle(*keys, **dict({"orders": orders}, **more))


def between(kind, inner=None):
    return {"kind": kind, "finding": inner} if inner else {"kind": kind}


def finding(said):
    return findings([said])[0]


def findings(said):
    return findings_of(json.dumps({"lockdep": 2, "counts": {}, "findings": said}).encode())


class OfARecording(unittest.TestCase):
    """Has a folder with two traces."""

    def setUp(self):
        self.room = tempfile.TemporaryDirectory()
        self.addCleanup(self.room.cleanup)
        self.folder = self.room.name
        os.mkdir(self.path("objects"))
        for name in ("classes", "task-0001.csv", "task-0002.csv", "objects/task-0001.csv", "objects/task-0002.csv"):
            self.write(name, "one\n")

    def path(self, name):
        return os.path.join(self.folder, name)

    def write(self, name, text):
        with open(self.path(name), "w") as file:
            file.write(text)
