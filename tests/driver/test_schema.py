"""The schema of the JSON: it fits what each command writes, and each of its properties occurs there."""
import glob
import json
import os
import shutil
import subprocess
import tempfile
import unittest

from lockdep.ask.asking import ask_about
from lockdep.ask.happened import entry_of
from lockdep.record.provoked import Happened, Stood, write_provoked
from lockdep.binaries.symbols import Address
from schema_checker import Checker, objects_in

HERE = os.path.dirname(os.path.abspath(__file__))
TOP = os.path.dirname(os.path.dirname(HERE))
TOOL = os.path.join(TOP, "lockdep")
SCHEMA = os.path.join(TOP, "tool", "schema", "findings.json")
WAYS = ("crossed", "apart", "library", "one", "joined", "hung", "told", "signals")
KNOWN = "circle a/0 EN b/0\ncircle b/0 EN a/0\n"
# A lock that is used in a softirq, and held as softirqs are turned on; and an order from it to one that is held with them on.
INTERRUPTED = ("lockdep,2\nenter,softirq\nacq,l,0,w\nrel,l,0\nleave\nacq,m,0,w\noff,softirq\nacq,l,0,w\non,softirq\nrel,l,0\nrel,m,0\n"
               "acq,l,0,w\nacq,m,0,w\nrel,m,0\n")


def schema():
    with open(SCHEMA, encoding="utf-8") as file:
        return json.load(file)


class Reports:
    """Makes reports of many kinds, each by the command that a user types."""

    def __init__(self, room):
        self.room = room
        self.environment = dict(os.environ, LOCKDEP=TOOL, LOCKDEP_NAMES="places")

    def path(self, name):
        return os.path.join(self.room, name)

    def write(self, name, text):
        os.makedirs(os.path.dirname(self.path(name)), exist_ok=True)
        with open(self.path(name), "w", encoding="utf-8") as file:
            file.write(text)

    def said(self, *words):
        """What a command writes to standard output as JSON."""
        done = subprocess.run([TOOL, *words], cwd=self.room, env=self.environment, stdin=subprocess.DEVNULL, stdout=subprocess.PIPE,
                              stderr=subprocess.PIPE, timeout=600)
        try:
            return json.loads(done.stdout.decode("utf-8", "surrogateescape"))
        except ValueError:
            raise AssertionError("%s: %s" % (words, done.stderr.decode()))

    def of_traces(self):
        """Of the examples, which are traces."""
        for folder in sorted(glob.glob(os.path.join(TOP, "examples", "*", ""))) + [os.path.join(TOP, "examples/transfers/under-a-lock/")]:
            traces = [name for name in sorted(glob.glob(folder + "*.txt")) if is_trace(name)]
            if traces and subprocess.run([TOOL, "check", *traces], stdout=subprocess.DEVNULL, stderr=subprocess.DEVNULL).returncode < 2:
                yield self.said("explain", "--json", *traces)
                yield self.said("explain", "--json", "--locks", *traces)
                yield self.said("view", "--json", "-", *traces)

    def by_hand(self):
        """Of a recording whose interrupts and kept locks a program doesn't have."""
        self.write("hand/SUMMARY", "processes 1\nthreads 1\noperations 8\nevents 8\nclasses 2\n")
        self.write("hand/classes", "l\t/a/program\t10\tstatic\n")
        self.write("hand/tasks", "task-0001.csv 1 server\n")
        for folder in ("hand", "hand/objects"):
            self.write(folder + "/task-0001.csv", INTERRUPTED)
            self.write(folder + "/task-0001.csv.places", "4 server.c:3 takes\n5 server.c:4 handles\n")
        yield self.said("confirm", "--json", "-", "hand")

    def recorded(self):
        """Of a program that is recorded: `run`, and `confirm` of the same."""
        built = subprocess.run(["cc", "-g", "-O1", "-I", os.path.join(TOP, "recorders", "pthread"), "-o", self.path("program"),
                                os.path.join(HERE, "schema.c"), "-pthread"], stderr=subprocess.PIPE)
        assert built.returncode == 0, built.stderr
        for way in WAYS:
            yield self.said("run", "-o", way, "--json", "-", "--", "./program", way)
        for way in ("crossed", "signals"):
            yield self.said("confirm", "--json", "-", way)

    def known(self):
        self.write("known", KNOWN)
        yield self.said("run", "-o", "known-ones", "--known", "known", "--json", "-", "--", "./program", "crossed")

    def happened(self):
        """Of a recording in whose further runs threads stood still, once for good and once for a time."""
        for doubts, sent in (((), "SIGHUP was sent to thread 1"), (("a timer may end it",), "")):
            finding = ask_about(self.path("apart")).findings()[0]
            threads = [Stood(1, "payer", "holds a and waits for b", (Address("/no/server", 0x20),), (Address("/no/server", 0x10),))]
            write_provoked(self.path("apart"), [entry_of(1, finding, Happened(2, threads, 5.0, doubts, sent))])
            yield self.said("confirm", "--json", "-", "apart")

    def gathered(self):
        yield self.said("gather", "-o", "all", "--night", "2026-11-30", "--build", "4f2a", "--json", "-", "crossed", "apart", "hand")

    def all(self):
        for each in (self.of_traces, self.by_hand, self.recorded, self.known, self.happened, self.gathered):
            yield from each()


def is_trace(name):
    with open(name, "rb") as file:
        return file.read(8) == b"lockdep,"


class Schema(unittest.TestCase):
    def test_each_part_is_described_and_refuses_other_properties(self):
        said = schema()
        for path, part in objects_in(said):
            self.assertIs(part.get("additionalProperties"), False, path)
            self.assertEqual(set(part.get("required", [])) - set(part["properties"]), set(), path)
            for name, property in part["properties"].items():
                described = property if "description" in property else said["$defs"].get(property.get("$ref", "").rpartition("/")[2], {})
                self.assertGreater(len(described.get("description", "")), 8, "%s: %s" % (path, name))

    def test_what_is_wrong_is_refused(self):
        self.assertEqual(Checker(schema()).faults({"lockdep": 1, "findings": []}), [])
        right = {"type": "double", "key": "a/0", "irq": "hardirq", "lines": ["double hardirq a/0"]}
        for wrong in ({"lockdep": 2, "findings": []}, {"lockdep": 1}, {"lockdep": 1, "findings": [], "more": 1}, {"lockdep": True, "findings": []},
                      {"lockdep": 1, "findings": [dict(right, type="loop")]}, {"lockdep": 1, "findings": [dict(right, key="a")]},
                      {"lockdep": 1, "findings": [dict(right, lines=[])]}, {"lockdep": 1, "findings": [dict(right, used={"record": 0})]}):
            self.assertNotEqual(Checker(schema()).faults(wrong), [], wrong)
        self.assertEqual(Checker(schema()).faults({"lockdep": 1, "findings": [right]}), [])

    @unittest.skipUnless(shutil.which("cc"), "there is no C compiler")
    def test_it_fits_what_is_written_and_nothing_in_it_is_never_written(self):
        checker, count = Checker(schema()), 0
        with tempfile.TemporaryDirectory() as room:
            for said in Reports(room).all():
                count += 1
                self.assertEqual(checker.faults(said), [])
        self.assertGreater(count, 12)
        never = ["%s: %s" % (path, name) for path, part in objects_in(checker.schema) for name in part["properties"] if (path, name) not in checker.met]
        self.assertEqual(never, [])


if __name__ == "__main__":
    unittest.main()
