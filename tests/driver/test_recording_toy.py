"""How much a new recorder takes: one of 40 lines, added to a copy of the tool by one class and its sentences."""
import os
import shutil
import subprocess
import tempfile
import unittest

TOP = os.path.realpath(os.path.join(os.path.dirname(os.path.realpath(__file__)), "..", ".."))

# The recorder: a program in its language writes `take NAME` and `give NAME` to a file of the folder LOCKDEP_TRACES/raw; and what makes traces of these.
PROGRAM = """#!/bin/sh
# toy-program
for name in "$@"; do
    case $name in
        -*) echo "give ${name#-}" ;;
        *) echo "take $name" ;;
    esac
done >"$LOCKDEP_TRACES/raw/$$.toy"
"""
FINISH = """#!/usr/bin/env python3
import os, sys
folder = sys.argv[1]
raw = os.path.join(folder, "raw")
names = sorted(name for name in os.listdir(raw) if name.endswith(".toy"))
classes, records = set(), 0
os.makedirs(os.path.join(folder, "objects"), exist_ok=True)
for number, name in enumerate(names, 1):
    lines = ["lockdep,2"]
    for word, lock in (line.split() for line in open(os.path.join(raw, name))):
        lines.append("acq,%s,0,w" % lock if word == "take" else "rel,%s,0" % lock)
        classes.add(lock)
    records += len(lines) - 1
    for place in ("", "objects"):
        with open(os.path.join(folder, place, "task-%04d.csv" % number), "w") as trace:
            trace.write("".join(line + chr(10) for line in lines))
with open(os.path.join(folder, "classes"), "w") as file:
    file.write("".join("%s\\ttoy.c:1\\t-\\tmade in\\n" % name for name in sorted(classes)))
with open(os.path.join(folder, "SUMMARY"), "w") as file:
    file.write("processes %d\\nthreads %d\\noperations %d\\nevents %d\\nclasses %d\\n" % (len(names), len(names), records, records, len(classes)))
    if not names:
        file.write("unseen toy-off\\n")
"""

# The same program with a recorder that writes the form of recorders/log.md: a class has the number of its letter.
LOGGING = """#!/bin/sh
# toy-program
{
    echo "process $$ 1"
    for name in "$@"; do
        key=$(printf %d "'${name#-}")
        case $name in
            -*) echo "R 1 $((8 * key + 2)) 0" ;;
            *) printf 'C %d\\t%s\\ttoy.c:1 main\\tmade in\\nK %d %d 1\\nA 1 %d 0\\n' "$key" "$name" "$key" "$key" "$((8 * key))" ;;
        esac
    done
    echo "E 1"
} >"$LOCKDEP_TRACES/raw/$$-0"
"""

# What the driver needs to know of it.
ENTRY = """

class Toy(Recorder):
    name, language, is_in_process, finisher = "toy", "Toy", True, "toy/finish"
    sees, when = "for those of Toy", "it is a program in Toy"

    def recognises(self, command: str) -> bool:
        return has(content(command), (b"toy-program",))

    def environment(self, folder: str, raw: str, preload: str) -> dict[str, str]:
        return {"PRELOAD": "", "LOCKDEP_TRACES": os.path.dirname(raw)}


PTHREAD = Recorder()
"""


def change(path, old, new):
    with open(path, encoding="utf-8") as file:
        text = file.read()
    assert old in text, old
    with open(path, "w", encoding="utf-8") as file:
        file.write(text.replace(old, new, 1))


def write(path, text):
    os.makedirs(os.path.dirname(path), exist_ok=True)
    with open(path, "w", encoding="utf-8") as file:
        file.write(text)
    os.chmod(path, 0o755)


@unittest.skipUnless(os.path.isfile(os.path.join(TOP, "recorders", "pthread", "out", "run")), "the recorder of pthreads isn't built")
class NewRecorder(unittest.TestCase):
    program, finish, entry = PROGRAM, FINISH, ENTRY

    def setUp(self):
        self.room = tempfile.mkdtemp()
        self.addCleanup(shutil.rmtree, self.room)
        self.home = os.path.join(self.room, "home")
        shutil.copytree(os.path.join(TOP, "tool"), os.path.join(self.home, "tool"))
        pthread = os.path.join(self.home, "recorders", "pthread")
        os.makedirs(pthread)
        os.symlink(os.path.join(TOP, "recorders", "pthread", "out"), os.path.join(pthread, "out"))
        shutil.copy(os.path.join(TOP, "recorders", "pthread", "record"), pthread)
        if self.finish:
            write(os.path.join(self.home, "recorders", "toy", "finish"), self.finish)
        write(os.path.join(self.room, "program"), self.program)
        recorders = os.path.join(self.home, "tool", "lockdep", "record", "recorders.py")
        change(recorders, "\nPTHREAD = Recorder()\n", self.entry)
        change(recorders, "(PTHREAD, ", "(PTHREAD, Toy(), ")
        change(recorders, 'ORDER = (', 'ORDER = ("toy", ')
        change(os.path.join(self.home, "tool", "lockdep", "record", "losses.py"), 'REASONS: dict[str, str] = {\n',
               'REASONS: dict[str, str] = {\n    "toy-off": "no program in Toy was started",\n')

    def record(self, *words):
        command = ["python3", "-I", "-S", os.path.join(self.home, "tool", "lockdep", "__main__.py"), "record"] + list(words)
        done = subprocess.run(command, cwd=self.room, stderr=subprocess.PIPE, stdin=subprocess.DEVNULL, check=False)
        return done.returncode, done.stderr.decode()

    def test_it_records(self):
        self.assertEqual(self.record("-o", "traces", "--recorder", "toy", "./program", "a", "b", "-b", "-a"),
                         (0, "record: 1 process, 1 thread, 4 operations, 2 classes\n"))
        self.assertEqual(self.record("--summary", "traces"), (0, "record: 1 process, 1 thread, 4 operations, 2 classes\n"))
        self.assertEqual(self.record("--finish", "traces"), (0, "record: 1 process, 1 thread, 4 operations, 2 classes\n"))

    def test_it_says_why_nothing_was_seen(self):
        status, said = self.record("-o", "traces", "--recorder", "toy", "true")
        self.assertEqual((status, said.split("\n")[-2]), (2, "record:   no program in Toy was started"))

    def test_it_is_named_where_a_wrong_one_is(self):
        self.assertEqual(self.record("--recorder", "nosuch", "true"),
                         (2, "record: --recorder takes pthread, toy, python, java, rust, go or embed, and not 'nosuch'\n"))

    def test_it_is_chosen_by_its_programs_and_is_in_the_help(self):
        text = "import sys; sys.path.insert(0, sys.argv[1]); from lockdep.record import recorders; print(recorders.recorder_for(sys.argv[2]).name)"
        done = subprocess.run(["python3", "-c", text, os.path.join(self.home, "tool"), os.path.join(self.room, "program")], stdout=subprocess.PIPE,
                              check=True)
        self.assertEqual(done.stdout, b"toy\n")
        subprocess.run([os.path.join(self.home, "tool", "texts", "write")], check=True)
        with open(os.path.join(self.home, "tool", "help", "run-all"), encoding="utf-8") as file:
            self.assertIn("toy for those of Toy", file.read())
        with open(os.path.join(self.home, "tool", "completions", "lockdep.bash"), encoding="utf-8") as file:
            self.assertIn("pthread toy python java rust go embed", file.read())


class NewRecorderOfLogs(NewRecorder):
    """One that writes the form of the recorders of languages needs no program that makes its traces: two files outside its own folder are changed."""
    program, finish, entry = LOGGING, None, ENTRY.replace('is_in_process, finisher = "toy", "Toy", True, "toy/finish"',
                                                          'is_in_process, writes_log = "toy", "Toy", True, True')

    def test_its_traces(self):
        self.record("-o", "traces", "--recorder", "toy", "./program", "a", "b", "-b", "-a")
        with open(os.path.join(self.room, "traces", "objects", "task-0001.csv"), encoding="utf-8") as file:
            self.assertEqual(file.read(), "lockdep,2\nacq,a#1,0,w\nacq,b#1,0,w\nrel,b#1,0\nrel,a#1,0\n")


if __name__ == "__main__":
    unittest.main()
