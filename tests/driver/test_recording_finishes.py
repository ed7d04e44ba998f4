"""The finishes in this package: what they make of records that were written by hand."""
import hashlib
import os
import struct
import tempfile
import unittest

from lockdep.base.saying import Refusal
from lockdep.finish import class_names, finish_embed, finishing, log, log_traces, packages
from lockdep.record import summary

ONE, TWO = "0000000000000000001-11", "0000000000000000002-12"


class Room(unittest.TestCase):
    def setUp(self):
        folder = tempfile.TemporaryDirectory()
        self.addCleanup(folder.cleanup)
        self.path = os.path.join(folder.name, "traces")
        self.raw = os.path.join(self.path, "raw")
        os.makedirs(self.raw)

    def put(self, name, text, folder=None):
        with open(os.path.join(folder or self.raw, name), "w", encoding="utf-8") as file:
            file.write(text)

    def text(self, *names):
        with open(os.path.join(self.path, *names), encoding="utf-8") as file:
            return file.read()

    def told(self, process, classes, counts="", program=""):
        """Writes the file of a process: its classes have the numbers from 1 on, each with its name, its place, and how it is made. A lock has ten times
        the number of its class and its own number as its key, so that `11` is the first one of the first class."""
        lines = ["process %s %d" % (process.partition("-")[2], int(process.partition("-")[0]))] + (["F " + program] if program else [])
        for number, (name, place, kind) in enumerate(classes, 1):
            lines += ["C %d\t%s\t%s\t%s" % (number, name, place, kind)] + ["K %d %d %d" % (10 * number + lock, number, lock) for lock in range(4)]
        self.put(process, "\n".join(lines + ["P 1\tm.rs:7", "P 2\ta b.rs:8"]) + "\n")
        if counts:
            self.put(process + "-counts", counts)

    def rust(self):
        return log_traces.finish(self.path, self.raw, "rust", True)[0]


A, B = ("a", "m.rs:1", "made in"), ("b", "m.rs:2", "made in")
M, STARTED = ("m.rs:1:2", "m.rs:1", "made in"), ("m.rs:9:9", "m.rs:9", "started")


class Rust(Room):
    def test_a_thread(self):
        self.told(ONE, [M, ("m.rs:2:2", "m.rs:2", "made in"), ("m.rs:3:2", "m.rs:3", "made in")], "S operations 00000000000000000006\n", "/x/program")
        self.put(ONE + "-1", "A 1 168 1\nA 1 83 2\nR 1 82 0\nR 1 170 0\nE 1\n")
        counted = self.rust()
        self.assertEqual(self.text("task-0001.csv"), "lockdep,2\nacq,m.rs:2:2,0,w\nacq,m.rs:1:2,0,r\nrel,m.rs:1:2,0\nrel,m.rs:2:2,0\n")
        self.assertEqual(self.text("objects", "task-0001.csv"),
                         "lockdep,2\nacq,m.rs:2:2#1,0,w\nacq,m.rs:1:2#rest,0,r\nrel,m.rs:1:2#rest,0\nrel,m.rs:2:2#1,0\n")
        self.assertEqual(self.text("task-0001.csv.places"), "2 m.rs:7\n3 a b.rs:8\n")
        self.assertEqual(self.text("classes"), "m.rs:2:2\tm.rs:2\t-\tmade in\nm.rs:1:2\tm.rs:1\t-\tmade in\n")
        self.assertEqual(summary.text_of_summary(counted), "processes 1\nthreads 1\noperations 6\nevents 4\nclasses 2\n")

    def test_names_of_threads(self):
        self.told(ONE, [A], "S operations 4\n")
        self.put(ONE + "-1", "N 1\tthe payer\nA 1 88 1\nR 1 90 0\nE 1\n")
        self.put(ONE + "-2", "A 2 88 1\nR 2 90 0\nE 2\n")
        self.put(ONE + "-3", "N 3\tcut back to nothing\n")
        self.assertEqual(summary.text_of_summary(self.rust()), "processes 1\nthreads 2\noperations 4\nevents 4\nclasses 1\n")
        self.assertEqual(self.text("tasks"), "task-0001.csv %s the payer\n" % ONE.partition("-")[2])

    def test_how_threads_end(self):
        self.told(ONE, [A, B], "S operations 4\n")
        self.put(ONE + "-2", "A 2 88 1\nA 2 168 2\nW 2\n")
        self.put(ONE + "-10", "A 10 88 1\nE 10\n")
        self.put(ONE + "-3", "A 3 88 1\nA 3 168 2\nW 3\nG 3\n")
        self.assertEqual(summary.text_of_summary(self.rust()), "processes 1\nthreads 3\noperations 5\nevents 5\nclasses 2\n"
                         "waiting 1\n  task-0001 waits for b, holding a\nheld-at-end 1\n  task-0003 ended holding a\n")

    def test_a_thread_that_goes_on_after_its_end(self):
        self.told(ONE, [A], "S operations 2\n")
        self.put(ONE + "-1", "A 1 88 1\nE 1\nR 1 90 0\n")  # as in the destructors of its thread-local values
        self.put(ONE + "-2", "A 2 88 1\nE 2\nA 2 96 1\n")
        self.assertNotIn("held-at-end", summary.text_of_summary(self.rust()))

    def test_locks_of_two_processes_are_two(self):
        for process in (TWO, ONE):
            self.told(process, [A], "S operations 1\n")
            self.put(process + "-1", "A 1 88 1\n")
        self.rust()
        self.assertEqual([self.text("objects", "task-000%d.csv" % task) for task in (1, 2)],
                         ["lockdep,2\nacq,a#1@1,0,w\n", "lockdep,2\nacq,a#1@2,0,w\n"])

    def test_a_record_that_is_cut_off_or_damaged(self):
        self.told(ONE, [A, B], "S operations 2\n")
        self.put(ONE + "-1", "A 1 88 1\nA 1 168")
        self.put(ONE + "-2", "A 2 88 1\nA 2 b\nR 2 90 0\n")
        self.put(ONE + "-3", "A")
        self.assertEqual(summary.text_of_summary(self.rust()), "processes 1\nthreads 2\noperations 2\nevents 2\nclasses 1\n"
                         "unwritten 1\n  processes whose recording couldn't be written to its end: an order among them may be missing\n")

    def test_a_lock_of_which_nothing_was_written(self):
        self.told(ONE, [A], "S operations 2\n")
        self.put(ONE + "-1", "A 1 88 1\nA 1 800 1\n")
        self.rust()
        self.assertEqual(self.text("task-0001.csv"), "lockdep,2\nacq,a,0,w\nacq,unknown,0,w\n")

    def test_threads_that_are_joined(self):
        self.told(ONE, [M, STARTED], "S operations 4\n")
        self.put(ONE + "-1", "A 1 88 1\nA 1 168 2\nW 1\nG 1\nR 1 170 0\nA 1 174 2\nR 1 170 0\nA 1 176 2\nR 1 178 0\nR 1 90 0\nE 1\n")
        self.put(ONE + "-2", "T 2 21\nA 2 88 1\nR 2 90 0\nE 2\n")
        self.put(ONE + "-3", "T 3 22\nA 3 184 1\nR 3 186 0\nE 3\n")
        # the third thread joins one that takes nothing, so nobody waits for it with a lock held that it needs
        self.assertEqual(summary.text_of_summary(self.rust()), "processes 1\nthreads 2\noperations 4\nevents 10\nclasses 2\n")
        joins = "acq,thread:m.rs:9:9,0,w\nrel,thread:m.rs:9:9,0\n"
        self.assertEqual(self.text("task-0001.csv"), "lockdep,2\nacq,m.rs:1:2,0,w\n%srel,m.rs:1:2,0\n" % (2 * joins))
        self.assertEqual(self.text("objects", "task-0002.csv"),
                         "lockdep,2\nacq,thread:m.rs:9:9#1,0,w\nacq,m.rs:1:2#1,0,w\nrel,m.rs:1:2#1,0\nrel,thread:m.rs:9:9#1,0\n")
        self.assertEqual(self.text("weak"), "task-0001.csv 5 timed\n")
        self.assertEqual(self.text("classes"), "m.rs:1:2\tm.rs:1\t-\tmade in\nthread:m.rs:9:9\tm.rs:9\t-\tstarted\n")

    def test_who_waits_for_a_thread_that_waits(self):
        self.told(ONE, [M, STARTED], "S operations 4\n")
        self.put(ONE + "-1", "A 1 88 1\nA 1 168 2\nW 1\n")
        self.put(ONE + "-2", "T 2 21\nA 2 88 1\nW 2\n")
        self.assertEqual(summary.text_of_summary(self.rust()), "processes 1\nthreads 2\noperations 4\nevents 4\nclasses 2\n"
                         "waiting 2\n  task-0001 waits for thread:m.rs:9:9, holding m.rs:1:2\n  task-0002 waits for m.rs:1:2\n")
        # a thread that goes on may yet end
        self.put(ONE + "-2", "T 2 21\nA 2 88 1\nW 2\nG 2\nR 2 90 0\n")
        self.assertNotIn("waiting", summary.text_of_summary(self.rust()))

    def test_limits(self):
        lines = ["process 11 1"]
        for thread in range(1, finishing.MOST_TRACES + 3):
            first = 3 * thread
            lines += ["C %d\t%s%d\tm.rs:1\tmade in" % (first + at, name, thread) for at, name in enumerate("cde")]
            lines += ["K %d %d %d" % (first + at, first + at, lock) for at, lock in enumerate((1, 1, 2))]
            self.put("%s-%d" % (ONE, thread), "".join("A %d %d 0\n" % (thread, 8 * (first + at)) for at in range(3)))
        self.put(ONE, "\n".join(lines) + "\n")
        counted = self.rust()
        # the first 2,730 threads have three new classes each, the next one two, and the 1,365 after that none
        self.assertEqual([counted.number(code) for code in ("threads", "beyond-traces", "classes", "beyond-classes")],
                         [4096, 2, 8192, 1 + 3 * 1365])
        # the first 1,365 threads have three locks each, and the next one one, with names of their own
        self.assertEqual([self.text("objects", "task-%d.csv" % task) for task in (1365, 1366, 2731, 2732)],
                         ["lockdep,2\nacq,c1365#1,0,w\nacq,d1365#1,0,w\nacq,e1365#2,0,w\n",
                          "lockdep,2\nacq,c1366#1,0,w\nacq,d1366#rest,0,w\nacq,e1366#rest,0,w\n",
                          "lockdep,2\nacq,c2731#rest,0,w\nacq,d2731#rest,0,w\n", "lockdep,2\n"])

    def test_classes_of_several_packages(self):
        for process, folder, file in ((ONE, "one", "src/main.rs"), (TWO, "two", "src/main.rs")):
            self.told(process, [("%s:5:1" % file, "%s:5" % file, "made in"), ("src/%s.rs:1:1" % folder, "src/%s.rs:1" % folder, "made in")], "",
                      "/home/x/%s/target/debug/p" % folder)
            self.put(process + "-1", "A 1 88 1\nA 1 168 1\n")
        self.rust()
        self.assertEqual([line.split("\t")[0] for line in self.text("classes").splitlines()],
                         ["one/src/main.rs:5:1", "src/one.rs:1:1", "two/src/main.rs:5:1", "src/two.rs:1:1"])

    def test_names_of_classes(self):
        # the hash is FNV-1a with 32 bits, of the whole name
        for name, made, kind, wanted in (
                ("src/main.rs:5:1", "", "made in", "src/main.rs:5:1"),
                ("a@b,c d.rs:5:1", "", "made in", "a%40b;c_d.rs:5:1"),
                ("/rustc/0123/library/core/src/x.rs:5:1", "core::option::Option<alloc::string::String, my::T>", "made in",
                 "core/src/x.rs:5:1<option::Option<string::String;my::T"[:44] + "~%08x"),
                ("/home/me/.cargo/registry/src/index-12/some-1.0/src/lib.rs:7:9", "", "made in", "some-1.0/src/lib.rs:7:9"),
                ("/home/me/.cargo/git/checkouts/some-12/34/lib.rs:7:9", "", "started", "thread:34/lib.rs:7:9"),
                ("/x/vendor/some/lib.rs:7:9", "", "made in", "some/lib.rs:7:9")):
            got = class_names.of_rust(log.Told(name, "", kind, made))
            if "%08x" in wanted:
                whole = "core/src/x.rs:5:1<option::Option<string::String;my::T>>"
                number = 2166136261
                for letter in whole.encode():
                    number = (number ^ letter) * 16777619 & 0xffffffff
                wanted = wanted % number
            self.assertEqual(got, wanted)

    def test_a_package_by_what_cargo_wrote(self):
        os.makedirs(os.path.join(self.path, "elsewhere"))
        program = os.path.join(self.path, "elsewhere", "p")
        self.put("p.d", "%s: /home/x/one/src/main.rs /home/x/one/src/a.rs\n" % program, os.path.dirname(program))
        self.assertEqual(packages.root_of(program, "src/a.rs"), "/home/x/one")
        self.assertEqual(packages.root_of(program, "src/b.rs"), "")
        self.assertEqual(packages.root_of("/home/target/one/target/debug/p", "src/b.rs"), "/home/target/one")
        self.assertEqual(packages.folder_of("/a/x/one", ["/a/x/one", "/b/x/one", "/b/x/two"]), "a/x/one")
        self.assertEqual(packages.folder_of("/b/x/two", ["/a/x/one", "/b/x/one", "/b/x/two"]), "two")

    def test_nothing(self):
        self.assertEqual(self.rust().after("unseen"), ["rust-off"])
        self.told(ONE, [], "S operations 0\n")
        self.assertEqual(self.rust().after("unseen"), ["rust-nothing"])


# (no process has this number)
TWO_CLASSES = "process 4194305 1\nC 1\ta\tm.py:1 f\tLock\nC 2\tb\tm.py:2 f\tLock\nK 1 1 0\nK 2 1 1\nK 3 2 1\nP 1\tm.py:7 g\tm.py:9 h\n"


class OfOtherVersions(Room):
    """What a program wrote that was built with another version of the recorder."""

    def test_it_is_refused(self):
        self.told(TWO, [A], "S operations 1\n")
        self.put(ONE, "operations 00000000000000000032\nrepeats 00000000000000000000\n")
        self.put(ONE + "-000001", "A src/main.rs:6:23 1 w src/main.rs:4\n")
        with self.assertRaises(Refusal) as raised:
            self.rust()
        self.assertEqual(str(raised.exception), "this was recorded by another version of the recorder: build the program again with this one, and record it")

    def test_a_first_line_that_was_cut_off_is_a_loss(self):
        self.put(ONE, "proc")
        self.assertEqual(self.rust().number("unwritten"), 0)
        self.put(ONE, "")
        self.assertEqual(self.rust().number("unwritten"), 1)


class Logs(Room):
    """What only some recorders write."""

    def finish(self, recorder, is_by_itself=False):
        return log_traces.finish(self.path, self.raw, recorder, is_by_itself)[0]

    def test_records_that_are_cut_back(self):
        self.put("5-0", TWO_CLASSES + "A 1 16 1\nA 1 24 1\nW 1\nG 1\nB 1 1\nR 1 18 0\nE 1\nS operations 4\nS operations 2\n")
        self.assertEqual(summary.text_of_summary(self.finish("python")), "processes 1\nthreads 1\noperations 2\nevents 2\nclasses 1\n")
        self.assertEqual(self.text("task-0001.csv"), "lockdep,2\nacq,a,0,w\nrel,a,0\n")
        self.assertEqual(self.text("task-0001.csv.places"), "2 m.py:7 g\n2 m.py:9 h\n")

    def test_a_lock_that_is_told_apart_later(self):
        self.put("5-0", TWO_CLASSES + "A 1 8 1\nM 1 0 16\nA 1 24 1\nR 1 26 0\nR 1 18 0\nE 1\nS operations 4\n")
        self.finish("java")
        self.assertEqual(self.text("objects", "task-0001.csv"), "lockdep,2\nacq,a#1,0,w\nacq,b#1,0,w\nrel,b#1,0\nrel,a#1,0\n")

    def test_a_damaged_line_of_a_process(self):
        self.put("5-0", TWO_CLASSES + "A 1 16 1\nA 1\nR 1 18 0\nE 1\nS operations 2\nC 3\ttoo few\n")
        counted = self.finish("python")
        self.assertEqual((counted.number("unwritten"), counted.number("events")), (1, 2))

    def test_a_file_that_was_lost(self):
        self.put("5-0", TWO_CLASSES + "S operations 2\n")
        self.put("5-0.lost", "")
        self.put("6-0", "")
        self.assertEqual(self.finish("python").number("unwritten"), 2)

    def test_counts_of_a_page(self):
        self.put(ONE, "process 11 1\nQ operations beyond-held\n")
        with open(os.path.join(self.raw, ONE + "-page"), "wb") as file:
            file.write(struct.pack("<16Q", 3, 1, 9, 9, 9, 9, 9, 9, 4, 0, 9, 9, 9, 9, 9, 9))
        counted = self.finish("go", True)
        self.assertEqual((counted.number("operations"), counted.number("beyond-held")), (7, 1))

    def test_names_of_go(self):
        of_place = hashlib.sha256(b"main.f:5").hexdigest()[:8]
        for name, made, wanted in (("main.pool.mu", "main.f:5", "main.pool.mu@" + of_place), ("", "main.f:5", "main.f:5"), ("main.table", "", "main.table"),
                                   ("main.C[go.shape.string_0,go.shape.[]main.T_0_1].mu", "", "main.C[string;[]main.T_0].mu"),
                                   ("main.C[go.shape.[]main.T_1,go.shape.*uint8].mu", "", "main.C[[]main.T_1;*uint8].mu"),
                                   ('a@b#c,d"e f', "", "a%40b%23c;d'e_f"), ("", "", "unknown"),
                                   ("x.y/" + 40 * "z" + ".mu", "", 32 * "z" + ".mu%" + hashlib.sha256(("x.y/" + 40 * "z" + ".mu").encode()).hexdigest()[:8])):
            self.assertEqual(class_names.of_go(log.Told(name, "", "made in", made)), wanted)

    def test_classes_of_one_name(self):
        self.put("5-0", "process 4194305 1\nC 1\ta b\tm.py:1 f\tLock\nC 2\ta_b\tm.py:2 f\tLock\nK 1 1 1\nK 2 2 1\nA 1 8 0\nA 1 16 0\nS operations 2\n")
        self.finish("python")
        self.assertEqual(self.text("classes"), "a_b\tm.py:1 f\t-\tmade in\na_b~2\tm.py:2 f\t-\tmade in\n")


class Embed(Room):
    def test_a_line_for_single_locks(self):
        for line, single in (("acq,a,0,w", "acq,a#rest,0,w"), ("rel,a,0", "rel,a#rest,0"), ('acq,"a,b",7,trr', 'acq,"a,b#rest",7,trr'),
                             ('rel,"a""b",1', 'rel,"a""b#rest",1'), ("enter,hardirq", "enter,hardirq"), ("leave", "leave"), ("lockdep,2", "lockdep,2")):
            self.assertEqual(finish_embed.Line(line, set()).single, single)

    def test_a_line_of_a_lock_with_a_number(self):
        for line, of_class, single in (("acq,a#1,0,w", "acq,a,0,w", "acq,a#1,0,w"), ("rel,a#0,1", "rel,a,1", "rel,a#0,1"),
                                       ('acq,"a,b#12",7,trr', 'acq,"a,b",7,trr', 'acq,"a,b#12",7,trr'),
                                       ("acq,a#b#3,0,w", "acq,a#b,0,w", "acq,a#b#3,0,w"), ("acq,a#rest,0,w", "acq,a,0,w", "acq,a#rest,0,w"),
                                       ("acq,a#01,0,w", "acq,a#01,0,w", "acq,a#01#rest,0,w"), ("acq,#1,0,w", "acq,#1,0,w", "acq,#1#rest,0,w")):
            self.assertEqual((finish_embed.Line(line, set()).of_class, finish_embed.Line(line, set()).single), (of_class, single))

    def test_more_locks_than_have_names(self):
        own = {"a#%d" % number for number in range(finishing.MOST_LOCKS)}
        self.assertEqual(finish_embed.Line("acq,a#7,0,w", own).single, "acq,a#7,0,w")
        self.assertEqual(finish_embed.Line("acq,a#%d,0,w" % finishing.MOST_LOCKS, own).single, "acq,a#rest,0,w")

    def test_names_that_leave_no_room(self):
        for length, is_told_apart in ((59, True), (60, False)):
            self.assertEqual(finish_embed.Line("acq,%s,0,w" % ("n" * length), set()).is_told_apart, is_told_apart)
        self.assertTrue(finish_embed.Line('acq,"%s",0,w' % ('""' * 59), set()).is_told_apart)

    def test_a_recording(self):
        self.put("task-0001.csv", "lockdep,2\nacq,a,0,w\nacq,b,1,r\nrel,a,0\n")
        self.put("task-0001.csv.places", "2 m.c:1\n3 left a\n2 left b\n3 end\n")
        self.put("task-0002.csv", "lockdep,2\nacq,a,0,w\nrel,a")
        self.put("other.csv", "")
        counted = finish_embed.finish(self.path, self.raw)
        self.assertEqual(self.text("task-0002.csv"), "lockdep,2\nacq,a,0,w\n")
        self.assertEqual(summary.text_of_summary(counted), """processes 1
threads 2
operations 4
events 4
classes 2
  interrupts came in 3 times although they were off: `on` stands before them
held-at-end 2
  task-0001 ended holding b,1
  task-0002 ended holding a
unseen-releases 2
  releases of locks that were not seen to be taken
cut-traces 1
  traces cut off in a record
unplaced-traces 1
  traces without places, which tell the end: what was left out of them is not known
unread-files 1
  files beside the traces that were not read
    other.csv
""")

    def test_nothing(self):
        self.assertEqual(finish_embed.finish(self.path, self.raw).after("unseen"), ["embed-off"])
        self.put("task-0001.csv", "")
        self.assertEqual(finish_embed.finish(self.path, self.raw).after("unseen"), ["embed-empty"])
        self.put("task-0001.csv", "lockdep,2\n")
        self.assertEqual(finish_embed.finish(self.path, self.raw).after("unseen"), ["embed-nothing"])


class Names(unittest.TestCase):
    def test_only_the_first_locks_have_a_name_of_their_own(self):
        names = finishing.LockNames()
        self.assertEqual([names.name("a", number, 1, "") for number in (1, 2, 0, 1)], ["a#1", "a#2", "a#rest", "a#1"])
        for number in range(3, finishing.MOST_LOCKS + 1):
            names.name("a", number, 1, "")
        self.assertEqual([names.name("a", number, 1, "") for number in (4096, 4097)], ["a#4096", "a#rest"])
        self.assertEqual(names.name("a", 1, 2, "@2"), "a#rest@2")


if __name__ == "__main__":
    unittest.main()
