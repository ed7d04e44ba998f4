"""The summary of a recording, as text and as JSON."""
import json
import os
import shutil
import tempfile
import unittest

from lockdep.record import summary
from lockdep.record.summary import Count, File, Summary

TEXT = """processes 2
threads 5
operations 1234
events 30
classes 7
waiting 1
  task-0001 waits for b, holding a
at-exit 0
beyond-held 12
  acquisitions with 48 locks held already: an order among them may be missing
lost-threads 2
repeats 7
  records that repeat what their thread had done before: nothing is lost by these
unreached-runs 3
  runs of programs that the recorder isn't loaded into: nothing of them was recorded
    ./static, 2 times: it is linked statically, so nothing can be preloaded into it
    ./env, 1 time: it is started without LD_PRELOAD, as by env -i
unseen go libjvm
"""


class Texts(unittest.TestCase):
    def setUp(self):
        self.summary = Summary(summary.parse(TEXT))

    def test_a_text_is_written_as_it_was_read(self):
        self.assertEqual(summary.text_of_summary(self.summary), TEXT)

    def test_numbers(self):
        self.assertEqual([self.summary.number(code) for code in ("threads", "beyond-held", "nosuch")], [5, 12, 0])

    def test_what_was_left_out(self):
        self.assertEqual(self.summary.left_out(), ["12 acquisitions with 48 locks held already", "2 lost-threads",
                                                   "3 runs of programs that the recorder isn't loaded into"])

    def test_reasons(self):
        self.assertEqual(self.summary.reasons(), ["go", "libjvm"])
        self.assertEqual(Summary(summary.parse("refused-processes 1\nunseen static\n")).reasons(), ["no-file", "static"])

    def test_files_are_listed_as_they_were_read(self):
        self.assertEqual(self.summary.listed("unreached-runs")[1], "./env, 1 time: it is started without LD_PRELOAD, as by env -i")

    def test_a_path_that_ends_with_a_number_is_no_count(self):
        self.assertEqual(Summary(summary.parse("processes 1\nloaded /tmp/App 2\n")).after("loaded"), ["/tmp/App 2"])
        reason = "118 keys were left out: `lockdep check --many` takes 8192"
        self.assertEqual(Summary(summary.parse("traces 1\nincomplete %s\n" % reason)).after("incomplete"), [reason])

    def test_words_of_an_earlier_version(self):
        earlier = Summary(summary.parse("processes 1\ncalls seen 9\nleft out: acquisitions beyond 48 held locks 3\nrepeats left out 4\nobjects 8\n"))
        self.assertEqual((earlier.operations(), earlier.left_out()), (9, ["3 acquisitions beyond 48 held locks"]))

    def test_one_of_each(self):
        ones = Summary(summary.parse("tries 1\n  tries of a lock: as x\nstill-running 1\n  processes that still ran at the end: x\n"))
        self.assertEqual(ones.left_out(), ["1 try of a lock", "1 process that still ran at the end"])

    def test_files_that_are_counted(self):
        self.summary.add("rust-programs", [File("/a/server", None, "rust-plain")])
        self.summary.add("sanitizer-programs", [])
        lines = summary.text_of_summary(self.summary).split("\n")
        self.assertEqual(lines[-4:-2], ["rust-programs 1", "  programs in Rust that ran without being recorded: none of the locks of Rust in them was seen"])
        self.assertTrue(lines[-2].startswith("    /a/server: it isn't built to be recorded."))


class Json(unittest.TestCase):
    def test_what_is_written_is_read(self):
        first = Summary(summary.parse(TEXT))
        first.add("other-programs", [File("/\udcff\"\\\n\U0001f512", 2, "go")])
        text = summary.json_of(first, "pthread")
        again = Summary(summary.from_json(text))
        self.assertEqual(summary.text_of_summary(again).replace("unseen go\nunseen libjvm\n", "").split("\n"),
                         summary.text_of_summary(first).replace("unseen go libjvm\n", "").split("\n"))
        self.assertEqual(again.reasons(), first.reasons())

    def test_members(self):
        content = json.loads(summary.json_of(Summary([Count("processes", 1), Count("other-programs", 1, "programs with locks that are not those of "
                                                                                "pthreads", [], [File("/x", None, "go")])]), "rust"))
        self.assertEqual(content, {"recording": 1, "recorder": "rust", "unseen": [], "counts": [
            {"code": "processes", "count": 1}, {"code": "other-programs", "count": 1, "files": [{"path": "/x", "why": "go"}]}]})


class OfARecorder(unittest.TestCase):
    """What the recorder of pthreads writes, which has codes and values alone."""

    WRITTEN = """{"recording":1,"recorder":"pthread","counts":[
{"code":"processes","count":1},
{"code":"waiting","count":2,"ends":[["task-0001","a","b c"],["task-0003","m"]]},
{"code":"at-exit","count":0},
{"code":"held-at-end","count":1,"ends":[["task-0002","a","b"]]},
{"code":"out-of-order","count":3,"breaches":[{"what":"p#1, index 2, was taken with p#2, index 5, held","at":"f","since":"g","times":1},{"what":"q","times":2}]},
{"unseen":"static"},
{"signal":"SIGUSR1","handler":"on_usr1","runs":2,"takes":1,"sent_to":"process"},
{"code":"ignored-locks","count":4,"reasons":[[3,"it's \\"alone\\""],[1,"two\\twords"]]},
{"code":"beyond-held","count":6,"dropped":[["m",3],["m+0x28",2]],"more":true},
{"code":"threads-alike","count":40,"stand_ins":[["task-0002",40]]}
],"unseen":[],"started":[{"path":"/bin/\udcff","times":2,"why":"alone"}],"loaded":["/lib/x 1.so"]}
"""
    TEXT = """processes 1
waiting 2
  task-0001 waits for b c, holding a
  task-0003 waits for m
at-exit 0
held-at-end 1
  task-0002 ended holding a, b
out-of-order 3
  p#1, index 2, was taken with p#2, index 5, held: at f, held since g, 1 time
  q, 2 times
unseen static
signal SIGUSR1 on_usr1 runs 2 takes 1 sent-to process
ignored-locks 4
  acquisitions that a program said to ignore: no order that they are part of was recorded
  3: it's "alone"
  1: two\twords
beyond-held 6
  acquisitions with 48 locks held already: an order among them may be missing
  dropped, as the oldest that was held: m (3), m+0x28 (2), ..
threads-alike 40
  threads whose traces are those of two others, and weren't written, since a run takes 4,096: nothing is lost by these
    task-0002 stands for 40 of them
"""

    def setUp(self):
        self.summary = Summary(summary.from_json(self.WRITTEN))

    def test_its_text(self):
        for word in (summary.STARTED, summary.LOADED):
            self.summary.drop(word)
        self.assertEqual(summary.text_of_summary(self.summary), self.TEXT)

    def test_what_was_started_and_loaded(self):
        self.assertEqual([(file.path, file.times, file.why) for file in self.summary.files_of(summary.STARTED)], [("/bin/\udcff", 2, "alone")])
        self.assertEqual([file.path for file in self.summary.files_of(summary.LOADED)], ["/lib/x 1.so"])

    def test_values(self):
        for each in (self.summary, Summary(summary.from_json(summary.json_of(self.summary, "pthread"))), Summary(summary.parse(self.TEXT))):
            self.assertEqual(each.waiting(), ["task-0001 waits for b c, holding a", "task-0003 waits for m"])
            self.assertEqual(each.at_end(), {"task-0001": True, "task-0003": True, "task-0002": False})
            self.assertEqual(each.stand_ins(), {"task-0002": 40})
            self.assertEqual((each.reasons(), each.left_out()), (["static"], ["6 acquisitions with 48 locks held already"]))

    def test_only_whoever_adds_to_it_reads_it(self):
        with tempfile.TemporaryDirectory() as folder:
            summary.put(os.path.join(folder, "summary.json"), self.WRITTEN)
            self.assertIsNone(summary.read(folder))
            self.assertEqual(summary.read(folder, is_first=True).number("beyond-held"), 6)


class InFolder(unittest.TestCase):
    def setUp(self):
        self.folder = tempfile.mkdtemp()
        self.addCleanup(shutil.rmtree, self.folder)

    def test_a_folder_without_a_recording(self):
        self.assertIsNone(summary.read(self.folder))

    def test_either_file_is_enough(self):
        first = Summary(summary.parse(TEXT))
        summary.write(self.folder, first, "pthread")
        for name in ("summary.json", "SUMMARY"):
            os.rename(os.path.join(self.folder, name), os.path.join(self.folder, "away"))
            self.assertEqual(summary.read(self.folder).left_out(), first.left_out())
            os.rename(os.path.join(self.folder, "away"), os.path.join(self.folder, name))

    def test_the_text_is_read_where_there_is_nothing_else(self):
        summary.put(os.path.join(self.folder, "SUMMARY"), "processes 1\n")
        for text, processes in (("", 1), ("{", 1), ("[]", 1), ("{}", 1), ('{"recording":1,"recorder":"linux","counts":[],"unseen":[]}', 1),
                                ('{"recording":1,"recorder":"rust","counts":[{"code":"processes","count":2}],"unseen":[]}\n', 2)):
            summary.put(os.path.join(self.folder, "summary.json"), text)
            self.assertEqual(summary.read(self.folder).number("processes"), processes, text)


    def test_a_pipe_is_no_summary(self):
        os.mkfifo(os.path.join(self.folder, "summary.json"))
        self.assertIsNone(summary.read(self.folder))
        self.assertEqual(summary.recorder_of(self.folder), "")

    def test_wrong_values_are_damage(self):
        summary.put(os.path.join(self.folder, "SUMMARY"), "processes 1\n")
        for entry in ('{"code":"processes","count":"2"}', '{"code":"processes","count":null}', '{"code":"processes","count":-2}',
                      '{"code":"processes","count":1.5}', '{"code":"processes","count":1e400}', '{"code":"processes","count":true}',
                      '{"code":7,"count":2}', '{"code":"unreached-runs","count":1,"files":[{"path":7}]}',
                      '{"code":"unreached-runs","count":1,"files":[{"path":"a","times":"b"}]}'):
            summary.put(os.path.join(self.folder, "summary.json"), '{"recording":1,"recorder":"rust","counts":[%s],"unseen":[]}\n' % entry)
            self.assertEqual(summary.read(self.folder).number("processes"), 1, entry)


if __name__ == "__main__":
    unittest.main()
