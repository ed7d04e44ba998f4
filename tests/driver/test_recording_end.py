"""The end of a recording, as what judges it calls it."""
import os
import shutil
import subprocess
import tempfile
import unittest

from lockdep.base import saying
from lockdep.record import recorders, recording
from lockdep.say import recorded

TOP = os.path.realpath(os.path.join(os.path.dirname(os.path.realpath(__file__)), "..", ".."))
BUILT = os.path.join(TOP, "recorders", "pthread", "out")


@unittest.skipUnless(os.path.isfile(os.path.join(BUILT, "run")), "the recorder of pthreads isn't built")
class Ends(unittest.TestCase):
    def setUp(self):
        self.room = tempfile.mkdtemp()
        self.addCleanup(shutil.rmtree, self.room)
        self.path = os.path.join(self.room, "traces")
        self.addCleanup(os.environ.pop, "LOCKDEP_RUN_STATUS", None)

    def begin(self, command):
        """A recording whose command has ended, and whose traces aren't made."""
        with open(os.path.join(self.room, "then"), "w", encoding="utf-8") as file:
            file.write("#!/bin/sh\n")
        os.chmod(os.path.join(self.room, "then"), 0o755)
        child = os.fork()
        if child == 0:
            try:
                recording.begin(TOP, recording.RecordOptions(self.path, recorders.RECORDERS["pthread"], False), command, os.path.join(self.room, "then"))
            finally:
                os._exit(99)
        os.waitpid(child, 0)

    def test_a_program_without_locks(self):
        self.begin(["true"])
        ended = recorded.end_quietly(TOP, self.path, 7, False)
        self.assertEqual((ended.status, ended.messages[0]), (2, "record: 1 process, 0 threads, 0 operations, 0 classes"))
        self.assertEqual(ended.summary.reasons(), ["no-pthread-import"])
        self.assertIsNone(saying.kept)
        self.assertTrue(os.path.exists(os.path.join(self.path, "raw")))  # (what judges the recording reads it, and packs it then)
        recorded.pack(self.path)
        self.assertEqual([os.path.exists(os.path.join(self.path, name)) for name in ("raw", "raw.tar.gz")], [False, True])

    def test_what_is_no_recording_isnt_packed(self):
        os.makedirs(os.path.join(self.path, "raw"))
        recorded.pack(self.path)
        self.assertTrue(os.path.exists(os.path.join(self.path, "raw")))

    def test_a_program_with_locks(self):
        source = os.path.join(TOP, "recorders", "pthread", "tests", "abba.c")
        program = os.path.join(self.room, "abba")
        if subprocess.run(["cc", "-o", program, source, "-pthread"], check=False).returncode:
            self.skipTest("there is no C compiler")
        self.begin([program])
        ended = recorded.end_quietly(TOP, self.path, 0, True)
        self.assertEqual((ended.status, ended.messages[-1]), (0, "record: 1 process, 2 threads, 8 operations, 2 classes"))
        self.assertEqual(ended.summary.left_out(), [])
        self.assertTrue(os.path.exists(os.path.join(self.path, "raw")))
        recorded.pack(self.path)  # as who has judged it does
        self.assertFalse(os.path.exists(os.path.join(self.path, "raw")))
        self.assertTrue(os.path.exists(os.path.join(self.path, "raw.tar.gz")))
        recorded.pack(self.path)  # which leaves it as it is
        self.assertTrue(os.path.exists(os.path.join(self.path, "raw.tar.gz")))

    def test_a_recording_that_is_gone(self):
        os.mkdir(self.path)
        ended = recorded.end_quietly(TOP, self.path, 0, False)
        self.assertEqual((ended.status, ended.summary), (2, None))
        self.assertIn("the recording is gone", ended.messages[0])

    def test_traces_that_cannot_be_made(self):
        self.begin(["true"])
        os.mkdir(os.path.join(self.path, "SUMMARY"))
        ended = recorded.end_quietly(TOP, self.path, 0, False)
        self.assertEqual((ended.status, ended.summary), (2, None))
        self.assertIn("the traces can't be made; %s/raw has the recording" % self.path, ended.messages[-1])


if __name__ == "__main__":
    unittest.main()
