"""The histories of a recording, which are made when they are asked for."""
import os
import shutil
import tempfile
import unittest
from unittest import mock

from lockdep.ask import histories
from lockdep.record import summary
from lockdep.record.folder import FIRST_LINE
from lockdep.record.recording import is_history_size

# A program in the place of `finish`: it makes what it is asked to, and notes with which words it was called.
FINISH = """#!/bin/sh
echo "$# $2 $3" >"$CALLED"
printf '{"recording":1,"recorder":"pthread","counts":[\\n{"code":"processes","count":1},\\n{"code":"history-ends","count":1}\\n],"unseen":[]}\\n' >"$1/summary.json"
[ -z "$MADE" ] || echo history,1 >"$1/history/process-0001.csv"
exit "${ENDS:-0}"
"""


class Histories(unittest.TestCase):
    def setUp(self):
        self.room = tempfile.mkdtemp()
        self.addCleanup(shutil.rmtree, self.room)
        self.folder, self.finish, self.called = (os.path.join(self.room, name) for name in ("traces", "finish", "called"))
        os.makedirs(os.path.join(self.folder, "raw"))
        self.write("traces/raw/settings", "version 2\nframes 4\nrecorder pthread\n")
        self.write("traces/RECORDED", FIRST_LINE + "\n")
        self.write("traces/summary.json", '{"recording":1,"recorder":"pthread","counts":[{"code":"processes","count":1}],"unseen":[]}')
        self.write("finish", FINISH)
        os.chmod(self.finish, 0o755)

    def write(self, name, text):
        with open(os.path.join(self.room, name), "w", encoding="utf-8") as file:
            file.write(text)

    def made(self, **variables):
        with mock.patch.object(histories, "finish_program", lambda: self.finish), mock.patch.dict(os.environ, dict(variables, CALLED=self.called)):
            return histories.make_histories(self.folder)

    def test_they_are_made_with_the_callers_of_the_traces(self):
        path = os.path.join(self.folder, "history", "process-0001.csv")
        self.assertEqual(self.made(MADE="yes"), [path])
        self.assertEqual(histories.histories_in(self.folder), [path])
        with open(self.called, encoding="utf-8") as file:
            self.assertEqual(file.read(), "3 4 history\n")

    def test_what_they_lack_goes_into_the_summary_once(self):
        for _ in range(2):
            self.made(MADE="yes")
            made = summary.read(self.folder)
            self.assertEqual([count.code for count in made.counts], ["processes", "history-ends"])
            self.assertEqual(made.left_out(), [])

    def test_they_are_listed(self):
        self.made(MADE="yes")
        with open(os.path.join(self.folder, "RECORDED"), encoding="utf-8") as file:
            self.assertIn("history/process-0001.csv", file.read().split("\n"))

    def test_a_recording_without_any(self):
        self.assertEqual(self.made(), [])
        self.assertFalse(os.path.exists(os.path.join(self.folder, "history")))

    def test_they_cannot_be_made(self):
        self.assertIsNone(self.made(ENDS="2"))
        self.write("traces/raw/settings", "version 2\nframes \nrecorder python\n")
        self.assertIsNone(self.made(MADE="yes"))
        shutil.rmtree(os.path.join(self.folder, "raw"))
        self.assertIsNone(self.made(MADE="yes"))
        self.assertEqual(histories.histories_in(self.folder), [])


class Sizes(unittest.TestCase):
    def test_sizes(self):
        self.assertEqual([is_history_size(text) for text in ("off", "1", "1024", "", "0", "1025", "01", "-1", "1e3", "\u0661")], [True] * 3 + [False] * 7)


if __name__ == "__main__":
    unittest.main()
