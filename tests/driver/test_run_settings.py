"""What `lockdep run` hands over to its last part."""
import os
import shutil
import tempfile
import unittest

from lockdep.base.saying import Refusal
from lockdep.record import run_settings
from lockdep.record.folder import Folder
from lockdep.record.run_settings import RunSettings

VALUES = {"known": "a list\n\\n of \udcff", "known-text": "circle a/0 EN a/0\n\n# \\\\\n", "html": "", "quiet": "yes"}


class Texts(unittest.TestCase):
    def test_what_is_written(self):
        self.assertEqual(RunSettings({"html": "a\\b\nc", "junit": "", "json": " -"}, ["threads"]).raw(),
                         b"html a\\\\b\\nc\njson  -\naccept-left-out threads\n")

    def test_what_is_read(self):
        found = run_settings.settings_of(RunSettings(VALUES, ["threads", "signals"]).raw())
        self.assertEqual([found.value(name) for name in VALUES], list(VALUES.values()))
        self.assertEqual((found.has("html"), found.has("quiet"), found.has("nothing")), (False, True, False))
        self.assertEqual(found.accepted, ["threads", "signals"])

    def test_more_than_a_variable_can_have(self):
        room = run_settings.MOST_BYTES - len(b"known pipe\nknown-text \n")
        self.addCleanup(run_settings.take_over)
        run_settings.hand_over(RunSettings({"known": "pipe", "known-text": room * "#"}))
        child = os.fork()
        if child == 0:
            os.execv("/bin/true", ["true"])
        self.assertEqual(os.waitpid(child, 0)[1], 0)
        with self.assertRaises(Refusal) as raised:
            run_settings.hand_over(RunSettings({"known": "pipe", "known-text": (room + 1) * "#"}))
        self.assertEqual(raised.exception.line, "pipe, the list of known findings, is too long for one that isn't a plain file: write it to one")


class Files(unittest.TestCase):
    def setUp(self):
        self.path = os.path.join(tempfile.mkdtemp(), "traces")
        self.addCleanup(shutil.rmtree, os.path.dirname(self.path))
        self.file = os.path.join(self.path, ".lockdep-run")

    def test_from_the_environment_to_the_end(self):
        run_settings.hand_over(RunSettings(VALUES))
        raw = run_settings.take_over()
        self.assertNotIn(run_settings.VARIABLE, os.environ)
        self.assertEqual(run_settings.take_over(), b"")
        folder = Folder(self.path)
        folder.prepare()
        folder.put_run_settings(raw)
        self.assertEqual(run_settings.read(self.path).value("known"), VALUES["known"])
        run_settings.drop(self.path)
        self.assertFalse(os.path.exists(self.file))
        self.assertIsNone(run_settings.read(self.path))
        run_settings.drop(self.path)

    def test_no_run(self):
        folder = Folder(self.path)
        folder.prepare()
        folder.put_run_settings(b"")
        self.assertFalse(os.path.exists(self.file))

    def test_a_recording_that_cannot_begin(self):
        folder = Folder(self.path)
        folder.prepare()
        folder.put_run_settings(b"quiet yes\n")
        other = Folder(self.path)
        self.assertRaises(Refusal, other.prepare)
        self.assertTrue(os.path.exists(self.file), "what belongs to the one that is under way stays")
        folder.drop_made(folder.was_there)
        self.assertFalse(os.path.exists(self.path))

    def test_what_a_killed_run_left(self):
        os.mkdir(self.path)
        with open(self.file, "w", encoding="utf-8") as file:
            file.write("quiet yes\n")
        Folder(self.path).prepare()
        self.assertFalse(os.path.exists(self.file))


if __name__ == "__main__":
    unittest.main()
