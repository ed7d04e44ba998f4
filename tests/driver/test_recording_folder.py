"""The folder of a recording."""
import os
import shutil
import tempfile
import unittest

from lockdep.base.saying import Refusal, typed
from lockdep.record.folder import FIRST_LINE, Folder, checked, is_made


class Names(unittest.TestCase):
    def test_names_that_a_recording_makes(self):
        for name in ("classes", "SUMMARY", "summary.json", "raw.tar.gz", "objects", "task-0001.csv", "objects/task-12345.csv.places",
                     "signals", "signals/sources.json", "signals/never.json", "signals/threads", "signals/12", "signals/12/task-0001.csv", "signals/1/task-0001.csv.places",
                     "signals/1/weak", "history", "history/process-0001.csv", "history/process-12345.csv.places", "history/process-0001.left-out"):
            self.assertTrue(is_made(name), name)
        for name in ("raw", "task-.csv", "task-1.txt", "task-1x.csv", "task-0001.csv.places.places", "objects/classes", "notes", "task-notes.csv",
                     "task-\u0661.csv", "signals/notes", "signals/x/task-0001.csv", "signals/1/notes", "signals/task-0001.csv", "signals/1/2",
                     "x/signals/1/task-0001.csv", "process-0001.csv", "history/task-0001.csv", "history/process-x.csv", "history/process-0001",
                     "history/process-0001.notes", "history/x/process-0001.csv"):
            self.assertFalse(is_made(name), name)

    def test_a_path_that_looks_like_an_option(self):
        self.assertEqual([checked(path) for path in ("-x", "a=b", "/a=b", "traces")], ["./-x", "./a=b", "/a=b", "traces"])
        self.assertRaises(Refusal, checked, "a\nb")

    def test_a_current_folder_that_has_been_removed(self):
        self.addCleanup(os.chdir, os.getcwd())
        room = tempfile.mkdtemp()
        os.chdir(room)
        os.rmdir(room)
        with self.assertRaises(Refusal) as raised:
            Folder("traces")
        self.assertEqual(raised.exception.line, "the current folder has been removed, so traces can't be found; change to another folder")
        self.assertEqual(Folder("/nowhere/traces").raw, "/nowhere/traces/raw")

    def test_a_word_as_one_types_it(self):
        self.assertEqual([typed(word) for word in ("a/b.c", "", "it's", "a b")], ["a/b.c", "''", "'it'\\''s'", "'a b'"])


class Preparing(unittest.TestCase):
    def setUp(self):
        self.room = tempfile.mkdtemp()
        self.addCleanup(shutil.rmtree, self.room)
        self.path = os.path.join(self.room, "traces")

    def write(self, name, text="theirs\n"):
        os.makedirs(os.path.dirname(os.path.join(self.path, name)), exist_ok=True)
        with open(os.path.join(self.path, name), "w", encoding="utf-8") as file:
            file.write(text)

    def prepared(self):
        folder = Folder(self.path)
        folder.prepare()
        os.close(folder.file)
        return folder

    def test_a_new_folder(self):
        folder = self.prepared()
        self.assertEqual((sorted(os.listdir(self.path)), folder.listed()), (["RECORDED", "raw"], [FIRST_LINE]))

    def test_what_no_recording_made_stays_and_nothing_is_left_beside_it(self):
        for name in ("classes", "raw", "summary.json", "objects/task-0001.csv"):
            self.write(name)
            self.assertRaises(Refusal, self.prepared)
            self.assertEqual(os.listdir(self.path), [name.partition("/")[0]])
            shutil.rmtree(self.path)

    def test_a_page_of_somebody_elses_is_left_alone(self):
        self.write("report.html")
        self.prepared()
        self.assertTrue(os.path.isfile(os.path.join(self.path, "report.html")))

    def test_an_earlier_recording_is_replaced_and_only_what_one_can_have_made(self):
        for name in ("classes", "objects/task-0001.csv", "notes"):
            self.write(name)
        self.write("RECORDED", "".join(line + "\n" for line in (FIRST_LINE, "classes", "objects", "objects/task-0001.csv", "notes", "../traces/notes")))
        self.prepared()
        self.assertEqual(sorted(os.listdir(self.path)), ["RECORDED", "notes", "raw"])

    def test_the_traces_of_signal_handlers_are_listed_and_replaced(self):
        made = ("signals", "signals/1", "signals/1/task-0001.csv", "signals/1/task-0001.csv.places", "signals/never.json", "signals/sources.json")
        for name in made[2:] + ("signals/2/task-0001.csv", "signals/2/notes"):
            self.write(name)
        folder = Folder(self.path)
        self.assertEqual(folder.names(), sorted(made + ("signals/2", "signals/2/task-0001.csv")))
        self.write("RECORDED", "".join(line + "\n" for line in [FIRST_LINE] + folder.names()))
        self.prepared()
        self.assertEqual([names for _, _, names in os.walk(os.path.join(self.path, "signals"))], [[], ["notes"]])

    def test_histories_are_listed_and_replaced(self):
        made = ("history", "history/process-0001.csv", "history/process-0001.csv.places", "history/process-0001.left-out")
        for name in made[1:] + ("history/notes",):
            self.write(name)
        folder = Folder(self.path)
        self.assertEqual(folder.names(), sorted(made))
        self.write("RECORDED", "".join(line + "\n" for line in [FIRST_LINE] + folder.names()))
        self.prepared()
        self.assertEqual(os.listdir(os.path.join(self.path, "history")), ["notes"])

    def test_a_recording_whose_traces_were_not_made_stays(self):
        for mark in ("settings", "python", "java"):
            self.write("raw/" + mark)
            self.write("RECORDED", FIRST_LINE + "\n")
            with self.assertRaises(Refusal) as refused:
                self.prepared()
            self.assertIn("whose traces weren't made", str(refused.exception))
            shutil.rmtree(self.path)

    def test_another_list(self):
        self.write("RECORDED", "a shopping list\n")
        self.assertRaises(Refusal, self.prepared)
        self.assertEqual(os.listdir(self.path), ["RECORDED"])

    def test_two_recordings_at_once(self):
        first = Folder(self.path)
        first.prepare()
        self.addCleanup(os.close, first.file)
        shutil.rmtree(first.raw)
        with self.assertRaises(Refusal) as refused:
            Folder(self.path).prepare()
        self.assertIn("another recording into", str(refused.exception))
        self.assertEqual(os.listdir(self.path), ["RECORDED"])


if __name__ == "__main__":
    unittest.main()
