"""Findings that are gone if classes are named by more callers."""
import os
import tempfile
import unittest
from unittest import mock

from cases import between, circle, findings
from lockdep.ask import deeper


class Pairs(unittest.TestCase):
    """The names of a trace beside those of the same trace with more callers."""

    def paired(self, shallow, deep):
        with tempfile.TemporaryDirectory() as folder:
            paths = []
            for name, text in (("shallow", shallow), ("deep", deep)):
                paths.append(os.path.join(folder, name))
                with open(paths[-1], "w") as file:
                    file.write("lockdep,2\n" + text)
            names = {}
            return deeper.pair_names(*paths, names), names

    def test_each_name_with_more_callers_has_one_counterpart(self):
        self.assertEqual(self.paired("acq,m,0,w\nrel,m,0\n", "acq,m<f,0,w\nrel,m<f,0\n"), (True, {"m<f": "m"}))
        self.assertEqual(self.paired("acq,m,0,w\nacq,n,0,w\n", "acq,x,0,w\nacq,x,0,w\n")[0], False)

    def test_records_of_two_verbs_are_no_pair(self):
        self.assertFalse(self.paired("acq,m,0,w\nrel,m,0\n", "acq,m<f,0,w\nacq,m<f,0,w\n")[0])

    def test_traces_of_two_lengths_are_no_pair(self):
        self.assertFalse(self.paired("acq,m,0,w\nrel,m,0\n", "acq,m<f,0,w\n")[0])


class Made:
    """A recording that was made with so many callers. With more it has these lines."""

    is_there = True

    def __init__(self, frames, lines):
        self.frames, self.lines, self.depths = frames, lines, []

    def make(self, _finish, depth):
        self.depths.append(depth)
        return str(depth)


class Depths(unittest.TestCase):
    def depths(self, made):
        found = findings([circle("a/0", "b/0", between=between("classes"))])
        with mock.patch.object(deeper, "Remade", lambda folder, room: made), mock.patch.object(deeper, "finish_program", lambda: "finish"), \
                mock.patch.object(deeper, "lines_at", lambda asked, folder: made.lines[int(folder)]):
            return deeper.depths_of("", None, found, "")

    BOTH = {"circle a/0 EN b/0", "circle b/0 EN a/0"}

    def test_a_cycle_is_gone_when_one_of_its_lines_is(self):
        self.assertEqual(self.depths(Made(3, {6: self.BOTH, 16: {"circle a/0 EN b/0"}})), {1: 16})
        self.assertEqual(self.depths(Made(3, {6: set(), 16: set()})), {1: 6})
        self.assertEqual(self.depths(Made(3, {6: self.BOTH, 16: self.BOTH})), {})

    def test_only_more_callers_than_the_recording_has_are_asked_for(self):
        for frames, asked in (1, [3, 6, 16]), (3, [6, 16]), (6, [16]), (16, []):
            made = Made(frames, {depth: self.BOTH for depth in asked})
            self.depths(made)
            self.assertEqual(made.depths, asked)


if __name__ == "__main__":
    unittest.main()
