"""Where classes are made, by the table `classes` of a recording."""
import unittest

from lockdep.base.tools import other_answer
from lockdep.binaries.symbols import Symbols
from lockdep.places.places import made_of

VARIABLE, INSIDE = 0xA160, 0x28


class Classes(unittest.TestCase):
    def offsets(self, line):
        return [place.offset for place in made_of(line).places()]

    def test_a_part_of_a_variable_is_looked_for_by_the_variable(self):
        line = "table+0x28\t/bin/program\t%x\tstatic" % (VARIABLE + INSIDE)
        self.assertEqual(self.offsets(line), [VARIABLE, VARIABLE + INSIDE])

    def test_so_is_one_that_is_named_by_its_type(self):
        line = "Table::second@94b2e746\t/bin/program\t%x\tstatic\tTable::second\tstatic\ttable+0x28" % (VARIABLE + INSIDE)
        self.assertEqual(self.offsets(line), [VARIABLE, VARIABLE + INSIDE])

    def test_a_place_in_code_is_itself(self):
        self.assertEqual(self.offsets("main+0x13.m0\t/bin/program\t1139\theap"), [0x1139])


class Answers(unittest.TestCase):
    def test_another_program_is_ended_by_its_processor_time_alone(self):
        for command, wanted in (("sleep 2; cat", b"asked"), ("while :; do :; done", None), ("cat; exit 1", None)):
            self.assertEqual(other_answer(["sh", "-c", command], b"asked", 1), wanted, command)

    def test_a_line_break_in_a_path_makes_a_place_unknown_and_no_other(self):
        symbols = Symbols("")
        symbols.take("m", {16: "m+10", 32: "m+20", 48: "m+30"}, ["0x%016x" % 16, "f", "x.c:3", "g", "x.c:9 (discriminator 2)", "0x%016x" % 32, "h", "n",
                                                               "x.c:5", "0x%016x" % 48, "k", "x.c:?", ""])
        self.assertEqual([[frame.words for frame in symbols.answers["m", address]] for address in (16, 32, 48)],
                         [["f at x.c:3", "g at x.c:9"], ["m+20"], ["k in m+30"]])
