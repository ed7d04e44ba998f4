"""The locks of C libraries, whose classes may be called as one of the program's own."""
from __future__ import annotations

import os
import tempfile
import unittest

from lockdep.finish.libraries import clashing, keys_in, rename


class NamesThatBothHave(unittest.TestCase):
    """A class of a library that is called as one of the program's own gets another name, in its list and in all traces."""

    def setUp(self) -> None:
        folder = tempfile.TemporaryDirectory()
        self.addCleanup(folder.cleanup)
        self.own, self.made = (os.path.join(folder.name, name) for name in ("own", "made"))
        for path in (self.own, self.made):
            os.makedirs(os.path.join(path, "objects"))

    def put(self, path: str, name: str, text: str) -> None:
        with open(os.path.join(path, name), "w", encoding="utf-8") as file:
            file.write(text)

    def text(self, name: str) -> str:
        with open(os.path.join(self.made, name), encoding="utf-8") as file:
            return file.read()

    def test_a_name_with_commas(self) -> None:
        pool = "Pool<int,long>::m"
        self.put(self.own, "classes", pool + "\tserver\n")
        self.put(self.made, "classes", pool + "\tlibpool.so\nother\tlibpool.so\n")
        self.put(self.made, "task-0001.csv", 'lockdep,2\nacq,other,0,w\nacq,"Pool<int,long>::m",0,tw\nrel,"Pool<int,long>::m",0\n')
        self.put(os.path.join(self.made, "objects"), "task-0001.csv", 'lockdep,2\nacq,"Pool<int,long>::m#2",0,w\nrel,"Pool<int,long>::m#2",0\n')
        names = clashing(self.own, self.made)
        self.assertEqual(names, {pool: pool + "~2"})
        self.assertEqual(keys_in(self.made), {"other", pool})
        rename(self.made, names)
        self.assertEqual(self.text("classes"), "Pool<int,long>::m~2\tlibpool.so\nother\tlibpool.so\n")
        self.assertEqual(self.text("task-0001.csv"), 'lockdep,2\nacq,other,0,w\nacq,"Pool<int,long>::m~2",0,tw\nrel,"Pool<int,long>::m~2",0\n')
        self.assertEqual(self.text("objects/task-0001.csv"), 'lockdep,2\nacq,"Pool<int,long>::m~2#2",0,w\nrel,"Pool<int,long>::m~2#2",0\n')

    def test_a_plain_name(self) -> None:
        self.put(self.own, "classes", "m\tserver\n")
        self.put(self.made, "classes", "m\tlibpool.so\n")
        self.put(self.made, "task-0001.csv", "lockdep,2\nacq,m,0,w\nrel,m,0\nacq,mm,0,w\nrel,mm,0\n")
        rename(self.made, clashing(self.own, self.made))
        self.assertEqual(self.text("task-0001.csv"), "lockdep,2\nacq,m~2,0,w\nrel,m~2,0\nacq,mm,0,w\nrel,mm,0\n")
