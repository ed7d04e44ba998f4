"""Which module of the driver knows which: a package knows those before it, and no two modules know each other."""
from __future__ import annotations

import ast
import builtins
import importlib
import os
import unittest

import lockdep

TOP = os.path.dirname(os.path.abspath(lockdep.__file__))
STARTS = ("__init__", "__main__", "parts")  # beside the packages: what starts one of their modules


def modules() -> dict[tuple[str, ...], str]:
    """The modules by their packages and names, each with its file."""
    found = {}
    for package in lockdep.PACKAGES:
        folder = os.path.join(TOP, package)
        for name in os.listdir(folder):
            if name.endswith(".py") and name != "__init__.py":
                found[package, name[:-3]] = os.path.join(folder, name)
    return found


def known_by(module: tuple[str, ...], file: str, all_modules: dict[tuple[str, ...], str]) -> set[tuple[str, ...]]:
    """The modules that one imports, wherever in its file."""
    with open(file, encoding="utf-8") as opened:
        tree = ast.parse(opened.read())
    found = set()
    for node in ast.walk(tree):
        if isinstance(node, ast.ImportFrom) and node.level:
            base = list(module[:-1])[:len(module) - node.level] + (node.module or "").split(".")
            base = [word for word in base if word]
            for alias in node.names:
                found |= {path for path in (tuple(base), tuple(base + [alias.name])) if path in all_modules}
    return found


class Packages(unittest.TestCase):
    def setUp(self) -> None:
        self.modules = modules()
        self.knows = {module: known_by(module, file, self.modules) for module, file in self.modules.items()}

    def test_each_package_is_listed(self) -> None:
        folders = sorted(name for name in os.listdir(TOP) if os.path.isfile(os.path.join(TOP, name, "__init__.py")))
        self.assertEqual(folders, sorted(lockdep.PACKAGES))

    def test_no_module_stands_beside_the_packages(self) -> None:
        beside = [name[:-3] for name in os.listdir(TOP) if name.endswith(".py")]
        self.assertEqual(sorted(beside), sorted(STARTS))

    def test_imports_are_found(self) -> None:
        self.assertIn(("record", "folder"), self.knows["record", "recording"])
        self.assertIn(("say", "seen"), self.knows["say", "recorded"])  # (which it imports in a function)

    def test_each_module_can_be_imported(self) -> None:
        for package, name in sorted(self.modules):
            if name != "gather_on_worker":  # (stands alone, for workers of Dask)
                importlib.import_module("lockdep.%s.%s" % (package, name))

    def test_no_package_knows_a_later_one(self) -> None:
        upwards = ["%s.%s imports %s.%s" % (module + other) for module, others in self.knows.items() for other in others
                   if lockdep.PACKAGES.index(other[0]) > lockdep.PACKAGES.index(module[0])]
        self.assertEqual(sorted(upwards), [])

    def test_no_modules_know_each_other(self) -> None:
        self.assertEqual(cycle_in(self.knows), [])

    def test_each_name_is_defined_or_imported(self) -> None:
        self.assertEqual([(file, name) for file in sorted(modules().values()) for name in sorted(undefined_in(file))], [])


def undefined_in(file: str) -> set[str]:
    """The names that a module uses and neither defines nor imports anywhere."""
    with open(file, encoding="utf-8") as opened:
        nodes = list(ast.walk(ast.parse(opened.read())))
    defined = {*dir(builtins), "__file__", "__name__"}
    defined.update((alias.asname or alias.name).partition(".")[0] for node in nodes if isinstance(node, (ast.Import, ast.ImportFrom)) for alias in node.names)
    defined.update(node.name for node in nodes if isinstance(node, (ast.FunctionDef, ast.AsyncFunctionDef, ast.ClassDef, ast.ExceptHandler)) and node.name)
    defined.update(node.arg for node in nodes if isinstance(node, ast.arg))
    names = [node for node in nodes if isinstance(node, ast.Name)]
    defined.update(node.id for node in names if not isinstance(node.ctx, ast.Load))
    return {node.id for node in names} - defined


def cycle_in(knows: dict[tuple[str, ...], set[tuple[str, ...]]]) -> list[tuple[str, ...]]:
    """Modules of which each knows the next one, and the last one the first; none if there are none."""
    left = {module: set(others) for module, others in knows.items()}
    while left:
        ends = [module for module, others in left.items() if not others & set(left)]
        if not ends:
            return sorted(left)
        for module in ends:
            del left[module]
    return []
