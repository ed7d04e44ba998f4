"""Packages of Cargo. A path such as src/main.rs is the same in each: if programs of several packages have such a file, their classes get the package's
folder, as much of it as tells them apart. Cargo writes where a program's sources are into PROGRAM.d; without that, the folder is the one with `target`.
What isn't known stays as it is."""
from __future__ import annotations

TYPE_CHECKING = False  # for a tool that checks types, it is true
if TYPE_CHECKING:
    from typing import Callable
    from .log import Process

TARGET = "/target/"  # the folder of a package that Cargo builds in
MOST_PARTS = 20  # of a path, which tell packages apart


def root_of(program: str, file: str) -> str:
    """The folder from which the path of a file goes."""
    for line in lines_of_cargo(program + ".d"):
        for word in line.split()[1:]:
            if word.startswith("/") and word.endswith("/" + file):
                return word[:-len("/" + file)]
    return program.rpartition(TARGET)[0]


def lines_of_cargo(path: str) -> list[str]:
    """The lines of a file that Cargo may have written."""
    try:
        with open(path, encoding="utf-8", errors="surrogateescape") as file:
            return file.read().split("\n")
    except FileNotFoundError:
        return []


def last_parts(path: str, parts: int) -> str:
    return "/".join(path.split("/")[-parts:])


def folder_of(root: str, roots: list[str]) -> str:
    """As much of a root as no other one has."""
    for parts in range(1, MOST_PARTS):
        if not any(last_parts(other, parts) == last_parts(root, parts) for other in roots if other != root):
            return last_parts(root, parts)
    return last_parts(root, MOST_PARTS)


def tell_apart(processes: list[Process], in_package: Callable[[str, str], str]) -> None:
    """Gives names of their own to classes that several packages have: by the folder of the package, and the name."""
    root: dict[tuple[str, str], str] = {}  # by the program and the class
    for process in processes:
        for told in process.told.values():
            file = told.place.rpartition(":")[0]
            if not file.startswith("/") and (process.program, told.name) not in root:
                root[process.program, told.name] = root_of(process.program, file)
    roots: dict[str, list[str]] = {}
    for (_, name), at in root.items():
        if at and at not in roots.setdefault(name, []):
            roots[name].append(at)
    for process in processes:
        for told in process.told.values():
            at = root.get((process.program, told.name), "")
            if at and len(roots[told.name]) > 1:
                told.name = in_package(folder_of(at, roots[told.name]), told.name)
