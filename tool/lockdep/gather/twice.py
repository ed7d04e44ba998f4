"""Recordings that are named and are in a folder that was gathered before, too. The folder that others are added to has read its own recordings itself: one of
these counts once, if it is what it was then. It is known by its real path, its night and its build, and by the sum of its condensed trace, since another one
may have its path by now; and a gathered folder by the sum of all that it says. What any other folder says of a recording is its claim alone: so that counts in
each, and speaks for itself."""
from __future__ import annotations

import functools
import os

from ..base.saying import Refusal
from ..base.words import visible
from ..program.condensed import facts_in
from ..record.complete import is_gathered
from .facts import Facts
from .gathered import Listed
from .names import is_lock, keys_in, name_in_recording, name_of_key, quoted, rest_of, with_names
from .orders import Number
from .recordings import Bad, Task, facts_of, kept_part, sum_of
from .memory import limited_memory, used_memory
from .timed import renamed, timed_orders


class Earlier:
    """What was gathered in a folder before: its recordings, and by what it is known."""

    def __init__(self, folder: str, task: Task) -> None:
        part = kept_part(folder, task, has_places=False)
        self.folder, self.listed, self.lots, self.digest = folder, part.listed, part.lots, part.digest
        self.sum = str(sum_of(part))
        self.by_path: dict[str, list[Listed]] = {}
        for listed in part.listed:
            self.by_path.setdefault(os.path.realpath(listed.path), []).append(listed)

    def parts_of(self, above: Number) -> list[tuple[str, str]]:
        """By what the recordings of one are known that was gathered before."""
        depth = len(above)
        return [(listed.sum, listed.path) for listed in self.listed if listed.number[:depth] == above != listed.number]

    def at(self, name: str, task: Task) -> list[Listed]:
        """Those with the path of a recording, and its night and its build, if these are given."""
        return [listed for listed in self.by_path.get(os.path.realpath(name), ()) if listed.sum and task.lot in ("", listed.lot)]

    def own_ones(self, name: str, gathered: Earlier | None, task: Task) -> list[Listed]:
        """Its own recordings that this one may be: by its path, its night and its build; or, if it was gathered, by its recordings."""
        if gathered is None:
            found = self.at(name, task)
        else:
            found = [listed for listed in self.listed if listed.sum == gathered.sum]
        return [listed for listed in found if len(listed.number) == 1 and (gathered is None or self.parts_of(listed.number) == gathered.parts_of(()))]


class Said:
    """What the folder that is added to says of its recordings."""

    def __init__(self, part: Facts) -> None:
        orders, marks = facts_in(part.texts[0])
        self.lists, self.facts, self.timed = set(part.lists), {*orders, *marks}, timed_orders(part.texts[0], part.orders)

    def says(self, facts: Facts, number: Number) -> bool:
        """Whether it has all that a recording says, which has this number there. Single locks may have been folded."""
        trace, table = facts.texts[0], facts.orders
        for above in number[-2::-1]:
            names = {name: name_in_recording(name, above, 0) for name in map(name_of_key, keys_in(trace)) if is_lock(name)}
            trace, table = with_names(trace, names), renamed(table, names)
        orders, marks = facts_in(trace)
        own = {*orders, *marks}
        return all(self.has(fact) for fact in own) and self.timed & set(orders) <= timed_orders(trace, table) and set(facts.lists) <= self.lists

    def has(self, fact: tuple[bytes, ...]) -> bool:
        return fact in self.facts or any(folded(fact, places) in self.facts for places in ((0,), (-1,), (0, -1)))


def folded(fact: tuple[bytes, ...], places: tuple[int, ...]) -> tuple[bytes, ...]:
    """An order or a mark in which some locks stand for all of their class."""
    words = list(fact)
    for place in places:
        name, sub_class = name_of_key(words[place]), words[place][-2:]
        words[place] = quoted(rest_of(name)) + sub_class if is_lock(name) else words[place]
    return tuple(words)


@functools.lru_cache(maxsize=1)
def said_in(folder: str, task: Task) -> Said:
    return Said(kept_part(folder, task))


def earlier_ones(names: list[str], task: Task) -> tuple[list[Earlier], dict[str, str]]:
    """Those of the names that are gathered folders; and those that are refused, with the reason, so that what takes long isn't read again. What else can't be
    read here is found out later."""
    found: list[Earlier] = []
    refused: dict[str, str] = {}
    for name in names:
        try:
            found += [Earlier(name, task)] if os.path.isdir(name) and is_gathered(name) else []
        except Refusal as refusal:
            refused.update({name: refusal.line} if refusal.line else {})
        except (OSError, LookupError, ValueError):
            pass
    return found, refused


def facts_by_itself(name: str, number: int, task: Task) -> Facts | None:
    """What a recording says; nothing if it can't be gathered."""
    try:
        with limited_memory(used_memory()):
            return facts_of(task, number, os.path.abspath(name))
    except Bad:
        return None


def is_in_roll(name: str, gathered: Earlier | None, roll: Earlier, task: Task) -> bool:
    """Whether a recording is one that the folder has read which is added to."""
    for listed in roll.own_ones(name, gathered, task)[-1:]:
        facts = facts_by_itself(name, listed.number[0], task)
        if facts and listed.sum == str(facts.sums.get(listed.number)) and said_in(roll.folder, task).says(facts, listed.number):
            return True
    return False


def folder_with(name: str, earlier: list[Earlier], roll: Earlier | None, task: Task) -> str:
    """The folder with which a recording counts once: the first copy of a gathered one, or the one that is added to; empty if there is none."""
    own = next((one for one in earlier if one.folder == name), None)
    copied = [one.folder for one in earlier[:earlier.index(own)] if one.digest == own.digest] if own else []
    return copied[0] if copied else roll.folder if roll and is_in_roll(name, own, roll, task) else ""


def in_common(names: list[str], earlier: list[Earlier], task: Task) -> list[str]:
    """What is said of recordings that count in each: of those that are named, if a folder has their path and their sum, and of folders that share some."""
    said: list[str] = []
    for name in [name for name in names if all(one.folder != name for one in earlier)]:
        listed_in = {one.folder: {listed.sum for listed in one.at(name, task)} for one in earlier}
        facts = facts_by_itself(name, 1, task) if any(listed_in.values()) else None
        sums = {str(facts.sums.get((1,)))} if facts else set()
        said += ["%s is in %s, too, and counts in each" % (visible(name), visible(folder)) for folder, there in listed_in.items() if there & sums]
    shared: dict[tuple[str, str], set[str]] = {}
    for one in earlier:
        for path, several in one.by_path.items():
            for listed in several:
                shared.setdefault((listed.sum, path), set()).update([one.folder] if listed.sum else [])
    twice = sorted({", ".join(sorted(map(visible, those))) for those in shared.values() if len(those) > 1})
    return said + ["%s have recordings in common, which count in each" % those for those in twice]


def without_parts(names: list[str], task: Task, added_to: str) -> tuple[list[str], list[str], dict[str, str]]:
    """The recordings that count by themselves, what is to be said of others and of what counts in each, and those that are refused, with the reason. The
    folder that they are added to, if there is one, is given."""
    earlier, refused = earlier_ones(names, task)
    roll = Earlier(added_to, task) if added_to else None
    folders = {name: folder_with(name, earlier, roll, task) for name in names} if earlier or roll else {}
    said = ["%s is in %s, and counts once" % (visible(name), visible(folder)) for name, folder in folders.items() if folder]
    left = [name for name in names if not folders.get(name)]
    several = [one for one in earlier if not folders.get(one.folder)] + ([roll] if roll else [])
    said += in_common(left, several, task)
    unknown = set(task.kept.forgotten) - {lot.partition(" ")[2] for one in several for lot in one.lots}
    said += ["no recording that was gathered is of the build %s, so none is forgotten for it" % visible(build) for build in sorted(unknown)]
    return left, said, refused
