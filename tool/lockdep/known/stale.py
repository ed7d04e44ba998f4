"""What makes an entry of a list of known findings stale: its day has passed, a lock of it is made elsewhere now, a class takes part
that isn't listed, or a finding of it has a stronger verdict. A stale entry hides nothing."""
from __future__ import annotations

import os
import re
from collections import Counter

from ..base.words import type_of_class
from ..places.places import Made
from ..places.where_made import Place, place_now
from ..program.findings import Finding, by_line, handlers_of
from .suppressions import LISTED, Entry, as_listed, listed_words, today, word_of
from .taking_part import TakingPart

OFFSET_IN_CODE = re.compile(r"\+0x[0-9a-f#]")
RENEW = "--write-known writes it again"
CHANGE = "give it another date, or remove it"


class Judge:
    """Holds entries against the findings of a run and where locks are made now. `stale` and `moved` are what is to be said."""

    def __init__(self, findings: list[Finding], taking: TakingPart) -> None:
        self.taking, self.sources, self.date = taking, taking.sources, today()
        self.stale: list[str] = []
        self.moved: list[str] = []
        self.findings = by_line(findings)
        self.listed: Counter[str] = Counter()

    def is_expired(self, entry: Entry) -> bool:
        return entry.is_expired(self.date)

    def fresh(self, entries: list[Entry]) -> list[Entry]:
        """The entries that may hide something. What makes others stale is noted, unless another entry of the same line hides it: a list has one for each
        place that recordings of one program have."""
        elsewhere = {entry.number: self.other_places(entry) if entry.line in self.findings else [] for entry in entries}
        self.listed = Counter(entry.line for entry in entries if not self.is_expired(entry) and not elsewhere[entry.number])
        reasons = {entry.number: self.reasons(entry, elsewhere[entry.number]) for entry in entries}
        fresh = [entry for entry in entries if not reasons[entry.number]]
        hidden = {entry.line for entry in fresh if not entry.is_pattern}
        self.stale = ["line %d, `%s`: %s, so that entry hides nothing; %s" % (
            entry.number, entry.text, "; ".join(reasons[entry.number]), CHANGE if self.is_expired(entry) else RENEW)
            for entry in entries if reasons[entry.number] and (self.is_expired(entry) or entry.line not in hidden)]
        self.moved = list(dict.fromkeys(name for entry in fresh if entry.line in self.findings for name in self.moved_names(entry)))
        return fresh

    def reasons(self, entry: Entry, elsewhere: list[str]) -> list[str]:
        """Why an entry is stale; nothing if it isn't."""
        expired = ["it was meant until %s" % entry.until] if self.is_expired(entry) else []
        return expired + elsewhere + (self.stronger(entry) + self.more_handlers(entry) if entry.line in self.findings else [])

    # ---- Places.

    def places(self, entry: Entry) -> list[tuple[Made, Place]]:
        """The classes that take part now and whose places are known, each with its place."""
        now = [(made, place_now(made, self.sources, shown=True)) for made in self.taking.made(entry.line)]
        return [(made, as_listed(made.name, place)) for made, place in now if place]

    def other_places(self, entry: Entry) -> list[str]:
        """The classes that take part now and are made where none of the listed ones was, in words. Each listed place is that of one
        class. Of types without listed places nothing is said."""
        left, more = listed_places(entry), []
        for made, now in self.places(entry):
            type = type_of_class(word_of(made.name))
            same = next((place for place in left.get(type, ()) if self.is_same(entry, place, made, now)), None)
            if same:
                left[type].remove(same)
            elif type in left:
                more.append((type, now))
        return [elsewhere_words(type, left[type], now) for type, now in more]

    def is_same(self, entry: Entry, place: Place, made: Made, now: Place) -> bool:
        """Whether a class is made at a listed place. If other classes are so too, only the lines tell which of them it is."""
        is_exact = bool(entry.listed)
        if place.is_elsewhere(now, is_exact):
            return False
        others = [(other.name, place_now(other, self.sources, shown=True)) for other in self.alike(made)]
        return place.has_lines_of(now) or all(not other or place.is_elsewhere(as_listed(name, other), is_exact) for name, other in others)

    def alike(self, made: Made) -> list[Made]:
        """The other classes that the same functions make, looked up."""
        others = self.sources.alike(made) if made.place.is_code else []
        if others:
            self.sources.want_made(others)
            self.sources.ask()
        return others

    def moved_names(self, entry: Entry) -> list[str]:
        """The names with an offset in code that stand for another line of the same function now."""
        said = []
        for made, now in self.places(entry):
            place = entry.places.get(word_of(made.name))
            callers = zip(place.callers, now.callers) if place and OFFSET_IN_CODE.search(made.name) else ()
            said += ["%s (%s, and now %s:%s)" % (made.name, one.source, os.path.basename(other.file), other.line)
                     for one, other in callers if one.line and one.line != other.line][:1]
        return said

    # ---- Handlers of signals.

    def more_handlers(self, entry: Entry) -> list[str]:
        """That more handlers of a signal have this line than the list has it, so that it isn't known which of them it means."""
        now, listed = handlers_of(self.findings[entry.line]), self.listed[entry.line]
        return ["%d handlers have this line, and the list has it %s" % (now, "once" if listed == 1 else "%d times" % listed)] if now > listed > 0 else []

    # ---- Verdicts.

    def stronger(self, entry: Entry) -> list[str]:
        """That a finding of the entry has a stronger verdict now than the one that is listed."""
        words = [listed_words(finding.judgement) for finding in self.findings[entry.line]]
        stronger = [each for each in words if not entry.excuses(each)]
        return ["it was %s, and is now %s" % (entry.listed, min(stronger, key=list(LISTED).index))] if stronger else []


def listed_places(entry: Entry) -> dict[str, list[Place]]:
    """The places that an entry lists, by types."""
    of_types: dict[str, list[Place]] = {}
    for name, place in entry.places.items():
        of_types.setdefault(type_of_class(name), []).append(place)
    return of_types


def elsewhere_words(name: str, left: list[Place], now: Place) -> str:
    """That a lock was made elsewhere, if listed places are left that no lock is made at any more; otherwise that there is one more."""
    if not left:
        return "%s is now also made %s" % (name, now.where)
    texts = [(one.text, other.text) for place in left for one, other in zip(place.callers, now.callers)]
    reads = next((", where `%s` was and `%s` is" % (was, reads) for was, reads in texts if was and reads and was != reads), "")
    return "%s was made %s, and is now %s%s" % (name, " and ".join(dict.fromkeys(place.where for place in left)), now.where, reads)
