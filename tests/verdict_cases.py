"""Sets of traces with the verdicts that they show, worked out by hand from the definitions, for tests/verdicts."""
from typing import Dict, List, NamedTuple, Sequence, Union

LIMIT = 256  # so many keys may lead to each other
NUMBERS = ("one", "two", "three", "four", "five", "six", "seven")
Traces = Dict[str, List[str]]


# ---- Traces in short.

def task(words: str) -> List[str]:
    """A trace in short: `a#1` takes a#1 as a writer, `a#1/1` with a subclass, `a#1:r` in another mode, `-a#1` releases it; the other
    words are records."""
    records = []
    for word in words.split():
        if "," in word or word == "leave":
            records.append(word)
            continue
        name, _, mode = word.lstrip("-").partition(":")
        name, _, sub = name.partition("/")
        records.append("rel,%s,%s" % (name, sub or "0") if word[0] == "-" else "acq,%s,%s,%s" % (name, sub or "0", mode or "w"))
    return records


def of(*traces: Union[str, List[str]]) -> Traces:
    """These traces, in short or as records, in files that are called by their numbers."""
    return {name: task(trace) if isinstance(trace, str) else trace for name, trace in zip(NUMBERS, traces)}


def ring(names: Sequence[str]) -> List[str]:
    """A trace that takes each of these locks and then the next one, round in a ring."""
    pairs = zip(names, [*names[1:], names[0]])
    return [record for one, other in pairs for record in task("%s %s -%s -%s" % (one, other, other, one))]


def in_hardirq(lock: str) -> List[str]:
    return task("enter,hardirq %s -%s leave" % (lock, lock))


def chain(length: int) -> List[str]:
    """A trace that takes so many locks in order, always two at a time."""
    return [record for n in range(length - 1) for record in task("a#%d a#%d -a#%d -a#%d" % (n, n + 1, n + 1, n))]


def ring_of_classes() -> List[str]:
    """A trace with a ring of classes, in which no single lock is in two orders."""
    names = ["a@%d" % n for n in range(LIMIT + 1)]
    return [record for one, other in zip(names, [*names[1:], names[0]])
            for record in task("%s#1 %s#2 -%s#2 -%s#1" % (one, other, other, one))]


# ---- The cases.

class Case(NamedTuple):
    """A set of traces with what has to be told, and the status without and with `--confirmed-only`. Told is for each finding its
    verdict and line and then its notes, and for what was seen between single locks the nested finding's line, its orders from the
    least on, and its notes. The files are the traces once each, unless they are given."""
    what: str
    traces: Traces
    told: List[str]
    status: int
    status_confirmed: int
    files: Sequence[str] = ()

    def words(self) -> List[str]:
        return list(self.files or self.traces)


AB, BA = "a#1 b#1 -b#1 -a#1", "b#1 a#1 -a#1 -b#1"
CIRCLE, SEEN = "circle a/0 EN b/0 EN a/0", "  seen circle a#1/0 EN b#1/0 EN a#1/0"
XY, SEEN_XY = "circle x/0 EN y/0 EN x/0", "  seen circle x#1/0 EN y#1/0 EN x#1/0"
MOST_NAMES = {"one": [record for n in range(8190) for record in task("t%d@p#1 -t%d@p#1" % (n, n))] + task("x#1 y#1 -x#1 x#1")}
TANGLED = {"one": ring(["a%d#1" % n for n in range(LIMIT + 1)])}

CIRCLES = (
    Case("two accounts in both orders, the same two locks", of("account#1 account#2", "account#2 account#1"),
         ["locks: circle account/0 EN account/0", "  seen circle account#1/0 EN account#2/0 EN account#1/0"], 1, 1),
    Case("two accounts in both orders, different pairs", of("account#1 account#2", "account#3 account#1"),
         ["classes: circle account/0 EN account/0"], 1, 0),
    Case("17 traces with an order, of which 16 are listed", of(AB, BA), ["locks: " + CIRCLE, SEEN], 1, 1, ["one"] * 9 + ["two"] + ["one"] * 8),
    Case("locks that are held at the end, in two frames", of("a#1 b#1 -b#1 c#1:tr off,softirq enter,hardirq d#1 e#1 -d#1", BA),
         ["locks: " + CIRCLE, SEEN], 1, 1),
    Case("two types in both orders, different pairs", of("a#1 b#1", "b#1 a#2"), ["classes: " + CIRCLE], 1, 0),
    Case("two types in both orders, perhaps through one of several locks", of("a#1 b#rest", "b#rest a#1"),
         ["perhaps: " + CIRCLE, "  seen circle a#1/0 EN b#rest/0 EN a#1/0"], 1, 0),
    Case("the several locks of one recording aren't those of another", of("a#1 b#rest@2", "b#rest@3 a#1", "b#rest@2 c#1", "c#1 b#rest@2"),
         ["perhaps: circle b/0 EN c/0 EN b/0", "  seen circle b#rest@2/0 EN c#1/0 EN b#rest@2/0", "classes: " + CIRCLE], 1, 0),
    Case("a single lock whose number only begins as rest does, and one with nothing before the mark",
         of("a#restful b#@rest", "b#@rest a#restful", "#rest c", "c #rest"),
         ["locks: circle #rest/0 EN c/0 EN #rest/0", "  seen circle #rest/0 EN c/0 EN #rest/0",
          "locks: " + CIRCLE, "  seen circle a#restful/0 EN b#@rest/0 EN a#restful/0"], 1, 1),
    Case("a sure one beside a perhaps one", of("a#1 b#rest -b#rest -a#1 " + AB, "b#rest a#1 -a#1 -b#rest " + BA), ["locks: " + CIRCLE, SEEN], 1, 1),
    Case("a sure one that is longer than a perhaps one", of("a#1 b#rest -b#rest b#1", "b#rest a#1", "b#1 c#1 -b#1 a#1"),
         ["locks: " + CIRCLE, "  seen circle a#1/0 EN b#1/0 EN c#1/0 EN a#1/0",
          "locks: circle b/0 EN c/0 EN a/0 EN b/0", "  seen circle a#1/0 EN b#1/0 EN c#1/0 EN a#1/0"], 1, 1),
    Case("a sure one that leads round several locks, through which there is a shorter one",
         of("a#1 b#1", "b#1 x#rest", "x#rest a#1", "b#1 c#1", "c#1 d#1", "d#1 a#1"),
         [line for types in ("a/0 EN b/0 EN x/0 EN a/0", "b/0 EN c/0 EN d/0 EN a/0 EN b/0")
          for line in ("locks: circle " + types, "  seen circle a#1/0 EN b#1/0 EN c#1/0 EN d#1/0 EN a#1/0")], 1, 1),
    Case("the second member of the walk is seen, and the first isn't", of("a#2 b#2", BA, "a#1 c#1 -a#1 b#1"),
         ["locks: " + CIRCLE, "  seen circle a#1/0 EN c#1/0 EN b#1/0 EN a#1/0",
          "locks: circle a/0 EN c/0 EN b/0 EN a/0", "  seen circle a#1/0 EN c#1/0 EN b#1/0 EN a#1/0"], 1, 1),
    Case("only types: objects that were made in different places", of("a@p#1 b#1", "b#1 a@q#1"), ["types: " + CIRCLE], 1, 0),
    Case("one type nested in itself is a note, and no finding", of("a@p#1 a@q#1"), ["nested: circle a/0 EN a/0", "  only in one"], 0, 0),
    Case("one type nested in itself under readers, round by two orders", of("a@p#1:r a@q#1:rr", "a@p#1 a@q#1"),
         ["nested: circle a/0 EN a/0", "  only in two", "nested: circle a/0 SR a/0 EN a/0"], 0, 0),
    Case("two subclasses of one type are two keys, and so a finding", of("a@p#1 a@q#1/1", "a@p#2/1 a@q#2"),
         ["types: circle a/0 EN a/1 EN a/0"], 1, 0),
    Case("one lock that is taken with two subclasses is two keys", of("a#1 b#1/1", "b#1 a#1"), [], 0, 0),
    Case("a name without a number is one lock", of("a b", "b a"), ["locks: " + CIRCLE, "  seen " + CIRCLE], 1, 1),
    Case("names that end with a mark, have two, or begin with one", of("a##1 b#", "b# a##2", "c@@x#1 d@#1", "d@#1 c@y#1", "@e@p#1 f", "f @e@q#1"),
         ["classes: circle a#/0 EN b/0 EN a#/0", "types: circle c/0 EN d/0 EN c/0"], 1, 0),
    Case("one circle of single locks combines orders of three findings", of("a#1 b#1 -a#1 c#1 -b#1 a#1", "b#2 a#2", "c#3 b#3", "a#4 c#4"),
         [line for types in ("a/0 EN b/0 EN a/0", "a/0 EN c/0 EN a/0", "b/0 EN c/0 EN b/0")
          for line in ("locks: circle " + types, "  seen circle a#1/0 EN b#1/0 EN c#1/0 EN a#1/0", "    only in one")], 1, 1),
    Case("a release gives back the very lock, and not the newest of its class", of("a#1 a#2 -a#1 b#1", "b#1 a#2"),
         ["locks: " + CIRCLE, "  seen circle a#2/0 EN b#1/0 EN a#2/0", "classes: circle a/0 EN a/0", "  only in one"], 1, 1),
    Case("a release gives back what was taken with its subclass", of("a#1 a#1/1 -a#1 b#1", "b#1 a#1/1"),
         ["locks: circle a/1 EN b/0 EN a/1", "  seen circle a#1/1 EN b#1/0 EN a#1/1"], 1, 1),
    Case("two locks of a type in one circle make its order to itself sure too", of("a#1 a#2 -a#1 b#1", "b#1 a#1"),
         ["locks: circle a/0 EN a/0", "  only in one", "  seen circle a#1/0 EN a#2/0 EN b#1/0 EN a#1/0",
          "locks: " + CIRCLE, "  seen circle a#1/0 EN a#2/0 EN b#1/0 EN a#1/0"], 1, 1),
    Case("readers keep the single locks apart, and not the types", of("a#1 b#1:rr", "b#1:r a#1", "a#2 b#2"),
         ["classes: circle a/0 EN b/0 SN a/0"], 1, 0),
    Case("a try of the single lock breaks its circle", of(AB, "b#1 a#1:tw", "b#2 a#2"), ["classes: " + CIRCLE], 1, 0),
    Case("all verdicts that are settled, in their order",
         of("c@p#1 d#1 -c@p#1 -d#1 d#1 c@q#1 -c@q#1 -d#1 e@p#1 e@q#1 -e@q#1 -e@p#1",
            "f#1 g#1 -g#1 -f#1 g#1 f#2 -f#2 -g#1 h#1 i#rest -i#rest -h#1 i#rest h#1 -h#1 -i#rest x#1 y#1", "y#1 x#1"),
         ["locks: " + XY, SEEN_XY,
          "perhaps: circle h/0 EN i/0 EN h/0", "  only in two", "  seen circle h#1/0 EN i#rest/0 EN h#1/0", "    only in two",
          "classes: circle f/0 EN g/0 EN f/0", "  only in two",
          "types: circle c/0 EN d/0 EN c/0", "  only in one",
          "nested: circle e/0 EN e/0", "  only in one"], 1, 1),
)
NOTES = (
    Case("a gate that is one lock, and one that is several of a type", of("g#1 h#1 " + AB, "g#1 h#2 " + BA),
         ["locks: " + CIRCLE, "  always inside g/0: a/0 EN b/0, b/0 EN a/0", "  always inside h/0: a/0 EN b/0, b/0 EN a/0",
          SEEN, "    always inside g#1/0: a#1/0 EN b#1/0, b#1/0 EN a#1/0"], 1, 1),
    Case("a gate of two single locks, of whose types others have no gate", of("g#1 " + AB, "g#1 " + BA, "a#2 b#2"),
         ["locks: " + CIRCLE, SEEN, "    always inside g#1/0: a#1/0 EN b#1/0, b#1/0 EN a#1/0"], 1, 1),
    Case("a gate that stands for several locks is told as any other", of("g#rest " + AB, "g#rest " + BA),
         ["locks: " + CIRCLE, "  always inside g/0: a/0 EN b/0, b/0 EN a/0",
          SEEN, "    always inside g#rest/0: a#1/0 EN b#1/0, b#1/0 EN a#1/0"], 1, 1),
    Case("one task has both orders of the single locks, others have those of the types", of(AB + " " + BA, "a#2 b#2"),
         ["locks: " + CIRCLE, SEEN, "    only in one"], 1, 1),
    Case("the same file twice is two traces", of(AB + " " + BA), ["locks: " + CIRCLE, SEEN], 1, 1, ("one", "one")),
    Case("an inversion's gate of single locks, of whose types others have no gate",
         of(in_hardirq("a#1"), "off,hardirq g#1 a#1 x#1 -a#1 b#1", "b#1", "off,hardirq a#2 x#2"),
         ["locks: inversion hardirq a/0 b/0", "  seen inversion hardirq a#1/0 b#1/0",
          "    always inside g#1/0: a#1/0 EN x#1/0, x#1/0 EN b#1/0"], 1, 1),
)
INTERRUPTS = (
    Case("a double of one lock", of(in_hardirq("l#1"), "l#1"), ["locks: double hardirq l/0", "  seen double hardirq l#1/0"], 1, 1),
    Case("a double of two different locks", of(in_hardirq("l#1"), "l#2"), ["classes: double hardirq l/0"], 1, 0),
    Case("a double of several locks", of(in_hardirq("l#rest"), "l#rest"), ["perhaps: double hardirq l/0", "  seen double hardirq l#rest/0"], 1, 0),
    Case("a double of locks that were made in different places is a finding", of(in_hardirq("l@p#1"), "l@q#1"), ["types: double hardirq l/0"], 1, 0),
    Case("a double of one lock by readers is none, and by two locks it is", of(in_hardirq("l#1:r") + in_hardirq("l#2"), "l#1:r"),
         ["classes: double hardirq l/0"], 1, 0),
    Case("an inversion of one pair of locks, by a walk over a third", of(in_hardirq("a#1"), "off,hardirq a#1 x#1 -a#1 b#1", "b#1"),
         ["locks: inversion hardirq a/0 b/0", "  seen inversion hardirq a#1/0 b#1/0"], 1, 1),
    Case("an inversion of two locks that no walk leads between", of(in_hardirq("a#1"), "off,hardirq a#2 b#1", "b#1"),
         ["classes: inversion hardirq a/0 b/0"], 1, 0),
    Case("an inversion whose walk leads through several locks", of(in_hardirq("a#1"), "off,hardirq a#1 x#rest -a#1 b#1", "b#1"),
         ["perhaps: inversion hardirq a/0 b/0", "  seen inversion hardirq a#1/0 b#1/0"], 1, 0),
    Case("an inversion of types alone", of(in_hardirq("a@p#1"), "off,hardirq a@q#1 b#1", "b#1"), ["types: inversion hardirq a/0 b/0"], 1, 0),
)
UNSETTLED = (
    Case("as many single locks lead to each other as can be settled", of(ring(["a#%d" % n for n in range(LIMIT)])),
         ["locks: circle a/0 EN a/0", "  only in one",
          "  seen circle %s" % " EN ".join("a#%d/0" % n for n in [*range(LIMIT), 0]), "    only in one"], 1, 1),
    Case("more single locks lead to each other than can be settled",
         of(ring(["a#%d" % n for n in range(LIMIT + 1)]), "x#1 y#1", "y#1 x#1", in_hardirq("l#1") + task("l#1")),
         ["unknown: circle a/0 EN a/0", "  only in one", "unknown: " + XY, "unknown: double hardirq l/0"], 1, 1),
    Case("more lead to each other only through several locks",
         of(ring([*("a#%d" % n for n in range(LIMIT)), "a#rest"]), "x#1 y#1", "y#1 x#1", "u#1 v#1", "v#2 u#1"),
         ["locks: " + XY, SEEN_XY, "unknown: circle a/0 EN a/0", "  only in one", "unknown: circle u/0 EN v/0 EN u/0"], 1, 1),
    Case("more classes lead to each other than can be settled",
         of(ring_of_classes(), "x#1 y#1", "y#1 x#1", "u#1 v#1", "v#1 u#2", "w#rest z#1", "z#1 w#rest"),
         ["locks: " + XY, SEEN_XY, "perhaps: circle w/0 EN z/0 EN w/0", "  seen circle w#rest/0 EN z#1/0 EN w#rest/0",
          "unknown: circle a/0 EN a/0", "  only in one", "unknown: circle u/0 EN v/0 EN u/0"], 1, 1),
    Case("interrupt links lead from lock to lock too", of(["off,hardirq", *chain(LIMIT + 1)], "a#%d" % LIMIT, in_hardirq("a#0")),
         ["unknown: circle a/0 EN a/0", "  only in one", "unknown: double hardirq a/0", "unknown: inversion hardirq a/0 a/0"], 1, 1),
    Case("more locks than can lead to each other are settled if they don't", of(chain(LIMIT + 50), "x#1 y#1", "y#1 x#1"),
         ["locks: " + XY, SEEN_XY, "classes: circle a/0 EN a/0", "  only in one"], 1, 1),
    Case("one type that isn't known not to be seen is no note", of(ring_of_classes()), ["unknown: circle a/0 EN a/0", "  only in one"], 1, 1),
)
SETTLED = CIRCLES + NOTES + INTERRUPTS
