"""Histories whose rings were worked out by hand, and texts that are refused."""
from typing import List, NamedTuple, Tuple


class Case(NamedTuple):
    """A history, and the verdict of each ring that is told, with whether a task of it waits for the end of a thread."""
    what: str
    text: str
    verdicts: List[Tuple[str, bool]]


def history(*records: str) -> str:
    return "\n".join(("history,1",) + records) + "\n"


def section(task: str, *locks: str) -> List[str]:
    """A task takes these locks in their order as a writer, and releases them in the reverse one."""
    taken = ["%s,take,%s,w" % (task, lock) for lock in locks]
    return taken + ["%s,release,%s" % (task, lock) for lock in reversed(locks)]


CASES = [
    Case("two orders", history(*section("a", "A", "B"), *section("b", "B", "A")), [("possible", False)]),
    Case("two orders of one task", history(*section("a", "A", "B"), *section("a", "B", "A")), []),
    Case("two orders under one lock", history(*section("a", "G", "A", "B"), *section("b", "G", "B", "A")), []),
    Case("readers alone", history("a,take,A,r", "a,take,B,r", "a,release,B", "a,release,A",
                                  "b,take,B,r", "b,take,A,r", "b,release,A", "b,release,B"), []),
    Case("a try doesn't wait", history("a,take,A,w", "a,take,B,tw", "a,release,B", "a,release,A", *section("b", "B", "A")), []),
    Case("a limit of time", history("a,take,A,w", "a,take,B,lw", "a,release,B", "a,release,A", *section("b", "B", "A")), []),
    Case("a reader behind a waiting writer", history(
        "a,take,A,r", "a,take,B,w", "a,release,B", "a,release,A", "b,take,B,w", "b,take,A,r", "b,release,A", "b,release,B",
        "c,take,A,w", "c,release,A"), [("possible", False)]),
    Case("a recursive reader passes a waiting writer", history(
        "a,take,A,r", "a,take,B,w", "a,release,B", "a,release,A", "b,take,B,w", "b,take,A,rr", "b,release,A", "b,release,B",
        "c,take,A,w", "c,release,A"), []),
    Case("what is read again behind a waiting writer", history(
        "a,take,A,r", "a,again,A", "a,release,A", "b,take,A,w", "b,release,A"), [("possible", False)]),
    Case("a message keeps them apart", history(
        *section("a", "A", "B"), "a,give,1", "b,get,1", *section("b", "B", "A")), [("kept apart", False)]),
    Case("a message that comes after one of the takings", history(
        "b,take,B,w", "b,release,B", *section("a", "A", "B"), "a,give,1", *section("b", "B", "A"), "b,get,1"), [("possible", False)]),
    Case("a message that was got by another task keeps nobody apart", history(
        *section("a", "A", "B"), "a,give,1", "c,get,1", *section("b", "B", "A")), [("possible", False)]),
    Case("the first instance is kept apart, a later one isn't", history(
        *section("a", "A", "B"), "a,give,1", "b,get,1", *section("b", "B", "A"), *section("a", "A", "B")), [("possible", False)]),
    Case("a join with the lock held", history(
        "thread,T", "t,take,T,tw", "t,take,A,w", "t,release,A", "t,release,T", "m,take,A,w", "m,take,T,w", "m,release,T", "m,release,A"),
        [("possible", True)]),
    Case("an outer lock through which the other task has gone", history(
        *section("a", "G", "A", "B"), *section("b", "G"), *section("b", "B", "A")), [("not shown", False)]),
    Case("three tasks", history(*section("a", "A", "B"), *section("b", "B", "C"), *section("c", "C", "A")), [("possible", False)]),
    Case("nothing", history(), []),
]

REFUSED = [
    ("H1 NoHeader", 1, ""),
    ("H1 NoHeader", 1, "lockdep,1\n"),
    ("H2 BadRecord", 2, history("a,grab,A,w")),
    ("H2 BadRecord", 2, history("a,give,01")),
    ("H2 BadRecord", 2, history("a,give,4294967296")),
    ("H2 BadRecord", 3, history("a,take,A,w", "thread,A")),
    ("H3 BadName", 2, history("a b,take,A,w")),
    ("H3 BadName", 2, history("a,take,%s,w" % ("x" * 65))),
    ("H4 BadMode", 2, history("a,take,A,x")),
    ("H9 TakenByAnother", 3, history("a,take,A,w", "b,take,A,r")),
    ("H10 TakenAgain", 3, history("a,take,A,r", "a,take,A,r")),
    ("H11 NotHeld", 2, history("a,release,A")),
    ("H11 NotHeld", 3, history("a,take,A,w", "a,again,A")),
    ("H12 GivenTwice", 3, history("a,give,7", "b,give,7")),
    ("H13 NotGiven", 2, history("a,get,7")),
]
