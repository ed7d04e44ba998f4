"""What tests in Python have in common: checks that are counted."""
from typing import Any, Optional

MOST_TOLD = 1200  # characters of a difference


class Checks:
    """The checks of a test; of the failures only the first are shown, if there may be many."""

    def __init__(self, tests: str, most_shown: Optional[int] = None) -> None:
        self.tests, self.most_shown = tests, most_shown
        self.passed = self.failed = 0

    def check(self, what: str, good: bool, told: str = "") -> bool:
        """Whether something is so, which is counted; if it isn't, what is told of it is shown."""
        self.passed, self.failed = self.passed + bool(good), self.failed + (not good)
        if not good and (self.most_shown is None or self.failed <= self.most_shown):
            print("%s: %s%s" % (self.tests, what, told and ("\n" if "\n" in told else ": ") + told))
        return good

    def same(self, what: str, wanted: Any, found: Any) -> bool:
        return self.check(what, wanted == found, ("%r and not %r" % (found, wanted))[:MOST_TOLD] if wanted != found else "")

    def status(self) -> int:
        """The status of the script, whose last line is written."""
        print("%d passed, %d failed" % (self.passed, self.failed))
        return int(self.failed > 0)
