"""The verdicts of findings, which of them count, and their order."""
from __future__ import annotations

import unittest

from cases import between, circle, finding
from lockdep.known.suppressions import UP_TO, strength
from lockdep.program.verdicts import OF_LEVELS, Judgement, Level, Reason, Verdict
from lockdep.record.provoked import Happened
from lockdep.say.verdict_words import REASONS

# Whether a finding of each verdict counts where only what is possible, or not known, does; of one that isn't shown its reason says that.
COUNTS = {Verdict.HAPPENED: True, Verdict.POSSIBLE: True, Verdict.BY_JOIN: False, Verdict.NOT_KNOWN: True, Verdict.APART: False, Verdict.CLASSES: False}
REASONS_COUNT = {Reason.ORDER: True, Reason.LIKE_THREADS: True, Reason.FEWER_THREADS: False, Reason.ONE_LOCK: False, Reason.NO_RING: False, Reason.TIMED: False,
                 Reason.LATE: False, Reason.TURNED_OFF: False}


class Verdicts(unittest.TestCase):
    def test_the_words_the_strongest_first(self) -> None:
        self.assertEqual([verdict.words for verdict in Verdict],
                         ["happened", "possible", "possible by a join", "not known", "not shown", "kept apart", "between classes"])

    def test_what_counts(self) -> None:
        self.assertEqual({verdict: Judgement(verdict).is_counted for verdict in Verdict if verdict is not Verdict.NOT_SHOWN}, COUNTS)
        self.assertEqual({reason: Judgement(Verdict.NOT_SHOWN, reason).is_counted for reason in Reason}, REASONS_COUNT)

    def test_each_reason_has_a_sentence(self) -> None:
        self.assertEqual(list(REASONS), list(Reason))

    def test_what_a_level_is_as_long_as_no_history_was_asked(self) -> None:
        said = {level: finding(circle("a/0", between=between(level.value))) for level in Level}
        self.assertEqual({level: one.verdict for level, one in said.items()}, OF_LEVELS)
        self.assertEqual([level.value for level, one in said.items() if one.is_counted], ["locks", "perhaps", "unknown"])
        self.assertEqual([level.value for level, one in said.items() if one.is_note], ["nested"])

    def test_a_finding_that_nothing_was_asked_about_has_none_and_counts(self) -> None:
        one = finding(circle("a/0"))
        self.assertEqual((one.judgement, one.verdict, one.is_counted), (None, None, True))

    def test_what_happened_is_that_whatever_was_judged(self) -> None:
        one = finding(circle("a/0", "b/0", between=between("classes")))
        one.judged, one.happened = Judgement(Verdict.APART), Happened(1, [])
        self.assertEqual((one.verdict, one.is_counted), (Verdict.HAPPENED, True))

    def test_a_list_has_all_but_what_happened(self) -> None:
        self.assertEqual(UP_TO, {verdict.words.replace(" ", "-"): verdict for verdict in list(Verdict)[1:]})
        self.assertEqual(sorted(Verdict, key=strength), list(Verdict))


if __name__ == "__main__":
    unittest.main()
