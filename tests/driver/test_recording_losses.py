"""The table of what a recording can lack."""
import os
import re
import shutil
import tempfile
import unittest

from lockdep.base import saying
from lockdep.record import losses, summary
from lockdep.say import seen
from lockdep.say.advice import ADVICE

TOP = os.path.join(os.path.dirname(os.path.realpath(__file__)), "..", "..")


def text_of(path):
    with open(os.path.join(TOP, path), encoding="utf-8") as file:
        return file.read()


class Sentences(unittest.TestCase):
    def sentences(self, code):
        return losses.COUNTS.get(code, ()) + losses.NOTES.get(code, ())

    def test_each_count_of_the_recorder_of_pthreads_is_in_the_table(self):
        codes = []
        for name in ("summary.c", "sets.c"):
            codes += re.findall(r'\bwrite_(?:count|loss|loss_with)\(file, "([a-z-]+)", ', text_of("recorders/pthread/finish/" + name))
        self.assertGreater(len(codes), 30)
        without_words = losses.RECORDED + summary.NOTED + ("at-exit",)
        for code in codes:
            self.assertEqual(len(self.sentences(code)) > 0, code not in without_words, code)
            self.assertEqual(losses.words_of_loss(code, "pthread"), summary.known_words(code), code)

    def test_each_count_of_a_finish_in_python_is_in_the_table(self):
        from lockdep.finish import finish_embed, finishing
        for code in finishing.LOSSES + finish_embed.LOSSES + ("unreached-runs", "pthread-runs", "other-runs", "library-only"):
            self.assertTrue(self.sentences(code) or code in summary.NOTED, code)

    def test_each_recorder_has_its_own_sentence(self):
        for recorder, code, words in (
                ("python", "reentered", "calls from a signal handler or a finaliser that interrupted the recorder: an order among them may be missing"),
                ("java", "threads-alike", "threads whose traces are those of others, and weren't written: nothing is lost by these"),
                ("java", "unseen-releases", "releases of locks that the thread wasn't seen to take: another thread, or nobody, was seen to hold them"),
                ("rust", "reentered", "operations that interrupted the recorder, as in a signal handler: an order among them may be missing"),
                ("rust", "unseen-releases", "releases of locks by a thread that did not take them"),
                ("rust", "beyond-traces", "threads beyond 4,096 traces: nothing of them was recorded"),
                ("rust", "threads-alike", "threads that did what others had done, and weren't written: nothing is lost by these"),
                ("embed", "lost-threads", "traces without a single byte"),
                ("embed", "beyond-held", "acquisitions with 48 locks held already"),
                ("embed", "unseen-releases", "releases of locks that were not seen to be taken"),
                ("embed", "threads-alike", "tasks whose traces are the same as 32 others, and were left out: nothing is lost by these"),
                ("rust", "beyond-held", "acquisitions with 48 locks held already: an order among them may be missing"),
                ("rust", "waiting", None)):
            self.assertEqual(losses.words_of_loss(code, recorder), words, (recorder, code))

    def test_each_reason_of_a_program_is_in_the_table(self):
        words = re.findall(r'say(?:_of)?\([^;]*?, "([a-z-]+)"(?:, name)?\);', text_of("recorders/pthread/look.c"))
        self.assertIn("static", words)
        for word in set(words) - {"pthread", "semaphore"}:
            self.assertIn(word, losses.REASONS)
        runtimes = re.findall(r'^    \{"([a-z]+)", \{"', text_of("recorders/pthread/look.c"), re.M)
        self.assertGreater(len(runtimes), 7)
        for word in runtimes:
            self.assertIn(word, losses.REASONS)
        unseen = re.findall(r'\{"([a-z-]+)", (?:process_count|is_)', text_of("recorders/pthread/finish/summary.c"))
        self.assertGreater(len(unseen), 5)
        for word in unseen:
            self.assertIn(word, losses.REASONS)
        for recorder in ("python", "java", "rust", "embed"):
            self.assertLessEqual({recorder + "-nothing", recorder + "-off"}, set(losses.REASONS))

    def test_a_reason_that_is_not_known_stands_for_itself(self):
        self.assertEqual(losses.sentence("of-a-newer-recorder"), "of-a-newer-recorder")

    def test_a_document_is_named_where_it_is(self):
        self.assertIn(os.path.realpath(os.path.join(TOP, "recorders/embed/README.md")), losses.sentence("embed-off", TOP))
        self.assertIn("(recorders/java/README.md)", losses.sentence("java-nothing"))

    def test_singular(self):
        for many, one in (("tries of a lock", "try of a lock"), ("try acquisitions, which", "try acquisition, which"),
                          ("processes that still ran", "process that still ran"), ("acquisitions with 48 locks held", "acquisition with 48 locks held"),
                          ("classes of the program's", "class of the program's"), ("libraries loaded", "library loaded"),
                          ("files beside the traces that were not read", "file beside the traces that was not read"), ("lost-threads", "lost-threads"),
                          ("programs built with a sanitizer, in which", "program built with a sanitizer, in which")):
            self.assertEqual(losses.singular(many), one)

    def test_each_count_has_a_singular_of_its_own(self):
        for code, sentences in losses.COUNTS.items():
            for words in sentences:
                words = words.partition(":")[0]
                self.assertNotEqual(losses.singular(words), words, code)


class LeftOut(unittest.TestCase):
    """What was left out says what to do, and may be accepted."""

    def setUp(self):
        self.folder = tempfile.mkdtemp()
        self.addCleanup(shutil.rmtree, self.folder)
        self.addCleanup(setattr, saying, "kept", None)
        with open(os.path.join(self.folder, "classes"), "w", encoding="utf-8") as file:
            file.write("a\t/srv/server\t0\tstatic\n")

    # A count of these two alone leaves nothing out. Written here, so that a count that is left out by mistake is noticed.
    acceptable = sorted(set(losses.COUNTS) - {"small-files", "refused-processes"})

    def judged(self, code, *accepted):
        """The status of a recording that lacks something, and what is said."""
        saying.kept = []
        text = "processes 1\nthreads 1\noperations 2\nclasses 1\n%s 3\n  %s\n" % (code, losses.COUNTS[code][0])
        return seen.status_of_summary(self.folder, summary.Summary(summary.parse(text)), list(accepted)), "\n".join(saying.kept)

    def test_each_count_says_what_to_do(self):
        self.assertEqual(sorted(ADVICE), sorted(losses.COUNTS))
        for code in self.acceptable:
            status, said = self.judged(code)
            self.assertIn(status, (seen.LEFT_OUT, seen.NOTHING), code)
            self.assertIn("  %s: %s" % (code, ADVICE[code]), said)

    def advice(self, code, recorder):
        """What is said to do about a count of a recorder."""
        with open(os.path.join(self.folder, "summary.json"), "w", encoding="utf-8") as file:
            file.write(summary.json_of(summary.Summary(), recorder))
        return next(line for line in self.judged(code)[1].splitlines() if code + ": " in line).partition(code + ": ")[2]

    def test_advice_is_for_the_recorder_that_was_used(self):
        for recorder, has_frames in ("pthread", True), ("java", False), ("python", False), ("go", False), ("rust", False), ("embed", False):
            self.assertEqual("--frames" in self.advice("beyond-classes", recorder), has_frames, recorder)
            self.assertEqual("signal handler" in self.advice("interrupted", recorder), recorder != "java", recorder)
        self.assertNotIn("signal handler", losses.words_of_loss("interrupted", "java"))
        self.assertIn("signal handler", losses.words_of_loss("interrupted", "python"))

    def test_each_count_that_is_accepted_is_judged(self):
        for code in self.acceptable:
            status, said = self.judged(code, code)
            self.assertEqual(status, seen.ALL, code)
            self.assertIn("accepted as left out: " + code, said)
            self.assertNotIn("  %s: %s" % (code, ADVICE[code]), said)

    def test_a_program_of_which_nothing_was_seen_is_never_accepted(self):
        status, said = self.judged("refused-processes", "refused-processes")
        self.assertEqual(status, seen.NOTHING)
        self.assertIn(ADVICE["refused-processes"].rpartition(" (")[2], said)

    def test_what_is_not_accepted_still_counts(self):
        self.assertEqual(self.judged("beyond-held", "no-room")[0], seen.LEFT_OUT)

    def test_nothing_that_was_seen_is_not_judged_by_it(self):
        with open(os.path.join(self.folder, "classes"), "w", encoding="utf-8") as file:
            file.write("a\t/usr/lib/libc.so.6\t0\tstatic\n")
        self.assertEqual(self.judged("beyond-held", "beyond-held")[0], seen.NOTHING)


class WhoseLocks(unittest.TestCase):
    def test_nobodys(self):
        for name in ("-", "ld-linux-x86-64.so.2", "libc.so.6", "libnss_systemd.so.2", "preload.so", "cargo", "cargo-clippy", "libLLVM-17-rust-1.75.so"):
            self.assertTrue(seen.is_nobodys(name), name)
        for name in ("", "server", "libcurl.so.4", "libLLVM-17.so", "rustic"):
            self.assertFalse(seen.is_nobodys(name), name)

    def test_interpreters(self):
        for name in ("python3", "python3.11", "libpython3.11.so.1.0", "pypy3.9", "libpypy3.9-c.so", "java", "libjvm.so", "libnio.so"):
            self.assertTrue(seen.is_interpreters(name), name)
        for name in ("pythonic", "javac", "libmine.so"):
            self.assertFalse(seen.is_interpreters(name), name)


if __name__ == "__main__":
    unittest.main()
