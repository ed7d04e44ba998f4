"""The command beside a run of `lockdep provoke`, and what becomes of a recorded program that doesn't end."""
from __future__ import annotations

import os
import signal
import subprocess
import sys
import tempfile
import time
import unittest
from unittest import mock

from lockdep.provoke import load as provoke_load, recorded as provoke_recorded
from lockdep.provoke.ending import ENDING
from lockdep.provoke.holders import Preloaded
from lockdep.provoke.provoke import Ended, heed_signals

DEAF = "import os, signal, sys, time; signal.signal(signal.SIGTERM, signal.SIG_IGN); open(os.path.join(sys.argv[1], '%d-0.arena' % os.getpid()), 'w'); time.sleep(99)"


class AProgramThatDoesntEnd(unittest.TestCase):
    def recorder(self, folder: str) -> int:
        """A process that has started one that ignores SIGTERM, and ends with it."""
        raw = os.path.join(folder, "raw")
        os.mkdir(raw)
        waits = "import signal, subprocess, sys; signal.signal(signal.SIGTERM, signal.SIG_IGN); sys.exit(-subprocess.call([sys.executable, '-c', sys.argv[1], sys.argv[2]]))"
        return subprocess.Popen([sys.executable, "-c", waits, DEAF, raw]).pid

    def test_it_is_killed_when_its_time_is_up(self) -> None:
        with tempfile.TemporaryDirectory() as folder, mock.patch.object(provoke_load, "PATIENCE", 0.1):
            holder = mock.Mock(spec=Preloaded)
            holder.takes_locks = lambda path: path.endswith(".arena")
            began = time.monotonic()
            run = provoke_recorded.end_of_recording(self.recorder(folder), folder, "true", holder)
            self.assertEqual(run.status, signal.SIGKILL)
            self.assertLess(run.seconds, time.monotonic() - began - 0.1)  # (how long it had to end doesn't count)

    def test_a_signal_that_comes_as_the_load_starts_ends_that_too(self) -> None:
        started, really = [], subprocess.Popen

        def starts(*words: object, **options: object) -> subprocess.Popen:
            started.append(really(*words, **options))
            os.kill(os.getpid(), signal.SIGTERM)
            return started[-1]

        for number in ENDING:
            self.addCleanup(signal.signal, number, signal.getsignal(number))
        heed_signals()
        load = provoke_load.Load("sleep 600", 2)
        with mock.patch("lockdep.provoke.load.subprocess.Popen", starts), self.assertRaises(Ended):
            load.step(True, os.getpid())
        load.end()
        self.assertEqual(started[0].returncode, -signal.SIGKILL)

    def test_a_program_that_stands_still_has_its_load_beside_it_and_isnt_asked_to_end(self) -> None:
        load = provoke_load.Load("true", 2)
        self.addCleanup(load.end)
        with mock.patch.object(provoke_load, "send") as send:
            load.step(True, 7, True)
            load.child.wait()
            load.step(True, 7, True)
            self.assertEqual(send.call_count, 0)
            load.step(True, 7)
            self.assertEqual(send.call_args.args, (7, signal.SIGTERM))

    def test_descendants_are_children_and_what_they_started(self) -> None:
        child = subprocess.Popen([sys.executable, "-c", "import subprocess, sys; subprocess.Popen(['sleep', '99']); print(flush=True); sys.stdin.read()"],
                                 stdin=subprocess.PIPE, stdout=subprocess.PIPE)
        self.addCleanup(child.stdout.close)
        self.addCleanup(child.communicate)
        child.stdout.readline()
        found = provoke_recorded.descendants(os.getpid())
        self.assertIn(child.pid, found)
        below = provoke_recorded.descendants(child.pid)
        self.assertEqual(len(below), 1)
        self.assertLessEqual(set(below), set(found))
        os.kill(below[0], signal.SIGKILL)


if __name__ == "__main__":
    unittest.main()
