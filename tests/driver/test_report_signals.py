"""Signal handlers: recordings that are made here by hand, what the proved program finds in them, and how each output tells it."""
import io
import json
import os
import shutil
import subprocess
import sys
import tempfile
import unittest
from unittest import mock

from lockdep.ask.asking import ask_about
from lockdep.ask.blocked import blocked_threads
from lockdep.ask.signals import Signals
from lockdep.base.saying import Refusal
from lockdep.binaries.symbols import Symbols
from lockdep.cli.diff import sides_of_folder
from lockdep.known.known import list_of, sort
from lockdep.known.suppressions import entries_of
from lockdep.places.sources import sources_of
from lockdep.program.verdicts import Level, Reason, Verdict
from lockdep.record.handlers import Handler, handlers_in
from lockdep.record.summary import Summary, parse, read
from lockdep.say import report as reporting, seen
from lockdep.say.groups import groups_of
from lockdep.say.report import Recording, Report, ReportOptions

# A server whose threads take table, stats and pool. The handler of SIGUSR1 takes table, that of SIGALRM stats.
USR1 = {"number": 1, "signal": "SIGUSR1", "handler": "on_usr1", "module": "/srv/server", "offset": "0x10", "file": "/src/server.c", "line": 30, "runs": 12,
        "sent_to": "process", "takes": 3, "narrow": []}
ALARM = dict(USR1, number=2, signal="SIGALRM", handler="on_alarm", offset="0x20", line=60, sent_to="threads", takes=1)
CLASSES = "table\tserver.c:3\t-\tstatic\nstats\tserver.c:4\t-\tstatic\npool\tserver.c:5\t-\tstatic\n"
TABLE = ("acq,table,0,w", "server.c:41 insert"), ("rel,table,0", "")
IN_USR1 = ("enter,hardirq", ""), ("acq,table,0,w", "server.c:12 reload < server.c:31 on_usr1 < server.c:44 insert"), ("rel,table,0", ""), ("leave", "")
IN_ALARM = ("enter,hardirq", ""), ("acq,stats,0,w", "server.c:61 on_alarm"), ("rel,stats,0", ""), ("leave", "")
WORKER = (("off,hardirq", ""), ("acq,stats,0,w", "server.c:19 worker"), ("acq,pool,0,w", "server.c:20 worker"), ("rel,pool,0", ""), ("rel,stats,0", ""))
POOL = ("acq,pool,0,w", "server.c:52 main"), ("rel,pool,0", "")
UNBLOCKS = ("off,hardirq", ""), ("acq,table,0,w", "server.c:43 flush"), ("on,hardirq", "server.c:44 flush"), ("rel,table,0", "")

DOUBLE = """double SIGUSR1:on_usr1 table/0
    table: static server.c:3
  on_usr1, the handler for SIGUSR1, takes table: reload at server.c:12 < on_usr1 at server.c:31
  taken with SIGUSR1 unblocked: insert at server.c:41
  if SIGUSR1 comes in while a thread holds table there, the handler waits for the thread that it interrupted
  SIGUSR1 was sent to the process: any thread that has it unblocked may get it
  to mend it: block SIGUSR1 around table, or let the handler only set a flag or write to a pipe
  not known: table: the order of steps doesn't say when a signal may come in
"""
EDEADLK = "  a thread that holds table for writing gets EDEADLK of glibc when it asks for it again, unless the signal comes in between taking it and " \
    "noting the writer, or between clearing the writer and releasing it: a handler that ignores that releases the writer's lock"
INVERSION = """inversion SIGALRM:on_alarm stats/0 pool/0
    stats: static server.c:4
    pool: static server.c:5
  on_alarm, the handler for SIGALRM, takes stats: on_alarm at server.c:61
  stats/0 EN pool/0: worker at server.c:20 takes pool, with stats held since worker at server.c:19
  taken with SIGALRM unblocked: main at server.c:52 takes pool
  thread 1 holds pool, thread 2 holds stats and waits for pool
  SIGALRM comes in at thread 1, and its handler waits for stats
  SIGALRM was sent to single threads alone: only these, and threads that run the same function, count
  to mend it: block SIGALRM around pool, don't take pool under stats, or let the handler only set a flag or write to a pipe
  not known: stats, pool: the order of steps doesn't say when a signal may come in
"""
GONE = "the recording has no raw.tar.gz, and so no order of its steps"
UNORDERED = ": the order of steps doesn't say when a signal may come in"
SUMMARY = "processes 1\nthreads 2\noperations 8\nevents 8\nclasses 3\n"


class OfHandlers(unittest.TestCase):
    """Has a folder with a recording, in which a test puts what it is about."""

    def setUp(self):
        self.room = tempfile.TemporaryDirectory()
        self.addCleanup(self.room.cleanup)
        self.folder = os.path.join(self.room.name, "traces")
        self.write("SUMMARY", SUMMARY)
        self.write("classes", CLASSES)
        self.threads(TABLE, [(line, place) for line, place in WORKER if not line.startswith("off")])

    def write(self, name, text):
        path = os.path.join(self.folder, name)
        os.makedirs(os.path.dirname(path), exist_ok=True)
        with open(path, "w", encoding="utf-8") as file:
            file.write(text)

    def trace(self, folder, number, records):
        """A trace, whose places are words: each caller in a line, the innermost first."""
        name = os.path.join(folder, "task-%04d.csv" % number)
        self.write(name, "lockdep,2\n" + "".join(line + "\n" for line, _ in records))
        self.write(name + ".places", "".join("%d %s\n" % (record, caller) for record, (_, places) in enumerate(records, 2)
                                             for caller in places.split(" < ") if caller))

    def threads(self, *several):
        for number, records in enumerate(several, 1):
            self.trace("objects", number, records)
            self.trace("", number, records)

    def set_of(self, number, *several):
        for task, records in enumerate(several, 1):
            self.trace("signals/%d" % number, task, records)

    def handlers(self, *ran, never=()):
        self.write("signals/sources.json", json.dumps(list(ran)))
        self.write("signals/never.json", json.dumps(list(never)))

    def both(self):
        """Both handlers, each with its finding."""
        self.handlers(USR1, ALARM)
        self.set_of(1, TABLE, IN_USR1)
        self.set_of(2, POOL, WORKER, IN_ALARM)

    def findings(self):
        return ask_about(self.folder).findings()

    def confirmed(self, *words):
        """The status of `confirm --verbose`, and what it writes."""
        program = "import sys; sys.path[:0] = %r; from lockdep import parts; sys.exit(parts.run('confirm', sys.argv[1:]))" % sys.path
        done = subprocess.run([sys.executable, "-c", program, "--verbose", self.folder, *words], stdout=subprocess.PIPE, stderr=subprocess.PIPE)
        return done.returncode, done.stdout.decode(), done.stderr.decode()

    def form(self, form):
        """What `run` and `confirm` write in a form."""
        name = os.path.join(self.room.name, form)
        made = Report(Recording(self.folder, Summary(parse(SUMMARY))), ReportOptions(**{form: name}), ask_about(self.folder))
        made.sort()
        made.look_deeper()
        made.write_forms(made.options.forms)
        with open(name, encoding="utf-8") as file:
            return file.read()


class Told(OfHandlers):
    def test_both_examples_as_text(self):
        self.both()
        status, text, said = self.confirmed()
        self.assertEqual((status, text), (1, "findings 2\n\n" + DOUBLE + "\n" + INVERSION))
        self.assertIn("SIGALRM (on_alarm at server.c:60) was sent to single threads alone, so code of other threads isn't checked against it\n", said)

    def test_a_signal_that_is_unblocked_with_the_lock_held(self):
        self.handlers(USR1)
        self.set_of(1, UNBLOCKS, IN_USR1)
        lines = self.confirmed()[1].split("\n")
        self.assertIn("  SIGUSR1 is unblocked with table held: flush at server.c:44; table was taken: flush at server.c:43", lines)
        self.assertIn("  to mend it: keep SIGUSR1 blocked until table is released, or let the handler only set a flag or write to a pipe", lines)

    def test_an_order_that_the_handler_itself_takes(self):
        self.handlers(USR1)
        run = [("enter,hardirq", ""), ("acq,table,0,w", "server.c:12 on_usr1"), ("acq,pool,0,w", "server.c:13 on_usr1"), ("rel,pool,0", ""),
               ("rel,table,0", ""), ("leave", "")]
        self.set_of(1, POOL, run)
        text = self.confirmed()[1]
        self.assertIn("inversion SIGUSR1:on_usr1 table/0 pool/0\n", text)
        self.assertIn("\n  one thread is enough: it holds pool when SIGUSR1 comes in, and the handler takes table and then waits for pool\n", text)

    def test_an_order_that_other_code_takes(self):
        self.both()
        self.assertNotIn("one thread is enough", self.confirmed()[1])

    def circle_with_a_run(self, third=()):
        """The thread takes table and then pool, and a run of a handler pool and then table."""
        there = ("acq,table,0,w", "server.c:41 insert"), ("acq,pool,0,w", "server.c:42 insert"), ("rel,pool,0", ""), ("rel,table,0", "")
        back = ("acq,pool,0,w", "server.c:12 on_usr1"), ("acq,table,0,w", "server.c:13 on_usr1"), ("rel,table,0", ""), ("rel,pool,0", "")
        self.threads(there, back, *third)
        self.handlers(USR1)
        self.write("signals/threads", "task-0001.csv 1\ntask-0002.csv 1\ntask-0003.csv 2\n")
        self.set_of(1, (("off,hardirq", ""),) + there, (("enter,hardirq", ""),) + back + (("leave", ""),))
        return [line for line in self.confirmed()[1].split("\n") if line.startswith("  not known: pool, table")]

    def test_a_run_of_a_handler_is_of_its_thread(self):
        self.assertEqual(self.circle_with_a_run(), ["  not known: pool, table, by one thread: " + GONE])

    def test_a_run_of_a_handler_and_another_thread(self):
        third = ("acq,pool,0,w", "server.c:50 other"), ("acq,table,0,w", "server.c:51 other"), ("rel,table,0", ""), ("rel,pool,0", "")
        self.assertEqual(self.circle_with_a_run([third]), ["  not known: pool, table, by 2 threads: " + GONE])

    def test_a_run_of_a_handler_and_another_thread_that_only_tries(self):
        third = ("acq,pool,0,w", "server.c:50 other"), ("acq,table,0,tw", "server.c:51 other"), ("rel,table,0", ""), ("rel,pool,0", "")
        self.assertEqual(self.circle_with_a_run([third]), ["  not known: pool, table, by one thread: " + GONE])

    def test_without_the_numbers_of_threads_each_trace_is_one(self):
        self.circle_with_a_run()
        os.remove(os.path.join(self.folder, "signals/threads"))
        self.assertIn("\n  not known: pool, table, by 2 threads: %s\n" % GONE, self.confirmed()[1])

    def two_at_once(self, takes="acq,pool,0,w", holder=TABLE):
        """One thread takes pool, where the handler that takes table comes in, and another one table, where the handler that takes pool does."""
        off = (("off,hardirq", ""),)
        self.handlers(USR1, ALARM)
        self.set_of(1, POOL, off + TABLE, IN_USR1)
        self.set_of(2, off + POOL, holder, (("enter,hardirq", ""), (takes, "server.c:61 on_alarm"), ("rel,pool,0", ""), ("leave", "")))

    def test_two_signals_at_once(self):
        self.two_at_once()
        lines = self.confirmed()[1].split("\n")
        self.assertEqual([line for line in lines if line.startswith("inversion")],
                         ["inversion SIGUSR1:on_usr1 table/0 pool/0", "inversion SIGALRM:on_alarm pool/0 table/0"])
        self.assertIn("  table/0 EN pool/0: on_alarm at server.c:61 takes pool, with table held since insert at server.c:41", lines)
        self.assertIn("  thread 1 holds pool, thread 2 holds table, where SIGALRM comes in, whose handler waits for pool", lines)
        self.assertIn("  to mend it: block SIGUSR1 around pool, block SIGALRM around table, or let the handler only set a flag or write to a pipe", lines)
        self.assertFalse([name for name in os.listdir(self.folder) if name.startswith(".")])

    def test_places_of_an_order_by_another_signal_are_those_of_its_two_traces(self):
        self.two_at_once()
        order = json.loads(self.form("json"))["findings"][0]["orders"][0]
        self.assertEqual([order[name] for name in ("from", "to", "signal", "handler")], ["table/0", "pool/0", "SIGALRM", "on_alarm"])
        self.assertNotEqual(order["file"], order["since_file"])
        self.assertEqual(order["places"], [{"function": "on_alarm", "file": "server.c", "line": 61}])
        self.assertEqual(order["since_places"], [{"function": "insert", "file": "server.c", "line": 41}])

    def test_two_signals_at_once_of_which_one_is_unblocked_with_a_lock_held(self):
        self.two_at_once(holder=UNBLOCKS)
        lines = self.confirmed()[1].split("\n")
        self.assertEqual([line for line in lines if line.startswith("inversion")],
                         ["inversion SIGUSR1:on_usr1 table/0 pool/0", "inversion SIGALRM:on_alarm pool/0 table/0"])
        self.assertIn("  table/0 EN pool/0: on_alarm at server.c:61 takes pool, with table held since flush at server.c:43", lines)

    def test_two_signals_of_one_thread(self):
        self.two_at_once()
        self.handlers(dict(USR1, alone=True), ALARM)
        self.assertEqual([finding.handler.state for finding in self.findings()], ["SIGALRM:on_alarm"])
        self.handlers(dict(USR1, alone=True), dict(ALARM, alone=True))
        self.assertEqual(self.findings(), [])

    def test_what_one_thread_is_enough_for(self):
        alone = dict(USR1, alone=True)
        self.handlers(alone)
        self.set_of(1, TABLE, IN_USR1)
        self.assertEqual([finding.type for finding in self.findings()], ["double"])
        run = [("enter,hardirq", ""), ("acq,table,0,w", ""), ("acq,pool,0,w", ""), ("rel,pool,0", ""), ("rel,table,0", ""), ("leave", "")]
        self.set_of(1, POOL, run)
        self.assertEqual([finding.type for finding in self.findings()], ["double", "inversion"])

    def test_one_signal_of_two_alone(self):
        self.two_at_once()
        self.handlers(USR1)
        self.assertEqual(self.findings(), [])

    def test_a_second_handler_that_only_tries(self):
        self.two_at_once("acq,pool,0,tw")
        self.assertEqual(self.findings(), [])

    def test_a_lock_that_knows_its_owner(self):
        self.handlers(dict(USR1, narrow=["table"]))
        self.set_of(1, TABLE, IN_USR1)
        self.assertIn("  in a narrow moment: table knows its owner, so the handler waits only if SIGUSR1 comes in between taking it and noting the "
                      "owner, or between clearing the owner and releasing it", self.confirmed()[1].split("\n"))
        self.assertIs(json.loads(self.form("json"))["findings"][0]["narrow"], True)

    def test_a_lock_of_the_c_library(self):
        self.handlers(dict(USR1, handler=None, signal="SIGTERM", file=None, line=None))
        self.write("classes", "libc:malloc\t/usr/bin/dash\tde89\tnamed\n")
        self.set_of(1, [("acq,libc:malloc,0,tw", "server.c:41 insert"), ("rel,libc:malloc,0", "")],
                    [("enter,hardirq", ""), ("acq,libc:malloc,0,w", "strdup.c:42 strdup < server.c:12 stop"), ("rel,libc:malloc,0", ""), ("leave", "")])
        self.assertEqual(self.confirmed()[1], """findings 1

double SIGTERM:server+10 libc:malloc/0
  the handler for SIGTERM at server+10 calls malloc, free or the like: strdup at strdup.c:42 < stop at server.c:12
  called with SIGTERM unblocked: insert at server.c:41
  if SIGTERM comes in during such a call, the handler waits for ever, or the heap is damaged
  SIGTERM was sent to the process: any thread that has it unblocked may get it
  to mend it: let the handler only set a flag or write to a pipe
  not known: libc:malloc: the order of steps doesn't say when a signal may come in
""")

    def inside_pool(self, *records, tries="acq,pool,0,tw", **about):
        """A handler that takes table inside pool, for which it tries; other code has these records. The notes of the finding."""
        self.handlers(dict(USR1, **about))
        self.set_of(1, [(record, "server.c:41 insert") for record in records],
                    [(record, "server.c:12 on_usr1") for record in ("enter,hardirq", tries, "acq,table,0,w", "rel,table,0", "rel,pool,0", "leave")])
        return [note for finding in self.findings() if finding.keys == ["table/0"] for note in finding.notes]

    def test_a_gate_for_which_the_handler_tries(self):
        inside = "acq,pool,0,w", "acq,table,0,w", "rel,table,0", "rel,pool,0"
        note = ["always inside pool, for which the handler only tries: where other code holds pool, it goes on without it"]
        self.assertEqual(self.inside_pool(*inside), note)
        self.assertEqual(self.inside_pool(*inside, narrow=["pool"]), [])
        self.assertEqual(self.inside_pool(*inside, tries="acq,pool,0,w"), [])
        self.assertEqual(self.inside_pool(*inside, "acq,table,0,w", "rel,table,0"), [])
        self.assertEqual(self.inside_pool("acq,pool,0,rr", *inside[1:]), [])
        self.assertEqual(self.inside_pool("acq,pool,0,w", "acq,table,0,w", "rel,pool,0", "rel,table,0"), [])
        self.assertEqual(self.inside_pool(*inside, "off,hardirq", "acq,table,0,w", "rel,table,0"), note)
        self.assertEqual(self.inside_pool(*inside, "off,hardirq", "acq,table,0,w", "on,hardirq", "rel,table,0"), [])

    def test_a_wait_of_the_handler_that_gives_up(self):
        self.both()
        self.write("signals/1/weak", "task-0002.csv 3 timed\n")
        judged = {finding.type: (finding.verdict, finding.judged.reason) for finding in self.findings()}
        self.assertEqual(judged, {"double": (Verdict.NOT_SHOWN, Reason.TIMED), "inversion": (Verdict.NOT_KNOWN, None)})
        self.assertIn("\n  not shown: table: only by waits with a time limit\n", self.confirmed()[1])

    def test_a_wait_of_other_code_that_gives_up(self):
        self.both()
        self.write("signals/1/weak", "task-0001.csv 2 timed\n")
        self.assertEqual({finding.verdict for finding in self.findings()}, {Verdict.NOT_KNOWN})

    def test_a_signal_that_comes_when_its_thread_has_taken_its_last_lock(self):
        self.both()
        self.write("signals/1/weak", "task-0002.csv 3 late\n")
        judged = {finding.type: (finding.verdict, finding.judged.reason) for finding in self.findings()}
        self.assertEqual(judged, {"double": (Verdict.NOT_SHOWN, Reason.LATE), "inversion": (Verdict.NOT_KNOWN, None)})
        self.assertIn("\n  not shown: table: only by a signal that comes after its thread took its last lock\n", self.confirmed()[1])

    def test_readers_and_tries_are_named(self):
        self.handlers(USR1)
        self.set_of(1, [("acq,table,0,r", "server.c:41 insert"), ("rel,table,0", "")], IN_USR1)
        self.assertIn("  taken with SIGUSR1 unblocked: insert at server.c:41 takes it as a reader", self.confirmed()[1].split("\n"))

    def test_a_handler_that_reads_what_its_thread_writes(self):
        self.handlers(USR1)
        self.set_of(1, TABLE, [("enter,hardirq", ""), ("acq,table,0,rr", "server.c:12 on_usr1"), ("rel,table,0", ""), ("leave", "")])
        lines = self.confirmed()[1].split("\n")
        self.assertIn("  on_usr1, the handler for SIGUSR1, takes table as a recursive reader: on_usr1 at server.c:12", lines)
        self.assertIn(EDEADLK, lines)

    def test_a_handler_that_writes_what_its_thread_writes(self):
        self.handlers(dict(USR1, rwlocks=["table"]))
        self.set_of(1, TABLE, IN_USR1)
        self.assertIn(EDEADLK, self.confirmed()[1].split("\n"))

    def test_a_handler_that_writes_what_its_thread_reads(self):
        self.handlers(dict(USR1, rwlocks=["table"]))
        self.set_of(1, [("acq,table,0,rr", "server.c:41 insert"), ("rel,table,0", "")], IN_USR1)
        text = self.confirmed()[1]
        self.assertIn("  taken with SIGUSR1 unblocked: insert at server.c:41 takes it as a recursive reader\n", text)
        self.assertNotIn("EDEADLK", text)

    def test_a_reader_behind_a_waiting_writer(self):
        self.handlers(dict(USR1, rwlocks=["table"], queued=["table"]))
        self.set_of(1, [("acq,table,0,r", "server.c:41 insert"), ("rel,table,0", "")], IN_USR1)
        lines = self.confirmed()[1].split("\n")
        self.assertIn("  on_usr1, the handler for SIGUSR1, takes table as a reader: reload at server.c:12 < on_usr1 at server.c:31", lines)
        self.assertIn("  a reader of table waits behind a waiting writer, so the handler waits if another thread waits to write", lines)
        self.assertEqual(json.loads(self.form("json"))["findings"][0]["used"]["takes"], "r")

    def test_a_reader_behind_a_waiting_writer_that_hangs_is_named(self):
        self.handlers(dict(USR1, rwlocks=["table"], queued=["table"]))
        run = (("acq,table,0,r", "server.c:12 reload"),)
        self.threads(TABLE, run)
        self.set_of(1, TABLE, (("enter,hardirq", ""), ("acq,table,0,w", "server.c:12 reload"), ("rel,table,0", ""), ("leave", "")))
        self.assertEqual(Signals(self.folder).run_in(os.path.join(self.folder, "task-0002.csv")).name, "on_usr1")

    def test_without_places_a_record_is_named(self):
        self.handlers(dict(USR1, file=None, line=None))
        self.set_of(1, [(line, "") for line, _ in TABLE], [(line, "") for line, _ in IN_USR1])
        trace = os.path.join(self.folder, "signals/1/task-000%d.csv: record %d")
        lines = self.confirmed()[1].split("\n")
        self.assertIn("  on_usr1, the handler for SIGUSR1, takes table: " + trace % (2, 3), lines)
        self.assertIn("  taken with SIGUSR1 unblocked: " + trace % (1, 2), lines)

    def test_json(self):
        self.both()
        said = json.loads(self.form("json"))
        self.assertEqual(said["counts"], {"not-known": 2})
        double, inversion = said["findings"]
        told = ("type", "irq", "lines", "signal", "handler", "sent_to", "narrow", "level", "verdict")
        self.assertEqual([double[name] for name in told], [
            "double", "hardirq", ["double SIGUSR1:on_usr1 table/0"], "SIGUSR1", {"name": "on_usr1", "file": "/src/server.c", "line": 30}, "process",
            False, "error", "not known: table" + UNORDERED])
        self.assertEqual([inversion[name] for name in told], [
            "inversion", "hardirq", ["inversion SIGALRM:on_alarm stats/0 pool/0"], "SIGALRM",
            {"name": "on_alarm", "file": "/src/server.c", "line": 60}, "threads", False, "error", "not known: stats, pool" + UNORDERED])
        self.assertEqual(double["used"]["file"], os.path.join(self.folder, "signals/1/task-0002.csv"))
        self.assertEqual(double["between"]["finding"]["lines"], ["double SIGUSR1:on_usr1 table/0"])
        self.assertEqual(said["signals"], {"never_ran": [], "ran": [
            {"signal": "SIGUSR1", "handler": {"name": "on_usr1", "file": "/src/server.c", "line": 30}, "runs": 12, "takes": 3, "sent_to": "process"},
            {"signal": "SIGALRM", "handler": {"name": "on_alarm", "file": "/src/server.c", "line": 60}, "runs": 12, "takes": 1, "sent_to": "threads"}]})

    def test_sarif(self):
        self.both()
        run = json.loads(self.form("sarif"))["runs"][0]
        rules = [rule["id"] for rule in run["tool"]["driver"]["rules"]]
        self.assertEqual(rules[-2:], ["signal-double", "signal-inversion"])
        self.assertEqual([(result["ruleId"], rules[result["ruleIndex"]], result["level"]) for result in run["results"]],
                         [("signal-double", "signal-double", "error"), ("signal-inversion", "signal-inversion", "error")])
        lines = [result["locations"][0]["physicalLocation"]["region"]["startLine"] for result in run["results"]]
        self.assertEqual(lines, [12, 61])  # where the handler takes the lock
        self.assertEqual([flow["id"] for flow in run["results"][1]["codeFlows"][0]["threadFlows"]], ["thread 1", "thread 2", "the handler"])
        self.assertIn("table is taken by the handler of SIGUSR1 while other code holds it. insert holds table, server.c:41 (when SIGUSR1 comes in). "
                      "reload waits for table, server.c:12 (the handler of SIGUSR1). SIGUSR1 was sent to", run["results"][0]["message"]["text"])

    def test_junit(self):
        self.both()
        text = self.form("junit")
        self.assertIn('<testcase classname="lockdep.signal-double" name="double SIGUSR1:on_usr1 table/0" time="0">', text)
        self.assertIn("\n  thread 1: takes table/0 with SIGUSR1 unblocked (", text)
        self.assertIn("\n  the handler: SIGUSR1 comes in\n  the handler: waits for table/0 (", text)

    def test_page(self):
        self.both()
        text = self.form("html")
        for title, trace in (("Thread 1, which SIGUSR1 interrupts", "1/task-0001.csv"), ("on_usr1, the handler for SIGUSR1", "1/task-0002.csv"),
                             ("Thread 2", "2/task-0002.csv"), ("on_alarm, the handler for SIGALRM", "2/task-0003.csv")):
            self.assertIn('<th scope="col">%s<br><small>signals/%s</small></th>' % (title, trace), text)
        self.assertIn("<code>double SIGNAL:HANDLER A/0</code>: the handler of that signal takes", text)
        self.assertIn('<p class="note">SIGALRM (on_alarm at server.c:60) was sent to single threads alone', text)
        self.assertIn("2. stats is taken by the handler of SIGALRM, and held where pool is taken, which other code holds when SIGALRM comes in</h2>", text)
        for row in ("main holds pool, server.c:52 (when SIGALRM comes in)", "worker holds stats, server.c:19, and waits for pool, server.c:20 (thread 2)",
                    "on_alarm waits for stats, server.c:61 (the handler of SIGALRM)"):
            self.assertIn("<li>%s</li>" % row, text)
        self.assertNotIn('id="picture"', text)

    def test_a_recording_without_handlers_has_none_of_this(self):
        for form in ("json", "sarif", "junit", "html"):
            self.assertNotIn("signal", self.form(form).rpartition("</style>")[2].replace(os.getcwd(), ""), form)


    def test_view_says_that_it_doesnt_look_at_them(self):
        self.both()
        traces = [os.path.join(self.folder, "task-000%d.csv" % number) for number in (1, 2)]
        program = "import sys; sys.path[:0] = %r; from lockdep import parts; sys.exit(parts.run('view', sys.argv[1:]))" % sys.path
        done = subprocess.run([sys.executable, "-c", program, "--json", "-", *traces], stdout=subprocess.PIPE, stderr=subprocess.PIPE)
        self.assertEqual((done.returncode, done.stderr.decode().split(", which")[0]), (0, "lockdep: %s/ also has traces of signal handlers" % self.folder))
        shutil.rmtree(os.path.join(self.folder, "signals"))
        done = subprocess.run([sys.executable, "-c", program, "--json", "-", *traces], stdout=subprocess.PIPE, stderr=subprocess.PIPE)
        self.assertEqual((done.returncode, done.stderr), (0, b""))


class Judged(OfHandlers):
    def test_cycles_then_doubles_then_inversions_of_one_verdict(self):
        self.both()
        self.threads([("acq,a,0,w", ""), ("acq,b,0,w", "")], [("acq,b,0,w", ""), ("acq,a,0,w", "")])
        self.set_of(2, TABLE, POOL, WORKER, IN_ALARM, IN_USR1)
        self.assertEqual([finding.head for finding in self.findings()], [
            "circle a/0 EN b/0 EN a/0", "double SIGUSR1:on_usr1 table/0", "double SIGALRM:on_alarm table/0", "inversion SIGALRM:on_alarm stats/0 pool/0"])
        self.assertEqual([finding.number for finding in ask_about(self.folder).findings()], [1, 2, 3, 4])

    def test_findings_of_a_handler_are_in_no_group_with_others(self):
        self.handlers(dict(ALARM, number=1, handler="other", offset="0x30"), ALARM)
        for number in (1, 2):
            self.set_of(number, POOL, WORKER, IN_ALARM, [("acq,stats,0,w", "server.c:80 flush"), ("rel,stats,0", "")])
        self.threads([("acq,stats,0,w", ""), ("acq,pool,0,w", "")], [("acq,pool,0,w", ""), ("acq,stats,0,w", "")])
        found = self.findings()
        self.assertEqual([finding.head for finding in found], [
            "circle pool/0 EN stats/0 EN pool/0", "double SIGALRM:other stats/0", "double SIGALRM:on_alarm stats/0",
            "inversion SIGALRM:other stats/0 pool/0", "inversion SIGALRM:on_alarm stats/0 pool/0"])
        self.assertEqual([len(group.findings) for group in groups_of(found)], [1] * 5)

    def test_what_was_seen_between_classes_alone_comes_last(self):
        self.both()
        self.set_of(1, [("acq,table#1,0,w", "server.c:41 insert")],
                    [("enter,hardirq", ""), ("acq,table#2,0,w", "server.c:12 on_usr1"), ("rel,table#2,0", ""), ("leave", "")])
        found = self.findings()
        self.assertEqual([(finding.head, finding.level, finding.verdict, finding.is_counted) for finding in found], [
            ("inversion SIGALRM:on_alarm stats/0 pool/0", Level.LOCKS, Verdict.NOT_KNOWN, True),
            ("double SIGUSR1:on_usr1 table/0", Level.CLASSES, Verdict.CLASSES, False)])
        for option in ("--confirmed-only", "--strict"):
            self.assertEqual(self.confirmed(option)[0], 1)
        self.assertIn("  taken with SIGUSR1 unblocked: insert at server.c:41 takes table#1", self.confirmed()[1].split("\n"))

    def status(self, **options):
        made = Report(Recording(self.folder, Summary(parse(SUMMARY))), ReportOptions(error_exitcode=9, **options), ask_about(self.folder))
        made.sort()
        return made.status

    def test_the_status_of_a_run(self):
        self.assertEqual(self.status(), 0)
        self.both()
        self.assertEqual((self.status(), self.status(confirmed_only=True)), (9, 9))
        self.handlers(USR1)
        self.set_of(1, [("acq,table#1,0,w", "")], [("enter,hardirq", ""), ("acq,table#2,0,w", ""), ("rel,table#2,0", ""), ("leave", "")])
        self.assertEqual((self.status(), self.status(confirmed_only=True)), (9, 0))
        self.assertEqual([self.confirmed(*words)[0] for words in ((), ("--confirmed-only",), ("--strict",))], [1, 0, 0])

    def test_cycles_of_a_set_are_those_of_the_threads(self):
        self.handlers(USR1)
        self.set_of(1, [("acq,a,0,w", ""), ("acq,b,0,w", "")], [("acq,b,0,w", ""), ("acq,a,0,w", "")])
        self.assertEqual(self.findings(), [])

    def test_handlers_that_never_ran_are_named(self):
        never = [{"signal": "SIGHUP", "handler": "reload", "module": "/srv/server", "offset": "0x30", "file": "/src/server.c", "line": 40},
                 {"signal": "SIGTERM", "handler": None, "module": "/srv/server", "offset": "0x40", "file": None, "line": None},
                 {"signal": "SIGUSR2", "handler": "reload", "module": "/srv/server", "offset": "0x30", "file": "/src/server.c", "line": 40}]
        self.handlers(never=never)
        said = io.StringIO()
        with mock.patch.object(seen, "say", lambda line: said.write(line + "\n")):
            seen.say_handlers(self.folder)
        self.assertEqual(said.getvalue(), "handlers that never ran: SIGHUP/SIGUSR2 (reload at server.c:40), SIGTERM (server+40); what these take isn't "
                         "known\n")
        self.assertEqual(json.loads(self.form("json"))["signals"], {"ran": [], "never_ran": [
            {"signal": "SIGHUP", "handler": {"name": "reload", "file": "/src/server.c", "line": 40}},
            {"signal": "SIGTERM", "handler": {"name": None, "file": None, "line": None}},
            {"signal": "SIGUSR2", "handler": {"name": "reload", "file": "/src/server.c", "line": 40}}]})
        notes = json.loads(self.form("sarif"))["runs"][0]["invocations"][0]["toolExecutionNotifications"]
        self.assertEqual([note["level"] for note in notes], ["note"])
        self.assertIn("Handlers that never ran: SIGHUP/SIGUSR2 (reload at server.c:40)", self.form("html"))

    def test_a_program_whose_handler_alone_took_something_is_judged(self):
        self.handlers(USR1)
        self.write("classes", "")
        summary = Summary(parse("processes 1\nthreads 2\noperations 0\nclasses 1\n"))
        with mock.patch.object(seen, "say"):
            self.assertEqual(seen.say_what_was_seen(self.folder, summary), seen.ALL)
            self.handlers(never=[USR1])
            self.assertEqual(seen.say_what_was_seen(self.folder, summary), seen.NOTHING)

    def test_a_set_that_is_refused_is_never_called_clean(self):
        self.both()
        self.trace("signals/1", 3, [("rel,table,0", "")])
        status, text, said = self.confirmed()
        self.assertEqual((status, text), (2, "findings 1\n\n" + INVERSION))
        self.assertIn("signals/1/task-0003.csv", said)
        self.assertIn("not checked: on_usr1, the handler for SIGUSR1, the traces of which were refused", said)
        shutil.rmtree(os.path.join(self.folder, "signals/1"))
        self.assertIn("signals/1 has no traces\n", self.confirmed()[2])

    def test_a_run_with_a_set_that_is_refused_isnt_judged(self):
        self.handlers(USR1, ALARM)
        self.set_of(1, [("rel,table,0", "")])
        self.set_of(2, IN_ALARM)
        self.assertRaises(Refusal, sides_of_folder, self.folder)
        with mock.patch.object(reporting, "complain"), self.assertRaises(Refusal) as raised:
            reporting.report(Recording(self.folder, Summary(parse(SUMMARY))), ReportOptions())
        self.assertEqual((raised.exception.status, raised.exception.line),
                         (2, "nothing was found, but what was left out wasn't checked, so this run isn't judged"))
        self.set_of(2, POOL, WORKER, IN_ALARM)
        with mock.patch.object(reporting, "complain"):
            made = reporting.report(Recording(self.folder, Summary(parse(SUMMARY))), ReportOptions())
        self.assertEqual((made.status, [finding.head for finding in made.new], made.recording.lost),
                         (2, ["inversion SIGALRM:on_alarm stats/0 pool/0"], "on_usr1, the handler for SIGUSR1, the traces of which were refused"))

    def test_files_that_arent_right_are_refused_by_name(self):
        for text in ("", "{", "{}", "3", "[3]", "[{}]", json.dumps([dict(USR1, signal="USR1")]), json.dumps([dict(USR1, offset="16")]),
                     json.dumps([dict(USR1, handler=3)]), json.dumps([dict(USR1, line="x")]), json.dumps([dict(USR1, sent_to="all")]),
                     json.dumps([dict(USR1, narrow=3)]), json.dumps([dict(USR1, runs=-1)]), json.dumps([USR1, USR1]), json.dumps([dict(USR1, number=0)])):
            self.write("signals/sources.json", text)
            with self.subTest(text), self.assertRaises(Refusal) as raised:
                Signals(self.folder)
            self.assertIn("signals/sources.json can't be read: ", raised.exception.line)

    def test_a_recording_may_lack_one_of_the_files(self):
        self.write("signals/never.json", "[]")
        self.assertEqual(handlers_in(self.folder, "sources.json"), [])
        self.assertEqual(self.findings(), [])

    def hang(self):
        """The handler of SIGUSR1 waits for table, which the thread that it interrupted holds. In a set its run ends."""
        self.threads(TABLE[:1], IN_USR1[1:2])
        self.write("SUMMARY", SUMMARY + "waiting 1\n  who waited for a lock at the end\n  task-0002 waits for table\nat-exit 0\n")
        self.handlers(ALARM, USR1)
        self.set_of(1, TABLE[:1], IN_USR1)
        self.set_of(2, TABLE[:1], IN_USR1[1:2])

    def blocked(self):
        return [thread.sentence for thread in blocked_threads(ask_about(self.folder), read(self.folder))]

    def test_a_handler_that_hangs_is_named(self):
        self.hang()
        self.assertEqual(self.blocked(), ["task-0002 (on_usr1, the handler for SIGUSR1) waits for table, which task-0001 holds since record 2"])

    def test_a_thread_with_other_callers_is_no_handler(self):
        self.hang()
        self.threads(TABLE[:1], [("acq,table,0,w", "server.c:70 flush")])
        self.assertEqual(self.blocked(), ["task-0002 waits for table, which task-0001 holds since record 2"])

    def test_a_line_about_a_handler_is_nothing_that_was_left_out(self):
        summary = Summary(parse(SUMMARY + "signal SIGUSR1 on_usr1 runs 12 sent-to process takes 3\nsignal-threads SIGUSR1: sent to threads of worker alone\n"))
        self.assertEqual(summary.left_out(), [])

    def test_two_recordings_beside_each_other(self):
        self.both()
        sides = sides_of_folder(self.folder)
        self.assertEqual([(side.head, side.seen) for side in sides], [("double SIGUSR1:on_usr1 table/0", "not known: table" + UNORDERED),
                                                                     ("inversion SIGALRM:on_alarm stats/0 pool/0", "not known: stats, pool" + UNORDERED)])


class Known(OfHandlers):
    def sorted(self, text):
        findings = self.findings()
        return sort(findings, [], entries_of(text, "list"), sources_of(findings, [self.folder]))

    def known(self, text):
        return [finding.head for finding in self.sorted(text).known]

    def test_a_line_hides_its_own_signal_alone(self):
        self.both()
        double, inversion = "double SIGUSR1:on_usr1 table/0", "inversion SIGALRM:on_alarm stats/0 pool/0"
        for text, known in ((double, [double]), (inversion, [inversion]), ("double hardirq table/0", []), ("double SIGUSR2:on_usr1 table/0", []),
                            ("double SIGUSR1: table/0", []), (double + " # by design\n" + inversion, [double, inversion])):
            self.assertEqual(self.known(text + "\n"), known, text)

    def test_patterns(self):
        self.both()
        for text, count in (("double class:table", 1), ("double signal:SIGUSR1", 1), ("double signal:SIGALRM", 0), ("inversion signal:SIG* class:*", 1),
                            ("double function:on_usr1", 1), ("double function:insert file:server.c", 1), ("cycle signal:SIGUSR1", 0)):
            self.assertEqual(len(self.known(text + "\n")), count, text)

    def test_the_list_that_is_written(self):
        self.both()
        findings = self.findings()
        text = list_of(findings, "# mine\n", sources_of(findings, [self.folder]))
        self.assertEqual(text, """# mine
double SIGUSR1:on_usr1 table/0
#   not known
#   table: static server.c:3
inversion SIGALRM:on_alarm stats/0 pool/0
#   not known
#   stats: static server.c:4
#   pool: static server.c:5
""")
        self.assertEqual(self.sorted(text).new, [])
        self.assertEqual(list_of(findings, text, sources_of(findings, [self.folder])), text)

    def test_a_handler_without_a_symbol_is_named_by_its_place(self):
        self.handlers(dict(USR1, handler=None, module="/srv/my server", offset="0x40c0"))
        self.set_of(1, TABLE, IN_USR1)
        self.assertEqual([finding.head for finding in self.findings()], ["double SIGUSR1:my_server+40c0 table/0"])
        self.assertEqual(self.known("double SIGUSR1:my_server+40c0 table/0\n"), ["double SIGUSR1:my_server+40c0 table/0"])
        self.handlers(dict(USR1, handler=None, module=None, offset="0x0"))
        self.assertEqual([finding.head for finding in self.findings()], ["double SIGUSR1: table/0"])

    def test_two_handlers_with_one_line_have_it_twice(self):
        one, two = (dict(USR1, number=number, offset="0x%d0" % number) for number in (1, 2))  # (static functions of two files)
        self.handlers(one, two)
        self.set_of(1, TABLE, IN_USR1)
        self.set_of(2, TABLE, IN_USR1)
        line = "double SIGUSR1:on_usr1 table/0\n"
        once = self.sorted(line)
        self.assertEqual((len(once.new), len(once.known)), (2, 0))
        self.assertEqual(once.stale, ["line 1, `double SIGUSR1:on_usr1 table/0`: 2 handlers have this line, and the list has it once, so that entry hides "
                                      "nothing; --write-known writes it again"])
        twice = self.sorted(line + line)
        self.assertEqual((len(twice.new), len(twice.known), twice.stale), (0, 2, []))
        findings = self.findings()
        for old in ("", line, line + line):
            text = list_of(findings, old, sources_of(findings, [self.folder]))
            self.assertEqual([each for each in text.split("\n") if each.startswith("double")], [line[:-1]] * 2)
        self.handlers(one)
        self.assertEqual(self.known(line), [line[:-1]])


class Places(unittest.TestCase):
    def test_a_name_stands_in_a_line_without_spaces(self):
        for name, state in (("on_usr1", "SIGUSR1:on_usr1"), ("", "SIGUSR1:"), ("(anonymous namespace)::stop(int)", "SIGUSR1:(anonymous_namespace)::stop(int)"),
                            ("on\x1b[31m\u202ex", "SIGUSR1:on_[31m_x")):
            self.assertEqual(Handler("SIGUSR1", name).state, state)

    @unittest.skipUnless(shutil.which("cc") and shutil.which("nm") and shutil.which("addr2line"), "needs a compiler and binutils")
    def test_a_handler_is_looked_up_where_it_begins(self):
        with tempfile.TemporaryDirectory() as room:
            source, program = os.path.join(room, "h.c"), os.path.join(room, "h")
            with open(source, "w", encoding="utf-8") as file:
                file.write("int before(void) { return 1; }\n\nvoid stop(int s)\n{\n    (void)s;\n}\nint main(void) { return before(); }\n")
            subprocess.run(["cc", "-g", "-O0", "-o", program, source], check=True)
            symbols = subprocess.run(["nm", program], check=True, stdout=subprocess.PIPE).stdout.decode().split("\n")
            offset = next(int(line.split()[0], 16) for line in symbols if line.endswith(" T stop"))
            looked_up = Symbols()
            handlers = Handler("SIGTERM", "stop", program, offset), Handler("SIGTERM", "", program, offset)
            for handler in handlers:
                handler.want(looked_up)
            looked_up.ask()
            self.assertEqual([handler.frame(looked_up).words for handler in handlers], ["stop at h.c:4"] * 2)


if __name__ == "__main__":
    unittest.main()
