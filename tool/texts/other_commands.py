"""The commands that the driver doesn't take apart itself, as completions need them: those of the proved program, and those of the other scripts."""
from __future__ import annotations

from lockdep.cli.options import CONFIRM, FILE, GATHER, PROVOKE, RECORD, RUN, Command, Kind, Option

WORKERS = Option("--workers", Kind("a number from 1 to 64", "N", 64, "1 2 4 8 16 32 64"), "how many workers check the traces, from 1 to 64", "")
MANY = Option("--many", None, "take up to 8192 lock keys", "")


def command(name: str, brief: str, words: str, options: list[Option]) -> Command:
    return Command(name, brief, "", (), words, options)


ALL = (
    RUN,
    PROVOKE,
    command("check", "write the report of traces", "files", [WORKERS, MANY]),
    command("explain", "write what was found, with the records behind it", "files", [
        WORKERS, MANY, Option("--json", None, "write the findings as JSON", ""),
        Option("--locks", None, "say whether single locks make a finding", ""),
        Option("--confirmed-only", None, "status 1 only for what was seen between locks", "")]),
    command("graph", "write the lock order as a graph in the DOT language", "files", [
        WORKERS, MANY, Option("--findings", None, "show only what is part of a finding", "")]),
    command("condense", "write one trace that says what all of them say", "files", [WORKERS, MANY]),
    command("schedule", "say whether recorded steps can stand still in another order", "files", [
        Option("--json", None, "write the rings as JSON", "")]),
    command("chains", "list the acquisitions of a trace", "file", []),
    RECORD,
    CONFIRM,
    command("report", "write one finding as a page to paste where bugs are reported", "folder", []),
    GATHER,
    command("where", "put source lines under the records of a text", "folder", []),
    command("diff", "say which findings are new in a recording", "files", []),
    command("view", "write what was found as a page to look at, as SARIF, or as JUnit", "files", [
        Option("-o", FILE, "where the page goes", "", others=("--output",)), Option("--sarif", FILE, "write the findings as SARIF", ""),
        Option("--junit", FILE, "write the findings as JUnit", ""), Option("--json", FILE, "write the findings as JSON", ""),
        Option("--known", FILE, "findings that are known", "", others=("--suppressions",))]),
)
