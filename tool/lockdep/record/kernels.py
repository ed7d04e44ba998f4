"""A recording of a Linux kernel: how it is known, its traces, why it is incomplete, and what the kernel's own lockdep could say of it."""
from __future__ import annotations

import os

from ..base.files import text_in
from .folder import TASKS
from .summary import DAMAGE, json_in, read, recorder_of

RECORDER = "linux"
INCOMPLETE = "incomplete"  # begins a line of SUMMARY: why a clean report would say nothing
FALSE_ORDERS = {"lost-records", "other-losses", "nested", "mismatches", "damaged", "modules-lost", "untold-task"}  # reasons for which orders may be false
OTHERWISE = (("several", "to it %s is several classes"), ("forgotten", "it forgets %s when its module is unloaded"))
WAS = {"off": "", "on": "it was on, and said nothing"}  # of lockdep, and why it says nothing then


def is_of_kernel(folder: str) -> bool:
    return recorder_of(folder) == RECORDER


def traces_of(folder: str) -> list[str]:
    """The traces, which are called by their tasks' names and pids, and are listed. Tasks may share one."""
    names = [line.partition(" ")[0] for line in text_in(os.path.join(folder, TASKS)).split("\n")]
    return [os.path.join(folder, name) for name in dict.fromkeys(names) if name]


def why_incomplete(folder: str) -> list[str]:
    summary = read(folder)
    return summary.after(INCOMPLETE) if summary else []


def left_out(traces: list[str]) -> str:
    """Why the recordings of these traces are incomplete, if they are of kernels; each reason once."""
    folders = dict.fromkeys(os.path.dirname(trace) for trace in traces)
    return "; ".join(dict.fromkeys(why for folder in folders if is_of_kernel(folder) for why in why_incomplete(folder)))


def why_unsaid(folders: list[str], names: list[str], irq: str) -> str:
    """Why the kernel's own lockdep wouldn't say what was found in these recordings of classes of these names, and perhaps of an interrupt, or needn't; empty
    if it would."""
    if len(folders) != 1:
        return "it sees one boot at a time"
    try:
        said = json_in(text_in(os.path.join(folders[0], "summary.json")))
        own, reasons = said.get("lockdep", {}), said["unseen"]
        otherwise = [words % name for member, words in OTHERWISE for name in names if name in own.get(member, ())]
    except DAMAGE:
        own, reasons, otherwise = {}, [], []
    if "text" in reasons:
        what = "whether softirqs are off" if irq == "softirq" and "text-softirqs" in reasons else "its classes"
        return "the text doesn't tell %s" % (what + " and what is an interrupt" if "text-interrupts" in reasons else what)
    if otherwise or FALSE_ORDERS.intersection(reasons):
        return otherwise[0] if otherwise else "there may be false orders in the recording"
    return WAS.get(own.get("was"), "it isn't known whether it was on")
