"""The words that the kernel's own lockdep has for a finding, and whether it would say them."""
from __future__ import annotations

import os

from ..base.words import name_in
from ..places.sources import own_keys_of
from ..program.findings import Finding, Use
from ..record.kernels import why_unsaid

SAYS, CALLS = "the kernel's lockdep would say: %s", "the kernel's lockdep calls this: %s; but %s"


def letter_of(use: Use) -> str:
    """How a lock is used, as the kernel abbreviates it: by a writer or a reader."""
    mode = use.takes or use.held or "w"
    return "R" if "r" in mode else "W"


def words_of_kernel(finding: Finding) -> str:
    """What the kernel's lockdep calls a finding, so that it can be searched for. It says so itself only of what it saw in one boot, by classes that it has,
    and if it wasn't on: else it would have said so, and turned itself off."""
    folders = dict.fromkeys(os.path.dirname(event.file) for event in finding.own_events())
    why = why_unsaid(list(folders), [name_in(key) for key in own_keys_of(finding)], finding.irq)
    return CALLS % (kind_words(finding), why) if why else SAYS % kind_words(finding)


def kind_words(finding: Finding) -> str:
    irq = finding.irq.upper()
    if finding.type == "double":
        return "inconsistent lock state: inconsistent {%s-ON-%s} -> {IN-%s-%s} usage" % (irq, letter_of(finding.enabled), irq, letter_of(finding.used))
    if finding.type == "inversion":
        return "%s-safe -> %s-unsafe lock order detected, or possible irq lock inversion dependency detected" % (irq, irq)
    return "possible recursive locking detected" if len(finding.orders) == 1 else "possible circular locking dependency detected"
