"""What keeps a handler from waiting for the thread that it interrupts: it takes a lock only inside another one, its gate, for which it tries and does
without, and other code has that lock only inside the gate too, where the try fails."""
from __future__ import annotations

import csv
from typing import Iterable, Optional, Set

from ..base.files import text_in
from ..base.words import name_in, plain_key, stands_for_several
from ..program.findings import Finding
from .signal_links import as_reported

TYPE_CHECKING = False
if TYPE_CHECKING:
    from ..record.handlers import Handler

NOTE = "always inside {0}, for which the handler only tries: where other code holds {0}, it goes on without it"

Gates = Optional[Set[str]]  # keys; None: all, as long as nothing was seen


def note_gates(findings: list[Finding], handler: Handler, traces: list[str]) -> None:
    """Gives doubles of single locks a note of their gate."""
    for finding in findings:
        inner = finding.between.finding if finding.between else None
        if finding.type == "double" and inner:
            gates = gates_of(inner.keys[0], traces)
            named = sorted(gate for gate in gates if not handler.is_narrow(gate) and not stands_for_several(name_in(gate)))
            finding.notes += [NOTE.format(plain_key(gate)) for gate in named[:1]]


def gates_of(key: str, traces: list[str]) -> set[str]:
    """The keys that are held by a try wherever a run of the handler waits for a key, and by a writer wherever the handler may come in with it held."""
    gates: Gates = None
    for trace in traces:
        for held in held_around(key, trace):
            gates = held if gates is None else gates & held
    return gates or set()


def held_around(key: str, trace: str) -> Iterable[set[str]]:
    """What is held besides, and how it has to be, at each such moment."""
    held: list[tuple[str, str]] = []  # keys with their modes
    is_on, is_run = True, False
    for fields in csv.reader(text_in(trace).splitlines()):
        own = as_reported(",".join(fields[1:3]))
        if fields[0] == "acq":
            if is_run and own == key and not fields[3].startswith("t"):
                yield {other for other, mode in held if mode.startswith("t")}
            held.append((own, fields[3]))
        elif fields[0] == "rel":
            place = max((place for place, (other, _) in enumerate(held) if other == own), default=None)
            held = held if place is None else held[:place] + held[place + 1:]
        elif fields[0] in ("enter", "leave"):
            is_run = fields[0] == "enter"
        elif fields[1:] == ["hardirq"]:
            is_on = fields[0] == "on"
        if is_on and not is_run and key in [other for other, _ in held]:
            yield {other for other, mode in held if mode.endswith("w") and other != key}
