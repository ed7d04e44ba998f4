"""What `lockdep condense` wrote: the orders and usage marks of traces."""
from __future__ import annotations

from typing import Tuple

LockOrder = Tuple[bytes, bytes, bytes]  # of two keys as a trace has them, with the kind between them

# What a condensed trace turns on, or what comes in, and which mark the locks behind it get.
MARKS = {b"on,hardirq": b"hardirqs on", b"on,softirq": b"softirqs on", b"enter,hardirq": b"hardirq", b"enter,softirq": b"softirq"}
HELD, TAKEN = {b"w": b" E", b"rr": b" S"}, {b"w": b"N ", b"rr": b"R "}


def facts_in(trace: bytes, records: list[int] | None = None) -> tuple[list[LockOrder], list[tuple[bytes, bytes]]]:
    """What a condensed trace says: its orders, each of the held key, the kind, and the taken key; and its marks, each with its key. A key is
    NAME,SUB. The list gets the record of each order."""
    orders: list[tuple[bytes, bytes, bytes]] = []
    marks: list[tuple[bytes, bytes]] = []
    held, letter, mark, depth = b"", b"", b"", 0
    for record, line in enumerate(trace.split(b"\n"), 1):
        word = line[:4]
        if word == b"rel,":
            depth -= 1
        elif word == b"acq,":
            key, _, mode = line[4:].rpartition(b",")
            if mark:
                marks.append((mark, key))
            elif depth:
                orders.append((held, letter + TAKEN[mode], key))
                if records is not None:
                    records.append(record)
            else:
                held, letter = key, HELD[mode]
            depth += 1
        elif line in MARKS:
            mark = MARKS[line]
    return orders, marks
