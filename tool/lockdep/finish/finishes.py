"""What makes the traces of programs that write their records themselves, and what the files of these programs show of locks that their recorder doesn't
see."""
from __future__ import annotations

from ..record.recorders import RECORDERS, has, mapped
from ..record.summary import File, Summary

PARKING_LOT = (b"parking_lot9raw_mutex", b"parking_lot10raw_rwlock", b"parking_lot13raw_fair_mutex")  # in names of its functions


def finish(recorder: str, path: str, raw: str) -> Summary | None:
    """Makes the traces in a folder, if this package does that. The result is what was counted."""
    if RECORDERS[recorder].writes_log:
        from . import log_traces
        return log_traces.finish(path, raw, recorder, True)[0]
    if recorder == "embed":
        from . import finish_embed
        return finish_embed.finish(path, raw)
    return None


def note_rust_locks(raw: str, program: str, summary: Summary, look: str, is_passed: bool) -> None:
    """Adds which programs have locks of parking_lot, or of the standard library itself."""
    from ..binaries.elf import has_debug_information
    from .log import lines_with
    from ..record.rust_locks import takers
    ran = [program for program in lines_with(raw, "F") if program]
    summary.add("passed-parking-lot" if is_passed else "parking-lot", [File(program) for program in ran if has(mapped(program), PARKING_LOT)])
    summary.add("passed-std-locks" if is_passed else "std-locks", [File(program, None, taker) for program in ran for taker in takers(program)])
    summary.add("unknown-std-locks", [File(program) for program in ran if not has_debug_information(program)])


def note_started(raw: str, program: str, summary: Summary, look: str, is_passed: bool) -> None:
    """Adds which of the programs that were started have locks."""
    from .log import started_in
    from .programs import note_started as note
    if not is_passed:
        note(summary, look, started_in(raw))


def note_pthreads(raw: str, program: str, summary: Summary, look: str, is_passed: bool) -> None:
    """Adds whether the program has locks of pthreads."""
    from .programs import note_pthreads as note
    note(summary, program, look, is_passed)


OTHERS = {"rust-locks": note_rust_locks, "started": note_started, "pthreads": note_pthreads}


def note_others(recorder: str, raw: str, program: str, summary: Summary, look: str, is_passed: bool) -> None:
    """Adds what the files of a program show of locks that its recorder doesn't see. They count as left out unless the recorder was named."""
    others = RECORDERS[recorder].others
    if others:
        OTHERS[others](raw, program, summary, look, is_passed)
