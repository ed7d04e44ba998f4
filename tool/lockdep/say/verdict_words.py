"""The verdict of a finding in words, and what that takes from the notes of its classes."""
from __future__ import annotations

from ..ask.verdict import WITH_DEPTH, Recorded, gate_of_all, type_of_key
from ..base.words import name_in, plain_key, stands_for_several
from ..program.findings import Finding, Gate
from ..program.schedules import Ring
from ..program.verdicts import BY_LEVELS, Judgement, Level, Reason, Verdict
from .kernel_words import words_of_kernel

UNDER_ITSELF = "; but a lock is taken under itself there"
LEVELS = {Level.CLASSES: "between classes", Level.TYPES: "between types", Level.NESTED: "between types"}
ONLY = {  # what follows, of a cycle, and of others
    Level.CLASSES: ("; no two locks were taken both ways", ", not between single locks"),
    Level.TYPES: (", not between classes",) * 2,
    Level.NESTED: (", as one type nested in itself: a note, and no finding",) * 2,
}
TOO_MANY = "more than 256 keys lead to one another"
SEVERAL = "%s is several locks"
STOOD = "its threads stood still so when the process ended"
POSSIBLE = "these recorded steps, in another order, stand still"
BY_JOIN = POSSIBLE + ", unless the thread is joined only when it has said that it is done"
NO_WAITS = "no order of the recorded steps has these threads wait for one another: "
REASONS = {
    Reason.ORDER: "these steps don't stand still while threads take each lock in the order in which they did; other orders aren't tried",
    Reason.LIKE_THREADS: "others like the threads that did this may do it at the same time; too few of them did",
    Reason.FEWER_THREADS: "fewer threads than it takes did this, and no others are known to be like them",
    Reason.ONE_LOCK: "one lock was held each time",
    Reason.NO_RING: NO_WAITS + "what else they hold, or that they read, keeps them from it",
    Reason.TIMED: "only by waits with a time limit",
    Reason.LATE: "only by a signal that comes after its thread took its last lock",
    Reason.TURNED_OFF: "possible by locks; %s",
}


def locks_of(finding: Finding, inner: Finding) -> list[str]:
    """The single locks, beginning with those of the order that the finding begins with."""
    if inner.type != "circle":
        return list(dict.fromkeys(inner.keys))
    keys = [order.start for order in inner.orders]
    first = finding.orders[0].dependency if finding.orders else None
    for place, order in enumerate(inner.orders):
        if (type_of_key(order.start), order.kind, type_of_key(order.end)) == first:
            return keys[place:] + keys[:place]
    return keys


def locks_words(finding: Finding, inner: Finding, recorded: Recorded) -> str:
    """Which locks, and by whom."""
    keys = locks_of(finding, inner)
    words = ", ".join(plain_key(key) for key in keys)
    if inner.type != "circle":
        return words
    if len(keys) == 1 and not stands_for_several(name_in(keys[0])):
        return "%s under itself%s" % (words, recorded.who_words(finding, inner))
    gate = gate_of_all(inner)
    return words + (", under " + plain_key(gate.key) if gate else recorded.who_words(finding, inner))


def verdict_of(finding: Finding, recorded: Recorded) -> str:
    """The verdict of a finding, in a line: that it happened comes first. Empty if nothing was asked."""
    words = [finding.happened.words] if finding.happened else []
    judged = judged_words(finding, recorded)
    return "; ".join(words + ([judged] if judged else []))


def judged_words(finding: Finding, recorded: Recorded) -> str:
    """What a finding was judged to be, with its locks; empty if nothing was asked, or if the traces are of a kernel, whose names tell no single locks apart."""
    between = finding.between
    if not between or recorded.is_kernels():
        return ""
    judgement = judgement_of(finding)
    words = words_of_level(finding) if between.level in ONLY else judgement.verdict.words + ": " + ": ".join(details_of(finding, between.finding, judgement, recorded))
    depth = recorded.depths.get(finding.number)
    return words + (", and not if places are %d callers deep" % depth if depth and between.level in WITH_DEPTH else "")


def verdict_and_why(finding: Finding, recorded: Recorded) -> tuple[str, str]:
    """The verdict in a word or two, and why it is that; both empty if nothing was asked."""
    if not finding.between:
        return "", ""
    if finding.level in ONLY:
        return words_of_level(finding), ""
    judgement = judgement_of(finding)
    return judgement.verdict.words, why_words(finding, finding.between.finding, judgement, recorded)


def judgement_of(finding: Finding) -> Judgement:
    return finding.judged or BY_LEVELS[finding.between.level]


def words_of_level(finding: Finding) -> str:
    """The verdict of what was seen only between classes, or types."""
    return LEVELS[finding.level] + ONLY[finding.level][finding.type != "circle"]


def details_of(finding: Finding, inner: Finding | None, judgement: Judgement, recorded: Recorded) -> list[str]:
    """The single locks, and why the verdict is what it is."""
    locks, ring = locks_words(finding, inner, recorded) if inner else "", judgement.ring
    if ring:
        keys = locks_of(finding, inner) if inner and is_of(ring, inner) else [waiting.lock for waiting in ring.waits]
        locks = ", ".join(dict.fromkeys(map(plain_key, keys))) + ", by %d threads" % len({waiting.place.task for waiting in ring.waits})
    return [words for words in (locks, why_words(finding, inner, judgement, recorded)) if words]


def is_of(ring: Ring, inner: Finding) -> bool:
    """Whether a ring has the single locks of a finding."""
    return {waiting.lock for waiting in ring.waits} == {name_in(key) for key in inner.keys}


def why_words(finding: Finding, inner: Finding | None, judgement: Judgement, recorded: Recorded) -> str:
    """Why the verdict is what it is."""
    if judgement.verdict is Verdict.HAPPENED:
        return STOOD
    if judgement.verdict in (Verdict.POSSIBLE, Verdict.BY_JOIN):
        return POSSIBLE if judgement.verdict is Verdict.POSSIBLE else BY_JOIN
    if judgement.verdict is Verdict.APART:
        return "starts, joins and messages keep these steps apart in this recording"
    several = several_words(finding, inner) if finding.level is Level.PERHAPS and inner else ""
    if judgement.reason is Reason.TURNED_OFF:
        return REASONS[judgement.reason] % judgement.why
    if judgement.reason:
        return NO_WAITS + several if several and judgement.reason is Reason.NO_RING else REASONS[judgement.reason]
    if several:
        return several
    if finding.level is Level.UNKNOWN:
        return judgement.why or finding.between.reason or TOO_MANY
    return judgement.why or recorded.steps_words(finding, inner)


def several_words(finding: Finding, inner: Finding) -> str:
    """Which lock's name stands for several."""
    several = [plain_key(key) for key in locks_of(finding, inner) if stands_for_several(name_in(key))]
    return SEVERAL % (several[0] if several else "#rest")


def is_doubtful(gate: Gate, finding: Finding, recorded: Recorded) -> bool:
    """A gate of types may be several locks, of which none was held each time. If one of them alone was, that is the gate."""
    inner = finding.between.finding if finding.between else None
    of_locks = gate_of_all(inner) if inner else None
    if of_locks and type_of_key(of_locks.key) == gate.key:
        return False
    return recorded.has_several(gate.key)


def notes_of(finding: Finding, recorded: Recorded) -> list[str]:
    """The notes of a finding, which say it if what was seen between single locks takes from them."""
    notes = list(finding.notes)
    if not finding.between:
        return notes
    for place, gate in enumerate(finding.gates[:len(notes)]):
        if is_doubtful(gate, finding, recorded):
            notes[place] += "; but %s is several locks" % plain_key(gate.key)
    inner = finding.between.finding
    is_under_itself = finding.level is Level.LOCKS and inner and inner.type == "circle" and len(inner.orders) == 1
    if finding.only and is_under_itself and len(notes) > len(finding.gates):
        notes[-1] += UNDER_ITSELF
    return notes


def remarks_of(finding: Finding, recorded: Recorded) -> list[str]:
    """What else is said about a finding: the notes, which may speak against it, and what was seen of it."""
    return ["what may speak against it: " + note for note in notes_of(finding, recorded)] + said_of(finding, recorded)


def said_of(finding: Finding, recorded: Recorded) -> list[str]:
    """What is known of a finding: of its signal, in which recordings it is, and then the verdict."""
    of_signal: list[str] = []
    if finding.handler:
        from .signal_text import remarks_of_signal
        of_signal = remarks_of_signal(finding, finding.handler)
    of_kernel = [words_of_kernel(finding)] if recorded.is_kernels() else []
    said = recorded.seen_in(finding) + [verdict_of(finding, recorded)]
    return of_signal + of_kernel + [words for words in said if words]
