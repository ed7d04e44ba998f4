"""What the tasks of a finding do on the way into the deadlock: step by step, and in a sentence."""
from __future__ import annotations

from dataclasses import dataclass
from typing import Callable

from ..finish.joins import THREAD
from ..program.findings import STATES, Event, Finding

# How a lock is taken, for modes other than a writer's.
MODES = {"r": " as a reader", "rr": " as a recursive reader", "tw": " by a try", "tr": " as a reader, by a try",
         "trr": " as a recursive reader, by a try"}
ORDER_BY = ", where %s comes in, whose handler"  # between what a thread holds and what a signal's handler waits for there
VERBS = {"takes": "takes", "waits": "waits for"}
TYPES = ("circle", "double", "inversion")

Shown = Callable[[str], str]  # the form of a key


@dataclass(frozen=True)
class Step:
    """What a task does at one point: `verb` is takes, waits, opens (turns interrupts on) or enters (an interrupt comes in). `irq` is a state of
    interrupts, or a signal."""

    task: int
    verb: str
    key: str = ""
    mode: str | None = None
    irq: str = ""
    event: Event | None = None

    @property
    def is_signal(self) -> bool:
        return bool(self.irq) and self.irq not in STATES


def awaited(key: str, shown: Shown = str) -> str:
    """What a task waits for that waits for a key."""
    return ("the thread's end, %s" if key.startswith(THREAD) else "%s") % shown(key)


def words_of_step(step: Step, shown: Shown = str) -> str:
    """What a step does, in words."""
    if step.verb in VERBS:
        state = (" with %s unblocked" if step.is_signal else " with %ss on") % step.irq if step.irq else ""
        key = awaited(step.key, shown) if step.verb == "waits" else shown(step.key)
        return "%s %s%s%s" % (VERBS[step.verb], key, MODES.get(step.mode or "", ""), state)
    if step.verb == "opens":
        return ("unblocks %s" if step.is_signal else "turns %ss on") % step.irq
    return ("%s comes in" if step.is_signal else "a %s comes in") % step.irq


def steps_of(finding: Finding) -> list[Step]:
    """What the tasks do, in order of time. For an unknown type it is empty. A signal's handler is told as a task of its own, the last one."""
    if finding.type not in TYPES:
        return []
    first = 0 if finding.type == "circle" else 1
    steps = enabled_steps(finding) if first else []
    steps += [Step(place, "takes", order.start, order.held, "", order.since) for place, order in enumerate(finding.orders, first)]
    steps += [Step(place, "waits", order.end, order.takes, "", order.event) for place, order in enumerate(finding.orders, first)]
    if first:
        comes_in = first + len(finding.orders) if finding.handler else 0
        steps.append(Step(comes_in, "enters", irq=finding.state))
        steps.append(Step(comes_in, "waits", finding.keys[0], finding.used.takes, "", finding.used.event))
    return steps


def enabled_steps(finding: Finding) -> list[Step]:
    """How the first task comes to hold a lock with interrupts on: it takes it so, or turns them on afterwards."""
    use, key = finding.enabled, finding.keys[-1]
    if use.takes is not None or use.since is None:
        return [Step(0, "takes", key, use.takes, finding.state, use.event)]
    return [Step(0, "takes", key, use.held, "", use.since), Step(0, "opens", irq=finding.state if finding.handler else use.turns_on, event=use.event)]


def task_count(steps: list[Step]) -> int:
    return 1 + max([step.task for step in steps], default=0)


def events_of(steps: list[Step]) -> list[Event]:
    """The records of the steps, each once, in order of time."""
    return list(dict.fromkeys(step.event for step in steps if step.event))


def task_words(finding: Finding, shown: Shown = str) -> list[str]:
    """What each task of a cycle, or of an inversion, holds and waits for."""
    first = 1 if finding.type == "circle" else 2
    return ["%s holds %s%s waits for %s" % (task_name(finding, place), shown(order.start), ORDER_BY % order.signal if order.signal else " and",
                                            awaited(order.end, shown)) for place, order in enumerate(finding.orders, first)]


def task_name(finding: Finding, number: int) -> str:
    """What a task is called: with a signal the tasks are threads, and the last one is the handler."""
    if not finding.handler:
        return "task %d" % number
    return "the handler" if number == 2 + len(finding.orders) else "thread %d" % number
