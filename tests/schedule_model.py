"""Histories as plain programs over their definitions: random ones, and every ring at which some schedule stands still, by exhaustive
search. It shares no code with lockdep."""
import random
from typing import Dict, FrozenSet, Iterator, List, NamedTuple, Optional, Set, Tuple

Held = FrozenSet[Tuple[str, str]]


class Step(NamedTuple):
    """A step: `take` with a mode and how long it waits ('' for ever, 'l' with a limit, 't' not at all), `again`, `release`, `give`,
    `get`. The object is a lock or a message."""
    task: str
    verb: str
    thing: str
    mode: str = ""
    wait: str = ""

    def record(self) -> str:
        fields = [self.task, self.verb, self.thing]
        return ",".join(fields + ([self.wait + self.mode] if self.verb == "take" else []))


class Member(NamedTuple):
    """A task that waits: for which lock, in which mode, and what it has."""
    task: str
    lock: str
    mode: str
    held: Held


Ring = Tuple[Member, ...]


def text_of(steps: List[Step], threads: List[str]) -> str:
    declared = ["thread,%s" % lock for lock in threads]
    return "\n".join(["history,1", *declared, *(step.record() for step in steps)]) + "\n"


def blocks(one: str, other: str) -> bool:
    return "w" in (one, other)


def turned(ring: Ring) -> Ring:
    """The same ring, from its least task on."""
    least = min(range(len(ring)), key=lambda place: ring[place].task)
    return ring[least:] + ring[:least]


# ---- Random histories: each task has a script of nested sections and messages, which are run in a random order as far as they go.

class Script:
    """What one task of a random history does, in its order."""

    def __init__(self, rng: random.Random, task: str, style: "Style") -> None:
        self.rng, self.task, self.style = rng, task, style
        self.steps: List[Step] = []
        self.held: Dict[str, str] = {}

    def take(self) -> None:
        lock = "L%d" % self.rng.randrange(self.style.locks)
        mode = self.rng.choice(("w", "w", "r", "rr")) if self.style.readers else "w"
        if lock not in self.held:
            self.held[lock] = mode
            self.steps.append(Step(self.task, "take", lock, mode, self.rng.choice(("", "", "", "", "", "t", "l"))))
        elif self.held[lock] == "r" and self.style.readers:
            self.steps.append(Step(self.task, "again", lock))

    def release(self) -> None:
        lock = list(self.held)[-1] if self.rng.random() < .8 else list(self.held)[0]
        del self.held[lock]
        self.steps.append(Step(self.task, "release", lock))

    def join(self, threads: int) -> None:
        other = "T%d" % self.rng.randrange(1, threads)
        if other != self.task and not any(step.thing == "thread-" + other for step in self.steps):
            self.steps += [Step(self.task, "take", "thread-" + other, "w"), Step(self.task, "release", "thread-" + other)]


class Style(NamedTuple):
    tasks: int
    locks: int
    length: int
    readers: bool
    joins: bool
    messages: bool


def random_style(rng: random.Random) -> Style:
    return Style(rng.choice((2, 2, 3, 3, 4, 5)), rng.randint(2, 5), rng.randint(8, 24), rng.random() < .5, rng.random() < .5,
                 rng.random() < .5)


def random_scripts(rng: random.Random, style: Style) -> List[List[Step]]:
    given: List[str] = []
    scripts = []
    for number in range(style.tasks):
        script = Script(rng, "T%d" % number, style)
        if style.joins and number:
            script.steps.append(Step(script.task, "take", "thread-" + script.task, "w", "t"))
        fill(rng, script, style, given)
        if style.joins and number:
            script.steps.append(Step(script.task, "release", "thread-" + script.task))
        scripts.append(script.steps)
    return scripts


def fill(rng: random.Random, script: Script, style: Style, given: List[str]) -> None:
    """Sections and messages, until there are enough of them and all locks are released."""
    enough = style.length // style.tasks + 2
    while len(script.steps) < enough or script.held:
        chance = rng.random()
        if chance < .55 and len(script.held) < 3 and len(script.steps) <= enough:
            script.take()
        elif chance < .9 and script.held:
            script.release()
        elif chance < .93 and style.messages:
            given.append(str(len(given) + 1))
            script.steps.append(Step(script.task, "give", given[-1]))
        elif chance < .96 and style.messages and given:
            script.steps.append(Step(script.task, "get", rng.choice(given)))
        elif chance > .97 and style.joins and style.tasks > 1:
            script.join(style.tasks)


class Run:
    """Tasks that go on by their scripts."""

    def __init__(self, scripts: List[List[Step]]) -> None:
        self.scripts, self.at = scripts, [0] * len(scripts)
        self.owners: Dict[str, Dict[int, str]] = {}
        self.given: Set[str] = set()
        self.steps: List[Step] = []

    def next_of(self, task: int) -> Optional[Step]:
        return self.scripts[task][self.at[task]] if self.at[task] < len(self.scripts[task]) else None

    def can(self, task: int) -> bool:
        step = self.next_of(task)
        if step is None or step.verb == "get" and step.thing not in self.given:
            return False
        owners = self.owners.get(step.thing, {})
        return step.verb != "take" or not any(other != task and blocks(mode, step.mode) for other, mode in owners.items())

    def go(self, task: int) -> None:
        step = self.scripts[task][self.at[task]]
        self.at[task] += 1
        self.steps.append(step)
        if step.verb == "take":
            self.owners.setdefault(step.thing, {})[task] = step.mode
        elif step.verb == "release":
            del self.owners[step.thing][task]
        elif step.verb == "give":
            self.given.add(step.thing)


def random_history(seed: int) -> Tuple[List[Step], List[str]]:
    """The steps of a history, and the locks that stand for threads."""
    rng = random.Random(seed)
    style = random_style(rng)
    run = Run(random_scripts(rng, style))
    if style.joins:  # each thread begins before it is joined
        for task in range(1, style.tasks):
            run.go(task)
    while True:
        ready = [task for task in range(style.tasks) if run.can(task)]
        if not ready:
            return run.steps, ["thread-T%d" % number for number in range(1, style.tasks)] if style.joins else []
        task = rng.choice(ready)
        for _ in range(rng.choice((1, 1, 2, 4, 9))):
            if not run.can(task):
                break
            run.go(task)


# ---- Every schedule, by exhaustive search.

Counts = Tuple[int, ...]  # for each task how many of its steps have come


class Model:
    """All states that schedules come to."""

    def __init__(self, steps: List[Step], keeps_order: bool, threads: List[str]) -> None:
        self.steps, self.keeps_order, self.threads = steps, keeps_order, set(threads)
        self.tasks = sorted({step.task for step in steps})
        self.of = [[p for p, step in enumerate(steps) if step.task == task] for task in self.tasks]
        self.has = [self.held_along(positions) for positions in self.of]
        self.allowed = [self.allowed_at(p) for p in range(len(steps))]
        self.member = [[self.member_at(place, count) for count in range(len(positions) + 1)] for place, positions in enumerate(self.of)]

    def held_along(self, positions: List[int]) -> List[Dict[str, str]]:
        """What a task has when none, one, two of its steps have come, and so on."""
        along: List[Dict[str, str]] = [{}]
        for position in positions:
            step = self.steps[position]
            has = dict(along[-1])
            if step.verb == "take":
                has[step.thing] = step.mode
            elif step.verb == "release":
                del has[step.thing]
            along.append(has)
        return along

    def allowed_at(self, position: int) -> List[Set[int]]:
        """For each task how many of its steps may have come when this step comes."""
        step = self.steps[position]
        return [set(range(len(positions) + 1)) if task == step.task else
                {count for count in range(len(positions) + 1) if self.lets(place, count, position)}
                for place, (task, positions) in enumerate(zip(self.tasks, self.of))]

    def lets(self, place: int, count: int, position: int) -> bool:
        """Whether a step may come when so many steps of another task have."""
        step = self.steps[position]
        done, later = self.of[place][:count], self.of[place][count:]
        if step.verb == "get":
            return not any(self.steps[p].verb == "give" and self.steps[p].thing == step.thing for p in later)
        if step.verb != "take":
            return True
        has = self.has[place][count]
        if step.thing in has and blocks(has[step.thing], step.mode):
            return False
        if not self.keeps_order and step.thing not in self.threads:
            return True
        return not any(p > position and self.steps[p].verb == "take" and self.steps[p].thing == step.thing
                       and blocks(self.steps[p].mode, step.mode) for p in done)

    def may_come(self, counts: Counts, position: int) -> bool:
        return all(count in allowed for count, allowed in zip(counts, self.allowed[position]))

    def states(self) -> Iterator[Counts]:
        first = tuple([0] * len(self.tasks))
        seen, waiting = {first}, [first]
        while waiting:
            counts = waiting.pop()
            yield counts
            for place, positions in enumerate(self.of):
                if counts[place] < len(positions) and self.may_come(counts, positions[counts[place]]):
                    after = counts[:place] + (counts[place] + 1,) + counts[place + 1:]
                    if after not in seen:
                        seen.add(after)
                        waiting.append(after)

    def member_at(self, place: int, count: int) -> Optional[Member]:
        """The task, if it would wait for ever at its next step, or reads again there."""
        if count == len(self.of[place]):
            return None
        step = self.steps[self.of[place][count]]
        if step.verb == "take" and not step.wait or step.verb == "again":
            return Member(step.task, step.thing, step.mode or "r", frozenset(self.has[place][count].items()))
        return None

    def rings(self) -> Set[Ring]:
        """All rings at which some schedule stands still."""
        found: Set[Ring] = set()
        for counts in self.states():
            members = [self.member[place][count] for place, count in enumerate(counts)]
            waiting = {member.task: member for member in members if member}
            if len(waiting) > 1:
                for member in waiting.values():
                    extend(waiting, [member], found)
        return found


def waits_for(one: Member, other: Member) -> bool:
    """Whether the one waits for what the other has, or as a plain reader behind it."""
    has = dict(other.held)
    reads_again = one.lock in dict(one.held)
    if one.lock in has and blocks(has[one.lock], one.mode) and not reads_again:
        return True
    return one.mode == "r" and other.lock == one.lock and other.mode == "w"


def extend(waiting: Dict[str, Member], way: List[Member], found: Set[Ring]) -> None:
    for member in waiting.values():
        if not waits_for(way[-1], member):
            continue
        if member.task == way[0].task:
            if len(way) > 1:
                found.add(tuple(way))
        elif member.task > way[0].task and all(member.task != other.task for other in way):
            extend(waiting, way + [member], found)
