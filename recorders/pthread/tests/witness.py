#!/usr/bin/env python3
"""An independent witness of the recorder: random programs that write down themselves, after each call, what it returned.

    witness.py PROGRAM RECORD FOLDER [COUNT [SEED]]

For each seed a script is made for the program of witness.c, which is run by RECORD. What its log says that each thread held when it took a
lock is compared with what the traces say: no such fact may be missing, and none invented. Nothing is taken from the recorder: names in
the traces begin with the function or variable that a slot of the program has, and which of the locks of a slot a number stands for is found
by trying. What a seed that failed left is in FOLDER. The last line is 'N passed, M failed'."""

import itertools
import os
import random
import re
import shutil
import subprocess
import sys

EACH, KINDS = 6, ("normal", "made", "read", "read_made", "spin", "heap", "mapped")
MARK = EACH * len(KINDS)
THREADS, MARKS = 8, 32
MOST_HANDLED = 3  # by the handlers of a fork
NORMAL_MUTEX, RECURSIVE, ERRORCHECK = 0, 1, 2
PREFERS_READERS, PREFERS_WRITERS = 0, 1
HOWS = {"made": (NORMAL_MUTEX, RECURSIVE, ERRORCHECK), "read_made": (PREFERS_READERS, PREFERS_WRITERS), "spin": (0,)}
TIMED_OUT = 110


def kind_of(slot):
    return "normal" if slot >= MARK else KINDS[slot // EACH]


def is_rwlock(slot):
    return kind_of(slot) in ("read", "read_made")


# ---- Programs. What comes of each step is known beforehand, so that a thread blocks only when it is meant to.


class Lock:
    def __init__(self, slot):
        self.slot, self.is_there, self.how = slot, kind_of(slot) in ("normal", "read"), 0
        self.writer, self.count, self.readers, self.waiter = None, 0, {}, None
        self.is_frozen = False  # of another thread of the parent, or one that a child can't release

    def holders(self):
        return ([self.writer] if self.writer is not None else []) + list(self.readers)

    def is_free(self):
        return not self.holders()

    def is_plain(self):
        """Another thread than its holder may release it."""
        return kind_of(self.slot) == "spin" or (not is_rwlock(self.slot) and self.how == NORMAL_MUTEX)

    def forget(self):
        self.writer, self.count, self.readers = None, 0, {}

    def copy(self):
        other = Lock(self.slot)
        other.__dict__.update(self.__dict__)
        other.readers = dict(self.readers)
        return other


class Program:
    """The steps so far, and what is held by whom after them."""

    def __init__(self, seed):
        self.random, self.steps, self.next_who = random.Random(seed), [], THREADS
        self.threads = list(range(self.random.randint(2, 4)))
        slots = self.random.sample(range(MARK), self.random.randint(6, 12))
        self.locks = {slot: Lock(slot) for slot in slots}
        self.held = {thread: [] for thread in self.threads}
        self.blocked = {}

    def step(self, who, what, slot=0, number=0):
        self.steps.append("%d %s %d %d" % (who, what, slot, number))

    def mark(self, who):
        self.step(who, "L", MARK + who)
        self.step(who, "U", MARK + who)

    # What each step does to the locks.

    def take(self, who, lock, what, is_read=False):
        self.step(who, what, lock.slot)
        self.has_taken(who, lock, is_read)

    def has_taken(self, who, lock, is_read):
        if is_read:
            lock.readers[who] = lock.readers.get(who, 0) + 1
        else:
            lock.writer = who
            lock.count += 1
        self.held[who].append(lock.slot)

    def give(self, by, who, lock):
        self.step(by, "U", lock.slot)
        if by != who:
            self.step(who, "G", lock.slot)
        self.held[who].reverse()
        self.held[who].remove(lock.slot)
        self.held[who].reverse()
        if lock.writer == who:
            lock.count -= 1
            if lock.count == 0:
                lock.writer = None
        else:
            lock.readers[who] -= 1
            if lock.readers[who] == 0:
                del lock.readers[who]
        self.wake(lock)

    def wake(self, lock):
        if not lock.waiter:
            return
        who, is_read = lock.waiter
        if lock.writer is not None or (lock.readers and not is_read):
            return
        lock.waiter = None
        del self.blocked[who]
        self.step(who, "W")
        self.has_taken(who, lock, is_read)

    def end_holds(self, who, lock):
        lock.forget()
        self.held[who] = [slot for slot in self.held[who] if slot != lock.slot]

    def waits_for(self, lock):
        """All threads that have to go on before this lock is free."""
        found, news = set(), lock.holders()
        while news:
            who = news.pop()
            if who not in found:
                found.add(who)
                news += self.locks[self.blocked[who]].holders() if who in self.blocked else []
        return found

    # Random steps; each returns whether it could be made.

    def acquire(self, who):
        lock = self.random.choice(list(self.locks.values()))
        if not lock.is_there or lock.is_frozen or lock.waiter or len(self.held[who]) > 7:
            return False
        is_read = is_rwlock(lock.slot) and self.random.random() < 0.6
        if is_read:
            return self.acquire_read(who, lock)
        ways = "LTD" if kind_of(lock.slot) != "spin" else "LT"
        what = self.random.choice(ways)
        if lock.is_free() or (lock.writer == who and lock.how == RECURSIVE and not is_rwlock(lock.slot) and lock.count < 4):
            self.take(who, lock, what)
        elif what == "T" or (what == "D" and who not in lock.readers):
            self.step(who, what, lock.slot)  # it fails
        elif what == "L" and lock.writer == who and (is_rwlock(lock.slot) or lock.how == ERRORCHECK):
            self.step(who, what, lock.slot)  # it is refused
        elif what == "L":
            return self.block(who, lock, what, False)
        return True

    def acquire_read(self, who, lock):
        what = self.random.choice("RY")
        if lock.writer is None:
            self.take(who, lock, what, True)
        elif what == "Y" or lock.writer == who:
            self.step(who, what, lock.slot)
        else:
            return self.block(who, lock, what, True)
        return True

    def block(self, who, lock, what, is_read):
        if who in self.waits_for(lock) or who >= THREADS or kind_of(lock.slot) == "spin":
            return False
        self.step(who, "B")
        self.step(who, what, lock.slot)
        lock.waiter = (who, is_read)
        self.blocked[who] = lock.slot
        return True

    def some_held(self, who):
        slots = [slot for slot in self.held[who] if not self.locks[slot].is_frozen]
        return self.locks[self.random.choice(slots)] if slots else None

    def release(self, who):
        lock = self.some_held(who)
        if lock:
            self.give(who, who, lock)
        return lock is not None

    def hand_over(self, who):
        """This thread releases a lock of another one."""
        others = [other for other in self.held if other != who and other not in self.blocked]
        lock = self.some_held(self.random.choice(others)) if others else None
        if not lock or lock.writer in (None, who):
            return False
        if lock.is_plain():
            self.give(who, lock.writer, lock)
        elif not is_rwlock(lock.slot):
            self.step(who, "U", lock.slot)  # it is refused
        return True

    def change(self, who):
        """Initialises, destroys or gives back, mostly what this thread holds."""
        lock = self.some_held(who) if self.random.random() < 0.5 else self.random.choice(list(self.locks.values()))
        if not lock or lock.waiter or lock.is_frozen or any(holder != who for holder in lock.holders()):
            return False
        kind = kind_of(lock.slot)
        if kind in ("made", "read_made", "spin"):
            self.make_anew(who, lock)
        elif kind in ("heap", "mapped"):
            self.step(who, "F" if lock.is_there else "I", lock.slot)
            lock.is_there = not lock.is_there
            self.end_holds(who, lock)
        else:
            return self.assign(who, lock)
        return True

    def make_anew(self, who, lock):
        kind = kind_of(lock.slot)
        if lock.is_there and self.random.random() < 0.4:
            self.step(who, "X", lock.slot)
            if kind == "made" and not lock.is_free():
                return  # it is refused
            self.end_holds(who, lock)
        lock.how = self.random.choice(HOWS[kind])
        self.step(who, "I", lock.slot, lock.how)
        lock.is_there = True
        self.end_holds(who, lock)

    def assign(self, who, lock):
        """The lock is taken at once, by which alone a recorder can know; of a lock that was read only a writer tells it."""
        if lock.is_free():
            return False
        was_read = bool(lock.readers)
        self.step(who, "A", lock.slot)
        self.end_holds(who, lock)
        if is_rwlock(lock.slot) and not was_read and self.random.random() < 0.5:
            self.take(who, lock, "R", True)
        else:
            self.take(who, lock, self.random.choice("LT"))
        return True

    def wait(self, who):
        lock = self.some_held(who)
        if not lock or is_rwlock(lock.slot) or kind_of(lock.slot) == "spin" or lock.count != 1 or lock.waiter:
            return False
        self.step(who, "C", lock.slot)
        self.held[who].remove(lock.slot)
        self.held[who].append(lock.slot)
        return True

    # Forks.

    def fork(self, who):
        if self.next_who + 2 > MARKS or who >= THREADS:
            return False
        how = self.random.choice("UIA")
        kinds = {"U": ("normal", "made", "heap"), "I": ("made",), "A": ("normal", "read")}[how]
        fit = [lock for lock in self.locks.values() if kind_of(lock.slot) in kinds and lock.is_there and lock.is_free() and not lock.waiter]
        if how == "U":
            fit = [lock for lock in fit if lock.is_plain()]
        handled = self.random.sample(fit, min(len(fit), self.random.randint(0, MOST_HANDLED)))
        child, other = self.next_who, self.next_who + 1
        self.next_who += 2
        self.step(who, "K", child, ord(how))
        for lock in handled:
            self.step(who, "H", lock.slot)
        self.run_child(who, child, other, handled if how == "I" else [])
        self.step(who, "E")
        return True

    def freeze(self, mine):
        for lock in self.locks.values():
            is_others = any(holder != mine for holder in lock.holders()) or lock.waiter
            is_kept = lock.writer is not None and (is_rwlock(lock.slot) or not lock.is_plain())
            lock.is_frozen = bool(lock.is_frozen or is_others or is_kept)
            lock.waiter = None

    def run_child(self, parent, child, other, made_anew):
        kept = (self.locks, self.held, self.blocked)
        self.locks = {slot: lock.copy() for slot, lock in self.locks.items()}
        for lock in made_anew:
            self.locks[lock.slot].how = NORMAL_MUTEX
        self.freeze(parent)
        for lock in self.locks.values():
            if lock.writer == parent:
                lock.writer = child
            lock.readers = {child if holder == parent else holder: count for holder, count in lock.readers.items()}
        self.held, self.blocked = {child: list(self.held[parent])}, {}
        self.mark(child)
        self.run(child, self.random.randint(3, 15))
        if self.random.random() < 0.5:
            self.freeze(other)
            self.held = {other: []}
            self.mark(other)
            self.run(other, self.random.randint(3, 10))
        self.locks, self.held, self.blocked = kept

    def run(self, who, count):
        for _ in range(count):
            self.random.choice((self.acquire, self.acquire, self.acquire, self.release, self.release, self.change, self.wait))(who)

    # All of it.

    def script(self):
        for lock in self.locks.values():
            if not lock.is_there:
                how = self.random.choice(HOWS.get(kind_of(lock.slot), (0,)))
                self.step(0, "I", lock.slot, how)
                lock.is_there, lock.how = True, how
        for who in self.threads:
            self.mark(who)
        ways = [self.acquire] * 12 + [self.release] * 7 + [self.change] * 3 + [self.hand_over] * 2 + [self.wait, self.fork]
        for _ in range(self.random.randint(60, 240)):
            free = [who for who in self.threads if who not in self.blocked]
            self.random.choice(ways)(self.random.choice(free))
        while any(self.held.values()):
            free = [who for who in self.threads if who not in self.blocked and self.held[who]]
            self.release(self.random.choice(free))
        for who in range(THREADS):
            self.step(who, "Q")
        return "\n".join(self.steps) + "\n"


# ---- What the program has written down.


class Thread:
    def __init__(self, process, held, kinds):
        self.process, self.held, self.kinds = process, held, kinds  # of a hold: slot, life, mode, how often more
        self.facts, self.before, self.inherited = set(), [list(held)], [tuple(h[:3]) for h in held]

    def mode(self, what, slot):
        mode = "w"
        if is_rwlock(slot) and what in "RY":
            mode = "r" if self.kinds.get(slot) and kind_of(slot) == "read_made" else "rr"
        return ("t" if what in "TY" else "") + mode

    def take(self, slot, life, mode):
        self.facts.add((tuple(tuple(h[:3]) for h in self.held), (slot, life, mode)))
        self.held.append([slot, life, mode, 0])

    def newest(self, slot):
        return next((h for h in reversed(self.held) if h[0] == slot), None)

    def is_same_hold(self, again, what, slot):
        """Whether what is taken is held already, once more: of a recursive mutex, or by a reader that passes waiting writers."""
        is_recursive = kind_of(slot) == "made" and self.kinds.get(slot) == RECURSIVE
        return is_recursive or (again[2].endswith("rr") and self.mode(what, slot).endswith("rr"))

    def take_or_again(self, what, slot, life):
        again = self.newest(slot)
        if again and self.is_same_hold(again, what, slot):
            again[3] += 1
        else:
            self.take(slot, life, self.mode(what, slot))

    def end_one(self, slot):
        h = self.newest(slot)
        if h and h[3]:
            h[3] -= 1
        elif h:
            self.held = [other for other in self.held if other is not h]

    def note(self, what, slot, life, answer):
        if what == "k":
            self.kinds[slot] = answer
        elif what in "LTDRY" and answer == 0:
            self.take_or_again(what, slot, life)
        elif what in "UG" and answer == 0:
            self.end_one(slot)
        elif what in "IXFA" and answer == 0:
            self.held = [h for h in self.held if h[0] != slot]
        elif what == "C" and answer in (0, TIMED_OUT):
            self.end_one(slot)
            self.take(slot, life, "w")
        self.before.append([list(h) for h in self.held])


def read_log(path):
    """The threads by their numbers. A line of a child's names its parent's thread, and how many lines that had written at the fork."""
    threads, kinds = {}, {}
    with open(path) as log:
        for line in log:
            who, what, slot, life, answer = line.split()
            who, slot, life, answer = int(who), int(slot), int(life), int(answer)
            if what == "B":
                parent = threads[slot]
                threads[who] = Thread(who, [list(h) for h in parent.before[life]], dict(parent.kinds))
                continue
            if who not in threads:
                beside = threads.get(who - 1) if who > THREADS else None
                threads[who] = Thread(beside.process if beside else 0, [], beside.kinds if beside else kinds)
            threads[who].note(what, slot, life, answer)
    return threads


# ---- What the traces say.

NAME = re.compile(r"^(?:init_|new_)?(mark|normal|made|read_made|read|spin|heap|mapped)_(\d+)")


THREAD = "thread:"  # before the name of a thread that is joined, which is none of the locks that the log has


def slot_of(name):
    found = NAME.match(name)
    if not found:
        return None
    kind, number = found.groups()
    return MARK + int(number) if kind == "mark" else KINDS.index(kind) * EACH + int(number)


def read_trace(path):
    """Facts as those of the log, with a name for the life, and the thread's number."""
    held, facts, who = [], set(), None
    with open(path) as trace:
        for line in list(trace)[1:]:
            words = line.strip().split(",")
            if words[1].startswith(THREAD):
                continue
            slot = slot_of(words[1])
            if words[0] == "rel":
                newest = next((at for at in range(len(held) - 1, -1, -1) if held[at][1] == words[1]), None)
                assert newest is not None, "%s releases %s, which isn't held" % (path, words[1])
                del held[newest]
                continue
            if slot is not None and slot >= MARK and who is None:
                who = slot - MARK
            facts.add((tuple(held), (slot, words[1], words[3])))
            held.append((slot, words[1], words[3]))
    return who, facts


# ---- Comparing.


def by_slots(fact):
    context, taken = fact
    return tuple((slot, mode) for slot, _, mode in context), (taken[0], taken[2])


def inherited_facts(thread):
    """What a child's trace may begin with, each as a set of facts: its locks at the fork, without some that handlers have made anew."""
    kept, handled = thread.inherited[:-MOST_HANDLED], thread.inherited[-MOST_HANDLED:]
    for count in range(len(handled), -1, -1):
        for rest in itertools.combinations(handled, count):
            chain = kept + list(rest)
            yield {(tuple(chain[:i]), chain[i]) for i in range(len(chain))}


def signature(facts_of, slot, life):
    """All facts that a lock is part of, by slots, with the lock itself marked."""
    parts = ((who, context + (taken,)) for who, facts in facts_of.items() for context, taken in facts)
    return frozenset((who, tuple((s, m, (s, n) == (slot, life)) for s, n, m in locks))
                     for who, locks in parts if (slot, life) in [lock[:2] for lock in locks])


def renamed(facts, names):
    return {(tuple((s, names[s, n], m) for s, n, m in context), (taken[0], names[taken[0], taken[1]], taken[2])) for context, taken in facts}


def locks_in(facts_of):
    return sorted({h[:2] for facts in facts_of.values() for context, taken in facts for h in context + (taken,)}, key=str)


def has_renaming(seen, told):
    """Whether some renaming of the single locks makes the facts of all threads of a process equal."""
    lives = {}
    for slot, life in locks_in(seen):
        lives.setdefault((slot, signature(seen, slot, life)), []).append(life)
    groups = {}
    for slot, name in locks_in(told):
        groups.setdefault((slot, signature(told, slot, name)), []).append(name)
    if {key: len(of) for key, of in lives.items()} != {key: len(of) for key, of in groups.items()}:
        return False
    keys = list(groups)
    choices = [[dict(zip(((key[0], name) for name in groups[key]), order)) for order in itertools.permutations(lives[key])] for key in keys]
    for choice in itertools.islice(itertools.product(*choices), 100000):
        names = {}
        for part in choice:
            names.update(part)
        if all(renamed(told[who], names) == seen[who] for who in seen):
            return True
    return False


def differences(seen, told):
    """Facts by slots that only one side has, and whether the single locks differ, of the threads of a process."""
    for who in seen:
        a, b = {by_slots(fact) for fact in seen[who]}, {by_slots(fact) for fact in told[who]}
        yield from ("thread %d: missing %s" % (who, fact) for fact in a - b)
        yield from ("thread %d: invented %s" % (who, fact) for fact in b - a)
    nested = [{who: {fact for fact in facts if fact[0]} for who, facts in side.items()} for side in (seen, told)]
    if not has_renaming(*nested):
        yield "process of thread %d: no renaming of single locks makes both equal" % min(seen)


def compare(threads, traces):
    """What is wrong, in words."""
    wrong = []
    for process in sorted({thread.process for thread in threads.values()}):
        members = [who for who, thread in threads.items() if thread.process == process]
        told = {who: traces.get(who, set()) for who in members}
        first = None
        for inherited in inherited_facts(threads[members[0]]):
            seen = {who: threads[who].facts | (inherited if who == members[0] else set()) for who in members}
            found = list(differences(seen, told))
            first = found if first is None else first
            if not found:
                break
        else:
            wrong += first
    return wrong


def try_seed(program, record, folder, seed):
    folder = os.path.join(folder, str(seed))
    os.makedirs(folder)
    paths = [os.path.join(folder, name) for name in ("script", "log", "traces")]
    with open(paths[0], "w") as script:
        script.write(Program(seed).script())
    done = subprocess.run([record, "--frames", "1", "-o", paths[2], "--", program, *paths[:2]], capture_output=True, text=True, timeout=120)
    if done.returncode != 0:
        return ["status %d: %s" % (done.returncode, done.stderr)], 0, 0
    threads = read_log(paths[1])
    objects = os.path.join(paths[2], "objects")
    traces = dict(read_trace(os.path.join(objects, name)) for name in sorted(os.listdir(objects)) if name.endswith(".csv"))
    facts = [fact for thread in threads.values() for fact in thread.facts]
    wrong = compare(threads, traces)
    if not wrong:
        shutil.rmtree(folder)
    return wrong, len(facts), sum(1 for fact in facts if fact[0])


def main():
    program, record, folder = sys.argv[1:4]
    count, first = (int(word) for word in (sys.argv[4:6] + ["20", "1"][len(sys.argv) - 4:]))
    passed = failed = facts = nested = 0
    for seed in range(first, first + count):
        wrong, all_facts, under_others = try_seed(program, record, folder, seed)
        facts, nested = facts + all_facts, nested + under_others
        passed, failed = passed + (not wrong), failed + bool(wrong)
        for what in wrong[:5]:
            print("witness: seed %d: %s" % (seed, what))
    print("witness: %d facts, %d of them of nested locks" % (facts, nested))
    print("%d passed, %d failed" % (passed, failed))
    return failed != 0


if __name__ == "__main__":
    sys.exit(main())
