"""Classes of locks, which are where they are made, single locks of a class, and the ways in which tasks hold them."""
import os
from itertools import count as counting

from .places import chain_of, ends_of, is_library_own, line_of, lines_of

MOST_APART = 32
MOST_EARLY = 8  # so many locks of a class have names of their own before they are nested: their thread may be joined, or may join one


class Made:
    """The place where locks were made: a class."""

    __slots__ = ("number", "name", "chain", "kind", "early", "rest", "ordinals", "is_reentrant")

    def __init__(self, number, name, chain, kind):
        self.number, self.name, self.chain, self.kind, self.early, self.is_reentrant = number, name, chain, kind, 0, False
        self.rest, self.ordinals = Key(self, 0), counting(1)


class Key:
    """A lock that is told apart from the others of its class, or all those that aren't."""

    __slots__ = ("number", "made", "ordinal")

    def __init__(self, made, ordinal):
        self.number, self.made, self.ordinal = next(key_numbers), made, ordinal
        keys[self.number] = self


keys = {}
key_numbers = counting(1)
classes = {}
class_numbers = counting(1)


def call_number(code, instruction):
    """Which of the calls on its line an instruction is, from 1."""
    from opcode import opname
    names = [opname[operation] for operation in code.co_code[:instruction + 1:2]]
    line, number = line_of(code, instruction), 0
    for start, end, of_range in lines_of(code):
        if of_range == line:
            # (the instruction may be within a call: behind the code of one that runs a function of Python)
            number += sum(begins_call(names, at) for at in range(start // 2, min(end, instruction + 2) // 2))
    return max(number, 1)


def begins_call(names, at):
    """Whether an instruction calls something, by the names of all. Python 3.11 has two for a call."""
    if not is_call(names[at]):
        return False
    before = at - 1
    while before >= 0 and names[before] == "CACHE":
        before -= 1
    return not (names[at] == "CALL" and before >= 0 and is_call(names[before]))


def is_call(name):
    return name.startswith(("CALL", "PRECALL")) and "INTRINSIC" not in name


def name_of_module(names, code):
    """The name of the module that has a code and these names."""
    module = names.get("__name__") or "?"
    if module in ("__main__", "__mp_main__"):  # as the main module is called in a process that `multiprocessing` spawned
        module = os.path.splitext(os.path.basename(code.co_filename))[0]
    return module


def name_at(frame):
    """A place as part of a name: `module.function:line`, and which call on the line if it isn't the first."""
    code, instruction = frame.f_code, frame.f_lasti
    module = name_of_module(frame.f_globals, code)
    function = function_of(frame)
    function = "" if function == "<module>" else "." + function
    number = call_number(code, instruction)
    return "%s%s:%d%s" % (module, function, line_of(code, instruction), ".%d" % number if number > 1 else "")


def function_of(frame):
    """The function that a frame is in. A comprehension is a part of the function that has it, as it is since Python 3.12."""
    while frame.f_back is not None and frame.f_code.co_name in ("<listcomp>", "<setcomp>", "<dictcomp>"):
        frame = frame.f_back
    return frame.f_code.co_name


def made_at(frame, kind):
    """The class of what is made in this frame."""
    key = tuple([key_at(each) for each in ends_of(frame)])
    made = classes.get(key)
    if made is None:
        chain = chain_of(frame)
        name = name_of(frame, chain)
        made = class_in(key, lambda number: Made(number, name, chain, "library" if is_library_own(chain) else kind))
    return made


def class_in(key, make):
    """The class that the table has under a key, which is made with its number if there is none."""
    return classes.get(key) or classes.setdefault(key, make(next(class_numbers)))  # (without a lock: a signal's handler may come in)


def key_at(frame):
    """A frame as a part of such a key."""
    code = frame.f_code
    return code.co_filename, code.co_firstlineno, code.co_name, frame.f_lasti


def key_of(chain):
    """A chain as a key of a table. (Code objects with the same text are equal, whatever file they are from.)"""
    return tuple((code.co_filename, code.co_firstlineno, code.co_name, at) for code, at in chain)


def name_of(frame, chain):
    """The name of a class, its innermost place first."""
    names, wanted = [], list(chain)
    while wanted and frame is not None:
        if frame.f_code is wanted[0][0] and frame.f_lasti == wanted[0][1]:
            wanted.pop(0)
            names.append(name_at(frame))
        frame = frame.f_back
    return "~".join(names) or "unknown"


class Lock:
    """What is known about a lock: its class, the lock that it is recorded as, and who holds it; and its number in the order of steps, with the process and
    the key that were told of it last."""

    __slots__ = ("made", "key", "is_apart", "entry", "spare", "number", "told")

    def __init__(self, made):
        self.made, self.key, self.is_apart, self.entry, self.spare = made, made.rest.number, False, None, None
        self.number, self.told = 0, None
        if made.early < MOST_EARLY:
            made.early += 1
            tell_apart(self)

    def __reduce__(self):
        """In a copy of what has it, as of a lock of asyncio that is pickled, this is None."""
        return type(None), ()


def tell_apart(lock):
    """A lock that is nested with others gets its own name, if not too many of its class have one."""
    lock.is_apart = True
    ordinal = next(lock.made.ordinals)
    if ordinal <= MOST_APART:
        lock.key = Key(lock.made, ordinal).number


class Way:
    """The locks that a task holds, as a node of the tree of all that it held. `common` is that of the process. For the order of steps it has the lock that
    was taken last in this way, at which site, and how that and its release are written (`steps`)."""

    __slots__ = ("after", "common", "is_taken", "lock", "site", "taking", "release")

    def __init__(self, common):
        self.after, self.common, self.is_taken, self.lock = {}, common, False, None

    def to(self, code):
        """The way with one more lock."""
        way = self.after.get(code)
        if way is None:
            common = self.common
            if common is not None:
                common = common.after.get(code) or common.after.setdefault(code, Way(None))
            way = self.after[code] = Way(common)
        return way
