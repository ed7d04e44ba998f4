"""Where something is in the source: the places of records, and of what is made."""
import os
import sys

from . import forks  # noqa: F401 (before `threading`)
import threading  # noqa: E402

getframe = sys._getframe
Frame = type(getframe())
PLAIN, LIBRARY, PASSED = 0, 1, 2
MOST_PASSED = 16  # frames of the library are gone through to find the program's
WITH = "BEFORE_WITH", "SETUP_WITH"  # the instructions that call `__enter__`
SUSPENDED = 0x2a0  # the flags of code that may wait in the middle: generators and coroutines
own_folder = os.path.dirname(os.path.abspath(__file__))
library_folder = os.path.dirname(os.path.abspath(os.__file__)) + os.sep
passed_files = [threading.__file__, library_folder + os.path.join("asyncio", "locks.py"),
                library_folder + os.path.join("asyncio", "mixins.py")]
kinds, known_plain, known_passed = {}, set(), set()
is_typed = False  # whether the program is a text among the words of its command


def kind_of(name):
    """Whether a file belongs to the program, to the library, or only does what its caller asks for."""
    if name.startswith((own_folder, "<frozen importlib")) or name in passed_files:
        kind = PASSED
    elif name.startswith("<") and name != "<stdin>" and not (name == "<string>" and is_typed):
        kind = LIBRARY
    elif name.startswith(library_folder) and "-packages" + os.sep not in name:
        kind = LIBRARY
    else:
        kind = PLAIN
    kinds[name] = kind
    if kind != LIBRARY:
        (known_plain if kind == PLAIN else known_passed).add(name)
    return kind


def pass_over(name):
    """A file only does what its caller asks for."""
    passed_files.append(name)
    kinds.pop(name, None)
    known_plain.discard(name)


def is_library_own(chain):
    """Whether what is made here is the standard library's: made in a file of that, or in one that is frozen into Python."""
    name = chain[0][0].co_filename if chain else ""
    return kinds.get(name) == LIBRARY and (name[:1] != "<" or name.startswith("<frozen "))


def ends_of(frame):
    """The frames of a place: the innermost one, and the first one of the program, if that is another."""
    inner = outer = None
    left = MOST_PASSED
    while frame is not None and left:
        name = frame.f_code.co_filename
        kind = kinds[name] if name in kinds else kind_of(name)
        if kind != PASSED:
            outer = frame
            if inner is None:
                inner = frame
            if kind == PLAIN:
                break
            left -= 1
        frame = frame.f_back
    if inner is outer:
        return () if inner is None else (inner,)
    return inner, outer


def chain_of(frame):
    """The frames of a place, each as its code and instruction."""
    return tuple([(each.f_code, each.f_lasti) for each in ends_of(frame)])


# A function that returns with a lock held passes it on to its caller, so the callers up to the first one that goes on tell where the lock is taken.
passing = {}  # the codes of such functions, by their numbers
TELLING = 3  # callers of the program


def chain_of_taking(frame, is_new=False):
    """The frames of a place where a lock is taken: with callers if the program itself takes it in a new way, as nobody knows yet who goes on with it."""
    ends = ends_of(frame)
    outer = ends[0] if len(ends) == 1 else None
    while outer is not None and len(ends) < TELLING and (is_new or id(outer.f_code) in passing):
        outer = caller_in_program(outer)
        ends += () if outer is None else (outer,)
    return tuple([(each.f_code, each.f_lasti) for each in ends])


def caller_in_program(frame):
    """The caller of a frame without what only does what it is asked for; None if that is none of the program's."""
    frame = frame.f_back
    while frame is not None and frame.f_code.co_filename in known_passed:
        frame = frame.f_back
    name = frame.f_code.co_filename if frame is not None else ""
    return frame if name and (kinds[name] if name in kinds else kind_of(name)) == PLAIN else None


def note_returned(chain, frame):
    """The first functions of a chain have returned that aren't among the callers of a frame."""
    running = set()
    while frame is not None:
        running.add(id(frame.f_code))
        frame = frame.f_back
    for code, _ in chain:
        if id(code) in running:
            break
        passing[id(code)] = code


# Where the library takes a lock by `with`, its frame runs on until that lock is given back, and so do those further out. Until then the
# record has the frame in the place of a chain, which is hardly ever needed.
known_withs = {}  # whether a lock is taken by `with`, by the file, the first line of the function and the instruction


def chain_noting_with(frame):
    """The frames of a place, after which it is known whether a `with` of the library is there."""
    chain = chain_of(frame)
    code = frame.f_code if frame is not None else None
    if code is not None and kinds.get(code.co_filename) == LIBRARY and code.co_filename[:1] != "<":
        site = code.co_filename, code.co_firstlineno, frame.f_lasti
        if site not in known_withs:
            known_withs[site] = not code.co_flags & SUSPENDED and is_with(code, frame.f_lasti)
    return chain


def is_with(code, at):
    """Whether an instruction calls `__enter__`."""
    from opcode import opname
    return opname[code.co_code[at]] in WITH


def settled(place):
    """The place of a record, a chain or a code, with its instruction, as it is once its lock may not be held any more."""
    code, at = place
    return (((code.f_code, at),) + chain_of(code)[1:], None) if type(code) is Frame else place


def line_of(code, instruction):
    """The line of an instruction."""
    return next((line for start, end, line in lines_of(code) if start <= instruction < end), code.co_firstlineno)


def lines_of(code):
    """Where the lines of a code begin and end, each with its number."""
    if hasattr(code, "co_lines"):
        for start, end, line in code.co_lines():
            yield start, end, code.co_firstlineno if line is None else line
        return
    from dis import findlinestarts
    start, line = 0, code.co_firstlineno
    for end, following in findlinestarts(code):
        yield start, end, line
        start, line = end, following
    yield start, len(code.co_code), line


def place_text(chain):
    """The places of a chain as text, separated by tabs."""
    return "\t".join("%s:%d %s" % (visible(os.path.abspath(code.co_filename) if code.co_filename[:1] != "<" else code.co_filename),
                                   line_of(code, at), visible(code.co_name).replace(" ", "_")) for code, at in chain)


def visible(text):
    """A text without characters that would end a line or a field."""
    return "".join(letter if letter.isprintable() else "?" for letter in text)
