"""The plan of `lockdep provoke`: for each order of a finding the places where its first lock is taken and where its second one is asked for."""
from . import places
from .places import PASSED
from .provoke_file import MOST_ORDERS

NO_OFFSET = "-"  # of a place in words
planned = {}  # by their texts
known_places = {}  # by what `places` knows a place by
first_pauses = {}  # the milliseconds of the first pause at an order, if that is another one


class Place:
    """A place of the program: its text, and a bit for each order whose first lock is taken there, or whose second one is asked for."""

    __slots__ = ("text", "holds", "wants")

    def __init__(self, text):
        self.text, self.holds, self.wants = text, 0, 0


def read_plan(path):
    """Reads the lines `order NUMBER`, which may have the first pause behind it, `hold - PLACE` and `want - PLACE` of a plan."""
    orders = 0
    with open(path, encoding="utf-8", errors="surrogateescape") as file:
        for line in file.read().split("\n"):
            word, offset, text = (line.split(" ", 2) + ["", ""])[:3]
            if word == "order":
                first_pauses[orders] = int(text or 0)
                orders += 1
            elif offset == NO_OFFSET and 0 < orders <= MOST_ORDERS:
                place = planned.setdefault(text, Place(text))
                place.holds |= (word == "hold") << orders - 1
                place.wants |= (word == "want") << orders - 1
    return orders > 0


def place_of(caller):
    """The place of a caller, which is given as its code and instruction."""
    code, at = caller
    key = code.co_filename, code.co_firstlineno, code.co_name, at
    place = known_places.get(key)
    if place is None:
        text = places.place_text((caller,)).encode("utf-8", "replace").decode("utf-8")
        place = known_places[key] = planned.get(text) or Place(text)
    return place


def stack_of(frame, most):
    """The callers of a call, the innermost first, without those that only do what their caller asks for."""
    kinds, found = places.kinds, []
    while frame is not None and len(found) < most:
        name = frame.f_code.co_filename
        if (kinds[name] if name in kinds else places.kind_of(name)) != PASSED:
            found.append((frame.f_code, frame.f_lasti))
        frame = frame.f_back
    return found


NOWHERE = Place("")


def innermost(frame):
    """The place of a call, by which threads are held back."""
    caller = stack_of(frame, 1)
    return place_of(caller[0]) if caller else NOWHERE
