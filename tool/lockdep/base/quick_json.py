"""JSON that every run reads. To import the module `json` takes longer than all that a run without a finding needs, so the scanner that it is built on is
asked directly, where there is one."""
from __future__ import annotations

TYPE_CHECKING = False
if TYPE_CHECKING:
    from typing import Callable


class Plain:
    """What the scanner has to know: each value is as Python has it."""

    strict = True
    object_hook = object_pairs_hook = parse_constant = None
    parse_float, parse_int = float, int


def scanner() -> Callable[[str, int], tuple[object, int]] | None:
    """What reads a value from a place in a text; None where this Python has another one, or wants to know more."""
    try:
        from _json import make_scanner
        return make_scanner(Plain())
    except (ImportError, AttributeError, TypeError):
        return None


def parsed_by_module(text: str) -> object:
    import json
    try:
        return json.loads(text)
    except RecursionError:
        raise ValueError("values inside values, too many of them")


def parsed(text: str) -> object:
    """The value that a text is. What isn't JSON is a ValueError."""
    scan = scanner()
    if scan is None:
        return parsed_by_module(text)
    text = text.strip(" \t\r\n")
    try:
        value, end = scan(text, 0)
    except RecursionError:
        raise ValueError("values inside values, too many of them")
    except (StopIteration, TypeError, SystemError):  # (the second by NaN and the like, the third by a text that ends too early)
        raise ValueError("no value")
    if end < len(text):
        raise ValueError("something stands behind the value")
    return value
