"""Names of C++ as people write them."""
from __future__ import annotations

import re

from ..base.tools import other_answer
from ..base.words import bytes_of, text_of

# Names of the C++ library, and what people write instead.
SHORTER = [("std::__cxx11::", "std::"), ("> >", ">>"),
           ("std::basic_string<char, std::char_traits<char>, std::allocator<char>>", "std::string")]
ALLOCATOR = ", std::allocator<"
MOST_OF_NAME = 400  # characters: names of templates can be of any length
ABI_TAG = re.compile(r"\[abi:\w+\]")
PARAMETERS_END = re.compile(r"\)( const| volatile| &&?| \[clone [^]]*\])*$")
MANGLED = re.compile(r"(?<![A-Za-z0-9_])_Z[A-Za-z0-9_]+")


def after_bracket(text: str, place: int) -> int:
    """Where the text goes on after the bracket that is opened just before a position; its end if that isn't closed."""
    depth = 1
    for place in range(place, len(text)):
        depth += (text[place] == "<") - (text[place] == ">" and text[place - 1] != "-")
        if not depth:
            return place + 1
    return len(text)


def without_allocators(function: str) -> str:
    kept, place = [], 0
    while place < len(function):
        found = function.find(ALLOCATOR, place)
        kept.append(function[place:found] if found >= 0 else function[place:])
        place = after_bracket(function, found + len(ALLOCATOR)) if found >= 0 else len(function)
    return "".join(kept)


def short_function(function: str) -> str:
    """A function's name, with the library's names as people write them, without the allocators, which say nothing, and cut if
    it is still too long."""
    for long, short in SHORTER:
        while long in function:
            function = function.replace(long, short)
    function = without_allocators(function)
    return function if len(function) <= MOST_OF_NAME + 3 else function[:MOST_OF_NAME] + "..."


def without_parameters(function: str) -> str:
    """The name of a C++ function without its parameters, without what follows them, such as `const` or `[clone .cold]`,
    without the return type, which a template's name has, and without tags of its ABI, as `[abi:cxx11]`."""
    function = ABI_TAG.sub("", function)
    found = PARAMETERS_END.search(function)
    depth = 0
    for place in range(found.start() if found else 0, 0, -1):
        depth += (function[place] == ")") - (function[place] == "(")
        if not depth:
            return function if function[:place].endswith("operator") else without_type(function[:place])
    return function


def without_type(function: str) -> str:
    """A name without the words before it: what comes after its last space outside brackets."""
    depth, begin, outside = 0, 0, ""
    for place, character in enumerate(function):
        depth += (character in "<({") - (character in ">)}" and function[place - 1:place] != "-")
        outside += character if not depth else ""
        if character == " " and not depth:
            begin = place + 1
    # The name of an operator may have spaces.
    return function if "operator" in outside else function[begin:]


def by_library(symbols: list[str]) -> dict[str, str] | None:
    """The symbols demangled by the C++ library, as far as it can; None if that library isn't there."""
    try:
        import ctypes
        library = ctypes.CDLL("libstdc++.so.6")
        demangle, release = library.__cxa_demangle, ctypes.CDLL(None).free
    except (ImportError, OSError, AttributeError):
        return None
    demangle.restype, release.argtypes = ctypes.c_void_p, [ctypes.c_void_p]
    names, status = {}, ctypes.c_int()
    for symbol in symbols:
        made = demangle(symbol.encode(), None, None, ctypes.byref(status))
        if made:
            names[symbol] = text_of(ctypes.string_at(made))
            release(made)
    return names


def by_binutils(symbols: list[str]) -> dict[str, str]:
    lines = text_of(other_answer(["c++filt"], bytes_of("".join(symbol + "\n" for symbol in symbols))) or b"").split("\n")
    return {symbol: line for symbol, line in zip(symbols, lines) if line} if len(lines) == len(symbols) + 1 else {}


def demangled(symbols: list[str]) -> dict[str, str]:
    """Whole symbols that begin with _Z, demangled as far as that is possible."""
    found = by_library(symbols) if symbols else {}
    return by_binutils(symbols) if found is None else found


class Demangler:
    """Texts in which each symbol that begins with _Z is demangled. One with a cut-off end isn't a symbol and stays."""

    def __init__(self) -> None:
        self.names: dict[str, str] = {}

    def text(self, text: str) -> str:
        if "_Z" not in text:
            return text
        unknown = [symbol for symbol in dict.fromkeys(MANGLED.findall(text)) if symbol not in self.names]
        if unknown:
            found = by_library(unknown)
            self.names.update({symbol: symbol for symbol in unknown})
            self.names.update(by_binutils(unknown) if found is None else found)
        return MANGLED.sub(lambda match: self.names[match.group()], text)
