"""Texts as they are shown to a person, and refusals."""
from __future__ import annotations

# What separates a function from its caller in a chain of callers.
CALLED_FROM = " < "


def text_of(raw: bytes) -> str:
    """A text of these bytes, from which those that aren't UTF-8 can be recovered."""
    return raw.decode("utf-8", "surrogateescape")


def bytes_of(text: str) -> bytes:
    return text.encode("utf-8", "surrogateescape")


def lines_of(text: str) -> list[str]:
    """The lines of a text. A line ends with a line feed, perhaps with one carriage return before it. Nothing else ends one, as it does for `str.splitlines`:
    a name that a recording brings may have it."""
    lines = text.split("\n")
    return [line[:-1] if line.endswith("\r") else line for line in (lines if lines[-1] else lines[:-1])]


# Characters that are invisible, change how others are displayed, or aren't allowed in XML: first and last of each range.
SURROGATES = (0xD800, 0xDFFF)
HIDDEN = ((0x00, 0x1F), (0x7F, 0x9F), (0x61C, 0x61C), (0x200B, 0x200F), (0x2028, 0x202E), (0x2060, 0x206F), SURROGATES,
          (0xFEFF, 0xFEFF), (0xFFF9, 0xFFFF))
ESCAPES = {"\n": "\\n", "\r": "\\r", "\t": "\\t"}
UNDECODED = (0xDC80, 0xDCFF)  # how a byte that isn't UTF-8 stands in a text


def code_of(character: str) -> str:
    """What is shown instead of a hidden character."""
    number = ord(character)
    if character in ESCAPES:
        return ESCAPES[character]
    if UNDECODED[0] <= number <= UNDECODED[1]:
        number -= 0xDC00
    return "\\x%02x" % number if number < 0x100 else "\\u%04x" % number


def is_hidden(character: str) -> bool:
    return any(first <= ord(character) <= last for first, last in HIDDEN)


def visible(text: str) -> str:
    """A text as it may be shown: on one line, in its own order, and without anything that XML doesn't allow."""
    if text.isascii() and text.isprintable():
        return text
    return "".join(code_of(character) if is_hidden(character) else character for character in text)


def escaped(text: str) -> str:
    """A text as HTML and XML have it, in an attribute too."""
    text = visible(text).replace("&", "&amp;").replace("<", "&lt;").replace(">", "&gt;")
    return text.replace('"', "&quot;").replace("'", "&#x27;")


def counted(number: int, word: str, words: str | None = None) -> str:
    """A number with its word, such as 1 trace or 1,617 events."""
    return "{:,} {}".format(number, word if number == 1 else words or word + "s")


OF_NAMES = set("/:<>()@#+~.[]_%&*=")  # what words of a sentence don't have


def as_sentence(remark: str) -> str:
    """A remark as a sentence. A lock that it begins with keeps its name."""
    first = remark.partition(" ")[0].rstrip(":,;")
    return (remark[:1] if set(first) & OF_NAMES else remark[:1].upper()) + remark[1:].rstrip(".") + "."


def quoted(name: str) -> str:
    """A lock's name as a record has it: in double quotes exactly if it has a comma or a double quote."""
    return '"%s"' % name.replace('"', '""') if "," in name or '"' in name else name


def unquoted(name: str) -> str:
    """The name that a record's field says."""
    return name[1:-1].replace('""', '"') if name.startswith('"') else name


def plain_key(key: str) -> str:
    """A key without its subclass, if that is 0."""
    return key[:-2] if key.endswith("/0") else key


def name_in(key: str) -> str:
    """The name in a key, which is NAME/SUB."""
    return key.rpartition("/")[0]


def class_of_lock(name: str) -> str:
    """The class of a single lock's name: what stands before the last `#`, or all of a name that has none."""
    return name.rpartition("#")[0] or name


def type_of_class(name: str) -> str:
    """The type of a class: what stands before the first `@`, or all of a name that has none."""
    return name.partition("@")[0] or name


def stands_for_several(name: str) -> bool:
    """Whether a name stands for all locks of a class that aren't told apart."""
    before, _, mark = name.rpartition("#")
    return bool(before) and (mark == "rest" or mark.startswith("rest@"))


def reason_of(error: OSError) -> str:
    return error.strerror or str(error)


LIBRARY = "libc:"  # begins the name of a lock inside the C library


def is_of_library(key: str) -> bool:
    return key.startswith(LIBRARY)
