"""What is said of the codes by which the checker refuses, besides the code: the table tool/words."""
from __future__ import annotations

import os
import re

from ..base.home import HOME

TYPE_CHECKING = False  # for a tool that checks types, it is true
if TYPE_CHECKING:
    from typing import Any

TABLE = os.path.join(HOME, "tool", "words")
CODE = re.compile("([A-Z][0-9]) [A-Za-z]+$")


def read_table() -> dict[str, str]:
    with open(TABLE, encoding="latin-1") as file:
        lines = [line.rstrip("\n").partition("\t") for line in file if not line.startswith("#")]
    return {key: text for key, tab, text in lines if tab}


def words_for(code: str, facts: dict[str, Any]) -> str:
    """The table's words for a code and the case that was found, with the parts in brackets filled in."""
    table = read_table()
    text = table.get("%s %s" % (code, facts.get("case"))) or table.get(code, "")
    return re.sub(r"\{([a-z]+)\}", lambda name: str(facts.get(name.group(1), "")), text)


def with_words(reason: str) -> str:
    """Why the checker refuses, with what the table says of that without looking at the trace."""
    found = CODE.search(reason)
    words = read_table().get(found.group(1), "") if found else ""
    return "%s: %s" % (reason, words) if words and "{" not in words else reason
