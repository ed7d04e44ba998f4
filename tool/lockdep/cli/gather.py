"""`lockdep gather`: from its command line to what does it."""
from __future__ import annotations

import gc

from ..gather.gathering import gather
from .options import GATHER, parse


def main(words: list[str]) -> int:
    gc.disable()  # (millions of values live until the end, and to look for garbage among them took a third of the time)
    return gather(parse(GATHER, words))
