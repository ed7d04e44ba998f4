"""The list of known findings, before a command is run: whether it can be read, and whether each line of it is a finding."""
from __future__ import annotations

import os

from ..base.saying import Refusal
from ..base.words import text_of
from .suppressions import entries_of

MOST_KEPT = 100000  # bytes of a list that can be read only once


def look_at_known(path: str) -> str:
    """Refuses a list that can't be taken. The result is the text of one that isn't a plain file, as a pipe, which can't be read again at the end."""
    if os.path.isdir(path):
        raise Refusal("%s, the list of known findings, is a folder" % path)
    if not os.path.exists(path):
        raise Refusal("%s, the list of known findings, can't be read: it isn't there; --write-known makes one" % path)
    is_kept = not os.path.isfile(path)
    try:
        with open(path, "rb") as file:
            text = file.read(MOST_KEPT + 1) if is_kept else file.read()
    except OSError:
        raise Refusal("%s, the list of known findings, can't be read" % path)
    if is_kept and len(text) > MOST_KEPT:
        raise Refusal("%s, the list of known findings, has more than %d bytes and isn't a plain file: write it to one" % (path, MOST_KEPT))
    entries_of(text_of(text), path)
    return text_of(text.replace(b"\0", b"").rstrip(b"\n")) if is_kept else ""
