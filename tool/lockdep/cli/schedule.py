"""`lockdep schedule FOLDER`: whether the steps of a recording could have come in another order in which its threads stand still, with source lines. Of
histories that are named as files the proved program writes its own text."""
from __future__ import annotations

import os
import sys

from ..ask.histories import make_histories
from ..base.files import need_output, writing
from ..base.saying import Refusal
from ..base.words import visible
from ..places.sources import Sources
from ..program.checker import REFUSED, ask
from ..program.schedules import POSSIBLE, histories_of
from ..record.complete import check_folder
from ..record.folder import fault
from ..say.schedule_text import write_histories
from ..say.terminal import Writer, text_stream
from .options import no_option

AS_JSON = ["schedule", "--json", "--"]
NONE = "%s has no history: `lockdep run` of a program in C, C++, Python, Java or Rust records one, unless `--history off` is given"


def folder_of(words: list[str]) -> tuple[str, bool]:
    """The recording, and whether JSON is asked for."""
    options = [word for word in words if word.startswith("-") and not os.path.isdir(word)]
    folders = [word for word in words if word not in options]
    unknown = [option for option in options if option != "--json"]
    if unknown:
        raise Refusal(no_option("schedule", unknown[0], ["--json"]))
    if len(folders) != 1 or not os.path.isdir(folders[0]):
        raise Refusal("one recording, or files with histories; `lockdep schedule --help` says how to call this")
    return folders[0], bool(options)


def main(words: list[str]) -> int:
    need_output()
    folder, is_json = folder_of(words)
    check_folder(folder)
    try:
        files = make_histories(folder)
    except OSError as error:
        raise Refusal(fault(error, folder))
    if not files:
        raise Refusal(NONE % visible(folder))
    with writing():
        return say_of(folder, files, is_json)


def say_of(folder: str, files: list[str], is_json: bool) -> int:
    """Says what the program says of histories. The result is the status."""
    answer = ask(AS_JSON + files, with_errors=True)
    sys.stderr.buffer.write(answer.said)
    if answer.status >= REFUSED:
        return answer.status
    if is_json:
        sys.stdout.buffer.write(answer.output)
        sys.stdout.buffer.flush()
        return answer.status
    histories, sources = histories_of(answer.output), Sources()
    sources.read_classes(folder)
    stream = text_stream(sys.stdout.fileno())
    write_histories(histories, sources, Writer(stream))
    stream.flush()
    return int(any(ring.verdict == POSSIBLE for history in histories for ring in history.rings))
