"""The traces of a folder."""
from __future__ import annotations

import os

from .kernels import is_of_kernel, traces_of


def traces_in(folder: str) -> list[str]:
    """The traces of a folder, in their order."""
    if is_of_kernel(folder):
        return traces_of(folder)
    try:
        names = [name for name in os.listdir(folder) if name.startswith("task-") and name.endswith(".csv")]
    except OSError:
        return []
    return [os.path.join(folder, name) for name in sorted(names, key=os.fsencode)]
