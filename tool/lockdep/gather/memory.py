"""How much memory is used for what others have recorded or gathered."""
from __future__ import annotations

import contextlib
import resource
from typing import Iterator

from ..base.files import text_in

MOST_MEMORY = 1_000_000_000  # bytes that a process which reads a group has, and the checker that it asks


@contextlib.contextmanager
def limited_memory(used: int = 0) -> Iterator[None]:
    """Has this process, and the checker that it asks, no more memory than that for recordings of others, beside what is used for others."""
    limits = resource.getrlimit(resource.RLIMIT_AS)
    resource.setrlimit(resource.RLIMIT_AS, (min([used + MOST_MEMORY, *[limit for limit in limits if limit != resource.RLIM_INFINITY]]), limits[1]))
    try:
        yield
    finally:
        resource.setrlimit(resource.RLIMIT_AS, limits)


def used_memory() -> int:
    """The bytes of memory that this process has by now."""
    return int(text_in("/proc/self/statm").split()[0]) * resource.getpagesize()
