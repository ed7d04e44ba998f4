"""What `lockdep graph` writes: its edges."""
from __future__ import annotations

import re

EDGE = re.compile(r'  "((?:[^"\\]|\\.)*)" -> "((?:[^"\\]|\\.)*)" \[label="([^"]*)"')
NODE = re.compile(r'  "((?:[^"\\]|\\.)*)" \[label=')


def key_in(quoted: str) -> str:
    """The key that stands between double quotes."""
    return re.sub(r"\\(.)", r"\1", quoted)


def keys_of_edge(found: re.Match) -> tuple[str, str]:
    return key_in(found.group(1)), key_in(found.group(2))


def edges_of(graph: str) -> list[tuple[str, str]]:
    """The edges of a graph in the DOT language, each with its two keys."""
    return [keys_of_edge(found) for found in map(EDGE.match, graph.split("\n")) if found]
