"""What the library answers for a pair of nodes, which count from 0."""
from typing import NamedTuple

# The length of no path, and where lengths are added: no length is as great, nor its sum with some weights, which doesn't wrap.
NO_PATH, FAR = -1, 1 << 60


class RouterResult(NamedTuple):
    """A shortest path: its ends, its length, with what is added at its ends, its nodes, and what is added."""

    source: int
    target: int
    length: int
    nodes: list[int]
    added: int = 0
