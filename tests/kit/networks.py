"""Makes networks: small random ones, for the scripts that compare with plain programs, and those of bench/make_network.py.

Nodes are numbered from 0, as inside the program; in a text from 1.
"""
import random
import subprocess
import sys
from collections.abc import Sequence
from typing import Any

from .answers import Path
from .program import ROOT

HEAVIEST = 4_294_967_295

# What the weights of a network are drawn from. In most, many walks have the same length and different numbers of arcs.
ENDS = [(0, 1), (1, 2), (0, 2), (1, 4), (0, 4), (0, 21), (1, 1001), (0, HEAVIEST + 1)]
WEIGHTS: list[Sequence[int]] = [*(range(low, high) for low, high in ENDS), (0, HEAVIEST)]


def drawn_arcs(draw: random.Random, nodes: int, count: int) -> list[tuple[int, int, int]]:
    """This many arcs as (start, end, weight), loops and parallel arcs among them. There is at least one node."""
    weights = draw.choice(WEIGHTS)
    return [(draw.randrange(nodes), draw.randrange(nodes), draw.choice(weights)) for _ in range(count)]


def grid_steps(side: int) -> list[tuple[int, int]]:
    """The steps between neighbours of a square of nodes, in both directions."""
    pairs = [(node, node + 1) for node in range(side * side) if (node + 1) % side] + [(node, node + side) for node in range(side * side - side)]
    return [step for start, end in pairs for step in ((start, end), (end, start))]


def text_of(nodes: int, arcs: Sequence[tuple[int, int, int]]) -> str:
    """The graph's text."""
    return f"p sp {nodes} {len(arcs)}\n" + "".join(f"a {start + 1} {end + 1} {weight}\n" for start, end, weight in arcs)


def pairs_text(pairs: Sequence[tuple[int, int]]) -> str:
    """The text of these pairs, whose nodes are numbered from 1."""
    return f"p aux sp p2p {len(pairs)}\n" + "".join(f"q {source} {target}\n" for source, target in pairs)


def made(side: int, pairs: int, graph: Path, queries: Path, *more: Any) -> None:
    """A network of bench/make_network.py, and this many random pairs of it."""
    words: list[Any] = [sys.executable, ROOT / "bench/make_network.py", str(side), str(pairs), "1", graph, queries, *map(str, more)]
    subprocess.run(words, check=True)


def arcs_in(graph: Path) -> int:
    """How many arcs a graph's text announces."""
    with open(graph) as source:
        return int(next(line for line in source if line.startswith("p ")).split()[3])
