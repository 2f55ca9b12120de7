#!/usr/bin/env python3
"""Measures `routecli renew` on networks whose weights have changed, in turn beside `routecli prepare` of the same by one worker.

    bench/renew.py [--nodes N ..] [--order ORDER] [--rounds ROUNDS] [--beside PROGRAM]

The networks are sparse ones (make_sparse.cpp), by default of 264,346 and 1,000,000 nodes. Each arc's weight changes by a factor
that is drawn from 0.8 to 1.2. --beside names another program to prepare by, such as an earlier one. A line has the machine's load,
and as multiples of `prepare` the processor time and the greatest resident size of `renew`, medians with the lowest and the highest;
its links, and the nodes that 1,000 random pairs settle (route.cpp). It needs g++ and the proved program, or the path in ROUTECLI.
"""
import os
import pathlib
import random
import re
import statistics
import subprocess
import tempfile

from kit.counted import parser, positive
from kit.program import PROGRAM, Runs, need_compiled, need_program

PAIRS, SHARE = 1000, 0.2


def change(graph: pathlib.Path, changed: pathlib.Path) -> None:
    """Writes a graph with other weights."""
    draw = random.Random(1)
    with open(graph) as lines, open(changed, "w") as out:
        for line in lines:
            if line.startswith("a "):
                head, _, weight = line.rpartition(" ")
                line = f"{head} {max(1, round(int(weight) * draw.uniform(1 - SHARE, 1 + SHARE)))}\n"
            out.write(line)


def quality(route: pathlib.Path, hierarchy: pathlib.Path, pairs: pathlib.Path) -> tuple[int, float]:
    """A hierarchy's links, and how many nodes a pair settles."""
    with open(hierarchy, "rb") as file:
        links = int.from_bytes(file.read(16)[8:], "big")
    said = subprocess.run([route, "--times", hierarchy, pairs], check=True, stdout=subprocess.DEVNULL, stderr=subprocess.PIPE, text=True)
    found = re.search(r"settled ([\d.]+)", said.stderr)
    assert found
    return links, float(found[1])


def spread(values: list[float]) -> str:
    return f"{statistics.median(values):.2f} ({min(values):.2f} to {max(values):.2f})"


def measure(folder: pathlib.Path, nodes: int, order: str, rounds: int, beside: str) -> None:
    graph, changed, pairs = (folder / name for name in ("network.gr", "changed.gr", "random.pairs"))
    old, fresh, renewed = (folder / name for name in ("old.rch", "fresh.rch", "renewed.rch"))
    sparse, route, runs = need_compiled(folder, "make_sparse"), need_compiled(folder, "route"), Runs(folder)
    subprocess.run([str(word) for word in (sparse, nodes, 0, 1, graph, PAIRS, pairs)], check=True, capture_output=True)
    change(graph, changed)
    prepare = ["prepare", "--workers", 1, "--order", order]
    runs.taken([PROGRAM, *prepare, graph, old])
    taken = [(runs.taken([beside, *prepare, changed, fresh]), runs.taken([PROGRAM, "renew", old, changed, renewed])) for _ in range(rounds)]
    processor, memory = ([getattr(new, name) / getattr(base, name) for base, new in taken] for name in ("processor", "memory"))
    seconds, megabytes = (statistics.median(getattr(new, name) for _, new in taken) for name in ("processor", "memory"))
    print(f"{nodes:,} nodes, {order}, {rounds} rounds, load {os.getloadavg()[0]:.1f}: {seconds:.2f} s of a processor, {spread(processor)}; ", end="")
    links, settled = (new / base for base, new in zip(quality(route, fresh, pairs), quality(route, renewed, pairs)))
    print(f"{megabytes:.0f} MB, {spread(memory)}; links {links:.4f}, settled {settled:.3f}", flush=True)


def main() -> None:
    words = parser(__doc__)
    words.add_argument("--nodes", type=positive, nargs="+", default=[264_346, 1_000_000])
    words.add_argument("--order", default="depth")
    words.add_argument("--rounds", type=positive, default=5)
    words.add_argument("--beside", default=str(PROGRAM), metavar="PROGRAM")
    options = words.parse_args()
    need_program()
    with tempfile.TemporaryDirectory() as folder:
        for nodes in options.nodes:
            measure(pathlib.Path(folder), nodes, options.order, options.rounds, options.beside)


if __name__ == "__main__":
    main()
