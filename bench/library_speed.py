#!/usr/bin/python3
"""Measures the library from C and from Python beside `routecli route`, and prints the table of docs/LIBRARY.md.

    bench/library_speed.py [--nodes N ..] [--rounds ROUNDS] [--threads N] [--folder FOLDER]

By default on the sparse networks (make_sparse.cpp) of 65,536 and 1,000,000 nodes, by `--order depth`, with 10,000 random pairs, in
5 rounds with each way in turn. A figure is the median of its rounds, in microseconds of the processor for a pair:

  route    `routecli route` beyond a run with no pairs: the search, the nodes, and their line
  C        domethyme_route and domethyme_length, by one thread (library_speed.c)
  threads  how many times as many routes so many threads find, of the wall clock; by default as many as there are processors
  Python   Hierarchy.route and Hierarchy.length, a call each

All lengths are compared. It needs gcc and g++, the proved program, and the library, which is built where it isn't there.
"""
import contextlib
import os
import pathlib
import resource
import statistics
import subprocess
import sys
import tempfile
import time
import typing

from kit import counted, networks
from kit.program import PROGRAM, linked, need_compiled, need_program

import domethyme

PAIRS, SEED = 10_000, 1


def made(folder: pathlib.Path, nodes: int) -> tuple[pathlib.Path, list[tuple[int, int]]]:
    """The hierarchy of a sparse network, and its pairs."""
    graph, pairs, file = (folder / f"sparse-{nodes}{end}" for end in [".gr", ".pairs", ".rch"])
    words = [need_compiled(folder, "make_sparse"), nodes, 0, SEED, graph, PAIRS, pairs]
    subprocess.run(list(map(str, words)), check=True, stdout=subprocess.DEVNULL, stderr=subprocess.DEVNULL)
    subprocess.run([PROGRAM, "prepare", "--order", "depth", graph, file], check=True)
    lines = [line.split() for line in pairs.read_text().splitlines() if line.startswith("q")]
    return file, [(int(line[1]), int(line[2])) for line in lines]


def processor(words: list[typing.Any]) -> tuple[float, str]:
    """The processor seconds of a run, and what it prints."""
    def children() -> float:
        used = resource.getrusage(resource.RUSAGE_CHILDREN)
        return used.ru_utime + used.ru_stime
    before = children()
    ran = subprocess.run(list(map(str, words)), check=True, stdout=subprocess.PIPE, text=True)
    return children() - before, ran.stdout


def called(ask: typing.Callable[[int, int], typing.Any], pairs: list[tuple[int, int]]) -> tuple[float, list[typing.Any]]:
    """The processor seconds of a call for each pair, and what they return."""
    begun = time.process_time()
    found = [ask(*pair) for pair in pairs]
    return time.process_time() - begun, found


class Network:
    """A hierarchy, its pairs, and what each way took in each round."""

    def __init__(self, folder: pathlib.Path, nodes: int, threads: int) -> None:
        self.file, self.pairs = made(folder, nodes)
        self.program, self.threads = linked(folder, "library_speed.c"), threads
        self.texts = {}
        for name, pairs in {"all": self.pairs, "none": []}.items():
            self.texts[name] = folder / f"{name}.pairs"
            self.texts[name].write_text(networks.pairs_text(pairs))
        self.lines = folder / "lines.pairs"
        self.lines.write_text("".join(f"{start} {end}\n" for start, end in self.pairs))
        self.took: dict[str, list[float]] = {}

    def keep(self, name: str, seconds: float) -> None:
        self.took.setdefault(name, []).append(seconds / len(self.pairs) * 1e6)

    def round(self) -> None:
        nothing, _ = processor([PROGRAM, "route", self.file, self.texts["none"]])
        seconds, printed = processor([PROGRAM, "route", self.file, self.texts["all"]])
        self.keep("route", seconds - nothing)
        lengths = [int(fields[3]) if fields[0] == "r" else None for fields in map(str.split, printed.splitlines())]
        one = self.library(1)
        many = self.library(self.threads)
        self.keep("C length", one[1])
        self.keep("C route", one[3])
        self.took.setdefault("threads", []).append(one[2] / many[2])
        self.took.setdefault("threads' lengths", []).append(one[0] / many[0])
        with domethyme.Hierarchy(self.file) as hierarchy:
            pairs = [(start - 1, end - 1) for start, end in self.pairs]
            seconds, found = called(hierarchy.length, pairs)
            self.keep("Python length", seconds)
            agree(lengths, found)
            seconds, found = called(hierarchy.route, pairs)
            self.keep("Python route", seconds)
            agree(lengths, [None if route is None else route.length for route in found])

    def library(self, threads: int) -> list[float]:
        """Seconds of all pairs: the clock's and the processor's for lengths, then for routes."""
        _, printed = processor([self.program, self.file, self.lines, threads])
        return [float(field) / 1e9 * len(self.pairs) for field in printed.split()[:4]]

    def median(self, name: str) -> float:
        return statistics.median(self.took[name])


def agree(wanted: list[int | None], found: list[int | None]) -> None:
    if wanted != found:
        sys.exit("the lengths differ")


def main() -> None:
    words = counted.parser(__doc__)
    words.add_argument("--nodes", type=counted.positive, nargs="*", default=[65_536, 1_000_000])
    words.add_argument("--rounds", type=counted.positive, default=5)
    words.add_argument("--threads", type=counted.positive, default=os.cpu_count() or 1)
    words.add_argument("--folder", type=pathlib.Path, help="where the networks are kept, in place of a folder that is removed")
    asked = words.parse_args()
    need_program()
    load = os.getloadavg()[0]
    names = ["route", "C route", "Python route", "C length", "Python length"]
    with tempfile.TemporaryDirectory() if asked.folder is None else contextlib.nullcontext(asked.folder) as name:
        folder = pathlib.Path(name)
        folder.mkdir(parents=True, exist_ok=True)
        print(f"| Nodes | {' | '.join(names)} | {asked.threads} threads |\n|---{'|---' * (len(names) + 1)}|", flush=True)
        for nodes in asked.nodes:
            network = Network(folder, nodes, asked.threads)
            for _ in range(asked.rounds):
                network.round()
            cells = [f"{network.median(name):.1f} µs" for name in names]
            print(f"| {nodes:,} | {' | '.join(cells)} | {network.median('threads'):.1f} |", flush=True)
            spreads = {name: (min(taken), max(taken)) for name, taken in network.took.items()}
            print("\n".join(f"{name}: {low:.2f} to {high:.2f}" for name, (low, high) in spreads.items()), file=sys.stderr)
    print(f"load {load:.1f} before, {os.getloadavg()[0]:.1f} after", file=sys.stderr)


if __name__ == "__main__":
    main()
