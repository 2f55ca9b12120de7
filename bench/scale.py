#!/usr/bin/env python3
"""Measures what large networks cost: nodes, links, bytes, and time and memory of `prepare` and `route`, as docs/PERFORMANCE.md has it.

    bench/scale.py [--order ORDER] [--workers K] [--pairs PAIRS] [--compared PAIRS] [--allocator NAME] [--allocators] [--lists]
                   [--batches] [--folder FOLDER] [--usa] [NODES ..]        by default 264346 1000000, with --usa none

The networks are those of make_sparse.cpp, with the figures of the challenge's: 2.43 arcs a node, most nodes on chains. Each is
prepared once, by default by four workers and `--order depth`, and random pairs, by default 10,000, are answered once. The
first answers, by default 20, are compared with the plain search in C++, which runs four at a time. The tables have seconds of the wall clock, of the
processors in parentheses, and greatest resident sizes. What a pair takes is what the run takes beyond one with no pairs.

--usa          also a network with the numbers of the challenge's largest, the whole of the USA: 23,947,347 nodes and
               58,333,344 arcs, 1.3 GB of text. `prepare` takes some 20 GB for it
--folder       where the networks and hierarchies lie, in place of a folder that is removed at the end
--allocator    `prepare` gets this one of Debian's allocators, by LD_PRELOAD: jemalloc, tcmalloc or mimalloc

--allocators   prepares each network once more with each of Debian's allocators that is here (libjemalloc2,
               libtcmalloc-minimal4, libmimalloc2.0), by LD_PRELOAD, and compares the answers' costs
--lists        what the list of pairs takes: a million pairs and ten million that lead from a node to itself
--batches      100,000 pairs of the first network by one process, and by GNU parallel (Debian's parallel) over parts of several
               sizes, two programs at a time; all answers have to be the same bytes

It needs g++ and the proved program, which is crates/routecli/out/routecli (README.md says how to build it) or the path in
the environment variable ROUTECLI.
"""
import concurrent.futures
import contextlib
import itertools
import os
import pathlib
import subprocess
import sys
import tempfile

from kit import counted
from kit.answers import costs_in
from kit.hierarchy_file import links_in
from kit.networks import arcs_in
from kit.program import PROGRAM, Runs, need_compiled, need_program

NODES = [264_346, 1_000_000]
USA = (23_947_347, 58_333_344)
SEED = 1
BATCH = 100_000
PARTS = [1_000, 10_000, 50_000]
LIBRARIES = pathlib.Path("/usr/lib/x86_64-linux-gnu")
ALLOCATORS = {
    "jemalloc": "libjemalloc.so.2",
    "tcmalloc": "libtcmalloc_minimal.so.4",
    "mimalloc": "libmimalloc.so.2.0",
}
# Cuts a query file into parts, and answers them by two programs at a time, as docs/PERFORMANCE.md does.
PARALLEL = r"""
awk -v size="$SIZE" '/^p/ { left = $5 } /^q/ { if (n % size == 0) { close(part); part = sprintf("%s/%06d", ENVIRON["PARTS"], n / size)
    print "p aux sp p2p", (left < size ? left : size) > part } print > part; n++; left-- }' "$PAIRS" &&
parallel --will-cite -j 2 -k "$PROGRAM" route "$HIERARCHY" {} ::: "$PARTS"/* > "$OUT"
"""


def times(taken):
    """What a run took by the wall clock, and in parentheses by the processors."""
    return f"{seconds(taken.wall)} ({seconds(taken.processor)})"


def seconds(value):
    return f"{value:.2f} s" if value < 10 else f"{value:.0f} s"


class Network:
    """A sparse network of so many nodes, its pairs, and the file of its hierarchy. With 0 arcs it has as many as it comes to."""

    def __init__(self, maker, nodes, arcs, pairs, runs):
        self.nodes, self.count, self.runs, self.folder = nodes, pairs, runs, runs.folder
        self.graph, self.pairs, self.file = (self.folder / f"{nodes}.{ending}" for ending in ["gr", "pairs", "rch"])
        words = [maker, nodes, arcs, SEED, self.graph, pairs, self.pairs]
        subprocess.run([str(word) for word in words], check=True, stdout=subprocess.DEVNULL, stderr=subprocess.DEVNULL)
        self.arcs = arcs_in(self.graph)

    def prepared(self, options, library=None, file=None):
        preload = {"LD_PRELOAD": str(library)} if library else {}
        words = [PROGRAM, "prepare", "--workers", options.workers, "--order", options.order, self.graph, file or self.file]
        return self.runs.taken(words, env={**os.environ, **preload})

    def routed(self, out, pairs=None, file=None):
        return self.runs.taken([PROGRAM, "route", file or self.file, pairs or self.pairs], out)


def text_of(folder, name, count, pairs):
    """A text of so many pairs: the first of these lines."""
    path = folder / name
    with open(path, "w") as file:
        file.write(f"p aux sp p2p {count}\n")
        file.writelines(itertools.islice(pairs, count))
    return path


def searched(network, plain, part, pairs):
    """What the plain search prints for pairs, whose files get the number of their part."""
    few = text_of(network.folder, f"few-{part}.pairs", len(pairs), pairs)
    return subprocess.run([plain, network.graph, few], check=True, stdout=subprocess.PIPE, stderr=subprocess.DEVNULL, text=True).stdout


def compare(network, plain, count, answers):
    """Compares the first answers with those of the plain search, but for their nodes. It runs four at a time."""
    with open(network.pairs) as lines:
        next(lines)
        pairs = list(itertools.islice(lines, count))
    parts = [pairs[at :: 4] for at in range(4)]
    with concurrent.futures.ThreadPoolExecutor(4) as pool:
        texts = list(pool.map(lambda part: searched(network, plain, *part), enumerate(parts)))
    wanted = [iter(text.splitlines()) for text in texts]
    with open(answers) as found:
        for at, ours in enumerate(itertools.islice(found, count)):
            line = next(wanted[at % 4]).split()
            if line != ours.split()[: len(line)]:
                sys.exit(f"{answers} differs from the plain search: {ours[:80]}")


def megabytes(path):
    return f"{path.stat().st_size / 1e6:,.1f} MB"


def show(heads):
    print("\n| " + " | ".join(heads) + " |\n" + "|---" * len(heads) + "|", flush=True)


def row(*cells):
    print("| " + " | ".join(str(cell) for cell in cells) + " |", flush=True)


def sizes(networks, options, plain, folder):
    """The table of what each network costs."""
    heads = ["Nodes", "Arcs", "Graph's text", "Links", "File", "`prepare`", "memory", "a node"]
    show([*heads, "`route`, no pairs", f"{options.pairs:,} random pairs", "memory", "a pair", "answers"])
    nothing = text_of(folder, "no.pairs", 0, [])
    for network in networks:
        prepared = network.prepared(options, options.allocator and LIBRARIES / ALLOCATORS[options.allocator])
        empty, answers = network.routed(os.devnull, nothing), folder / "answers"
        routed = network.routed(answers)
        compare(network, plain, min(options.compared, options.pairs), answers)
        row(
            f"{network.nodes:,}",
            f"{network.arcs:,}",
            megabytes(network.graph),
            f"{links_in(network.file):,}",
            megabytes(network.file),
            times(prepared),
            f"{prepared.memory:,.0f} MB",
            f"{prepared.memory * (1 << 20) / network.nodes:,.0f} bytes",
            times(empty),
            times(routed),
            f"{routed.memory:,.0f} MB",
            f"{(routed.wall - empty.wall) * 1e6 / network.count:,.0f} µs",
            megabytes(answers),
        )


def allocators(networks, options, folder):
    """The table of `prepare` by allocators. The first row of a network is anew, so that all are of one time."""
    show(["Nodes", "Allocator", "`prepare`", "memory"])
    here = {"the C library's": None}
    here |= {name: LIBRARIES / file for name, file in ALLOCATORS.items() if (LIBRARIES / file).exists()}
    for network in networks:
        network.routed(folder / "wanted")
        for name, library in here.items():
            prepared = network.prepared(options, library, folder / "other.rch")
            row(f"{network.nodes:,}", name, times(prepared), f"{prepared.memory:,.0f} MB")
            network.routed(folder / "found", file=folder / "other.rch")
            if costs_in(folder / "found") != costs_in(folder / "wanted"):
                sys.exit(f"the costs by {name} differ")


def lists(network, folder):
    """The table of what the list of pairs takes."""
    show(["Pairs of a node with itself", "`route`", "memory"])
    for count in [1_000_000, 10_000_000]:
        taken_by = network.routed(os.devnull, text_of(folder, "same.pairs", count, itertools.repeat("q 7 7\n")))
        row(f"{count:,}", times(taken_by), f"{taken_by.memory:,.0f} MB")


def batches(network, folder):
    """The table of how very many pairs are answered."""
    show([f"{BATCH:,} pairs of {network.nodes:,} nodes", "wall (processor)"])
    with open(network.pairs) as pairs:
        next(pairs)
        many = text_of(folder, "many.pairs", BATCH, itertools.cycle(pairs))
    wanted, out = folder / "wanted", folder / "out"
    row("one process", times(network.routed(wanted, many)))
    for size in PARTS:
        with tempfile.TemporaryDirectory(dir=folder) as parts:
            places = {"PROGRAM": PROGRAM, "HIERARCHY": network.file, "PAIRS": many, "OUT": out, "PARTS": parts, "SIZE": size}
            environment = {**os.environ, **{name: str(value) for name, value in places.items()}}
            row(f"GNU parallel `-j 2`, parts of {size:,}", times(network.runs.taken(["/bin/sh", "-c", PARALLEL], env=environment)))
        if out.read_bytes() != wanted.read_bytes():
            sys.exit(f"parts of {size}: the answers differ")
        out.unlink()


def main():
    parser = counted.parser(__doc__)
    parser.add_argument("--order", default="depth")
    parser.add_argument("--workers", type=int, default=4)
    parser.add_argument("--pairs", type=counted.positive, default=10_000)
    parser.add_argument("--compared", type=counted.positive, default=20, metavar="PAIRS")
    parser.add_argument("--allocator", choices=list(ALLOCATORS))
    for more in ["--allocators", "--lists", "--batches", "--usa"]:
        parser.add_argument(more, action="store_true")
    parser.add_argument("--folder", type=pathlib.Path)
    parser.add_argument("nodes", nargs="*", type=counted.positive, metavar="NODES")
    options = parser.parse_args()
    need_program()
    with tempfile.TemporaryDirectory() if options.folder is None else contextlib.nullcontext(options.folder) as folder:
        folder = pathlib.Path(folder)
        folder.mkdir(parents=True, exist_ok=True)
        plain, maker, runs = need_compiled(folder, "plain_search"), need_compiled(folder, "make_sparse"), Runs(folder)
        asked = [(nodes, 0) for nodes in options.nodes or NODES * (not options.usa)] + [USA] * options.usa
        networks = [Network(maker, nodes, arcs, options.pairs, runs) for nodes, arcs in asked]
        sizes(networks, options, plain, folder)
        if options.lists:
            lists(networks[0], folder)
        if options.batches:
            batches(networks[0], folder)
        if options.allocators:
            allocators(networks, options, folder)


if __name__ == "__main__":
    main()
