#!/usr/bin/env python3
"""Measures `routecli prepare` by one thread, by one worker and by four, in turn beside C++ by one worker's rules (one_worker.cpp).

    bench/one_worker.py [--nodes N ..] [--order ORDER] [--rounds ROUNDS]

The networks are sparse ones (make_sparse.cpp), by default of 264,346 and 1,000,000 nodes. In each round each program prepares the
network once, and the files of the C++, of `--sequential` and of `--workers 1` have to be the same, to the byte. A line of a
program has medians: seconds of the wall clock and of the processors, kB of the greatest resident size a node, and its processor
time as a multiple of the C++'s in the same round, with the lowest and the highest. GLIBC_TUNABLES and LD_PRELOAD hold for all.
It prints the machine's load. It needs g++ and the proved program, or the path in ROUTECLI.
"""
import filecmp
import os
import pathlib
import statistics
import subprocess
import sys
import tempfile

from kit.counted import parser, positive
from kit.program import PROGRAM, Runs, Taken, need_compiled, need_program

HOW = {"--sequential": ["--sequential"], "--workers 1": ["--workers", "1"], "--workers 4": ["--workers", "4"]}


def measure(folder: pathlib.Path, nodes: int, order: str, rounds: int) -> None:
    network, wanted, made = folder / "network.gr", folder / "wanted.rch", folder / "made.rch"
    sparse, in_place, runs = need_compiled(folder, "make_sparse"), need_compiled(folder, "one_worker"), Runs(folder)
    words = [str(word) for word in (sparse, nodes, 0, 1, network)]
    subprocess.run(words, check=True, stdout=subprocess.DEVNULL, stderr=subprocess.DEVNULL)
    taken: dict[str, list[Taken]] = {name: [] for name in ["one_worker.cpp", *HOW]}
    for _ in range(rounds):
        taken["one_worker.cpp"].append(runs.taken([in_place, network, wanted, order]))
        for name, how in HOW.items():
            taken[name].append(runs.taken([PROGRAM, "prepare", *how, "--order", order, network, made]))
            if name != "--workers 4" and not filecmp.cmp(wanted, made, shallow=False):
                sys.exit(f"{nodes} nodes, {name}: the file differs from that of one_worker.cpp")
    print(f"{nodes:,} nodes, {order}, {rounds} rounds, load {os.getloadavg()[0]:.1f}: wall, processors, kB a node, processors / C++")
    for name, all_taken in taken.items():
        ratios = [one.processor / other.processor for one, other in zip(all_taken, taken["one_worker.cpp"])]
        wall, processor, memory = (statistics.median(values) for values in zip(*(one[:3] for one in all_taken)))
        kilobytes = memory * 1024 * 1.024 / nodes
        print(f"  {name}: {wall:.2f} s, {processor:.2f} s, {kilobytes:.2f}, ", end="")
        print(f"{statistics.median(ratios):.2f} ({min(ratios):.2f} to {max(ratios):.2f})", flush=True)


def main() -> None:
    words = parser(__doc__)
    words.add_argument("--nodes", type=positive, nargs="+", default=[264_346, 1_000_000])
    words.add_argument("--order", default="depth")
    words.add_argument("--rounds", type=positive, default=5)
    options = words.parse_args()
    need_program()
    with tempfile.TemporaryDirectory() as folder:
        for nodes in options.nodes:
            measure(pathlib.Path(folder), nodes, options.order, options.rounds)


if __name__ == "__main__":
    main()
