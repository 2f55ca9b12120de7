#!/usr/bin/python3
"""Measures new speeds beside a hierarchy that is prepared from nothing, in rounds with each in turn.

    reweigh.py [--nodes N] [--rounds N] [--share SHARE]

On a synthetic map of so many nodes (make_map.cpp), by default of 2,000,000, of which osm_to_gr makes a network of some 410,000. A drawn
share of its ways gets new speeds, by a row FROM,TO,KMH for each step in both directions, and one in a hundred of these is closed. It
prints the processor seconds of `tools/reweigh`, of `routecli prepare --workers 1 --order balanced` of the same network and of `routecli
renew` of the new one, the median of the rounds and the least and the greatest, and their ratios to `prepare`; and the load before.

It needs g++, libosmium2-dev and tools/packages.txt.
"""
import os
import pathlib
import resource
import statistics
import subprocess
import sys
import tempfile

import numpy as np

from kit.counted import parser, positive  # (finds domethyme too)
from kit.program import PROGRAM, ROOT, need_program

from domethyme.network import indexes, net_file


def processor(*words):
    """The processor seconds of a command."""
    before = resource.getrusage(resource.RUSAGE_CHILDREN)
    subprocess.run([str(word) for word in words], check=True, stderr=subprocess.DEVNULL)
    now = resource.getrusage(resource.RUSAGE_CHILDREN)
    return now.ru_utime + now.ru_stime - before.ru_utime - before.ru_stime


def write_speeds(network, share, path):
    """Writes rows for a share of the ways of a network, drawn. Returns how many."""
    draw = np.random.default_rng(1)
    way_of_edge = np.zeros(len(network.edge_metres), np.int64)
    way_of_edge[network.arc_edge[:]] = network.arc_osm[:]
    ways, number = np.unique(way_of_edge, return_inverse=True)
    chosen = draw.random(len(ways)) < share
    speeds = np.where(draw.random(len(ways)) < 0.01, 0, draw.integers(10, 90, len(ways)))
    first, edge = indexes.edge_segments(network.edge_begin[:])
    steps, osm = np.flatnonzero(chosen[number[edge]]), network.point_osm[:]
    ends = osm[first[steps]], osm[first[steps] + 1]
    rows = np.concatenate([np.column_stack((*each, speeds[number[edge[steps]]])) for each in (ends, ends[::-1])])
    np.savetxt(path, rows, "%d", ",")
    return len(rows)


def main():
    words = parser(__doc__)
    words.add_argument("--nodes", type=positive, default=2_000_000, metavar="N", help="nodes of the map (2,000,000)")
    words.add_argument("--rounds", type=positive, default=5, metavar="N", help="rounds (5)")
    words.add_argument("--share", type=float, default=0.1, help="the share of the ways with a new speed (0.1)")
    options = words.parse_args()
    need_program()
    load = os.getloadavg()[0]
    with tempfile.TemporaryDirectory() as name:
        folder = pathlib.Path(name)
        compiled = ["g++", "-std=c++17", "-O2", "-o", folder / "make_map", ROOT / "bench/make_map.cpp", "-lz", "-lpthread"]
        for command in (compiled, [folder / "make_map", str(options.nodes), "1", folder / "m.osm.pbf"]):
            subprocess.run(command, check=True, stdout=subprocess.DEVNULL)
        subprocess.run([ROOT / "tools/osm_to_gr", folder / "m.osm.pbf", folder / "m"], check=True, stderr=subprocess.DEVNULL)
        network = net_file.read(folder / "m.net")
        rows = write_speeds(network, options.share, folder / "speeds.csv")
        print(f"{len(network.node_osm):,} nodes, {len(network.arc_from):,} arcs, {rows:,} rows, load {load:.1f}", flush=True)
        commands = {
            "prepare": (PROGRAM, "prepare", "--workers", 1, "--order", "balanced", folder / "m.gr", folder / "m.rch"),
            "reweigh": (ROOT / "tools/reweigh", folder / "m", folder / "speeds.csv", folder / "new"),
            "renew": (PROGRAM, "renew", folder / "m.rch", folder / "new.gr", folder / "new.rch"),
        }
        took = {what: [] for what in commands}
        for number in range(options.rounds):
            for what, command in commands.items():
                took[what].append(processor(*command))
            print(f"round {number + 1}: " + ", ".join(f"{what} {times[-1]:.2f} s" for what, times in took.items()), file=sys.stderr)
        whole = statistics.median(took["prepare"])
        for what, times in took.items():
            print(f"{what}: {statistics.median(times):.2f} s ({min(times):.2f} to {max(times):.2f}), {statistics.median(times) / whole:.2f} of prepare")


if __name__ == "__main__":
    main()
