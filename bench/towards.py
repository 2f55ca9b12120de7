#!/usr/bin/python3
"""Measures what leads to a node beside what is reached from one, and other routes between two, by the Python package, in rounds with
each way in turn.

    towards.py [--nodes N] [--rounds N] [--starts N]

On a network of make_roads.py, by `prepare --order balanced`. A round asks each way of the same drawn nodes. It prints the processor
milliseconds of a call, the median of the rounds; those of the first call, which makes a selection; and the seconds to open the hierarchy
and to open it turned round. Other routes are up to three between a node and the next one drawn, beside a reach from the first and one
towards the second. Some lengths of one call towards a node are compared with a table before.
"""
import os
import pathlib
import statistics
import subprocess
import sys
import tempfile
import time

import numpy as np

from kit.counted import parser  # (finds domethyme too)

import domethyme
from domethyme.router import Router

HERE = pathlib.Path(__file__).resolve().parent
# Nodes whose lengths to a node are compared with those of a table.
COMPARED = 1000


def seconds(call):
    """The processor seconds of a call, and what it returns."""
    begun = time.process_time()
    found = call()
    return time.process_time() - begun, found


def opened(data, is_turned):
    """The processor seconds to open the bytes of a hierarchy."""
    spent, router = seconds(lambda: Router(data, "n", is_turned))
    router.close()
    return spent


def main():
    words = parser(__doc__)
    words.add_argument("--nodes", type=int, default=1_000_000, metavar="N", help="nodes of the network (1,000,000)")
    words.add_argument("--rounds", type=int, default=5, metavar="N", help="rounds (5)")
    words.add_argument("--starts", type=int, default=20, metavar="N", help="nodes of a round (20)")
    options = words.parse_args()
    draw, load = np.random.default_rng(1), os.getloadavg()[0]
    with tempfile.TemporaryDirectory() as folder:
        subprocess.run([sys.executable, HERE / "make_roads.py", str(options.nodes), "7", f"{folder}/n"], check=True, stdout=subprocess.DEVNULL)
        domethyme.prepare(f"{folder}/n.gr", f"{folder}/n.rch", order="balanced").close()
        file = pathlib.Path(f"{folder}/n.rch")
        print("opened {:.2f} s, turned {:.2f} s".format(*(opened(file.read_bytes(), is_turned) for is_turned in (False, True))))
        hierarchy = domethyme.Hierarchy(file, network=f"{folder}/n")
        hierarchy.length(0, 1)
        hierarchy._towards()  # (so that the first call of each way makes a selection alone)
        first = [1000 * seconds(lambda: hierarchy.reach([0], towards=towards))[0] for towards in (False, True)]
        print(f"first call from {first[0]:.1f} ms, towards {first[1]:.1f} ms")
        node, others = int(draw.integers(hierarchy.nodes)), draw.integers(hierarchy.nodes, size=COMPARED)
        if (hierarchy.reach([node], towards=True)[others] != hierarchy.matrix(others, np.array([node]))[:, 0]).any():
            sys.exit("the lengths towards a node differ from those of a table")
        took, found, places = {"from": [], "towards": [], "other routes": []}, [], np.column_stack((hierarchy.network.lon, hierarchy.network.lat))
        hierarchy.alternatives(places[:2])
        for _ in range(options.rounds):
            nodes = draw.integers(hierarchy.nodes, size=options.starts).tolist()
            calls = {
                "from": lambda node, _: hierarchy.reach([node]), "towards": lambda node, _: hierarchy.reach([node], towards=True),
                "other routes": lambda node, other: hierarchy.alternatives(places[[node, other]])
            }
            for name, call in calls.items():
                answers = [seconds(lambda: call(*pair)) for pair in zip(nodes, [*nodes[1:], nodes[0]])]
                took[name].append(1000 * sum(spent for spent, _ in answers) / len(answers))
            found += [max(0, len(routes) - 1) for _, routes in answers]
    for name, values in took.items():
        print(f"{name}, ms: median {statistics.median(values):.2f}, from {min(values):.2f} to {max(values):.2f}")
    ratios = [there / here for here, there in zip(took["from"], took["towards"])]
    whole = [other / (here + there) for here, there, other in zip(*took.values())]
    print(f"other routes: {statistics.mean(found):.2f} of 3, {100 * np.count_nonzero(found) / len(found):.0f} % have one or more")
    for name, values in (("towards by from", ratios), ("other routes by both", whole)):
        print(f"{name}: median {statistics.median(values):.2f}, from {min(values):.2f} to {max(values):.2f}")
    print(f"load {load:.1f} before, {os.getloadavg()[0]:.1f} after, {os.cpu_count()} processors")


if __name__ == "__main__":
    main()
