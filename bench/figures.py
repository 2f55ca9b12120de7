#!/usr/bin/python3
"""Draws the pictures of docs/PERFORMANCE.md, of the figures that are stored in docs/.

    bench/figures.py [--ranks] [--nodes N] [--rounds ROUNDS]

ratios.svg has the ratios to programs in C++ (speed.csv), costs.svg processor time and memory against nodes (speed.csv, scale.csv),
workers.svg what the processor time of one worker and of four goes into (workers.csv), and ranks.svg the time and the settled nodes of
a pair against its Dijkstra rank (ranks.csv): the target is the 2^k-th node that Dijkstra's algorithm settles from its source.

With --ranks the last one is measured first, on a sparse network (make_sparse.cpp), by default of 264,346 nodes, with one pair of each
rank for each of 200 random sources. Times are of the processor, for each pair of a run of 10,000, less a run without pairs; settled
nodes are counted by route.cpp, which does the same; the search without a hierarchy (plain_search.cpp) has 20 of the pairs, 5 times. It needs g++,
Debian's python3-scipy and the proved program, or the path in ROUTECLI. The pictures need python3-matplotlib.
"""
import collections
import csv
import os
import pathlib
import random
import statistics
import subprocess
import tempfile
import typing

import speed_page
from kit import networks
from kit.counted import parser, positive
from kit.program import PROGRAM, Runs, need_compiled, need_program

DOCS = speed_page.DOCS
ORDERS = ["balanced", "edges"]
PLAIN = "Dijkstra, C++"
SOURCES, REPEATED, FEW, FIRST = 200, 50, 20, 4
LEAST_PLAIN = 14  # below it a search's time is lost in what reading the graph takes more or less
HEADS = ["search", "rank", "round", "seconds", "settled"]


def drawn(graph: pathlib.Path) -> dict[int, list[tuple[int, int]]]:
    """Pairs by their ranks' exponents, with nodes from 1."""
    import numpy
    import scipy.sparse

    nodes = int(next(line for line in graph.open() if line.startswith("p ")).split()[2])
    arcs = numpy.array([line.split()[1:] for line in graph.open() if line.startswith("a ")], dtype=numpy.int64)
    arcs = arcs[numpy.lexsort((arcs[:, 2], arcs[:, 1], arcs[:, 0]))]
    first = numpy.append(True, (arcs[1:, :2] != arcs[:-1, :2]).any(axis=1))  # the lightest of parallel arcs
    start, end, weight = arcs[first].T
    matrix = scipy.sparse.csr_matrix((weight, (start - 1, end - 1)), shape=(nodes, nodes))
    pairs = collections.defaultdict(list)
    for source in random.Random(1).sample(range(nodes), SOURCES):
        lengths = scipy.sparse.csgraph.dijkstra(matrix, indices=source)
        settled = numpy.argsort(lengths, kind="stable")[: int(numpy.isfinite(lengths).sum())]
        for power in range(FIRST, len(settled).bit_length()):
            pairs[power].append((source + 1, int(settled[2**power - 1]) + 1))
    return pairs


def measure(nodes: int, rounds: int) -> None:
    rows = []
    with tempfile.TemporaryDirectory() as name:
        folder, runs = pathlib.Path(name), Runs(name)
        sparse, plain, same = (need_compiled(folder, each) for each in ("make_sparse", "plain_search", "route"))
        graph, file, none = folder / "network.gr", folder / "pairs", folder / "none"
        subprocess.run([str(word) for word in (sparse, nodes, 0, 1, graph)], check=True, stdout=subprocess.DEVNULL, stderr=subprocess.DEVNULL)
        none.write_text(networks.pairs_text([]))
        hierarchies = {order: folder / f"{order}.rch" for order in ORDERS}
        for order, made in hierarchies.items():
            runs.taken([PROGRAM, "prepare", "--workers", 1, "--order", order, graph, made])
        drawn_pairs = drawn(graph)
        for number in range(1, rounds + 1):
            for order, made in hierarchies.items():
                loading = runs.taken([PROGRAM, "route", made, none]).processor
                for power, pairs in drawn_pairs.items():
                    file.write_text(networks.pairs_text(pairs * REPEATED))
                    taken = runs.taken([PROGRAM, "route", made, file]).processor - loading
                    file.write_text(networks.pairs_text(pairs))
                    said = runs.taken([same, "--times", made, file]).said.split()
                    rows.append([order, power, number, taken / len(pairs) / REPEATED, float(said[said.index("settled") + 1])])
            reading = runs.taken([plain, graph, none]).processor
            for power, pairs in drawn_pairs.items():
                file.write_text(networks.pairs_text(pairs[:FEW] * 5))
                taken = runs.taken([plain, graph, file]).processor - reading
                rows.append([PLAIN, power, number, taken / len(pairs[:FEW]) / 5, 2**power])
            print(f"round {number}, load {os.getloadavg()[0]:.1f}", flush=True)
    with open(DOCS / "ranks.csv", "w", newline="") as out:
        csv.writer(out, lineterminator="\n").writerows([HEADS, *([*row[:3], f"{row[3]:.3e}", row[4]] for row in rows)])


def read(name: str) -> list[dict[str, str]]:
    with open(DOCS / name) as lines:
        return list(csv.DictReader(lines))


def draw_ranks(left: typing.Any, right: typing.Any) -> None:
    rows = read("ranks.csv")
    for search in dict.fromkeys(row["search"] for row in rows):
        found = collections.defaultdict(list)
        for row in rows:
            if row["search"] == search:
                found[int(row["rank"])].append((float(row["seconds"]), float(row["settled"])))
        ranks, style = sorted(found), "k--" if search == PLAIN else "o-"
        seconds, settled = ([[each[part] for each in found[rank]] for rank in ranks] for part in (0, 1))
        begin = ranks.index(LEAST_PLAIN) if search == PLAIN else 0
        line = left.plot(ranks[begin:], [statistics.median(each) for each in seconds[begin:]], style, label=search, markersize=3)[0]
        left.fill_between(ranks[begin:], [min(each) for each in seconds[begin:]], [max(each) for each in seconds[begin:]], color=line.get_color(), alpha=0.2)
        right.plot(ranks, [statistics.median(each) for each in settled], style, label=search, markersize=3)
    for axes, title in ((left, "processor seconds of a pair"), (right, "settled nodes of a pair")):
        axes.set(yscale="log", xlabel="Dijkstra rank, a power of 2", title=title)
        axes.legend()


def draw_ratios(axes: typing.Any) -> None:
    rows = speed_page.compared(speed_page.Measured(speed_page.RUNS, speed_page.FACTS))
    for place, row in enumerate(rows):
        middle = statistics.median(row.ratios)
        axes.plot([row.ratios[0], row.ratios[-1]], [place, place], "-", color="tab:blue")
        axes.plot([middle], [place], "o", color="tab:blue", markersize=4, label="time: median, minimum to maximum" if not place else None)
        if row.instructions:
            axes.plot([row.instructions], [place], "d", color="black", markersize=3.5, fillstyle="none")
        axes.text(1.02, place, f"{middle:.2f} ({row.ratios[0]:.2f} to {row.ratios[-1]:.2f})", transform=axes.get_yaxis_transform(), va="center", fontsize=7)
    if any(row.instructions for row in rows):
        axes.plot([], [], "d", color="black", markersize=3.5, fillstyle="none", label="instructions")
    axes.axvline(1, color="black", linewidth=0.8)
    names = [row.network if place and rows[place - 1].title == row.title else f"{row.title}: {row.network}" for place, row in enumerate(rows)]
    axes.set_yticks(range(len(rows)), names, fontsize=7)
    axes.invert_yaxis()
    axes.set(xscale="log", xlabel="times that of C++ (smaller is faster)")
    axes.set_xticks([0.5, 0.7, 1, 1.5, 2, 3], ["0.5", "0.7", "1", "1.5", "2", "3"])
    axes.minorticks_off()
    axes.legend(fontsize=7)


def draw_costs(left: typing.Any, right: typing.Any) -> None:
    measured, large = speed_page.Measured(speed_page.RUNS, speed_page.FACTS), read("scale.csv")
    sparse, others = ([name for name in measured.networks if name.startswith(speed_page.SHOWN) == is_shown] for is_shown in (True, False))
    for axes, head, unit in ((left, "processor", "s"), (right, "megabytes", "MB")):
        for label, job in {"prepare, four workers": "prepare balanced 4", "check": "check balanced", "route, no pairs": "route balanced none"}.items():
            values = {name: statistics.median(measured.rounds(name, job, head).values()) for name in sparse + others}
            line = axes.plot([measured.nodes(name) for name in sparse], [values[name] for name in sparse], "o-", label=label, markersize=4)[0]
            axes.plot([measured.nodes(name) for name in others], [values[name] for name in others], "x", color=line.get_color(), markersize=5)
            later = [(int(row["nodes"]), float(row[head])) for row in large if row["job"] == label and row[head]]
            if later:
                axes.plot(*zip(*later), "o", color=line.get_color(), markersize=4, fillstyle="none")
        axes.set(xscale="log", yscale="log", xlabel="nodes", title=f"{'processor time' if unit == 's' else 'memory'}, {unit}")
        axes.legend()


def draw_workers(axes: typing.Any) -> None:
    rows = read("workers.csv")
    bars = ["four workers", "one worker"]
    begin = [0.0, 0.0]
    for row in rows:
        widths = [float(row[bar]) for bar in bars]
        axes.barh(bars, widths, left=begin, label=row["part"])
        begin = [one + width for one, width in zip(begin, widths)]
    axes.legend(fontsize=7, ncols=3, loc="lower center", bbox_to_anchor=(0.5, 1))
    axes.set(xlabel="processor seconds, 264,346 nodes")


def draw() -> None:
    import matplotlib

    matplotlib.use("svg")
    import matplotlib.pyplot

    matplotlib.rcParams.update({"svg.fonttype": "none", "svg.hashsalt": "figures", "font.family": "sans-serif", "font.size": 9})
    pictures = {"ranks": (draw_ranks, 2, (9.5, 4)), "ratios": (draw_ratios, 1, (9.5, 7)), "costs": (draw_costs, 2, (9.5, 4)), "workers": (draw_workers, 1, (9.5, 2.6))}
    for name, (drawing, count, size) in pictures.items():
        figure, axes = matplotlib.pyplot.subplots(1, count, figsize=size, squeeze=False)
        drawing(*axes[0])
        for each in axes[0]:
            each.grid(True, alpha=0.3)
        figure.tight_layout()
        figure.savefig(DOCS / f"{name}.svg", metadata={"Date": None, "Creator": None})


def main() -> None:
    words = parser(__doc__)
    words.add_argument("--ranks", action="store_true", help="measures ranks.csv anew")
    words.add_argument("--nodes", type=positive, default=264_346)
    words.add_argument("--rounds", type=positive, default=3)
    options = words.parse_args()
    if options.ranks:
        need_program()
        measure(options.nodes, options.rounds)
    draw()


if __name__ == "__main__":
    main()
