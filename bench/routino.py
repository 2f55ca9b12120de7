#!/usr/bin/python3
"""Measures Routino, a route planner that Debian has, beside `osm_to_gr` and `routecli`, on one map.

    bench/routino.py [--map FILE] [--nodes N] [--pairs PAIRS] [--rounds ROUNDS] [--quickest]

The map is FILE, as tools/fetch_extract has it, or a made one of N nodes (make_map.cpp). Both find shortest routes in metres between the
same junctions, or with --quickest each the quickest by its own speeds. Routino's profile is its car's without preferences, and its short
pieces of road are kept, so that its weights are metres too. In each round, in turn: planetsplitter makes its database; osm_to_gr a
network and `routecli prepare --order balanced` a hierarchy; routino-router finds each route in a process of its own, and so does
`routecli route`, which then finds all in one, a hundred times. A line has medians: processor seconds, and MB of the greatest resident size of a process;
of a route the median of all pairs. The last line compares lengths: Routino cuts each piece of road to whole metres, and takes another radius
of the earth, so what is compared is how far the ratio of both differs from its median. It needs Debian's routino and libosmium2-dev, g++, and the proved program, or the
path in ROUTECLI.
"""
import os
import pathlib
import random
import statistics
import subprocess
import tempfile

from kit import networks
from kit.counted import parser, positive
from kit.program import PROGRAM, ROOT, Runs, Taken, need_program

import domethyme

CLASSES = ["motorway", "trunk", "primary", "secondary", "tertiary", "unclassified", "residential", "service"]
CLOSED = ["track", "path", "steps", "cycleway", "ferry"]
PROFILE = [f"--highway-{each}=100" for each in CLASSES] + [f"--highway-{each}=0" for each in CLOSED]
PROFILE += [f"--property-{each}=50" for each in ["paved", "multilane", "bridge", "tunnel"]]
REPEATED = 100  # how often all pairs are asked for in one run
Place = tuple[float, float]


def made_map(folder: pathlib.Path, nodes: int) -> pathlib.Path:
    program, made = folder / "make_map", folder / "map.osm.pbf"
    subprocess.run(["g++", "-std=c++17", "-O2", "-o", program, ROOT / "bench/make_map.cpp", "-lz", "-lpthread"], check=True)
    subprocess.run([program, str(nodes), "1", made], check=True, stdout=subprocess.DEVNULL)
    return made


def drawn(network: pathlib.Path, count: int) -> list[tuple[int, int, Place, Place]]:
    """Pairs of junctions by their numbers from 1, with their places: those whose turns aren't restricted."""
    nodes = domethyme.Network(network).nodes_frame()
    nodes = nodes[nodes["osm"].notna() & (nodes["ends"] == "")]
    draw, places = random.Random(1), list(zip(nodes.index, nodes["lon"], nodes["lat"]))
    pairs = [draw.sample(places, 2) for _ in range(count)]
    return [(start[0] + 1, end[0] + 1, start[1:], end[1:]) for start, end in pairs]


def asked(folder: pathlib.Path, best: str, start: Place, end: Place) -> list[object]:
    words: list[object] = ["/usr/bin/routino-router", f"--dir={folder}", "--prefix=routino", "--profile=motorcar", best, "--exact-nodes-only"]
    ends = [f"--{name}{number}={value}" for number, place in ((1, start), (2, end)) for name, value in zip(("lon", "lat"), place)]
    return [*words, *PROFILE, *ends]


def metres(folder: pathlib.Path, start: Place, end: Place) -> float:
    words = [str(word) for word in [*asked(folder, "--shortest", start, end), "--output-text-all", "--output-stdout"]]
    lines = subprocess.run(words, check=True, stdout=subprocess.PIPE, text=True).stdout.splitlines()
    return float(lines[-1].split("\t")[6]) * 1000


def main() -> None:
    words = parser(__doc__)
    words.add_argument("--map", type=pathlib.Path)
    words.add_argument("--nodes", type=positive, default=200_000)
    words.add_argument("--pairs", type=positive, default=100)
    words.add_argument("--rounds", type=positive, default=3)
    words.add_argument("--quickest", action="store_true")
    options = words.parse_args()
    need_program()
    with tempfile.TemporaryDirectory() as name:
        folder, runs = pathlib.Path(name), Runs(name)
        source, network, hierarchy = options.map or made_map(folder, options.nodes), folder / "own", folder / "own.rch"
        best, weight = ("--quickest", "time") if options.quickest else ("--shortest", "length")
        split = ["/usr/bin/planetsplitter", f"--dir={folder}", "--prefix=routino", "--tagging=/usr/share/routino/tagging-drive.xml", "--prune-none", source]
        taken: dict[str, list[Taken]] = {}

        def run(what: str, given: list[object], out: pathlib.Path | str = os.devnull) -> Taken:
            taken.setdefault(what, []).append(runs.taken(given, out))
            return taken[what][-1]

        for _ in range(options.rounds):
            run("planetsplitter", split)
            run("osm_to_gr", [ROOT / "tools/osm_to_gr", "--weight", weight, source, network])
            run("prepare", [PROGRAM, "prepare", "--order", "balanced", f"{network}.gr", hierarchy])
            pairs, file, found = drawn(network, options.pairs), folder / "pairs", folder / "found"
            for start, end, *ends in pairs:
                run("routino-router, a route", [*asked(folder, best, *ends), "--output-none", "--quiet"])
                file.write_text(networks.pairs_text([(start, end)]))
                run("route, one pair", [PROGRAM, "route", hierarchy, file])
            file.write_text(networks.pairs_text([pair[:2] for pair in pairs] * REPEATED))
            run(f"route, {len(pairs) * REPEATED:,} pairs", [PROGRAM, "route", hierarchy, file], found)
        sizes = (f"{graph} {sum(each.stat().st_size for each in folder.glob(names)) / 1e6:.1f} MB" for graph, names in (("Routino's files", "routino-*"), ("ours", "own.*")))
        print(f"{source.name}, {best}, {len(pairs)} pairs, {options.rounds} rounds, load {os.getloadavg()[0]:.1f}; {', '.join(sizes)}")
        for what, each in taken.items():
            print(f"  {what}: {statistics.median(one.processor for one in each):.4f} s, {max(one.memory for one in each):.0f} MB")
        if options.quickest:
            return
        theirs = [metres(folder, *ends) for _, _, *ends in pairs]
        ours = [int(line.split()[3]) / 100 for line in found.read_text().splitlines()[: len(pairs)]]
        ratios = [one / other for one, other in zip(theirs, ours)]
        middle = statistics.median(ratios)
        away = sorted(abs(ratio / middle - 1) for ratio in ratios)
        print(f"  lengths: theirs / ours {middle:.4f}; {sum(each < 0.002 for each in away)} pairs within 0.2 % of it, the others up to {away[-1]:.2%}")


if __name__ == "__main__":
    main()
