#!/usr/bin/env python3
"""Measures what docs/MAPS.md shows, in rounds, and prints the rows of its tables.

    bench/map_figures.py [--rounds ROUNDS] [--nodes N ..] [--extract FILE] [--folder FOLDER] [--open NODES] [--places PLACES]

The converter: `tools/osm_to_gr` on the synthetic maps of bench/make_map.cpp, by default of 200,000 and 20,000,000 nodes, and on the
extract where FILE names one (tools/fetch_extract). In each round, by default of three, each map has its turn once; what is shown is
the median of the rounds. Seconds are of the wall clock and of the processors. Memory is the greatest resident size of a process,
pages of mapped files included, and behind it the greatest that the processes had at one time of their own, without these pages; both
are in MB of 1,000,000 bytes, and in bytes for each node of the map. Loads are those of the last minute before and after each run, the
least and the greatest; a machine that does nothing else has less than 1 before and 4 after. All rounds have to write the same bytes.

The network: one of so many nodes, by default 10,000,000 (bench/make_roads.py; 0 leaves it out), is opened, and the nodes nearest to
places, by default 1,000, are looked up one by one and all at once, each round in a process of its own. Memory is the process's own.

It needs g++, libosmium2-dev and tools/packages.txt. The maps and the network are kept in FOLDER, where one is given.
"""
import contextlib
import hashlib
import os
import pathlib
import re
import statistics
import subprocess
import sys
import tempfile
import threading
import time
import typing

from kit import counted
from kit.program import ROOT

NODES = [200_000, 20_000_000]
PYTHON = "/usr/bin/python3"
SIZE = re.compile(r": (\d+) nodes, (\d+) arcs, ")
# Opens a network, and looks up places in the middle half of its box; prints seconds, and kB of its own memory
OPENED = """
import random, sys, time
from domethyme.network import network, net_file
def own():
    return int(next(line for line in open("/proc/self/status") if line.startswith("RssAnon")).split()[1])
prefix, count = sys.argv[1], int(sys.argv[2])
before, start = own(), time.perf_counter()
opened = network.Network(prefix)
places = opened._places
took, more = time.perf_counter() - start, own() - before
about = net_file.read(prefix + ".net").about
west, south, east, north = (about[each] / net_file.UNITS for each in ("west", "south", "east", "north"))
draw = random.Random(1)
lon = [west + (east - west) * draw.uniform(0.25, 0.75) for _ in range(count)]
lat = [south + (north - south) * draw.uniform(0.25, 0.75) for _ in range(count)]
for each in range(0, count, 10):
    opened.nearest(lon[each], lat[each])
start = time.perf_counter()
one = [opened.nearest(*place) for place in zip(lon, lat)]
alone, start = (time.perf_counter() - start) / count, time.perf_counter()
nodes, away = opened.nearest(lon, lat)
together = (time.perf_counter() - start) / count
assert list(zip(nodes.tolist(), away.tolist())) == one
print(took, more, alone, together, own() - before)
"""


class Run(typing.NamedTuple):
    """What a run took: seconds, bytes, and the loads before and after."""

    wall: float
    processor: float
    resident: float
    own: float
    before: float
    after: float


def own_bytes(pid):
    """The bytes that a process and those that it started have of their own."""
    found = 0
    with contextlib.suppress(OSError):
        for line in pathlib.Path(f"/proc/{pid}/status").read_text().splitlines():
            if line.startswith(("RssAnon:", "RssShmem:")):
                found += int(line.split()[1]) * 1024
        for child in pathlib.Path(f"/proc/{pid}/task/{pid}/children").read_text().split():
            found += own_bytes(child)
    return found


def taken(words):
    """Runs the words, which have to end with status 0. Returns the Run, and what was printed on standard error."""
    before, start = os.getloadavg()[0], time.perf_counter()
    child = subprocess.Popen([str(word) for word in words], stderr=subprocess.PIPE, text=True)
    own, ended = [0], threading.Event()

    def watch():
        while not ended.wait(0.05):
            own.append(own_bytes(child.pid))

    watcher = threading.Thread(target=watch)
    watcher.start()
    said = child.stderr.read()
    _, status, usage = os.wait4(child.pid, 0)
    wall = time.perf_counter() - start
    child.returncode = os.waitstatus_to_exitcode(status)
    ended.set()
    watcher.join()
    if child.returncode:
        sys.exit(f"{words[0]} ended with {child.returncode}: {said[-300:]}")
    processor = usage.ru_utime + usage.ru_stime
    return Run(wall, processor, usage.ru_maxrss * 1024, max(own), before, os.getloadavg()[0]), said


def made_map(folder, nodes):
    """A synthetic map of so many nodes and seed 1, and how many it has."""
    maker, path, count = folder / "make_map", folder / f"{nodes}.osm.pbf", folder / f"{nodes}.count"
    if not maker.exists():
        source = ROOT / "bench/make_map.cpp"
        subprocess.run(["g++", "-std=c++17", "-O2", "-o", maker, source, "-lz", "-lpthread"], check=True)
    if not count.exists():
        count.write_text(subprocess.run([maker, str(nodes), "1", path], check=True, stdout=subprocess.PIPE, text=True).stdout)
    return path, int(count.read_text().split()[0])


def digest(prefix):
    """The SHA-256 of a network's files."""
    found = hashlib.sha256()
    for ending in (".gr", ".net"):
        with open(f"{prefix}{ending}", "rb") as file:
            while block := file.read(1 << 24):
                found.update(block)
    return found.hexdigest()


def row(*cells):
    print("| " + " | ".join(str(cell) for cell in cells) + " |", flush=True)


def heads(*cells):
    row(*cells)
    print("|---" * len(cells) + "|", flush=True)


def median(runs, name):
    return statistics.median(getattr(run, name) for run in runs)


def memory(size, nodes):
    return f"{size / 1e6:,.0f} MB, {size / nodes:,.0f} bytes"


def converted(maps, rounds, folder):
    """The table of the converter. `maps` are names, paths and numbers of nodes."""
    runs = {name: [] for name, _, _ in maps}
    sizes, digests = {}, {}
    for number in range(1, rounds + 1):
        for name, path, _ in maps:
            run, said = taken([ROOT / "tools/osm_to_gr", path, folder / "out"])
            runs[name].append(run)
            sizes[name] = SIZE.findall(said)[-1]
            if digests.setdefault(name, digest(folder / "out")) != digest(folder / "out"):
                sys.exit(f"{name}: round {number} wrote other bytes")
            print(f"round {number}, {name}: {run.wall:.1f} s, {run.processor:.1f} s, {run.resident / 1e6:,.0f} MB", file=sys.stderr)
    heads("Map", "Its size", "Nodes of the map", "Seconds", "Nodes a second", "Processor seconds", "Memory", "Its own", "Nodes",
          "Arcs", "Loads before", "and after")
    for name, path, nodes in maps:
        some, (to, arcs) = runs[name], map(int, sizes[name])
        loads = [f"{min(each):.1f} to {max(each):.1f}" for each in zip(*((run.before, run.after) for run in some))]
        wall = median(some, "wall")
        row(name, f"{path.stat().st_size / 1e6:.1f} MB", f"{nodes:,}", f"{wall:.1f}", f"{nodes / wall:,.0f}",
            f"{median(some, 'processor'):.1f}", memory(median(some, "resident"), nodes), memory(median(some, "own"), nodes),
            f"{to:,}", f"{arcs:,}", *loads)
    for name, _, _ in maps:
        print(f"\n{name}: SHA-256 of .gr and .net {digests[name]}")


def opened(prefix, nodes, places, rounds):
    """The table of a network that is opened."""
    environment = {**os.environ, "PYTHONPATH": str(ROOT / "python")}
    words = [PYTHON, "-c", OPENED, str(prefix), str(places)]
    found, loads = [], []
    for _ in range(rounds):
        loads.append(os.getloadavg()[0])
        text = subprocess.run(words, check=True, env=environment, stdout=subprocess.PIPE, text=True).stdout
        found.append([float(word) for word in text.split()])
    took, more, alone, together, at_end = map(statistics.median, zip(*found))
    print()
    heads("A network of", "is opened in", "its own memory", "`nearest`, a place", f"of {places:,} at once", "its own memory then", "Loads")
    row(f"{nodes:,} nodes", f"{1000 * took:.0f} ms", f"{more * 1024 / 1e6:.1f} MB", f"{1e6 * alone:,.0f} µs", f"{1e6 * together:,.0f} µs",
        f"{at_end * 1024 / 1e6:.1f} MB", f"{min(loads):.1f} to {max(loads):.1f}")


def main():
    words = counted.parser(__doc__)
    words.add_argument("--rounds", type=counted.positive, default=3)
    words.add_argument("--nodes", type=counted.positive, nargs="*", default=NODES, metavar="N")
    words.add_argument("--extract", type=pathlib.Path, metavar="FILE")
    words.add_argument("--extract-nodes", type=counted.positive, default=65_733, metavar="N", help="the nodes of the extract (65733)")
    words.add_argument("--folder", type=pathlib.Path)
    words.add_argument("--open", type=int, default=10_000_000, metavar="NODES")
    words.add_argument("--places", type=counted.positive, default=1_000)
    options = words.parse_args()
    if not options.nodes and not options.extract and not options.open:
        words.error("there is nothing to measure")
    with tempfile.TemporaryDirectory() if options.folder is None else contextlib.nullcontext(options.folder) as folder:
        folder = pathlib.Path(folder)
        folder.mkdir(parents=True, exist_ok=True)
        subprocess.run([ROOT / "tools/build_converter"], check=True, stdout=subprocess.DEVNULL)
        maps = [("the extract", options.extract, options.extract_nodes)] if options.extract else []
        maps += [(f"synthetic, `{nodes} 1`", *made_map(folder, nodes)) for nodes in options.nodes]
        if maps:
            converted(maps, options.rounds, folder)
        if options.open:
            prefix = folder / f"roads-{options.open}"
            if not prefix.with_suffix(".net").exists():
                subprocess.run([PYTHON, ROOT / "bench/make_roads.py", str(options.open), "1", prefix], check=True, stdout=sys.stderr)
            opened(prefix, options.open, options.places, options.rounds)


if __name__ == "__main__":
    main()
