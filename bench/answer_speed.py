#!/usr/bin/python3
"""Measures answers of the service: processor time of its WSGI function, beside that of an earlier commit in turn.

    bench/answer_speed.py [--beside COMMIT] [--rounds N] [--only WORD ..] [--folder FOLDER] [MAP ..]

A MAP is a file .osm.pbf; by default those of make_map.cpp with 2,550,000 and 65,733 nodes, and the extract of tools/fetch_extract
where FOLDER has it. COMMIT, by default c1d0f328, is taken from the repository's history; its tools make the network, which both
read. Each commit has a process on each network, which opens it and answers in one thread. In each round both answer all requests of a
kind, one after the other: 20 routes of places that are drawn, 20 isochrones, or some tables. A line of the table has the median
and the 99th percentile of all answers in ms of processor time, of both commits, the ratio of the medians with its range over the rounds,
and how many answers are the same but for last digits, hints and contours. Below it are the greatest resident sizes.

It needs g++, libosmium2-dev, the proved program and the library. A warm-up round of each kind isn't counted.
"""
import argparse
import json
import os
import pathlib
import random
import statistics
import subprocess
import sys
import tempfile
import time
from collections.abc import Iterator, Sequence
from typing import Any, NamedTuple

from kit import counted
from kit.program import LIBRARY, PROGRAM, ROOT, need_program

PYTHON = "/usr/bin/python3"
MAPS = (2_550_000, 65_733)
EXTRACT = "liechtenstein-2013-08-03.osm.pbf"
ROUTES, SEED = 20, 1
FULL = "overview=full&geometries=geojson&steps=true"
# The parameters of each kind of request, and how many places it has.
KINDS = {
    "nearest": ("nearest", 1, ""),
    "route, overview=false": ("route", 2, "overview=false"),
    "route": ("route", 2, ""),
    "route, full GeoJSON and steps": ("route", 2, FULL),
    "route, steps and annotations": ("route", 2, "steps=true&annotations=true"),
    "route by 5 places, full GeoJSON and steps": ("route", 5, FULL),
    **{f"table {count}x{count}": ("table", count, "") for count in (10, 50, 100)},
    **{f"isochrone of {minutes} minutes": ("isochrone", 1, f"contours_minutes={minutes}&polygons=true")
       for minutes in ("5", "10", "30", "60", "5,10,15")},
}
# How many requests there are of a kind, where there aren't as many as routes.
COUNTS = {"table": 5, "isochrone": 5}


class Answer(NamedTuple):
    milliseconds: float
    body: bytes


class Commit:
    """A process that answers by the packages of a commit."""

    def __init__(self, python: pathlib.Path, hierarchy: pathlib.Path, network: pathlib.Path) -> None:
        words = [PYTHON, __file__, "--worker", python, hierarchy, network]
        environ = {**os.environ, "DOMETHYME_LIBRARY": str(LIBRARY)}
        self._process = subprocess.Popen(list(map(str, words)), stdin=subprocess.PIPE, stdout=subprocess.PIPE, env=environ)

    def ask(self, target: str) -> Answer:
        assert self._process.stdin is not None and self._process.stdout is not None
        self._process.stdin.write(f"{target}\n".encode())
        self._process.stdin.flush()
        nanoseconds, length = map(int, self._process.stdout.readline().split())
        return Answer(nanoseconds / 1e6, self._process.stdout.read(length))

    def end(self) -> float:
        """Ends the process, and returns its greatest resident size in MB."""
        status = pathlib.Path(f"/proc/{self._process.pid}/status").read_text()
        self._process.communicate()
        return int(status.partition("VmHWM:")[2].split()[0]) * 1024 / 1e6


def work(python: str, hierarchy: str, network: str) -> None:
    """Answers each line of standard input, a target, by the packages of a folder."""
    sys.path.insert(0, python)
    from domethyme_service.access import AccessPolicy
    from domethyme_service.dataset import DatasetPaths, open_dataset
    from domethyme_service.metrics import SharedMetrics
    from domethyme_service.wsgi import Options, Service

    dataset = open_dataset(DatasetPaths(hierarchy, network))
    service = Service(dataset, Options(AccessPolicy.from_options(["x"], "none"), default_radius=5000.0), SharedMetrics())
    serve(service)


def serve(service: Any) -> None:
    environ = {
        "REQUEST_METHOD": "GET", "HTTP_HOST": "x", "SERVER_PROTOCOL": "HTTP/1.1", "REMOTE_ADDR": "127.0.0.1", "SERVER_NAME": "127.0.0.1"
    }
    for line in sys.stdin:
        begun = time.thread_time_ns()
        body = b"".join(service({**environ, "RAW_URI": line.strip()}, lambda *_: None))
        used = time.thread_time_ns() - begun
        sys.stdout.buffer.write(b"%d %d\n%b" % (used, len(body), body))
        sys.stdout.buffer.flush()


class Network:
    """A map's network and hierarchy in a folder, and the requests."""

    def __init__(self, source: pathlib.Path, folder: pathlib.Path, tools: pathlib.Path) -> None:
        self.name, self.prefix = source.name.partition(".")[0], folder / source.name.partition(".")[0]
        self.hierarchy = self.prefix.with_suffix(".rch")
        if not self.hierarchy.exists():
            convert = "from domethyme_tools.osm_to_gr import main; main()"
            subprocess.run([PYTHON, "-c", convert, source, self.prefix], check=True, stderr=subprocess.DEVNULL, cwd=tools)
            subprocess.run([PROGRAM, "prepare", f"{self.prefix}.gr", self.hierarchy], check=True)
        from domethyme.network import net_file

        found = net_file.read(f"{self.prefix}.net")
        self.nodes, self.arcs = len(found.node_lon), len(found.arc_from)
        places = (found.node_lon[:] / net_file.UNITS).tolist(), (found.node_lat[:] / net_file.UNITS).tolist()
        self.requests = Requests([*zip(*places)], found.box)


class Requests:
    """What is asked on a map, by its nodes' places and its bounding box."""

    def __init__(self, places: Sequence[tuple[float, float]], box: Sequence[float]) -> None:
        west, south, east, north = box
        self.places, self.size = places, min(east - west, north - south)
        self.middle = (west + east) / 2, (south + north) / 2

    def targets(self, kind: str) -> list[str]:
        """The requests of a kind, always the same ones."""
        service, count, query = KINDS[kind]
        draw = random.Random(SEED)
        where = (self.drawn(draw, service, count) for _ in range(COUNTS.get(service, ROUTES)))
        return [f"/{service}/v1/car/{places}?{query}" for places in where]

    def drawn(self, draw: random.Random, service: str, count: int) -> str:
        """Places near nodes: those of isochrones in the middle of the map, others anywhere."""
        some = [draw.choice(self.places) for _ in range(count)]
        if service == "isochrone":
            lon, lat = (side + draw.uniform(-0.05, 0.05) * self.size for side in self.middle)
            some = [(lon, lat)]
        return ";".join(f"{lon + draw.gauss(0, 0.0002):.6f},{lat + draw.gauss(0, 0.0002):.6f}" for lon, lat in some)


def measure(network: Network, commits: list[Commit], rounds: int, kinds: list[str]) -> Iterator[list[str]]:
    """The rows of the table."""
    for kind in kinds:
        targets, took, same = network.requests.targets(kind), [list[list[float]](), list[list[float]]()], 0
        for number in range(rounds + 1):
            answers = [[commit.ask(target) for target in targets] for commit in commits]
            if number:
                for each, some in zip(took, answers):
                    each.append([answer.milliseconds for answer in some])
        for one, other in zip(*answers):
            found, before = json.loads(one.body), json.loads(other.body)
            if "code" in found and found["code"] != "Ok":
                sys.exit(f"answer_speed: {kind}: {found}")
            same += is_same(found, before)
        ratios = [statistics.median(now) / statistics.median(then) for now, then in zip(*took)]
        cells = [cell(sum(each, [])) for each in reversed(took)]
        ratio = f"{statistics.median(ratios):.2f} ({min(ratios):.2f} to {max(ratios):.2f})"
        yield [kind, *cells, ratio, f"{same} of {len(targets)}"]


def cell(milliseconds: list[float]) -> str:
    late = sorted(milliseconds)[int(0.99 * len(milliseconds))]
    return f"{statistics.median(milliseconds):.2f} ({late:.1f})"


def is_same(one: Any, other: Any) -> bool:
    """Whether two answers are the same but for last digits, hints and contours."""
    if isinstance(one, dict) and isinstance(other, dict):
        if one.get("type") == "Feature":
            return bool(one["properties"] == other["properties"])
        return one.keys() == other.keys() and all(is_same(one[name], other[name]) for name in one if name != "hint")
    if isinstance(one, list) and isinstance(other, list):
        return len(one) == len(other) and all(map(is_same, one, other))
    if isinstance(one, float) or isinstance(other, float):
        return one is not None and other is not None and abs(one - other) <= 0.0011
    return bool(one == other)


def make_maps(folder: pathlib.Path) -> list[pathlib.Path]:
    """The maps that nobody named."""
    program = folder / "make_map"
    subprocess.run(["g++", "-std=c++17", "-O2", "-o", program, ROOT / "bench/make_map.cpp", "-lz", "-lpthread"], check=True)
    found = [folder / f"made-{nodes}.osm.pbf" for nodes in MAPS]
    for nodes, path in zip(MAPS, found):
        if not path.exists():
            subprocess.run([program, str(nodes), "1", path], check=True, stdout=subprocess.DEVNULL)
    return [*found, *([folder / EXTRACT] if (folder / EXTRACT).exists() else [])]


def unpack(commit: str, folder: pathlib.Path) -> pathlib.Path:
    """The Python packages of a commit, in a folder below this one."""
    found = folder / commit
    if not found.exists():
        found.mkdir(parents=True)
        packed = subprocess.run(["git", "-C", ROOT, "archive", commit, "python"], check=True, stdout=subprocess.PIPE).stdout
        subprocess.run(["tar", "x", "-C", found], input=packed, check=True)
    return found / "python"


def main() -> None:
    if sys.argv[1:2] == ["--worker"]:
        return work(*sys.argv[2:])
    words = counted.parser(__doc__)
    words.add_argument("maps", metavar="MAP", type=pathlib.Path, nargs="*")
    words.add_argument("--beside", metavar="COMMIT", default="c1d0f328")
    words.add_argument("--rounds", type=counted.positive, default=5)
    words.add_argument("--only", nargs="+", metavar="WORD", default=[""])
    words.add_argument("--folder", type=pathlib.Path)
    given = words.parse_args()
    with tempfile.TemporaryDirectory() as temporary:
        run(given, (given.folder or pathlib.Path(temporary)).resolve())


def run(given: argparse.Namespace, folder: pathlib.Path) -> None:
    need_program()
    folder.mkdir(parents=True, exist_ok=True)
    before = unpack(given.beside, folder)
    kinds = [kind for kind in KINDS if any(word in kind for word in given.only)]
    for source in given.maps or make_maps(folder):
        network = Network(source.resolve(), folder, before)
        commits = [Commit(python, network.hierarchy, network.prefix) for python in (ROOT / "python", before)]
        load = " ".join(pathlib.Path("/proc/loadavg").read_text().split()[:3])
        print(f"\n{network.name}: {network.nodes:,} nodes, {network.arcs:,} arcs; {given.rounds} rounds, {os.cpu_count()} processors, load {load}\n")
        print(f"| Request | {given.beside}: median (p99) ms | now | ratio (range) | same |\n|---|---|---|---|---|")
        for row in measure(network, commits, given.rounds, kinds):
            print("| " + " | ".join(row) + " |", flush=True)
        now, then = (commit.end() for commit in commits)
        print(f"\ngreatest resident size: {then:.0f} MB before, {now:.0f} MB now, {now / then:.3f}", flush=True)


if __name__ == "__main__":
    main()
