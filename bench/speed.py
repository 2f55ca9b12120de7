#!/usr/bin/env python3
"""Measures all that docs/PERFORMANCE.md shows, in one go, and has its tables and pictures written (speed_page.py).

    bench/speed.py [--sparse N ..] [--nodes N ..] [--rounds ROUNDS] [--kept FOLDER] [--only WORD ..] [--no-python] [--page] [--anew]

By default in 5 rounds, and kept in out/speed. The networks are sparse ones with the figures of the challenge's (make_sparse.cpp),
of 264,346 and 1,000,000 nodes (above a million, which scale.py measures, in one round); those
of make_network.py with --roads, of 10,000 and 65,536 nodes; one without --roads, of 65,536 nodes, that is hard to prepare and to ask; and the map of
tools/fetch_extract, in which a node lies at least every 20 metres (left out where neither the folder nor Debian has it). In
each round each job of each network has its turn once, so that a machine that is slow for a while is slow for all of them:

  prepare    by 1 and 4 workers and `balanced`; and up to 300,000 nodes a textbook hierarchy in C++ (hierarchy.cpp), without
             routes
  check      `routecli check` of the hierarchy of one worker
  route      10,000 random pairs, 40,000 near ones, whose ends are at most 20 rows and columns apart, and no pairs, which reads
             the file alone, by the hierarchy of one worker; and by route.cpp, an
             optimised program that does the same
  search     20 of the pairs without a hierarchy: in C++ (plain_search.cpp), by Boost; up to 65,536 nodes in Python by igraph
             (python_search.py), and up to 10,000 by NetworkX and in PostgreSQL by pgRouting (pgrouting_search.py)
  table      from 1,000,000 nodes down to 200,000, tables by the library (library_rows.cpp) and by an RPHAST in C++ (rows.cpp):
             the first call, which selects, and a later one; what is reached from a node
  counted    once, up to 300,000 nodes: instructions of preparing, routes and tables, by cachegrind
  read       the graph's text alone: `answer` with a text of pairs that is refused, and read_graph.cpp
  answer     100 pairs, up to 10,000 nodes

A job that takes less than a second has three turns in a row, of which the middle one counts. Before each round of a network it
waits until other programs leave the machine alone, for `--wait` seconds at most; if they don't, a line says so, and the run goes
on. Each run is a line of runs.csv in the folder, and what was measured isn't measured again. Rerun the same command to resume an
interrupted run, or with more rounds to add them. Figures of another program, another machine or other networks are refused;
`--anew` drops them. With `--only` those jobs alone whose names begin with one of the words, as "route balanced". Seconds are of the wall clock and
of the processors; memory is the greatest resident size; `others` is how many processors other programs kept busy meanwhile; the
loads are those of the last minute, before and after the run.

All answers are compared: lengths and numbers of arcs with route.cpp, which searches by itself, nodes along the arcs of the
network, and the first 20 of each text with every search. Each hierarchy that is prepared answers 100 pairs, as that of one
worker does. At the end the tables of docs/PERFORMANCE.md and the ratios to C++ are printed, of all that was measured; with `--page` they are written, and
the pictures.

It needs g++ and the proved program, which is crates/routecli/out/routecli (README.md says how to build it) or the path in the
environment variable ROUTECLI. Comparisons whose Debian packages (bench/packages.txt) are missing are left out, and a line says
which.
"""
import csv
import datetime
import hashlib
import json
import multiprocessing
import os
import pathlib
import platform
import random
import re
import shutil
import subprocess
import sys
import time


import speed_page
from kit import counted, networks
from kit.answers import are_answers, costs_in, least_arcs_of
from kit.hierarchy_file import links_in
from kit.program import PROGRAM, ROOT, Runs, compiled, linked, need_compiled, need_program

NODES = [10_000, 65_536]
SPARSE = [264_346, 1_000_000]
HARD = 256
ROUTED = ["balanced"]
WORKERS = {"balanced": [1, 4]}
RANDOM, NEAR, STEPS, FEW, CHECKED = 10_000, 40_000, 20, 20, 100
PAIRS = {"random": RANDOM, "near": NEAR, "few": FEW}
MOST_ANSWERED, MOST_ORDERS, MOST_WHOLE = 10_000, 300_000, 1_000_000
LEAST_TABLES = 200_000
# Of each table the kind of its nodes (rows.hpp), sources, targets, and how many rows rows.cpp works out together.
TABLES = {"100 x 100, random": ("random", 100, 100, 8), "100 x 100, near": ("near", 100, 100, 8),
          "1,000 x 1,000, random": ("random", 1000, 1000, 8), "1,000 x 1,000, near": ("near", 1000, 1000, 8),
          "1 to all": ("all", 1, 1, 1), "16 to all": ("all", 16, 1, 4)}
MEDIANS = ("table", "reach", "counted")  # jobs whose programs take medians, and those that count
REACHED = {"all": 0, "near": 10_000}  # the limit, or 0 for none
SEED = 1
OTHERS = {"igraph": 65_536, "networkx": 10_000, "pgrouting": 10_000}  # up to how many nodes each searches
PYTHON = "/usr/bin/python3"
HEADS = ["network", "job", "round", "seconds", "processor", "megabytes", "others", "before", "load", "when"]
QUIET = 0.1  # processors that others may keep busy
EXTRACT = "liechtenstein-2013-08-03.osm.pbf"


class Network:
    """A network in a folder of its own: its graph, its texts of pairs, and the hierarchies of one worker."""

    def __init__(self, name, folder, count):
        self.name, self.folder, self.count = name, folder / name, count
        self.folder.mkdir(parents=True, exist_ok=True)
        self.graph = self.folder / "network.gr"
        self.facts = {}

    def pairs(self, kind):
        return self.folder / f"{kind}.pairs"

    def file(self, order, workers=1):
        return self.folder / (f"{order}.rch" if workers == 1 else "other.rch")

    def kinds(self):
        return [kind for kind in ["random", "near"] if self.pairs(kind).exists()]

    def drawn(self, side, *more):
        """Made by make_network.py."""
        if not self.graph.exists():
            near = ["--near", STEPS, NEAR, self.pairs("near")]
            networks.made(side, RANDOM, self.graph, self.pairs("random"), *near, *more)
        return self.finished()

    def sparse(self, program):
        """Made by make_sparse.cpp, with as many arcs as it comes to."""
        if not self.graph.exists():
            near = [STEPS, NEAR, self.pairs("near")]
            words = [program, self.count, 0, SEED, self.graph, RANDOM, self.pairs("random"), *near]
            subprocess.run([str(word) for word in words], check=True, stdout=subprocess.DEVNULL, stderr=subprocess.DEVNULL)
        return self.finished()

    def of_map(self):
        """Made of the map, or None where that can't be had."""
        if not self.graph.exists():
            if not (self.folder / EXTRACT).exists():
                if subprocess.run([ROOT / "tools/fetch_extract", self.folder]).returncode != 0:
                    return None
            words = [ROOT / "tools/osm_to_gr", self.folder / EXTRACT, self.folder / "network", "--longest-arc", "20"]
            subprocess.run(words, check=True, stderr=subprocess.DEVNULL)
            nodes, draw = nodes_in(self.graph), random.Random(1)
            pairs = [(draw.randint(1, nodes), draw.randint(1, nodes)) for _ in range(RANDOM)]
            self.pairs("random").write_text(networks.pairs_text(pairs))
        return self.finished()

    def finished(self):
        """With texts of the first pairs of each kind, of no pair, and one that is refused."""
        self.pairs("none").write_text(networks.pairs_text([]))
        self.pairs("bad").write_text("p\n")
        for kind in self.kinds():
            lines = self.pairs(kind).read_text().splitlines(keepends=True)[1:]
            for name, count in [(f"{kind}-few", FEW), (f"{kind}-checked", CHECKED)]:
                self.pairs(name).write_text(f"p aux sp p2p {count}\n" + "".join(lines[:count]))
        self.facts = {"nodes": nodes_in(self.graph), "arcs": networks.arcs_in(self.graph)}
        self.facts["text"] = self.graph.stat().st_size
        self.facts["sha256"] = hashlib.sha256(self.graph.read_bytes()).hexdigest()
        return self


def nodes_in(graph):
    with open(graph) as lines:
        return int(next(line for line in lines if line.startswith("p ")).split()[2])


class Bench:
    """The programs, what was measured, and the facts of each network."""

    def __init__(self, options, folder):
        self.options, self.folder, self.runs = options, folder, Runs(folder)
        self.programs = {name: need_compiled(folder, name) for name in ["route", "hierarchy", "plain_search", "read_graph", "rows"]}
        self.programs["library_rows"] = linked(folder, "library_rows.cpp")
        self.boost = compiled(folder, "boost_search")
        self.others = [] if options.no_python else [kind for kind in OTHERS if is_there(kind)]
        missing = ([] if self.boost else ["Boost"]) + [kind for kind in OTHERS if kind not in self.others]
        if missing:
            print(f"left out: {', '.join(missing)}", file=sys.stderr)
        self.table, self.facts = folder / "runs.csv", folder / "facts.json"
        self.about = about()
        self.told = {"about": self.about, "pairs": PAIRS, "networks": {}}
        if self.facts.exists():
            self.told = json.loads(self.facts.read_text())
            for name in ["program", "machine"]:
                if self.told["about"][name] != self.about[name]:
                    sys.exit(f"{self.facts} is of another {name}: {self.told['about'][name]}; --anew drops it")
            if self.told.get("pairs") != PAIRS:
                sys.exit(f"{self.facts} has other numbers of pairs: {self.told.get('pairs')}; --anew drops it")
        self.done = set()
        if self.table.exists():
            with open(self.table) as lines:
                self.done = {(row["network"], row["job"], int(row["round"])) for row in csv.DictReader(lines)}
        else:
            self.table.write_text(",".join(HEADS) + "\n")

    def enter(self, network):
        known = self.told["networks"].setdefault(network.name, {"links": {}, "settled": {}, **network.facts})
        if known["sha256"] != network.facts["sha256"]:
            sys.exit(f"{network.name} is another network than the one that was measured; --anew drops it")
        network.facts = known
        self.save()

    def save(self):
        self.facts.write_text(json.dumps(self.told, indent=1))

    def note(self, network, job, number, before, others, seconds, taken):
        """A run as a line of the table."""
        when = datetime.datetime.now(datetime.timezone.utc).isoformat(timespec="seconds")
        cells = [network.name, job, number, f"{seconds:.6f}", f"{taken.processor:.3f}", f"{taken.memory:.1f}"]
        with open(self.table, "a", newline="") as out:
            csv.writer(out).writerow([*cells, f"{others:.2f}", f"{before:.2f}", f"{os.getloadavg()[0]:.2f}", when])
        self.done.add((network.name, job, number))

    def jobs(self, network):
        """The jobs of a network by their names, each a function of the round. Those that others need come first. A large
        network has those of `balanced`, and the searches that take no more than minutes."""
        jobs = {}
        is_large = network.count > MOST_ORDERS
        routed = ROUTED[-1:] if is_large else ROUTED
        for order in routed if is_large else WORKERS:
            for workers in WORKERS[order]:
                jobs[f"prepare {order} {workers}"] = self.prepare(network, order, workers)
        for order in routed:
            jobs[f"check {order}"] = self.checking(network, order)
        if not is_large:
            jobs["textbook"] = self.textbook(network)
        for order in routed:
            for kind in ["none", *network.kinds()]:
                jobs[f"route {order} {kind}"] = self.route(network, order, kind)
                jobs[f"route.cpp {order} {kind}"] = self.route_in_cpp(network, order, kind)
        for kind in network.kinds():
            for name in ["plain", *(["boost"] if self.boost else []), *self.others]:
                if name == "plain" or network.count <= OTHERS.get(name, MOST_WHOLE):
                    jobs[f"search {name} {kind}"] = self.search(network, name, kind)
        if network.count >= LEAST_TABLES:
            jobs |= self.tables(network)
        if not is_large and shutil.which("valgrind"):
            jobs |= self.counted(network)
        jobs["read"] = self.reading(network, [PROGRAM, "answer", network.graph, network.pairs("bad")], 5)
        jobs["read.cpp"] = self.reading(network, [self.programs["read_graph"], network.graph], 0)
        if network.count <= MOST_ANSWERED:
            jobs["answer"] = self.reading(network, [PROGRAM, "answer", network.graph, network.pairs("random-checked")], 0)
        return jobs

    def reading(self, network, words, wanted):
        def go():
            taken = self.runs.taken(words, wanted=wanted)
            return taken.wall, taken

        return go

    def tables(self, network):
        """By the library, and by rows.cpp: the first call, and a later one by the kept selection."""
        jobs = {}
        for name in TABLES:
            for program in ["table", "table.cpp"]:
                for at, call in enumerate(["first", "kept"]):
                    jobs[f"{program} {name} {call}"] = self.ask_table(network, self.asking(network, program, name, 5, 1), name, at)
        rows = [self.programs["library_rows"], self.prepared(network, "balanced")]
        for name, limit in REACHED.items():
            for at, call in enumerate(["first", "kept"]):
                jobs[f"reach {name} {call}"] = self.ask_table(network, [*rows, "reach", 1, limit, 5, 1, 1], f"reach {name}", at)
        return jobs

    def asking(self, network, program, name, rounds, kept):
        """The words that ask for a table in so many rounds, with so many calls by the kept selection in each."""
        *nodes, together = TABLES[name]
        asked = [self.prepared(network, "balanced"), *nodes, rounds, kept]
        return [self.programs["rows"], *asked, together] if program == "table.cpp" else [self.programs["library_rows"], *asked, 1]

    def ask_table(self, network, words, name, at):
        def go():
            found = self.folder / "found"
            taken = self.runs.taken(words, found)
            said = found.read_text().split()
            if network.facts.setdefault("tables", {}).setdefault(name, said[2]) != said[2]:
                sys.exit(f"{network.name}: the lengths of the table {name} differ")
            if "reach" in words:
                network.facts.setdefault("reached", {})[name] = int(said[3])
            return float(said[at]) / 1000, taken

        return go

    def counted(self, network):
        """Instructions of what has a ratio."""
        graph, file, none = network.graph, self.prepared(network, "balanced"), network.pairs("none")
        words = {"prepare balanced 1": [PROGRAM, "prepare", "--workers", 1, "--order", "balanced", graph, network.file("balanced", 4)],
                 "textbook": [self.programs["hierarchy"], graph, none]}
        for kind in ["none", "random"]:
            words[f"route balanced {kind}"] = [PROGRAM, "route", file, network.pairs(kind)]
            words[f"route.cpp balanced {kind}"] = [self.programs["route"], file, network.pairs(kind)]
        if network.count >= LEAST_TABLES:
            for program in ["table", "table.cpp"]:
                for name in TABLES:
                    for calls, asked in enumerate([(0, 0), (1, 0), (1, 1)]):
                        words[f"{program} {name} {calls}"] = self.asking(network, program, name, *asked)
        return {f"counted {job}": self.instructions(network, job, asked) for job, asked in words.items()}

    def instructions(self, network, job, words):
        def go():
            taken = self.runs.taken([shutil.which("valgrind"), "--tool=cachegrind", "--cache-sim=no", "--cachegrind-out-file=/dev/null", *words])
            count = re.search(r"I\s+refs:\s+([\d,]+)", taken.said)[1]
            network.facts.setdefault("instructions", {})[job] = int(count.replace(",", ""))
            return taken.wall, taken

        return go

    def prepare(self, network, order, workers):
        def go():
            file = network.file(order, workers)
            words = [PROGRAM, "prepare", "--workers", workers, "--order", order, network.graph, file]
            taken = self.runs.taken(words)
            network.facts["links"][f"{order} {workers}"] = round(links_in(file) / network.facts["arcs"], 2)
            self.check_few(network, file)
            return taken.wall, taken

        return go

    def checking(self, network, order):
        def go():
            taken = self.runs.taken([PROGRAM, "check", network.graph, self.prepared(network, order)])
            return taken.wall, taken

        return go

    def check_few(self, network, file):
        found, wanted = self.folder / "found", network.folder / "checked"
        self.runs.taken([PROGRAM, "route", file, network.pairs("random-checked")], found)
        if not wanted.exists():
            self.runs.taken([self.programs["plain_search"], network.graph, network.pairs("random-checked")], wanted)
        if costs_in(found) != costs_in(wanted):
            sys.exit(f"{network.name}: answers by {file.name} differ from the plain search")

    def textbook(self, network):
        def go():
            taken = self.runs.taken([self.programs["hierarchy"], network.graph, network.pairs("none")])
            prepared, links, _ = map(float, taken.said.split())
            network.facts["links"]["textbook"] = round(links, 2)
            return prepared, taken

        return go

    def route(self, network, order, kind):
        def go():
            found = self.folder / "found"
            taken = self.runs.taken([PROGRAM, "route", self.prepared(network, order), network.pairs(kind)], found)
            if kind != "none":
                self.check(network, order, kind, found)
            return taken.wall, taken

        return go

    def prepared(self, network, order):
        """The hierarchy of one worker, made anew where it is gone."""
        file = network.file(order)
        if not file.exists():
            self.runs.taken([PROGRAM, "prepare", "--workers", "1", "--order", order, network.graph, file])
        return file

    def check(self, network, order, kind, found):
        """Compares answers, once for each order and kind, in a process of its own, since that takes memory."""
        checked = network.facts.setdefault("checked", [])
        if f"{order} {kind}" in checked:
            return
        wanted = self.folder / "wanted"
        self.runs.taken([self.programs["route"], network.file(order), network.pairs(kind)], wanted)
        child = multiprocessing.Process(target=check_walks, args=(network.graph, found, wanted))
        child.start()
        child.join()
        if child.exitcode != 0:
            sys.exit(f"{network.name}, {order}, {kind}: the answers differ")
        checked.append(f"{order} {kind}")

    def route_in_cpp(self, network, order, kind):
        def go():
            words = [self.programs["route"], self.prepared(network, order), network.pairs(kind)]
            taken = self.runs.taken(words)
            if kind != "none" and f"{order} {kind}" not in network.facts["settled"]:
                said = self.runs.taken([words[0], "--times", *words[1:]]).said.split()
                network.facts["settled"][f"{order} {kind}"] = float(said[said.index("settled") + 1])
            return taken.wall, taken

        return go

    def search(self, network, name, kind):
        words = {"plain": [self.programs["plain_search"]], "boost": [self.boost]}
        words |= {each: [PYTHON, ROOT / "bench/python_search.py", each] for each in ["igraph", "networkx"]}
        words["pgrouting"] = [PYTHON, ROOT / "bench/pgrouting_search.py"]

        def go():
            found, wanted = self.folder / "found", network.folder / f"{kind}-few.wanted"
            taken = self.runs.taken([*words[name], network.graph, network.pairs(f"{kind}-few")], found)
            if not wanted.exists():
                self.runs.taken([PROGRAM, "route", self.prepared(network, "balanced"), network.pairs(f"{kind}-few")], wanted)
            lengths = [[line[:4] for line in costs_in(file)] for file in (found, wanted)]
            if lengths[0] != lengths[1]:
                sys.exit(f"{network.name}: {name} answers otherwise")
            said = taken.said.split()
            return float(said[said.index("search") + 1].rstrip("s")), taken

        return go


def check_walks(graph, found, wanted):
    sys.exit(0 if are_answers(found, wanted, least_arcs_of(graph)) else 1)


def middle(go):
    """A run of a job, or the middle one of three where it takes less than a second."""
    first = go()
    return first if first[0] >= 1 else sorted([first, go(), go()], key=lambda run: run[0])[1]


def busy_seconds():
    """Seconds that the processors have been busy, all together, since the machine was started."""
    with open("/proc/stat") as lines:
        user, nice, system, _, _, irq, softirq, *_ = map(int, next(lines).split()[1:])
    return (user + nice + system + irq + softirq) / os.sysconf("SC_CLK_TCK")


def own_seconds():
    """Seconds that this program and those that it ran have kept processors busy."""
    taken = os.times()
    return taken.user + taken.system + taken.children_user + taken.children_system


class Others:
    """How many processors other programs keep busy, from here on."""

    def __init__(self):
        self.start, self.busy, self.own = time.monotonic(), busy_seconds(), own_seconds()

    def processors(self):
        passed = max(time.monotonic() - self.start, 0.01)
        return max(busy_seconds() - self.busy - (own_seconds() - self.own), 0) / passed


def wait_for_quiet(most):
    """Waits until other programs leave the machine alone, for this many seconds at most, and says so if they don't."""
    end = time.monotonic() + most
    while True:
        others = Others()
        time.sleep(1)
        found = others.processors()
        if found <= QUIET:
            return
        if time.monotonic() >= end:
            print(f"other programs keep {found:.1f} processors busy: figures may differ by more", file=sys.stderr)
            return


def is_there(name):
    """Whether a module of Python can be had, or the extension of PostgreSQL."""
    if name == "pgrouting":
        return pathlib.Path("/usr/share/postgresql/15/extension/pgrouting.control").exists()
    return subprocess.run([PYTHON, "-P", "-c", f"import {name}"], stderr=subprocess.DEVNULL).returncode == 0


def about():
    """The machine and the program."""
    with open("/proc/cpuinfo") as lines:
        model = next((line.split(":")[1].strip() for line in lines if line.startswith("model name")), platform.machine())
    memory = os.sysconf("SC_PAGE_SIZE") * os.sysconf("SC_PHYS_PAGES")
    version = subprocess.run([PROGRAM, "--version"], check=True, stdout=subprocess.PIPE, text=True).stdout.strip()
    compiler = subprocess.run(["g++", "--version"], stdout=subprocess.PIPE, text=True).stdout.split("\n")[0]
    return {
        "machine": f"{os.cpu_count()} processors ({model}), {memory / (1 << 30):.0f} GB",
        "system": f"{platform.system()}, {compiler}",
        "version": version,
        "program": hashlib.sha256(PROGRAM.read_bytes()).hexdigest(),
    }


def all_networks(options, folder):
    for count in options.sparse:
        yield Network(f"sparse-{count}", folder, count).sparse(need_compiled(folder, "make_sparse"))
    for count in options.nodes:
        side = next(side for side in range(1, 10_000) if side * side >= count)
        yield Network(f"roads-{count}", folder, count).drawn(side, "--roads", "--nodes", count)
    if not options.no_others:
        yield Network("hard", folder, HARD * HARD).drawn(HARD)
        network = Network("map", folder, 0).of_map()
        if network is not None:
            network.count = network.facts["nodes"]
            yield network


def is_left(bench, network, job, number):
    """Whether a job has its turn in a round: those of a large network have one in the first round alone, and what counts."""
    is_once = network.count > MOST_WHOLE or job.startswith("counted")
    return (network.name, job, number) not in bench.done and not (number > 1 and is_once)


def main():
    words = counted.parser(__doc__)
    words.add_argument("--sparse", type=int, nargs="*", default=SPARSE, help="sizes of the sparse networks, from 1,000 nodes")
    words.add_argument("--nodes", type=int, nargs="*", default=NODES, help="sizes of the networks of make_network.py")
    words.add_argument("--rounds", type=counted.positive, default=5)
    words.add_argument("--wait", type=int, default=60, help="seconds to wait for a quiet machine before a round of a network")
    words.add_argument("--kept", type=pathlib.Path, default=ROOT / "out/speed")
    words.add_argument("--only", metavar="WORD", nargs="+", default=[""])
    words.add_argument("--no-python", action="store_true", help="without igraph, NetworkX and pgRouting")
    words.add_argument("--no-others", action="store_true", help="without the hard network and the map")
    words.add_argument("--page", action="store_true", help="writes the tables and pictures at the end")
    words.add_argument("--anew", action="store_true", help="drops what was measured before")
    options = words.parse_args()
    need_program()
    tried = False
    if options.anew:
        shutil.rmtree(options.kept, ignore_errors=True)
    options.kept.mkdir(parents=True, exist_ok=True)
    bench = Bench(options, options.kept.resolve())
    made = list(all_networks(options, bench.folder))
    for network in made:
        bench.enter(network)
    for number in range(1, options.rounds + 1):
        for network in made:
            jobs = {job: go for job, go in bench.jobs(network).items() if any(job.startswith(word) for word in options.only)}
            tried = tried or bool(jobs)
            left = {job: go for job, go in jobs.items() if is_left(bench, network, job, number)}
            if left:
                wait_for_quiet(options.wait)
            for job, go in left.items():
                print(f"round {number}, {network.name}: {job}", file=sys.stderr, flush=True)
                before, others = os.getloadavg()[0], Others()
                seconds, taken = go() if job.startswith(MEDIANS) else middle(go)
                bench.note(network, job, number, before, others.processors(), seconds, taken)
                bench.save()
    if not tried:
        words.error(f"no job has {' or '.join(options.only)} in its name")
    measured = speed_page.Measured(bench.table, bench.facts)
    print("\n\n".join(made(measured) for made in [*speed_page.TABLES.values(), speed_page.ratios]))
    if options.page:
        subprocess.run([PYTHON, ROOT / "bench/speed_page.py", bench.folder], check=True)


if __name__ == "__main__":
    main()
