#!/usr/bin/python3
"""Writes the tables of docs/PERFORMANCE.md and README.md from the runs of speed.py, and has their pictures drawn (figures.py).

    bench/speed_page.py [--check] [FOLDER]

The runs are docs/speed.csv, and the facts about networks and machine docs/speed.json. With FOLDER, as out/speed, its
runs.csv and facts.json replace them first. In PERFORMANCE.md each table replaces what is between a line as `<!-- prepare -->` and
the next empty line, in README.md what is between two such lines. With --check nothing is written: the status is 1 if a page isn't
what the runs give.

Each time is the median of its rounds, and each memory the greatest. Times are of the processors, but tables
measure theirs by the clock. A ratio is the median of the ratios of the rounds, with the lowest, the highest, and how many
there are.
"""
import collections
import csv
import json
import pathlib
import re
import shutil
import statistics
import subprocess
import sys
import textwrap
import typing

from kit.counted import parser

DOCS = pathlib.Path(__file__).resolve().parent.parent / "docs"
README = DOCS.parent / "README.md"
RUNS, FACTS = DOCS / "speed.csv", DOCS / "speed.json"

NOT_MEASURED = "not measured"
KINDS = ["random", "near"]
SMALL = 10_000
BUSY = 0.5  # processors of other programs
SHOWN = "sparse-"  # the networks of README
BY_CLOCK = ("table", "reach")  # jobs whose programs measure themselves

# The figures of a job's rounds by their numbers.
Rounds = dict[int, float]


class Measured:
    """What was measured, by network and job."""

    def __init__(self, runs: pathlib.Path, facts: pathlib.Path) -> None:
        told = json.loads(facts.read_text())
        self.about, self.networks, self.counts = told["about"], told["networks"], told["pairs"]
        self.runs = collections.defaultdict(list)
        with open(runs) as lines:
            self.rows = list(csv.DictReader(lines))
        for row in self.rows:
            self.runs[row["network"], row["job"]].append(row)

    def rounds(self, network: str, job: str, head: str = "") -> Rounds:
        head = head or ("seconds" if job.startswith(BY_CLOCK) else "processor")
        return {int(row["round"]): float(row[head]) for row in self.runs.get((network, job), [])}

    def time(self, network: str, job: str) -> str:
        return written(median(self.rounds(network, job)))

    def memory(self, network: str, job: str) -> str:
        found = self.rounds(network, job, "megabytes")
        return f"{max(found.values()):,.0f} MB" if found else NOT_MEASURED

    def links(self, network: str, made: str = "balanced 1") -> str:
        """Links of the hierarchy for each arc of the graph."""
        found = self.networks[network]["links"].get(made)
        return f"{found:.2f}" if found else NOT_MEASURED

    def pair(self, network: str, kind: str, program: str = "route") -> Rounds:
        """What a pair takes beyond loading the file."""
        whole, loading = (self.rounds(network, f"{program} balanced {each}") for each in [kind, "none"])
        return {each: (whole[each] - loading[each]) / self.counts[kind] for each in whole.keys() & loading.keys()}

    def instructions(self, network: str, ours: str, theirs: str, less: str = "") -> float | None:
        """The ratio of the instructions of two jobs, each less those of the same job with `less` for its last word."""
        found = self.networks[network].get("instructions", {})
        counts = []
        for job in [ours, theirs]:
            without = f"{job.rpartition(' ')[0]} {less}"
            if job not in found or (less and without not in found):
                return None
            counts.append(found[job] - (found[without] if less else 0))
        return counts[0] / counts[1]

    def shown(self) -> list[str]:
        """The networks of README, or all where there are none of that kind."""
        return [name for name in self.networks if name.startswith(SHOWN)] or list(self.networks)

    def large(self) -> list[str]:
        """The networks of most tables: without those for Python and pgRouting, or all where there are no others."""
        return [name for name in self.networks if self.nodes(name) > SMALL] or list(self.networks)

    def nodes(self, network: str) -> int:
        return int(self.networks[network]["nodes"])

    def title(self, network: str) -> str:
        kind = network.partition("-")[0]
        return f"{self.nodes(network):,}" + (f" ({kind})" if kind in ("sparse", "hard", "map") else "")


def median(rounds: Rounds) -> float | None:
    return statistics.median(rounds.values()) if rounds else None


def written(value: float | None) -> str:
    """A time in the unit that shows three digits of it."""
    if value is None:
        return NOT_MEASURED
    for unit, part in [("s", 1), ("ms", 1e-3), ("µs", 1e-6)]:
        if value >= part or unit == "µs":
            break
    number = value / part
    return f"{number:,.0f} {unit}" if number >= 100 else f"{number:.1f} {unit}" if number >= 10 else f"{number:.2f} {unit}"


def table(heads: typing.Iterable[str], rows: typing.Iterable[typing.Iterable[str]]) -> str:
    lines = [f"|{'|'.join(row)}|" for row in [heads, *rows]]
    return "\n".join([lines[0], "|" + "---|" * (lines[0].count("|") - 1), *lines[1:]])


def filled(text: str) -> str:
    return textwrap.fill(text, 122, break_long_words=False, break_on_hyphens=False)


def machine(measured: Measured) -> str:
    timed = [row for row in measured.rows if not row["job"].startswith("counted")]
    first, last = (f(row["when"] for row in timed)[:16].replace("T", " ") for f in (min, max))
    loads, others = ([float(row[head]) for row in timed] for head in ("load", "others"))
    return filled(
        f"The machine has {measured.about['machine']}; {measured.about['system']}. The program is "
        f"`{measured.about['version']}`. It was measured from {first} to {last} (UTC), one program at a time. "
        f"The load, the run included, was {min(loads):.1f} to {max(loads):.1f}. In {sum(each > BUSY for each in others)} of "
        f"{len(others)} runs other programs kept more than half a processor busy. A run has "
        f"{measured.counts['random']:,} random or {measured.counts['near']:,} near pairs."
    )


def times(measured: Measured) -> str:
    """What preparing and checking take, by network."""
    heads = ["Nodes", "`prepare`, 1 worker", "memory", "links per arc", "4 workers", "memory", "`check`", "memory"]
    rows = []
    for name in measured.large():
        cells = []
        for job in ["prepare balanced 1", "prepare balanced 4", "check balanced"]:
            cells += [measured.time(name, job), measured.memory(name, job)]
        cells[2:2] = [measured.links(name)]
        rows.append([measured.title(name), *cells])
    return table(heads, rows)


# What is compared with a program in C++ that does the same: a title, and the names of both jobs.
COMPARED = {
    "preparing, one worker": ("prepare balanced 1", "textbook"),
    "loading": ("route balanced none", "route.cpp balanced none"),
    "a random pair": ("route balanced random", "route.cpp balanced random"),
    "a near pair": ("route balanced near", "route.cpp balanced near"),
    "a table of 100 x 100, first call": ("table 100 x 100, random first", "table.cpp 100 x 100, random first"),
    "a table of 1,000 x 1,000, first call": ("table 1,000 x 1,000, random first", "table.cpp 1,000 x 1,000, random first"),
    "a later call": ("table 1,000 x 1,000, random kept", "table.cpp 1,000 x 1,000, random kept"),
    "one to all, first call": ("table 1 to all first", "table.cpp 1 to all first"),
    "a later call of it": ("table 1 to all kept", "table.cpp 1 to all kept"),
}

# Kinds of these, by their titles.
KINDS_COMPARED = {
    "preparing": ["preparing, one worker"],
    "a random pair": ["a random pair"],
    "a near pair": ["a near pair"],
    "a table": ["a table of 100 x 100, first call", "a table of 1,000 x 1,000, first call", "a later call"],
    "one to all": ["one to all, first call", "a later call of it"],
}


class Compared(typing.NamedTuple):
    """The ratios of the rounds of both, and that of the instructions, if they were counted."""

    title: str
    network: str
    ratios: list[float]
    instructions: float | None


def compared(measured: Measured) -> list[Compared]:
    found = []
    for title, jobs in COMPARED.items():
        for name in measured.large():
            is_pair = title.endswith("pair")
            rounds = [measured.pair(name, job.split()[-1], job.split()[0]) if is_pair else measured.rounds(name, job) for job in jobs]
            ratios = sorted(rounds[0][each] / rounds[1][each] for each in rounds[0].keys() & rounds[1].keys() if rounds[1][each])
            counted = [re.sub(" first$", " 1", re.sub(" kept$", " 2", job)) for job in jobs]
            less = "none" if is_pair else str(int(counted[0][-1]) - 1) if job_of_table(jobs[0]) else ""
            if ratios:
                found.append(Compared(title, measured.title(name), ratios, measured.instructions(name, *counted, less)))
    return found


def ratios(measured: Measured) -> str:
    """What is compared, by network: the median, the lowest and the highest ratio of the rounds."""
    found = compared(measured)
    names = [measured.title(name) for name in measured.large()]
    rows = []
    for title in COMPARED:
        cells = {row.network: f"{statistics.median(row.ratios):.2f} ({row.ratios[0]:.2f} to {row.ratios[-1]:.2f})" for row in found if row.title == title}
        rows.append([title, *(cells.get(name, "") for name in names)])
    return table(["", *names], rows)


def job_of_table(job: str) -> bool:
    return job.startswith("table")


def pairs(measured: Measured) -> str:
    """What loading and a pair take, and how many nodes a pair settles."""
    rows = []
    for name in measured.large():
        cells = [measured.time(name, "route balanced none"), measured.memory(name, "route balanced none")]
        for kind in KINDS:
            count = measured.networks[name].get("settled", {}).get(f"balanced {kind}")
            cells += [written(median(measured.pair(name, kind))), NOT_MEASURED if count is None else f"{count:.0f}"]
        rows.append([measured.title(name), *cells])
    return table(["Nodes", "loading", "memory", "a random pair", "settled", "a near pair", "settled"], rows)


def tables(measured: Measured) -> str:
    """A row for each table: the first call and a later one, by the library."""
    rows = []
    for name, facts in measured.networks.items():
        for asked in facts.get("tables", {}):
            times = [measured.time(name, f"table {asked} {call}") for call in ("first", "kept")]
            if NOT_MEASURED not in times:
                rows.append([f"{measured.nodes(name):,}, {asked}", *times])
    return table(["Nodes, table", "first call", "a later one"], rows)


def reached(measured: Measured) -> str:
    """What is reached in the largest network that is shown."""
    rows, name = [], max(measured.shown(), key=measured.nodes)
    for asked, count in measured.networks[name].get("reached", {}).items():
        times = [measured.time(name, f"{asked} {call}") for call in ["first", "kept"]]
        rows.append([f"{measured.nodes(name):,}", f"{count:,}", *times])
    return table(["Nodes", "of them reached", "first call", "a later one"], rows)


def ratios_in_short(measured: Measured) -> str:
    """The least and the greatest median of what is compared, over the networks."""
    found, cells = compared(measured), []
    for titles in KINDS_COMPARED.values():
        medians = sorted(statistics.median(row.ratios) for row in found if row.title in titles)
        cells.append(f"{medians[0]:.2f} to {medians[-1]:.2f}" if medians else NOT_MEASURED)
    return table(KINDS_COMPARED, [cells])


def textbook(measured: Measured) -> str:
    """What the textbook's hierarchy takes, by network."""
    rows = [
        [measured.title(name), measured.time(name, "textbook"), measured.memory(name, "textbook"), measured.links(name, "textbook")]
        for name in measured.large()
        if measured.rounds(name, "textbook")
    ]
    return table(["Nodes", "`hierarchy.cpp`", "memory", "links per arc"], rows)


TABLES = {
    "machine": machine, "times": times, "pairs": pairs, "ratios": ratios_in_short, "textbook": textbook, "tables": tables, "reached": reached,
}


def summary(measured: Measured) -> str:
    """What README.md shows."""
    rows = []
    for name in measured.large():
        cells = [measured.time(name, "prepare balanced 1"), measured.memory(name, "prepare balanced 1"), measured.time(name, "route balanced none")]
        rows.append([measured.title(name), *cells, *(written(median(measured.pair(name, kind))) for kind in KINDS)])
    date = min(row["when"] for row in measured.rows)[:10]
    told = (
        f"Processor time by `--order balanced` on {date}, {measured.about['machine']}. All networks but the map are synthetic: sparse as "
        "the USA's, or grids, without fast roads if hard."
    )
    heads = ["Nodes", "`prepare`, 1 worker", "memory", "loading", "a random pair", "a near pair"]
    picture = "![Time and settled nodes of a pair against its Dijkstra rank](docs/ranks.svg)"
    return f"{filled(told)}\n\n{table(heads, rows)}\n\n{picture}\n"


def put(page: str, first: str, last: str, text: str) -> str:
    """The page with this text between two others."""
    begin = page.index(first) + len(first)
    return page[:begin] + text + page[page.index(last, begin) :]


def pages(measured: Measured) -> dict[pathlib.Path, str]:
    """Both pages as the runs give them."""
    speed = (DOCS / "PERFORMANCE.md").read_text()
    for mark, made in TABLES.items():
        speed = put(speed, f"<!-- {mark} -->\n", "\n\n", made(measured))
    readme = put(README.read_text(), "<!-- speed: begin -->\n", "<!-- speed: end -->", summary(measured))
    return {DOCS / "PERFORMANCE.md": speed, README: readme}


def main() -> None:
    words = parser(__doc__)
    words.add_argument("--check", action="store_true", help="compares, and writes nothing")
    words.add_argument("folder", nargs="?", type=pathlib.Path, metavar="FOLDER", help="of speed.py's runs, as out/speed")
    asked = words.parse_args()
    if asked.folder and not asked.check:
        try:
            shutil.copy(asked.folder / "runs.csv", RUNS)
            shutil.copy(asked.folder / "facts.json", FACTS)
        except OSError as error:
            words.error(f"{asked.folder} has nothing measured: {error.strerror}")
    measured = Measured(RUNS, FACTS)
    differing = {path: text for path, text in pages(measured).items() if path.read_text() != text}
    if asked.check:
        for path in differing:
            print(f"{path.relative_to(DOCS.parent)}:1: the tables aren't those of docs/speed.csv (bench/speed_page.py)")
        sys.exit(1 if differing else 0)
    subprocess.run([sys.executable, pathlib.Path(__file__).with_name("figures.py")], check=True)
    for path, text in differing.items():
        path.write_text(text)


if __name__ == "__main__":
    main()
