"""Makes a table of the weights of shortest paths, from each place of one table to each of another.

NETWORK is the prefix of a network's files, and HIERARCHY the file of its hierarchy; one of another network is refused.

SOURCES and TARGETS are CSV files with a row for each place and the columns lon and lat, in degrees. They are in any order, their
names in any case, and other names that to_network takes will do, such as lng or y. Other columns are the user's own. One of the two
may be `-`, standard input.

TABLE has a row for each source and a column for each target, in order. A path leads from the nearest point of a road to the nearest
point of another. It leaves the first, and reaches the second, in either direction; its weight is in the unit of the graph's.
If the name of TABLE ends in `.npy`, it is an array of numpy, of int64 and of shape (sources, targets), with -1 for no path. Else it
is CSV. Its first row has the names of the targets behind the word `from`, and each other row begins with the name of its
source; a field is empty for no path. Names are the numbers of places, from 1, or what the column --name of both tables has.

With --metres FILE another table of the same form has the metres along a path of each weight, to the millimetre; as an array of
numpy it is of float64, with NaN for no path.

The lengths between nodes are computed by the proved library; which points are nearest, and the parts of roads, are tested. Rows are
written as they are made, so that a large table needs little memory; it has at most 2^29 weights. With --scheduler the workers of
Dask answer blocks of rows, and the table is the same to the byte. They have these tools, and the files by the same paths. A file
that is written is whole or not there.

Exit status: 0; 1 for bad input or a failed write, with one line on standard error that names file and row; 2 for
arguments that are refused.
"""
import argparse
import contextlib
import csv
import dataclasses
from collections.abc import Callable, Iterator, Sequence
from typing import Any

import numpy
from numpy.typing import NDArray

from domethyme.atomic_files import atomic_write
from domethyme.csv_tables import escape_formula, need_columns
from domethyme.limits import MAX_CELLS
from domethyme.network.geo import Point
from domethyme.network.network import Network
from domethyme.network.tables import paths_of

from .blocks import Job, answer_rows
from .cli import ToolError, add_compare_all, add_scheduler, argument_parser, refuse_overwriting
from .places import Places, add_radius, need_near, need_roads, read_table

# Weights that are computed together, 8 bytes each.
CELLS = 1 << 20


def parse_args() -> argparse.Namespace:
    parser = argument_parser(
        __doc__,
        "%(prog)s out/li out/li.rch depots.csv customers.csv --name key -o out/li.csv",
        "%(prog)s out/li out/li.rch depots.csv customers.csv --metres out/metres.npy -o out/li.npy",
    )
    parser.add_argument("network", metavar="NETWORK", help="the network")
    parser.add_argument("hierarchy", metavar="HIERARCHY", help="the file of its hierarchy")
    parser.add_argument("sources", metavar="SOURCES", help="the table of the places where paths begin")
    parser.add_argument("targets", metavar="TARGETS", help="the table of the places where they end")
    parser.add_argument("-o", dest="output", metavar="TABLE", default="-", help="by default standard output, as CSV")
    parser.add_argument("--name", metavar="COLUMN", help="the column with the names of places (default: their numbers)")
    parser.add_argument("--metres", metavar="FILE", help="where the metres along these paths are written too")
    add_radius(parser, "refuse a place that is further from each road")
    add_scheduler(parser)
    add_compare_all(parser)
    options = parser.parse_args()
    if options.sources == options.targets == "-":
        parser.error("SOURCES and TARGETS can't both be standard input")
    inputs = [options.sources, options.targets, options.hierarchy, *paths_of(options.network)]
    refuse_overwriting(parser, [options.output, options.metres], inputs)
    return options


def read_named_places(path: str, name: str | None) -> tuple[Places, list[str]]:
    """The places of a table, and their names."""
    table = read_table(path)
    if name is None:
        return table, [str(number) for number in range(1, len(table.rows) + 1)]
    need_columns(path, table.columns, [name])
    column = table.columns.index(name)
    return table, [fields[column] for fields in table.fields]


@dataclasses.dataclass(frozen=True)
class TableJob(Job):
    """What a process needs to answer rows of a table: the places where paths end too, and whether metres are asked for."""

    targets: list[Point]
    has_metres: bool

    def open(self) -> Callable[[Sequence[Point]], list[NDArray[Any]]]:
        hierarchy = self.open_hierarchy()
        assert hierarchy.network is not None
        targets = hierarchy.network.points_on_roads(self.targets, self.radius) if self.targets else []

        def answer(sources: Sequence[Point]) -> list[NDArray[Any]]:
            """The rows of the table of weights, and of that of metres if they are asked for."""
            if not targets:
                return [numpy.empty((len(sources), 0))] * (1 + self.has_metres)
            if not self.has_metres:
                return [hierarchy.table(sources, targets, radius=self.radius)]
            return [*hierarchy.table(sources, targets, radius=self.radius, sums=["metres"]).values()]

        return answer


@contextlib.contextmanager
def csv_writer(path: str, sources: list[str], targets: list[str], kind: str) -> Iterator[Callable[[NDArray[Any]], None]]:
    """A file of CSV, to which rows of values are written; those of no path are below 0, or NaN."""
    with atomic_write(path) as file:
        writer, names = csv.writer(file, lineterminator="\n"), iter(sources)
        writer.writerow(["from", *map(escape_formula, targets)])

        def write(rows: NDArray[Any]) -> None:
            for row in rows.tolist():
                writer.writerow([escape_formula(next(names)), *(value if value >= 0 else "" for value in row)])

        yield write


@contextlib.contextmanager
def npy_writer(path: str, sources: list[str], targets: list[str], kind: str) -> Iterator[Callable[[NDArray[Any]], None]]:
    """The same as an array of numpy, of this kind."""
    header = {"descr": kind, "fortran_order": False, "shape": (len(sources), len(targets))}
    with atomic_write(path, "wb") as file:
        numpy.lib.format.write_array_header_1_0(file, header)

        def write(rows: NDArray[Any]) -> None:
            file.write(rows.astype(kind).tobytes())

        yield write


def main() -> None:
    options = parse_args()
    need_roads(options.network)
    (sources, source_names), (targets, target_names) = (
        read_named_places(path, options.name) for path in (options.sources, options.targets)
    )
    cells = len(source_names) * len(target_names)
    if cells > MAX_CELLS:
        many = f"has {len(source_names)} places, which with {len(target_names)} targets make more than {MAX_CELLS} weights"
        raise ToolError(many, options.sources)
    network = Network(options.network)
    for table in (sources, targets):
        need_near(network, table, options.radius)
    files = options.network, options.hierarchy, options.compare_all
    job = TableJob(*files, options.radius, targets.places[0], options.metres is not None)
    size = max(1, CELLS // max(1, len(target_names)))
    with contextlib.ExitStack() as opened:
        blocks = opened.enter_context(contextlib.closing(answer_rows(job, sources.places[0], size, options.scheduler)))
        writers = [
            opened.enter_context((npy_writer if path.endswith(".npy") else csv_writer)(path, source_names, target_names, kind))
            for path, kind in [(options.output, "<i8"), *([(options.metres, "<f8")] if options.metres else [])]
        ]
        for block in blocks:
            for write, rows in zip(writers, block):
                write(rows)
