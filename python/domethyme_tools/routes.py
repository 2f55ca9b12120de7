"""Finds the route of each trip of a table, and writes it as GeoJSON or CSV.

NETWORK is the prefix of a network's files, and HIERARCHY the file of its hierarchy; one of another network is refused. TRIPS is a
CSV file with a row for each trip (`-` is standard input) and the columns from_lon, from_lat, to_lon and to_lat, in degrees. They
are in any order, their names in any case, and other names that to_network takes will do, such as from_lng or to_y. Other columns
are the user's own.

A route is a shortest path from the nearest point of a road to the nearest point of another. It leaves the first, and reaches the
second, in either direction. OUT has a feature, or a row, for each trip, in order, with the columns of TRIPS, as text, and with

    weight            the sum of its weights, in the unit of the graph's weights
    metres, seconds   how long the way is and takes; no seconds if the network has none
    streets           the names of its streets in order, with semicolons between
    problem           why a place has no road within --radius: then the others are empty, and the status is 1 in the end

The others are empty if there is no path, too. In a feature null is empty, and its geometry is the line of the road, in two parts
where it crosses the 180th meridian. With --steps it has `steps`, a list of what to do in order, each with type and modifier (as
`turn` and `left`), name, metres and seconds. If TRIPS has a column of one of these names, ours has `route_` before it.

With --scheduler the workers of Dask answer blocks of trips, and OUT is the same to the byte. They have these tools, and the files
by the same paths.

OUT is whole, or as it was before. A row that can't be read is refused, and nothing is written.

Exit status: 0; 1 for bad input, a failed write or a place without a road, with one line on standard error that names file and row;
2 for arguments that are refused.
"""
import argparse
import contextlib
import dataclasses
import io
import itertools
from collections.abc import Callable, Iterable, Iterator, Sequence
from typing import TYPE_CHECKING, Any, NamedTuple

from domethyme import Hierarchy, NoSuchNode
from domethyme.atomic_files import atomic_write
from domethyme.features import route_feature
from domethyme.network.geo import Point
from domethyme.network.network import Network
from domethyme.network.tables import paths_of

from .blocks import Job, answer_rows
from .cli import (
    ToolError, add_compare_all, add_scheduler, argument_parser, refuse_overwriting, to_json, write_collection, write_rows
)
from .places import FROM_TO, Places, add_radius, need_roads, read_table, what_is_wrong

if TYPE_CHECKING:
    from domethyme.network.directions import Directions

GEOJSON, CSV = ".geojson", ".csv"
COLUMNS, STEPS = ("weight", "metres", "seconds", "streets", "problem"), "steps"
# Trips that are answered together: some tenths of a second.
TRIPS_PER_BLOCK = 200
# A trip: its fields, and where it begins and ends.
Trip = tuple[list[str], Point, Point]


def parse_args() -> argparse.Namespace:
    parser = argument_parser(
        __doc__,
        "%(prog)s out/li out/li.rch examples/liechtenstein.csv -o out/li.geojson --steps",
        "%(prog)s out/li out/li.rch trips.csv -o out/routes.csv --scheduler local",
    )
    parser.add_argument("network", metavar="NETWORK", help="the network")
    parser.add_argument("hierarchy", metavar="HIERARCHY", help="its hierarchy")
    parser.add_argument("trips", metavar="TRIPS", help="the table of trips")
    parser.add_argument("-o", dest="output", metavar="OUT.geojson|OUT.csv", required=True, help="the routes")
    parser.add_argument("--steps", action="store_true", help="turn-by-turn instructions too, for GeoJSON")
    add_radius(parser, "a place that is further from each road has a problem")
    add_scheduler(parser)
    add_compare_all(parser)
    options = parser.parse_args()
    if not options.output.endswith((GEOJSON, CSV)):
        parser.error(f"OUT ends neither in {GEOJSON} nor in {CSV}")
    if options.steps and options.output.endswith(CSV):
        parser.error("--steps are for GeoJSON")
    refuse_overwriting(parser, [options.output], [options.trips, options.hierarchy, *paths_of(options.network)])
    return options


class Block(NamedTuple):
    """The text of the features, or rows, of some trips, and how many of these have a problem."""

    text: str
    problems: int


@dataclasses.dataclass(frozen=True)
class RouteJob(Job):
    """What a process needs to route trips: the columns of OUT too, whether that is a table, and whether steps are asked for."""

    columns: list[str]
    is_table: bool
    has_steps: bool

    def open(self) -> Callable[[Sequence[Trip]], Block]:
        hierarchy = self.open_hierarchy()
        return lambda trips: self.answer(hierarchy, trips)

    def answer(self, hierarchy: Hierarchy, trips: Sequence[Trip]) -> Block:
        rows, lines, problems = list[list[Any]](), list[list[Point] | None](), 0
        for fields, *places in trips:
            found, problem = self.route(hierarchy, places)
            rows.append([*fields, *values_of(found), problem, *([found and found.turns] if self.has_steps else [])])
            lines.append(found and found.line)
            problems += problem is not None
        if self.is_table:
            write_rows(text := io.StringIO(), rows)
            return Block(text.getvalue(), problems)
        features = (route_feature(dict(zip(self.columns, row)), line) for row, line in zip(rows, lines))
        return Block(",\n".join(map(to_json, features)), problems)

    def route(self, hierarchy: Hierarchy, places: list[Point]) -> "tuple[Directions | None, str | None]":
        """The route between two places, None if there is no path, and what is wrong with one of them, if anything is."""
        try:
            return hierarchy.directions(places, radius=self.radius, turns=self.has_steps), None
        except NoSuchNode as error:
            return None, f"{'to' if error.key else 'from'} {what_is_wrong(error)}"


def values_of(found: "Directions | None") -> tuple[int | None, float | None, float | None, str | None]:
    """The weight, metres, seconds and streets of a route."""
    if found is None:
        return None, None, None, None
    streets = (name for name, _ in itertools.groupby(step["name"] for step in found.steps if step["name"]))
    return found.weight, found.metres, found.seconds, "; ".join(streets)


def columns_of(trips: Places, has_steps: bool) -> list[str]:
    """The columns of OUT, those of TRIPS before ours, each of another name. Raises ToolError for two of one name in TRIPS."""
    columns = list[str]()
    for name in trips.columns:
        if name in columns:
            raise ToolError(f"has two columns {name}", trips.path, 1)
        columns.append(name)
    for name in (*COLUMNS, *([STEPS] if has_steps else [])):
        while name in columns:
            name = f"route_{name}"
        columns.append(name)
    return columns


def main() -> None:
    options = parse_args()
    need_roads(options.network)
    table = read_table(options.trips, FROM_TO)
    is_table, columns = options.output.endswith(CSV), columns_of(table, options.steps)
    files = options.network, options.hierarchy, options.compare_all
    job = RouteJob(*files, options.radius, columns, is_table, options.steps)
    attribution, problems = Network(options.network).arrays.texts[0], list[int]()
    trips = [*zip(table.fields, *table.places)]

    def texts(blocks: Iterable[Block]) -> Iterator[str]:
        for block in blocks:
            problems.append(block.problems)
            yield block.text

    answers = contextlib.closing(answer_rows(job, trips, TRIPS_PER_BLOCK, options.scheduler))
    with answers as blocks, atomic_write(options.output) as file:
        if is_table:
            write_rows(file, [columns])
            file.writelines(texts(blocks))
        else:
            write_collection(file, texts(blocks), {"attribution": attribution} if attribution else {})
    if count := sum(problems):
        few = f"{count} of {len(trips)} trips have no road within {options.radius:g} m of a place"
        raise ToolError(f"{few}: see their problem", options.output)
