"""Tables of places and of trips, and how far from a road they may be."""
import argparse
import contextlib
import math
from collections.abc import Iterator, Sequence
from typing import NamedTuple

from domethyme.csv_tables import Row, excerpt, open_table
from domethyme.errors import NoSuchNode
from domethyme.limits import DEFAULT_RADIUS
from domethyme.network.from_tables import NAMES_OF_NODES, known_columns
from domethyme.network.geo import Point
from domethyme.network.network import Network
from domethyme.network.tables import is_coordinates

from .cli import ToolError, warn

# What is before the names of the columns of a trip's places, and of a place alone.
FROM_TO, ALONE = ("from_", "to_"), ("",)

# Places that are looked for together.
PLACES_AT_ONCE = 1 << 12


def add_radius(parser: argparse.ArgumentParser, says: str) -> None:
    """Adds the option --radius, and says what becomes of places that are further from each road."""
    says = f"{says} (default: {DEFAULT_RADIUS:g})"
    parser.add_argument("--radius", metavar="METRES", type=distance, default=DEFAULT_RADIUS, help=says)


def distance(text: str) -> float:
    value = float(text)
    if not (math.isfinite(value) and value >= 0):
        raise argparse.ArgumentTypeError(f"{text} isn't a distance")
    return value


class Places(NamedTuple):
    """A table of places, or of trips: its columns, the numbers of its rows and their fields, and for each prefix the places
    (lon, lat) of all rows, in degrees."""

    path: str
    columns: list[str]
    rows: list[int]
    fields: list[list[str]]
    places: list[list[Point]]


def read_table(path: str, prefixes: Sequence[str] = ALONE) -> Places:
    """The places of a CSV file, whose columns lon and lat have these prefixes. Their names are those that `to_network` takes, in
    any case; other columns are the user's own. Raises NetworkError."""
    axes = [(prefix, axis) for prefix in prefixes for axis in ("lon", "lat")]
    known = {f"{prefix}{axis}": tuple(f"{prefix}{other}" for other in NAMES_OF_NODES[axis]) for prefix, axis in axes}
    with open_table(path, ()) as records:
        own = {name: column for column, name in known_columns(records, known, known, warn).items()}
        table = Places(path, records.columns, [], [], [[] for _ in prefixes])
        for row, fields in records:
            for prefix, places in zip(prefixes, table.places):
                places.append((parse_degrees(fields, own[f"{prefix}lon"], 180), parse_degrees(fields, own[f"{prefix}lat"], 90)))
            table.rows.append(row)
            table.fields.append([fields[name] for name in records.columns])  # (a name may be there twice)
    return table


def parse_degrees(fields: Row, column: str, most: float) -> float:
    """The number in a column of a row, from -most to most."""
    if abs(value := fields.read_float(column)) > most:
        doubt = "are longitude and latitude swapped?" if abs(value) <= 180 else "are these degrees?"
        raise fields.error(f"{column} {excerpt(fields[column])} isn't from -{most} to {most}: {doubt}")
    return value


def need_roads(network: str) -> None:
    """Raises ToolError for a network of the DIMACS challenge, which has nodes alone."""
    if is_coordinates(network):
        raise ToolError("has no roads but nodes: `routecli route` and Hierarchy.routes answer pairs of these", network)


def need_near(network: Network, table: Places, radius: float) -> None:
    """Raises ToolError for the first place of a table without a road within so many metres."""
    for begin in range(0, len(table.rows), PLACES_AT_ONCE):
        with rows_of_errors(table, begin):
            network.points_on_roads(table.places[0][begin : begin + PLACES_AT_ONCE], radius)


def what_is_wrong(error: NoSuchNode) -> str:
    """What an error says of its place, which has no road near enough."""
    return f"has {str(error).partition(' has ')[2]}"


@contextlib.contextmanager
def rows_of_errors(table: Places, first: int = 0) -> Iterator[None]:
    """In the block a place without a road near enough, whose number counts from the row `first`, is refused with its row."""
    try:
        yield
    except NoSuchNode as error:
        row = table.rows[first + error.key] if isinstance(error.key, int) else None
        raise ToolError(what_is_wrong(error), table.path, row) from error
