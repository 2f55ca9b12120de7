"""Writes what is reached from a place, or from the nearest of several, within minutes or metres, or with --towards what leads there, as
GeoJSON.

NETWORK is the prefix of a network's files, and HIERARCHY the file of its hierarchy; one of another network is
refused. PLACES is a CSV file with the columns lon and lat, in degrees (`-` is standard input). What is reached begins at the
nearest point of a road, in both directions.

OUT is a collection with a feature for each number of --minutes, or of --metres, the greatest first: a polygon, its outlines with
--shape lines, or with --shape roads the reached parts of roads. Its properties are those of
Mapbox's Isochrone API: contour (the number), metric (time or distance), color, opacity, and names by which other programs know
these. A smaller contour lies within a larger one. Where nothing is reached there is no geometry.

--minutes needs weights that are milliseconds, and --metres centimetres. The library's lengths to the nodes are proved; polygons
are drawn from them on a grid, whose step is at most 1/200 of the width or height of a contour, and aren't proved.

OUT is whole or not there.

Exit status: 0; 1 for bad input or a failed write, with one line on standard error that names file and row; 2 for
arguments that are refused.
"""
import argparse

from domethyme import Hierarchy
from domethyme.atomic_files import atomic_write
from domethyme.errors import raised_as
from domethyme.network.isochrones import COLOR, Shape
from domethyme.network.tables import paths_of

from .cli import ToolError, add_compare_all, argument_parser, refuse_overwriting, to_json, write_collection
from .places import add_radius, distance, read_table, rows_of_errors

SHAPES: tuple[Shape, ...] = ("polygons", "lines", "roads")


def parse_args() -> argparse.Namespace:
    parser = argument_parser(
        __doc__,
        "%(prog)s out/li out/li.rch places.csv --minutes 5,10,15 -o out/reach.geojson",
        "%(prog)s out/li out/li.rch depots.csv --minutes 10 --shape roads -o out/roads.geojson",
    )
    parser.add_argument("network", metavar="NETWORK", help="the network")
    parser.add_argument("hierarchy", metavar="HIERARCHY", help="its hierarchy")
    parser.add_argument("places", metavar="PLACES", help="the table of places")
    parser.add_argument("-o", dest="output", metavar="OUT", default="-", help="by default standard output")
    limits = parser.add_mutually_exclusive_group()
    limits.add_argument("--minutes", metavar="LIST", type=numbers, default=[], help="increasing numbers (default: 5,10,15)")
    limits.add_argument("--metres", metavar="LIST", type=numbers, default=[], help="the same where weights are lengths")
    parser.add_argument("--towards", action="store_true", help="what leads to the place, or to the nearest of several")
    parser.add_argument("--shape", choices=SHAPES, default="polygons", help="default: polygons")
    parser.add_argument("--generalize", metavar="METRES", type=distance, default=0.0, help="simplify by this many metres")
    parser.add_argument("--denoise", metavar="SHARE", type=share, default=0.0,
                        help="drop parts smaller than this share, to 1, of the largest")
    parser.add_argument("--colors", metavar="LIST", type=colours, default=[], help="six hexadecimal digits for each number")
    add_radius(parser, "refuse a place that is further from each road")
    add_compare_all(parser)
    options = parser.parse_args()
    if options.colors and len(options.colors) != len(options.minutes or options.metres or (5, 10, 15)):
        parser.error("--colors has to have a colour for each number")
    refuse_overwriting(parser, [options.output], [options.places, options.hierarchy, *paths_of(options.network)])
    return options


def numbers(text: str) -> list[float]:
    found = [distance(word) for word in text.split(",")]
    if any(low >= high for low, high in zip([0.0, *found], found)):
        raise argparse.ArgumentTypeError(f"{text} isn't a list of numbers above 0, each greater than the one before")
    return [int(value) if value == int(value) else value for value in found]


def share(text: str) -> float:
    if not 0 <= float(text) <= 1:
        raise argparse.ArgumentTypeError(f"{text} isn't from 0 to 1")
    return float(text)


def colours(text: str) -> list[str]:
    if not all(map(COLOR.fullmatch, text.split(","))):
        raise argparse.ArgumentTypeError(f"{text} isn't a list of six hexadecimal digits each")
    return text.split(",")


def main() -> None:
    options = parse_args()
    table = read_table(options.places)
    if not table.rows:
        raise ToolError("has no place", options.places)
    with Hierarchy(options.hierarchy, network=options.network, compare_all=options.compare_all) as hierarchy:
        with raised_as(ToolError, options.network, ValueError), rows_of_errors(table):
            found = hierarchy.within(
                table.places[0], options.minutes, metres=options.metres, shape=options.shape, generalize=options.generalize,
                denoise=options.denoise, colors=options.colors, towards=options.towards, radius=options.radius
            )
    others = {name: value for name, value in found.items() if name not in ("type", "features")}
    with atomic_write(options.output) as file:
        write_collection(file, map(to_json, found["features"]), others)
