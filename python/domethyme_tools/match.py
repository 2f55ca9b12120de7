"""Finds the way of a vehicle along roads, by places where it was measured to be, and writes it as GeoJSON.

NETWORK is the prefix of a network's files, and HIERARCHY the file of its hierarchy; one of another network is
refused. TRACE is a CSV file with the columns lon and lat, in degrees (`-` is standard input), and a row for each place in the order
in which they were measured. In a column seconds it may have when that was, in numbers that don't fall, and in a column deviation the
standard deviation of the error of each place in metres, above 0 and to 200; an empty field is --deviation. Other columns are the user's own.

OUT is a collection with a feature for each way: another one begins at a gap of time, of more than a minute and more than ten times the
usual, unless --ignore-gaps is given, and where no way leads on. Its properties are weight, seconds and metres of the way;
rows, those of TRACE that are on it; and confidence, the mean probability that a place is where it is. A row that is in none has
no match.

The way is the most probable one by a hidden Markov model. It has an own deviation to be right: one that is too small gives wrong roads.
Each part between two places is a shortest path, by the proved library; which points of roads these are is tested. OUT is whole or not there.

Exit status: 0; 1 for bad input or a failed write, with one line on standard error that names file and row; 2 for
arguments that are refused.
"""
import argparse

from domethyme import Hierarchy
from domethyme.atomic_files import atomic_write
from domethyme.csv_tables import need_columns, plain_float
from domethyme.limits import DEFAULT_DEVIATION
from domethyme.network.tables import paths_of

from .cli import ToolError, add_compare_all, argument_parser, refuse_overwriting, to_json, write_collection
from .places import Places, distance, read_table


def parse_args() -> argparse.Namespace:
    parser = argument_parser(__doc__, "%(prog)s out/li out/li.rch trace.csv -o out/way.geojson")
    parser.add_argument("network", metavar="NETWORK", help="the network")
    parser.add_argument("hierarchy", metavar="HIERARCHY", help="its hierarchy")
    parser.add_argument("trace", metavar="TRACE", help="the table of places")
    parser.add_argument("-o", dest="output", metavar="OUT", default="-", help="by default standard output")
    parser.add_argument("--deviation", metavar="METRES", type=distance, default=DEFAULT_DEVIATION,
                        help=f"the standard deviation of places ({DEFAULT_DEVIATION:g})")
    parser.add_argument("--ignore-gaps", action="store_true", help="go on at gaps of time")
    parser.add_argument("--tidy", action="store_true", help="leave out places within 15 m or 5 s of the last one")
    add_compare_all(parser)
    options = parser.parse_args()
    refuse_overwriting(parser, [options.output], [options.trace, options.hierarchy, *paths_of(options.network)])
    return options


def column(trace: Places, name: str, missing: float | None) -> list[float] | None:
    """The numbers of a column, None if there is none; an empty field is `missing`."""
    if name not in trace.columns:
        return None
    need_columns(trace.path, trace.columns, [name])
    found = []
    for row, fields in zip(trace.rows, trace.fields):
        text = fields[trace.columns.index(name)].strip()
        try:
            found.append(missing if missing is not None and not text else plain_float(text))
        except ValueError:
            raise ToolError(f"{name} {text[:40]!r} is not a number", trace.path, row) from None
    return found


def main() -> None:
    options = parse_args()
    trace = read_table(options.trace)
    seconds, deviation = column(trace, "seconds", None), column(trace, "deviation", options.deviation)
    with Hierarchy(options.hierarchy, network=options.network, compare_all=options.compare_all) as hierarchy:
        try:
            found = hierarchy.match(
                trace.places[0], seconds, deviation=options.deviation if deviation is None else deviation,
                gaps="ignore" if options.ignore_gaps else "split", tidy=options.tidy,
            )
        except ValueError as error:
            raise ToolError(str(error), options.trace) from error
        features = [matching.geojson() for matching in found.matchings]
    for feature in features:
        feature["properties"]["rows"] = [trace.rows[point] for point in feature["properties"].pop("points")]
    with atomic_write(options.output) as file:
        write_collection(file, map(to_json, features), {})
