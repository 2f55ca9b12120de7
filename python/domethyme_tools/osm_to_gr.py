"""Makes a network for routecli from a map of OpenStreetMap.

MAP is a .osm, .osm.bz2 or .osm.pbf file; it is read twice, so it can't be standard input. Its objects may come in any
order. What is written, all files or none:

  OUT.gr    the graph, for `routecli prepare`
  OUT.net   the places of its nodes and the pieces of road of its arcs, which the tools and the service read

With --tables there are these too, for other programs:

  OUT.nodes.csv   node, osm, lon, lat, ends: where each node is; `osm` is empty for a point where a long piece is cut
  OUT.arcs.csv    ARC_COLUMNS
                  the piece of road of each arc of OUT.gr, in the same order; `osm` is the way, `name` its name or else its
                  ref, `structure` tunnel or bridge, `toll` yes, WKT its line, longitude first
  OUT.nodes.csvt, OUT.nodes.prj, OUT.arcs.csvt, OUT.arcs.prj    the types and the projection of these tables, for GDAL and QGIS

Without it tables of an earlier run are removed, since they are of another network. Tables and files beside them that weren't
written by the tools, or that were edited since, are never overwritten or removed.

A weight is milliseconds by the profile's speeds, or centimetres with --weight length. It is rounded, and raised to 1
where it would be 0. Nodes are the ends, junctions and barriers of roads, and points between that keep each arc within
--longest-arc metres. Several arcs may lead from one node to another; a route takes the lightest. Turn restrictions by one
node are kept: their junctions are several nodes, of which `ends` says where routes begin (from) and end (to) or neither
(no).

Rules of the profile. A way counts where its class of highway has a speed, it is no area, and the most particular of its
access tags (of access, vehicle, motor_vehicle, motorcar the last that is set) has a value that isn't closed; `private` is
closed. `maxspeed` counts before the speed of the class, for each direction, in km/h, mph or knots. One-way are oneway=yes
and -1, roundabouts and motorways. Reversible ways are left out. A barrier such as a bollard, or one whose access tags
are closed, cuts the roads at its node. A way is cut where the map lacks a node of it. Only the largest set of nodes that
can all reach one another is kept, unless --keep-islands is given. --at-least 0.9 refuses a map that would lose more than a tenth
of its nodes by that, as one that is cut or has lost roads.

These are the rules of a car; those of a lorry, a bicycle and pedestrians, and what else a profile may say, are in
profiles/README.md of the package domethyme.maps. Ferries (`route=ferry`) join islands, by their `duration`. Not looked at: turn
restrictions by a way or for some times, opening hours and other conditions, `destination` and other limits of who may pass.

On standard error: what was left out, and the size of the network. Status 0: done. 1: bad input, reported in one line,
and nothing is written. 2: the arguments were refused.
"""
import argparse
import contextlib
import dataclasses
import sys
import textwrap

from domethyme.belonging import older_hierarchy
from domethyme.maps.conversion import MAX_METRES, Options, outputs_of, write_network
from domethyme.maps.road_network import WEIGHTS
from domethyme.maps.vehicle_profile import read_profile
from domethyme.network.tables import ALL_ARC_COLUMNS, OSM_ATTRIBUTION
from domethyme.opening import prefix_fault
from domethyme.progress import reporting

from .cli import argument_parser, refuse_overwriting



def longest_arc(text: str) -> float:
    with contextlib.suppress(ValueError):
        if 1 <= float(text) <= MAX_METRES:
            return float(text)
    raise argparse.ArgumentTypeError(f"{text} isn't from 1 to {MAX_METRES}")


def share(text: str) -> float:
    with contextlib.suppress(ValueError):
        if 0 <= float(text) <= 1:
            return float(text)
    raise argparse.ArgumentTypeError(f"{text} isn't from 0 to 1")


def parse_args() -> argparse.Namespace:
    columns = textwrap.fill(f"{', '.join(ALL_ARC_COLUMNS)}:", 110).replace("\n", "\n" + 18 * " ")
    parser = argument_parser(
        (__doc__ or "").replace("ARC_COLUMNS", columns), "%(prog)s country.osm.pbf out/country", "%(prog)s country.osm.pbf out/bicycle --profile bicycle"
    )
    parser.add_argument("map", metavar="MAP", help="a .osm, .osm.bz2 or .osm.pbf file")
    parser.add_argument("out", metavar="OUT", help="prefix of the output files: OUT.gr, OUT.net")
    parser.add_argument("--profile", default="car", metavar="NAME|FILE.json",
                        help="the rules of the vehicle: car, lorry, bicycle, foot, or a file (car)")
    parser.add_argument("--weight", choices=sorted(WEIGHTS), default="time", help="what a weight counts (time)")
    parser.add_argument("--longest-arc", type=longest_arc, default=250, metavar="METRES", help="from 1 to 1000000 (250)")
    parser.add_argument("--tables", action="store_true", help="write tables in CSV too")
    parser.add_argument("--ignore-turn-restrictions", action="store_true", help="don't look at turn restrictions")
    parser.add_argument("--keep-islands", action="store_true", help="keep all nodes, whether they reach the others or not")
    parser.add_argument("--at-least", type=share, default=0, metavar="SHARE",
                        help="refuse a map of whose nodes less than this share, from 0 to 1, is kept (0)")
    parser.add_argument("--attribution", default=OSM_ATTRIBUTION, metavar="TEXT",
                        help="the attribution that maps of the network show; empty for none (%(default)s)")
    options = parser.parse_args()
    if fault := prefix_fault(options.out):
        parser.error(f"OUT {fault}")
    refuse_overwriting(parser, outputs_of(options.out, chosen(options)), [options.map, options.profile])
    return options


def chosen(options: argparse.Namespace) -> Options:
    """The options of the conversion."""
    return Options(**{field.name: getattr(options, field.name) for field in dataclasses.fields(Options)})


def main() -> None:
    options = parse_args()
    profile = read_profile(options.profile)
    with reporting(sys.stderr.isatty()) as on_progress:
        said = write_network(options.map, options.out, profile, chosen(options), on_progress)
    for line in (*said, older_hierarchy(options.out)):
        if line is not None:
            print(f"osm_to_gr: {line}", file=sys.stderr)
