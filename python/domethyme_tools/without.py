"""Makes the graph of a network without the roads of some classes.

NETWORK is the prefix of a network's files. CLASSES are one or more of motorway, toll, ferry and tunnel, with commas
between. OUT.gr is the graph of the other roads, with the same nodes. Of these only the largest set keeps its arcs that can all reach one
another: a road that leads to the rest by a motorway alone is left out with it. `routecli prepare` makes its hierarchy, which
`domethyme-serve --exclude CLASSES=HIERARCHY` and `domethyme.Network(NETWORK, exclude=..)` take beside the same NETWORK.

Toll roads and ferries are known in networks of `osm_to_gr` of this version, if the profile takes ferries, and in tables with a
column toll (yes). Each answer is a shortest path in the graph without these roads, which `routecli check` proves as of any other.

Exit status: 0; 1 for bad input or a failed write, with one line on standard error; 2 for arguments that are refused.
"""
import argparse

from domethyme.atomic_files import atomic_write
from domethyme.network.from_tables import load_network_or_dimacs
from domethyme.network.tables import paths_of
from domethyme.network.without import parse_classes, without, write_graph_of_view

from .cli import ToolError, argument_parser, refuse_overwriting, warn


def parse_args() -> argparse.Namespace:
    parser = argument_parser(__doc__, "%(prog)s out/li motorway,toll out/li-free.gr")
    parser.add_argument("network", metavar="NETWORK", help="the network")
    parser.add_argument("classes", metavar="CLASSES", help="the classes that are left out")
    parser.add_argument("output", metavar="OUT.gr", help="the graph")
    options = parser.parse_args()
    try:
        options.classes = parse_classes(options.classes)
    except ValueError as error:
        parser.error(str(error))
    refuse_overwriting(parser, [options.output], paths_of(options.network))
    return options


def main() -> None:
    options = parse_args()
    network = load_network_or_dimacs(options.network)
    view = without(network, options.classes)
    if not len(view.out_arcs):
        raise ToolError("has no arc without these classes", options.network)
    with atomic_write(options.output, "wb") as file:
        arcs = write_graph_of_view(file, view)
    warn(f"{options.output}: {len(arcs)} of {len(network.out_arcs)} arcs")
