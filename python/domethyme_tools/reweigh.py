"""Makes a network with new speeds on some of its roads, for traffic and closed roads.

NETWORK is the prefix of a network's files that osm_to_gr has made; it isn't changed. SPEEDS is a CSV file (`-` is
standard input) with a row for each speed, in km/h, and no other columns:

  FROM,TO,KMH    from a point of the map to a neighbouring one of the same road, in this direction, by their ids in OpenStreetMap, as OSRM
                 has them in --segment-speed-file
  WAY,KMH        of a way of the map by its id, in both directions; a row FROM,TO,KMH counts before it

Both may be in one file, and the first row may have these names. A speed is from 0 to 1000, and is taken as it is: no profile limits it.
0 closes the road. Of several rows with the same ids the last counts. If an arc has new speeds on a part of it, the rest of it takes as
long as before. What the closed roads cut off is left out with them, as by `without`; no node is.

What is written, both or none:

  OUT.gr    the graph, with the same nodes, for `routecli renew`, or `prepare`
  OUT.net   the network

The weights are those that osm_to_gr would give a map whose maxspeed said the same, with the penalties of turns that NETWORK has. Rows
that match nothing, as of roads that the vehicle may not take or a direction that is closed, are counted on standard error, with the
numbers of the first ones; --unmatched lists all.

Exit status: 0; 1 for bad input or a failed write, with one line on standard error that names file and row; 2 for arguments that
are refused.
"""
import argparse

from domethyme.atomic_files import atomic_write
from domethyme.belonging import older_hierarchy
from domethyme.network.from_tables import load_network_or_dimacs
from domethyme.network.reweigh import read_speeds, write_reweighed
from domethyme.network.tables import Files, paths_of
from domethyme.opening import prefix_fault

from .cli import argument_parser, display_name, refuse_overwriting, warn

# Rows that a line names.
MOST_NAMED = 10


def parse_args() -> argparse.Namespace:
    parser = argument_parser(__doc__, "%(prog)s out/li speeds.csv out/now")
    parser.add_argument("network", metavar="NETWORK", help="the network")
    parser.add_argument("speeds", metavar="SPEEDS", help="the new speeds")
    parser.add_argument("out", metavar="OUT", help="the prefix of the files that are written")
    parser.add_argument("--unmatched", metavar="FILE", help="write the numbers of the rows that match nothing, a line each")
    options = parser.parse_args()
    if fault := prefix_fault(options.out):
        parser.error(f"OUT {fault}")
    names = Files(options.out)
    refuse_overwriting(parser, [names.graph, names.binary, options.unmatched], [options.speeds, *paths_of(options.network)])
    return options


def main() -> None:
    options = parse_args()
    network = load_network_or_dimacs(options.network)
    speeds = read_speeds(options.speeds)
    found = write_reweighed(network, speeds, options.out)
    if options.unmatched is not None:
        with atomic_write(options.unmatched) as file:
            file.writelines(f"{row}\n" for row in found.unmatched)
    if found.unmatched:
        named = ", ".join(map(str, found.unmatched[:MOST_NAMED])) + ", .." * (len(found.unmatched) > MOST_NAMED)
        rows = sum(len(each.kmh) for each in speeds)
        warn(f"{display_name(options.speeds)}: {len(found.unmatched)} of {rows} rows match nothing: {named}")
    warn(f"{options.out}: {found.changed} arcs changed, {found.closed} closed, and {found.cut_off} cut off by these")
    if (older := older_hierarchy(options.out)) is not None:
        warn(older)
