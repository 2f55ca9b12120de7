"""Makes the files of a network: of a table of nodes and a table of arcs, or of files of the DIMACS challenge.

NODES is a CSV table with a row for each node and the columns lon and lat, in degrees. It may have the column node, by whose
texts ARCS names the nodes; without it they are numbered from 1, by their rows. The columns osm, an integer that answers
show, and ends, as in NETWORK.nodes.csv of osm_to_gr, may be there too. Or it is a file X.co of the DIMACS challenge.

ARCS is a CSV table with a row for each arc and the columns from and to. Other columns may be there or not:

  oneway    with this column a row is a road: 1 or yes is one arc, -1 one arc from `to` to `from`; 0, no or nothing both
  weight    an integer from 0 to 4294967295: routes have the least sum. Without it it is the milliseconds of seconds, or
            with --weight length the centimetres of metres, at least 1
  metres    or km; without both the length of the line
  seconds   default: metres at kmh km/h. An arc needs one of weight, seconds and kmh; with weight only, and in files of DIMACS,
            the network has no seconds (null in answers)
  WKT       the line, LINESTRING (LON LAT, LON LAT, ..); without it the straight one
  osm, highway, name, and the other texts    as in NETWORK.arcs.csv of osm_to_gr

--delimiter and --decimal are for tables with other marks than a comma between fields and a point before decimals, as ";" and ",".
--largest keeps the largest set of nodes that can all reach one another, as osm_to_gr does; without it all are kept, and their number is
reported, with the least, the quartiles and the greatest of the metres and km/h of arcs.

An empty field counts as missing. Column names are case-insensitive, and have common forms: id for node; lng,
longitude or x for lon; latitude or y for lat; source and target, or from_id and to_id, for from and to. Columns that aren't used
are named on standard error. The names of nodes are the keys of the package and the service; a column key has other ones for
that. All files may be compressed by gzip. Or ARCS is a file X.gr of the DIMACS challenge: its arcs are straight.

What is written, both or none:

  OUT.gr    the graph, for `routecli prepare`, a row of NODES for each node and a row of ARCS for each arc
  OUT.net   the network, for routes, table, draw and domethyme-serve

A table that the tools didn't write is never overwritten.

With --tables there are OUT.nodes.csv and OUT.arcs.csv too, as osm_to_gr writes them. So the tables of osm_to_gr may be NODES
and ARCS, after they were edited, or where OUT.net is damaged.

Exit status: 0; 1 for bad input or a failed write, with one line on standard error that names file and row; 2 for arguments that
are refused.
"""
import argparse
import os

import numpy

from domethyme.atomic_files import atomic_write_all
from domethyme.belonging import older_hierarchy
from domethyme.csv_tables import Form
from domethyme.errors import raised_as
from domethyme.network import from_tables, net_file
from domethyme.network.columns import DRIVING_SIDES
from domethyme.network.components import in_largest, islands, keep, quartiles
from domethyme.network.table_files import bytes_of, tables_there, write_graph_of, write_tables
from domethyme.network.tables import ARC_COLUMNS, NODE_COLUMNS, Files, has_columns, read_attribution
from domethyme.opening import prefix_fault

from .cli import ToolError, argument_parser, refuse_overwriting, warn


def parse_args() -> argparse.Namespace:
    parser = argument_parser(
        __doc__, "%(prog)s nodes.csv arcs.csv out/firm", "%(prog)s USA-road-d.NY.co USA-road-d.NY.gr out/ny"
    )
    parser.add_argument("nodes", metavar="NODES", help="the table of nodes, or a .co file")
    parser.add_argument("arcs", metavar="ARCS", help="the table of arcs, or a .gr file")
    parser.add_argument("out", metavar="OUT", help="prefix of the output files: OUT.gr, OUT.net")
    parser.add_argument("--weight", choices=("time", "length"), default="time",
                        help="what a weight is without the column (time)")
    parser.add_argument("--delimiter", type=mark, default=",", metavar="MARK", help="what is between fields (,)")
    parser.add_argument("--decimal", choices=(".", ","), default=".", help="what is before the decimals of a number (.)")
    parser.add_argument("--largest", action="store_true", help="keep the largest set of nodes that can all reach one another")
    parser.add_argument("--tables", action="store_true", help="write OUT.nodes.csv and OUT.arcs.csv too")
    parser.add_argument("--attribution", metavar="TEXT", help="the attribution that maps show (that in OUT.gr)")
    parser.add_argument("--driving-side", choices=DRIVING_SIDES,
                        help="the side of the road on which vehicles are (that of OUT.net, if NODES and ARCS are its tables, or right)")
    options = parser.parse_args()
    if options.delimiter == options.decimal:
        parser.error("a comma is between fields too: give --delimiter, as ';'")
    if fault := prefix_fault(options.out):
        parser.error(f"OUT {fault}")
    paths = Files(options.out)
    tables = [paths.nodes, paths.arcs, *paths.forms] if options.tables else []
    options.outputs = [paths.graph, *tables, paths.binary]
    refuse_overwriting(parser, options.outputs, [options.nodes, options.arcs])
    return options


def mark(text: str) -> str:
    found = {"\\t": "\t", "tab": "\t"}.get(text, text)
    if len(found) != 1 or found.isalnum() or found in '"\r\n':
        raise argparse.ArgumentTypeError(f"{text!r} is no mark such as ; or tab")
    return found


def marks_beside(paths: Files, options: argparse.Namespace) -> dict[str, int]:
    """What NODES and ARCS are known by where they are beside OUT.net, so that tools see when they are edited; 0 for others.
    Tables of another network that the tools have written there are refused: they would be read in place of OUT.net."""
    beside: list[str | None] = []
    for table, given, columns in ((paths.nodes, options.nodes, NODE_COLUMNS), (paths.arcs, options.arcs, ARC_COLUMNS)):
        is_given = os.path.exists(table) and os.path.exists(given) and os.path.samefile(table, given)
        if not is_given and has_columns(table, columns):
            raise ToolError(f"is there, and isn't {given}: remove it, or give --tables to write it again", table)
        beside.append(table if is_given else None)
    return net_file.marks_of(*beside)


def main() -> None:
    options = parse_args()
    paths = Files(options.out)
    attribution = read_attribution(options.out) if options.attribution is None else " ".join(options.attribution.split())
    if options.tables:
        tables_there(paths, True)
    marks = {} if options.tables else marks_beside(paths, options)
    kept_profile = from_tables.profile_of(options.out) if marks and marks["nodes_size"] and marks["arcs_size"] else {}
    form = Form(options.delimiter, options.decimal, True)
    named = from_tables.read_nodes(options.nodes, warn, form)
    nodes, arcs = named.arrays, from_tables.read_arcs(options.arcs, named, options.weight, warn, form)
    kept = in_largest(nodes.columns["node_ends"], arcs.columns["arc_from"], arcs.columns["arc_to"])
    said = islands(arcs, kept)
    if options.largest:
        nodes, arcs = keep(nodes, arcs, kept)
        if not len(arcs.begins) > 1:
            raise ToolError("has no nodes that reach one another: are all roads of one way?", options.arcs)
    said += quartiles(arcs)
    with raised_as(ToolError, options.arcs, ValueError):
        arrays = net_file.build_arrays(nodes, arcs, attribution)
    with atomic_write_all(*options.outputs) as (graph, *tables, network):
        if tables:
            marks = write_tables(tables, arrays)
        write_graph_of(bytes_of(graph), arrays, attribution)
        with raised_as(ToolError, options.arcs, ValueError):
            side = {} if options.driving_side is None else {"driving_side": DRIVING_SIDES.index(options.driving_side)}
            arrays.about |= {**kept_profile, **marks, **side}
            net_file.write(bytes_of(network), arrays)
    for line in said:
        warn(line)
    kilometres = arrays.arc_metres[numpy.unique(arrays.arc_edge, return_index=True)[1]].sum() / 1000
    warn(f"{options.out}: {len(arrays.node_osm)} nodes, {len(arrays.arc_from)} arcs, {kilometres:.1f} km of road")
    if (older := older_hierarchy(options.out)) is not None:
        warn(older)
