"""Makes one HTML file that finds routes in a browser, offline, by the proved library as WebAssembly.

NETWORK is the prefix of the network's files, of which NETWORK.net is read, or without it the tables, and NETWORK.gr
for the attribution that the licence of its data requires. HIERARCHY is what `routecli prepare` made of its graph; one of another
network is refused. OUT.html has all inside it: the library, the hierarchy and the roads. It is opened from a folder, a stick or a
server, on a computer or a phone, and asks for nothing from a network.

In the page a click sets the start, then the destination, then places between; a place and the route can be dragged. It shows the
shortest route with its streets, metres and minutes, and which roads are reached within minutes. Places are the nearest points of
roads, by the rules of `domethyme-serve`. Its round trips, contours and instructions for turns the page hasn't got. Lengths and nodes
come from the proved library; all else in the page is tested. docs/BROWSER.md has the details.

A page has at most 300,000 nodes, which are some 14 MB. Larger networks need a page that is served, and fetches them.

The library comes from --library, the folder that packaging/build-web made; without it from DOMETHYME_WEB, from this package, or from
out/web of this repository.

OUT.html is whole or not there.

Exit status: 0; 1 for bad input, as another network's hierarchy, or a failed write, with one line on standard error that names the
file; 2 for arguments that are refused; 4 for a hierarchy that is damaged; 7 for one that can't be opened.
"""
import argparse
import os
import pathlib

from domethyme import belonging
from domethyme.atomic_files import atomic_write
from domethyme.hierarchy_file import open_hierarchy_file, read_header
from domethyme.network.from_tables import load_network
from domethyme.network.tables import is_coordinates, paths_of, reject_wrong_suffix

from ..cli import ToolError, add_compare_all, argument_parser, refuse_overwriting
from .hierarchy import columns_of
from .html import page_of

HERE = pathlib.Path(__file__).resolve().parent
INSIDE, BUILT = HERE / "web", HERE.parents[2] / "out/web"
MOST_NODES = 300_000


def parse_args() -> argparse.Namespace:
    parser = argument_parser(__doc__, "%(prog)s out/li out/li.rch out/li.html")
    parser.add_argument("network", metavar="NETWORK", help="the network")
    parser.add_argument("hierarchy", metavar="HIERARCHY", help="its hierarchy, which is compared: another one is refused")
    parser.add_argument("output", metavar="OUT.html", help="the page")
    parser.add_argument("--library", metavar="FOLDER", help="what packaging/build-web made")
    parser.add_argument("--attribution", metavar="TEXT", help="shown beside the network's own")
    add_compare_all(parser)
    options = parser.parse_args()
    if not options.output.endswith(".html"):
        parser.error("OUT doesn't end in .html")
    refuse_overwriting(parser, [options.output], [options.hierarchy, *paths_of(options.network)])
    return options


def find_library(named: str | None) -> pathlib.Path:
    """The folder with the library's module. Raises ToolError where there is none."""
    choice = named or os.environ.get("DOMETHYME_WEB")
    for folder in [pathlib.Path(choice)] if choice else [INSIDE, BUILT]:
        if (folder / "domethyme.wasm").is_file():
            return folder
    why = "has no domethyme.wasm: packaging/build-web makes it"
    raise ToolError(why, choice or str(BUILT))


def main() -> None:
    options = parse_args()
    reject_wrong_suffix(options.network)
    if is_coordinates(options.network):
        raise ToolError("has no roads but nodes: pages are of networks of osm_to_gr or to_network", options.network)
    library, network = find_library(options.library), load_network(options.network)
    count = len(network.node_osm)
    if count > MOST_NODES:
        more = "a larger map needs a page that is served and fetches it (docs/BROWSER.md)"
        raise ToolError(f"has {count:,} nodes, and a page has at most {MOST_NODES:,}: {more}", options.network)
    # (what was compared is what the page has, also if the files are replaced meanwhile)
    with open_hierarchy_file(options.hierarchy) as file:
        read_header(file.fileno(), options.hierarchy)
        belonging.compare(file.fileno(), options.hierarchy, network, options.compare_all)
        file.seek(0)
        hierarchy = columns_of(file.read(), options.hierarchy)
    text = page_of(network, hierarchy, library, options.attribution or "")
    with atomic_write(options.output) as file:
        file.write(text)
