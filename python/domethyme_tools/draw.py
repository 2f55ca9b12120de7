"""Draws routes, or what is reached, over their network, as a picture (SVG).

NETWORK is the prefix of the network's files, of which NETWORK.net is read, or without it the tables. ROUTES is what `routes`
wrote as GeoJSON, or what `reach` wrote as polygons (`-` is standard input).

The picture shows the roads in grey, around the routes or with --full-network all of them. It leaves out small roads where there are
so many that it has no room for them. Each route is drawn in a colour, from a ring to a dot, with arrows if there are no more than 20
routes. There are a legend with kilometres and minutes, a scale, and the attribution of the network and of ROUTES. Routes that begin
or end outside of the network's roads are refused, because they are another network's. Where routes overlap, earlier ones are drawn
wider, so that up to four remain visible. Colours repeat after eight routes. Polygons are filled, each over those before it, and lie
below the roads.

A browser shows a route's streets where the pointer rests on it. Routes that the legend has no room for are counted in its last line.

OUT is whole or not there.

Exit status: 0; 1 for bad input or a failed write, with one line on standard error that names the file and the row or
feature; 2 for arguments that are refused.
"""
import argparse
import sys

from domethyme.atomic_files import atomic_write
from domethyme.drawing.geometry import View
from domethyme.drawing.picture import picture_of
from domethyme.drawing.roads import make_scene
from domethyme.drawing.routes import read_routes
from domethyme.network.from_tables import load_network_or_dimacs
from domethyme.network.tables import paths_of
from domethyme.progress import reporting

from .cli import argument_parser, display_name, refuse_overwriting, warn

PICTURE = ".svg"


def parse_args() -> argparse.Namespace:
    parser = argument_parser(__doc__, "%(prog)s out/li out/li.geojson out/li.svg --label trip")
    parser.add_argument("network", metavar="NETWORK", help="the network that the routes are in")
    parser.add_argument("routes", metavar="ROUTES", help="the routes, as GeoJSON")
    parser.add_argument("output", metavar="OUT.svg", help="the picture")
    parser.add_argument("--label", metavar="COLUMN", help="the property that names a route (default: numbers)")
    parser.add_argument("--width", metavar="PIXELS", type=pixels, help="of the picture (default: 1000, or less if it is high)")
    parser.add_argument("--full-network", action="store_true", help="the whole network, and not only around the routes")
    parser.add_argument("--attribution", metavar="TEXT", help="shown beside the network's own")
    options = parser.parse_args()
    if not options.output.endswith(PICTURE):
        parser.error(f"OUT doesn't end in {PICTURE}")
    refuse_overwriting(parser, [options.output], [options.routes, *paths_of(options.network)])
    return options


def pixels(text: str) -> int:
    value = int(text)
    if not 200 <= value <= 10_000:
        raise argparse.ArgumentTypeError(f"{text} isn't from 200 to 10000")
    return value


def main() -> None:
    options = parse_args()
    routes, said = read_routes(options.routes, options.label)
    if not routes:
        warn(f"{display_name(options.routes)} has no route: the roads alone are drawn")
    network = load_network_or_dimacs(options.network)
    with reporting(sys.stderr.isatty()) as on_progress:
        box, roads = make_scene(network, routes, options.full_network, options.routes, on_progress)
    of_all: list[str | None] = [network.texts[0], *said, options.attribution]
    attribution = ", ".join(dict.fromkeys(filter(None, of_all)))
    # by default the longer side has 1000 pixels
    width = options.width or round(1000 * min(1, box.width / box.height))
    text = picture_of(routes, roads, View(box, width), attribution)
    with atomic_write(options.output) as file:
        file.write(text)
