"""Builds the program by which osm_to_gr reads maps, and prints its path.

It is in C++ over libosmium, and is built once, in half a minute: osm_to_gr does it at its first use. As root,
`apt-get install g++ libosmium2-dev` gets what that needs. In Debian's package the program is there.

Status 0: it is there. 1: it can't be built, and one line says why. 2: the arguments were refused.
"""
import sys

from domethyme.maps.map_arrays import ensure_built
from domethyme.progress import reporting

from .cli import argument_parser


def main() -> None:
    argument_parser(__doc__, "%(prog)s").parse_args()
    with reporting(sys.stderr.isatty()) as on_progress:
        print(ensure_built(on_progress))
