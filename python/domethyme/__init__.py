"""Shortest paths in road networks from Python: prepared by the program `routecli`, answered by the library libdomethyme, both
proved.

    import domethyme

    hierarchy = domethyme.from_osm("li.osm.pbf", "out/li")               # a map, its network and its hierarchy
    hierarchy = domethyme.open("out/li")                                 # the same, made before
    hierarchy.directions([(9.5215, 47.1410), (9.6090, 47.1020)])         # a route by places, longitude and latitude, on the nearest roads
    hierarchy.table(places)                                              # the weights from each place to each; tour(places), within(place)

    domethyme.write_graph("town.gr", from_nodes, to_nodes, weights)      # a graph of your own: an arc for each row, nodes from 0
    with domethyme.prepare("town.gr", "town.rch") as hierarchy:          # or Hierarchy("town.rch"), made before
        hierarchy.length(0, 2)                                           # one length, None if there is no path
        hierarchy.route(0, 2).nodes                                      # the nodes of one route
        hierarchy.lengths(pairs)                                         # an array, -1 if there is no path
        hierarchy.routes(pairs)[7]                                       # the nodes of the eighth route
        hierarchy.matrix(sources, targets)                               # a table of lengths
    domethyme.check("town.gr", "town.rch")                               # the file is right for the graph, or an error

A hierarchy is a network that was prepared. Nodes are numbered from 0, as rows are; node n is node n + 1 of a file. Pass your own
keys as `keys`, and all methods take and return them. Weights are integers from 0 to 4,294,967,295 in a unit of the user's
own; those of a map are milliseconds, or centimetres. Lengths are sums of them.

One question at a time (`length`, `route`, `between`) needs Python alone. Arrays and `nearest` need numpy, and frames
pandas: where one is missing, the call that needs it raises ImportError.

Errors are DomethymeErrors, listed in `domethyme.errors`; arguments that can't be used raise ValueError.
"""
import importlib.util
from typing import TYPE_CHECKING, Any

from . import opening
from .errors import (
    DomethymeError, FileError, GraphError, HierarchyError, HierarchyNotFound, LibraryError, LibraryNotFound, MapError, NetworkError,
    NoSuchNode, NotProved, OutOfMemory, ProgramError, ProgramNotFound, ProgramStopped, ReadWriteError, WrongHierarchy
)
from .extras import need
from .graphs import Graph, check, prepare, renew, unscaled, write_graph
from .hierarchy import Hierarchy
from .keys import Keys
from .opening import from_osm
from .program import find_program
from .protocol import NO_PATH
from .route import Route

if TYPE_CHECKING:
    from .network.network import Network
    from .routes import Routes

__all__ = [
    "DomethymeError", "FileError", "Graph", "GraphError", "Hierarchy", "HierarchyError", "HierarchyNotFound",
    "Keys", "LibraryError", "LibraryNotFound", "MapError", "Network", "NetworkError", "NoSuchNode", "NO_PATH", "NotProved",
    "OutOfMemory", "ProgramError", "ProgramNotFound", "ProgramStopped", "ReadWriteError", "Route", "Routes",
    "WrongHierarchy", "check", "find_program", "from_osm", "prepare", "renew", "unscaled", "write_graph"
]

# (not in __all__, so that `from domethyme import *` leaves Python's own alone)
open = opening.open
# The modules of what needs numpy.
LATER = {"Network": ".network.network", "Routes": ".routes"}


# (of what `from domethyme import *` loads)
if importlib.util.find_spec("numpy") is None:
    for _name in LATER:
        __all__.remove(_name)


def __dir__() -> list[str]:
    return sorted({*globals(), *LATER})


def __getattr__(name: str) -> Any:
    """What needs numpy is loaded when it is first asked for."""
    if name not in LATER:
        raise AttributeError(f"module 'domethyme' has no attribute {name!r}")
    need("numpy")
    return getattr(importlib.import_module(LATER[name], __name__), name)
