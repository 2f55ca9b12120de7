"""A network without the roads of some classes, as a view of its mapped file. Needs numpy and scipy.

Nodes, edges and arcs keep their numbers. Arcs of the classes aren't among those from a node or on an edge, nor are those that no longer
lie in the largest set of nodes that can all reach one another: else places would be on roads that lead nowhere. At a node that has no
arc any more no route begins or ends. The graph of the others is the one of which the view has the hierarchy.
"""
import copy
from collections.abc import Iterable
from types import SimpleNamespace
from typing import IO, Any

import numpy as np
from numpy.typing import NDArray

from ..dimacs import write_graph
from .columns import ENDS, TEXTS
from .groups import Ints, mask, offsets
from .indexes import node_degrees
from .net_file import MappedNetwork
from .tables import ATTRIBUTION_COMMENT

# The classes, and by which of an arc's texts they are known.
CLASSES = {
    "motorway": ("highway", ("motorway", "motorway_link")), "ferry": ("highway", ("ferry",)), "toll": ("toll", ("yes",)),
    "tunnel": ("structure", ("tunnel",)),
}


def parse_classes(text: str) -> frozenset[str]:
    """The classes of a text, with commas between. Raises ValueError for another word, and for one that comes twice."""
    words = text.split(",")
    if unknown := [word for word in words if word not in CLASSES]:
        raise ValueError(f"there is no class {unknown[0]!r}: there are {', '.join(CLASSES)}")
    if len({*words}) < len(words):
        raise ValueError(f"a class comes twice in {text}")
    return frozenset(words)


def arcs_of(network: MappedNetwork, classes: Iterable[str]) -> NDArray[np.bool_]:
    """Whether each arc is of one of the classes."""
    rows = network.row_texts[:, :]
    is_of = np.zeros(len(rows), dtype=bool)
    for name, words in (CLASSES[each] for each in classes):
        column = rows[:, TEXTS.index(name)]
        is_of |= np.isin(column, [number for number in np.unique(column).tolist() if number > 0 and network.texts[number] in words])
    found: NDArray[np.bool_] = is_of[network.arc_row[:]]
    return found


def without(network: MappedNetwork, classes: Iterable[str]) -> MappedNetwork:
    """The network without the roads of the classes, and without what they cut off. It takes some 15 bytes an arc, and two a node."""
    return with_arcs(network, network.are_open() & ~arcs_of(network, classes))


def with_arcs(network: MappedNetwork, is_kept: NDArray[np.bool_]) -> MappedNetwork:
    """The network with some of its arcs, and without what the others cut off."""
    from .components import in_largest  # (which needs scipy)

    starts, ends = network.arc_from[:], network.arc_to[:]
    is_in = in_largest(network.node_ends[:], starts[is_kept], ends[is_kept])
    is_kept = is_kept & is_in[starts] & is_in[ends]
    view, of_arcs = copy.copy(network), {"arc_from": starts, "arc_to": ends, "arc_edge": network.arc_edge[:]}
    columns = {name: column[is_kept] for name, column in of_arcs.items()}
    kept: Any = SimpleNamespace(node_osm=network.node_osm, edge_begin=network.edge_begin, **columns)
    vars(view)["degrees"] = node_degrees(kept)
    for begins, arcs in (("out_begin", "out_arcs"), ("edge_first", "edge_arcs")):
        numbers = getattr(network, arcs)[:]
        vars(view)[arcs] = numbers[is_kept[numbers]]
        vars(view)[begins] = offsets(is_kept[numbers])[getattr(network, begins)[:]]
    has_arc = mask(len(network.node_osm), starts[is_kept], ends[is_kept])
    vars(view)["node_ends"] = np.where(has_arc, network.node_ends[:], ENDS.index("no")).astype(np.uint8)
    view.is_partial = True
    return view


def write_graph_of_view(file: IO[bytes], view: MappedNetwork) -> Ints:
    """Writes the graph of a view; returns its arcs by number."""
    arcs: Ints = np.flatnonzero(view.are_open())
    attribution = view.texts[0]
    comments = [f"{ATTRIBUTION_COMMENT}{attribution}"] if attribution else []
    write_graph(file, len(view.node_osm), [column[arcs] for column in (view.arc_from, view.arc_to, view.arc_weight)], comments)
    return arcs
