"""The network of a page, as network.js reads it: a head in JSON, and columns of numbers, each a multiple of 8 bytes from the next.

What a page doesn't show or ask is left out. Arcs are in the order of their edges, so an edge's are in a row. Nodes count from 0.
"""
import json
from typing import Any

import numpy as np
from numpy.typing import NDArray

from domethyme.network.columns import ROAD_CLASSES, TEXTS
from domethyme.network.groups import Ints
from domethyme.network.net_file import MappedNetwork
from domethyme.network.snapping import RoadIndex
from domethyme.network.zoom_levels import road_class

# The numbers of columns, by what network.js calls them.
KINDS: dict[str, np.dtype[Any]] = {"i4": np.dtype("<i4"), "u4": np.dtype("<u4"), "u1": np.dtype("u1"), "f4": np.dtype("<f4")}
NAME, HIGHWAY = TEXTS.index("name"), TEXTS.index("highway")


def network_bytes(network: MappedNetwork, attribution: str = "") -> bytes:
    """The bytes of a network; an attribution is shown beside its own."""
    arcs = network.edge_arcs[:]
    names, numbers = np.unique(network.arc_texts(arcs, NAME), return_inverse=True)
    starts, ends = (column[:][arcs].astype(np.int64) for column in (network.arc_from, network.arc_to))
    points, begins = network.points[:].astype(np.int64), network.edge_begin[:]
    split, groups = split_nodes(network)
    columns: dict[str, tuple[str, NDArray[Any]]] = {
        # (differences to the one before are packed to a third)
        "lons": ("i4", wrapped(np.diff(points[:, 0], prepend=0))),
        "lats": ("i4", np.diff(points[:, 1], prepend=0)),
        "edgePoints": ("u4", np.diff(begins)),
        "edgeArcs": ("u4", np.diff(network.edge_first[:])),
        "edgeKind": ("u1", edge_kinds(network)),
        "arcFrom": ("i4", np.diff(starts, prepend=0)),
        "arcTo": ("i4", ends - starts),
        "arcWeight": ("u4", network.arc_weight[:][arcs]),
        "arcAlong": ("u1", network.arc_along[:][arcs]),
        "arcName": ("u4", numbers),
        "preferred": ("u4", preferred(starts, ends, network.arc_weight[:][arcs], arcs)),
        "splitNodes": ("u4", split),
        "splitEnds": ("u1", network.node_ends[:][split]),
        "splitGroups": ("u4", groups),
        # (edges where no route begins or ends)
        "closed": ("u4", np.flatnonzero(~RoadIndex(network).are_open(np.arange(len(begins) - 1)))),
    }
    # (of the seconds and metres those that aren't the weights)
    if network.unit != "distance":
        columns["arcMetres"] = "f4", network.arc_metres[:][arcs]
    if network.has_seconds and network.unit != "duration":
        columns["arcSeconds"] = "f4", network.arc_seconds[:][arcs]
    about = {
        "box": network.box, "attribution": ", ".join(filter(None, (network.texts[0], attribution))),
        "unit": network.unit, "hasSeconds": network.has_seconds,
        "nodes": len(network.node_osm), "shown": [network.about[f"shown_{kind}"] for kind in range(len(ROAD_CLASSES))],
        "texts": [network.texts[name] for name in names.tolist()],
        "columns": [(name, kind, len(values)) for name, (kind, values) in columns.items()],
    }
    head = json.dumps(about, ensure_ascii=False, separators=(",", ":")).encode("utf-8", "replace")
    parts = [len(head).to_bytes(4, "little") + head, *(values.astype(KINDS[kind]).tobytes() for kind, values in columns.values())]
    return b"".join(part + bytes(-len(part) % 8) for part in parts)


def wrapped(steps: Ints) -> Ints:
    """Differences as numbers of 32 bits, whose sums are right in these."""
    return np.asarray((steps + (1 << 31)) % (1 << 32) - (1 << 31))


def edge_kinds(network: MappedNetwork) -> NDArray[np.uint8]:
    """The class of each edge's road, which is that of its first arc."""
    highways, which = np.unique(network.arc_texts(slice(None), HIGHWAY), return_inverse=True)
    kinds = np.array([road_class(network.texts[each]) for each in highways.tolist()], dtype=np.uint8)
    found = np.full(len(network.edge_begin) - 1, road_class(""), dtype=np.uint8)
    found[network.arc_edge[::-1]] = kinds[which[::-1]]
    return found


def split_nodes(network: MappedNetwork) -> tuple[Ints, Ints]:
    """The nodes into which turn restrictions split junctions, and the number of the junction of each."""
    nodes = np.flatnonzero(network.node_ends[:])
    places = [column[:][nodes].astype(np.int64) for column in (network.node_lon, network.node_lat, network.node_osm)]
    _, groups = np.unique(np.column_stack(places), axis=0, return_inverse=True)
    return nodes, groups.reshape(-1)


def preferred(starts: Ints, ends: Ints, weights: Ints, numbers: Ints) -> Ints:
    """Of arcs from one node to another with one least weight, those that are the first of the file and not of the page."""
    def first(by: Ints) -> Ints:
        order = np.lexsort((by, weights, ends, starts))
        is_new = np.append(True, (np.diff(starts[order]) != 0) | (np.diff(ends[order]) != 0))
        return np.asarray(order[is_new[: len(order)]])

    of_file, of_page = first(numbers), first(np.arange(len(numbers)))
    return np.asarray(of_file[of_file != of_page])
