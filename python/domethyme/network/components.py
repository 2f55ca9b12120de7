"""Which nodes of a network reach one another, and a network of these alone. Needs numpy and scipy."""
import itertools
from typing import Any

import numpy as np
from numpy.typing import NDArray
from scipy.sparse import coo_matrix
from scipy.sparse.csgraph import connected_components

from .columns import ENDS
from .groups import Ints, mask, rows_of_groups
from .net_file import ArcArrays, NodeArrays


def in_largest(node_ends: NDArray[np.uint8], starts: NDArray[np.integer[Any]], stops: NDArray[np.integer[Any]]) -> NDArray[np.bool_]:
    """Which nodes are of the largest set that can all reach one another along the arcs, or are where a route of these may begin
    or end and none may pass."""
    count = len(node_ends)
    arcs = coo_matrix((np.ones(len(starts), np.int8), (starts, stops)), shape=(count, count))
    _, labels = connected_components(arcs, directed=True, connection="strong")
    kept: NDArray[np.bool_] = labels == np.bincount(labels).argmax()
    from_kept, to_kept = np.zeros(count, np.bool_), np.zeros(count, np.bool_)
    from_kept[stops[kept[starts]]] = True
    to_kept[starts[kept[stops]]] = True
    kept |= (node_ends == ENDS.index("to")) & from_kept | (node_ends == ENDS.index("from")) & to_kept
    return kept


def keep(nodes: NodeArrays, arcs: ArcArrays, kept: NDArray[np.bool_]) -> tuple[NodeArrays, ArcArrays]:
    """The nodes that are kept, in their order, and the arcs between them."""
    number: Ints = np.cumsum(kept) - 1
    starts, stops = arcs.columns["arc_from"], arcs.columns["arc_to"]
    chosen = np.flatnonzero(kept[starts] & kept[stops])
    begins, rows = rows_of_groups(arcs.begins, chosen)
    columns = {name: column[chosen] for name, column in arcs.columns.items()}
    columns |= {"arc_from": number[starts[chosen]], "arc_to": number[stops[chosen]]}
    few = NodeArrays({name: column[kept] for name, column in nodes.columns.items()}, [*itertools.compress(nodes.keys, kept.tolist())])
    return few, arcs._replace(columns=columns, begins=begins, points=arcs.points[rows])


def islands(arcs: ArcArrays, kept: NDArray[np.bool_]) -> list[str]:
    """A line that says how many nodes aren't of those that are kept, if any."""
    has_arc, left = mask(len(kept), arcs.columns["arc_from"], arcs.columns["arc_to"]), int((~kept).sum())
    alone = int((~kept & ~has_arc).sum())
    return [f"{len(kept) - left} of {len(kept)} nodes reach one another, and {left} don't, of which {alone} have no arc"] if left else []


def quartiles(arcs: ArcArrays) -> list[str]:
    """Lines with the quartiles of the lengths and speeds of arcs."""
    metres, seconds = arcs.columns["arc_metres"], arcs.columns["arc_seconds"]
    figures = [("metres", metres)]
    if (timed := seconds > 0).any():
        figures.append(("km/h", metres[timed] * 3.6 / seconds[timed]))
    shown = ((name, ", ".join(f"{value:.0f}" for value in np.quantile(values, [0, 0.25, 0.5, 0.75, 1]))) for name, values in figures)
    return [f"{name} of arcs, from the least by quartiles to the greatest: {values}" for name, values in shown]
