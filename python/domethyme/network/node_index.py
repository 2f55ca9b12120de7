"""Where the nodes of a network lie, for look-ups by place. Needs numpy."""
import os
from collections.abc import Sequence

import numpy as np
from numpy.typing import NDArray

from ..errors import NetworkError
from ..program import StrPath
from . import net_file
from .columns import ENDS, UNITS
from .from_tables import read_nodes, straight_arcs
from .sphere import Floats, great_circle_metres, unit_vectors
from .tables import Files, Side, is_coordinates, need_nodes


class NodeIndex:
    """Where the nodes of a network lie, for look-ups by place, from 0. `osm`, `lon`, `lat` and `ends` are columns."""

    def __init__(self, arrays: net_file.MappedNetwork, has_arcs: bool = True) -> None:
        """Those of a mapped file, which has no arcs where it was made of a table of nodes or of a DIMACS .co file alone."""
        self.osm, self.lon, self.lat, self.ends = arrays.node_osm, arrays.node_lon, arrays.node_lat, arrays.node_ends
        self._arrays, self._has_arcs = arrays, has_arcs

    def keys(self) -> Sequence[str]:
        return self._arrays.keys()

    def nearest(self, lon: Floats, lat: Floats, side: Side) -> tuple[NDArray[np.int64], Floats]:
        """The nearest node where routes begin (`from`) or end (`to`), and the metres. Raises NetworkError for none."""
        places = unit_vectors(lon, lat)

        def away(rows: NDArray[np.int64], nodes: NDArray[np.int64]) -> Floats:
            there = unit_vectors(self.lon[nodes] / UNITS, self.lat[nodes] / UNITS)
            ends = self.ends[nodes]
            return np.where((ends == 0) | (ends == ENDS.index(side)), great_circle_metres(places[rows], there), np.inf)

        nodes, found = self._arrays.node_grid.nearest_batch(lon, lat, away)
        if (nodes < 0).any():
            raise NetworkError("has no nodes", self._arrays.path)
        return nodes, found.round(6)

    def split_nodes(self, node: int) -> tuple[int, ...]:
        """The nodes that turn restrictions made of the junction of a node: it alone where they made none."""
        if not self.ends[node]:
            return (node,)
        near = np.concatenate([*self._arrays.node_grid.candidates((self.lon[node] / UNITS, self.lat[node] / UNITS), 0.1)])
        is_part = self.ends[near] != 0
        for column in (self.lon, self.lat, self.osm):
            is_part &= column[near] == column[node]
        return tuple(sorted({node, *near[is_part].tolist()}))


def load_node_index(word: StrPath) -> NodeIndex:
    """The nodes of a network, of its file or of its table alone, or of a DIMACS .co file."""
    path = need_nodes(word)
    if not is_coordinates(word) and net_file.is_current(os.fspath(word)):
        return NodeIndex(net_file.read(Files(word).binary))
    nodes, none = read_nodes(path, is_beside_graph=True).arrays, np.empty(0, np.int64)
    arrays = net_file.build_arrays(nodes, straight_arcs(none, none, none, nodes))
    return NodeIndex(net_file.map_tempfile(arrays, path), has_arcs=False)
