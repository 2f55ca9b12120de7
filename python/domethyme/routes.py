"""The routes of many pairs, as arrays. Needs numpy."""
import operator
from collections.abc import Iterator
from typing import TYPE_CHECKING, Any, overload

import numpy as np
from numpy.typing import NDArray

from .arrays import with_missing
from .extras import load
from .features import MAX_SHOWN, need_network, picture
from .keys import Keys
from .network.groups import expand, offsets

if TYPE_CHECKING:
    from .network.network import Network


class Routes:
    """The routes of pairs, in their order.

    `routes[i]` are the nodes of route i from its first to its last, or their keys; none if there is no path.
    `routes[i:j]` are the Routes of these pairs.

    pairs     the pairs, of shape (n, 2), nodes from 0
    lengths   the least lengths, of shape (n,), NO_PATH (-1) if there is no path
    nodes     the nodes of all routes from 0, one route after the other
    offsets   where each route begins in `nodes`, and last where they end, of shape (n + 1,)
    network   the network of their hierarchy, on which they are drawn, or None
    """

    network: "Network | None" = None

    def __init__(
        self, lengths: NDArray[np.int64], nodes: NDArray[np.int32], offsets: NDArray[np.int64], pairs: NDArray[np.int64],
        keys: Keys | None = None, index: Any = None
    ) -> None:
        self.lengths, self.nodes, self.offsets, self.pairs = lengths, nodes, offsets, pairs
        self.keys, self.index = keys, index

    def __len__(self) -> int:
        return len(self.lengths)

    @overload
    def __getitem__(self, row: int) -> NDArray[Any]: ...
    @overload
    def __getitem__(self, row: slice) -> "Routes": ...
    def __getitem__(self, row: int | slice) -> "NDArray[Any] | Routes":
        if isinstance(row, slice):
            counts, index = np.diff(self.offsets)[row], None if self.index is None else self.index[row]
            route, position = expand(counts)
            nodes = self.nodes[self.offsets[:-1][row][route] + position]
            part = Routes(self.lengths[row].copy(), nodes, offsets(counts), self.pairs[row].copy(), self.keys, index)
            part.network = self.network
            return part
        nodes = self.node_indices(row)
        return nodes if self.keys is None else self.keys.of(nodes)

    def __iter__(self) -> Iterator[NDArray[Any]]:
        return (self[row] for row in range(len(self)))

    def __eq__(self, other: object) -> bool:
        if not isinstance(other, Routes):
            return NotImplemented
        names = ("pairs", "lengths", "nodes", "offsets")
        return all(np.array_equal(getattr(self, name), getattr(other, name)) for name in names)

    __hash__ = None  # type: ignore[assignment]

    def __repr__(self) -> str:
        return f"<{len(self)} routes of {len(self.nodes)} nodes>"

    def node_indices(self, row: int) -> NDArray[np.int32]:
        """The nodes of a route from 0, whatever keys there are."""
        if not -len(self) <= row < len(self):
            raise IndexError(f"there is no route {row} among {len(self)}")
        row = operator.index(row) % len(self)
        return self.nodes[self.offsets[row] : self.offsets[row + 1]]

    @property
    def arcs(self) -> NDArray[np.int64]:
        """How many arcs each route has, of shape (n,); NO_PATH (-1) if there is no path."""
        return np.diff(self.offsets) - 1

    def to_frame(self) -> Any:
        """A DataFrame of pandas with a row for each pair: from, to (nodes or keys), length and arcs, which are Int64 and missing
        if there is no path. It has the index of the frame that the pairs came as."""
        ends = [column if self.keys is None else self.keys.of(column) for column in self.pairs.T]
        columns = {"from": ends[0], "to": ends[1], "length": with_missing(self.lengths), "arcs": with_missing(self.arcs)}
        return load("pandas").DataFrame(columns, index=self.index)

    def geojson(self, network: "Network | None" = None) -> dict[str, Any]:
        """The routes as a FeatureCollection along the real road, of their hierarchy's network unless one is named; see Network.geojson.
        Raises ValueError where there is none."""
        return need_network(network, self.network).geojson(self)

    def to_geodataframe(self, network: "Network | None" = None) -> Any:
        """The frame of `to_frame` as a GeoDataFrame of geopandas, with seconds and metres, NaN where there are none, and the lines in
        WGS 84, None if there is no path. Raises ValueError where there is no network."""
        geopandas, features = load("geopandas"), self.geojson(network)["features"]
        figures = {name: np.array([feature["properties"][name] for feature in features], float) for name in ("seconds", "metres")}
        lines = [feature["geometry"] and load("shapely.geometry").shape(feature["geometry"]) for feature in features]
        frame = self.to_frame().assign(**figures)
        return geopandas.GeoDataFrame(frame, geometry=geopandas.GeoSeries(lines, index=frame.index, dtype="geometry"), crs="EPSG:4326")

    @property
    def __geo_interface__(self) -> dict[str, Any]:
        if self.network is None:
            raise AttributeError("the routes' hierarchy has no network")
        return self.geojson()

    def _repr_html_(self) -> str | None:
        """Their picture in a notebook, of the first of them, None without a network."""
        if self.network is None:
            return None
        return picture(self.network, self[:MAX_SHOWN].geojson()["features"], max(0, len(self) - MAX_SHOWN))
