"""One route of a hierarchy, and what pairs of nodes may come as."""
from collections.abc import Hashable, Sequence
from typing import TYPE_CHECKING, Any, NamedTuple, Union

from .features import need_network, picture

if TYPE_CHECKING:
    from numpy.typing import NDArray

    from .network.network import Network

Rows = Union["NDArray[Any]", Sequence[Any]]


class Route(NamedTuple):
    """A shortest path.

    source, target   its ends, nodes from 0 or keys
    length           its length, in the unit of the graph's weights, with what `between` adds at its ends
    nodes            its nodes from the first to the last, or their keys
    node_indices     its nodes from 0, whatever keys there are
    added            what `between` has added to the weights of its arcs
    network          the network of its hierarchy, on which it is drawn, or None
    """

    source: Hashable
    target: Hashable
    length: int
    nodes: list[Any]
    node_indices: list[int]
    added: int = 0
    network: "Network | None" = None

    @property
    def arcs(self) -> int:
        """How many arcs it has."""
        return len(self.node_indices) - 1

    def geojson(self, network: "Network | None" = None) -> dict[str, Any]:
        """The route as a Feature along the real road, of its hierarchy's network unless one is named; see Network.geojson. Raises
        ValueError where there is none."""
        feature: dict[str, Any] = need_network(network, self.network).geojson(self)["features"][0]
        return feature

    @property
    def __geo_interface__(self) -> dict[str, Any]:
        if self.network is None:
            raise AttributeError("the route's hierarchy has no network")
        return self.geojson()

    def _repr_html_(self) -> str | None:
        """Its picture in a notebook, None without a network."""
        return None if self.network is None else picture(self.network, [self.geojson()])
