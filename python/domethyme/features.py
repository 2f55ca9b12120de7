"""What is drawn on a network, as GeoJSON, as frames of geopandas, and as a picture in a notebook."""
import json
from collections.abc import Sequence
from typing import TYPE_CHECKING, Any

from .extras import load
from .network.geo import Point, to_geojson_geometry

if TYPE_CHECKING:
    from .network.network import Network

# How many routes a notebook shows, and how wide the picture is.
MAX_SHOWN, WIDTH = 20, 720


class Features(dict[str, Any]):
    """A FeatureCollection: a dict, as json.dump takes it, that geopandas, folium and notebooks know too.

    network   the Network that it is drawn on in a notebook
    """

    def __init__(self, collection: dict[str, Any], network: "Network") -> None:
        super().__init__(collection)
        self.network = network

    @property
    def __geo_interface__(self) -> dict[str, Any]:
        return self

    def to_geodataframe(self) -> Any:
        """A GeoDataFrame of geopandas with a row for each feature, in WGS 84."""
        return load("geopandas").GeoDataFrame.from_features(self["features"], crs="EPSG:4326")

    def _repr_html_(self) -> str:
        return picture(self.network, self["features"])


def route_feature(properties: dict[str, Any], line: Sequence[Point] | None) -> dict[str, Any]:
    """The Feature of a route: its line is in parts where it crosses the 180th meridian, and the geometry is None without one."""
    return {"type": "Feature", "properties": properties, "geometry": None if line is None else to_geojson_geometry(line)}


def picture(network: "Network", features: list[Any], left_out: int = 0) -> str:
    """The SVG of features over the roads around them, as `draw` makes it, and how many more there are."""
    from .drawing.picture import svg_of

    # (as a file of GeoJSON has them, and keys that it can't have as texts)
    shown = svg_of(network.arrays, network.prefix, json.loads(json.dumps(features, default=str)), WIDTH)
    return f"{shown}<p>and {left_out:,} more</p>" if left_out else shown


def need_network(network: "Network | None", own: "Network | None") -> "Network":
    """The network that is named, or else that of the hierarchy. Raises ValueError where there is neither."""
    found = own if network is None else network
    if found is None:
        raise ValueError("there is no network to draw on: give one, or pass network= to Hierarchy")
    return found
