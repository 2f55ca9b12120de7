"""What is reached, as GeoJSON with the properties of Mapbox's Isochrone API. Needs numpy, scipy and shapely."""
import numbers
import re
from collections.abc import Callable, Sequence
from typing import Any, Literal, NamedTuple, get_args

import numpy as np

from .contour_shapes import closed_rings, denoised, generalized, split
from .contours import contours
from .geo import multi_geometry
from .grid import Ints
from .reach import PlaceOnRoad, Reach
from .snapping import RoadIndex, SnappedPoint
from .sphere import Floats

# Of the palette of Okabe and Ito (Color Universal Design, 2008), whose colours differ for the colour-blind.
COLORS = ("0072B2", "E69F00", "009E73", "CC79A7")
OPACITY = 0.33
COLOR = re.compile("[0-9A-Fa-f]{6}")
# By the unit of weights: the metric of contours, and how many weights are a minute or a metre.
METRICS: dict[str, tuple["Metric", int]] = {"duration": ("time", 60_000), "distance": ("distance", 100)}

# As many as the service takes.
MAX_MINUTES = 600

Metric = Literal["time", "distance"]
# The least length of each node from the nearest of several, or to it, from 0, each with a length that is added; -1 above a limit.
Lengths = Callable[[Sequence[tuple[int, int]], int], Ints]
Shape = Literal["polygons", "lines", "roads"]


class Style(NamedTuple):
    """How contours are given.

    shape        "polygons"; "lines", the polygons' outlines; or "roads", the lines of the roads that are reached
    generalize   simplified by this many metres (generalized)
    denoise      without parts and holes that are smaller than this share, from 0 to 1, of the largest part (denoised)
    colors       six hexadecimal digits for each contour, or nothing for those of COLORS
    attribution  of the data, "" for none
    """

    shape: Shape = "polygons"
    generalize: float = 0.0
    denoise: float = 0.0
    colors: Sequence[str] = ()
    attribution: str = ""


def limits(unit: str, minutes: Sequence[float] = (), metres: Sequence[float] = ()) -> list[int]:
    """Minutes or metres in the unit of a network's weights (MappedNetwork.unit). Raises ValueError for minutes if weights aren't
    durations, for metres if they aren't distances, if neither or both are given, and for numbers that aren't above 0."""
    metric, factor = METRICS.get(unit, (None, 1))
    if bool(len(minutes)) == bool(len(metres)):
        raise ValueError("give minutes or metres, one of both")
    wanted, asked = ("time", minutes) if len(minutes) else ("distance", metres)
    if not all(isinstance(value, numbers.Real) and 0 < value < float("inf") for value in asked):
        raise ValueError("minutes, or metres, have to be numbers above 0")
    if wanted == "time" and max(asked) > MAX_MINUTES:
        raise ValueError(f"{max(asked):g} minutes are too much: there may be {MAX_MINUTES}, or are they seconds?")
    if metric != wanted:
        raise ValueError(f"the weights of the network aren't a {wanted}: they are {unit}s")
    return [round(value * factor) for value in asked]


def reach_of(
    roads: RoadIndex, points: Sequence[SnappedPoint], within: Sequence[int], lengths: Lengths, towards: bool = False
) -> Reach:
    """What is reached from the nearest of several points of roads within limits that rise, or `towards` what leads there, where
    `lengths` are those to the nearest. Raises what Reach and `lengths` do."""
    sides = [point.entries if towards else point.exits for point in points]
    seeds = sorted((node, weight) for side in sides for node, (weight, _) in side.items())
    return Reach(roads.arrays, lengths(seeds, max(within, default=0)), within, [as_place(point) for point in points], towards)


def as_place(point: SnappedPoint) -> PlaceOnRoad:
    """A point as a place on its road. One at a node that is left by arcs of one edge alone lies just inside of it."""
    fraction = min(max(point.fraction, 1e-9), 1 - 1e-9) if point.arcs else point.fraction
    return PlaceOnRoad(point.edge, fraction, point.arcs)


def features(reach: Reach, asked: Sequence[float], metric: Metric, style: Style = Style()) -> dict[str, Any]:
    """The contours of what is reached, a Feature for each limit, the greatest first, and `attribution` beside them if there
    is one. A contour lies within those of greater limits. A geometry is a Polygon, for lines and roads a LineString, or
    several of these, and None if nothing is reached. Coordinates have six decimals; none crosses the 180th meridian (RFC
    7946).

    asked    the limits in minutes or metres, as `contour` has them

    Raises ValueError for numbers that don't fit together.
    """
    more = {"attribution": style.attribution} if style.attribution else {}
    shown = [
        {"type": "Feature", "properties": properties, "geometry": None if shape is None else shape.geometry}
        for properties, shape in drawn(reach, asked, metric, style)
    ]
    return {"type": "FeatureCollection", "features": shown, **more}


class Drawn(NamedTuple):
    """A geometry of a kind, or of several of it: the rings of each polygon, or lines, each alone; of shape (points, 2), in degrees
    with six decimals."""

    kind: Literal["Polygon", "LineString"]
    parts: list[list[Floats]]

    @property
    def geometry(self) -> dict[str, Any]:
        """As GeoJSON."""
        parts = [[line.tolist() for line in part] for part in self.parts]
        return multi_geometry(self.kind, parts if self.kind == "Polygon" else [line for line, in parts])


def drawn(reach: Reach, asked: Sequence[float], metric: Metric, style: Style) -> list[tuple[dict[str, Any], Drawn | None]]:
    """The properties and the geometries of `features`."""
    count = len(reach.limits)
    colors = style.colors or [COLORS[place % len(COLORS)] for place in range(count)]
    if not isinstance(colors, Sequence) or not all(isinstance(each, str) and COLOR.fullmatch(each) for each in colors):
        raise ValueError("colours are six hexadecimal digits each")
    if len(asked) != count or len(colors) != count:
        raise ValueError(f"there are {count} limits, and {len(asked)} numbers and {len(colors)} colours for them")
    if style.shape not in get_args(Shape):
        raise ValueError(f"the shape has to be one of {', '.join(get_args(Shape))}, and is {style.shape!r}")
    found = [properties(value, metric, color) for value, color in zip(asked, colors)]
    return [*zip(found, shapes_of(reach, style))][::-1]


def properties(value: float, metric: Metric, color: str) -> dict[str, Any]:
    """Those of a contour, in the names by which geojson.io, Leaflet and others know them."""
    name = f"#{color}"
    return {
        "contour": value, "metric": metric, "color": name, "opacity": OPACITY, "fill": name, "fillColor": name,
        "fill-opacity": OPACITY, "fillOpacity": OPACITY,
    }


def shapes_of(reach: Reach, style: Style) -> list[Drawn | None]:
    parts: list[list[list[Floats]]]
    if style.shape == "roads":
        parts = [[[np.array(line)] for line in reach.roads(limit)] for limit in range(len(reach.limits))]
    else:
        polygons = [contour.polygons for contour in contours(reach)]
        if style.denoise:
            polygons = denoised(polygons, style.denoise)
        if style.generalize:
            polygons = generalized(polygons, style.generalize)
        parts = [[closed_rings(part) for part in split(some)] for some in polygons]
    if style.shape == "lines":
        parts = [[[ring] for rings in some for ring in rings] for some in parts]
    kind: Literal["Polygon", "LineString"] = "Polygon" if style.shape == "polygons" else "LineString"
    return [Drawn(kind, some) if some else None for some in parts]
