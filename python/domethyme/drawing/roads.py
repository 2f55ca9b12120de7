"""The roads that are drawn around routes, by their kinds."""
import itertools
from collections.abc import Iterator
from typing import NamedTuple

import numpy

from ..errors import NetworkError
from ..network.columns import TEXTS, UNITS
from ..network.geo import Point, metres_between
from ..network.groups import Ints, expand, offsets
from ..network.net_file import MappedNetwork
from ..network.zoom_levels import to_mercator as mercator_of
from ..progress import OnProgress
from .geometry import Box, box_of, from_mercator, to_mercator, unwrapped
from .routes import DrawnRoute


class RoadStyle(NamedTuple):
    """How roads of some kinds are drawn, the least important first."""

    highways: tuple[str, ...]
    width: float
    colour: str


class RoadLines(NamedTuple):
    """The lines of the roads of a style, or of their tunnels, which are dashed."""

    style: RoadStyle
    dashes: str | None
    lines: list[list[Point]]


ROAD_STYLES = [
    RoadStyle((), 1.2, "#918d86"),
    RoadStyle(("tertiary",), 1.8, "#8b877f"),
    RoadStyle(("secondary",), 2.4, "#847f77"),
    RoadStyle(("primary",), 3, "#7c776e"),
    RoadStyle(("motorway", "trunk"), 3.6, "#726d64"),
]
STYLE_OF = {highway: number for number, style in enumerate(ROAD_STYLES) for highway in style.highways}
TUNNEL = "tunnel"
DASHES = "5 4"
# Edges that are read together, and the share of the world from which on a box has all of them.
PART, WIDE = 1 << 14, 0.25
# The points of roads that a picture has room for: some 3 MB of it.
MAX_POINTS = 200_000
# The degrees within which a route lies beside the roads, on which it begins and ends, and those within which an area does.
BESIDE, AREA_BESIDE = 0.001, 0.1


def read_roads(
    arrays: MappedNetwork, box: Box | None, most: int | None = None, on_progress: OnProgress = lambda what, done, total: None,
    near: float = 0.0
) -> list[RoadLines]:
    """For each style the lines of its roads, and then for each those of its tunnels; a road of two directions comes once, and with a box
    only those that meet it; without one they begin within 180 degrees of the longitude `near`. With `most` the least important styles are
    left out that would make more points of all, but for the most important one that is there."""
    roads = [RoadLines(style, dashes, []) for dashes in (None, DASHES) for style in ROAD_STYLES]
    near = near if box is None else from_mercator(box.middle)[0]
    edges = edges_in(arrays, box)
    styles, counts = styles_of(arrays, edges), arrays.edge_begin[edges + 1] - arrays.edge_begin[edges]
    if most is not None:
        classes = styles % len(ROAD_STYLES)
        of_each = numpy.bincount(classes, counts, len(ROAD_STYLES))
        has_room = numpy.cumsum(of_each[::-1])[::-1] <= most
        has_room[classes.max(initial=0)] = True
        edges = edges[has_room[classes]]
        styles = styles_of(arrays, edges)
    seen = set()
    for low in range(0, len(edges), PART):
        on_progress("roads", low, len(edges))
        for line, style in zip(lines_of(arrays, edges[low : low + PART], near, box), styles[low : low + PART].tolist()):
            if line is not None and tuple(line) not in seen:
                seen.add(tuple(line))
                roads[style].lines.append(line if len(line) > 1 else line * 2)
    return roads


def edges_in(arrays: MappedNetwork, box: Box | None) -> Ints:
    """The edges in a box, and others, or all, in their order. Those beyond 85.05 degrees are drawn at the edge of the plane."""
    if box is None or box.width >= WIDE or box.top < 0 or box.bottom > 1:
        return numpy.arange(len(arrays.edge_begin) - 1)
    lon, lat = from_mercator(box.middle)
    corners = [from_mercator((x, y)) for x in (box.left, box.right) for y in (box.top, box.bottom)]
    reach = max(metres_between(lon, lat, *corner) for corner in corners)
    near = [numpy.empty(0, numpy.int64), *arrays.edge_grid.candidates((wrapped_lon(lon), lat), reach)]
    found: Ints = numpy.unique(numpy.concatenate(near)).astype(numpy.int64)
    return found


def styles_of(arrays: MappedNetwork, edges: Ints) -> Ints:
    """The styles of edges in the order of read_roads, by the class and structure of an arc of each."""
    arcs = arrays.first_arcs(edges)
    highways, structures = (arrays.arc_texts(arcs, TEXTS.index(name)) for name in ("highway", "structure"))
    found = numpy.zeros(len(edges), numpy.int64)
    for text in numpy.unique(highways).tolist():
        # (a slip road is as the road that it leads to)
        found[highways == text] = STYLE_OF.get(arrays.texts[text].removesuffix("_link"), 0)
    for text in numpy.unique(structures).tolist():
        if arrays.texts[text] == TUNNEL:
            found[structures == text] += len(ROAD_STYLES)
    return found


def lines_of(arrays: MappedNetwork, edges: Ints, near: float, box: Box | None) -> Iterator[list[Point] | None]:
    """The line of each edge, whose longitudes go on beyond 180 degrees (unwrapped); None for one that doesn't meet the box."""
    first, counts = arrays.edge_begin[edges], arrays.edge_begin[edges + 1] - arrays.edge_begin[edges]
    owner, position = expand(counts)
    places = arrays.points[first[owner] + position] / UNITS
    begins = offsets(counts)
    if box is None:
        is_near = numpy.ones(len(edges), numpy.bool_)
    else:
        plane = mercator_of(places)
        # (as `unwrapped` takes them: each first point on the box's side of the world, and the others on its own)
        shift = numpy.round((near - places[begins[:-1], 0]) / 360)[owner] + numpy.round((places[begins[:-1], 0][owner] - places[:, 0]) / 360)
        plane[:, 0] += shift
        low, high = numpy.minimum.reduceat(plane, begins[:-1]), numpy.maximum.reduceat(plane, begins[:-1])
        is_near = ((low <= (box.right, box.bottom)) & (high >= (box.left, box.top))).all(axis=1)
    listed = [(lon, lat) for lon, lat in places.tolist()] if is_near.all() else None
    for edge, (is_shown, begin, end) in enumerate(zip(is_near.tolist(), begins[:-1].tolist(), begins[1:].tolist())):
        if not is_shown:
            yield None
            continue
        line = [(lon, lat) for lon, lat in places[begin:end].tolist()] if listed is None else listed[begin:end]
        yield unwrapped(line, near)


def wrapped_lon(lon: float) -> float:
    return (lon + 180) % 360 - 180


def box_for(places: list[Point]) -> Box:
    """The box around places, with a tenth of its greater side, and at least 200 metres, on each side, in a shape that suits a picture."""
    box = box_of(to_mercator(places))
    return box.grown(max(box.width, box.height) / 10 + 200 / box.metres).shaped(0.56, 1.4)


def make_scene(
    arrays: MappedNetwork, routes: list[DrawnRoute], is_whole: bool, path: str,
    on_progress: OnProgress = lambda what, done, total: None
) -> tuple[Box, list[RoadLines]]:
    """The box to show, and its roads that have room. Raises a NetworkError where the routes of the file at the path are another network's."""
    need_inside(arrays, routes, path)
    places = list(itertools.chain.from_iterable(route.places for route in routes))
    if places and not is_whole:
        box = box_for(places)
        return box, read_roads(arrays, box, MAX_POINTS, on_progress)
    if not len(arrays.arc_from):
        raise NetworkError("has no arcs", arrays.path)
    west, south, east, north = arrays.box
    middle = (west + east) / 2
    near = middle + 360 * round((places[0][0] - middle) / 360) if places else middle  # (on the routes' side of the world)
    box = box_for([(west - middle + near, south), (east - middle + near, north)])
    return box, read_roads(arrays, None, MAX_POINTS, on_progress, near)


def need_inside(arrays: MappedNetwork, routes: list[DrawnRoute], path: str) -> None:
    """A NetworkError where a route isn't in the box of the network's roads."""
    west, south, east, north = (arrays.about[side] / UNITS for side in ("west", "south", "east", "north"))
    for number, route in enumerate(routes, 1):
        beside = AREA_BESIDE if route.rings else BESIDE
        for lon, lat in route.places:
            is_beside = (lon - west + beside) % 360 <= east - west + 2 * beside
            if not (is_beside and south - beside <= lat <= north + beside):
                box = f"{west:.4f},{south:.4f} to {east:.4f},{north:.4f}"
                where = f"leads by {wrapped_lon(lon):.4f},{lat:.4f}, and the roads of {arrays.path} are from {box}"
                raise NetworkError(f"feature {number} {where}: is it of another network?", path)
