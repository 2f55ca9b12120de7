"""Routes and tables of weights between points on roads. Needs numpy.

The weight of each leg, and each cell, is that of a shortest path in the graph that the points split. Its part between nodes is the
library's, which is proved; the split and the choice of the road are tested. Metres and seconds are sums along that path.
"""
import functools
import itertools
import operator
from collections.abc import Sequence
from typing import TYPE_CHECKING, Any, NamedTuple

import numpy as np

from ..batch import Summer, table
from ..features import picture, route_feature
from ..protocol import RouterResult
from ..router import Router
from .alternatives import Reached
from .alternatives import alternatives as other_legs
from .geo import Point
from .groups import Ints
from .leg_geometry import MICRODEGREES, RouteGeometry, leg_totals
from .leg_tables import table_rows, weight_rows
from .legs import Leg, SnapEnds, find_leg, find_legs
from .matching import Matched, Matcher, Trace
from .parallel import differs_from_previous
from .snapping import NAME, RoadIndex, SnappedPoint
from .steps import instructions

if TYPE_CHECKING:
    from .network import Network

# Lengths between nodes that are computed at once, for a table.
NODE_CELLS = 1 << 22


class RoadRoute(NamedTuple):
    """The route between two points on roads: its weight in the graph's unit, of how many arcs it has a part, its seconds, None where
    the network has none, its metres, the streets with their metres and seconds, its line (lon, lat), of two points or more, and
    `turns`, what to do in order, None unless that was asked for. Its text in a session leaves out the line."""

    weight: int
    arcs: int
    seconds: float | None
    metres: float
    steps: list[dict[str, Any]]
    line: list[Point]
    turns: list[dict[str, Any]] | None = None

    def __repr__(self) -> str:
        return f"<RoadRoute: {described(self)}, {len(self.line)} points>"


class Directions(NamedTuple):
    """The route by several places in their order.

    weight    the sum of the legs' weights, in the unit of the graph's weights: each leg is a shortest path
    seconds   None where the network has none
    metres    along the route
    legs      a RoadRoute from each place, or of those that were chosen from each of these, to the next
    places    the points on roads that stand for the places
    attribution   what the map asks pages to show, "" for nothing
    network       on which it is drawn in a notebook, or None
    """

    weight: int
    seconds: float | None
    metres: float
    legs: list[RoadRoute]
    places: list[SnappedPoint]
    attribution: str
    network: "Network | None" = None

    def __repr__(self) -> str:
        return f"<Directions by {len(self.places)} places: {described(self)}>"

    @property
    def steps(self) -> list[dict[str, Any]]:
        """The streets of all legs, with their metres and seconds."""
        return [step for leg in self.legs for step in leg.steps]

    @property
    def turns(self) -> list[dict[str, Any]]:
        """What to do along all legs in order, if that was asked for: see steps.instructions."""
        return [turn for leg in self.legs for turn in leg.turns or ()]

    @property
    def line(self) -> list[Point]:
        """The points (lon, lat) of the whole route, of which none is the one before: two or more."""
        points = [point for point, _ in itertools.groupby(point for leg in self.legs for point in leg.line)]
        return points if len(points) > 1 else points * 2

    def geojson(self) -> dict[str, Any]:
        """The route as a Feature with its line, in parts where it crosses the 180th meridian, and weight, seconds and metres."""
        properties: dict[str, Any] = {"weight": self.weight, "seconds": self.seconds, "metres": self.metres}
        if self.attribution:
            properties["attribution"] = self.attribution
        return route_feature(properties, self.line)

    @property
    def __geo_interface__(self) -> dict[str, Any]:
        return self.geojson()

    def _repr_html_(self) -> str | None:
        """Its picture in a notebook, None without a network."""
        return None if self.network is None else picture(self.network, [self.geojson()])


class Tour(NamedTuple):
    """The order of some places, each from 0, and the route by them in this order, which leads back to the first one of a round trip."""

    order: list[int]
    directions: Directions

    def _repr_html_(self) -> str | None:
        """The picture of its route in a notebook, None without a network."""
        return self.directions._repr_html_()


def described(route: Directions | RoadRoute) -> str:
    """The figures of a route, as a session shows them."""
    seconds = "" if route.seconds is None else f", {route.seconds:.12g} s"
    return f"weight {route.weight}, {route.metres:.12g} m{seconds}"


class Matching:
    """A way that was matched to points of a trace.

    points      the numbers of the points, from 0
    confidence  the mean probability, by the model, that a point is where it is, from 0 to 1
    matched     where they are on roads, and the legs between
    """

    def __init__(self, roads: RoadIndex, matched: Matched) -> None:
        self.points, self.confidence, self.matched, self._roads = matched.points, matched.confidence, matched, roads

    def __repr__(self) -> str:
        return f"<Matching of {len(self.points)} points>"

    def __getstate__(self) -> dict[str, Any]:
        """For pickle: with the Directions in place of the roads of the open network."""
        return {**vars(self), "directions": self.directions, "_roads": None}

    @functools.cached_property
    def directions(self) -> Directions:
        """The Directions along the way, with a leg from each of its points to the next."""
        return directions_along(self._roads, self.matched.places, self.matched.legs)

    def geojson(self) -> dict[str, Any]:
        """The way as a Feature, with its confidence and its points beside weight, seconds and metres."""
        found = self.directions.geojson()
        found["properties"] |= {"confidence": round(self.confidence, 3), "points": self.points}
        return found

    @property
    def __geo_interface__(self) -> dict[str, Any]:
        return self.geojson()


class Match(NamedTuple):
    """What a trace was matched to.

    matchings  the Matchings, in the order of the trace; another begins at a gap of time, and where no way leads on
    places     for each point of the trace the point on a road that it is, or None for one without a match
    """

    matchings: list[Matching]
    places: list[SnappedPoint | None]


def match(router: Router, summer: Summer, roads: RoadIndex, trace: Trace, is_split: bool, is_tidy: bool) -> Match:
    """What a trace is matched to, by what sums up millimetres along paths. Raises NetworkError."""
    found = Matcher(functools.partial(ask_router, router), summer.table, roads, trace).ways(is_split, is_tidy)
    places: list[SnappedPoint | None] = [None] * len(trace.places)
    for way in found:
        for number, place in zip(way.points, way.places):
            places[number] = place
    return Match([Matching(roads, way) for way in found], places)


def directions(
    router: Router, roads: RoadIndex, points: Sequence[SnappedPoint], stops: Sequence[int] | None = None, is_straight: bool = False,
    has_turns: bool = False
) -> Directions | None:
    """The route by some points in their order, None where a leg has no path; stops as RouteGeometry has them, and `is_straight` as
    `find_legs`. Raises NetworkError."""
    legs = find_legs(functools.partial(ask_router, router), roads, points, is_straight)
    return None if isinstance(legs, int) else directions_along(roads, points, legs, stops, has_turns)


def alternatives(
    router: Router, roads: RoadIndex, start: SnappedPoint, end: SnappedPoint, reached: Reached, count: int
) -> list[Directions]:
    """The route between two points, and up to so many others; none where there is no path. Raises NetworkError."""
    between = functools.partial(ask_router, router)
    best = find_leg(between, roads, start, end)
    if best is None:
        return []
    legs = [best, *other_legs(roads, start, end, best, between, reached, count)]
    return [directions_along(roads, [start, end], [leg]) for leg in legs]


def stops_of(waypoints: Sequence[int], count: int) -> list[int]:
    """The stops of a route by so many places, of those that were chosen. Raises ValueError where the first and the last aren't among them."""
    try:
        stops = [operator.index(each) for each in waypoints]
    except TypeError:
        stops = []
    if stops[:1] != [0] or stops[-1:] != [count - 1] or any(before >= behind for before, behind in itertools.pairwise(stops)):
        raise ValueError(f"waypoints have to be numbers of places that rise from 0 to the last, {count - 1}, and are {waypoints}")
    return stops


def directions_along(
    roads: RoadIndex, points: Sequence[SnappedPoint], parts: Sequence[Leg], stops: Sequence[int] | None = None, has_turns: bool = False
) -> Directions:
    """The route along parts from each point to the next; stops as RouteGeometry has them."""
    ends = itertools.pairwise(range(len(points)) if stops is None else stops)
    legs = [route_along(roads, points[first : last + 1], parts[first:last], has_turns) for first, last in ends]
    weight, metres = sum(leg.weight for leg in legs), round(sum(leg.metres for leg in legs), 2)
    seconds = round(sum(leg.seconds or 0.0 for leg in legs), 3) if roads.has_seconds else None
    return Directions(weight, seconds, metres, legs, list(points), roads.texts[0])


def ask_router(router: Router, exits: SnapEnds, entries: SnapEnds) -> RouterResult | None:
    """The shortest path between the nodes of two points on roads."""
    starts, ends = ([(node, side[node][0]) for node in sorted(side)] for side in (exits, entries))
    return router.between(starts, ends)


def weights(router: Router, roads: RoadIndex, starts: Sequence[SnappedPoint], ends: Sequence[SnappedPoint]) -> Ints:
    """The least weights from each start to each end, FAR where there is no path."""
    rows = list(weight_rows(functools.partial(table, router), roads, starts, ends, NODE_CELLS))
    return np.concatenate(rows) if rows else np.empty((0, len(ends)), np.int64)


def weights_and_millimetres(
    summer: Summer, roads: RoadIndex, starts: Sequence[SnappedPoint], ends: Sequence[SnappedPoint]
) -> tuple[Ints, Ints]:
    """The same, and the millimetres along a path of that weight, by what sums them up."""
    rows = table_rows(lambda sources, targets: [*summer.table(sources, targets)], roads, starts, ends, NODE_CELLS, [roads.arrays.arc_metres])
    none = np.empty((0, len(ends)), np.int64)
    found, sums = (np.concatenate([none, *some]) for some in zip(*rows)) if starts else (none, none)
    return found, sums


def route_along(roads: RoadIndex, points: Sequence[SnappedPoint], legs: Sequence[Leg], has_turns: bool = False) -> RoadRoute:
    """The route along legs from each point to the next, as one."""
    geometry = RouteGeometry(roads, legs, points, [0, len(legs)])
    _, seconds, metres = leg_totals(roads, legs)
    texts = roads.arrays.arc_texts(geometry.arcs, NAME)
    begins = np.flatnonzero(differs_from_previous(texts))[: len(texts)]
    parts = geometry.totals(begins, np.append(begins[1:], len(texts))[: len(begins)]).rows
    steps = [
        {"name": roads.texts[name], "metres": part_metres, "seconds": part_seconds}
        for name, (_, part_seconds, part_metres) in zip(texts[begins].tolist(), parts)
    ]
    line = [(lon, lat) for lon, lat in (geometry.lines()[0] / MICRODEGREES).tolist()]
    turns = instructions(geometry) if has_turns else None
    return RoadRoute(sum(leg.weight for leg in legs), len(geometry.arcs), seconds, metres, steps, line, turns)
