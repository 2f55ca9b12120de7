"""The shortest path between two points on roads, from shortest paths between nodes.

Both points split arcs of the graph. A shortest path stays on one arc, or it leaves the first point's edge by the end of an
arc, enters the second's by the start of one, and is a shortest path of the graph between. So the shortest of these is
shortest in the graph with the split arcs.
"""
import itertools
from collections.abc import Callable, Sequence
from typing import NamedTuple

import numpy as np

from ..errors import NetworkError
from ..protocol import RouterResult
from .groups import Ints, expand
from .snapping import NO_ARC, RoadIndex, SnappedPoint

# Candidate nodes of a snapped point: node -> (weight, arc) of the part of the arc between.
SnapEnds = dict[int, tuple[int, int]]
# A shortest path from one of several nodes to one of several, with the weights of both ends added; or None.
Between = Callable[[SnapEnds, SnapEnds], RouterResult | None]


class Leg(NamedTuple):
    """The path between two points: weight, arcs, the weights driven on these, the first from `begin` and the last to `end`."""

    weight: int
    arcs: Ints
    weights: Ints
    begin: float
    end: float


EMPTY_LEG = Leg(0, np.empty(0, np.int64), np.empty(0, np.int64), 0.0, 1.0)


def find_leg(ask: Between, roads: RoadIndex, start: SnappedPoint, end: SnappedPoint) -> Leg | None:
    """The leg between two points; None if there is no path. Raises NetworkError."""
    if is_same_node(start, end):
        return EMPTY_LEG
    return choose_leg(roads, start, end, ask(start.exits, end.entries))


def find_each(ask: Between, roads: RoadIndex, pairs: Sequence[tuple[SnappedPoint, SnappedPoint]]) -> list[Leg | None]:
    """The leg between each two points, as by `find_leg`: the arcs of all are found at once."""
    routes = [None if is_same_node(start, end) else ask(start.exits, end.entries) for start, end in pairs]
    nodes = [np.array(route.nodes if route else (), np.int64) for route in routes]
    owner, position = expand(np.array([*map(len, nodes)], np.int64))
    line, begins = np.concatenate([*nodes, np.empty(0, np.int64)]), np.flatnonzero(position[1:] > 0)
    arcs = roads.arrays.lightest(line[begins], line[begins + 1])
    each = np.split(arcs, owner[begins].searchsorted(range(1, len(pairs))))
    return [
        EMPTY_LEG if is_same_node(start, end) else choose_leg(roads, start, end, route, some)
        for (start, end), route, some in zip(pairs, routes, each)
    ]


def find_legs(ask: Between, roads: RoadIndex, points: Sequence[SnappedPoint], is_straight: bool = False) -> list[Leg] | int:
    """The leg from each point to the next; or the number of the first point from which there is none. With `is_straight` as
    `straight_legs` has them. Raises NetworkError."""
    if is_straight and len(points) > 2:
        return straight_legs(ask, roads, points)
    legs = list[Leg]()
    for start, end in itertools.pairwise(points):
        leg = find_leg(ask, roads, start, end)
        if leg is None:
            return len(legs)
        legs.append(leg)
    return legs


def straight_legs(ask: Between, roads: RoadIndex, points: Sequence[SnappedPoint]) -> list[Leg] | int:
    """The legs by some points in order that weigh least together of those that go on in their direction at each point within a road but the
    first and the last; at a junction any turn will do. If there are none, the number of the first point from which none leads on. Up to
    four legs are found for each two points. Raises NetworkError."""
    states: list[tuple[SnappedPoint, int, list[Leg]]] = [(points[0], 0, [])]
    for number, point in enumerate(points[1:], 1):
        found = []
        for end in [point] if number == len(points) - 1 else by_direction(roads, point):
            ways = ((before, find_leg(ask, roads, start, end), legs) for start, before, legs in states)
            there = [(before + leg.weight, [*legs, leg]) for before, leg, legs in ways if leg is not None]
            if there:
                found.append((end, *min(there, key=lambda way: way[0])))
        if not found:
            return number - 1
        states = found
    return min(states, key=lambda state: state[1])[2]


def by_direction(roads: RoadIndex, point: SnappedPoint) -> list[SnappedPoint]:
    """The point once for each direction of its road, or as it is at a junction."""
    if point.copies:
        return [point]
    arcs = {number: arc for number, arc in roads.edge(point.edge).arcs.items() if number in point.arcs}
    sides = ({number: arc for number, arc in arcs.items() if arc.is_along == is_along} for is_along in (True, False))
    return [roads.keep_arcs(point, side) for side in sides if side]


def is_same_node(start: SnappedPoint, end: SnappedPoint) -> bool:
    """Whether both points are the same node, or split nodes of one junction, and one of them is that of any road."""
    return bool(start.copies) and start.copies == end.copies and not (start.arcs and end.arcs)


def choose_leg(
    roads: RoadIndex, start: SnappedPoint, end: SnappedPoint, route: RouterResult | None, arcs: Ints | None = None
) -> Leg | None:
    """The leg, given the shortest path between the points' nodes, or None, and its arcs if they are known; None if there is no path."""
    straight = leg_without_nodes(roads, start, end)
    if route is None or straight is not None and straight.weight <= route.length:
        return straight
    return leg_via_route(roads, start, end, route, arcs)


def leg_without_nodes(roads: RoadIndex, start: SnappedPoint, end: SnappedPoint) -> Leg | None:
    """The leg that stays at a node, or on an arc of both points, if they are on it in this order."""
    if is_same_node(start, end):
        return EMPTY_LEG
    found: list[Leg] = []
    for number in sorted(start.arcs & end.arcs):
        arc = roads.edge(start.edge).arcs[number]
        begin, stop = roads.arc_fraction(arc, start.fraction), roads.arc_fraction(arc, end.fraction)
        if begin <= stop:
            weight = roads.weight_before(arc, end.fraction) - roads.weight_before(arc, start.fraction)
            found.append(Leg(weight, np.array([number]), np.array([weight]), begin, stop))
    return min(found, key=lambda leg: leg.weight) if found else None


def leg_via_route(
    roads: RoadIndex, start: SnappedPoint, end: SnappedPoint, route: RouterResult, arcs_of_route: Ints | None = None
) -> Leg:
    """The leg of a route between the points' nodes. Raises NetworkError if the network isn't the hierarchy's."""
    (before, first), (behind, last) = start.exits[route.source], end.entries[route.target]
    between = roads.lightest(route.nodes) if arcs_of_route is None else arcs_of_route
    if (between == NO_ARC).any():
        raise NetworkError("lacks an arc of the hierarchy's graph", roads.arrays.path)
    weights, arcs = np.empty((2, len(between) + 2), np.int64)
    weights[0], weights[1:-1], weights[-1] = before, roads.arrays.arc_weight[between], behind
    arcs[0], arcs[1:-1], arcs[-1] = first, between, last
    is_arc = arcs != NO_ARC
    begin = 0.0 if first == NO_ARC else roads.arc_fraction(roads.edge(start.edge).arcs[first], start.fraction)
    stop = 1.0 if last == NO_ARC else roads.arc_fraction(roads.edge(end.edge).arcs[last], end.fraction)
    if int(weights.sum()) != route.length:
        raise NetworkError("has other weights than the hierarchy's graph", roads.arrays.path)
    return Leg(route.length, arcs[is_arc], weights[is_arc], begin, stop)
