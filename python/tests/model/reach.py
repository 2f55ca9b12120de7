"""What is reached from places on roads: up to which share of each edge, and which places contours have."""
import itertools
import math
from collections.abc import Sequence
from typing import Any

import numpy as np
from scipy.spatial import KDTree

from .network import Network, SnappedPoint
from .sphere import EARTH_RADIUS, Point, clip

# Shares of an edge between which it is reached.
Shares = list[tuple[float, float]]
# Of contours: up to which share of the extent, and between which metres, or up to two steps, a place is near a road; the points of
# a grid, and the steps along the lesser side of the extent.
SHARE, LEAST, MOST, POINTS, STEPS = 1 / 8, 100.0, 200.0, 2_700_000, 205
# Places are compared if something else is so many steps farther away; so many along each side.
SLACK, PROBES = 4, 40


def reached(network: Network, points: Sequence[SnappedPoint], limit: int) -> dict[int, Shares]:
    """The shares of each edge that are reached within a limit: from both of its ends, and from the places on it."""
    first = [part for point in points for part in network.parts_at(point, True).values()]
    # (arcs, from which share on, and what is spent at their starts)
    ways = [(arc, begin, rest - network.arcs[arc].weight) for arc, begin, _, rest in first]
    ended = [(arc, spent) for arc, spent in network.ended(first).items() if spent <= limit]
    ways += [(other, 0.0, spent) for arc, spent in ended for other in network.followers[arc]]
    found: dict[int, Shares] = {}
    for arc, begin, spent in ways:
        edge, whole = network.edge_of[arc], network.arcs[arc].weight
        high = max(begin, min(1.0, (limit - spent) / whole)) if whole else 1.0
        found.setdefault(edge, []).append((begin, high) if network.edges[edge].arcs[arc] else (1 - high, 1 - begin))
    return {edge: joined(shares) for edge, shares in found.items()}


def joined(shares: Shares) -> Shares:
    """Intervals in order, those that touch one another as one, and none without a length."""
    found: Shares = []
    for low, high in sorted(shares):
        if found and low <= found[-1][1] + 1e-12:
            low, high = found[-1][0], max(found.pop()[1], high)
        found.append((low, high))
    return [(low, high) for low, high in found if low < high]


def reached_lines(network: Network, points: Sequence[SnappedPoint], limit: int) -> list[list[Point]]:
    """The lines of the roads that are reached within a limit."""
    return [clip(network.edges[edge].line, *each) for edge, shares in reached(network, points, limit).items() for each in shares]


def places_within(network: Network, shares: dict[int, Shares], metres: float) -> tuple[Any, Any]:
    """Places over what is reached and some way around it, nodes among them, and whether each belongs to the contour: the nearest
    road is reached there, and near enough. There are none about which steps of a grid decide; `metres` are those by which the
    contour is simplified."""
    lines = [clip(network.edges[edge].line, *each) for edge, some in shares.items() for each in some]
    lats = [lat for line in lines for _, lat in line]
    lon, scale = lines[0][0][0], math.radians(EARTH_RADIUS) * np.array([math.cos(math.radians((min(lats) + max(lats)) / 2)), 1.0])

    def in_plane(points: Any) -> Any:
        found = np.array(points)
        found[:, 0] = (found[:, 0] - lon + 180) % 360 - 180
        return found * scale

    low, high = np.array([choose(in_plane([*itertools.chain(*lines)]), axis=0) for choose in (np.min, np.max)])
    sides = high - low
    step, beside = max(0.5, 2.0 ** math.floor(math.log2(max(min(sides) / STEPS, 0.5)))), min(max(SHARE * max(sides), LEAST), MOST)
    while 4 * np.prod(sides + 2 * beside) > POINTS * step**2:
        step *= 2
    far, slack = max(beside, 2 * step), SLACK * step + 2 * metres + 1
    on_roads = {node for arc in network.arcs for node in arc[:2]}
    alone = [node.place for number, node in enumerate(network.nodes) if number not in on_roads and node.ends != "no"]
    others, reached = [in_plane(np.array(alone).reshape(-1, 2))], list[Any]()  # (a node without roads isn't reached)
    for number, edge in enumerate(network.edges):
        along = np.array(network.along[number])
        at = np.union1d(along, np.arange(0, along[-1], step))
        points = np.column_stack([np.interp(at, along, axis) for axis in in_plane(edge.line).T])
        is_reached = np.zeros(len(at), bool)
        for begin, end in shares.get(number, []):
            is_reached |= (begin * along[-1] <= at) & (at <= end * along[-1])
        reached.append(points[is_reached])
        others.append(points[~is_reached])
    axes = [np.linspace(*ends, PROBES) for ends in zip(low - 1.5 * far, high + 1.5 * far)]
    nodes = in_plane([node.place for node in network.nodes])
    places = np.concatenate((np.stack(np.meshgrid(*axes), axis=-1).reshape(-1, 2), nodes))
    every = np.concatenate(reached), np.concatenate(others)
    near, away = (KDTree(some).query(places)[0] if len(some) else math.inf for some in every)
    most = np.minimum(far, away)
    is_clear = np.abs(near - most) > slack
    return (places / scale + (lon, 0))[is_clear], (near < most)[is_clear]
