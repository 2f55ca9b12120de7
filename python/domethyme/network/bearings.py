"""The nearest point of a road in a given direction, for OSRM's `bearings`, and of the side of a place, for `approaches`."""
import itertools
from typing import NamedTuple

import numpy as np
from numpy.typing import NDArray

from .columns import UNITS
from .geo import Point, bearing
from .grid import Ints, concat_ranges
from .parallel import differs_from_previous
from .snapping import END_TOLERANCE, SEGMENT_END_OFFSETS, Arc, Edge, RoadIndex, SnappedPoint
from .sphere import unit_vectors

# How many of the nearest edges are examined, until enough have a road in the direction.
CANDIDATES = (8, 64, 512, 4096)
# Segments on each side of the nearest one whose directions are examined first.
BESIDE = 2


class BearingRange(NamedTuple):
    """Directions from `bearing` - `tolerance` to `bearing` + `tolerance`, in degrees clockwise from north."""

    bearing: int
    tolerance: int

    def contains(self, direction: float) -> bool:
        return abs((direction - self.bearing + 180) % 360 - 180) <= self.tolerance


class Approach(NamedTuple):
    """The directions in which a route may come to a place and leave it: those of a range, or any, and with `is_curb` those for which the
    place is at the side of the road on which vehicles are."""

    bearing_range: BearingRange | None = None
    is_curb: bool = False


def nearest_by_approach(
    roads: RoadIndex, place: Point, count: int, approach: Approach, radius: float, is_any: bool = False
) -> list[SnappedPoint]:
    """The `count` nearest points, up to `radius`, of roads with such a direction, which routes keep to; of ferries only with `is_any`."""
    bearing_range = approach.bearing_range
    if bearing_range is None:
        nearest = roads.nearest(place, count, within=radius, is_any=is_any)
        return [at_curb(roads, place, point) or point for point in nearest] if approach.is_curb else nearest
    found: list[SnappedPoint] = []
    for limit in CANDIDATES:
        edges = roads.nearest_edges(place, limit, within=radius, is_any=is_any)
        chosen = (roads.snap(place, edge) for edge in likely_edges(roads, place, edges, bearing_range))
        restricted = (restrict_to_bearing(roads, snapped, bearing_range) for snapped in chosen)
        if approach.is_curb:
            restricted = (at_curb(roads, place, snapped) for snapped in restricted if snapped is not None)
        found = list(itertools.islice((snapped for snapped in restricted if snapped is not None), count))
        if len(found) >= count or len(edges) < limit:
            break
    return found


def likely_edges(roads: RoadIndex, place: Point, edges: list[int], bearing_range: BearingRange) -> list[int]:
    """Those of some edges with an arc whose direction is in the range on the segment nearest to a place, or on one beside it: all that
    `restrict_to_bearing` may keep, and few others."""
    if not edges:
        return []
    rows = np.array(edges)
    ways = roads.project(np.array(place), rows)
    begins, ends = roads.arrays.points[ways.rows] / UNITS, roads.arrays.points[ways.rows + 1] / UNITS
    is_way = (begins != ends).any(axis=1)
    nearest = np.lexsort((ways.rows, ways.metres, ways.which))[np.flatnonzero(differs_from_previous(ways.which))]
    # (of the segments with a length the nearest one, and those beside it: a point is at an end of a road from some millimetres on)
    with_length = np.flatnonzero(is_way)
    beside = is_way.cumsum()[nearest] - 1 + np.arange(-BESIDE, BESIDE + 1)[:, None]
    lines = with_length[np.clip(beside, 0, len(with_length) - 1)] if len(with_length) else np.zeros_like(beside)
    is_own = ways.which[lines] == np.arange(len(rows))
    east, north = (ends - begins)[lines].transpose(2, 0, 1)
    east = np.remainder(east + 180, 360) - 180
    directions = np.degrees(np.arctan2(east * np.cos(np.radians(begins[lines, 1])), north))
    # (a road of no length has the direction 0)
    is_likely = np.bincount(ways.which[is_way], minlength=len(rows)) == 0
    for is_along, turned in ((True, 0), (False, 180)):
        off = np.abs((directions + turned - bearing_range.bearing + 180) % 360 - 180)
        is_in_range = (is_own & (off <= bearing_range.tolerance + 1)).any(axis=0)
        is_likely |= is_in_range & has_arcs(roads, rows, is_along)
    return list(rows[is_likely].tolist())


def has_arcs(roads: RoadIndex, edges: Ints, is_along: bool) -> NDArray[np.bool_]:
    """Whether each edge has an arc along it, or against it."""
    first = roads.arrays.edge_first[edges]
    which, places = concat_ranges(first, roads.arrays.edge_first[edges + 1] - first)
    is_so = roads.arrays.arc_along[roads.arrays.edge_arcs[places]] == is_along
    return np.bincount(which[is_so], minlength=len(edges)) > 0


def restrict_to_bearing(roads: RoadIndex, snapped: SnappedPoint, bearing_range: BearingRange) -> SnappedPoint | None:
    """The point with the arcs of its edge whose direction is in the range; None if there is none."""
    arcs = roads.edge(snapped.edge).arcs
    kept = {number: arc for number, arc in arcs.items() if bearing_range.contains(bearing_at(roads, arc, snapped.fraction))}
    return roads.keep_arcs(snapped, kept) if kept else None


def at_curb(roads: RoadIndex, place: Point, snapped: SnappedPoint) -> SnappedPoint | None:
    """The point of a place with those of its arcs for which the place is at the side on which vehicles are; None if there is none. On a road
    of one way, and for a place on the line of the road, any will do."""
    arcs = roads.edge(snapped.edge).arcs
    if len({arc.is_along for arc in arcs.values()}) < 2 or snapped.metres <= END_TOLERANCE:
        return snapped
    is_along = (roads.arrays.driving_side == "left") == is_left(roads, place, snapped.edge)
    kept = {number: arc for number, arc in arcs.items() if arc.is_along == is_along and (not snapped.arcs or number in snapped.arcs)}
    return roads.keep_arcs(snapped, kept) if kept else None


def is_left(roads: RoadIndex, place: Point, edge: int) -> bool:
    """Whether a place is to the left of an edge: of its nearest segment, or of the mean direction of two at whose common end it is."""
    ways = roads.project(np.array(place), np.array([edge]))
    begins, ends = unit_vectors(*(roads.arrays.points[ways.rows + SEGMENT_END_OFFSETS] / UNITS).transpose(2, 0, 1))
    is_way = (begins != ends).any(axis=1)  # (without those of no length, which may be between two others)
    metres, begins, steps = ways.metres[is_way], begins[is_way], (ends - begins)[is_way]
    best = int(metres.argmin())
    near = [row for row in (best - 1, best, best + 1) if 0 <= row < len(metres) and metres[row] == metres[best]]
    # (differences of vectors, since these are exact to a nanometre)
    normals = np.cross(begins[near], steps[near])
    normals /= np.linalg.norm(normals, axis=1)[:, None]
    return bool(normals.sum(axis=0) @ (unit_vectors(*np.array(place)) - begins[near[-1]]) > 0)


def bearing_at(roads: RoadIndex, arc: Arc, fraction: float) -> float:
    """The direction of an arc at a fraction of its edge; 0 for an edge of no length."""
    segment = segment_at(roads.edge(arc.edge), fraction)
    direction = bearing(*segment) if segment else 0.0
    return direction if arc.is_along or not segment else (direction + 180) % 360


def segment_at(edge: Edge, fraction: float) -> tuple[Point, Point] | None:
    """The ends of an edge's segment at a fraction of it; None for an edge of no length."""
    steps = [index for index in range(1, len(edge.points)) if edge.cumulative[index] > edge.cumulative[index - 1]]
    if not steps:
        return None
    index = next((index for index in steps if edge.cumulative[index] >= fraction * edge.metres), steps[-1])
    return edge.points[index - 1], edge.points[index]
