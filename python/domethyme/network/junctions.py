"""The roads that meet at junctions of a route, in arrays of the whole route. Needs numpy.

A road at a junction is one end of an edge, by which a route may come or go. Nodes that turn restrictions made of one junction count as
this junction: of these one begins all arcs that leave it, and another one ends all that lead there.
"""
from typing import NamedTuple

import numpy as np
from numpy.typing import NDArray

from .column_file import Column
from .columns import ENDS, UNITS
from .geo import bearing
from .grid import concat_ranges
from .groups import Ints, offsets
from .leg_geometry import RouteGeometry, are_equal, whole_bearings
from .parallel import differs_from_previous
from .snapping import RoadIndex

# How many edges meet at a junction, at least.
MIN_DEGREE = 3
# The bits of the end of an edge where it is packed with the number of a junction.
ROAD_BITS = 34


class Junctions(NamedTuple):
    """Junctions of a route in its order; the roads at junction k are rows begins[k]:begins[k + 1], by their bearings.

    arcs      the arc of the route that leaves each junction, by its place among these
    begins    as that says
    bearings  from the junction along each road, in whole degrees from north, clockwise; they rise
    entries   whether an arc leads from where the route comes into the road
    into, out by which of its roads the route comes, and by which it goes on, from 0
    """

    arcs: Ints
    begins: Ints
    bearings: Ints
    entries: NDArray[np.bool_]
    into: Ints
    out: Ints


def junctions(geometry: RouteGeometry, arcs: Ints, are_kept: NDArray[np.bool_]) -> Junctions:
    """Those of the places before some of the route's arcs, of which none is a leg's first, where MIN_DEGREE edges meet or that are kept."""
    roads, count = geometry.roads, len(arcs)
    before, behind = geometry.arcs[arcs - 1], geometry.arcs[arcs]
    numbers, others, are_starts, open_count = roads_around(geometry, arcs, before, behind)
    every = np.concatenate((before, behind, others))
    own = np.arange(count)
    numbers = np.concatenate((own, own, numbers))
    are_starts = np.concatenate((np.repeat((False, True), count), are_starts))
    ends = 2 * roads.arrays.arc_edge[every].astype(np.int64) + (roads.arrays.arc_along[every] != are_starts)
    keys = (numbers << ROAD_BITS) + ends
    rows = np.sort(keys, kind="stable")  # (which is quick, since most are sorted)
    rows = rows.compress(differs_from_previous(rows))
    place, owner = rows.searchsorted(keys[: 2 * count + open_count]), rows >> ROAD_BITS
    entries, bearings = np.zeros(len(rows), bool), road_bearings(roads, rows & (1 << ROAD_BITS) - 1)
    entries[place[count:]] = True
    first, last = geometry.bearings
    bearings[place[:count]], bearings[place[count : 2 * count]] = (last[arcs - 1] + 180) % 360, first[arcs]
    is_kept = are_kept | (np.bincount(owner[differs_from_previous(rows >> 1)], minlength=count) >= MIN_DEGREE)
    order = (owner * 360 + bearings).argsort(kind="stable")
    rank, counts = np.empty(len(rows), np.int64), np.bincount(owner, minlength=count)
    rank[order] = np.arange(len(rows))
    into, out = (rank.take(place[: 2 * count]).reshape(2, count) - offsets(counts)[:-1])[:, is_kept]
    order = order.compress(is_kept.take(owner.take(order)))
    return Junctions(arcs[is_kept], offsets(counts[is_kept]), bearings.take(order), entries.take(order), into, out)


def roads_around(geometry: RouteGeometry, arcs: Ints, before: Ints, behind: Ints) -> tuple[Ints, Ints, NDArray[np.bool_], int]:
    """The junctions between pairs of arcs, by their numbers, and the arcs of all roads there, which start at the junction or end; those into
    which a route may go on are the first ones, so many. A place within a road has none."""
    roads, arrays = geometry.roads, geometry.roads.arrays
    here = np.flatnonzero(~np.isin(arcs, geometry.joints)) if len(geometry.joints) else np.arange(len(arcs))
    starts, ends, owners = geometry.starts[arcs[here]], arrays.arc_to[before[here]], here
    open_count, split = len(here), arrays.node_ends[starts].nonzero()[0]
    if len(split):
        starts = np.append(starts, twins(roads, behind[here[split]], arrays.arc_from, "from"))
        owners, ends = np.append(here, here[split]), ends.copy()
        ends[split] = twins(roads, before[here[split]], arrays.arc_to, "to")
    begins, (one_way_ends, one_way) = arrays.out_begin[starts], roads.one_way
    junction, rows = concat_ranges(begins, arrays.out_begin[starts + 1] - begins)
    low = one_way_ends.searchsorted(ends)
    other, other_rows = concat_ranges(low, one_way_ends.searchsorted(ends, side="right") - low)
    are_starts = np.arange(len(rows) + len(other_rows)) < len(rows)
    leading = np.concatenate((arrays.out_arcs[rows], one_way.take(other_rows)))
    numbers = np.concatenate((owners.take(junction), here.take(other)))
    return numbers, leading, are_starts, int(junction.searchsorted(open_count))


def twins(roads: RoadIndex, arcs: Ints, column: Column, side: str) -> Ints:
    """For the nodes of arcs, in a column of arcs, those of their junctions on one side: at which all routes begin, or end."""
    arrays, edges = roads.arrays, roads.arrays.arc_edge[arcs]
    found: Ints = column[arcs].astype(np.int64)
    first = arrays.edge_first[edges]
    owner, rows = concat_ranges(first, arrays.edge_first[edges + 1] - first)
    others = arrays.edge_arcs[rows]
    fits = (arrays.arc_along[others] == arrays.arc_along[arcs][owner]) & (arrays.node_ends[column[others]] == ENDS.index(side))
    found[owner[fits]] = column[others[fits]]
    return found


def road_bearings(roads: RoadIndex, ends: Ints) -> Ints:
    """The bearings of roads from the ends of edges that they are; 0 for an edge of no length."""
    arrays, edges, side = roads.arrays, ends >> 1, ends & 1
    at = np.where(side == 0, arrays.edge_begin[edges], arrays.edge_begin[edges + 1] - 1)
    here, there = arrays.points[at], arrays.points[at + 1 - 2 * side]
    found = whole_bearings(here, there)
    for row in are_equal(here, there).nonzero()[0].tolist():
        begin, behind = arrays.edge_begin[edges[row] : edges[row] + 2].tolist()
        place, *line = [(lon, lat) for lon, lat in (arrays.points[begin:behind] / UNITS)[:: 1 - 2 * int(side[row])].tolist()]
        found[row] = bearing(place, next((each for each in line if each != place), place))
    return found
