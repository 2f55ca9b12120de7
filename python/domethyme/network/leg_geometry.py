"""The legs of a route in arrays: the arcs, their weights, seconds, metres and points, and their bearings."""
import functools
import itertools
import math
from collections.abc import Iterator, Sequence
from typing import NamedTuple

import numpy as np
from numpy.typing import NDArray

from .bearings import segment_at
from .column_file import Column
from .columns import UNITS
from .geo import bearing
from .grid import concat_ranges
from .groups import Ints, offsets
from .indexes import wrapped_difference
from .legs import Leg
from .parallel import differs_from_previous
from .snapping import RoadIndex, SnappedPoint
from .sphere import Floats, great_circle_metres, unit_vectors

MICRODEGREES = 1_000_000
# How many units of weights are a second, or a metre, of an answer.
UNITS_PER_OUTPUT_UNIT = {"duration": 1000, "distance": 100}


# The weight of a leg in the unit of answers, its seconds, None if the network has none, and its metres.
LegTotals = tuple[float, float | None, float]


class Totals(NamedTuple):
    """Totals of some parts of a route: weights in the unit of answers, seconds, None if the network has none and the weights if these are
    seconds, and metres."""

    weights: Floats
    seconds: Floats | None
    metres: Floats

    @property
    def rows(self) -> Iterator[LegTotals]:
        """The three numbers of each part."""
        seconds: list[float] | list[None] = [None] * len(self.weights) if self.seconds is None else self.seconds.tolist()
        return zip(self.weights.tolist(), seconds, self.metres.tolist())


class Segments(NamedTuple):
    """The segments of the lines that are shown, in the order of legs: where each leg's begin, and last where they end; and for
    each segment the part of the route that it belongs to, its share of that part's figures, and the parts' totals. The shares of a
    part are those of metres, or equal if it has no length."""

    begins: Ints
    parts: Ints
    shares: Floats
    totals: Totals


class RouteGeometry:
    """The legs of a route. What is computed of their points is computed where it is asked for.

    ends     the points between which the legs lead, one more than legs
    arcs     the arcs of all legs; those of leg k are arcs[first[k]:first[k + 1]], none if it stays at its point
    first    as that says
    """

    def __init__(
        self, roads: RoadIndex, parts: Sequence[Leg], points: Sequence[SnappedPoint], stops: Sequence[int] | None = None
    ) -> None:
        """`points` are those between which the parts lead, one more than parts. Each part is a leg, or, with `stops`, all from one of
        these points, by their numbers, to the next; of these the first and the last are the route's."""
        self.roads, self._parts, self._points = roads, parts, points
        self._stops = list(range(len(points))) if stops is None else stops
        self.ends = [points[stop] for stop in self._stops]
        self.arcs = joined([part.arcs for part in parts])
        part_first = [*itertools.accumulate((len(part.arcs) for part in parts), initial=0)]
        first = [part_first[stop] for stop in self._stops]
        self._part_first, self.first = np.array(part_first), np.array(first)
        # (the parts, and the legs, that have arcs)
        self._driven, self._driven_legs = with_rows(part_first), with_rows(first)

    @functools.cached_property
    def _weights(self) -> Ints:
        """The weight before each arc, and in total."""
        return offsets(joined([part.weights for part in self._parts]))

    @functools.cached_property
    def _milliseconds(self) -> Ints:
        """The milliseconds before each arc, and in total."""
        return offsets(self._driven_thousandths(self.roads.arrays.arc_seconds))

    @functools.cached_property
    def _millimetres(self) -> Ints:
        return offsets(self._driven_thousandths(self.roads.arrays.arc_metres))

    def _driven_thousandths(self, column: Column) -> Ints:
        """What is driven of each arc: not all, maybe, of the first and the last one of a part."""
        found, parts = thousandths(column[self.arcs]), [self._parts[number] for number in self._driven.tolist()]
        firsts, lasts = self._part_first[self._driven], self._part_first[self._driven + 1] - 1
        before = np.rint(found[firsts] * [part.begin for part in parts]).astype(np.int64)
        behind = found[lasts] - np.rint(found[lasts] * [part.end for part in parts]).astype(np.int64)
        found[firsts] -= before
        found[lasts] -= behind
        return found

    def totals(self, begins: Ints, ends: Ints) -> Totals:
        """The totals of arcs begins[k]:ends[k]. Seconds or metres follow from the weight if weights are these."""
        unit = self.roads.unit
        weights = (self._weights[ends] - self._weights[begins]) / UNITS_PER_OUTPUT_UNIT.get(unit, 1)
        metres = weights if unit == "distance" else (self._millimetres[ends] - self._millimetres[begins]) / 1000
        if not self.roads.has_seconds:
            return Totals(weights, None, metres.round(2))
        seconds = weights if unit == "duration" else (self._milliseconds[ends] - self._milliseconds[begins]) / 1000
        return Totals(weights, seconds, metres.round(2))

    @functools.cached_property
    def are_along(self) -> NDArray[np.bool_]:
        """Whether each arc has its edge's direction."""
        return np.asarray(self.roads.arrays.arc_along[self.arcs])

    @functools.cached_property
    def starts(self) -> Ints:
        """The node at which each arc starts."""
        return np.asarray(self.roads.arrays.arc_from[self.arcs], np.int64)

    @functools.cached_property
    def point_count(self) -> int:
        """How many points the arcs have."""
        edges = self.roads.arrays.arc_edge[self.arcs]
        return int((self.roads.arrays.edge_begin[edges + 1] - self.roads.arrays.edge_begin[edges]).sum())

    @functools.cached_property
    def _lines(self) -> tuple[Ints, Ints]:
        """The points of arc a are points[begins[a]:begins[a + 1]], in 1/UNITS degrees: the begins, and the points."""
        begins, points = self.roads.arrays.arc_lines(self.arcs)
        counts, pieces, done = begins[1:] - begins[:-1], [], 0
        for arc, low, high in self._driven_parts():
            line = self.roads.line(int(self.arcs[arc]), low, high)
            units = [(round(lon * UNITS), round(lat * UNITS)) for lon, lat in line]
            pieces += [points[done : begins[arc]], np.array(units, np.int32)]
            counts[arc], done = len(line), int(begins[arc + 1])
        return offsets(counts), np.concatenate([*pieces, points[done:]])

    def _driven_parts(self) -> Iterator[tuple[int, float, float]]:
        """The arcs that aren't driven whole, and the shares between which they are."""
        for number in self._driven.tolist():
            part, (first, behind) = self._parts[number], self._part_first[number : number + 2].tolist()
            is_one = behind - first == 1
            if part.begin != 0.0 or is_one and part.end != 1.0:
                yield first, part.begin, part.end if is_one else 1.0
            if part.end != 1.0 and not is_one:
                yield behind - 1, 0.0, part.end

    @functools.cached_property
    def joints(self) -> Ints:
        """The arcs with which a leg goes on at a point within a road."""
        firsts, of_legs = self._part_first.tolist(), {*self.first.tolist()}
        pairs = itertools.pairwise(self._driven.tolist())
        inner = [firsts[behind] for before, behind in pairs if self._parts[before].end != 1.0 or self._parts[behind].begin != 0.0]
        return np.array([first for first in inner if first not in of_legs], np.int64)

    @functools.cached_property
    def _shown(self) -> tuple[Ints, Ints]:
        """The points of the lines that are shown, in microdegrees, and the index of each of the arcs' points among these. A leg's line
        has its two snapped points as its ends, and no repeated points."""
        begins, points = self._lines
        shown = (points + UNITS // MICRODEGREES // 2) // (UNITS // MICRODEGREES)
        firsts, lasts = begins[self._part_first[self._driven]], begins[self._part_first[self._driven + 1]] - 1
        places = microdegrees(self._points)
        shown[firsts], shown[lasts] = places[self._driven], places[self._driven + 1]
        is_new = rows_differ(shown)
        is_new[begins[self.first[self._driven_legs]]] = True
        return shown.compress(is_new, axis=0), is_new.cumsum() - 1

    @functools.cached_property
    def _shown_arcs(self) -> tuple[Ints, Ints]:
        """The indices of the first and of the last point of each arc among those that are shown."""
        (begins, _), (_, index) = self._lines, self._shown
        return index[begins[:-1]], index[begins[1:] - 1]

    @property
    def shown(self) -> Ints:
        """The points of the lines that are shown, in microdegrees, of shape (points, 2)."""
        return self._shown[0]

    @functools.cached_property
    def shown_and_ends(self) -> Ints:
        """The same, and behind them the points between which the legs lead."""
        return np.concatenate((self.shown, microdegrees(self.ends)))

    def slices(self, begins: Ints, ends: Ints) -> tuple[Ints, Ints]:
        """The slices of `shown` that are the lines of arcs begins[k]:ends[k]; of one point, if they have no length."""
        return self._shown_arcs[0][begins], self._shown_arcs[1][ends - 1] + 1

    @functools.cached_property
    def line_begins(self) -> Ints:
        """Where the line of each leg begins in `shown`, and last where all end; a leg that stays at its point has none."""
        counts = np.zeros(len(self.ends) - 1, np.int64)
        begins, ends = self.slices(self.first[self._driven_legs], self.first[self._driven_legs + 1])
        counts[self._driven_legs] = ends - begins
        return offsets(counts)

    def lines(self) -> list[Ints]:
        """The line of each leg, in microdegrees; at least two points."""
        ends, begins = microdegrees(self.ends), self.line_begins.tolist()
        lines = [self.shown[low:high] for low, high in itertools.pairwise(begins)]
        return [line if len(line) > 1 else ends[leg : leg + 2] for leg, line in enumerate(lines)]

    def segments(self) -> Segments:
        """The segments of the lines that are shown. An arc that is shown as one point adds to the part before it, the first ones of a
        leg to its first part."""
        begins, ends = self._shown_arcs
        legs = np.arange(len(self.ends) - 1).repeat(self.first[1:] - self.first[:-1])
        firsts = np.flatnonzero(ends > begins)
        is_leg_first, is_leg_last = (differs_from_previous(legs[firsts][::way])[::way] for way in (1, -1))
        behind = self.first[legs[firsts] + 1]
        part_ends = np.where(is_leg_last, behind, np.append(firsts[1:], 0)[: len(firsts)])
        part_begins = np.where(is_leg_first, self.first[legs[firsts]], firsts)
        last = np.where(is_leg_last, ends[behind - 1], ends[firsts])
        first = np.where(is_leg_first, begins[self.first[legs[firsts]]], np.append(0, last[:-1])[: len(firsts)])
        parts, segments = concat_ranges(first, last - first)
        metres = self._segment_metres()[segments]
        sums = np.bincount(parts, metres, len(firsts))
        metres[sums[parts] == 0] = 1.0
        shares = metres / np.where(sums == 0, last - first, sums)[parts]
        counts = np.bincount(legs[firsts], last - first, len(self.ends) - 1).astype(np.int64)
        return Segments(offsets(counts), parts, shares, self.totals(part_begins, part_ends))

    def _segment_metres(self) -> Floats:
        """The metres from each point that is shown to the next, along the arcs' points between."""
        (begins, points), (_, index), (first, last) = self._lines, self._shown, self._shown_arcs
        arc = np.arange(len(self.arcs)).repeat(begins[1:] - begins[:-1])
        steps = np.flatnonzero(arc[1:] == arc[:-1])
        sphere = unit_vectors(*(points / UNITS).T)
        segment = np.minimum(index[steps], last[arc[steps]] - 1)
        is_shown = segment >= first[arc[steps]]
        metres = great_circle_metres(sphere[:-1], sphere[1:])[steps]
        return np.asarray(np.bincount(segment[is_shown], metres[is_shown], len(self.shown)), float)

    def shown_nodes(self) -> tuple[Ints, Ints]:
        """The nodes at points that are shown, and the indices of these; the first of those of one point is its own."""
        arrays, (first, last) = self.roads.arrays, self._shown_arcs
        parts = [self._parts[number] for number in self._driven]
        is_at_node = np.ones(len(self.arcs), dtype=bool)
        is_at_node[self._part_first[self._driven]] = [part.begin == 0.0 for part in parts]
        ended = self._part_first[self._driven + 1][[part.end == 1.0 for part in parts]] - 1
        nodes = np.concatenate((arrays.arc_from[self.arcs[is_at_node]], arrays.arc_to[self.arcs[ended]]))
        return nodes, np.concatenate((first[is_at_node], last[ended]))

    @functools.cached_property
    def bearings(self) -> tuple[Ints, Ints]:
        """The bearings of each arc at its start and at its end, in degrees."""
        arc_begins, points = self._lines
        begins = np.concatenate((arc_begins[:-1], arc_begins[1:] - 2))
        places, others = points.take(begins, axis=0), points.take(begins + 1, axis=0)
        found, same = whole_bearings(places, others), are_equal(places, others).nonzero()[0].tolist()
        shares = {arc: low for arc, low, _ in self._driven_parts()} if same else {}
        # (where the segment has no length, the next point that is another one tells, and without any the arc at the share that is driven)
        for index in same:
            arc_index, step = index % len(self.arcs), 1 if index < len(self.arcs) else -1
            line = points[arc_begins[arc_index] : arc_begins[arc_index + 1]][::step] / UNITS
            here, *rest = [(lon, lat) for lon, lat in line.tolist()]
            other = next((other for other in rest if other != here), None)
            if other is not None:
                found[index] = bearing(*(here, other)[::step])
            else:
                arc = self.roads.arc(int(self.arcs[arc_index]))
                segment = segment_at(self.roads.edge(arc.edge), self.roads.arc_fraction(arc, shares.get(arc_index, 0.0)))
                found[index] = bearing(*segment[:: 1 if arc.is_along else -1]) if segment else 0
        return found[: len(self.arcs)], found[len(self.arcs) :]


def with_rows(begins: Sequence[int]) -> Ints:
    """The numbers of the groups that have rows, by where each begins, and last where they end."""
    return np.array([number for number, (low, high) in enumerate(itertools.pairwise(begins)) if low < high], np.int64)


def joined(arrays: Sequence[Ints]) -> Ints:
    """One array of several."""
    return arrays[0] if len(arrays) == 1 else np.concatenate(arrays)


def are_equal(places: Ints, others: Ints) -> NDArray[np.bool_]:
    """Whether each place is the other one, of shape (places, 2)."""
    return np.asarray((places[:, 0] == others[:, 0]) & (places[:, 1] == others[:, 1]))


def rows_differ(points: Ints) -> NDArray[np.bool_]:
    """Whether each point, of shape (points, 2), is another one than that before it."""
    return differs_from_previous(points[:, 0]) | differs_from_previous(points[:, 1])


def whole_bearings(places: Ints, others: Ints) -> Ints:
    """The directions from places to others near them, in units, in whole degrees from north, clockwise."""
    east, north = others[:, 0] - places[:, 0].astype(float), others[:, 1] - places[:, 1].astype(float)
    if np.abs(east).max(initial=0) > 180 * UNITS:
        east = wrapped_difference(east)
    degrees = np.arctan2(east * np.cos(places[:, 1] * (math.pi / 180 / UNITS)), north) * (180 / math.pi)
    found: Ints = np.rint(degrees).astype(np.int64)
    found[found < 0] += 360
    return found


def leg_totals(roads: RoadIndex, parts: Sequence[Leg]) -> LegTotals:
    """The totals of a leg's parts together. Seconds or metres follow from the weight if weights are these."""
    weight = sum(part.weight for part in parts) / UNITS_PER_OUTPUT_UNIT.get(roads.unit, 1)
    metres = weight if roads.unit == "distance" else driven_sum(roads.arrays.arc_metres, parts)
    if not roads.has_seconds:
        return weight, None, round(metres, 2)
    seconds = weight if roads.unit == "duration" else driven_sum(roads.arrays.arc_seconds, parts)
    return weight, round(seconds, 3), round(metres, 2)


def driven_sum(column: Column, parts: Sequence[Leg]) -> float:
    """The sum of the seconds or metres of a leg's parts."""
    return sum(driven_thousandths(column, part) for part in parts) / 1000


def driven_thousandths(column: Column, leg: Leg) -> int:
    """The same in thousandths, an integer for each arc, and for a part of the first and of the last arc."""
    if not len(leg.arcs):
        return 0
    values = thousandths(column[leg.arcs])
    first, last = int(values[0]), int(values[-1])
    return int(values.sum()) - round(leg.begin * first) - last + round(leg.end * last)


def thousandths(values: Floats) -> Ints:
    return np.asarray(np.rint(1000 * values), np.int64)


def microdegrees(points: Sequence[SnappedPoint]) -> Ints:
    return np.array([(round(each.lon * MICRODEGREES), round(each.lat * MICRODEGREES)) for each in points], np.int64)
