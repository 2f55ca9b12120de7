"""Which roads are reached from places within limits, or lead to places, by the least lengths of the nodes. Needs numpy.

A node is reached within a limit if its length is at most the limit. An arc is reached from its start to the point at which
the limit is used up, where its weight is shared out along its line by metres; towards places, from its end backwards. So a
road is reached from its first point, from its last point, and from the places on it, each as far as its arcs allow.

Limits are in the unit of weights and rise. A level is the number, from 0, of the first limit within which something is
reached; what isn't reached within any has the number of limits as its level.
"""
import itertools
from collections.abc import Collection, Iterator, Sequence
from typing import NamedTuple, TypeVar

import numpy as np
from numpy.typing import NDArray
from scipy.ndimage import maximum_filter

from .columns import UNITS
from .from_tables import FARTHEST_END
from .geo import EARTH_RADIUS, Point, split_at_antimeridian
from .grid import Grid, Ints, concat_ranges
from .groups import first_of_equal
from .indexes import wrapped_difference
from .net_file import MappedNetwork
from .sphere import Floats, great_circle_metres, unit_vectors

METRES_OF_DEGREE = EARTH_RADIUS * np.pi / 180
# Nodes, and edges, that are worked on together.
CHUNK = 1 << 17
# An edge is short beside a box if its metres are less than this part of the box's lesser side: two fifths of a grid's step
# at most.
SHORT = 1024
# The metres of a zone's squares, at least, and how many squares are along its longer side at most. Beyond this latitude all roads of a
# box are looked at.
ZONE_STEP, ZONE_SQUARES, MAX_ZONE_LAT = 128.0, 1024, 85.0
# Edges of more metres may lead far from the nodes from which they are reached.
LONG = 256.0
# How many limits there may be: levels, which are up to that number, have 7 bits beside distances.
MAX_LIMITS = 127
# Roads are shown to so many decimals of a degree, 11 cm.
DECIMALS = 6

Levels = NDArray[np.uint8]
T = TypeVar("T", bound=np.generic)


class PlaceOnRoad(NamedTuple):
    """A point of a road: its edge, the share of its metres before it, and the arcs by which it is left or come to, or None."""

    edge: int
    fraction: float
    arcs: Collection[int] | None = None


class Plane(NamedTuple):
    """Metres to the east of a meridian, in units of a degree, and north of the equator; and those of a degree of longitude."""

    origin: int
    east: float

    def of(self, points: NDArray[np.int32]) -> Floats:
        """The points in units, of shape (points, 2), in the plane. The 180th meridian is no border there."""
        away = wrapped_difference(points[:, 0].astype(np.int64) - self.origin)
        return np.column_stack((away * (self.east / UNITS), points[:, 1] * (METRES_OF_DEGREE / UNITS)))

    def degrees(self, points: Floats) -> Floats:
        """Points of the plane in degrees. The longitudes go beyond 180 to the east or west where the plane does."""
        found: Floats = points / (self.east, METRES_OF_DEGREE)
        found[:, 0] += self.origin / UNITS
        return found


class Box(NamedTuple):
    west: float
    south: float
    east: float
    north: float

    @classmethod
    def around(cls, points: Floats) -> "Box":
        """The smallest one with all of the points. Without any its west is infinite, and it adds nothing to others."""
        return cls(*(axis.min(initial=np.inf) for axis in points.T), *(axis.max(initial=-np.inf) for axis in points.T))

    def grown(self, metres: float) -> "Box":
        return Box(self.west - metres, self.south - metres, self.east + metres, self.north + metres)

    def aligned(self, step: float) -> "Box":
        """The smallest one around it whose sides are multiples of a step."""
        low, high = np.floor(np.array(self[:2]) / step), np.ceil(np.array(self[2:]) / step)
        return Box(*(low * step).tolist(), *(high * step).tolist())

    def with_(self, other: "Box") -> "Box":
        """The smallest one with both."""
        west, south, east, north = other
        return Box(min(self.west, west), min(self.south, south), max(self.east, east), max(self.north, north))

    @property
    def ring(self) -> Floats:
        """Its corners, counterclockwise, the first one twice."""
        west, south, east, north = self
        return np.array([(west, south), (east, south), (east, north), (west, north), (west, south)])

    @property
    def sides(self) -> tuple[float, float]:
        """Width and height."""
        return self.east - self.west, self.north - self.south

    def has(self, points: Floats) -> NDArray[np.bool_]:
        x, y = points.T
        found: NDArray[np.bool_] = (self.west <= x) & (x <= self.east) & (self.south <= y) & (y <= self.north)
        return found


class Zone(NamedTuple):
    """Where something may be that matters: squares of the plane, row by row; `left` and `bottom` are those of the first one, in steps."""

    step: float
    left: int
    bottom: int
    squares: NDArray[np.bool_]

    @classmethod
    def over(cls, box: Box) -> "Zone":
        """The squares of a box, without any."""
        step = max(ZONE_STEP, max(box.sides) / ZONE_SQUARES)
        west, south, east, north = (int(np.floor(side / step)) for side in box)
        return cls(step, west, south, np.zeros((north - south + 1, east - west + 1), dtype=bool))

    def _rows(self, points: Floats) -> tuple[Ints, Ints, NDArray[np.bool_]]:
        columns, rows = (np.floor(axis / self.step).astype(np.int64) for axis in points.T)
        columns, rows = columns - self.left, rows - self.bottom
        height, width = self.squares.shape
        return rows, columns, (0 <= rows) & (rows < height) & (0 <= columns) & (columns < width)

    def add(self, points: Floats) -> None:
        rows, columns, is_in = self._rows(points)
        self.squares[rows[is_in], columns[is_in]] = True

    def has(self, points: Floats) -> NDArray[np.bool_]:
        rows, columns, is_in = self._rows(points)
        is_in[is_in] = self.squares[rows[is_in], columns[is_in]]
        return is_in

    def without(self, box: Box) -> "Zone":
        """The squares but those within a box, if it has an extent."""
        squares = self.squares.copy()
        first = np.array((self.left, self.bottom))
        (west, south), (east, north) = np.ceil(np.array(box[:2]) / self.step) - first, np.floor(np.array(box[2:]) / self.step) - first
        squares[max(0, int(south)) : max(0, int(north)), max(0, int(west)) : max(0, int(east))] = False
        return self._replace(squares=squares)

    def grown(self, metres: float) -> "Zone":
        """The squares with points within some metres of these, and others."""
        more = int(np.ceil(metres / self.step))
        squares = maximum_filter(np.pad(self.squares, more), 2 * more + 1, mode="constant")
        return Zone(self.step, self.left - more, self.bottom - more, squares)


class Vertices(NamedTuple):
    """The points of edges, one edge after the other: the row of the edge among those that were given, the point in the
    plane, the share of the edge's metres before it, and whether it is the edge's last point; and the metres of edges."""

    rows: Ints
    points: Floats
    shares: Floats
    is_last: NDArray[np.bool_]
    metres: Floats

    def at(self, rows: Ints, shares: Floats) -> Floats:
        """The points at shares of edges, each on the straight line between two vertices."""
        key = 2.0 * self.rows + self.shares
        step = np.searchsorted(key, 2.0 * rows + shares, side="right") - 1
        step -= self.is_last[step]
        long = self.shares[step + 1] - self.shares[step]
        part = np.where(long > 0, (shares - self.shares[step]) / np.where(long > 0, long, 1.0), 0.0)
        found: Floats = self.points[step] + (self.points[step + 1] - self.points[step]) * part[:, None]
        return found

    def spaced(self, metres: float) -> "Spaced":
        """Points of the edges, so many metres apart at most, and their first and last points."""
        parts = np.maximum(1, np.ceil(self.metres / metres))
        # (of each step the first point at its beginning or behind, by its number on the edge, and the points before the next step)
        steps = np.flatnonzero(~self.is_last)
        rows, begins, ends = self.rows[steps], self.shares[steps], self.shares[steps + 1]
        whole = parts[rows]
        first, behind = np.ceil(begins * whole), np.where(self.is_last[steps + 1], whole + 1, np.ceil(ends * whole))
        counts = np.maximum(behind - first, 0).astype(np.int64)
        step = np.arange(len(steps)).repeat(counts)
        numbers = np.arange(len(step)) - (counts.cumsum() - counts - first).take(step)
        long = np.where(ends > begins, ends - begins, 1.0)
        slopes = ((self.points[steps + 1] - self.points[steps]) / (long * whole)[:, None]).T
        starts = self.points[steps].T - slopes * (begins * whole)
        points = np.empty((2, len(step)))
        for axis, slope, start in zip(points, slopes, starts):
            np.multiply(np.ascontiguousarray(slope).take(step), numbers, out=axis)
            axis += start.take(step)
        return Spaced(rows.take(step), numbers, parts, points.T)


class Spaced(NamedTuple):
    """Points of edges: the row of the edge, the number of the point on it, from 0, and the point; and into how many parts the points of each
    edge part it."""

    rows: Ints
    numbers: Floats
    parts: Floats
    points: Floats

    def levels(self, shares: "Shares") -> Levels:
        """The levels of the points. On most edges all have one."""
        levels, are_mixed = shares.whole
        found = levels.take(self.rows)
        mixed = np.flatnonzero(are_mixed.take(self.rows))
        rows = self.rows[mixed]
        found[mixed] = shares.levels(rows, self.numbers[mixed] / self.parts[rows])
        return found


class Shares(NamedTuple):
    """How far edges are reached, of shape (limits, edges): the share from the first point, and from the last; -1 if not
    even that is. And for the places the row of the edge, and for each limit the shares between which it is reached. Limits may be the last ones
    alone of all; `none` is the level of what isn't reached within any."""

    first: Floats
    last: Floats
    parts: list[tuple[int, Floats, Floats]]
    none: int

    def are_reached(self, limit: int) -> NDArray[np.bool_]:
        """Whether a point of each edge is, within a limit."""
        found: NDArray[np.bool_] = np.maximum(self.first[limit], self.last[limit]) >= 0
        found[[row for row, _, _ in self.parts]] = True
        return found

    @property
    def whole(self) -> tuple[Levels, NDArray[np.bool_]]:
        """The levels of edges whose points all have one, and whether an edge is none of them."""
        levels, are_mixed = np.full(self.first.shape[1], self.none, np.uint8), np.zeros(self.first.shape[1], bool)
        for first, last in zip(self.first, self.last):
            is_whole = (first >= 1) | (last >= 1)
            levels -= is_whole
            are_mixed |= ((first >= 0) | (last >= 0)) & ~is_whole
        are_mixed[[row for row, _, _ in self.parts]] = True
        return levels, are_mixed

    def levels(self, rows: Ints, shares: Floats) -> Levels:
        found = np.full(len(rows), self.none, np.uint8)
        for limit in range(len(self.first)):
            is_reached = (shares <= self.first[limit, rows]) | (shares >= 1 - self.last[limit, rows])
            for row, lows, highs in self.parts:
                is_reached |= (rows == row) & (lows[limit] <= shares) & (shares <= highs[limit])
            found -= is_reached
        return found

    def intervals(self, limit: int) -> tuple[Ints, Floats, Floats]:
        """What is reached within a limit: rows, which rise, and the shares between which they are; those of a row are apart."""
        one, other = (np.flatnonzero(way[limit] > 0) for way in (self.first, self.last))
        parts = [(row, lows[limit], highs[limit]) for row, lows, highs in self.parts if lows[limit] < highs[limit]]
        more = np.array(parts, dtype=float).reshape(-1, 3)
        rows = np.concatenate((one, other, more[:, 0].astype(np.int64)))
        lows = np.concatenate((np.zeros(len(one)), 1 - self.last[limit, other], more[:, 1]))
        return joined(rows, lows, np.concatenate((self.first[limit, one], np.ones(len(other)), more[:, 2])))


def joined(rows: Ints, lows: Floats, highs: Floats) -> tuple[Ints, Floats, Floats]:
    """Intervals of rows in order, those that touch one another as one."""
    order = np.lexsort((lows, rows))
    rows, lows, highs = rows[order], lows[order], highs[order]
    far = np.maximum.accumulate(2.0 * rows + highs)
    firsts = np.flatnonzero(np.append(True, 2.0 * rows[1:] + lows[1:] > far[:-1])[: len(rows)])
    return rows[firsts], lows[firsts], np.maximum.reduceat(highs, firsts) if len(firsts) else highs


def chunks_of(rows: NDArray[T]) -> Iterator[NDArray[T]]:
    """The rows, CHUNK at a time."""
    return (rows[low : low + CHUNK] for low in range(0, len(rows), CHUNK))


class Reach:
    """What is reached of a network's roads within limits.

    limits    the limits, in the unit of weights
    plane     that in which boxes and points are, about the middle of what is reached
    boxes     for each limit the box of what is reached within it, but for parts of edges that are short beside it; None if
              nothing is
    """

    def __init__(
        self, network: MappedNetwork, lengths: Ints, limits: Sequence[int], places: Sequence[PlaceOnRoad] = (),
        towards: bool = False,
    ) -> None:
        """Raises ValueError for arguments that don't fit, and NetworkError if the network's file is damaged.

        lengths   the least length of each node from the nearest start, of shape (nodes,); below 0 for none, or for one
                  beyond the greatest limit. A place on a road starts at the nodes that it leads to, each with the weight
                  between added
        limits    integers from 0, each greater than the one before, MAX_LIMITS at most
        places    the starts that lie on roads between nodes; what is reached of these roads from there is added
        towards   whether lengths are those to the starts instead, and what leads there is to be found
        """
        self.network, self.limits, self.towards = network, list(limits), towards
        values = np.asarray(lengths)
        if values.shape != (len(network.node_lon),) or values.dtype.kind != "i":
            raise ValueError(f"lengths have to be integers with a sign, one for each of {len(network.node_lon)} nodes")
        self._lengths = values.astype(np.int64, copy=False)
        if not self.limits or self.limits[0] < 0 or any(low >= high for low, high in zip(self.limits, self.limits[1:])):
            raise ValueError("limits have to be numbers from 0, each greater than the one before")
        if len(self.limits) > MAX_LIMITS:
            raise ValueError(f"there are {len(self.limits)} limits, and {MAX_LIMITS} at most")
        self._places = [place for place in places if 0 < place.fraction < 1]
        self._edges_of_places = np.array([place.edge for place in self._places], dtype=np.int64)
        self._parts = [part for place in self._places for part in self._parts_at(place)]
        self.plane = Plane(0, METRES_OF_DEGREE)
        self.boxes: list[Box | None] = [None] * len(self.limits)
        self._reached = np.flatnonzero((self._lengths >= 0) & (self._lengths <= self.limits[-1]))
        if len(self._reached) or self._places:
            self.plane = self._plane_of_reached()
            self._set_boxes()

    def _plane_of_reached(self) -> Plane:
        """The plane about the middle of the reached nodes and the places, which may lie on both sides of the 180th meridian."""
        network = self.network
        lons, lats = network.points[network.edge_begin[self._edges_of_places]].T
        lons, lats = np.append(network.node_lon[self._reached], lons), np.append(network.node_lat[self._reached], lats)
        away = wrapped_difference(lons.astype(np.int64) - int(lons[0]))
        middle = int(lons[0]) + (int(away.min()) + int(away.max())) // 2
        lat = (int(lats.min()) + int(lats.max())) / 2 / UNITS
        east = METRES_OF_DEGREE * max(float(np.cos(np.radians(lat))), 0.01)
        return Plane(int(wrapped_difference(np.array([middle]))[0]), east)

    def _set_boxes(self) -> None:
        """Sets the boxes: around nodes and places, and what is reached of edges near by that aren't too short for a grid."""
        fractions = np.array([place.fraction for place in self._places])
        self._here = self.vertices(self._edges_of_places).at(np.arange(len(fractions)), fractions)
        boxes = [Box.around(self._here) for _ in self.limits]
        for nodes in chunks_of(self._reached):
            points, levels = self._points_of(nodes), self._levels_by_length(nodes)
            boxes = [box.with_(Box.around(points[levels == limit])) for limit, box in enumerate(boxes)]
        boxes = [*itertools.accumulate(boxes, Box.with_)]
        zone = self._zone_of_nodes(boxes[-1])
        for limit, box in enumerate(boxes):
            if box.west < np.inf:
                for edges in self.edges_near(box.grown(FARTHEST_END), min(box.sides) / SHORT, zone, box):
                    box = box.with_(self._box_of(edges, limit, box))
                self.boxes[limit] = box

    def zone(self, metres: float) -> Zone:
        """Where all is that lies within some metres of what is reached within the greatest limit."""
        box = self.boxes[-1]
        assert box is not None
        found = self._zone_of_nodes(box)
        for edges in [*self.edges_near(box, LONG, found)]:
            spaced = self.vertices(edges).spaced(LONG)
            found.add(spaced.points[spaced.levels(self.shares(edges)) < len(self.limits)])
        return found.grown(LONG + metres)

    def _zone_of_nodes(self, box: Box) -> Zone:
        """The squares of a box with reached nodes, and with places, and those in which lines of roads at these may begin."""
        found = Zone.over(box)
        found.add(self._here)
        for nodes in chunks_of(self._reached):
            found.add(self._points_of(nodes))
        return found.grown(FARTHEST_END)

    def _box_of(self, edges: Ints, limit: int, known: Box) -> Box:
        """The box of what is reached within a limit of those edges that aren't within a box."""
        begins = self.network.edge_begin[edges]
        rows, places = concat_ranges(begins, self.network.edge_begin[edges + 1] - begins)
        edges = edges[np.unique(rows[~known.has(self.plane.of(self.network.points[places]))])]
        edges = edges[self.shares(edges).are_reached(limit)]
        vertices, shares = self.vertices(edges), self.shares(edges)
        rows, lows, highs = shares.intervals(limit)
        ends = vertices.at(np.tile(rows, 2), np.concatenate((lows, highs)))
        return Box.around(np.concatenate((vertices.points[shares.levels(vertices.rows, vertices.shares) <= limit], ends)))

    def _points_of(self, nodes: Ints) -> Floats:
        """The points of nodes in the plane."""
        return self.plane.of(np.column_stack((self.network.node_lon[nodes], self.network.node_lat[nodes])))

    def edges_near(self, box: Box, metres: float = -1.0, zone: Zone | None = None, known: Box | None = None) -> Iterator[Ints]:
        """The edges in a box, and in a zone, that are longer than so many metres, and others near there, which rise, some at a time; without
        most of those that are within a box that is known."""
        network = self.network
        for edges in chunks_of(self._near(network.edge_grid, len(network.edge_begin) - 1, box, zone, known)):
            if network.is_partial:  # (those without an arc are no roads)
                edges = edges[network.edge_first[edges] < network.edge_first[edges + 1]]
            # (all arcs of an edge have its metres)
            yield edges[network.arc_metres[network.first_arcs(edges)] > metres]

    def nodes_near(self, box: Box, zone: Zone | None = None) -> Iterator[tuple[Floats, Levels]]:
        """The nodes in a box, and in a zone, and others near there, some at a time: their points in the plane, and their levels."""
        network = self.network
        nodes = self._near(network.node_grid, len(network.node_lon), box, zone)
        levels = self.node_levels(nodes)
        if network.is_partial:  # (those that have lost their arcs are on no road; of a junction that is split one has arcs that leave it)
            leads_on = network.out_begin[nodes] < network.out_begin[nodes + 1]
            nodes, levels = nodes[leads_on], levels[leads_on]
        return zip(map(self._points_of, chunks_of(nodes)), chunks_of(levels))

    def _near(self, grid: Grid, count: int, box: Box, zone: Zone | None, known: Box | None = None) -> Ints:
        """The things of a grid with so many in a box, and in a zone, and others near there; and of those within a known box some."""
        middle = self.plane.degrees(np.array([[(box.west + box.east) / 2, (box.south + box.north) / 2]]))
        lon, lat = (middle[:, 0] + 180) % 360 - 180, np.clip(middle[:, 1], -90, 90)
        corners = self.plane.degrees(np.array([(x, y) for x in (box.west, box.east) for y in (box.south, box.north)]))
        far = great_circle_metres(unit_vectors(corners[:, 0], np.clip(corners[:, 1], -90, 90)), unit_vectors(lon, lat))
        cells = grid.cells_near(lon, lat, far.max(keepdims=True) + 1.0)
        if np.abs(corners[:, 1]).max() < MAX_ZONE_LAT:
            middles = self.plane.of(np.rint(grid.middles(cells) * UNITS).astype(np.int64))
            is_in = box.grown(grid.cell_metres).has(middles)
            if zone is not None:
                is_in &= zone.grown(grid.cell_metres).has(middles)
            if known is not None:
                is_in &= ~known.grown(-grid.cell_metres).has(middles)
            cells = cells[is_in]
        is_near = np.zeros(count, dtype=bool)
        is_near[grid.things_in(cells)] = True
        return np.flatnonzero(is_near)

    def node_levels(self, nodes: Ints) -> Levels:
        """The levels of nodes. Copies of a node, which turn restrictions make, have the least level of all copies."""
        found, network = self._levels_by_length(nodes), self.network
        copies = np.flatnonzero(network.node_ends[nodes])
        copies = copies[np.argsort(found[copies], kind="stable")]
        same = (column[nodes[copies]] for column in (network.node_lon, network.node_lat, network.node_osm))
        found[copies] = found[copies[first_of_equal(*same)]]
        return found

    def _levels_by_length(self, nodes: Ints) -> Levels:
        """The levels of nodes, each by itself."""
        lengths = self._lengths[nodes]
        found = np.full(len(nodes), len(self.limits), np.uint8)
        for limit in self.limits:
            found -= (lengths >= 0) & (lengths <= limit)
        return found

    def shares(self, edges: Ints, first: int = 0) -> Shares:
        """How far edges, which rise, are reached within the limits from the first one that is asked for."""
        network, limits = self.network, self.limits[first:]
        begins = network.edge_first[edges]
        counts = network.edge_first[edges + 1] - begins
        _, places = concat_ranges(begins, counts)
        arcs = network.edge_arcs[places]
        lengths = self._lengths[(network.arc_to if self.towards else network.arc_from)[arcs]]
        weights, is_first = network.arc_weight[arcs], network.arc_along[arcs] != self.towards
        groups = (counts.cumsum() - counts)[counts > 0]
        found = np.full((2, len(limits), len(edges)), -1.0)
        for row, limit in enumerate(limits if len(groups) else ()):
            left = np.where(lengths < 0, -1, limit - lengths)
            share = np.where(left >= weights, 1.0, -1.0)
            some = np.flatnonzero((left >= 0) & (left < weights))
            share[some] = left[some] / weights[some]
            for side, is_there in zip(found, (is_first, ~is_first)):
                side[row, counts > 0] = np.maximum.reduceat(np.where(is_there, share, -1.0), groups)
        rows = np.searchsorted(edges, np.array([edge for edge, _, _ in self._parts], np.int64)).tolist()
        known = zip(rows, self._parts)
        parts = [(row, lows[first:], highs[first:]) for row, (edge, lows, highs) in known if row < len(edges) and edges[row] == edge]
        return Shares(found[0], found[1], parts, len(self.limits))

    def _parts_at(self, place: PlaceOnRoad) -> Iterator[tuple[int, Floats, Floats]]:
        """For each arc at a place: its edge, and for each limit the shares of the edge between which that arc reaches."""
        network, limits = self.network, np.array(self.limits, dtype=float)
        begin, end = network.edge_first[place.edge : place.edge + 2].tolist()
        for arc in network.edge_arcs[begin:end].tolist():
            if place.arcs is not None and arc not in place.arcs:
                continue
            is_along, weight = bool(network.arc_along[arc]), int(network.arc_weight[arc])
            share = place.fraction if is_along else 1 - place.fraction
            before = round(share * weight)  # (as both parts of the arc weigh)
            if self.towards:
                far = np.clip((before - limits) / weight if weight else np.zeros(len(limits)), 0, share)
            else:
                far = np.clip((before + limits) / weight if weight else np.ones(len(limits)), share, 1)
            here, there = np.full(len(limits), place.fraction), far if is_along else 1 - far
            yield place.edge, np.minimum(here, there), np.maximum(here, there)

    def vertices(self, edges: Ints) -> Vertices:
        begins = self.network.edge_begin[edges]
        counts = self.network.edge_begin[edges + 1] - begins
        rows, places = concat_ranges(begins, counts)
        points, ends = self.network.points[places], counts.cumsum()
        is_last = np.zeros(len(rows), np.bool_)
        is_last[ends - 1] = True
        sphere = unit_vectors(points[:, 0] / UNITS, points[:, 1] / UNITS)
        steps = np.where(is_last[:-1], 0.0, great_circle_metres(sphere[:-1], sphere[1:]))
        along = np.append(0.0, steps.cumsum())[: len(rows)]
        along -= along[ends - counts][rows]
        metres = along[ends - 1]
        whole = metres[rows]
        shares = np.where(whole > 0, along / np.where(whole > 0, whole, 1.0), is_last)
        return Vertices(rows, self.plane.of(points), shares, is_last, metres)

    def roads(self, limit: int) -> list[list[Point]]:
        """The lines that are reached within the limit of this number, with DECIMALS. None crosses the 180th meridian."""
        box = self.boxes[limit]
        chunks = self.edges_near(box.grown(FARTHEST_END), zone=self._zone_of_nodes(box)) if box else ()
        return [line for edges in chunks for line in self._lines(edges, limit)]

    def _lines(self, edges: Ints, limit: int) -> Iterator[list[Point]]:
        rows, lows, highs = self.shares(edges).intervals(limit)
        if not len(rows):
            return
        chosen = np.unique(rows)
        vertices, rows = self.vertices(edges[chosen]), np.searchsorted(chosen, rows)
        counts = np.bincount(vertices.rows)
        which, places = concat_ranges((counts.cumsum() - counts)[rows], counts[rows])
        is_inner = (lows[which] < vertices.shares[places]) & (vertices.shares[places] < highs[which])
        which, places = which[is_inner], places[is_inner]
        lines, every = np.arange(len(rows)), np.concatenate((lows, vertices.shares[places], highs))
        points = np.concatenate((vertices.at(rows, lows), vertices.points[places], vertices.at(rows, highs)))
        line = np.concatenate((lines, which, lines))
        order = np.lexsort((every, line))
        shown = self.plane.degrees(points[order]).round(DECIMALS)
        is_new = np.append(True, (np.diff(line[order]) > 0) | (np.diff(shown, axis=0) != 0).any(axis=1))
        shown, line = shown[is_new], line[order][is_new]
        shown[:, 0] = ((shown[:, 0] + 180) % 360 - 180).round(DECIMALS)
        for each in np.split(shown, np.flatnonzero(np.diff(line)) + 1):
            if len(each) > 1:
                for part in split_at_antimeridian([(lon, lat) for lon, lat in each.tolist()]):
                    yield [(lon, round(lat, DECIMALS)) for lon, lat in part]
