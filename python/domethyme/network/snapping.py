"""The roads of a network: the lines of its arcs, and the nearest point of a road to a place, along great circles.

An edge is one line of a way, with arcs along it, against it, or both; nodes that turn restrictions split give several arcs of
one direction. A point splits each arc of its edge: of an arc of weight w, the part before its fraction f weighs round(f w), and
the rest what is left, so the parts are integers and sum to w.
"""
import bisect
import functools
import itertools
import math
import operator
from collections.abc import Callable, Iterable, Iterator, Sequence
from typing import Any, NamedTuple

import numpy as np
from numpy.typing import NDArray

from ..errors import NetworkError
from .column_file import Column
from .columns import ENDS, NO_OSM, TEXTS, UNITS
from .from_tables import load_network
from .geo import EARTH_RADIUS, Point, metres_between
from .grid import MAX_CANDIDATES, Ints, concat_ranges, size_of
from .groups import offsets
from .net_file import MappedNetwork
from .node_index import NodeIndex
from .parallel import differs_from_previous
from .sphere import COS_FLAT, Floats, interpolate_one, local_components, nearest_on_segments

# So many metres from an end of an edge a point is at the end.
END_TOLERANCE = 0.005
NO_ARC = -1
# Edges that are cached; and how many are read at once.
EDGE_CACHE_SIZE, MANY_EDGES = 1 << 8, 8
# Segments that are projected on at once; and the offsets of a segment's ends.
SEGMENTS_PER_BATCH = 1 << 15
SEGMENT_END_OFFSETS = np.array([[0], [1]])
# Places for which several edges are found at once.
PLACES_PER_BATCH = 16
# Up to so many places are snapped one by one.
FEW_PLACES = 1
# The bits of an edge's number where it is packed with a place's.
EDGE_BITS = 32
HIGHWAY, NAME, JUNCTION = TEXTS.index("highway"), TEXTS.index("name"), TEXTS.index("junction")
# The class of a ferry's way, where no route begins or ends unless that is asked for.
FERRY = "ferry"
ROUNDABOUT_VALUES = ("roundabout", "circular")


class Arc(NamedTuple):
    """An arc of the graph, and whether it has its edge's direction."""

    start: int
    end: int
    weight: int
    name: str
    edge: int
    is_along: bool


class Edge(NamedTuple):
    """A line, the metres along it at each point, its arcs by number, and the row of its first point."""

    points: tuple[Point, ...]
    cumulative: list[float]
    arcs: dict[int, Arc]
    first: int

    @property
    def metres(self) -> float:
        return self.cumulative[-1]


class SnappedPoint(NamedTuple):
    """A point on a road. `exits` are the nodes that it leads to, and `entries` those that lead to it, from 0, each with the weight
    and the arc of the part between (NO_ARC if the point is the node). `copies` are the nodes that it is, or (). `arcs` are the
    arcs of the edge on which routes begin and end there, none for a node, of which any road will do."""

    lon: float
    lat: float
    metres: float
    edge: int
    fraction: float
    exits: dict[int, tuple[int, int]]
    entries: dict[int, tuple[int, int]]
    copies: tuple[int, ...]
    arcs: frozenset[int]
    name: str


class SegmentProjections(NamedTuple):
    """The nearest points of segments to places: the index of the segment's edge among those given, the row of its first point,
    the metres to the nearest point, to the micrometre, and the fraction of the segment before that."""

    which: Ints
    rows: Ints
    metres: Floats
    shares: Floats

    def of(self, number: int) -> tuple[float, int, float]:
        """The metres, the row and the fraction of one segment."""
        return float(self.metres[number]), int(self.rows[number]), float(self.shares[number])


class RoadIndex:
    """The roads of a network: of its mapped file, or of the files with this beginning of their names. Nodes count from 0.
    All methods raise NetworkError if the file is damaged.

    unit         of weights: `duration` (milliseconds), `distance` (centimetres), or `weight` for anything else
    has_seconds  whether arcs have seconds; if not, durations aren't known
    box          the bounding box in degrees: west, south, east, which may be beyond 180, and north
    on_looked    called with a number of edges before so many are looked at; what it raises ends the search
    """

    on_looked: Callable[[int], object] = staticmethod(lambda count: None)

    def __init__(self, network: MappedNetwork | str) -> None:
        self.arrays = load_network(network) if isinstance(network, str) else network
        self.nodes, self.edges = len(self.arrays.node_osm), len(self.arrays.edge_begin) - 1
        if not len(self.arrays.arc_from):
            raise NetworkError("has no arcs", self.arrays.path)
        self.texts, self.unit = self.arrays.texts, self.arrays.unit
        self.has_seconds, self.box = self.arrays.has_seconds, self.arrays.box
        self._kept: tuple[int, dict[int, Edge]] = 0, {}
        self.places = NodeIndex(self.arrays)

    def osm_ids(self, nodes: NDArray[Any]) -> Ints:
        """The OpenStreetMap ids of nodes; 0 for one that has none."""
        found = self.arrays.node_osm[nodes]
        return np.where(found == NO_OSM, 0, found)

    def lightest(self, nodes: Sequence[int]) -> Ints:
        """The lightest arc from each node of a route to the next; NO_ARC if there is none."""
        self.arrays.file.check_unchanged()
        line = np.array(nodes, dtype=np.int64)
        return self.arrays.lightest(line[:-1], line[1:])

    def _rows_with(self, column: int, words: Sequence[str]) -> NDArray[np.bool_]:
        """Whether rows of texts have one of some words in a column of TEXTS."""
        texts = self.arrays.row_texts[:, column]
        return np.isin(texts, [number for number in np.unique(texts).tolist() if self.texts[number] in words])

    @functools.cached_property
    def roundabout_rows(self) -> NDArray[np.bool_]:
        """Whether rows of texts are those of roundabouts."""
        return self._rows_with(JUNCTION, ROUNDABOUT_VALUES)

    @functools.cached_property
    def ferry_rows(self) -> NDArray[np.bool_]:
        return self._rows_with(HIGHWAY, [FERRY])

    def is_roundabout(self, arcs: NDArray[np.int64]) -> NDArray[np.bool_]:
        return np.asarray(self.roundabout_rows[self.arrays.arc_row[arcs]])

    @functools.cached_property
    def one_way(self) -> tuple[Ints, Ints]:
        """The arcs of edges that lead one way alone, by the nodes that they end at: these, which rise, and the arcs."""
        arcs, edges = np.sort(self.arrays.out_arcs[:]), self.edges
        edge, is_along = self.arrays.arc_edge[arcs], self.arrays.arc_along[arcs]
        one, other = (np.bincount(edge[is_so], minlength=edges) > 0 for is_so in (is_along, ~is_along))
        arcs = arcs[(one != other)[edge]]
        ends = self.arrays.arc_to[arcs]
        order = np.argsort(ends, kind="stable")
        return ends[order].astype(np.int64), arcs[order].astype(np.int64)

    def count_exits(self, node: int) -> int:
        """How many roads leave a roundabout at a node."""
        begin, end = self.arrays.out_begin[node : node + 2].tolist()
        arcs = self.arrays.out_arcs[begin:end]
        return len(np.unique(self.arrays.arc_edge[arcs[~self.is_roundabout(arcs)]]))

    def arc(self, number: int) -> Arc:
        """An arc by its number, from 0."""
        return self.edge(int(self.arrays.arc_edge[number])).arcs[number]

    def edge(self, number: int) -> Edge:
        return self.find_edges([number])[number]

    def find_edges(self, numbers: Iterable[int]) -> dict[int, Edge]:
        """Some edges by their numbers, and maybe others."""
        (of, kept), changes = self._kept, self.arrays.file.changes
        kept = kept if of == changes else {}
        if not (missing := [number for number in dict.fromkeys(numbers) if number not in kept]):
            return kept
        read = self._read_edges(missing) if len(missing) >= MANY_EDGES else {number: self._read_edge(number) for number in missing}
        found = {**kept, **read}
        self._kept = changes, found if len(found) <= EDGE_CACHE_SIZE else dict(itertools.islice(read.items(), EDGE_CACHE_SIZE))
        return found

    def _read_edge(self, number: int) -> Edge:
        arrays = self.arrays
        (first, behind), (begin, end) = (some[number : number + 2].tolist() for some in (arrays.edge_first, arrays.edge_begin))
        points = [(lon / UNITS, lat / UNITS) for lon, lat in arrays.points[begin:end].tolist()]
        metres = list(itertools.accumulate(segment_metres(points), initial=0.0))
        arcs = {arc: self._read_arc(arc, number) for arc in arrays.edge_arcs[first:behind].tolist()}
        return Edge(tuple(points), metres, arcs, begin)

    def _read_arc(self, arc: int, edge: int) -> Arc:
        arrays = self.arrays
        name = self.texts[int(arrays.row_texts[int(arrays.arc_row[arc]), NAME])]
        start, end, weight = (int(column[arc]) for column in (arrays.arc_from, arrays.arc_to, arrays.arc_weight))
        return Arc(start, end, weight, name, edge, bool(arrays.arc_along[arc]))

    def _read_edges(self, numbers: list[int]) -> dict[int, Edge]:
        """The same of many edges, of which each column is read at once: a call of numpy takes as long as some edges."""
        arrays, edges = self.arrays, np.array(numbers)
        arcs_of, points_of = ((begins[edges], begins[edges + 1] - begins[edges]) for begins in (arrays.edge_first, arrays.edge_begin))
        arcs, points = (concat_ranges(*ranges)[1] for ranges in (arcs_of, points_of))
        arcs = arrays.edge_arcs[arcs]
        names = [self.texts[number] for number in arrays.row_texts[arrays.arc_row[arcs], NAME].tolist()]
        columns = (column[arcs].tolist() for column in (arrays.arc_from, arrays.arc_to, arrays.arc_weight, arrays.arc_along))
        rows = [*zip(arcs.tolist(), names, *columns)]
        places = [(lon / UNITS, lat / UNITS) for lon, lat in arrays.points[points].tolist()]
        found = dict[int, Edge]()
        bounds = (itertools.pairwise(offsets(counts).tolist()) for _, counts in (arcs_of, points_of))
        for number, first, (low, high), (begin, end) in zip(numbers, points_of[0].tolist(), *bounds):
            line = tuple(places[begin:end])
            metres = list(itertools.accumulate(segment_metres(line), initial=0.0))
            arcs_here = {arc: Arc(start, end, weight, name, number, is_along) for arc, name, start, end, weight, is_along in rows[low:high]}
            found[number] = Edge(line, metres, arcs_here, first)
        return found

    def nearest(
        self, place: Point, count: int = 1, step: Callable[[], object] = lambda: None, within: float = math.inf, is_any: bool = False
    ) -> list[SnappedPoint]:
        """The nearest points of the `count` nearest edges, the nearest first, and of equally near ones the first of the file, up to
        `within` metres; of ferries only with `is_any`. `step` is called between parts of the work; an exception of it ends the work."""
        return [self.snap(place, edge) for edge in self.nearest_edges(place, count, step, within, is_any)]

    def snap(self, place: Point, edge: int) -> SnappedPoint:
        """The nearest point of an edge."""
        ways = self.project(np.array(place), np.array([edge]))
        return self._snap_on_segment(edge, self.edge(edge), *ways.of(int(ways.metres.argmin())))

    def nearest_edges(
        self, place: Point, count: int, step: Callable[[], object] = lambda: None, within: float = math.inf, is_any: bool = False
    ) -> list[int]:
        """The edges of `nearest`."""
        self.arrays.file.check_unchanged()
        here = np.array(place)

        def metres(edges: Ints) -> Floats:
            found = []
            for part in split_by_points(edges, self.arrays.edge_begin):
                ways = self.project(here, part)
                found.append(np.minimum.reduceat(ways.metres, np.flatnonzero(differs_from_previous(ways.which))))
            away: Floats = np.concatenate(found)
            away[~self.are_open(edges, is_any)] = np.inf
            return away

        # (metres are rounded to the millionth)
        near = self.arrays.edge_grid.nearest(place, min(count, self.edges), metres, step, within + 1e-6)
        return [edge for away, edge in near if away <= within]

    def nearest_within(self, places: Sequence[Point], within: Sequence[float], is_any: bool = False) -> Iterator[SnappedPoint | None]:
        """The nearest point of a road to each place, as by `nearest`, up to so many metres from it, or None. Those within the grid's first
        radius are found at once."""
        self.arrays.file.check_unchanged()
        near = self._snap_nearby(places, self.arrays.edge_grid.initial_radius, 1, is_any)
        for number, (place, metres) in enumerate(zip(places, within, strict=True)):
            found = near[number] if number in near else self.nearest(place, within=metres, is_any=is_any)
            yield found[0] if found and found[0].metres <= metres else None

    def nearest_of_each(self, places: Sequence[Point], count: int, within: float) -> list[list[SnappedPoint]]:
        """What `nearest` finds for each place up to so many metres from it, also of ferries, for most places at once."""
        self.arrays.file.check_unchanged()
        found = list[list[SnappedPoint]]()
        for begin in range(0, len(places), PLACES_PER_BATCH):
            some = places[begin : begin + PLACES_PER_BATCH]
            near = self._snap_nearby(some, within, count, True)
            found += (
                near[number] if number in near else self.nearest(place, count, within=within, is_any=True)
                for number, place in enumerate(some)
            )
        return found

    def _snap_nearby(self, places: Sequence[Point], reach: float, count: int, is_any: bool) -> dict[int, list[SnappedPoint]]:
        """By the index of their places the nearest points of the `count` nearest edges up to `reach` metres, for places that have any."""
        if count == 1 and len(places) <= FEW_PLACES:
            near = ((number, self._snap_one(place, reach, is_any)) for number, place in enumerate(places))
            return {number: [point] for number, point in near if point is not None}
        which, edges = self.arrays.edge_grid.candidates_of_each(places, reach)
        if self._may_be_closed(is_any):
            is_there = self.are_open(edges, is_any)
            which, edges = which[is_there], edges[is_there]
        pairs = np.sort(which << EDGE_BITS | edges)
        pairs = pairs[differs_from_previous(pairs)]  # (an edge is in several cells)
        if not len(pairs):
            return {}
        which, edges = pairs >> EDGE_BITS, pairs & (1 << EDGE_BITS) - 1
        ways = self.project(np.array(places)[which], edges)
        bounds: list[int] = which[ways.which].searchsorted(range(len(places) + 1)).tolist()
        chosen = [(number, way) for number, some in enumerate(itertools.pairwise(bounds)) for way in nearest_ways(ways, *some, count, reach)]
        numbers = edges[ways.which[[way for _, way in chosen]]].tolist() if chosen else []
        lines, found = self.find_edges(numbers), dict[int, list[SnappedPoint]]()
        for (number, way), edge in zip(chosen, numbers):
            found.setdefault(number, []).append(self._snap_on_segment(edge, lines[edge], *ways.of(way)))
        return found

    def _snap_one(self, place: Point, reach: float, is_any: bool) -> SnappedPoint | None:
        """The same of one place and edge, with fewer calls of numpy: each takes as long as to look at some segments."""
        slices, things = self.arrays.edge_grid.slices_around(place, reach), self.arrays.edge_grid.things
        if size_of(slices) > MAX_CANDIDATES:
            return None
        edges = np.array(sorted({edge for begin, end in slices for edge in things[begin:end].tolist()}), np.int64)
        if self._may_be_closed(is_any):
            edges = edges[self.are_open(edges, is_any)]
        self.on_looked(len(edges))
        begins, ends = self.arrays.edge_begin[edges + SEGMENT_END_OFFSETS].tolist()
        rows = np.fromiter(itertools.chain.from_iterable(map(range, begins, ends)), np.int64)
        east, north, up = (each.tolist() for each in local_components(np.array(place), self.arrays.points[rows] / UNITS))
        firsts = {*itertools.accumulate(map(operator.sub, ends, begins))}
        least, radius, found = reach + 1e-6, 1.001 * reach / EARTH_RADIUS, (0, 0.0)
        for number, x, y, other_x, other_y in zip(itertools.count(1), east, north, east[1:], north[1:]):
            # (most are beyond a side of the square around what is nearest until now)
            if x > radius < other_x or y > radius < other_y or -x > radius < -other_x or -y > radius < -other_y or number in firsts:
                continue
            if up[number - 1] < COS_FLAT or up[number] < COS_FLAT:
                return None
            x, y = x / up[number - 1], y / up[number - 1]
            step_x, step_y = other_x / up[number] - x, other_y / up[number] - y
            share = min(max(-(x * step_x + y * step_y) / max(step_x * step_x + step_y * step_y, 1e-300), 0.0), 1.0)
            away = math.hypot(x + step_x * share, y + step_y * share)
            metres = round(EARTH_RADIUS * math.atan(away) * 1e6) / 1e6
            if metres < least:
                least, radius, found = metres, away, (int(rows[number - 1]), share)
        if least > reach:
            return None
        edge = int(edges[bisect.bisect(begins, found[0]) - 1])
        return self._snap_on_segment(edge, self.edge(edge), least, *found)

    def are_ferries(self, arcs: NDArray[np.int64]) -> NDArray[np.bool_]:
        return np.asarray(self.ferry_rows[self.arrays.arc_row[arcs]])

    @functools.cached_property
    def _has_ferries(self) -> bool:
        return bool(self.ferry_rows.any())

    def _may_be_closed(self, is_any: bool) -> bool:
        """Whether there are edges for which `are_open` is false."""
        return self.arrays.is_partial or not is_any and self._has_ferries

    def are_open(self, edges: NDArray[Any], is_any: bool = False) -> NDArray[np.bool_]:
        """Whether edges have arcs, as they all have unless some arcs are left out, and not those of ferries alone unless any will do."""
        first, is_ferry = self.arrays.edge_first, self.are_ferries
        found = np.asarray(first[edges] < first[edges + 1]) if self.arrays.is_partial else np.ones(len(edges), dtype=bool)
        if not is_any and self._has_ferries:
            kept = np.flatnonzero(found)
            for row in kept[is_ferry(self.arrays.edge_arcs[first[edges[kept]]])].tolist():
                begin, end = first[int(edges[row]) : int(edges[row]) + 2].tolist()
                found[row] = not is_ferry(self.arrays.edge_arcs[begin:end]).all()
        return found

    def project(self, places: Floats, edges: Ints) -> SegmentProjections:
        """The nearest points of the segments of edges to one place, or to a place for each edge."""
        self.on_looked(len(edges))
        begins = self.arrays.edge_begin[edges]
        which, rows = concat_ranges(begins, self.arrays.edge_begin[edges + 1] - begins - 1)
        points = self.arrays.points[rows + SEGMENT_END_OFFSETS] / UNITS
        metres, shares = nearest_on_segments(places if places.ndim < 2 else places.take(which, axis=0), points)
        return SegmentProjections(which, rows, metres.round(6), shares)

    def _snap_on_segment(self, edge: int, line: Edge, metres: float, row: int, share: float) -> SnappedPoint:
        """The point of an edge at a share of the segment that begins at a row of points, so many metres away."""
        step = row - line.first
        lon, lat = interpolate_one(line.points[step], line.points[step + 1], share)
        along = line.cumulative[step] + share * (line.cumulative[step + 1] - line.cumulative[step])
        is_at_start = along <= END_TOLERANCE or line.metres <= 2 * END_TOLERANCE
        fraction = 0.0 if is_at_start else 1.0 if along >= line.metres - END_TOLERANCE else along / line.metres
        place = round(lon, 6), round(lat, 6), metres, edge, fraction
        name = next((arc.name for arc in line.arcs.values() if arc.name), "")
        if 0.0 < fraction < 1.0:
            return SnappedPoint(*place, *self.split_arcs(line.arcs, fraction), (), frozenset(line.arcs), name)
        return SnappedPoint(*place, *self._at_end(line.arcs, fraction), frozenset(), name)

    def _at_end(self, arcs: dict[int, Arc], fraction: float) -> tuple[dict[int, tuple[int, int]], dict[int, tuple[int, int]], tuple[int, ...]]:
        """The exits, entries and copies of the node at an end of an edge with these arcs."""
        first = next(iter(arcs.values()))
        copies = self.places.split_nodes(first.start if first.is_along == (fraction == 0.0) else first.end)
        exits, entries = (
            {node: (0, NO_ARC) for node in copies if ENDS[self.arrays.node_ends[node]] in ("", side)} for side in ("from", "to")
        )
        return exits, entries, copies

    def check_point(self, number: int, point: SnappedPoint) -> None:
        """Raises NetworkError for a point, the one of this number, that has other arcs or nodes than these roads have there."""
        if 0 <= point.edge < self.edges:
            arcs = self.edge(point.edge).arcs
            kept = {arc: each for arc, each in arcs.items() if arc in point.arcs}
            ends = self.split_arcs(kept, point.fraction) if point.arcs else self._at_end(arcs, point.fraction)[:2]
            if len(kept) == len(point.arcs) and ends == (point.exits, point.entries):
                return
        raise NetworkError(f"place {number} is a point on the roads of another network", self.arrays.path)

    def split_arcs(self, arcs: dict[int, Arc], fraction: float) -> tuple[dict[int, tuple[int, int]], dict[int, tuple[int, int]]]:
        """The exits and the entries of a point that splits these arcs at a fraction of their edge."""
        exits: dict[int, tuple[int, int]] = {}
        entries: dict[int, tuple[int, int]] = {}
        for number, arc in arcs.items():
            before = self.weight_before(arc, fraction)
            for found, node, weight in ((exits, arc.end, arc.weight - before), (entries, arc.start, before)):
                if node not in found or weight < found[node][0]:
                    found[node] = weight, number
        return exits, entries

    def keep_arcs(self, point: SnappedPoint, kept: dict[int, Arc]) -> SnappedPoint:
        """A point with some arcs of its edge alone, on which routes begin and end there."""
        exits, entries = self.split_arcs(kept, point.fraction)
        return point._replace(exits=exits, entries=entries, arcs=frozenset(kept))

    @staticmethod
    def arc_fraction(arc: Arc, fraction: float) -> float:
        """The fraction of an arc at a fraction of its edge."""
        return fraction if arc.is_along else 1.0 - fraction

    def weight_before(self, arc: Arc, fraction: float) -> int:
        """The weight of the part of an arc before a fraction of its edge."""
        return round(self.arc_fraction(arc, fraction) * arc.weight)

    def line(self, number: int, begin: float = 0.0, end: float = 1.0) -> list[Point]:
        """The points of an arc between two fractions of it."""
        arc = self.arc(number)
        edge = self.edge(arc.edge)
        return clip(edge, begin, end) if arc.is_along else clip(edge, 1.0 - end, 1.0 - begin)[::-1]


def nearest_ways(ways: SegmentProjections, low: int, high: int, count: int, reach: float) -> list[int]:
    """Of the segments low:high, whose edges and rows rise, the nearest one of each of the `count` nearest edges up to `reach` metres."""
    metres = ways.metres[low:high]
    if low == high:
        return []
    found = dict[int, int]()
    for way in [int(metres.argmin())] if count == 1 else np.argsort(metres, kind="stable").tolist():
        if metres[way] > reach or len(found) == count:
            break
        found.setdefault(int(ways.which[low + way]), low + way)
    return [*found.values()]


def split_by_points(edges: Ints, begins: Column) -> Iterator[Ints]:
    """The edges in parts of about SEGMENTS_PER_BATCH points each."""
    if len(edges) < 64:
        yield edges
        return
    sums = np.cumsum(begins[edges + 1] - begins[edges])
    limits = np.arange(SEGMENTS_PER_BATCH, int(sums[-1]), SEGMENTS_PER_BATCH)
    yield from np.split(edges, np.unique(np.searchsorted(sums, limits, side="right")))


def clip(edge: Edge, begin: float, end: float) -> list[Point]:
    """The points of an edge between two fractions."""
    if begin <= 0.0 and end >= 1.0:
        return list(edge.points)
    low, high = begin * edge.metres, end * edge.metres
    first = edge.points[0] if begin <= 0.0 else point_at(edge, low)
    last = edge.points[-1] if end >= 1.0 else point_at(edge, high)
    inner = [point for point, metres in zip(edge.points, edge.cumulative) if low < metres < high]
    return [first, *inner, last]


def point_at(edge: Edge, metres: float) -> Point:
    index = min(max(bisect.bisect_right(edge.cumulative, metres), 1), len(edge.cumulative) - 1)
    begin, length = edge.cumulative[index - 1], edge.cumulative[index] - edge.cumulative[index - 1]
    part = (metres - begin) / length if length else 0.0
    lon, lat = interpolate_one(edge.points[index - 1], edge.points[index], part)
    return round(lon, 7), round(lat, 7)


def segment_metres(points: "tuple[Point, ...] | list[Point]") -> list[float]:
    return [metres_between(*begin, *end) for begin, end in itertools.pairwise(points)]
