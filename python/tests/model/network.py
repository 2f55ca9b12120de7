"""A network as its tables have it, shortest paths between nodes, and places on roads with the graph that is split there."""
import functools
import heapq
from collections.abc import Collection, Iterable, Iterator, Mapping, Sequence
from itertools import pairwise
from typing import Any, NamedTuple

from .sphere import EARTH_RADIUS, Point, along, bearing, interpolate, metres_between, metres_left, nearest_on_segment

# A point is a line's end within so many metres of it. Rounding may decide about so many metres, and degrees of bearings.
END_TOLERANCE, METRES_TOLERANCE, EQUAL, BEARING_TOLERANCE = 0.005, 2e-6, 1e-8, 1.0
# So many shortest paths are compared; and a number above those of a path's arcs.
MOST_PATHS, MANY = 100, 1 << 20
# A part of an arc that is driven: the arc, the shares between which it is, and the weight.
Part = tuple[int, float, float, int]
Bearings = tuple[int, int] | None


class Ambiguous(Exception):
    """More may be right than is worth comparing."""


class Node(NamedTuple):
    """A row of the table of nodes. `ends`: which ends of routes it may be, `from`, `to`, `no`, or "" for both."""

    lon: float
    lat: float
    key: object = ""
    osm: int | None = None
    ends: str = ""

    @property
    def place(self) -> Point:
        return self.lon, self.lat


class Arc(NamedTuple):
    """A row of the table of arcs, with nodes from 0."""

    start: int
    end: int
    weight: int
    seconds: float
    metres: float
    line: tuple[Point, ...]
    way: int = 0
    name: str = ""
    ref: str = ""
    destination: str = ""
    junction: str = ""
    highway: str = ""


class Edge(NamedTuple):
    """A line of a way, and the numbers of its arcs, with whether each leads along it."""

    line: tuple[Point, ...]
    arcs: dict[int, bool]


class SnappedPoint(NamedTuple):
    """The nearest point of a road to a place: its edge, the share of the edge before it, the node that it is, if it is one, and
    the arcs that may be left or come to there, None for all."""

    place: Point
    metres: float
    edge: int
    fraction: float
    node: int | None
    arcs: frozenset[int] | None = None


class Network:
    """The rows of the tables, pairs of arcs of which the second may not follow the first, and whether vehicles are on the left."""

    def __init__(
        self, nodes: Iterable[Node], arcs: Iterable[Arc], forbidden: Collection[tuple[int, int]] = (), is_left: bool = False
    ) -> None:
        self.nodes, self.arcs, self.forbidden, self.is_left = list(nodes), list(arcs), frozenset(forbidden), is_left
        known: dict[object, Edge] = {}
        for number, arc in enumerate(self.arcs):
            line = min(arc.line, arc.line[::-1])
            known.setdefault((arc.way, line), Edge(line, {})).arcs[number] = line == arc.line
        self.edges = list(known.values())
        self.edge_of = {arc: edge for edge, each in enumerate(self.edges) for arc in each.arcs}

    def __repr__(self) -> str:
        return f"Network({self.nodes}, {self.arcs}, {set(self.forbidden)})"

    def is_ferry(self, edge: int) -> bool:
        return all(self.arcs[arc].highway == "ferry" for arc in self.edges[edge].arcs)

    @functools.cached_property
    def has_seconds(self) -> bool:
        return any(arc.seconds for arc in self.arcs)

    @functools.cached_property
    def unit(self) -> str:
        """What weights are: `duration` (milliseconds), `distance` (centimetres), or `weight` for anything else."""
        for name, factor, column in (("duration", 1000, "seconds"), ("distance", 100, "metres")):
            figures = [factor * getattr(arc, column) for arc in self.arcs]
            if any(figures) and all(abs(arc.weight - figure) <= 1.01 for arc, figure in zip(self.arcs, figures)):
                return name
        return "weight"

    @functools.cached_property
    def along(self) -> list[list[float]]:
        """The metres along each edge before each of its points."""
        return [along(edge.line) for edge in self.edges]

    @functools.cached_property
    def followers(self) -> list[list[int]]:
        """The arcs that may follow on each."""
        rows = [[other for other, row in enumerate(self.arcs) if row.start == arc.end] for arc in self.arcs]
        return [[other for other in some if (number, other) not in self.forbidden] for number, some in enumerate(rows)]

    @functools.cached_property
    def turned(self) -> "Network":
        """The network with each arc turned round, and with the same edges: its routes are those of this one backwards."""
        arcs = [arc._replace(start=arc.end, end=arc.start, line=arc.line[::-1]) for arc in self.arcs]
        found = Network(self.nodes, arcs, [(second, first) for first, second in self.forbidden], self.is_left)
        # (a line that goes back as it came is the same turned round, and its arc goes the other way all the same)
        found.edges = [Edge(edge.line, {arc: not is_along for arc, is_along in edge.arcs.items()}) for edge in self.edges]
        return found

    # Between nodes

    def costs(self, starts: Mapping[int, int]) -> dict[int, int]:
        """The length of a shortest path to each node, from some with what is added there, times MANY, and the fewest arcs."""
        steps = [[(arc.weight * MANY + 1, arc.end) for arc in self.arcs if arc.start == node] for node in range(len(self.nodes))]
        return cheapest(((added * MANY, node) for node, added in starts.items()), steps)

    def lengths(self, starts: Mapping[int, int]) -> dict[int, int]:
        return {node: cost // MANY for node, cost in self.costs(starts).items()}

    def fewest_arcs(self, source: int, target: int) -> int | None:
        cost = self.costs({source: 0}).get(target)
        return None if cost is None else cost % MANY

    def is_path(self, nodes: Sequence[int], source: int, target: int, length: int) -> bool:
        """Whether nodes lead from one to another, by lightest arcs that weigh so much together."""
        steps, ends = [self.lightest(*step) for step in pairwise(nodes)], (nodes[0], nodes[-1])
        return ends == (source, target) and all(steps) and sum(self.arcs[arcs[0]].weight for arcs in steps) == length

    def lightest(self, start: int, end: int) -> list[int]:
        """The lightest arcs from a node to another, the first of the table first."""
        there = [(arc.weight, number) for number, arc in enumerate(self.arcs) if arc[:2] == (start, end)]
        return [number for weight, number in there if weight == min(there)[0]]

    def nearest(self, place: Point, side: str) -> tuple[set[int], float]:
        """The nearest nodes where routes begin (`from`) or end (`to`), all that are as near, and the metres."""
        away = {number: metres_between(place, node.place) for number, node in enumerate(self.nodes) if node.ends in ("", side)}
        least = min(away.values())
        return {number for number, metres in away.items() if metres <= least + METRES_TOLERANCE}, least

    # Places on roads

    def snap(self, place: Point, radius: float, *wishes: Any) -> SnappedPoint | None:
        """The first point of `by_distance` within so many metres, None for none. Raises Ambiguous where rounding decides which."""
        found: SnappedPoint | None = None
        for metres, point in self.by_distance(place, *wishes):
            if metres > (found.metres if found else radius) + METRES_TOLERANCE:
                break
            if metres > radius - METRES_TOLERANCE or found and is_other_by_rounding(metres, found.metres):
                raise Ambiguous
            found = found or point
        return found

    def by_distance(
        self, place: Point, bearings: Bearings = None, is_curb: bool = False, is_any: bool = False
    ) -> Iterator[tuple[float, SnappedPoint | None]]:
        """For each edge, the nearest first and equally near ones as in the file, the metres and the nearest point, None where it
        has not that direction; of ferries only with `is_any`."""
        edges = [number for number in range(len(self.edges)) if is_any or not self.is_ferry(number)]
        steps = {number: [nearest_on_segment(place, *step) for step in pairwise(self.edges[number].line)] for number in edges}
        for metres, number in sorted((round(min(ways)[0], 8), number) for number, ways in steps.items()):
            ways = steps[number]
            near = [step for step, (away, _) in enumerate(ways) if away <= min(ways)[0] + METRES_TOLERANCE]
            if len(near) > 1 and is_other_by_rounding(max(ways[step][0] for step in near), min(ways)[0]):
                raise Ambiguous
            point = self.point_on(number, near[0], ways[near[0]][1], metres, bearings)
            yield metres, self.at_curb(place, point, near) if is_curb and point is not None else point

    def at_curb(self, place: Point, point: SnappedPoint, near: Sequence[int]) -> SnappedPoint | None:
        """The point with the arcs for which the place, by the nearest step, or both at a bend, is at the side of vehicles; None for none.
        On a one-way road, or for a place on its line, any will do."""
        edge = self.edges[point.edge]
        if abs(point.metres - END_TOLERANCE) < METRES_TOLERANCE:
            raise Ambiguous
        if len(set(edge.arcs.values())) < 2 or point.metres < END_TOLERANCE:
            return point
        aside = [metres for step in near if (metres := metres_left(place, edge.line[step], edge.line[step + 1]))]
        is_bend = len(aside) == 2 and near[-1] - near[0] < len(near)
        if abs(sum(aside)) < 1e-3 or not is_bend and min(aside) < 0 < max(aside):
            raise Ambiguous
        some = edge.arcs if point.arcs is None else point.arcs
        kept = frozenset(arc for arc in some if edge.arcs[arc] == ((sum(aside) > 0) == self.is_left))
        return point._replace(arcs=kept) if kept else None

    def point_on(self, number: int, step: int, share: float, metres: float, bearings: Bearings) -> SnappedPoint | None:
        """The point of an edge at a share of a step of it, None where it has not that direction."""
        edge, before = self.edges[number], self.along[number]
        long, whole = before[step + 1] - before[step], before[-1]
        at = before[step] + share * long
        arcs = None if bearings is None else arcs_of_bearing(edge, at, *bearings)
        if arcs is not None and not arcs:
            return None
        if any(0 < abs(each - END_TOLERANCE) < 1e-6 for each in (at, whole - at, whole / 2)):
            raise Ambiguous
        is_start, is_end = at <= END_TOLERANCE or whole <= 2 * END_TOLERANCE, at >= whole - END_TOLERANCE
        if is_start or is_end:
            arc, is_along = next(iter(edge.arcs.items()))
            node = self.arcs[arc][0 if is_along == is_start else 1]
            return SnappedPoint(edge.line[0 if is_start else -1], metres, number, float(not is_start), node, arcs)
        wide = (metres + long) / EARTH_RADIUS  # (ways near a place may be taken as straight lines of a plane)
        near = 1e-9 + (wide**2 if wide < 0.004 else 0.0)
        if self.weights_before(number, at / whole - near) != self.weights_before(number, at / whole + near):
            raise Ambiguous
        return SnappedPoint(interpolate(*edge.line[step : step + 2], share), metres, number, at / whole, None, arcs)

    def weights_before(self, edge: int, fraction: float) -> dict[int, int]:
        """The weight of the part of each arc of an edge before a fraction of this."""
        ways = self.edges[edge].arcs.items()
        return {arc: round((fraction if is_along else 1 - fraction) * self.arcs[arc].weight) for arc, is_along in ways}

    def parts_at(self, point: SnappedPoint, is_start: bool) -> dict[int, Part]:
        """The arcs by which a point is left, or come to, each with the part that is driven."""
        if point.node is not None and point.arcs is None:
            arcs = enumerate(self.arcs)
            return {arc: (arc, 0.0, 1.0, row.weight) for arc, row in arcs if row[0 if is_start else 1] == point.node}
        found = {}
        for arc, before in self.weights_before(point.edge, point.fraction).items():
            if point.arcs is None or arc in point.arcs:
                share = point.fraction if self.edges[point.edge].arcs[arc] else 1 - point.fraction
                found[arc] = (arc, share, 1.0, self.arcs[arc].weight - before) if is_start else (arc, 0.0, share, before)
        return found

    def ended(self, first: Iterable[Part]) -> dict[int, int]:
        """The least weight at the end of each arc, from the parts of arcs that are driven first: a search from arc to arc."""
        steps = [[(self.arcs[other].weight, other) for other in some] for some in self.followers]
        return cheapest(((part[3], part[0]) for part in first), steps)

    def legs(self, start: SnappedPoint, end: SnappedPoint) -> list[list[Part]]:
        """The shortest paths between two points, in the graph whose arcs are split there."""
        if start.node is not None and start.node == end.node and None in (start.arcs, end.arcs):
            return [[]]
        first, last = self.parts_at(start, True), self.parts_at(end, False)
        ended = self.ended(first.values())
        direct = direct_parts(self, first, last)
        come_to = [(ended[arc] + last[other][3], other) for arc in ended for other in self.followers[arc] if other in last]
        least = min([*(cost for cost, _ in come_to), *(part[3] for part in direct)], default=0)
        found = [[part] for part in direct if part[3] == least]
        tails = [([last[arc]], least - last[arc][3]) for arc in sorted({arc for cost, arc in come_to if cost == least})]
        while tails:
            tail, rest = tails.pop()
            for arc in ended:
                if ended[arc] == rest and tail[0][0] in self.followers[arc]:
                    if arc in first and first[arc][3] == rest:
                        found.append([first[arc], *tail])
                    driven = {part[0] for part in tail[:-1]}
                    starts = set[int]() if self.forbidden else {self.arcs[part[0]].start for part in tail}
                    if arc not in driven and self.arcs[arc].start not in starts:  # (no route repeats a node)
                        tails.append(([(arc, 0.0, 1.0, self.arcs[arc].weight), *tail], rest - self.arcs[arc].weight))
            if len(found) + len(tails) > MOST_PATHS:
                raise Ambiguous
        return found


def direct_parts(network: Network, first: Mapping[int, Part], last: Mapping[int, Part]) -> list[Part]:
    """The parts of arcs that lead from one point to another, by those that are left there and come to."""
    return [
        (arc, first[arc][1], last[arc][2], last[arc][3] - network.arcs[arc].weight + first[arc][3])
        for arc in first.keys() & last.keys() if first[arc][1] <= last[arc][2]
    ]


def cheapest(starts: Iterable[tuple[int, int]], steps: Sequence[Sequence[tuple[int, int]]]) -> dict[int, int]:
    """The least cost of each place, from those where one begins, by Dijkstra's algorithm: `steps` are the costs to others."""
    found, heap = dict[int, int](), sorted(starts)
    while heap:
        cost, place = heapq.heappop(heap)
        if place not in found:
            found[place] = cost
            for more, other in steps[place]:
                heapq.heappush(heap, (cost + more, other))
    return found


def is_other_by_rounding(one: float, other: float) -> bool:
    """Whether metres differ, but so little that rounding to the micrometre may make them equal, or different."""
    return abs(one - other) <= METRES_TOLERANCE and (abs(one - other) > EQUAL or abs(one * 1e6 % 1 - 0.5) < 0.01)


def arcs_of_bearing(edge: Edge, at: float, degrees: int, deviation: int) -> frozenset[int]:
    """The arcs of an edge whose direction at so many metres is within a deviation."""
    before = along(edge.line)
    here = [step for step in range(1, len(before)) if before[step - 1] - 1e-6 <= at <= before[step] + 1e-6]
    if len(here) != 1 or edge.line[here[0] - 1] == edge.line[here[0]]:
        raise Ambiguous  # (at a bend, or on a step of no length)
    turn = bearing(edge.line[here[0] - 1], edge.line[here[0]]) - degrees
    off = {arc: abs((turn + 180 * is_along) % 360 - 180) - deviation for arc, is_along in edge.arcs.items()}
    if deviation < 180 and any(abs(each) < BEARING_TOLERANCE for each in off.values()):
        raise Ambiguous
    return frozenset(arc for arc, each in off.items() if each <= 0)
