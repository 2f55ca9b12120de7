"""How an answer is compared with what is expected: all exactly, but for what is rounded."""
import itertools
import math
from collections.abc import Callable, Iterable, Sequence
from typing import Any, NamedTuple

import numpy as np
from model.network import Network, SnappedPoint
from model.reach import places_within, reached
from model.sphere import Point

Points = Sequence[Point]
TOLERANCES = {"polyline": 6.5e-6, "polyline6": 8.5e-7, "geojson": 8.5e-7}


class Near(NamedTuple):
    """A number within a tolerance."""

    value: float
    tolerance: float

    def differs(self, found: Any) -> bool:
        return isinstance(found, bool) or not isinstance(found, (int, float)) or not abs(found - self.value) <= self.tolerance


class Direction(NamedTuple):
    """Whole degrees from 0 to 359, rounded."""

    degrees: float

    def differs(self, found: Any) -> bool:
        is_whole = isinstance(found, int) and 0 <= found < 360
        return not is_whole or abs((found - self.degrees + 180) % 360 - 180) > 0.8


class Intersection(NamedTuple):
    """An intersection: its place, for each of its roads the bearing, None for one about which rounding decides, and whether it may be
    entered, and the bearings of the roads by which a route comes, and goes on, None where a leg begins or ends."""

    place: Any
    roads: Sequence[tuple[float | None, bool]]
    into: float | None
    out: float | None

    def differs(self, found: Any) -> bool:
        names = {"location", "bearings", "entry", *(["in"] if self.into is not None else []), *(["out"] if self.out is not None else [])}
        if set(found) != names or difference(found["location"], self.place) or found["bearings"] != sorted(found["bearings"]):
            return True
        own = ((name, way) for name, way in (("in", self.into), ("out", self.out)) if way is not None)
        if any(Direction(way).differs(found["bearings"][found[name]]) for name, way in own):
            return True
        left = [*zip(found["bearings"], found["entry"], strict=True)]
        for way, is_open in sorted(self.roads, key=lambda road: road[0] is None):
            fits = [road for road in left if road[1] is is_open and (way is None or not Direction(way).differs(road[0]))]
            if not fits:
                return True
            left.remove(min(fits, key=lambda road: abs(math.remainder(road[0] - (way or 0), 360))))
        return bool(left)


class AnyOf(NamedTuple):
    """One of several."""

    options: Sequence[Any]

    def differs(self, found: Any) -> bool:
        return all(difference(found, option) for option in self.options)


class Holds(NamedTuple):
    """Whatever a rule holds of; `what` is the rule in words."""

    what: str
    rule: Callable[[Any], bool]

    def differs(self, found: Any) -> bool:
        return not self.rule(found)


class Others(NamedTuple):
    """A list whose first is as expected, and of whose others, so many at most, a rule holds."""

    expected: Any
    most: int
    rule: Callable[[Any], bool]

    def differs(self, found: Any) -> bool:
        is_list = isinstance(found, list) and 0 < len(found) <= 1 + self.most
        return not is_list or bool(difference(found[0], self.expected)) or not all(map(self.rule, found[1:]))


class Line(NamedTuple):
    """A line by its points, as polyline, polyline6 or geojson."""

    points: Points
    form: str

    def differs(self, found: Any) -> bool:
        line = decoded(found, self.form)
        return line is None or not is_same_line(line, self.points, TOLERANCES[self.form])


class Simplified(NamedTuple):
    """Lines that follow one another, each without points within a thousandth of the extent of all."""

    lines: Sequence[Points]
    form: str

    def differs(self, found: Any) -> bool:
        line, every = decoded(found, self.form), unwrapped([point for part in self.lines for point in part])
        if line is None or len(line) < 2:
            return True
        shrink = math.cos(math.radians(every[0][1]))
        most = max(scale * (max(axis) - min(axis)) for scale, axis in zip((shrink, 1), zip(*every))) / 1000
        flat, parts = unwrapped(line), [unwrapped(part) for part in self.lines]
        turn = round((flat[0][0] - every[0][0]) / 360) * 360
        kept = [((lon - turn) * shrink, lat) for lon, lat in flat]
        whole = [(lon * shrink, lat) for lon, lat in every]
        slack = 2 * TOLERANCES[self.form]
        is_near = all(min(away_from(point, *step) for step in zip(kept, kept[1:])) <= most + slack for point in whole)
        is_of_line = all(min(math.dist(point, other) for other in whole) <= slack for point in kept)
        is_from_end_to_end = max(math.dist(kept[0], whole[0]), math.dist(kept[-1], whole[-1])) <= slack
        needed = sum(len(thinned(part, most * 0.999, shrink)) for part in parts)
        return not (is_near and is_of_line and is_from_end_to_end and len(kept) <= max(needed, 2))


def thinned(line: Points, most: float, shrink: float) -> list[Point]:
    """A line by the rule of Douglas and Peucker, which goes on at the first of the points that are as far away."""
    flat = [(lon * shrink, lat) for lon, lat in line]
    rows = enumerate((away_from(point, flat[0], flat[-1]) for point in flat[1:-1]), 1)
    far, away = max(rows, default=(0, 0.0), key=lambda row: row[1])
    if away <= most:
        return [line[0], line[-1]]
    return [*thinned(line[: far + 1], most, shrink)[:-1], *thinned(line[far:], most, shrink)]


def away_from(point: Point, begin: Point, end: Point) -> float:
    """How far a point of the plane is from a line."""
    step = end[0] - begin[0], end[1] - begin[1]
    square = step[0] ** 2 + step[1] ** 2
    share = min(1.0, max(0.0, ((point[0] - begin[0]) * step[0] + (point[1] - begin[1]) * step[1]) / (square or 1.0)))
    return math.dist(point, (begin[0] + share * step[0], begin[1] + share * step[1]))


def unwrapped(line: Iterable[Point]) -> list[Point]:
    """A line whose longitudes go beyond 180 where it crosses that meridian."""
    def follow(before: Point, point: Point) -> Point:
        return before[0] + math.remainder(point[0] - before[0], 360), point[1]

    return [*itertools.accumulate(line, follow)]


def decoded(found: Any, form: str) -> list[Point] | None:
    """The points of a line in JSON, two or more; None for what is no such line."""
    if form == "geojson":
        is_line = isinstance(found, dict) and set(found) == {"type", "coordinates"} and found["type"] == "LineString"
        return [(lon, lat) for lon, lat in found["coordinates"]] if is_line and len(found["coordinates"]) > 1 else None
    if not isinstance(found, str):
        return None
    numbers, value, shift = [], 0, 0
    for sign in found:
        value |= (ord(sign) - 63 & 31) << shift
        shift += 5
        if ord(sign) - 63 < 32:
            numbers.append(~(value >> 1) if value & 1 else value >> 1)
            value = shift = 0
    scale = 10 ** (6 if form == "polyline6" else 5)
    lats, lons = itertools.accumulate(numbers[::2]), itertools.accumulate(numbers[1::2])
    line = [(lon / scale, lat / scale) for lat, lon in zip(lats, lons, strict=True)]
    return line if len(line) > 1 else None


def is_same_line(one: Points, other: Points, tolerance: float) -> bool:
    """Whether two lines have the same points, but for such that are the one before, within the tolerance."""
    def is_near(a: Point, b: Point) -> bool:
        return max(abs(math.remainder(a[0] - b[0], 360)), abs(a[1] - b[1])) <= tolerance

    if not one or not other or not is_near(one[0], other[0]):
        return False
    at, end = (0, 0), (len(one) - 1, len(other) - 1)
    while at != end:
        steps = ((at[0] + step, at[1] + beside) for step, beside in ((1, 1), (1, 0), (0, 1)))
        near = [(i, j) for i, j in steps if i <= end[0] and j <= end[1] and is_near(one[i], other[j])]
        if not near:
            return False
        at = near[0]
    return True


def difference(found: Any, expected: Any, where: str = "answer") -> str:
    """The first difference between an answer and what is expected, "" for none."""
    if isinstance(expected, AnyOf) and expected.options:
        every = [difference(found, option, where) for option in expected.options]
        return "" if "" in every else max(every, key=lambda text: text.index(" "))
    if hasattr(expected, "differs"):
        return f"{where} is {found!r}, not {expected!r}" if expected.differs(found) else ""
    if isinstance(expected, dict) and isinstance(found, dict) and list(found) != list(expected) and set(found) != set(expected):
        return f"{where} has {sorted(found)}, not {sorted(expected)}"
    if isinstance(expected, dict) and isinstance(found, dict):
        return next(filter(None, (difference(found[name], expected[name], f"{where}.{name}") for name in expected)), "")
    if isinstance(expected, list) and isinstance(found, list) and len(found) == len(expected):
        rows = enumerate(zip(found, expected))
        return next(filter(None, (difference(*pair, f"{where}[{row}]") for row, pair in rows)), "")
    return "" if type(found) is type(expected) and found == expected else f"{where} is {found!r}, not {expected!r}"


def rings_of(geometry: Any) -> list[list[Point]]:
    """The rings of a polygon, of several, or of their outlines as lines."""
    depth = {"LineString": 0, "MultiLineString": 1, "Polygon": 1, "MultiPolygon": 2}[geometry["type"]]
    rings = [geometry["coordinates"]]
    for _ in range(depth):
        rings = [ring for part in rings for ring in part]
    return [[(lon, lat) for lon, lat in ring] for ring in rings]


class Contour(NamedTuple):
    """The contour of what is reached within a limit, of these kinds, simplified by some metres. Unless parts of it are dropped it
    has the places that belong to it."""

    network: Network
    points: Sequence[SnappedPoint]
    limit: int
    kinds: Sequence[str]
    metres: float
    is_whole: bool

    def differs(self, found: Any) -> bool:
        shares = reached(self.network, self.points, self.limit)
        is_any = any(shares.values())  # (else it may be the square of a node)
        if found is None or found["type"] not in self.kinds or not self.is_whole or not is_any:
            return is_any if found is None else found["type"] not in self.kinds
        places, are_within = places_within(self.network, shares, self.metres)
        steps = np.concatenate([np.hstack((ring[:-1], ring[1:])) for ring in map(np.array, rings_of(found))])
        x, y, other_x, other_y = steps.T[..., None]
        is_beside = (y > places[:, 1]) != (other_y > places[:, 1])
        is_west = places[:, 0] < x + (places[:, 1] - y) / np.where(y == other_y, 1, other_y - y) * (other_x - x)
        return bool(((is_beside & is_west).sum(axis=0) % 2 != are_within).any())
