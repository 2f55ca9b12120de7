"""Places on a sphere, and lines of great circles between them, each the shorter way round."""
import itertools
import math
from collections.abc import Sequence

EARTH_RADIUS = 6_371_008.8
Point = tuple[float, float]
Vector = tuple[float, float, float]


def vector(point: Point) -> Vector:
    lon, lat = map(math.radians, point)
    return math.cos(lat) * math.cos(lon), math.cos(lat) * math.sin(lon), math.sin(lat)


def angle(one: Vector, other: Vector) -> float:
    return 2 * math.asin(min(1.0, math.dist(one, other) / 2))


def metres_between(one: Point, other: Point) -> float:
    return EARTH_RADIUS * angle(vector(one), vector(other))


def cross(one: Vector, other: Vector) -> Vector:
    (a, b, c), (x, y, z) = one, other
    return b * z - c * y, c * x - a * z, a * y - b * x


def dot(one: Vector, other: Vector) -> float:
    return sum(a * b for a, b in zip(one, other))


def interpolate(begin: Point, end: Point, share: float) -> Point:
    """The point at a share of the way from one to another."""
    one, other = vector(begin), vector(end)
    whole = angle(one, other)
    x, y, z = (a * math.sin((1 - share) * whole) + b * math.sin(share * whole) for a, b in zip(one, other))
    return (math.degrees(math.atan2(y, x)), math.degrees(math.atan2(z, math.hypot(x, y)))) if whole else begin


def nearest_on_segment(place: Point, begin: Point, end: Point) -> tuple[float, float]:
    """The metres from a place to the nearest point of a line, and the share of the line before that."""
    here, one, other = vector(place), vector(begin), vector(end)
    ends = min((EARTH_RADIUS * angle(here, one), 0.0), (EARTH_RADIUS * angle(here, other), 1.0))
    if one == other:
        return ends[0], 0.0
    across, whole = cross(one, other), angle(one, other)
    aside = dot(here, across) / dot(across, across)
    x, y, z = (a - aside * b for a, b in zip(here, across))
    size = math.hypot(x, y, z)
    foot = x / size, y / size, z / size
    gone = math.copysign(angle(one, foot), dot(cross(one, foot), across))
    return min(ends, (EARTH_RADIUS * angle(here, foot), gone / whole)) if 0 < gone < whole else ends


def metres_left(place: Point, begin: Point, end: Point) -> float:
    """How far a place is to the left of a great circle from one point to another; 0 where these are one."""
    here = vector(begin)
    along, aside = ((x - here[0], y - here[1], z - here[2]) for x, y, z in map(vector, (end, place)))
    across = cross(here, along)
    return EARTH_RADIUS * dot(across, aside) / (math.hypot(*across) or 1.0)


def bearing(begin: Point, end: Point) -> float:
    """The direction from a point to a near one, in degrees from north, clockwise."""
    east = math.remainder(end[0] - begin[0], 360) * math.cos(math.radians(begin[1]))
    return math.degrees(math.atan2(east, end[1] - begin[1])) % 360


def along(line: Sequence[Point]) -> list[float]:
    """The metres along a line before each of its points."""
    return [*itertools.accumulate((metres_between(*step) for step in itertools.pairwise(line)), initial=0.0)]


def clip(line: Sequence[Point], low: float, high: float) -> list[Point]:
    """The points of a line between two shares of its metres."""
    metres = along(line)
    inner = [point for point, at in zip(line, metres) if low * metres[-1] < at < high * metres[-1]]
    return [point_at(line, low), *inner, point_at(line, high)]


def point_at(line: Sequence[Point], share: float) -> Point:
    """The point of a line at a share of its metres."""
    if share <= 0 or share >= 1:
        return line[0] if share <= 0 else line[-1]
    metres = along(line)
    step = next(number for number in range(1, len(line)) if metres[number] >= share * metres[-1])
    long = metres[step] - metres[step - 1]
    return interpolate(line[step - 1], line[step], (share * metres[-1] - metres[step - 1]) / long if long else 0.0)
