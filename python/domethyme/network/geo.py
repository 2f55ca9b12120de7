"""Places on the earth and lines of them, as texts and as GeoJSON. Needs nothing but Python's own library."""
import itertools
import math
from collections.abc import Iterable, Sequence
from typing import Any

from ..csv_tables import excerpt, plain_float
from ..errors import NetworkError
from ..program import StrPath

EARTH_RADIUS = 6_371_008.8
Point = tuple[float, float]


def parse_linestring(wkt: str, path: StrPath | None = None, row: int | None = None) -> list[Point]:
    """The points of a text `LINESTRING (LON LAT, LON LAT, ..)`: two or more pairs of degrees."""
    head, _, rest = wkt.partition("(")
    body, closed, tail = rest.partition(")")
    try:
        points = [(plain_float(lon), plain_float(lat)) for lon, lat in (point.split() for point in body.split(","))]
    except ValueError:
        points = []
    if head.strip().upper() != "LINESTRING" or not closed or tail.strip() or len(points) < 2:
        raise NetworkError(f"WKT {excerpt(wkt)} is no line", path, row)
    return points


def format_linestring(points: Iterable[Point]) -> str:
    """The text of a line through two or more points (lon, lat), to the seventh place."""
    return "LINESTRING (" + ", ".join(f"{lon:.7f} {lat:.7f}" for lon, lat in points) + ")"


def split_at_antimeridian(line: Sequence[Point]) -> list[list[Point]]:
    """A line in parts, each of two points or more, that end and begin where it crosses the 180th meridian (RFC 7946, 3.1.9)."""
    parts = [[line[0]]]
    for here, there in itertools.pairwise(line):
        if abs(there[0] - here[0]) > 180:
            side = math.copysign(180.0, here[0])
            before, behind = abs(side - here[0]), abs(side + there[0])
            lat = here[1] + (there[1] - here[1]) * (before / (before + behind) if before + behind else 0.0)
            parts[-1].append((side, round(lat, 7)))
            parts.append([(-side, round(lat, 7))])
        parts[-1].append(there)
    return [part for part in parts if len(set(part)) > 1] or [list(line)]


def to_geojson_geometry(line: Sequence[Point]) -> dict[str, Any]:
    """A line as GeoJSON: a LineString, or where it crosses the 180th meridian a MultiLineString."""
    return multi_geometry("LineString", [[list(point) for point in part] for part in split_at_antimeridian(line)])


def multi_geometry(kind: str, parts: list[Any]) -> dict[str, Any]:
    """A GeoJSON geometry of a kind, or of several of it."""
    return {"type": kind, "coordinates": parts[0]} if len(parts) == 1 else {"type": f"Multi{kind}", "coordinates": parts}


def metres_between(lon_1: float, lat_1: float, lon_2: float, lat_2: float) -> float:
    """The length of the great circle's arc between two places in degrees."""
    phi_1, phi_2 = math.radians(lat_1), math.radians(lat_2)
    half_lat, half_lon = (phi_2 - phi_1) / 2, math.radians(lon_2 - lon_1) / 2
    square = math.sin(half_lat) ** 2 + math.cos(phi_1) * math.cos(phi_2) * math.sin(half_lon) ** 2
    return 2 * EARTH_RADIUS * math.asin(math.sqrt(min(1.0, square)))


def bearing(begin: Point, end: Point) -> int:
    """The direction from a point to a near one, in degrees from north, clockwise."""
    east = math.remainder(end[0] - begin[0], 360) * math.cos(math.radians(begin[1]))
    return round(math.degrees(math.atan2(east, end[1] - begin[1]))) % 360
