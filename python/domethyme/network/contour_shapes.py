"""Contours with fewer parts or points, and as GeoJSON needs them. A contour is a list of polygons, which lies within the
next one, before and afterwards. Needs numpy and shapely."""
import itertools
import numbers
from collections.abc import Sequence
from typing import Any

import numpy as np
from shapely.affinity import translate
from shapely.geometry import MultiLineString, MultiPoint, MultiPolygon, Polygon, box
from shapely.ops import unary_union
from shapely.prepared import prep

from .geo import Point
from .reach import DECIMALS, METRES_OF_DEGREE
from .sphere import Floats

Ring = tuple[Point, ...]
# How often a tolerance is halved, until contours are valid and lie within one another.
HALVINGS = 8


def denoised(contours: Sequence[list[Polygon]], share: float) -> list[list[Polygon]]:
    """Contours without the parts and holes whose area is less than a share, from 0 to 1, of the area of the contour's
    largest part. Holes count as area of parts. A part that has one of a lesser contour in it stays. Raises ValueError
    for another share."""
    if not isinstance(share, numbers.Real) or not 0 <= share <= 1:
        raise ValueError(f"denoise has to be from 0 to 1, and is {share}")
    found: list[list[Polygon]] = []
    for polygons in contours:
        least = share * max((Polygon(each.exterior).area for each in polygons), default=0.0)
        inner = MultiPoint([each.representative_point() for each in found[-1]] if found else [])
        kept = [
            Polygon(each.exterior, [hole for hole in each.interiors if Polygon(hole).area >= least])
            for each in polygons
            if Polygon(each.exterior).area >= least or prep(each).intersects(inner)
        ]
        # (a part that stays may lie in a hole that doesn't)
        found.append(parts_of(unary_union(kept)) if len(kept) > 1 else kept)
    return found


def generalized(contours: Sequence[list[Polygon]], metres: float) -> list[list[Polygon]]:
    """Contours with some of their points, so that no other one is further away from its line than this many metres.

    Lines that contours share are simplified once, by shapely, and a ring that would have no area is left out. If the result
    isn't valid, or one contour isn't within the next, it is tried with half of the metres, and so on HALVINGS times; then
    contours stay as they are. Raises ValueError for less than 0 or no number.
    """
    if not isinstance(metres, numbers.Real) or not 0 <= metres < float("inf"):
        raise ValueError(f"generalize has to be a number of metres from 0, and is {metres}")
    rings = [[rings_of(each) for each in polygons] for polygons in contours]
    every = list(itertools.chain.from_iterable(itertools.chain.from_iterable(rings)))
    if not every or not metres:
        return [list(polygons) for polygons in contours]
    lines = split_at_forks(every)
    for halving in range(HALVINGS):
        shorter = simplified(lines, metres / 2**halving)
        found = [[polygon for each in polygons for polygon in rebuilt(each, shorter)] for polygons in rings]
        if are_nested(found):
            return found
    return [list(polygons) for polygons in contours]


def rings_of(polygon: Polygon) -> list[Ring]:
    """The rings of a polygon without their last points, the outer one first."""
    return [tuple(ring.coords)[:-1] for ring in (polygon.exterior, *polygon.interiors)]


def split_at_forks(rings: Sequence[Ring]) -> dict[Ring, list[Ring]]:
    """The lines of each ring between the points where rings part or meet; without such points one, from the least point."""
    beside: dict[Point, set[Point]] = {}
    for ring in rings:
        for before, here, behind in zip((ring[-1], *ring[:-1]), ring, (*ring[1:], ring[0])):
            beside.setdefault(here, set()).update((before, behind))
    found: dict[Ring, list[Ring]] = {}
    for ring in rings:
        at = [place for place, point in enumerate(ring) if len(beside[point]) > 2] or [ring.index(min(ring))]
        twice = ring + ring
        found[ring] = [twice[begin : end + 1] for begin, end in zip(at, (*at[1:], at[0] + len(ring)))]
    return found


def simplified(rings: dict[Ring, list[Ring]], metres: float) -> dict[Ring, Ring]:
    """Rings with fewer points, closed, by the rings as they were; these are given with their lines."""
    every = list(dict.fromkeys(min(line, line[::-1]) for lines in rings.values() for line in lines))
    lats = [line[0][1] for line in every]
    scale = np.array([METRES_OF_DEGREE * np.cos(np.radians((min(lats) + max(lats)) / 2)), METRES_OF_DEGREE])
    shorter = MultiLineString([np.array(line) * scale for line in every]).simplify(metres)
    points = ((np.array(line.coords) / scale).round(DECIMALS) for line in getattr(shorter, "geoms", [shorter]))
    found = {line: tuple((lon, lat) for lon, lat in some.tolist()) for line, some in zip(every, points)}
    found |= {line[::-1]: some[::-1] for line, some in found.items()}
    return {
        ring: found[lines[0]][:1] + tuple(itertools.chain.from_iterable(found[line][1:] for line in lines))
        for ring, lines in rings.items()
    }


def rebuilt(rings: Sequence[Ring], shorter: dict[Ring, Ring]) -> list[Polygon]:
    """The polygon of simplified rings, none if it has no area."""
    shell, *holes = (shorter[ring] for ring in rings)
    return [Polygon(shell, [hole for hole in holes if has_area(hole)])] if has_area(shell) else []


def has_area(ring: Ring) -> bool:
    """Whether a closed ring isn't a line there and back."""
    return len(ring) > 3 and Polygon(ring).area > 0


def are_nested(contours: Sequence[list[Polygon]]) -> bool:
    """Whether contours are valid, and each lies within the next."""
    shapes = [MultiPolygon(polygons) for polygons in contours]
    return all(shape.is_valid for shape in shapes) and all(
        inner.is_empty or outer.covers(inner) for inner, outer in itertools.pairwise(shapes)
    )


# GeoJSON


def split(polygons: Sequence[Polygon]) -> list[Polygon]:
    """Polygons whose longitudes may go beyond 180, in parts none of which crosses the 180th meridian (RFC 7946, 3.1.9), or has what is
    beyond a pole."""
    found: list[Polygon] = []
    for polygon in polygons:
        west, south, east, north = polygon.bounds
        if -180 <= west and east <= 180 and -90 <= south and north <= 90:
            found.append(polygon)
            continue
        for turn in (-360.0, 0.0, 360.0):
            parts = parts_of(polygon.intersection(box(-180 + turn, -90, 180 + turn, 90)))
            found += [translate(part, -turn) for part in parts]
    return found


def closed_rings(polygon: Polygon) -> list[Floats]:
    """The rings of a polygon with DECIMALS, the outer one first and counterclockwise, holes clockwise (RFC 7946, 3.1.6)."""
    found: list[Floats] = []
    for ring in (polygon.exterior, *polygon.interiors):
        points = np.array(ring.coords).round(DECIMALS)
        x, y = (points - points[0]).T
        is_counterclockwise = (x[:-1] * y[1:] - x[1:] * y[:-1]).sum() > 0
        found.append(points[:: 1 if is_counterclockwise == (not found) else -1])
    return found


def parts_of(shape: Any) -> list[Polygon]:
    return [part for part in getattr(shape, "geoms", [shape]) if isinstance(part, Polygon) and not part.is_empty]


def rounded(polygon: Polygon) -> Polygon:
    shell, *holes = (np.array(ring.coords).round(DECIMALS) for ring in (polygon.exterior, *polygon.interiors))
    return Polygon(shell, holes)
