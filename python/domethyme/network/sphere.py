"""Places on the earth as points of a sphere of radius 1. Lines are arcs of great circles, the shorter way round. Needs numpy."""
import math

import numpy as np
from numpy.typing import ArrayLike, NDArray

from .geo import EARTH_RADIUS, Point

Floats = NDArray[np.float64]
# The cosine of the angle, of some 12 km, within which a plane stands for the earth.
COS_FLAT = math.cos(0.002)


def unit_vectors(lon: ArrayLike, lat: ArrayLike) -> Floats:
    """The point of each place in degrees, of shape (places, 3)."""
    east, north = np.radians(lon), np.radians(lat)
    away = np.cos(north)
    found = np.empty((*east.shape, 3))
    found[..., 0], found[..., 1], found[..., 2] = away * np.cos(east), away * np.sin(east), np.sin(north)
    return found


def angles(begins: Floats, ends: Floats) -> Floats:
    squares = np.square(ends - begins)
    chords = np.sqrt(squares[..., 0] + squares[..., 1] + squares[..., 2])
    found: Floats = 2 * np.arcsin(np.minimum(1, chords / 2))
    return found


def great_circle_metres(begins: Floats, ends: Floats) -> Floats:
    """The metres between points along the earth."""
    return EARTH_RADIUS * angles(begins, ends)


def interpolate(begins: Floats, ends: Floats, shares: Floats, whole: Floats) -> Floats:
    """The points at shares, from 0 to 1, of the ways from points to others; `whole` are the angles between."""
    least = np.maximum(np.sin(whole), 1e-300)
    before = np.where(whole > 0, np.sin((1 - shares) * whole) / least, 1 - shares)
    behind = np.where(whole > 0, np.sin(shares * whole) / least, shares)
    found: Floats = begins * before[:, None] + ends * behind[:, None]
    return found


def interpolate_one(begin: Point, end: Point, share: float) -> Point:
    """The place at a share of the way from a place to another."""
    if share <= 0.0 or begin == end:
        return begin
    if share >= 1.0:
        return end
    one, other = unit_vector(*begin), unit_vector(*end)
    whole = 2 * math.asin(min(1.0, math.dist(one, other) / 2))
    least = max(math.sin(whole), 1e-300)
    before = math.sin((1 - share) * whole) / least if whole else 1 - share
    behind = math.sin(share * whole) / least if whole else share
    x, y, z = (there * before + here * behind for there, here in zip(one, other))
    return math.degrees(math.atan2(y, x)), math.degrees(math.atan2(z, math.hypot(x, y)))


def unit_vector(lon: float, lat: float) -> tuple[float, float, float]:
    """The point of one place in degrees. For a single one it takes a tenth of what arrays do."""
    east, north = math.radians(lon), math.radians(lat)
    away = math.cos(north)
    return away * math.cos(east), away * math.sin(east), math.sin(north)


def local_components(place: Floats, points: Floats) -> tuple[Floats, Floats, Floats]:
    """How far east, north and up of the earth's centre points are, by the directions at a place, or one for each point."""
    (lon, lat), there = np.radians(place).T, np.radians(points)
    there[..., 0] -= lon
    sines, cosines, up, away = np.sin(there), np.cos(there), np.sin(lat), np.cos(lat)
    sine, cosine = sines[..., 1], cosines[..., 1]
    ahead = cosine * cosines[..., 0]
    return cosine * sines[..., 0], away * sine - up * ahead, up * sine + away * ahead


def nearest_on_segments(place: Floats, ways: Floats) -> tuple[Floats, Floats]:
    """The nearest point on each way from a point to another: the metres to it from a place, or from one for each way,
    and the share of the way before it. Ways have the shape (2, ways, 2): beginnings and ends, in degrees. Near the place
    points come along lines from the earth's centre to the plane that touches it there: ways are straight there, and a
    share is right to 4 millionths."""
    east, north, up = local_components(place, ways)
    if np.minimum.reduce(up, axis=None) < COS_FLAT:
        return nearest_on_segments_far(
            unit_vectors(place[..., 0], place[..., 1]), *unit_vectors(ways[..., 0], ways[..., 1])
        )
    (x, other_x), (y, other_y) = east / up, north / up
    step_x, step_y = other_x - x, other_y - y
    squares = np.maximum(step_x * step_x + step_y * step_y, 1e-300)
    shares = np.minimum(np.maximum(-(x * step_x + y * step_y) / squares, 0), 1)
    return EARTH_RADIUS * np.arctan(np.hypot(x + step_x * shares, y + step_y * shares)), shares


def nearest_on_segments_far(point: Floats, begins: Floats, ends: Floats) -> tuple[Floats, Floats]:
    """The same for ways anywhere. All is reckoned from differences to the ways' beginnings, which are exact to nanometres."""
    steps, aside = ends - begins, point - begins
    # the direction at the beginning: the step without its part towards the centre
    ahead = steps - begins * np.einsum("ij,ij->i", steps, begins)[:, None]
    length = np.sqrt(np.einsum("ij,ij->i", ahead, ahead))
    ahead /= np.maximum(length, 1e-300)[:, None]
    whole = angles(begins, ends)
    gone = np.arctan2(np.einsum("ij,ij->i", aside, ahead), 1 - np.einsum("ij,ij->i", aside, aside) / 2)
    # (from the other side of the earth the end may be nearer than the beginning)
    gone = np.clip(np.where(gone < whole / 2 - math.pi, whole, gone), 0, whole)
    feet = begins * np.cos(gone)[:, None] + ahead * np.sin(gone)[:, None]
    shares = np.where(whole > 0, gone / np.maximum(whole, 1e-300), 0.0)
    return EARTH_RADIUS * angles(feet, np.broadcast_to(point, feet.shape)), shares
