"""The outlines of what is inside on a grid of points. Needs numpy."""
from typing import NamedTuple

import numpy as np
from numpy.typing import NDArray

from .sphere import Floats


class Outlines(NamedTuple):
    """Polygons: for each the slices of its rings in `points`, the outer one first. Points are columns and rows."""

    points: Floats
    polygons: list[list[slice]]


def outlines(values: NDArray[np.int8]) -> Outlines:
    """The outlines of the points whose values are above 0. None is 0, and those at the grid's sides are below it.

    A line crosses the way between two neighbours, one inside and one outside, where the value would be 0 if it changed evenly. Of
    four points, two of which are inside and not neighbours, these are joined if the sum of all is above 0. Outer rings are
    counterclockwise if rows rise to the north, holes clockwise; a ring has each of its points once.
    """
    width, flat = values.shape[1], values.ravel()
    is_inside = flat > 0
    aside, above = (np.flatnonzero(is_inside[step:] != is_inside[:-step]) for step in (1, width))
    # (a line has the inside to its left where it crosses, and two points before it)
    first, is_aside = np.concatenate((aside, above)), np.arange(len(aside) + len(above)) < len(aside)
    step, sign = np.where(is_aside, 1, width), np.where(is_inside.take(first), 1, -1)
    across, ahead = sign * step, sign * np.where(is_aside, width, -1)
    left = first + np.where(sign < 0, step, 0)
    right = left + across
    is_left, is_right = is_inside.take(left + ahead), is_inside.take(right + ahead)
    for saddle in np.flatnonzero(is_right & ~is_left):
        corners = left[saddle] + np.array([0, across[saddle], ahead[saddle], across[saddle] + ahead[saddle]])
        is_left[saddle] = is_right[saddle] = flat[corners].sum() > 0
    is_straight = is_left != is_right
    following = np.where(is_straight, first + ahead, np.where(is_left, right, left) + np.minimum(ahead, 0))
    # (those in rows are numbered before the others)
    numbers = np.empty((2, flat.size), np.int32)
    numbers[0, aside], numbers[1, above] = np.arange(len(aside)), np.arange(len(aside), len(first))
    behind = numbers.ravel().take(following + (is_aside != is_straight) * flat.size)
    order, polygons = rings_in_order(behind.tolist(), len(aside))
    inner = flat.take(left).astype(float)
    share = inner / (inner - flat.take(right))
    rows, columns = np.divmod(left, width)
    shift = sign * share
    points = np.column_stack((columns + np.where(is_aside, shift, 0.0), rows + np.where(is_aside, 0.0, shift)))
    return Outlines(points.take(np.array(order, np.int64), axis=0), polygons)


def rings_in_order(following: list[int], rows: int) -> tuple[list[int], list[list[slice]]]:
    """Crossings ring by ring, and the polygons, by which crossing follows each. The first ones, as many as `rows`, are those in rows
    of points: row by row, so that every other one leads out."""
    order, polygons = list[int](), list[list[slice]]()
    for first in range(rows):
        if following[first] >= 0:
            # (the first crossing of a hole leads out of what the one before it leads into)
            polygon = ~following[first - 1] if first % 2 else len(polygons)
            if polygon == len(polygons):
                polygons.append([])
            begin, at = len(order), first
            while (behind := following[at]) >= 0:
                following[at] = ~polygon
                order.append(at)
                at = behind
            polygons[polygon].append(slice(begin, len(order)))
    return order, polygons
