"""Polygons around what is reached of a network's roads, by a field on a grid. Needs numpy, scipy and shapely.

    contours(reach)     the polygons of each limit: those of a lesser limit lie within those of a greater one

What lies inside. A point belongs to the nearest road, if that is within the allowance: an eighth of the extent of what is
reached, but at least 100 m, and at most 200 m or two steps of the grid, whichever is more. It is inside if the part of
the road there is reached. Roads are taken as points, half a step apart, and the nearest is found once for all limits. Roads
beyond the grid take part, since one of them may be nearer than all that are on it. The field is the mean of the nine points
around, where one inside counts 1 and one outside -1; but inside it is at least 1/3, and outside at most -1/3. The contour is
the line where the field is 0.

The grid. Its step is a power of two of metres, at most 1/200 of the contour's width or height, whichever is less, but at
least half a metre. It is greater for a contour so long and narrow that the field would have more than MAX_POINTS. A
square of a step has four points of the field, half a step apart. If there are nodes in a square, they determine which of
its points are inside: all four if all of its nodes are reached, none if none is, and the western two if some are, as at a
bridge. So the line passes within 0.7 steps of each node that is on its wrong side, whatever the roads are.

How contours nest. The field of a greater limit is nowhere less. A line passes between two points of the field at least a
unit of the last decimal away from both. So rounded lines cross neither themselves nor one another. Contours whose steps
differ have a grid each, unless they are small: in the box of a lesser one all are drawn on its grid.
"""
import itertools
import math
from collections.abc import Iterator, Sequence
from typing import Any, NamedTuple

import numpy as np
from numpy.typing import NDArray
from scipy.ndimage import distance_transform_edt
from shapely.geometry import MultiPolygon, Polygon, box as rectangle
from shapely.ops import unary_union

from .contour_shapes import parts_of, rounded
from .grid import Ints
from .outlines import outlines
from .reach import DECIMALS, Box, Levels, Plane, Reach, Zone
from .sphere import Floats

# The allowance: the share of the extent, and its limits in metres and in steps.
ALLOWANCE_SHARE, MIN_ALLOWANCE, MAX_ALLOWANCE, ALLOWANCE_STEPS = 1 / 8, 100.0, 200.0, 2
# The lesser side of what is reached has at least so many steps. (The contour may be a step narrower on either side.)
STEPS = 205
MIN_STEP = 0.5
# The points of a grid; one within another, whose sides are aligned with the steps of the next, may have some more.
MAX_POINTS = 2_700_000
# Up to this step limits share the finest grid that has points for them: such contours are some hundred metres wide.
FINE_STEP = 4.0
# How many times as coarse as a grid the next one is at most.
RATIO = 16
# Roads beyond a grid take part up to the allowance, but at most so many half steps away, since points of a grid are nearer to some
# road on it. The nearest is found for blocks of at least so many points along each side, or of so many parts of that distance. (A
# grid that was broader by the allowance took two to four times as long for contours of some hundred metres.)
MAX_BEYOND, MIN_BLOCK, BLOCKS_BEYOND = 1600, 4, 100
# No level.
NONE = 255
# Points whose distances are found together, since they fit into a processor's cache.
CACHED = 1 << 15


class Mesh(NamedTuple):
    """A grid.

    step              in metres
    left, bottom      the first column and row of the field's points, counted from the origin of the plane
    width, height     how many columns and rows there are
    first             the first limit whose contour is drawn on it; those of all greater ones are, too
    shown             the box in which contours are drawn on it, None for all
    """

    step: float
    left: int
    bottom: int
    width: int
    height: int
    first: int
    shown: Box | None

    @classmethod
    def over(cls, box: Box, step: float, first: int = 0, shown: Box | None = None) -> "Mesh":
        """The grid with all squares that have a part of a box, and one more around them."""
        west, south, east, north = (2 * int(np.floor(side / step)) for side in box)
        return cls(step, west - 2, south - 2, east - west + 6, north - south + 6, first, shown)

    @property
    def points(self) -> int:
        return self.width * self.height

    @property
    def box(self) -> Box:
        west, south, half = self.left, self.bottom, self.step / 2
        return Box(west * half, south * half, (west + self.width) * half, (south + self.height) * half)

    def nearest(self, points: Floats) -> tuple[Ints, NDArray[np.bool_]]:
        """The nearest points of the field, numbered row by row, to those of some points that are on the grid; and which are."""
        columns, rows = (np.floor(axis * (2 / self.step)).astype(np.int64) for axis in points.T)
        columns, rows = columns - self.left, rows - self.bottom
        is_on = (0 <= rows) & (rows < self.height) & (0 <= columns) & (columns < self.width)
        return (rows * self.width + columns)[is_on], is_on


class Contour(NamedTuple):
    """Polygons in degrees, with DECIMALS, whose longitudes may go beyond 180; and the grid's step in metres, or None."""

    polygons: list[Polygon]
    step: float | None


def contours(reach: Reach) -> list[Contour]:
    """The contours of all limits. A node that is more than a step away from the line is inside if and only if it is reached."""
    found: list[list[list[Polygon]]] = [[] for _ in reach.boxes]
    steps: list[float | None] = [None for _ in reach.boxes]
    drawn: Box | None = None
    meshes = meshes_of(reach)
    allowance = max((allowance_of(box) for box in reach.boxes if box is not None), default=0.0)
    zone = reach.zone(2 * (allowance + meshes[-1].step)) if meshes else None
    for mesh in meshes:
        assert zone is not None
        # (what is drawn already needs no roads, but those near its sides)
        field = Field(reach, mesh, zone if drawn is None else zone.without(drawn.grown(-allowance - 3 * mesh.step)), drawn)
        for limit in range(mesh.first, len(reach.boxes)):
            box = reach.boxes[limit]
            assert box is not None  # (the first limit of a grid has one, and then all that follow)
            found[limit].append(cut(field.polygons(limit, allowance_of(box)), reach.plane, mesh.shown, drawn))
            steps[limit] = mesh.step  # (the last one is its own)
        drawn = mesh.shown
    return [Contour(united(parts), step) for parts, step in zip(found, steps)]


def allowance_of(box: Box) -> float:
    """How far beside roads a contour reaches around what is reached within a box, in metres."""
    return max(share_of(box), ALLOWANCE_STEPS * step_of(box))


def share_of(box: Box) -> float:
    """The allowance by the extent alone."""
    return min(max(ALLOWANCE_SHARE * max(box.sides), MIN_ALLOWANCE), MAX_ALLOWANCE)


def step_of(box: Box) -> float:
    """The step of a grid for what is reached within a box, in metres."""
    width, height = (side + 2 * share_of(box) for side in box.sides)
    step = float(2.0 ** np.floor(np.log2(max(min(box.sides) / STEPS, MIN_STEP))))
    while 4 * width * height > MAX_POINTS * step * step:
        step *= 2
    return step


def meshes_of(reach: Reach) -> list[Mesh]:
    """The grids, the finest first, each for the limits that have its step, and at most RATIO times as coarse as the last."""
    served: list[tuple[float, int, Box]] = []
    for limit, reached in enumerate(reach.boxes):
        if reached is not None:
            box = reached.grown(allowance_of(reached))
            step = step_of(reached)
            if served and (served[-1][0] >= step or step <= FINE_STEP and Mesh.over(box, served[-1][0]).points <= MAX_POINTS):
                served[-1] = served[-1][0], served[-1][1], box
            else:
                served.append((step, limit, box))
    found: list[Mesh] = []
    for (step, first, shown), (next_step, behind, _) in itertools.pairwise(served):
        while step < next_step:
            coarser = min(RATIO * step, next_step)
            shown = shown.aligned(coarser)
            found.append(Mesh.over(shown, step, first, shown))
            step, first = coarser, behind
    return [*found, *(Mesh.over(box, step, first) for step, first, box in served[-1:])]


def cut(polygons: Iterator[list[Floats]], plane: Plane, shown: Box | None, drawn: Box | None) -> list[Polygon]:
    """Polygons of the plane in degrees, what is in the box that is shown, and not in the one that is drawn already."""
    rings = ([plane.degrees(ring).round(DECIMALS) for ring in polygon] for polygon in polygons)
    found = MultiPolygon([Polygon(shell, holes) for shell, *holes in rings])
    if shown is not None:
        found = found.intersection(square_of(shown, plane))
    if drawn is not None:
        found = found.difference(square_of(drawn, plane))
    return parts_of(found)


def square_of(box: Box, plane: Plane) -> Polygon:
    corners = plane.degrees(np.array([[box.west, box.south], [box.east, box.north]])).round(DECIMALS)
    return rectangle(*corners.ravel().tolist())


def united(parts: Sequence[list[Polygon]]) -> list[Polygon]:
    """Polygons of several grids, which touch at the boxes' sides, as whole ones."""
    some = [polygons for polygons in parts if polygons]
    if len(some) == 1:
        return some[0]
    return [rounded(part) for part in parts_of(unary_union([polygon for polygons in some for polygon in polygons]))]


class Field:
    """What is inside from which limit on: a number for each point of a grid, row by row. Its last bits are the least level of the
    nearest road, or of the nodes in the point's square; those before them the square of the distance to that road, in half steps; 0
    in squares with nodes."""

    def __init__(self, reach: Reach, mesh: Mesh, zone: Zone, drawn: Box | None) -> None:
        """`zone` has all roads and nodes within twice the allowance of what is reached: beyond, nothing is inside. What is within
        the box that is drawn already isn't known."""
        self.mesh, self._half, self._drawn = mesh, mesh.step / 2, drawn
        self._bits = bits = len(reach.boxes).bit_length()
        self._mask = (1 << bits) - 1
        radius = math.floor(max(allowance_of(box) for box in reach.boxes if box is not None) / self._half)
        least, beyond = np.full(mesh.points, NONE, np.uint8), RoadsBeyond(mesh, min(radius, MAX_BEYOND))
        west, east = np.full(mesh.points // 4, NONE, np.uint8), np.zeros(mesh.points // 4, np.uint8)
        # (of shorter edges both ends are points enough)
        for edges in reach.edges_near(beyond.box, self._half, zone):
            spaced = reach.vertices(edges).spaced(self._half)
            levels = spaced.levels(reach.shares(edges, mesh.first))
            numbers, is_on = mesh.nearest(spaced.points)
            extend(np.minimum, least, numbers, levels[is_on])
            beyond.add(spaced.points[~is_on], levels[~is_on])
        for points, levels in reach.nodes_near(beyond.box, zone):
            numbers, is_on = mesh.nearest(points)
            beyond.add(points[~is_on], levels[~is_on])
            squares = numbers // (2 * mesh.width) * (mesh.width // 2) + numbers % mesh.width // 2
            extend(np.minimum, least, numbers, levels[is_on])
            extend(np.minimum, west, squares, levels[is_on])
            extend(np.maximum, east, squares, levels[is_on])
        self._found = nearest_levels(least.reshape(mesh.height, mesh.width), radius, bits)
        beyond.put_into(self._found, radius, bits)
        squares = np.flatnonzero(west != NONE)
        corners = squares // (mesh.width // 2) * (2 * mesh.width) + squares % (mesh.width // 2) * 2
        for side, levels in enumerate((west, east)):
            for up in (0, mesh.width):
                self._found.reshape(-1)[corners + (side + up)] = levels[squares]

    def polygons(self, limit: int, allowance: float) -> Iterator[list[Floats]]:
        """The polygons of a limit in the plane, each by its rings, the outer one first."""
        is_inside = self._found <= (math.floor((allowance / self._half) ** 2) << self._bits | self._mask)
        is_inside &= self._found & self._mask <= limit
        shown = self.mesh.shown
        if self._drawn is not None:  # (so that no lines are drawn there)
            is_inside[self._slices(self._drawn.grown(-self.mesh.step))] = True
        if shown is not None and is_inside[self._slices(shown.grown(self.mesh.step))].all():
            yield [shown.ring]
            return
        rows, columns = (np.flatnonzero(is_inside.any(axis=axis)) for axis in (1, 0))
        if not len(rows):
            return
        is_inside = np.pad(is_inside[rows[0] : rows[-1] + 1, columns[0] : columns[-1] + 1], 2)
        around = 2 * sums_of_nine(is_inside.view(np.int8)) - np.int8(9)
        # the line divides the way between two points by their values: 1 to 3 at most, and on the finest grids in the middle
        least = np.int8(3 if self._half >= MIN_STEP else 9)
        values = np.where(is_inside[1:-1, 1:-1], np.maximum(around, least), np.minimum(around, -least))
        points, polygons = outlines(values)
        points += self.mesh.left + columns[0] - 0.5, self.mesh.bottom + rows[0] - 0.5
        points *= self._half
        yield from ([points[ring] for ring in polygon] for polygon in polygons)

    def _slices(self, box: Box) -> tuple[slice, slice]:
        """The rows and columns of the points in a box."""
        (west, east), (south, north) = (
            (max(0, math.ceil(low / self._half - 0.5) - first), max(0, math.floor(high / self._half + 0.5) - first))
            for low, high, first in ((box.west, box.east, self.mesh.left), (box.south, box.north, self.mesh.bottom))
        )
        return slice(south, north), slice(west, east)


class RoadsBeyond:
    """The roads beyond a grid, which may be nearer to its points than all roads on it. They are found for blocks of points, on the
    grid and around it: for each the nearest block that has roads, of which the least level is kept, and a place on one of them."""

    def __init__(self, mesh: Mesh, radius: int) -> None:
        """They take part up to so many half steps from the grid."""
        self._mesh, self._block = mesh, max(MIN_BLOCK, radius // BLOCKS_BEYOND)
        self._blocks = Mesh.over(mesh.box.grown(radius * mesh.step / 2), self._block * mesh.step)
        self.box = self._blocks.box
        self._least = np.full(self._blocks.points, NONE, np.uint8)
        self._places = np.zeros((2, self._blocks.points), np.int32)

    def add(self, points: Floats, levels: Levels) -> None:
        """Adds points of roads that aren't on the grid."""
        numbers, is_on = self._blocks.nearest(points)
        extend(np.minimum, self._least, numbers, levels[is_on])
        self._places[:, numbers] = np.floor(points[is_on] * (2 / self._mesh.step)).T

    def put_into(self, found: NDArray[np.unsignedinteger[Any]], radius: int, bits: int) -> None:
        """Has points of the grid, as nearest_levels returns them for a radius, belong to roads beyond it that are nearer."""
        mesh, blocks, least = self._mesh, self._blocks, self._least.reshape(self._blocks.height, self._blocks.width)
        if (least == NONE).all():
            return
        away, (rows, columns) = distance_transform_edt(least == NONE, return_indices=True)
        nearest, nearer = rows * blocks.width + columns, ((away - 2) * self._block).clip(0, radius + 1).astype(np.int64)
        y = (np.arange(mesh.height) + mesh.bottom) // self._block - blocks.bottom
        x = (np.arange(mesh.width) + mesh.left) // self._block - blocks.left
        # (only points whose blocks may be nearer to those roads)
        points = np.flatnonzero(found > (nearer**2 << bits).astype(found.dtype).take(y, axis=0).take(x, axis=1))
        rows = points // mesh.width
        columns = points - rows * mesh.width
        numbers = nearest[y.take(rows), x.take(columns)]
        to_x, to_y = (axis.take(numbers) for axis in self._places)
        to_x -= columns + mesh.left
        to_y -= rows + mesh.bottom
        squares = np.minimum(to_x * to_x + to_y * to_y, (radius + 1) ** 2).astype(found.dtype)
        every = found.reshape(-1)
        every[points] = np.minimum(every.take(points), squares << bits | self._least.take(numbers))


def nearest_levels(levels: Levels, radius: int, bits: int) -> NDArray[np.unsignedinteger[Any]]:
    """For each point the square of the distance to the nearest ones that have a level, and in the last `bits` the least level of
    these. Where none is within the radius, it is the square of some greater distance.

    First come columns, and then rows: s steps at once add the square of s, and so do one that adds 1, one that adds 3, and so on.
    """
    far = radius + 1
    if far * far + 2 * radius >> 16 - bits:
        return nearest_levels_far(levels, bits)
    found = levels.astype(np.uint16)
    found[levels == NONE] = far << bits
    farther, reached = np.empty_like(found), 0
    while reached < radius:
        step = min(reached + 1, radius - reached)
        np.add(found, step << bits, out=farther)
        np.minimum(found[step:], farther[:-step], out=found[step:])
        np.minimum(found[:-step], farther[step:], out=found[:-step])
        reached += step
    np.right_shift(found, bits, out=farther)
    farther *= farther
    farther <<= bits
    found &= (1 << bits) - 1
    found |= farther
    height, width = levels.shape
    at_a_time = max(1, CACHED // (width + radius))
    for begin in range(0, height, at_a_time):
        rows = found[begin : begin + at_a_time]
        # (behind each row are so many that no step leads to the next one)
        line = np.full((len(rows), width + radius), far * far << bits, np.uint16)
        line[:, :width] = rows
        add_squares(line.ravel(), radius, bits)
        rows[...] = line[:, :width]
    return found


def add_squares(line: NDArray[np.uint16], radius: int, bits: int) -> None:
    """Has at each place the least, with the square of how far the place is that has it, up to the radius."""
    farther = np.empty_like(line)
    (low, high), (farther_low, farther_high) = ((each[:-1], each[1:]) for each in (line, farther))
    for cost in range(1, 2 * radius, 2):
        np.add(line, cost << bits, out=farther)
        np.minimum(high, farther_low, out=high)
        np.minimum(low, farther_high, out=low)


def nearest_levels_far(levels: Levels, bits: int) -> NDArray[np.uint32]:
    """The same, however far, of equally near ones of any."""
    height, width = levels.shape
    rows, columns = distance_transform_edt(levels == NONE, return_distances=False, return_indices=True)
    found: NDArray[np.uint32] = levels[rows, columns].astype(np.uint32)
    rows -= np.arange(height, dtype=np.int32)[:, None]
    columns -= np.arange(width, dtype=np.int32)
    found |= (rows * rows + columns * columns).astype(np.uint32) << np.uint32(bits)
    return found


def sums_of_nine(values: NDArray[np.int8]) -> NDArray[np.int8]:
    """The sum of each number and its eight neighbours, but for those of the rim."""
    rows = values[:-2] + values[1:-1] + values[2:]
    return np.asarray(rows[:, :-2] + rows[:, 1:-1] + rows[:, 2:])


def extend(choose: np.ufunc, found: Levels, numbers: Ints, levels: Levels) -> None:
    """Has levels at numbers chosen from those found so far and from others."""
    for level in np.flatnonzero(np.bincount(levels)).astype(np.uint8):
        here = numbers[levels == level]
        found[here] = choose(found[here], level)
