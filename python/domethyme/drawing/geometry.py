"""Lines of a map on a flat picture: the projection, boxes, a view of a given width, and lines as pictures want them.

A place is (longitude, latitude) in degrees. Its point on the plane is (x, y) by the projection of web maps, Mercator's
on a sphere: x goes from 0 at 180 degrees west to 1 at 180 degrees east, and y from 0 in the north to 1 in the south.
"""
import collections
import itertools
import math
from collections.abc import Iterable, Sequence
from typing import NamedTuple

from ..network.geo import EARTH_RADIUS, Point

Line = Sequence[Point]
Piece = tuple[int, list[Point]]

GREATEST_LATITUDE = 85.05
TENTHS = 10


def to_mercator(places: Iterable[Point]) -> list[Point]:
    """The points of places on the plane. Latitudes beyond 85.05 degrees are taken as 85.05, as web maps do."""
    radians = ((lon, math.radians(max(-GREATEST_LATITUDE, min(GREATEST_LATITUDE, lat)))) for lon, lat in places)
    return [(0.5 + lon / 360, 0.5 - math.asinh(math.tan(phi)) / (2 * math.pi)) for lon, phi in radians]


def from_mercator(point: Point) -> Point:
    """The place of a point of the plane."""
    return (point[0] - 0.5) * 360, math.degrees(math.atan(math.sinh((0.5 - point[1]) * 2 * math.pi)))


def unwrapped(line: Iterable[Point], near: float = 0.0) -> list[Point]:
    """A line whose longitudes go on beyond 180 degrees where it crosses the 180th meridian, without one that is the place
    before again; it begins within 180 degrees of the longitude `near`."""
    found: list[Point] = []
    for lon, lat in line:
        near = lon + 360 * round((near - lon) / 360)
        found.append((near, lat))
    return [place for place, _ in itertools.groupby(found)]


def overlap_pieces(lines: Sequence[Line], most: int) -> list[list[Piece]]:
    """For each line its pieces in order, (depth, places): along a piece go `depth` of the later lines, or `most` where
    there are more, in either direction."""
    later: collections.Counter[tuple[Point, Point]] = collections.Counter()
    found: list[list[Piece]] = []
    for line in reversed(lines):
        edges = [(min(edge), max(edge)) for edge in itertools.pairwise(line)]
        pieces, end = [], 0
        for depth, same in itertools.groupby(min(later[edge], most) for edge in edges):
            begin, end = end, end + len(list(same))
            pieces.append((depth, list(line[begin : end + 1])))
        found.append(pieces)
        later.update(set(edges))
    return found[::-1]


def arrows(pixels: Line, every: float) -> list[tuple[Point, Point]]:
    """The points along a line at half of `every` pixels, and then each `every`, with the direction there, of length 1."""
    found, due = [], every / 2
    for (x, y), (next_x, next_y) in itertools.pairwise(pixels):
        length = math.hypot(next_x - x, next_y - y)
        while due < length:
            east, south = (next_x - x) / length, (next_y - y) / length
            found.append(((x + due * east, y + due * south), (east, south)))
            due += every
        due -= length
    return found


class Box(NamedTuple):
    """A rectangle of the plane, its sides along the axes; `top` is the smaller y."""

    left: float
    top: float
    right: float
    bottom: float

    @property
    def width(self) -> float:
        return self.right - self.left

    @property
    def height(self) -> float:
        return self.bottom - self.top

    @property
    def middle(self) -> Point:
        return (self.left + self.right) / 2, (self.top + self.bottom) / 2

    @property
    def metres(self) -> float:
        """The length on the ground, in the middle of the box, of 1 on the plane."""
        return 2 * math.pi * EARTH_RADIUS / math.cosh(2 * math.pi * (0.5 - self.middle[1]))

    def grown(self, margin: float) -> "Box":
        """The box with a margin on each side."""
        return Box(self.left - margin, self.top - margin, self.right + margin, self.bottom + margin)

    def shaped(self, least: float, most: float) -> "Box":
        """The box, made wider or higher about its middle until height / width is from `least` to `most`."""
        wider = max(0, self.height / most - self.width) / 2
        higher = max(0, self.width * least - self.height) / 2
        return Box(self.left - wider, self.top - higher, self.right + wider, self.bottom + higher)


def box_of(points: Iterable[Point]) -> Box:
    """The least box around one or more points."""
    across, down = zip(*points)
    return Box(min(across), min(down), max(across), max(down))


class View:
    """A picture, `width` pixels wide, of a box of the plane whose width is above 0."""

    def __init__(self, box: Box, width: float) -> None:
        self.box, self.width, self.scale = box, width, width / box.width
        self.height = round(box.height * self.scale)

    def pixels(self, points: Iterable[Point]) -> list[Point]:
        """Where points of the plane lie in the picture, from its upper left corner."""
        return [((x - self.box.left) * self.scale, (y - self.box.top) * self.scale) for x, y in points]

    @property
    def metres_of_a_pixel(self) -> float:
        """The length of a pixel on the ground, in the middle of the picture."""
        return self.box.metres / self.scale


def path_of(pixels: Iterable[Point]) -> str:
    """A line as the text of an SVG path, in steps from pixel to pixel; steps of less than a tenth are left out."""
    tenths = itertools.groupby((round(x * TENTHS), round(y * TENTHS)) for x, y in pixels)
    begin, *steps = from_before([place for place, _ in tenths])
    texts = [f"{x / TENTHS:.12g} {y / TENTHS:.12g}" for x, y in (begin, *(steps or [(0, 0)]))]
    return f"M{texts[0]}l{' '.join(texts[1:])}"


def from_before(points: Sequence[tuple[int, int]]) -> list[tuple[int, int]]:
    """The first point, and the differences of the others from those before them."""
    return [points[0], *((x - last_x, y - last_y) for (last_x, last_y), (x, y) in itertools.pairwise(points))]


def scale_bar_metres(metres: float) -> float:
    """The greatest of .., 0.5, 1, 2, 5, 10, 20, .. that is at most a number of metres above 0."""
    below = math.floor(math.log10(metres)) - 1
    bars = [step * 10.0**power for power in (below, below + 1) for step in (1, 2, 5)]
    return max(bar for bar in bars if bar <= metres)
