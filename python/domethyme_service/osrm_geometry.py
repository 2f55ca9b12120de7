"""The lines of OSRM's answers, simplified, as polylines or GeoJSON; and annotations of their segments. Lines are arrays of points in
microdegrees, of shape (points, 2)."""
import math
from collections.abc import Iterator, Sequence

import numpy as np
from numpy.typing import NDArray
from shapely.geometry import LineString

from domethyme.network.groups import Ints, offsets
from domethyme.network.leg_geometry import MICRODEGREES, RouteGeometry, joined, rows_differ
from domethyme.network.parallel import differs_from_previous
from domethyme.network.polyline import encode_polylines

from .costs import Meter, Work
from .errors import too_big
from .json_text import Texts, decimal_texts, join_object, number_texts, point_texts, string_json

# Points of the lines of an answer, and points that may be examined to simplify its line.
MAX_POINTS, MAX_EXAMINED = 1_500_000, 80_000_000
# GEOS simplifies lines of up to so many points, while it may examine so many in all lines: of a zigzag it examines half the square
# of the points, each in some 10 ns, and calls itself as often as there are points.
MAX_GEOS_POINTS, MAX_GEOS_EXAMINED = 4096, 40_000_000
# Points that are examined together.
CHUNK = 1 << 16
DECIMALS = 3
# The polyline of the way from a point to an equal one.
NO_STEP = "??"


class Budget:
    """What is left of the points of an answer, so that none is larger than a process can hold."""

    def __init__(self, meter: Meter, things: int) -> None:
        """`things` are what is made of each point (costs)."""
        self.points, self.examined, self.examined_by_geos = MAX_POINTS, MAX_EXAMINED, MAX_GEOS_EXAMINED
        self.meter, self.things = meter, things

    def spend(self, points: int) -> None:
        """Subtracts points of the answer. Raises RequestError if fewer are left."""
        self.meter.spend(Work.POINT, points * self.things)
        self.points -= points
        if self.points < 0:
            raise too_big(f"the answer has more than {MAX_POINTS} points: ask for fewer places, or overview=false")

    def examine(self, points: int) -> None:
        """Subtracts examined points. Raises RequestError if fewer are left."""
        self.examined -= points
        if self.examined < 0:
            raise too_big("the line of the route takes too long to simplify: ask for overview=full or false")

    def may_use_geos(self, points: int) -> bool:
        """Whether GEOS may simplify a line of so many points, which subtracts what it may examine."""
        most = points * points // 2
        is_allowed = points <= MAX_GEOS_POINTS and most <= min(self.examined_by_geos, self.examined)
        self.examined_by_geos -= most if is_allowed else 0
        return is_allowed


def join_lines(lines: Sequence[Ints]) -> Ints:
    """One line of several, without repeated points; at least two points."""
    line = joined(lines)
    line = line.compress(rows_differ(line), axis=0)
    return line if len(line) > 1 else line.repeat(2, axis=0)


def simplify_lines(lines: Sequence[Ints], budget: Budget) -> list[Ints]:
    """The lines, each of which begins where the one before ends, simplified with a tolerance of a thousandth of the extent of all."""
    east, north = joined(lines).T
    shrink = math.cos(math.radians(north[0] / MICRODEGREES))
    tolerance = float(max(np.ptp(unwrapped(east)) * shrink, np.ptp(north))) / 1000
    return [line[simplified(line, tolerance, budget)] for line in lines]


def unwrapped(east: Ints) -> Ints:
    """Longitudes in microdegrees that go on beyond the 180th meridian."""
    half = 180 * MICRODEGREES
    return east if int(east.max()) - int(east.min()) < half else np.asarray(np.unwrap(east, period=2 * half), np.int64)


def simplified(points: Ints, tolerance: float, budget: Budget) -> Ints:
    """The indices of the points that are left of a line without points within `tolerance`, in microdegrees of latitude, of what is left
    (Douglas, Peucker 1973)."""
    east = unwrapped(points[:, 0]) * math.cos(math.radians(points[0, 1] / MICRODEGREES))
    north = points[:, 1].astype(float)
    if not budget.may_use_geos(len(points)):
        return kept_by_levels(east + 1j * north, tolerance, budget)
    # (GEOS keeps the third coordinate of a point)
    line = LineString(np.column_stack((east, north, np.arange(len(points)))))
    return np.array(line.simplify(tolerance, preserve_topology=False).coords)[:, 2].astype(np.int64)


def kept_by_levels(flat: NDArray[np.complex128], tolerance: float, budget: Budget) -> Ints:
    """The same, level by level: all pieces of the line at once, each of which is cut where a point is farthest from the segment between
    its ends, if that is beyond the tolerance."""
    is_kept = np.zeros(len(flat), dtype=bool)
    is_kept[[0, -1]] = True
    lows, highs = np.array([0]), np.array([len(flat) - 1])
    while len(lows):
        budget.examine(int((highs - lows).sum()))
        middles = farthest_points(flat, lows, highs, tolerance)
        is_cut = middles > lows
        is_kept[middles[is_cut]] = True
        lows, highs = (
            np.concatenate(pair) for pair in ((lows[is_cut], middles[is_cut]), (middles[is_cut], highs[is_cut]))
        )
        is_long = highs - lows > 1
        lows, highs = lows[is_long], highs[is_long]
    return np.flatnonzero(is_kept)


def farthest_points(flat: NDArray[np.complex128], lows: Ints, highs: Ints, tolerance: float) -> Ints:
    """For each piece of a line the index of the point that is farthest from the segment between its ends; its low index if none is
    beyond the tolerance."""
    begins, along = flat[lows], flat[highs] - flat[lows]
    direction = along.conj() / np.maximum(np.square(np.abs(along)), 1e-300)
    ends, (found, greatest) = offsets(highs - lows - 1), (lows.copy(), np.full(len(lows), tolerance))
    for first in range(0, int(ends[-1]), CHUNK):
        numbers = np.arange(first, min(first + CHUNK, int(ends[-1])))
        row = np.searchsorted(ends, numbers, side="right") - 1
        index = lows[row] + 1 + numbers - ends[row]
        offset = flat[index] - begins[row]
        shares = np.clip((offset * direction[row]).real, 0, 1)
        away = np.abs(offset - shares * along[row])
        starts = np.flatnonzero(differs_from_previous(row))
        most = np.maximum.reduceat(away, starts)
        hits = np.flatnonzero(away == most.repeat(np.diff(np.append(starts, len(row)))))
        hits = hits[differs_from_previous(row[hits])]
        is_more = most > greatest[row[starts]]
        pieces = row[starts[is_more]]
        greatest[pieces], found[pieces] = most[is_more], index[hits[is_more]]
    return found


def line_json(line: Ints, format_: str, texts: Texts | None = None) -> str:
    """A line as polyline, polyline6 or geojson, for which the texts of its points may be known."""
    if format_ != "geojson":
        return polylines_json(line, np.array([0]), np.array([len(line)]), format_)[0]
    return line_string((point_texts(line, 6) if texts is None else texts).array(0, len(line)))


def line_string(coordinates: str) -> str:
    return f'{{"type":"LineString","coordinates":{coordinates}}}'


def polylines_json(points: Ints, firsts: Ints, behind: Ints, format_: str) -> list[str]:
    """The lines points[firsts[k]:behind[k]] as polyline or polyline6, of two equal points if it is of one."""
    texts = encode_polylines(points / MICRODEGREES, 6 if format_ == "polyline6" else 5, firsts, behind)
    for line in (behind - firsts == 1).nonzero()[0].tolist():
        texts[line] += NO_STEP
    return [*map(string_json, texts)]


def annotations_json(geometry: RouteGeometry, names: list[str]) -> Iterator[str]:
    """The annotations of these names of each leg: for each segment of its full line its metres, seconds, weight and speed, an arc's
    divided by metres; for each point the OpenStreetMap id of its node, or 0. Durations and speeds are null if the network
    has no seconds."""
    segments = geometry.segments()
    (weights, seconds, metres), counts = segments.totals, segments.begins[1:] - segments.begins[:-1]
    speeds = None if seconds is None else np.where(seconds == 0, 0, metres / np.where(seconds == 0, 1, seconds))
    of_parts = {"weight": weights, "distance": metres, "duration": seconds, "speed": speeds}
    asked = [name for name in names if name in of_parts]
    # (one call writes the numbers of all of these)
    values = np.full((len(asked), len(segments.parts)), np.nan)
    for row, name in zip(values, asked):
        if (of_part := of_parts[name]) is not None:
            np.multiply(of_part.take(segments.parts), 1.0 if name == "speed" else segments.shares, out=row)
    bounds, legs = segments.begins + len(segments.parts) * np.arange(len(asked))[:, None], len(geometry.ends) - 1
    arrays = decimal_texts(values.ravel(), DECIMALS).arrays(bounds[:, :-1].ravel(), bounds[:, 1:].ravel())
    texts = {name: arrays[legs * row : legs * (row + 1)] for row, name in enumerate(asked)}
    if "nodes" in names:
        texts["nodes"] = node_texts(geometry, counts)
    if "datasources" in names:
        texts["datasources"] = [f"[{'0,' * count}"[: max(1, 2 * count)] + "]" for count in counts.tolist()]
    return (join_object({name: texts[name][leg] for name in names}) for leg in range(legs))


def node_texts(geometry: RouteGeometry, counts: Ints) -> list[str]:
    """The array of the ids at each leg's points, one more than its segments, which are counted; a leg of one point has none."""
    nodes, places = geometry.shown_nodes()
    ids, of_points = geometry.roads.osm_ids(nodes), np.zeros(len(geometry.shown), np.int64)
    # (the first of several counts)
    of_points[places[ids != 0][::-1]] = ids[ids != 0][::-1]
    firsts = geometry.line_begins[:-1]
    return number_texts(of_points, 0).arrays(firsts, firsts + counts + (counts > 0))
