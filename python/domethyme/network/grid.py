"""An index of things on the earth by cells of a grid, and the search for the nearest of them. Needs numpy.

The earth is parted into bands of one height from pole to pole, and each band into cells that are at least as wide as the band is
high, where it is widest: fewer near the poles, and the last beside the first, so there is no seam. A thing is listed in one cell or
several, by points of it. Cells that have none aren't there; those of a band follow one another, and so do their lists. So all things
in a part of a band are one slice.

    keys     the cells in order: the band, and 32 bits for the column in it
    begins   things[begins[c]:begins[c + 1]] are those of cell c
    things   integers
"""
import functools
import itertools
import math
from collections.abc import Callable, Iterator, Sequence
from typing import Any, NamedTuple

import numpy as np
from numpy.typing import NDArray

from .geo import EARTH_RADIUS
from .groups import Ints as Ints
from .parallel import differs_from_previous, parallel_sort
from .sphere import Floats

BAND_SHIFT = 32
# Of a cell's column and of a thing, where both are packed in 64 bits with the cell's band. The lowest bands, of 0.0025 degrees, are
# 72,000 with at most 144,000 cells, and a network has fewer things than 2**29.
COLUMN_BITS, THING_BITS = 18, 29
# Things that are looked at together, and from how many on a lesser circle is tried before.
CHUNK_SIZE, MAX_CANDIDATES = 1 << 14, 1 << 12
# Places that are looked at together, and how often the circle around them is made wider before they are looked at alone.
BATCH_SIZE, MAX_DOUBLINGS = 1 << 10, 4
# So few are looked at alone.
SMALL_BATCH = 3
# The degrees from which on circles are so wide that it is worth while to look how wide they are in each band.
WIDE_DEGREES = 0.5
# How many times as wide as a band is high a circle may be for its cells to be found one by one.
MAX_SPAN_IN_BANDS = 8
HALF_WAY_ROUND = math.pi * EARTH_RADIUS

# By an array of different things the metres to each, or infinity.
DistanceFunction = Callable[[Ints], Floats]
# The same by numbers of places, and for each a thing.
PairDistanceFunction = Callable[[Ints, Ints], Floats]


class Grid(NamedTuple):
    """The index; the arrays are numpy's or columns of a file. Things lie within `margin` metres of their points."""

    height: float
    margin: float
    keys: Any
    begins: Any
    things: Any

    def candidate_slices(self, lon: Floats, lat: Floats, reach: Floats) -> tuple[Ints, Ints, Ints]:
        """The number of a place, and the begin and end of a slice of `things`, for all within some metres, and others."""
        which, lows, highs = self._key_ranges(lon, lat, (reach + self.margin) / EARTH_RADIUS)
        keys = self.keys[:]
        first, last = np.searchsorted(keys, lows), np.searchsorted(keys, highs)
        is_some = first < last
        return which[is_some], self.begins[first[is_some]], self.begins[last[is_some]]

    def cells_near(self, lon: Floats, lat: Floats, reach: Floats) -> Ints:
        """The cells, by their rows, with all things within some metres of places, and others; each once for each place."""
        _, lows, highs = self._key_ranges(lon, lat, (reach + self.margin) / EARTH_RADIUS)
        keys = self.keys[:]
        first, last = np.searchsorted(keys, lows), np.searchsorted(keys, highs)
        return concat_ranges(first, last - first)[1]

    def middles(self, cells: Ints) -> Floats:
        """The middles of cells in degrees, of shape (cells, 2), lon and lat."""
        keys = self.keys[cells]
        bands, columns = keys >> BAND_SHIFT, keys & (1 << BAND_SHIFT) - 1
        lon = (columns + 0.5) * 360 / columns_per_band(self.height)[bands] - 180
        return np.column_stack((lon, (bands + 0.5) * self.height - 90))

    @property
    def cell_metres(self) -> float:
        """How far a thing of a cell lies at most from its middle, but near the poles."""
        return self.margin + 1.2 * math.hypot(0.5, 1.0) * math.radians(self.height) * EARTH_RADIUS

    def things_in(self, cells: Ints) -> NDArray[Any]:
        begins = self.begins[cells]
        return np.asarray(self.things[concat_ranges(begins, self.begins[cells + 1] - begins)[1]])

    def _key_ranges(self, lon: Floats, lat: Floats, angle: Floats) -> tuple[Ints, Ints, Ints]:
        """The keys between which the cells in circles are: the number of the circle, the first key, and the one behind the last."""
        span = np.degrees(angle)
        keys = self.keys
        first, last = (int(keys[0]) >> BAND_SHIFT, int(keys[len(keys) - 1]) >> BAND_SHIFT) if len(keys) else (0, -1)
        lowest = np.maximum(band_index(lat - span, self.height), first)
        highest = np.minimum(band_index(lat + span, self.height), last)
        which, bands = concat_ranges(lowest, np.maximum(0, highest - lowest + 1))
        counts, away = columns_per_band(self.height)[bands], np.cos(np.radians(lat))
        has_pole = (np.abs(lat) + span >= 90) | (np.sin(angle) >= away)
        sine = np.where(has_pole, 0, np.sin(angle))
        half = np.where(has_pole, 180.0, np.degrees(np.arcsin(sine / np.maximum(away, 1e-300))))[which]
        if span.max(initial=0) > WIDE_DEGREES:
            half = np.minimum(half, half_widths(lat[which], angle[which], bands * self.height - 90, self.height))
        sides = lon[which] - half, lon[which] + half
        west, east = (np.floor((side + 180) / 360 * counts).astype(np.int64) for side in sides)
        is_all = east - west >= counts - 1
        west, east = np.where(is_all, 0, west), np.where(is_all, counts - 1, east)
        # (what is beyond a side of the band comes again at its other one)
        around = np.array([[0], [1], [-1]]) * counts
        low, high = np.maximum(west + around, 0), np.minimum(east + around, counts - 1)
        is_there = low <= high
        row = np.nonzero(is_there)[1]
        band = bands[row] << BAND_SHIFT
        return which[row], band + low[is_there], band + high[is_there] + 1

    @property
    def initial_radius(self) -> float:
        """The metres within which things are looked for first: a quarter of a band."""
        return self.height * EARTH_RADIUS * math.pi / 720

    def nearest(
        self, place: tuple[float, float], count: int, metres: DistanceFunction, step: Callable[[], object] = lambda: None,
        within: float = math.inf
    ) -> list[tuple[float, int]]:
        """The metres to the `count` nearest things of those that `metres` gives less than infinity, and their numbers: the nearest
        first, and of equally near ones the lesser number. There are fewer only where there are no more. What is farther than
        `within` isn't looked for: it may be among them, or be missing. `step` is called for each circle that is looked at, and
        for each part of the things in it; what it raises ends the search.

        A circle with more things than MAX_CANDIDATES, and more than twice as many as the last one, is narrowed, down to a metre beyond what is
        known. So each circle is wider than the last, and few are looked at however many things there are.
        """
        farther = min(within, HALF_WAY_ROUND)
        known, reach, most = 0.0, min(self.initial_radius, farther), MAX_CANDIDATES
        found: list[tuple[float, int]] = []
        while True:
            step()
            slices = self.slices_around(place, reach)
            wide = reach
            while len(found) < count and size_of(slices) > most and reach - known > 1.0:
                reach = (known + reach) / 2
                slices = self.slices_around(place, reach)
            most = max(MAX_CANDIDATES, 2 * size_of(slices))
            found = self._nearest_in(slices, count, metres, step)
            farthest = found[-1][0] if len(found) == count else math.inf
            if farthest <= reach or reach >= farther:
                return found
            further = farthest if farthest < math.inf else max(wide, 4 * reach)
            known, reach = reach, min(further, farther)

    def _nearest_in(
        self, slices: list[tuple[int, int]], count: int, metres: DistanceFunction, step: Callable[[], object]
    ) -> list[tuple[float, int]]:
        found: list[tuple[float, int]] = []
        for part in self._parts(slices):
            step()
            things = np.array(sorted(set(part.tolist())))
            away = metres(things)
            order = np.lexsort((things, away))[:count] if count > 1 else [int(away.argmin())]
            new = [(far, thing) for far, thing in zip(away[order].tolist(), things[order].tolist()) if far < math.inf]
            found = sorted({*found, *new})[:count]
        return found

    def _parts(self, slices: list[tuple[int, int]]) -> Iterator[NDArray[Any]]:
        """The things in slices, about CHUNK_SIZE at a time."""
        waiting: list[NDArray[Any]] = []
        for begin, end in slices:
            for low in range(begin, end, CHUNK_SIZE):
                waiting.append(self.things[low : min(end, low + CHUNK_SIZE)])
                if sum(map(len, waiting)) >= CHUNK_SIZE:
                    yield np.concatenate(waiting)
                    waiting = []
        if waiting:
            yield np.concatenate(waiting)

    def candidates_of_each(self, places: Sequence[tuple[float, float]], reach: float) -> tuple[Ints, Ints]:
        """The number of a place, and a thing within `reach` metres, or another. Places with very many are left out."""
        cells, counts = list[int](), list[int]()
        for place in places:
            some = self._small_key_ranges(*place, (reach + self.margin) / EARTH_RADIUS)
            counts.append(-1 if some is None else len(some) // 2)
            cells += some or ()
        bounds = iter(self.begins[self.keys[:].searchsorted(np.array(cells, np.int64))].tolist())
        pairs = zip(bounds, bounds)
        found: list[NDArray[Any]] = []
        sizes: list[int] = []
        for place, count in zip(places, counts):
            slices = self.slices_around(place, reach) if count < 0 else [*itertools.islice(pairs, count)]
            if (size := size_of(slices)) > MAX_CANDIDATES:
                slices, size = [], 0
            found += [self.things[begin:end] for begin, end in slices]
            sizes.append(size)
        return np.arange(len(places)).repeat(sizes), np.concatenate(found) if found else np.empty(0, np.int32)

    def candidates(self, place: tuple[float, float], reach: float) -> Iterator[NDArray[Any]]:
        """The things within `reach` metres of a place, and others, about CHUNK_SIZE at a time; one may come several times."""
        return self._parts(self.slices_around(place, reach))

    def slices_around(self, place: tuple[float, float], reach: float) -> list[tuple[int, int]]:
        """The slices of one place, as `candidate_slices` has them: by few cells without arrays, since these are what is asked for most."""
        cells = self._small_key_ranges(*place, (reach + self.margin) / EARTH_RADIUS)
        if cells is None:
            _, begins, ends = self.candidate_slices(np.array([place[0]]), np.array([place[1]]), np.array([reach]))
            return list(zip(begins.tolist(), ends.tolist()))
        bounds = self.begins[self.keys[:].searchsorted(cells)].tolist()
        return [(begin, end) for begin, end in zip(bounds[::2], bounds[1::2]) if begin < end]

    def _small_key_ranges(self, lon: float, lat: float, angle: float) -> list[int] | None:
        """The keys between which the cells in a circle are, two for each row of cells; None for one that is large or near a pole."""
        span, away = math.degrees(angle), math.cos(math.radians(lat))
        if span > MAX_SPAN_IN_BANDS * self.height or abs(lat) + span >= 89:
            return None
        half = math.degrees(math.asin(min(1.0, math.sin(angle) / away)))
        low, high = int((lat - span + 90) / self.height), int((lat + span + 90) / self.height)
        found: list[int] = []
        for band, count in enumerate(columns_per_band(self.height)[low : high + 1].tolist(), low):
            west, east = math.floor((lon - half + 180) / 360 * count), math.floor((lon + half + 180) / 360 * count)
            if east - west >= count - 1:
                west, east = 0, count - 1
            first = band << BAND_SHIFT
            found += (first + max(west, 0), first + min(east, count - 1) + 1)
            if west < 0:
                found += (first + west + count, first + count)
            if east >= count:
                found += (first, first + east - count + 1)
        return found

    def nearest_batch(self, lon: Floats, lat: Floats, metres: PairDistanceFunction) -> tuple[Ints, Floats]:
        """The thing nearest to each place, and the metres to it, as `nearest` has them; -1 and infinity where there is none."""
        found = np.full(len(lon), -1, dtype=np.int64), np.full(len(lon), np.inf)
        for begin in range(0, len(lon), BATCH_SIZE):
            left = np.arange(begin, min(begin + BATCH_SIZE, len(lon)))
            if len(left) > SMALL_BATCH:
                left = self._resolve_nearby(lon, lat, left, metres, found)
            for row in left.tolist():
                place = float(lon[row]), float(lat[row])
                for away, thing in self.nearest(place, 1, lambda things: metres(np.full(len(things), row), things)):
                    found[0][row], found[1][row] = thing, away
        return found

    def _resolve_nearby(
        self, lon: Floats, lat: Floats, left: Ints, metres: PairDistanceFunction, found: tuple[Ints, Floats]
    ) -> Ints:
        """Finds the nearest things of those of the places `left` that have some near by; returns the others."""
        (nodes, away), reach = found, np.full(len(left), self.initial_radius)
        for _ in range(MAX_DOUBLINGS):
            which, begins, ends = self.candidate_slices(lon[left], lat[left], reach)
            is_few = np.bincount(which, ends - begins, len(left)) <= MAX_CANDIDATES // 4
            chosen = is_few[which]
            pairs, rows = concat_ranges(begins[chosen], (ends - begins)[chosen])
            places, things = left[which[chosen][pairs]], self.things[rows]
            far = metres(places, things)
            order = np.lexsort((things, far, places))
            first = order[differs_from_previous(places[order])]
            nodes[places[first]], away[places[first]] = things[first], far[first]
            is_left = ~is_few | (away[left] > reach)
            reach = np.where(np.isfinite(away[left]), away[left], 4 * reach)[is_left]
            left = left[is_left]
        nodes[left], away[left] = -1, np.inf
        return left


def size_of(slices: list[tuple[int, int]]) -> int:
    return sum(end - begin for begin, end in slices)


def concat_ranges(begins: NDArray[Any], counts: NDArray[Any]) -> tuple[Ints, Ints]:
    """All numbers from begins[k], counts[k] of them, for each k in a row; and k for each of them, which comes first."""
    owner = np.arange(len(counts)).repeat(counts)
    return owner, np.arange(len(owner)) + (begins - (counts.cumsum(dtype=np.int64) - counts)).take(owner)


def half_widths(lat: Floats, angle: Floats, south: Floats, height: float) -> Floats:
    """How many degrees circles reach to the east in bands, at most: where meridians touch them, or else at a side of the
    band. A little more, since cosines of small angles are rounded."""
    sine, cosine = np.sin(np.radians(lat)), np.cos(np.radians(lat))
    sides = np.radians(np.clip([south, south + height], -90, 90))
    with np.errstate(divide="ignore", invalid="ignore"):
        reached = (np.cos(angle) - sine * np.sin(sides)) / (cosine * np.cos(sides))
        touched = np.arcsin(np.clip(sine / np.cos(angle), -1, 1))
    found = np.degrees(np.arccos(np.clip(np.nan_to_num(reached, nan=-1.0), -1, 1)).max(axis=0)) + 1e-5
    # (beyond a quarter of the earth a circle touches no meridian, and has the most at a side)
    is_touched = (sides[0] <= touched) & (touched <= sides[1]) | ~np.isfinite(touched)
    return np.where(is_touched, 180.0, np.minimum(found, 180.0))


def band_index(lat: Floats, height: float) -> Ints:
    return np.asarray(np.clip(np.floor((lat + 90) / height), 0, math.ceil(180 / height) - 1), np.int64)


@functools.lru_cache(4)
def columns_per_band(height: float) -> Ints:
    south = np.arange(math.ceil(180 / height)) * height - 90
    widest = np.maximum(0, np.maximum(south, -(south + height)))  # (the latitude that is nearest to the equator)
    # (a little less, so that machines that round a cosine differently agree)
    counts = np.floor(360 * np.cos(np.radians(np.minimum(widest, 90))) / height - 1e-6)
    return np.asarray(np.maximum(1, counts), np.int64)


def cell_keys(lon: Floats, lat: Floats, height: float) -> Ints:
    """The key of the cell of each place in degrees."""
    bands = band_index(lat, height)
    counts = columns_per_band(height)[bands]
    return (bands << BAND_SHIFT) + np.clip(np.floor((lon + 180) / 360 * counts).astype(np.int64), 0, counts - 1)


def pack_keys(cells: Ints, things: NDArray[Any]) -> NDArray[np.uint64]:
    """Things and the cells in which they are listed, each pair a number, in the order of cells and then of things."""
    bands, mask = cells >> BAND_SHIFT, (1 << COLUMN_BITS) - 1
    return np.asarray((bands << COLUMN_BITS | cells & mask) << THING_BITS | things).view(np.uint64)


def build_grid(lists: list[NDArray[np.uint64]], height: float, margin: float) -> Grid:
    """The grid of things in lists of them, `pack_keys`; one that is in a cell several times is listed once."""
    pairs = np.concatenate(lists)
    lists.clear()
    parallel_sort(pairs)
    pairs = pairs[differs_from_previous(pairs)]
    begins = np.append(np.flatnonzero(differs_from_previous(pairs >> np.uint64(THING_BITS))), len(pairs)).astype(np.int64)
    cells = (pairs[begins[:-1]] >> np.uint64(THING_BITS)).astype(np.int64)
    keys = (cells >> COLUMN_BITS << BAND_SHIFT) + (cells & (1 << COLUMN_BITS) - 1)
    return Grid(height, margin, keys, begins, (pairs & np.uint64((1 << THING_BITS) - 1)).astype(np.int32))
