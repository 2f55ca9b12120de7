"""The steps of a network's lines as maps want them: by kind of road, and within it along a Z-order curve of Mercator's plane, so that
what a square of a map shows of a kind is one slice. A step leads from one point of a line to the next, and is in the cell of its
middle. At zoom z the world is 2**z cells wide. Needs numpy."""
import itertools
import math
from collections.abc import Callable
from typing import Any

import numpy as np
from numpy.typing import NDArray

from .columns import ROAD_CLASSES
from .parallel import differs_from_previous, map_slices, parallel_sort

# The zoom of the cells, and how many steps one may have on average in a picture.
CODE_ZOOM = 15
MAX_PER_CELL = 10_000
MAX_LAT = 85.0511
# Of the number of a step, of which there are fewer than 2**31.
SEGMENT_BITS = 31

Ints = NDArray[np.int64]
Floats = NDArray[np.float64]
# The cells that steps are in, and how many are in each.
CellCounts = tuple[NDArray[np.uint32], Ints]


def road_class(highway: str) -> int:
    """The number in ROAD_CLASSES of a class of road; a slip road is of the kind of the road that it leads to."""
    plain = highway.removesuffix("_link")
    return next((kind for kind, names in enumerate(ROAD_CLASSES) if plain in names), len(ROAD_CLASSES) - 1)


def to_mercator(places: Floats) -> Floats:
    """Places (lon, lat) in Mercator's plane, whose sides are 1: x to the east, y to the south."""
    lat = np.radians(np.clip(places[:, 1], -MAX_LAT, MAX_LAT))
    return np.column_stack((places[:, 0] / 360 + 0.5, 0.5 - np.arcsinh(np.tan(lat)) / (2 * math.pi)))


def spread_bits(values: Ints) -> Ints:
    """Each number's bits with a zero between any two: half of a place on a Z-order curve."""
    found = values & 0xFFFF
    for shift, mask in ((8, 0x00FF00FF), (4, 0x0F0F0F0F), (2, 0x33333333), (1, 0x55555555)):
        found = (found | found << shift) & mask
    return found


def morton_codes(plane: Floats) -> NDArray[np.uint32]:
    cells = np.clip((plane * (1 << CODE_ZOOM)).astype(np.int64), 0, (1 << CODE_ZOOM) - 1)
    return (spread_bits(cells[:, 0]) | spread_bits(cells[:, 1]) << 1).astype(np.uint32)


def sort_by_cell(
    codes: Callable[[slice], NDArray[np.uint32]], kinds: NDArray[np.uint8], steps: NDArray[np.int32], edges: NDArray[np.int32]
) -> tuple[tuple[NDArray[Any], ...], list[int]]:
    """By the cells of the steps in a slice, the kinds of edges, and the edge of each step: where the steps of each kind
    begin, and in order their cells, first points and edges; and the zoom from which each kind is shown."""
    # a step's kind, cell and number, from the highest bits on
    order = np.empty(len(steps), np.uint64)
    found = np.empty(len(steps), np.uint32), np.empty(len(steps), np.int32), np.empty(len(steps), np.int32)

    def pack(part: slice) -> None:
        order[part] = kinds[edges[part]]
        order[part] <<= np.uint64(2 * CODE_ZOOM)
        order[part] |= codes(part)
        order[part] <<= np.uint64(SEGMENT_BITS)
        order[part] |= np.arange(part.start, part.stop, dtype=np.uint64)

    def unpack(part: slice) -> None:
        number = (order[part] & np.uint64((1 << SEGMENT_BITS) - 1)).astype(np.int64)
        found[0][part] = order[part] >> np.uint64(SEGMENT_BITS) & np.uint64((1 << 2 * CODE_ZOOM) - 1)
        found[1][part], found[2][part] = steps[number], edges[number]

    map_slices(pack, len(order))
    parallel_sort(order)
    map_slices(unpack, len(order))
    of_kinds = np.arange(len(ROAD_CLASSES) + 1, dtype=np.uint64) << np.uint64(2 * CODE_ZOOM + SEGMENT_BITS)
    begins = np.searchsorted(order, of_kinds).astype(np.int64)
    crowds: list[CellCounts] = []
    for low, high in itertools.pairwise(begins.tolist()):
        places = np.flatnonzero(differs_from_previous(found[0][low:high]))
        crowds.append((found[0][low:high][places], np.diff(np.append(places, high - low))))
    return (begins, *found), min_zooms(crowds)


def min_zooms(crowds: list[CellCounts]) -> list[int]:
    """The zoom from which each kind is shown, by its cells and how many steps are in each. The first that has any is always shown."""
    found: list[int] = []
    is_first = True
    for kind, (cells, _) in enumerate(crowds):
        least = 0 if is_first or not len(cells) else max(found)
        while not is_first and least < CODE_ZOOM and mean_density(crowds[: kind + 1], least) > MAX_PER_CELL:
            least += 1
        is_first = is_first and not len(cells)
        found.append(least)
    return found


def mean_density(crowds: list[CellCounts], zoom: int) -> float:
    """The steps of some kinds in a cell of this zoom: the mean over the cells, weighted by what they have."""
    cells = np.concatenate([codes >> np.uint32(2 * (CODE_ZOOM - zoom)) for codes, _ in crowds])
    _, places = np.unique(cells, return_inverse=True)
    counts = np.bincount(places, np.concatenate([counts for _, counts in crowds]))
    return float((counts * counts).sum() / max(1, counts.sum()))
