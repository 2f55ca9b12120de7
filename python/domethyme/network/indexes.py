"""What is derived from a network's arrays: which arcs lead from a node, which lie on an edge, how many edges meet at a
node, which nodes and edges are near a place, and what maps show. Needs numpy."""
import math
from typing import TYPE_CHECKING, Any

import numpy as np
from numpy.typing import NDArray

from .columns import TEXTS_PER_ROW, UNITS
from .geo import EARTH_RADIUS
from .grid import Grid, build_grid, cell_keys, pack_keys
from .groups import Ints, expand, offsets
from .parallel import differs_from_previous, map_slices, parallel_argsort
from .sphere import angles, interpolate, unit_vectors
from .zoom_levels import Floats, morton_codes, road_class, sort_by_cell, to_mercator

if TYPE_CHECKING:
    from .net_file import Arrays

FULL_CIRCLE = 360 * UNITS
# Of the grids' bands in degrees: some 280 metres. Higher ones are taken while lines are in more than twice as many cells as they
# have steps.
MIN_BAND_HEIGHT = 0.0025
MAX_BAND_HEIGHT = 80.0


def outgoing_arcs(starts: NDArray[np.int32], ends: NDArray[np.int32], weights: Ints, nodes: int) -> tuple[Ints, NDArray[np.int32]]:
    """The arcs from node n are arcs[begins[n]:begins[n + 1]]: by the node they lead to, and then by weight."""
    begins = offsets(np.bincount(starts, minlength=nodes))
    arcs = parallel_argsort(starts)

    def sort_slice(nodes: slice) -> None:
        part = slice(int(begins[nodes.start]), int(begins[nodes.stop]))
        chunk = arcs[part]
        arcs[part] = chunk[argsort_arcs(starts[chunk], ends[chunk], weights[chunk])]

    map_slices(sort_slice, len(begins) - 1)
    return begins, arcs


def argsort_arcs(start: NDArray[np.int32], end: NDArray[np.int32], weight: Ints) -> Ints:
    """The order of arcs by their ends, the lightest of a pair first."""
    keys = start.astype(np.int64) << 32 | end
    order = np.argsort(keys, kind="stable")
    is_new = differs_from_previous(keys[order])
    several = np.flatnonzero(~(is_new & np.append(is_new[1:], True)))
    chosen = order[several]
    order[several] = chosen[np.lexsort((weight[chosen], keys[chosen]))]
    return order


def node_degrees(arrays: "Arrays") -> NDArray[np.uint8]:
    """How many edges meet at each node, 255 for more, behind a first figure of none."""
    of_edge = np.full(len(arrays.edge_begin) - 1, -1, dtype=np.int32)
    of_edge[arrays.arc_edge] = np.arange(len(arrays.arc_edge), dtype=np.int32)
    odd = np.zeros(len(of_edge), dtype=bool)

    def ends(arcs: Any) -> tuple[NDArray[np.int32], NDArray[np.int32]]:
        start, end = arrays.arc_from[arcs], arrays.arc_to[arcs]
        return np.minimum(start, end), np.maximum(start, end)

    def look(part: slice) -> None:
        edge = arrays.arc_edge[part]
        (low, high), (other_low, other_high) = ends(part), ends(of_edge[edge])
        odd[edge[(low != other_low) | (high != other_high) | (low == high)]] = True

    # (most edges have two ends; copies of nodes, which turn restrictions make, give some more, and rings one)
    map_slices(look, len(arrays.arc_edge))
    plain = of_edge[~odd & (of_edge >= 0)]
    rows = np.flatnonzero(odd[arrays.arc_edge])
    pairs = np.column_stack((np.concatenate(ends(rows)).astype(np.int64), np.tile(arrays.arc_edge[rows], 2)))
    more = np.unique(pairs, axis=0)[:, 0]
    found = np.bincount(np.concatenate((*ends(plain), more)) + 1, minlength=len(arrays.node_osm) + 1)
    return np.minimum(found, 255).astype(np.uint8)


def unique_text_rows(rows: NDArray[np.int32], row: NDArray[Any]) -> tuple[NDArray[np.int32], NDArray[np.int32]]:
    """The different rows of texts that arcs have, in order and with zeros behind them, and the number of each arc's."""
    used = np.flatnonzero(np.bincount(row, minlength=len(rows)))
    used = used[np.lexsort(rows[used].T[::-1])]
    is_new = np.ones(len(used), dtype=bool)
    is_new[1:] = (rows[used[1:]] != rows[used[:-1]]).any(axis=1)
    number = np.zeros(len(rows), dtype=np.int32)
    number[used] = np.cumsum(is_new) - 1
    return np.pad(rows[used[is_new]], ((0, 0), (0, TEXTS_PER_ROW - rows.shape[1]))), number[row]


# Nodes and edges near a place


def node_grid(lon: NDArray[Any], lat: NDArray[Any]) -> Grid:
    """The grid of nodes, counted from 0, by their places in units."""
    def pack_slice(part: slice) -> NDArray[np.uint64]:
        return pack_keys(cell_keys(lon[part] / UNITS, lat[part] / UNITS, MIN_BAND_HEIGHT), np.arange(len(lon))[part])

    return build_grid(map_slices(pack_slice, len(lon)), MIN_BAND_HEIGHT, 0.001)


def edge_segments(edge_begin: NDArray[Any]) -> tuple[NDArray[np.int32], NDArray[np.int32]]:
    """The first point of each step of the edges, and its edge."""
    counts = np.diff(edge_begin)
    edges = np.repeat(np.arange(len(counts), dtype=np.int32), counts - 1)
    # (each edge before has a point more than it has steps)
    return np.arange(len(edges), dtype=np.int32) + edges, edges


def edge_grid(points: NDArray[Any], steps: NDArray[np.int32], edges: NDArray[np.int32]) -> Grid:
    """The grid of edges by the middles of pieces of their steps. Raises ValueError where a step leads half round the earth."""
    lengths = np.concatenate(map_slices(lambda part: angles(*segment_ends(points, steps[part])), len(steps)))
    if lengths.max(initial=0) > 3.1:
        raise ValueError("a line leads half round the earth from one point to the next")
    height = MIN_BAND_HEIGHT

    def count_pieces(part: slice) -> int:
        return int(pieces_per_segment(lengths[part], height).sum())

    while height < MAX_BAND_HEIGHT and sum(map_slices(count_pieces, len(lengths))) > 2 * len(steps):
        height *= 2

    def pack_slice(part: slice) -> NDArray[np.uint64]:
        (begins, ends), whole, edge = segment_ends(points, steps[part]), lengths[part], edges[part]
        counts = pieces_per_segment(whole, height)
        shares = np.array([0.5])
        if counts.max(initial=1) > 1:
            row, position = expand(counts)
            begins, ends, whole, edge = begins[row], ends[row], whole[row], edge[row]
            shares = (position + 0.5) / counts[row]
        middles = interpolate(begins, ends, shares, whole)
        lat = np.degrees(np.arctan2(middles[:, 2], np.hypot(middles[:, 0], middles[:, 1])))
        found = pack_keys(cell_keys(np.degrees(np.arctan2(middles[:, 1], middles[:, 0])), lat, height), edge)
        return np.asarray(found[differs_from_previous(found)])

    return build_grid(map_slices(pack_slice, len(steps)), height, grid_margin(height))


def segment_ends(points: NDArray[Any], steps: NDArray[np.int32]) -> tuple[Floats, Floats]:
    """Both ends of steps, which follow one another, on the sphere."""
    if not len(steps):
        return np.empty((0, 3)), np.empty((0, 3))
    first = int(steps[0])
    places = points[first : int(steps[-1]) + 2] / UNITS
    found = unit_vectors(places[:, 0], places[:, 1])
    return found[steps - first], found[steps + 1 - first]


def pieces_per_segment(lengths: Floats, height: float) -> Ints:
    """How many pieces steps of these angles are cut into: each is at most half as long as a band is high."""
    return np.asarray(np.maximum(1, np.ceil(lengths / math.radians(height / 2))), np.int64)


def grid_margin(height: float) -> float:
    """The metres within which an edge's points lie from a middle of its pieces."""
    return EARTH_RADIUS * math.radians(height / 4) + 1.0


# Maps


def wrapped_difference(east: NDArray[Any]) -> NDArray[Any]:
    """Differences of longitudes in units, the shorter way round."""
    half = FULL_CIRCLE // 2
    if -half <= east.min(initial=0) and east.max(initial=0) < half:
        return east
    return np.asarray((east + half) % FULL_CIRCLE - half)


def segment_middles(points: Any, steps: NDArray[Any]) -> Floats:
    """The middles of steps in degrees, in the plane of maps."""
    begins = points[steps].astype(np.int64)
    moves = points[steps + 1] - begins
    moves[:, 0] = wrapped_difference(moves[:, 0])
    middles: Floats = (begins + moves / 2) / UNITS
    middles[:, 0] = (middles[:, 0] + 180) % 360 - 180
    return middles


def build_zoom_levels(
    arrays: "Arrays", steps: NDArray[np.int32], edges: NDArray[np.int32]
) -> tuple[tuple[NDArray[Any], ...], list[int]]:
    """What `sort_by_cell` returns of all steps; an edge's class is that of its first arc, as its name."""
    highways, which = np.unique(arrays.row_texts[:, 0], return_inverse=True)
    begins = arrays.text_begin
    texts = [arrays.text_bytes[begins[each] : begins[each + 1]].tobytes().decode() for each in highways.tolist()]
    kinds = np.array([road_class(text) for text in texts], dtype=np.uint8)
    of_edge = np.full(len(arrays.edge_begin) - 1, road_class(""), dtype=np.uint8)
    of_edge[arrays.arc_edge[::-1]] = kinds[which][arrays.arc_row[::-1]]
    return sort_by_cell(
        lambda part: morton_codes(to_mercator(segment_middles(arrays.points, steps[part]))), of_edge, steps, edges
    )


def bounding_box(points: NDArray[Any]) -> list[int]:
    """West, south, east and north of points in units: the narrowest box, so one across the 180th meridian has its east beyond it."""
    if not len(points):
        return [0, 0, 0, 0]
    is_there = np.zeros(FULL_CIRCLE // (UNITS // 100) + 1, dtype=bool)
    is_there[points[:, 0] // (UNITS // 100) + len(is_there) // 2] = True
    lons = np.flatnonzero(is_there) - len(is_there) // 2
    gaps = np.diff(np.append(lons, lons[0] + FULL_CIRCLE // (UNITS // 100)))
    widest = int(np.argmax(gaps))
    south, north = int(points[:, 1].min()), int(points[:, 1].max())
    if widest == len(lons) - 1:
        return [int(points[:, 0].min()), south, int(points[:, 0].max()), north]
    is_east = points[:, 0] >= lons[widest + 1] * (UNITS // 100)
    return [int(points[is_east, 0].min()), south, int(points[~is_east, 0].max()) + FULL_CIRCLE, north]
