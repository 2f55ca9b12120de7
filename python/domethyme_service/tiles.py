"""The roads of the page's map, in square tiles of the Mercator projection: at zoom z the world is 2**z tiles wide. Each class of
roads has a least zoom (zoom_levels), and segments that coincide on the tile's grid are drawn once."""
import bisect
import functools
import itertools
import json
from typing import Any

import numpy as np

from domethyme.network.columns import ROAD_CLASSES, TEXTS, UNITS
from domethyme.network.groups import first_of_equal
from domethyme.network.indexes import segment_middles, wrapped_difference
from domethyme.network.net_file import MappedNetwork
from domethyme.network.zoom_levels import CODE_ZOOM, Ints, spread_bits, to_mercator

from .errors import invalid_value

MAX_ZOOM = 16
EXTENT = 1024
MIN_NAME_ZOOM = 14
TILE_CACHE_SIZE = 64
# Segments that are projected at once, which bounds memory: a large tile may have very many.
SEGMENTS_PER_CHUNK = 1 << 16
NAME_COLUMN = TEXTS.index("name")


class Tiles:
    def __init__(self, arrays: MappedNetwork) -> None:
        self.arrays = arrays
        # (made once: a file that is written in place would show in it)
        self.about_json = json.dumps({**self.about, "unit": arrays.unit}, ensure_ascii=False).encode("utf-8", "replace")
        self._kept = functools.lru_cache(TILE_CACHE_SIZE)(self._tile)

    @functools.cached_property
    def about(self) -> dict[str, Any]:
        """The bounding box of the roads, whose east may be beyond 180 degrees; the attribution that the data's licence
        requires; the greatest zoom and the extent of tiles; and a version that changes with the network. `about_json` is the
        same as JSON, with the unit of weights."""
        return {
            "box": self.arrays.box,
            "attribution": self.arrays.texts[0],
            "deepest": MAX_ZOOM,
            "grid": EXTENT,
            "version": f"{self.arrays.file.sum:08x}",
        }

    def read(self, path: str) -> bytes:
        """The tile of a path `/map/roads/ZOOM/X/Y` as JSON. Raises RequestError."""
        zoom, x, y = map(int, path.split("/")[3:])
        if zoom > MAX_ZOOM or max(x, y) >= 1 << zoom:
            raise invalid_value(f"a tile is ZOOM/X/Y, with a zoom from 0 to {MAX_ZOOM}")
        return self.tile(zoom, x, y)

    def tile(self, zoom: int, x: int, y: int) -> bytes:
        return self._kept(zoom, x, y, self.arrays.file.check_unchanged())

    def _tile(self, zoom: int, x: int, y: int, _changes: int) -> bytes:
        """A tile as JSON: for each class its lines, as the first point's coordinates and then the steps to the others,
        in units of 1/EXTENT of the tile's width; and the name of each line."""
        found: list[dict[str, Any]] = []
        for kind in range(len(ROAD_CLASSES)):
            if zoom >= self.arrays.about[f"shown_{kind}"]:
                segments, edges = self._segments(kind, zoom, x, y)
                if len(segments):
                    found.append({"kind": kind, **self._lines(segments, edges, zoom, x, y)})
        return json.dumps({"roads": found}, separators=(",", ":"), ensure_ascii=False).encode("utf-8", "replace")

    def _segments(self, kind: int, zoom: int, x: int, y: int) -> tuple[Ints, Ints]:
        """The segments of a class whose middles are in the tile, in the order of their lines, and their edges."""
        if zoom <= CODE_ZOOM:
            code = int(spread_bits(np.array([x]))[0] | spread_bits(np.array([y]))[0] << 1)
            rows, shift = range(*self.arrays.step_begin[kind : kind + 2].tolist()), 2 * (CODE_ZOOM - zoom)
            code_of = self.arrays.step_codes.__getitem__
            low, high = (rows.start + bisect.bisect_left(rows, each << shift, key=code_of) for each in (code, code + 1))
            segments, edges = self.arrays.step_points[low:high], self.arrays.step_edges[low:high]
            order = np.argsort(segments, kind="stable")
            return segments[order], edges[order]
        above, edges = self._segments(kind, CODE_ZOOM, x >> zoom - CODE_ZOOM, y >> zoom - CODE_ZOOM)
        plane = to_mercator(segment_middles(self.arrays.points, above)) * (1 << zoom)
        is_inside = (plane.astype(np.int64) == (x, y)).all(axis=1)
        return above[is_inside], edges[is_inside]

    def _to_tile_grid(self, segments: Ints, zoom: int, x: int, y: int) -> tuple[Ints, Ints]:
        """Both ends of segments, in units of the tile's grid."""
        begins, moves = self.arrays.points[segments].astype(np.int64), self.arrays.points[segments + 1].astype(np.int64)
        moves[:, 0] = begins[:, 0] + wrapped_difference(moves[:, 0] - begins[:, 0])
        found = [(to_mercator(each / UNITS) * (1 << zoom) - (x, y)) for each in (begins, moves)]
        # (a segment across the antimeridian is drawn on the tile's side of it)
        round_the_world = np.round(((found[0][:, 0] + found[1][:, 0]) / 2 - 0.5) / (1 << zoom)) * (1 << zoom)
        for each in found:
            each[:, 0] -= round_the_world
        one, other = (np.round(each * EXTENT).astype(np.int64) for each in found)
        return one, other

    def _lines(self, segments: Ints, edges: Ints, zoom: int, x: int, y: int) -> dict[str, Any]:
        """The segments as lines on the tile's grid, without those that coincide with earlier ones."""
        lows = range(0, len(segments), SEGMENTS_PER_CHUNK)
        parts = [self._visible_segments(segments[low : low + SEGMENTS_PER_CHUNK], zoom, x, y) for low in lows]
        begins, ends = (np.concatenate([part[side] for part in parts]) for side in (0, 1))
        kept = np.concatenate([low + part[2] for low, part in zip(lows, parts)])
        if zoom < MIN_NAME_ZOOM:
            once = unique_segments(begins, ends)
            begins, ends, kept = begins[once], ends[once], kept[once]
        # (the name of an edge is that of its first arc)
        names = self.arrays.arc_texts(self.arrays.first_arcs(edges[kept]), NAME_COLUMN)
        is_new = np.ones(len(kept), dtype=bool)
        is_new[1:] = (begins[1:] != ends[:-1]).any(axis=1) | (names[1:] != names[:-1])
        starts = np.flatnonzero(is_new).tolist()
        moves, origins = (ends - begins).tolist(), begins.tolist()
        lines: list[list[int]] = []
        for begin, end in itertools.pairwise([*starts, len(kept)]):
            lines.append([*origins[begin], *itertools.chain.from_iterable(moves[begin:end])])
        if zoom < MIN_NAME_ZOOM:
            return {"lines": lines}
        numbers = names[starts].tolist() if starts else []
        name_index = {number: place for place, number in enumerate(dict.fromkeys(numbers))}
        names_used = [self.arrays.texts[number] for number in name_index]
        return {"lines": lines, "names": names_used, "name": [name_index[number] for number in numbers]}

    def _visible_segments(self, segments: Ints, zoom: int, x: int, y: int) -> tuple[Ints, Ints, Ints]:
        """Both ends of segments with a length on the tile's grid, and their indices; below MIN_NAME_ZOOM no duplicates."""
        begins, ends = self._to_tile_grid(segments, zoom, x, y)
        kept = np.flatnonzero((begins != ends).any(axis=1))
        if zoom < MIN_NAME_ZOOM:
            kept = kept[unique_segments(begins[kept], ends[kept])]
        return begins[kept], ends[kept], kept


def unique_segments(begins: Ints, ends: Ints) -> Ints:
    """The indices of segments without those that equal an earlier one, in either direction."""
    keys = [each[:, 0] * np.int64(1 << 30) + each[:, 1] for each in (begins, ends)]
    first = first_of_equal(np.minimum(*keys), np.maximum(*keys))
    return np.flatnonzero(first == np.arange(len(first)))
