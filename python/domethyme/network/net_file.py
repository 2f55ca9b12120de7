"""A network in arrays, and the file NETWORK.net, which has them and what is derived from them. Needs numpy.

Whoever reads the file maps it (column_file.py). It has the sizes and checksums of the tables beside it, and is taken where these are
theirs; a table's checksum is computed where it was changed later than the file. Texts are numbers of rows in one list of texts. An edge is a line of a way, in the direction
that sorts first, with arcs along it and against.
"""
import bisect
import functools
import os
import stat
import tempfile
import zlib
from collections import Counter
from collections.abc import Iterator, Mapping, Sequence
from typing import IO, TYPE_CHECKING, Any, NamedTuple

import numpy as np
from numpy.typing import NDArray

from ..errors import NetworkError, raised_as
from ..hierarchy_file import open_nonblocking
from ..program import StrPath
from . import column_file, indexes
from .column_file import Column, MappedFile
from .columns import (
    ABOUT, ABOUT_SIZES, COLUMNS, DRIVING_SIDES, ENDS, MODES, OF_TABLES, PARTS, TEXTS, UNITS, UNITS_OF_WEIGHTS, columns_of
)
from .geo import Point
from .grid import Grid, concat_ranges
from .groups import Ints, first_of_equal, mask, offsets, rows_of_groups
from .parallel import map_slices
from .tables import ARC_COLUMNS, NODE_COLUMNS, Files, has_columns

FORMS: Mapping[int, column_file.Schema] = {
    version: {name: column for name, column in COLUMNS.items() if column.part in ("", *parts)}
    for version, parts in PARTS.items()
}
SECONDS_AT_A_TIME = 1 << 16


class NetworkColumns:
    """What networks in memory and in files are alike in: columns by their names, of which an index takes parts, and a list of texts."""

    texts: "Texts"

    if TYPE_CHECKING:
        def __getattr__(self, name: str) -> Any: ...

    def are_open(self) -> NDArray[np.bool_]:
        """Whether each arc is one of those that aren't left out."""
        return np.ones(len(self.arc_from), np.bool_)

    def keys(self) -> list[str]:
        """The keys of all nodes, none where they have none."""
        return [self.texts[number] for number in self.node_texts[:].tolist()]

    def arc_texts(self, arcs: Any, columns: int | slice = slice(len(TEXTS))) -> NDArray[np.int32]:
        """The numbers of texts of arcs, which an index takes, in columns of TEXTS."""
        return np.asarray(self.row_texts[self.arc_row[arcs], columns])

    def arc_lines(self, arcs: Ints) -> tuple[Ints, NDArray[np.int32]]:
        """The points of arcs in their directions, in units: those of arcs[k] are points[begins[k]:begins[k + 1]]."""
        begins, rows = rows_of_groups(self.edge_begin, self.arc_edge[arcs], ~self.arc_along[arcs])
        return begins, self.points[rows]


class Arrays(NetworkColumns):
    """The columns of a network in memory by their names, but for those that are derived; of shape (0,) where it has none. `about` has the
    numbers of that column that aren't derived, which are 0 where they aren't there."""

    if TYPE_CHECKING:
        def __getattr__(self, name: str) -> NDArray[Any]: ...

    NAMES = tuple(name for name, column in COLUMNS.items() if not column.is_derived)

    def __init__(self, columns: Mapping[str, Any], about: Mapping[str, int] | None = None) -> None:
        """Raises TypeError where one isn't there that each network has, and for another."""
        needed = {name for name in self.NAMES if not COLUMNS[name].part}
        if wrong := needed - {*columns} or {*columns} - {*self.NAMES}:
            raise TypeError(f"columns of a network: {', '.join(sorted(wrong))}")
        self.about = dict(about or {})
        vars(self).update({name: np.asarray(columns.get(name, ()), COLUMNS[name].kind) for name in self.NAMES})
        self.texts = Texts(self.text_begin, self.text_bytes)



class NodeArrays(NamedTuple):
    """Nodes: their columns, by the names in the file, places in units, of shape (nodes, 2), lon and lat, and keys, () for none, "" of a
    node without one."""

    columns: dict[str, NDArray[Any]]
    keys: Sequence[str] = ()

    @property
    def places(self) -> NDArray[np.int32]:
        return np.column_stack((self.columns["node_lon"], self.columns["node_lat"]))


class ArcArrays(NamedTuple):
    """Arcs: their columns that tables have, by the names in the file, and `arc_row`, rows of these texts; and points[begins[i]:begins[i + 1]]
    of arc i, in units."""

    columns: dict[str, NDArray[Any]]
    texts: Sequence[tuple[str, ...]]
    begins: Ints
    points: NDArray[np.int32]


def build_arrays(nodes: NodeArrays, arcs: ArcArrays, attribution: str = "", about: Mapping[str, int] | None = None) -> Arrays:
    """The network of nodes and arcs. Raises ValueError where they don't fit together."""
    edge, is_along, first, backward = edges_from_arcs(arcs)
    edge_begin, rows = rows_of_groups(arcs.begins, first, backward)
    names: dict[str, int] = {}
    texts = np.array([[names.setdefault(text, len(names) + 1) for text in row] for row in arcs.texts], dtype=np.int32)
    row_texts, row = indexes.unique_text_rows(texts.reshape(-1, len(TEXTS)), arcs.columns["arc_row"])
    encoded = [text.encode("utf-8", "replace") for text in (attribution, *names, *nodes.keys)]
    found = Arrays({
        **nodes.columns, **arcs.columns, "arc_row": row, "arc_edge": edge, "arc_along": is_along, "row_texts": row_texts,
        "edge_begin": edge_begin, "points": arcs.points[rows], **text_columns(encoded),
        "node_texts": np.arange(len(names) + 1, len(encoded)),
    }, about)
    if problem := find_inconsistency(found):
        raise ValueError(problem)
    return found


def text_columns(encoded: Sequence[bytes]) -> dict[str, NDArray[Any]]:
    """The columns of a list of texts."""
    return {"text_begin": np.cumsum([0, *map(len, encoded)]), "text_bytes": np.frombuffer(b"".join(encoded), np.uint8)}


def edges_from_arcs(arcs: ArcArrays) -> tuple[NDArray[np.int32], NDArray[np.bool_], Ints, NDArray[np.bool_]]:
    """The edge of each arc and whether it leads along it; and for each edge its first arc and whether its line is that
    arc's backward. Lines of a way that are equal, in either direction, are one edge."""
    first, last = arcs.begins[:-1], arcs.begins[1:] - 1
    ends = arcs.points[np.stack((first, last), axis=1)].astype(np.int64)
    keys = (ends[:, :, 0] << 32) + ends[:, :, 1]
    is_along = keys[:, 0] < keys[:, 1]
    for arc in np.flatnonzero(keys[:, 0] == keys[:, 1]).tolist():
        line = arcs.points[first[arc] : last[arc] + 1].tolist()
        is_along[arc] = line <= line[::-1]
    known: dict[bytes, int] = {}
    ways = arcs.columns["arc_osm"]
    # straight lines are told apart by their ends; of the others all points are compared
    is_straight = last - first == 1
    chosen = np.flatnonzero(is_straight)
    ends_of_chosen = keys[chosen]
    leader = np.full(len(first), -1, dtype=np.int64)
    leader[chosen] = chosen[first_of_equal(ends_of_chosen.min(axis=1), ends_of_chosen.max(axis=1), ways[chosen])]
    for arc in np.flatnonzero(~is_straight).tolist():
        line = arcs.points[first[arc] : last[arc] + 1]
        key = (line if is_along[arc] else line[::-1]).tobytes() + int(ways[arc]).to_bytes(8, "little", signed=True)
        leader[arc] = known.setdefault(key, arc)
    leaders, edge = np.unique(leader, return_inverse=True)
    return edge.astype(np.int32), is_along, leaders, ~is_along[leaders]


def to_units(places: NDArray[Any]) -> NDArray[np.int32]:
    """Rows of lon and lat in degrees as units. Raises ValueError for what are no degrees."""
    for degrees, most in zip(places.T, (180, 90)):
        if not (np.abs(degrees) <= most).all():
            raise ValueError(f"a place isn't from -{most} to {most} degrees")
    return np.asarray(np.round(places * UNITS), np.int32)


def find_inconsistency(arrays: Arrays) -> str | None:
    """What is wrong with arrays that don't fit together; None where they do."""
    own = {name: getattr(arrays, name) for name in Arrays.NAMES}
    size = Counter({name: len(values) for name, values in own.items()})
    for name, column in columns_of(size).items():
        if (values := own.get(name)) is None or column.part and not len(values):
            continue
        if values.shape != (size[name] if column.rows is None else column.rows, *column.row_shape):
            return f"{name} has another size"
        if column.min_step is not None and not (len(values) and values[0] == 0 and values[-1] == column.high):
            return f"{name} has wrong offsets"
        if problem := column_file.problem_of(column, values, values):
            return f"{name} {problem}"
    return None


def write(file: IO[bytes], arrays: Arrays) -> None:
    """Writes a network's file to an empty file that can seek. Raises ValueError for arrays that don't fit together."""
    if problem := find_inconsistency(arrays):
        raise ValueError(problem)
    version, derived = version_of(arrays), derived_arrays(arrays)
    columns = ((name, next(derived) if COLUMNS[name].is_derived else getattr(arrays, name)) for name in FORMS[version])
    column_file.write(file, FORMS[version], version, columns)


def write_view(file: IO[bytes], view: "MappedNetwork") -> None:
    """Writes the file of a view of a network, whose arrays are as long, but for arcs that are left out."""
    def array_of(name: str) -> NDArray[Any]:
        return np.array([*view.about.values()]) if name == "about" else np.asarray(getattr(view, name)[:])

    version = version_of(view)
    column_file.write(file, FORMS[version], version, ((name, array_of(name)) for name in FORMS[version]))


def version_of(network: NetworkColumns) -> int:
    """The last version of the file that has the parts which a network has, but for what is derived."""
    own = {name: column.part for name, column in COLUMNS.items() if column.part and not column.is_derived}
    parts = {part for name, part in own.items() if len(getattr(network, name))}
    return max(version for version, some in PARTS.items() if parts == {*some}.intersection(own.values()))


def derived_arrays(arrays: Arrays) -> Iterator[NDArray[Any]]:
    """The columns that are derived, in their order; each is made when it is asked for."""
    steps, edges = indexes.edge_segments(arrays.edge_begin)
    levels, shown_from = indexes.build_zoom_levels(arrays, steps, edges)
    edge_grid = indexes.edge_grid(arrays.points, steps, edges)
    del steps, edges
    node_grid = indexes.node_grid(arrays.node_lon, arrays.node_lat)
    side = np.bincount(arrays.node_ends, minlength=len(ENDS)).tolist()
    about = {
        **dict.fromkeys(ABOUT, 0), **arrays.about, "unit": UNITS_OF_WEIGHTS.index(weight_unit(arrays)),
        "begins": side[0] + side[1], "ends": side[0] + side[2],
        "node_height": round(node_grid.height * UNITS), "edge_height": round(edge_grid.height * UNITS),
        **dict(zip(("west", "south", "east", "north"), indexes.bounding_box(arrays.points))),
        **{f"shown_{kind}": zoom for kind, zoom in enumerate(shown_from)},
    }
    yield np.array([about[name] for name in ABOUT], np.int64)
    outgoing: tuple[NDArray[Any], ...] = indexes.outgoing_arcs(arrays.arc_from, arrays.arc_to, arrays.arc_weight, len(arrays.node_osm))
    yield from outgoing
    yield offsets(np.bincount(arrays.arc_edge, minlength=len(arrays.edge_begin) - 1))
    yield np.argsort(arrays.arc_edge, kind="stable")
    yield indexes.node_degrees(arrays)
    yield from (*node_grid[2:], *edge_grid[2:], *levels)
    yield nodes_by_key(arrays)


def nodes_by_key(arrays: "Arrays | MappedNetwork") -> NDArray[np.int32]:
    """The nodes in the order of the bytes of their keys."""
    begins, whole = arrays.text_begin[:].tolist(), arrays.text_bytes[:].tobytes()
    keys = [whole[begins[number] : begins[number + 1]] for number in arrays.node_texts[:].tolist()]
    return np.array(sorted(range(len(keys)), key=keys.__getitem__), np.int32)


def weight_unit(arrays: Arrays) -> str:
    """What the weights of arcs are: `duration` in milliseconds, `distance` in centimetres, or `weight` for anything else."""
    for name, factor, values in (("duration", 1000.0, arrays.arc_seconds), ("distance", 100.0, arrays.arc_metres)):
        def is_near(part: slice) -> bool:
            return bool((np.abs(arrays.arc_weight[part] - factor * values[part]) <= 1.01).all())

        if values.any() and all(map_slices(is_near, len(values))):
            return name
    return "weight"


class Texts:
    """The list of texts of a file; each is decoded where it is asked for."""

    def __init__(self, begins: Any, whole: Any) -> None:
        self._begins, self._bytes = begins, whole
        self._text = functools.lru_cache(1 << 12)(self._decoded)

    def __len__(self) -> int:
        return len(self._begins) - 1

    def __getitem__(self, number: int) -> str:
        return self._text(number, getattr(self._begins, "changes", 0))

    def _decoded(self, number: int, _changes: int) -> str:
        if not 0 <= number < len(self):
            raise IndexError(number)
        begin, end = self._begins[number : number + 2].tolist()
        return str(self._bytes[begin:end].tobytes(), "utf-8", "replace")


class MappedNetwork(NetworkColumns):
    """The file of a network, mapped: what Arrays has, by the same names, in columns that are verified where they are read. Raises
    NetworkError for a file that is refused, and where it is damaged, in all that reads it.

    about           the numbers of ABOUT, by their names
    texts           the list of texts, of which the first is the attribution
    out_begin, ..   as in index.py
    node_grid, edge_grid    nodes, counted from 0, and edges, by their places
    box             the bounding box in degrees: west, south, east, which may be beyond 180, and north
    is_partial      whether arcs are left out of out_arcs and edge_arcs, so an edge may have none (without, reweigh)
    """

    is_partial: bool

    if TYPE_CHECKING:
        def __getattr__(self, name: str) -> Column: ...

    def __init__(self, file: IO[bytes], path: str) -> None:
        self.path, self.file = path, MappedFile(file, path, FORMS, REMEDY)
        found = self.file.columns
        vars(self).update({name: np.empty(0, column.kind) for name, column in COLUMNS.items() if column.part} | found)
        self.has_keys = len(self.node_texts) > 0
        self.texts = Texts(self.text_begin, self.text_bytes)
        size = Counter({name: len(column) for name, column in found.items()})
        specs = columns_of(size)
        for name, column in found.items():
            column.spec = specs[name]
            if column.spec.rows not in (None, len(column)):
                raise self.file.damaged_error(f"{name} has another size")
        if not size["text_begin"] > 1 or not size["edge_begin"]:
            raise self.file.damaged_error("it has no texts or edges")
        if size["out_arcs"] > size["arc_from"]:
            raise self.file.damaged_error("out_arcs has another size")
        self.is_partial = size["out_arcs"] < size["arc_from"]
        about = found["about"][:].tolist()
        if len(about) not in ABOUT_SIZES:
            raise self.file.damaged_error("about has another size")
        self.about = {**dict.fromkeys(ABOUT, 0), **dict(zip(ABOUT, about))}
        self.box: list[float] = [self.about[side] / UNITS for side in ("west", "south", "east", "north")]
        self.node_grid, self.edge_grid = self._grid("node"), self._grid("edge")

    def _grid(self, name: str) -> Grid:
        found, height = self.file.columns, self.about[f"{name}_height"] / UNITS
        words = {"unit": UNITS_OF_WEIGHTS, "driving_side": DRIVING_SIDES, "mode": MODES}
        are_known = all(0 <= self.about[each] < len(known) for each, known in words.items())
        if not (are_known and indexes.MIN_BAND_HEIGHT <= height <= 2 * indexes.MAX_BAND_HEIGHT):
            raise self.file.damaged_error("about has wrong numbers")
        margin = 0.001 if name == "node" else indexes.grid_margin(height)
        return Grid(height, margin, found[f"{name}_keys"], found[f"{name}_cells"], found[f"{name}_things"])

    @functools.cached_property
    def unit(self) -> str:
        """What weights are, as `weight_unit` has it."""
        unit = UNITS_OF_WEIGHTS[self.about["unit"]]
        return "weight" if unit == "duration" and not self.has_seconds else unit

    @property
    def driving_side(self) -> str:
        """The side of the road on which vehicles are, of DRIVING_SIDES."""
        return DRIVING_SIDES[self.about["driving_side"]]

    @property
    def mode(self) -> str:
        """How one is on the way but on ferries, of MODES."""
        return MODES[self.about["mode"]]

    @functools.cached_property
    def has_seconds(self) -> bool:
        """Whether any arc takes time: those of DIMACS files, and of tables with weights alone, take 0 seconds, which isn't known."""
        parts = range(0, len(self.arc_seconds), SECONDS_AT_A_TIME)
        return any(bool(self.arc_seconds[begin : begin + SECONDS_AT_A_TIME].any()) for begin in parts)

    def are_open(self) -> NDArray[np.bool_]:
        """Whether each arc is one of those that aren't left out."""
        return mask(len(self.arc_from), self.out_arcs[:])

    def first_arcs(self, edges: Any) -> NDArray[np.int64]:
        """The first arc of each edge, whether it is left out or not."""
        arcs = self._first_arcs[edges] if self.is_partial else self.edge_arcs[self.edge_first[edges]]
        return np.asarray(arcs)

    @functools.cached_property
    def _first_arcs(self) -> Ints:
        found = np.empty(len(self.edge_begin) - 1, np.int64)
        found[self.arc_edge[::-1]] = np.arange(len(self.arc_edge))[::-1]
        return found

    def key(self, node: int) -> str | None:
        """The key of a node; None where nodes have none."""
        return self.texts[int(self.node_texts[node])] if self.has_keys else None

    def node(self, key: str) -> int | None:
        """The node of a key; None where there is none. It is searched for in the file, in some 0.1 ms."""
        # (what is no text isn't that of a key, in which such a part is replaced)
        wanted, nodes = key.encode("utf-8", "surrogatepass"), self._key_nodes
        row = bisect.bisect_left(range(len(nodes)), wanted, key=lambda row: self._key_bytes(nodes[row]))
        return int(nodes[row]) if wanted and row < len(nodes) and self._key_bytes(nodes[row]) == wanted else None

    @functools.cached_property
    def _key_nodes(self) -> Any:
        return self.file.columns["key_nodes"] if "key_nodes" in self.file.columns else nodes_by_key(self)

    def _key_bytes(self, node: Any) -> bytes:
        number = int(self.node_texts[int(node)])
        begin, end = self.text_begin[number : number + 2].tolist()
        return bytes(self.text_bytes[begin:end].tobytes())

    def degree(self, nodes: Any) -> NDArray[np.uint8]:
        """How many edges meet at nodes, 255 for more."""
        return np.asarray(self.degrees[nodes + 1])

    def lightest(self, starts: NDArray[np.int64], ends: NDArray[np.int64]) -> NDArray[np.int64]:
        """The lightest arc from each node to another; -1 where there is none."""
        begins = self.out_begin[starts]
        counts = self.out_begin[starts + 1] - begins
        pair, rows = concat_ranges(begins, counts)
        arcs = self.out_arcs[rows]
        hits = (self.arc_to[arcs] == ends.repeat(counts)).nonzero()[0][::-1]
        found = np.full(len(starts), -1, dtype=np.int64)
        found[pair.take(hits)] = arcs.take(hits)  # (the last that is assigned, the first of a pair, is its lightest)
        return found

    def line(self, arc: int) -> list[Point]:
        line = self.edge_line(int(self.arc_edge[arc]))
        return line if self.arc_along[arc] else line[::-1]

    def edge_line(self, edge: int) -> list[Point]:
        begin, end = self.edge_begin[edge : edge + 2].tolist()
        return [(lon / UNITS, lat / UNITS) for lon, lat in self.points[begin:end].tolist()]


REMEDY = "convert the map again, or make it of its tables, as `to_network NODES ARCS OUT`"


def read(path: StrPath) -> MappedNetwork:
    """The file of a network. Raises NetworkError for one of another version, or that is damaged in its head or tail."""
    with raised_as(NetworkError, path), open(path, "rb", opener=open_nonblocking) as file:
        if not stat.S_ISREG(os.fstat(file.fileno()).st_mode):
            raise NetworkError("is no regular file, so it can't be mapped", path)
        return MappedNetwork(file, os.fspath(path))


def map_tempfile(arrays: Arrays, path: str) -> MappedNetwork:
    """Arrays as if they were read from a file of this name, by a temporary one. Raises ValueError as `write`."""
    with tempfile.TemporaryFile() as file:
        write(file, arrays)
        file.flush()
        return MappedNetwork(file, path)


def is_current(prefix: str) -> bool:
    """Whether NETWORK.net goes before the tables beside it, those of the tools and those of which `to_network` made it:
    where they are of the size that it has for them, and not changed later than it or of the same checksum. Raises NetworkError as `read` does; where
    there is an archive of an earlier version alone; and where a user's own table has changed since."""
    files = Files(prefix)
    if not os.path.exists(files.binary):
        if os.path.exists(files.old):
            remedy = f"`to_network {files.nodes} {files.arcs} {prefix}` makes {files.binary} of the tables"
            why = f"is an archive of an earlier version, which isn't read: {remedy}, or convert the map again"
            raise NetworkError(why, files.old)
        return False
    tables = {files.nodes: NODE_COLUMNS, files.arcs: ARC_COLUMNS}
    if not any(map(os.path.exists, tables)):
        return True
    about, made = read(files.binary).about, os.stat(files.binary)
    marks = [about[name] for name in OF_TABLES]
    are_readable = all(has_columns(table, columns) for table, columns in tables.items())
    changed = [
        table for table, size, checksum in zip(tables, marks[:2], marks[2:])
        if os.path.exists(table) and (size or are_readable)
        and (os.stat(table).st_size != size or is_younger(os.stat(table), made) and checksum_of(table) != checksum)
    ]
    if changed and not are_readable:
        raise NetworkError(f"has changed since {files.binary} was made of it: run `to_network` again", changed[0])
    return not changed


def is_same_table(path: str, network: MappedNetwork) -> bool:
    """Whether a table of nodes is that of a network, as far as the network knows one."""
    size, checksum = network.about["nodes_size"], network.about["nodes_sum"]
    return not size or not os.path.exists(path) or os.stat(path).st_size == size and checksum_of(path) == checksum


def is_younger(one: os.stat_result, other: os.stat_result) -> bool:
    """Whether a file was changed after another one, by the time that it bears or by that of its last change."""
    return one.st_mtime_ns > other.st_mtime_ns or one.st_ctime_ns > other.st_ctime_ns


def marks_of(*tables: StrPath | None) -> dict[str, int]:
    """The numbers OF_TABLES of both, or of None, by their names. Raises OSError."""
    sizes = [0 if table is None else os.stat(table).st_size for table in tables]
    return dict(zip(OF_TABLES, [*sizes, *(0 if table is None else checksum_of(table) for table in tables)]))


def checksum_of(path: StrPath) -> int:
    """The CRC-32 of a file. Raises OSError."""
    found = 0
    with open(path, "rb") as file:
        while part := file.read(1 << 20):
            found = zlib.crc32(part, found)
    return found
