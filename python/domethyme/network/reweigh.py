"""A network with new speeds on some of its roads: a view of its mapped file, and its files. Needs numpy, and scipy if an arc is closed.

Nodes, edges and arcs keep their numbers. An arc takes the time of its metres at the new speeds, as if the map had them, and the turn that
leads into it costs what it did. What is closed is left out as `without` leaves roads out.
"""
import array
import copy
import dataclasses
import functools
import io
import itertools
import os
import warnings
from collections.abc import Sequence
from typing import Any, NamedTuple

import numpy as np
from numpy.typing import NDArray

from ..arrays import is_pandas, whole_numbers
from ..atomic_files import atomic_write_all
from ..csv_tables import Row, Table, open_input
from ..errors import NetworkError
from ..limits import MAX_WEIGHT
from ..program import StrPath
from . import indexes, net_file
from .columns import INT64, NO_OSM, OF_TABLES, UNITS
from .figures import PENALTY, seconds_of, whole_weights
from .groups import Ints, expand, mask, offsets
from .net_file import MappedNetwork
from .sphere import Floats, great_circle_metres, unit_vectors
from .tables import ARC_COLUMNS, NODE_COLUMNS, Files, has_columns
from .without import with_arcs, write_graph_of_view

# The columns of a row by how many fields it has: a way, or the step from a point of the map to a neighbouring one.
COLUMNS = {2: ("way", "kmh"), 3: ("from", "to", "kmh")}
FASTEST = 1000.0


@dataclasses.dataclass
class SpeedRows:
    """New speeds in km/h, 0 for closed: of ways by their ids, of shape (rows, 1), or from points to neighbouring ones, of shape (rows, 2).
    `number` is that of each row in its table. Of rows with the same ids the last one counts."""

    ids: Ints
    kmh: Floats
    number: Ints

    @functools.cached_property
    def _known(self) -> Ints:
        """The different ids, in order."""
        return np.unique(self.ids)

    @functools.cached_property
    def _keys(self) -> Ints:
        return self._key_of(*(self.ranks(column) for column in self.ids.T))

    @functools.cached_property
    def _last(self) -> tuple[Ints, Ints]:
        """The different keys, in order, and the last row of each."""
        keys, behind = np.unique(self._keys[::-1], return_index=True)
        return keys, len(self._keys) - 1 - behind

    def _key_of(self, *ranks: Ints) -> Ints:
        """A number for each row of ranks."""
        return functools.reduce(lambda key, rank: key * (len(self._known) + 1) + rank, ranks)

    def ranks(self, ids: Ints) -> Ints:
        """The places of ids among those of the rows, from 1, and 0 for others."""
        return places_in(self._known, ids) + 1

    def places(self, *ranks: Ints) -> Ints:
        """The place of the last row with the ids of these ranks, for each of them, -1 where there is none."""
        keys, last = self._last
        return np.append(last, -1)[places_in(keys, self._key_of(*ranks))]

    def unmatched(self, used: Ints) -> list[int]:
        """The numbers of the rows that have other ids than all rows that are used, which are given by their places."""
        is_used = np.isin(self._keys, np.unique(self._keys[used]))
        found: list[int] = self.number[~is_used].tolist()
        return found


class Speeds(NamedTuple):
    """New speeds of ways, and of the steps from points to others, which count before those of their ways."""

    ways: SpeedRows
    steps: SpeedRows


class Reweighed(NamedTuple):
    """What new speeds have changed: how many arcs have a new weight or a new time, are closed, and are cut off by those; and the numbers of
    the rows that match nothing, in order."""

    changed: int
    closed: int
    cut_off: int
    unmatched: list[int]


# The rows


def read_speeds(path: StrPath) -> Speeds:
    """The speeds of a CSV file with rows FROM,TO,KMH or WAY,KMH, of which the first may be these names. Raises NetworkError."""
    with open_input(path) as stream:
        whole = stream.read()
    names, _, rest = whole.partition(b"\n")
    has_names = is_names(names.decode("utf-8-sig", "replace").strip().split(","))
    rows = plain_rows(rest if has_names else whole)
    if rows is not None:
        *ids, kmh = (rows[name] for name in rows.dtype.names or ())
        return one_kind(np.column_stack(ids), kmh, np.arange(len(kmh)) + 1 + has_names)
    return read_rows(Table(path, io.BytesIO(whole), ()))


def is_names(fields: Sequence[str]) -> bool:
    """Whether a row has the names of columns."""
    return tuple(field.lower() for field in fields) in COLUMNS.values()


def read_rows(table: Table) -> Speeds:
    """The speeds of a table of rows of both kinds, of which the first may be names. Raises NetworkError for what is wrong."""
    found = {count: (array.array("q"), array.array("d"), array.array("q")) for count in COLUMNS}
    for record in filter(None, itertools.chain([table.columns], iter(table.next_record, None))):
        if (columns := COLUMNS.get(len(record))) is None:
            row = f"a row is FROM,TO,KMH or WAY,KMH{table.form.doubt(record)}"
            raise NetworkError(f"has {len(record)} fields, and {row}", table.path, table.reader.line_num)
        if table.reader.line_num == 1 and is_names(record):
            continue
        fields = Row(zip(columns, record))
        fields.path, fields.row, fields.form = table.path, table.reader.line_num, table.form
        ids, kmh, number = found[len(record)]
        ids.extend(fields.read_int(name, *INT64) for name in columns[:-1])
        kmh.append(fields.read_float("kmh", 0, FASTEST))
        number.append(fields.row)
    rows = (SpeedRows(np.array(ids).reshape(-1, count - 1), np.array(kmh), np.array(number)) for count, (ids, kmh, number) in found.items())
    return Speeds(*rows)


def plain_rows(text: bytes) -> NDArray[Any] | None:
    """The rows of a table of plain numbers, with the fields of COLUMNS, in a tenth of the time; None for any other text."""
    columns = COLUMNS.get(text.partition(b"\n")[0].count(b",") + 1)
    if columns is None or text.translate(None, b"0123456789.,-\n") or b"\n\n" in text or not text.endswith(b"\n"):
        return None
    kind = np.dtype([(name, np.float64 if name == "kmh" else np.int64) for name in columns])
    with warnings.catch_warnings():
        warnings.simplefilter("error")
        try:
            rows = np.loadtxt(io.BytesIO(text), kind, delimiter=",", ndmin=1)
        except (Warning, ValueError):
            return None
    return rows if ((rows["kmh"] >= 0) & (rows["kmh"] <= FASTEST)).all() else None


def one_kind(ids: Ints, kmh: Floats, number: Ints) -> Speeds:
    """The speeds of rows that have the ids of ways, or of two points."""
    given = SpeedRows(ids, kmh, number)
    none = SpeedRows(np.empty((0, 3 - ids.shape[1]), np.int64), np.empty(0), np.empty(0, np.int64))
    return Speeds(given, none) if ids.shape[1] == 1 else Speeds(none, given)


def speeds_of(rows: Any) -> Speeds:
    """The speeds of rows (from, to, kmh), or (way, kmh), or of a frame of pandas with these columns. Raises ValueError."""
    if is_pandas(rows) and rows.ndim == 2:
        found = [names for names in COLUMNS.values() if {*names} <= {*rows.columns}]
        if len(found) != 1:
            both = ", and not both" * len(found[1:])
            raise ValueError(f"a frame of speeds has to have the columns from, to and kmh, or way and kmh{both}")
        (names,) = found
        if several := [name for name in names if rows[name].ndim > 1]:
            raise ValueError(f"the frame has several columns {several[0]}")
        columns = [*(rows[name].to_numpy() for name in names[:-1]), rows["kmh"].to_numpy(float, na_value=np.nan)]
    else:
        try:
            listed = list(rows)
            lengths = {*map(len, listed)}
        except TypeError:
            lengths = {0}
        if len(lengths) > 1 or not lengths <= {*COLUMNS}:
            raise ValueError("speeds have to be rows (from, to, kmh), or rows (way, kmh)")
        columns = [np.array(column) for column in zip(*listed)] or [np.empty(0, np.int64)] * 2
    *ids, kmh = columns
    ids = [whole_numbers("ids", column, *INT64) for column in ids]
    speeds = kmh.astype(float)
    if not ((speeds >= 0) & (speeds <= FASTEST)).all():
        raise ValueError(f"kmh isn't from 0 to {FASTEST:g}")
    return one_kind(np.column_stack(ids), speeds, np.arange(len(speeds)))


def places_in(known: Ints, values: Ints) -> Ints:
    """The place of each value among different ones that rise, -1 for one that isn't there."""
    if not len(known):
        return np.full(len(values), -1)
    found = np.minimum(np.searchsorted(known, values), len(known) - 1)
    return np.where(known[found] == values, found, -1)


# The times of arcs


def rows_of_steps(network: MappedNetwork, rows: SpeedRows) -> tuple[NDArray[np.int32], NDArray[np.bool_]]:
    """The place of the row of each step of the edges, -1 for none, and whether an edge has one, of shape (2, steps) and (2, edges): of
    those against the edge, and along it."""
    first, edge = indexes.edge_segments(network.edge_begin[:])
    found, is_named = np.full((2, len(first)), -1, np.int32), np.zeros((2, len(network.edge_metres)), np.bool_)
    ids = network.point_osm[:]
    ranks = np.where(ids == NO_OSM, 0, rows.ranks(ids))
    steps = np.flatnonzero((ranks[first] > 0) & (ranks[first + 1] > 0))
    here, there = ranks[first[steps]], ranks[first[steps] + 1]
    for side, ends in enumerate(((there, here), (here, there))):
        found[side, steps] = rows.places(*ends)
        is_named[side, edge[found[side] >= 0]] = True
    return found, is_named


class Steps(NamedTuple):
    """The steps of some arcs: the place of the arc of each, its first point or last, and its new km/h, NaN for none."""

    owner: Ints
    point: Ints
    kmh: Floats


def steps_of(network: MappedNetwork, speeds: Speeds, is_open: NDArray[np.bool_]) -> tuple[Ints, Steps, list[int]]:
    """The arcs that have a new speed anywhere, their steps, and the numbers of the rows that match nothing."""
    edges, side = network.arc_edge[:], network.arc_along[:].astype(np.int8)
    of_step, is_named = rows_of_steps(network, speeds.steps)
    of_way = speeds.ways.places(speeds.ways.ranks(network.arc_osm[:]))
    arcs = np.flatnonzero(is_open & (is_named[side, edges] | (of_way >= 0)))
    begins = network.edge_begin[edges[arcs]]
    owner, position = expand(network.edge_begin[edges[arcs] + 1] - begins - 1)
    # (each edge before has a point more than it has steps)
    row = of_step[side[arcs][owner], (begins - edges[arcs])[owner] + position]
    of_ways, of_steps = (np.append(rows.kmh, np.nan) for rows in speeds)  # (at -1 there is none)
    kmh = np.where(row >= 0, of_steps[row], of_ways[of_way[arcs]][owner])
    unmatched = speeds.steps.unmatched(row[row >= 0]) + speeds.ways.unmatched(of_way[arcs][of_way[arcs] >= 0])
    return arcs, Steps(owner, begins[owner] + position, kmh), sorted(unmatched)


def milliseconds_of(network: MappedNetwork, arcs: Ints, steps: Steps) -> Floats:
    """The time of arcs at new speeds, without penalties; NaN for what is closed. Steps without a new speed take their share of the
    old time."""
    counts = np.bincount(steps.owner, minlength=len(arcs))
    begins, metres = offsets(counts)[:-1], network.edge_metres[network.arc_edge[arcs]]
    least, most = np.minimum.reduceat(steps.kmh, begins), np.maximum.reduceat(steps.kmh, begins)
    is_closed, is_mixed = np.fmin.reduceat(steps.kmh, begins) == 0, ~(least == most)
    with np.errstate(divide="ignore", invalid="ignore", over="ignore"):
        found: Floats = metres * 3600 / least
    chosen = np.flatnonzero(is_mixed[steps.owner])
    owner, point, kmh = (column[chosen] for column in steps)
    here, there = (unit_vectors(*(network.points[points].T / UNITS)) for points in (point, point + 1))
    along = great_circle_metres(here, there)
    whole = np.bincount(owner, along, len(arcs))[owner]
    shares = np.divide(along, whole, out=1 / counts[owner], where=whole > 0)
    old = network.arc_weight[arcs] - PENALTY * network.arc_penalty[arcs]
    with np.errstate(divide="ignore", invalid="ignore", over="ignore"):
        times = shares * np.where(np.isnan(kmh), old[owner], metres[owner] * 3600 / kmh)
    found[is_mixed] = np.bincount(owner, times, len(arcs))[is_mixed]
    found[is_closed] = np.nan
    return found


# The network


def reweigh(network: MappedNetwork, speeds: Speeds) -> tuple[MappedNetwork, Reweighed]:
    """The network with these speeds. Raises NetworkError where it has no ids of points, or weights that aren't times; and where a weight
    would be too great, or no arc would be left."""
    if not len(network.point_osm):
        raise NetworkError("has no ids of the points of its arcs: convert the map by this version of `osm_to_gr`", network.path)
    if network.unit != "duration":
        raise NetworkError("has weights that are no milliseconds, which no speed changes", network.path)
    is_open = network.are_open()
    arcs, steps, unmatched = steps_of(network, speeds, is_open)
    times = milliseconds_of(network, arcs, steps)
    is_closed = np.isnan(times)
    taken, times = arcs[~is_closed], times[~is_closed]
    penalty = network.arc_penalty[taken].astype(np.int64)
    if (times + PENALTY * penalty).max(initial=0) > MAX_WEIGHT:
        raise NetworkError(f"would have an arc that weighs more than {MAX_WEIGHT}", network.path)
    weights, seconds = network.arc_weight[:].copy(), network.arc_seconds[:].copy()
    weights[taken], seconds[taken] = whole_weights(times, PENALTY * penalty), seconds_of(times, penalty)
    changed = (weights != network.arc_weight[:]) | (seconds != network.arc_seconds[:])
    view = copy.copy(network)
    vars(view).update(arc_weight=weights, arc_seconds=seconds, about={**network.about, **dict.fromkeys(OF_TABLES, 0)})
    begins, in_order = indexes.outgoing_arcs(network.arc_from[:], network.arc_to[:], weights, len(network.node_osm))
    vars(view).update(out_begin=offsets(is_open[in_order])[begins], out_arcs=in_order[is_open[in_order]])
    if len(closed := arcs[is_closed]):
        view = with_arcs(view, is_open & ~mask(len(is_open), closed))
        if not len(view.out_arcs):
            raise NetworkError("would have no arc that is open", network.path)
    cut_off = int(is_open.sum()) - len(closed) - len(view.out_arcs)
    return view, Reweighed(int(changed.sum()), len(closed), cut_off, unmatched)


def write_reweighed(network: MappedNetwork, speeds: Speeds, out: StrPath) -> Reweighed:
    """Writes the files of the network with these speeds, OUT.gr and OUT.net, both or none. Raises as `reweigh`, NetworkError for tables
    that would be read in the place of OUT.net, ValueError where it is the network itself, and OSError."""
    names = Files(out)
    if os.path.realpath(names.binary) == os.path.realpath(network.path):
        raise ValueError(f"out is the network itself, whose {names.binary} would be overwritten")
    for table, columns in ((names.nodes, NODE_COLUMNS), (names.arcs, ARC_COLUMNS)):
        if has_columns(table, columns):
            raise NetworkError(f"is there, and would be read in place of {names.binary}: remove it, or choose another OUT", table)
    view, found = reweigh(network, speeds)
    with atomic_write_all(names.graph, names.binary, mode="wb") as (graph, binary):
        write_graph_of_view(graph, view)
        net_file.write_view(binary, view)
    return found
