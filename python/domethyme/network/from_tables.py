"""A network of tables of nodes and arcs, or of files of the DIMACS challenge: NODES and ARCS of `to_network --help`,
which describes them. Columns may have other letters, and common names. Needs numpy."""
import array
import dataclasses
import os
import re
import warnings
from collections.abc import Callable, Iterable, Iterator, Mapping, Sequence
from typing import Any

import numpy as np
from numpy.typing import NDArray

from ..csv_tables import Form, Row, Table, alike, excerpt, need_columns, open_input, open_table, parse_int
from ..dimacs import dimacs_lines, read_graph
from ..errors import NetworkError, raised_as
from ..limits import MAX_LINES, MAX_NODES, MAX_WEIGHT
from ..program import StrPath
from . import net_file
from .columns import ENDS, NO_OSM, OF_ARCS, OF_NODES, OF_PROFILE, TEXTS, UNITS, ColumnSpec
from .geo import parse_linestring
from .groups import Ints, expand, first_of_equal, offsets, rows_of_groups
from .net_file import ArcArrays, MappedNetwork, NodeArrays, build_arrays, map_tempfile, to_units
from .sphere import Floats, great_circle_metres, unit_vectors
from .tables import ARC_COLUMNS, KEY, NODE_COLUMNS, Files, graph_of, is_coordinates, need_nodes, read_attribution, read_ends

# The other names that are taken for a column, by its name.
NAMES_OF_NODES: Mapping[str, tuple[str, ...]] = {
    "node": ("id",), **dict.fromkeys(OF_NODES, ()), "lon": ("lng", "long", "longitude", "x"), "lat": ("latitude", "y"), KEY: (),
}
NAMES_OF_ARCS: Mapping[str, tuple[str, ...]] = {
    **dict.fromkeys(OF_ARCS, ()), "from": ("source", "from_node", "from_id"), "to": ("target", "to_node", "to_id"), "oneway": (),
    "metres": ("meters",), "km": (), "kmh": ("km/h", "kph"), "wkt": (), **dict.fromkeys(TEXTS, ()),
}
# The columns of arcs that are taken as they are.
PLAIN = {name: column for name, column in OF_ARCS.items() if column.default is not None}
NUMBER = r"-?[0-9]+(?:\.[0-9]+)?"
LINE = re.compile(rf"LINESTRING \({NUMBER} {NUMBER}(?:, {NUMBER} {NUMBER})+\)")
LINES_AT_ONCE = 1 << 14
# What takes a line of report.
Say = Callable[[str], object]
FARTHEST_END = 1000.0
# The ids of OpenStreetMap that there may be.
IDS = NO_OSM + 1, (1 << 63) - 1
# In which directions a road is open, 1 along its row and -1 back; and what says so.
ALONG, BACK, BOTH = (1,), (-1,), (1, -1)
ONE_WAY: dict[str, tuple[int, ...]] = {
    "1": ALONG, "yes": ALONG, "true": ALONG, "-1": BACK, "reverse": BACK, "0": BOTH, "no": BOTH, "false": BOTH, "": BOTH,
    "1.0": ALONG, "-1.0": BACK, "0.0": BOTH,  # (as a program writes them that has made numbers of a column with blanks)
}
# What is doubted: arcs that are so much shorter, to a metre, or longer than a straight line of 10 m or more, and faster than so many km/h.
SHORTER, LONGER, FASTEST = 0.99, 100.0, 400.0
# Straight arcs whose metres are computed at once.
ARCS_AT_ONCE = 1 << 20
# Makes numpy refuse what it takes for a blank, or drops, and bytes.split doesn't.
NO_BLANKS = bytes.maketrans(b"\0\x1c\x1d\x1e\x1f", b"?????")


def known_columns(table: Table, known: Mapping[str, tuple[str, ...]], needed: Iterable[str], say: Say) -> dict[str, str]:
    """The names by which columns of a table are known, in lower case, by the columns' own; `say` gets a line for each that is another word.
    Raises NetworkError for those that are missing, all in one, and for two columns of one meaning."""
    small_letters = [column.lower() for column in table.columns]
    found: dict[str, str] = {}
    for name, others in known.items():
        names = [name] if name in small_letters else others
        meant = [column for each in names for column in table.columns if column.lower() == each]
        if len(meant) > 1:
            raise NetworkError(f"has the columns {' and '.join(meant)}, of which each may be {name}: rename one", table.path, 1)
        if meant:
            found[meant[0]] = name
            if meant[0].lower() != name:
                say(f"{table.path}: column {meant[0]} is taken as {name}")
    need_columns(table.path, [found.get(column, column) for column in table.columns], needed, table.form)
    return found


def take_columns(table: Table, known: Mapping[str, tuple[str, ...]], needed: Iterable[str], say: Say) -> None:
    """Gives the columns of a table the names by which they are known (`known_columns`), and says which aren't used."""
    found = known_columns(table, known, needed, say)
    unused = [column for column in table.columns if column not in found]
    table.columns = [found.get(column, column) for column in table.columns]
    if unused:
        free = [name for name in known if name not in found.values()]
        near = ((column, alike(column, free)) for column in unused)
        named = [column if other is None else f"{column} (did you mean {other}?)" for column, other in near]
        say(f"{table.path}: columns not used: {', '.join(named)}")


@dataclasses.dataclass
class Nodes:
    """Nodes, their numbers by their names, None where these are rows' numbers, and their table. Keys are names in answers."""

    arrays: NodeArrays
    rows: dict[str, int] | None = None
    path: StrPath = ""
    columns: Sequence[str] = ()

    def __len__(self) -> int:
        return len(self.arrays.columns["node_osm"])

    def number(self, fields: Row, column: str) -> int:
        """The number of a node by its name in a row of arcs."""
        name = fields[column]
        if self.rows is None:
            if self.columns and not name.lstrip("+-").isdecimal():
                why = f"{self.path} has no column node, so its nodes are numbered by rows; its columns are {', '.join(self.columns)}"
                raise fields.error(f"{column} {excerpt(name)} is not a number, and {why}")
            return fields.read_int(column, 1, len(self)) - 1
        if name not in self.rows:
            whole = name.removesuffix(".0")
            doubt = f": is it {whole}? A table program may have made numbers of the names" if whole != name and whole in self.rows else ""
            raise fields.error(f"{column} {excerpt(name)} isn't in {self.path}{doubt}")
        return self.rows[name]


def read_nodes(path: StrPath, say: Say = lambda line: None, form: Form = Form(), is_beside_graph: bool = False) -> Nodes:
    """The nodes of a table of this form, or of a .co file; `say` gets a line for what may be meant otherwise. One beside its graph has all of
    NODE_COLUMNS, and its nodes are numbered as there, in order. An empty field is no name and no key. Raises NetworkError."""
    if is_coordinates(path):
        lon, lat = read_co(path).T.copy()
        own = {"node_osm": np.full(len(lon), NO_OSM), "node_lon": lon, "node_lat": lat, "node_ends": np.zeros(len(lon), np.uint8)}
        return Nodes(NodeArrays(own))
    values: dict[str, list[float]] = {name: [] for name in OF_NODES}
    rows: dict[str, int] = {}
    keys: dict[str, int] = {}
    with open_table(path, (), form) as lines:
        take_columns(lines, NAMES_OF_NODES, NODE_COLUMNS if is_beside_graph else ("lon", "lat"), say)
        is_named, columns = "node" in lines.columns and not is_beside_graph, lines.columns
        named = [(name, into) for name, into in (("node", rows), (KEY, keys)) if name in columns and (is_named or name == KEY)]
        for number, (_, fields) in enumerate(lines, 1):
            if is_beside_graph and fields["node"] != str(number):
                raise fields.error(f"has node {excerpt(fields['node'])} where node {number} comes next")
            for name, column in OF_NODES.items():
                values[name].append(read_value(fields, name, column))
            for name, into in named:
                if fields[name] and into.setdefault(fields[name], number - 1) != number - 1:
                    raise fields.error(f"{name} {excerpt(fields[name])} comes twice")
    if not 0 < len(values["lon"]) <= MAX_NODES:
        raise NetworkError(f"has {len(values['lon'])} nodes, and a network has from 1 to {MAX_NODES}", path)
    # (in a table as tools write it numbers are no names: without other keys its nodes have none)
    is_numbered = {*NODE_COLUMNS} <= {*columns} and all(name == str(node + 1) for name, node in rows.items())
    key_of = {node: key for key, node in (keys or ({} if is_numbered else rows)).items()}
    shown_keys = [key_of.get(node, "") for node in range(len(values["lon"]))] if key_of else []
    own = {f"node_{name}": np.array(column) for name, column in values.items()}
    own |= {name: np.round(own[name] * UNITS).astype(np.int32) for name in ("node_lon", "node_lat")}
    return Nodes(NodeArrays(own, shown_keys), rows if is_named else None, path, columns)


def read_value(fields: Row, name: str, column: ColumnSpec) -> float:
    """The value of a column that tables show as it is, and degrees of a place."""
    if column.text == "word":
        return ENDS.index(read_ends(fields))
    low, high = IDS if column.low is None or column.high is None else (column.low, column.high)
    if column.default is None:
        return fields.read_float(name, low / UNITS, high / UNITS)
    return fields.read_int(name, int(low), int(high)) if fields.get(name) else column.default


class RoadRows:
    """The rows of a table of arcs, each a road, and those that are refused: the first error of each by its row."""

    def __init__(self, nodes: Nodes, weight: str) -> None:
        self.nodes, self.weight = nodes, weight
        self.refused: dict[int, NetworkError] = {}
        self.known: dict[tuple[str, ...], int] = {}
        # of a road: its row, nodes, the direction of its first arc, its arcs, its row of texts, and the columns that are taken as they are
        self._numbers = array.array("q")
        self._figures = array.array("d")  # (weight, seconds, metres, km/h, where NaN is none)
        self._waiting: list[tuple[str, Row]] = []
        self._counts: list[Ints] = []
        self._points: list[NDArray[np.int32]] = []

    def add(self, fields: Row) -> None:
        """Raises NetworkError for a row that is refused."""
        ends = [self.nodes.number(fields, name) for name in ("from", "to")]
        plain = [int(read_value(fields, name, column)) for name, column in PLAIN.items()]
        line, values = wkt_points(fields), arc_values(fields, self.weight)
        direction = fields.get("oneway", "1").strip().lower()
        if direction not in ONE_WAY:
            raise fields.error(f"oneway {excerpt(direction)} is none of 1, yes, -1, 0, no")
        texts = self.known.setdefault(tuple(fields.get(name, "") for name in TEXTS), len(self.known))
        self._numbers.extend((fields.row, *ends, ONE_WAY[direction][0], len(ONE_WAY[direction]), texts, *plain))
        self._figures.extend(values)
        self._waiting.append((line, fields))
        if len(self._waiting) == LINES_AT_ONCE:
            self._read_lines()

    def _read_lines(self) -> None:
        """Reads the lines that wait; a straight one has no points."""
        counts = np.array([line.count(",") + 1 if line else 0 for line, _ in self._waiting], np.int64)
        text = " ".join(line for line, _ in self._waiting if line).replace(",", " ")
        places = np.fromstring(text, dtype=np.float64, sep=" ").reshape(-1, 2)
        is_place = (np.abs(places) <= (180, 90)).all(axis=1)
        for road in np.unique(expand(counts)[0][~is_place]).tolist():
            fields = self._waiting[road][1]
            self.refused.setdefault(fields.row, fields.error(f"WKT {excerpt(fields['wkt'])} has what are no degrees"))
        self._counts.append(counts)
        self._points.append(to_units(np.where(is_place[:, None], places, 0)))
        self._waiting.clear()

    def arcs(self, path: StrPath) -> tuple[Ints, Floats, Ints, NDArray[np.int32]]:
        """Of each arc its row, nodes, row of texts and plain columns, of shape (.., arcs), its figures, of shape (4, arcs), and its line."""
        self._read_lines()
        row, start, stop, direction, count, *others = np.array(self._numbers, np.int64).reshape(-1, 6 + len(PLAIN)).T
        given, places = np.array(self._figures).reshape(-1, 4).T, self.nodes.arrays.places
        counts, ends = np.concatenate(self._counts), places[np.stack((start, stop), axis=1)]
        # a straight road has the places of its nodes
        is_straight, lines = counts == 0, offsets(np.where(counts, counts, 2))
        points = np.empty((int(lines[-1]), 2), np.int32)
        points[rows_of_groups(lines, np.flatnonzero(is_straight))[1]] = ends[is_straight].reshape(-1, 2)
        points[rows_of_groups(lines, np.flatnonzero(~is_straight))[1]] = np.concatenate(self._points)
        drawn = np.stack((lines[:-1], lines[1:] - 1), axis=1)
        away = great_circle_metres(*(unit_vectors(*(each.reshape(-1, 2).T / UNITS)) for each in (points[drawn], ends))).reshape(-1, 2).max(axis=1)
        for road in np.flatnonzero(away > FARTHEST_END).tolist():
            error = NetworkError(f"its line ends {away[road]:,.0f} m from its node: are from and to swapped?", path, int(row[road]))
            self.refused.setdefault(int(row[road]), error)
        if self.refused:
            first, rest = self.refused[min(self.refused)], len(self.refused) - 1
            more = {0: "", 1: "; another row is refused too"}.get(rest, f"; {rest} other rows are refused too")
            raise NetworkError(f"{first.message}{more}") from first
        road, step = expand(count)
        is_back = (direction[road] < 0) | (step > 0)
        begins, drawn = rows_of_groups(lines, road, is_back)
        nodes = np.where(is_back, stop[road], start[road]), np.where(is_back, start[road], stop[road])
        return np.stack((row[road], *nodes, *(each[road] for each in others))), given[:, road], begins, points[drawn]


def wkt_points(fields: Row) -> str:
    """The points of the line of a road as a text, "" for one without. Raises NetworkError."""
    wkt = fields.get("wkt", "")
    if not wkt or LINE.fullmatch(wkt):
        return wkt[len("LINESTRING (") : -1]
    return ", ".join(f"{lon!r} {lat!r}" for lon, lat in parse_linestring(wkt, fields.path, fields.row))


def read_arcs(
    path: StrPath, nodes: Nodes, weight: str = "time", say: Say = lambda line: None, form: Form = Form(),
    needed: Sequence[str] = ("from", "to"),
) -> ArcArrays:
    """The arcs of a table of this form, or of a .gr file. Those without a weight have milliseconds (`time`) or centimetres (`length`).
    `say` gets a line for what may be meant otherwise. Raises NetworkError for the first row that is refused, with the number of others."""
    if os.fspath(path).endswith((".gr", ".gr.gz")):
        read = read_gr(path, len(nodes))
        need_arcs(len(read[0]), path)
        return straight_arcs(*read, nodes.arrays)
    roads = RoadRows(nodes, weight)
    with open_table(path, (), form) as rows:
        take_columns(rows, NAMES_OF_ARCS, [name.replace("WKT", "wkt") for name in needed], say)
        for row, fields in rows:
            try:
                roads.add(fields)
            except NetworkError as error:
                roads.refused[row] = error
    (of_rows, starts, stops, of_texts, *plain), given, begins, points = roads.arcs(path)
    need_arcs(len(starts), path)
    places = nodes.arrays.places
    straight = great_circle_metres(*(unit_vectors(*places[each].T / UNITS) for each in (starts, stops)))
    for is_doubted, says in doubts(given, straight, weight):
        doubt(is_doubted, says, path, say)
    lengths = np.where(np.isnan(given[2]), np.round(line_metres(begins, points), 2), given[2])
    with np.errstate(over="ignore"):
        whole, seconds = weights_and_seconds(given, lengths, weight)
    limits = ("weight", whole, "weigh more than {:.0f}"), ("seconds", seconds, "take more than {:.0f} seconds")
    for name, values, says in (*limits, ("metres", lengths, "have more than {:.0f} metres")):
        if values.max() > (most := OF_ARCS[name].high or 0):
            raise NetworkError(f"would {says.format(most)}", path, int(of_rows[values.argmax()]))
    doubt_rows(of_rows, (starts, stops, whole, seconds, lengths), path, say)
    is_fast = (seconds > 0) & (lengths * 3.6 > FASTEST * seconds)
    doubt(is_fast, f"{{}} arcs are faster than {FASTEST:g} km/h: are the units those of --help?", path, say)
    takes_none = (seconds == 0) & np.isnan(given[0]) & (weight == "time")
    doubt(takes_none, "{} arcs take 0 seconds, and weigh 1", path, say)
    columns = {
        "arc_from": starts, "arc_to": stops, "arc_weight": whole.astype(np.int64), "arc_seconds": seconds, "arc_metres": lengths,
        "arc_row": of_texts, **{f"arc_{name}": values for name, values in zip(PLAIN, plain)},
    }
    return ArcArrays(columns, list(roads.known), begins, points)


def need_arcs(count: int, path: StrPath) -> None:
    """Raises NetworkError where a network can't have so many arcs."""
    if not 0 < count <= MAX_LINES:
        raise NetworkError(f"has {count} arcs, and a network has from 1 to {MAX_LINES}", path)


def doubt_rows(of_rows: Ints, columns: Sequence[NDArray[Any]], path: StrPath, say: Say) -> None:
    """Says of roads that are all of one way, and of rows that are there twice, by the columns of arcs, of which the first two are their
    nodes: both come of a table that means something else."""
    starts, stops = columns[:2]
    low, high = np.minimum(starts, stops), np.maximum(starts, stops)
    first = first_of_equal(low, high)
    if len(starts) > 1 and (starts == starts[first]).all() and (low != high).any():
        say(f"{path}: no arc has one back: if rows are two-way roads, add a column oneway")
    again = first_of_equal(*columns)
    if count := len(np.unique(of_rows[of_rows[again] != of_rows])):
        say(f"{path}: {count} rows have the ends and figures of earlier ones")


def weights_and_seconds(given: Floats, lengths: Floats, weight: str) -> tuple[Floats, Floats]:
    """The weights and the seconds of arcs, by what is given of each (arc_values), of shape (4, arcs), and their metres."""
    weights, seconds, _, speeds = given
    seconds = np.where(np.isnan(seconds), np.nan_to_num(np.round(lengths * 3.6 / speeds, 3)), seconds)
    derived = np.maximum(1, np.round(1000 * seconds if weight == "time" else 100 * lengths))
    return np.where(np.isnan(weights), derived, weights), seconds


def doubts(given: Floats, straight: Floats, weight: str) -> Iterator[tuple[NDArray[np.bool_], str]]:
    """What is doubted in what is given of arcs, beside their straight lines: which arcs, and what to say of their number."""
    weights, seconds, lengths, speeds = given
    unit = "milliseconds" if weight == "time" else "centimetres"
    for is_empty, says in (
        (np.isnan(weights), f"weight of {{}} arcs is empty, so they weigh their {unit}: are all weights {unit}?"),
        (np.isnan(seconds) & np.isnan(speeds), "{} arcs have neither seconds nor kmh, and take 0 seconds, where others have them"),
    ):
        if not is_empty.all():
            yield is_empty, says
    yield lengths < SHORTER * straight - 1, "metres of {} arcs are less than the straight line: are they km?"
    is_long = (lengths > LONGER * straight) & (straight >= 10)
    yield is_long, f"metres, or km, of {{}} arcs are over {LONGER:g} times the straight line: are km metres?"


def doubt(arcs: NDArray[np.bool_], says: str, path: StrPath, say: Say) -> None:
    """Says of how many arcs something is doubted, where it is of any."""
    if count := int(np.count_nonzero(arcs)):
        say(f"{path}: {says.format(count)}")


def arc_values(fields: Row, weight: str) -> tuple[float, float, float, float]:
    """The weight, seconds, metres and km/h of an arc; NaN where there are none."""
    own = float(fields.read_int("weight")) if fields.get("weight") else np.nan
    seconds, length, long_ways, speed = (
        fields.read_float(name, 0, 1e12) if fields.get(name) else np.nan for name in ("seconds", "metres", "km", "kmh")
    )
    length = 1000 * long_ways if np.isnan(length) else length
    if speed == 0:
        raise fields.error("kmh is 0")
    if np.isnan(own) and weight == "time" and np.isnan(seconds) and np.isnan(speed):
        raise fields.error("has none of weight, seconds and kmh, and an arc needs one (with --weight length the metres are taken)")
    return own, seconds, length, speed


def line_metres(begins: Ints, points: NDArray[np.int32]) -> NDArray[np.float64]:
    """The metres of lines, each summed by itself, so that no other one's are in it."""
    sphere = unit_vectors(points[:, 0] / UNITS, points[:, 1] / UNITS)
    steps = np.append(great_circle_metres(sphere[:-1], sphere[1:]), 0.0)
    steps[begins[1:] - 1] = 0.0  # (what leads from a line's end to the next line's beginning)
    return np.asarray(np.add.reduceat(steps, begins[:-1]))


def straight_arcs(starts: Ints, ends: Ints, weights: Ints, nodes: NodeArrays) -> ArcArrays:
    """Arcs that lead straight from node to node, without a way, a name and seconds."""
    places = nodes.places
    points = np.stack((places[starts], places[ends]), axis=1).reshape(-1, 2)
    lengths = np.empty(len(starts))
    for low in range(0, len(starts), ARCS_AT_ONCE):
        part = points[2 * low : 2 * (low + ARCS_AT_ONCE)] / UNITS
        sphere = unit_vectors(part[:, 0], part[:, 1])
        lengths[low : low + ARCS_AT_ONCE] = np.round(great_circle_metres(sphere[::2], sphere[1::2]), 2)
    given: dict[str, NDArray[Any]] = {"arc_from": starts, "arc_to": ends, "arc_weight": weights, "arc_metres": lengths}
    nothing: dict[str, NDArray[Any]] = {f"arc_{name}": np.zeros(len(starts), column.kind) for name, column in OF_ARCS.items()}
    columns = {**nothing, **given, "arc_row": np.zeros(len(starts), np.int32)}
    return ArcArrays(columns, [("",) * len(TEXTS)], np.arange(0, 2 * len(starts) + 1, 2), points)


# The network of files


def load_network(prefix: str) -> MappedNetwork:
    """The network of these files: by NETWORK.net where that is current, else by its tables. Raises NetworkError."""
    if net_file.is_current(prefix):
        return net_file.read(Files(prefix).binary)
    need_nodes(prefix)
    with raised_as(NetworkError, prefix, ValueError):
        return map_tempfile(arrays_from_tables(prefix), prefix)


def arrays_from_tables(prefix: str) -> net_file.Arrays:
    """The network of NETWORK.nodes.csv and NETWORK.arcs.csv, of the comment of NETWORK.gr, and of `profile_of`. Raises as `build_arrays`."""
    files = Files(prefix)
    nodes = read_nodes(files.nodes, is_beside_graph=True)
    arcs = read_arcs(files.arcs, nodes, needed=ARC_COLUMNS)
    return build_arrays(nodes.arrays, arcs, read_attribution(prefix), net_file.marks_of(files.nodes, files.arcs) | profile_of(prefix))


def profile_of(prefix: str) -> dict[str, int]:
    """What NETWORK.net has of the profile, and tables lack; nothing where it can't be read."""
    try:
        about = net_file.read(Files(prefix).binary).about
    except NetworkError:
        return {}
    return {name: about[name] for name in OF_PROFILE}


# Files of the DIMACS challenge


def load_network_or_dimacs(word: StrPath) -> MappedNetwork:
    """The network that a tool's word NETWORK names: its files, or X.gr and X.co where it is X.co. Raises NetworkError."""
    if not is_coordinates(word):
        return load_network(os.fspath(word))
    nodes = read_nodes(word)
    arcs = read_arcs(graph_of(word), nodes)
    with raised_as(NetworkError, word, ValueError):
        return map_tempfile(build_arrays(nodes.arrays, arcs, read_attribution(word)), os.fspath(word))


def read_co(path: StrPath) -> NDArray[np.int32]:
    """The places of a .co file in units."""
    rows = read_rows_fast(path, b"p aux sp co ", b"v")
    if rows is not None:
        rows = rows[np.argsort(rows[:, 0])]
        is_each = (rows[:, 0] == np.arange(1, len(rows) + 1)).all()
        most = np.array((180_000_000, 90_000_000))
        if is_each and ((rows[:, 1:] >= -most) & (rows[:, 1:] <= most)).all():
            return (rows[:, 1:] * (UNITS // 1_000_000)).astype(np.int32)
    return to_units(np.array(read_coordinates(path)))


def read_coordinates(path: StrPath) -> list[tuple[float, float]]:
    """The places (lon, lat) of a DIMACS .co file: `p aux sp co N`, and `v NODE X Y` in millionths of a degree, in any order."""
    places: list[tuple[float, float] | None] | None = None
    for row, fields in dimacs_lines(path):
        if fields[0] == b"p" and places is None:
            if fields[1:-1] != [b"aux", b"sp", b"co"]:
                raise NetworkError("is no problem line `p aux sp co NUMBER`", path, row)
            places = [None] * parse_int(fields[-1], "the number of nodes", path, row, 1, MAX_NODES)
        elif fields[0] == b"v" and places is not None and len(fields) == 4:
            node = parse_int(fields[1], "node", path, row, 1, len(places))
            if places[node - 1] is not None:
                raise NetworkError(f"node {node} comes twice", path, row)
            lon = parse_int(fields[2], "x", path, row, -180_000_000, 180_000_000) / 1e6
            places[node - 1] = lon, parse_int(fields[3], "y", path, row, -90_000_000, 90_000_000) / 1e6
        else:
            missing = " before the line `p aux sp co N`" if places is None else ""
            raise NetworkError(f"is no line of coordinates{missing}", path, row)
    if places is None:
        raise NetworkError("has no line `p aux sp co N`", path)
    if None in places:
        raise NetworkError(f"has no coordinates of node {places.index(None) + 1}", path)
    return [place for place in places if place is not None]


def read_gr(path: StrPath, nodes: int) -> tuple[Ints, Ints, Ints]:
    """The arcs of a .gr file with so many nodes: starts, ends and weights."""
    rows = read_rows_fast(path, b"p sp %d " % nodes, b"a")
    if rows is not None and ((rows >= (1, 1, 0)) & (rows <= (nodes, nodes, MAX_WEIGHT))).all():
        starts, ends, weights = rows.T.copy()
        return starts - 1, ends - 1, weights
    read = read_graph(path)
    if read.nodes != nodes:
        raise NetworkError(f"has {read.nodes} nodes, and there are places of {nodes}", path)
    return np.array(read.starts, np.int64), np.array(read.ends, np.int64), np.array(read.weights, np.int64)


def read_rows_fast(path: StrPath, problem: bytes, letter: bytes) -> Ints | None:
    """The numbers of the lines that begin with a letter, of shape (lines, 3), by a problem line that ends with the count.
    None for a file with anything else behind its first comments, for the reader that knows what is wrong."""
    with open_input(path) as stream, warnings.catch_warnings():
        warnings.simplefilter("error")
        line = stream.readline()
        while line.startswith(b"c") or line == b"\n":
            line = stream.readline()
        count = line.removeprefix(problem).strip()
        if not line.startswith(problem) or not count.isdigit():
            return None
        kind = np.dtype([("letter", "S2"), ("numbers", np.int64, 3)])
        lines = (line.translate(NO_BLANKS) for line in stream)
        try:
            rows = np.loadtxt(lines, kind, comments=None, delimiter=" ", encoding="ascii", ndmin=1)
        except (Warning, ValueError):
            return None
    return rows["numbers"] if len(rows) == int(count) and (rows["letter"] == letter).all() else None
