"""The nodes and arcs of a network in arrays, made of the runs of roads (map_arrays.py)."""
from collections.abc import Callable, Iterable, Sequence
from typing import Any, NamedTuple

import numpy as np
from numpy.typing import NDArray
from ..network import net_file
from ..network.columns import NO_OSM, TEXTS, UNITS
from ..network.components import in_largest
from ..network.figures import PENALTY, rounded_exactly, seconds_of, whole_weights
from ..network.groups import Ints, first_of_equal, mask, offsets
from ..network.indexes import unique_text_rows
from ..network.parallel import differs_from_previous as differs, map_slices
from ..network.sphere import Floats

from . import turn_restrictions
from .map_arrays import NodeArrays, Runs
from .turn_restrictions import Bools, Int32s, Report, Restriction, Turns, splitmix64

Rules = dict[int, list[Restriction]]
# The texts of some rows, in the order of TEXTS.
RowsOf = Callable[[Ints], Iterable[tuple[str, ...]]]
# Degrees by which a turn may be off the line of the road, and off the way back
STRAIGHT, BACK = 45, 15
# What a weight counts, and how much of it a hundredth of a second is, where turns have penalties.
WEIGHTS = {"length": 0, "time": PENALTY}
# What the report says of nodes that are left out by keep_largest.
OUTSIDE = "nodes outside the largest strongly connected component"


class RoadTable(NamedTuple):
    """The roads of the vehicle, in the map's order: the ids of their ways, km/h in each direction, NaN where they may not
    be taken, and numbers of rows of texts."""

    osm: Ints
    forward: Floats
    backward: Floats
    row: NDArray[np.uint32]


class RoadNetwork(NamedTuple):
    """Nodes and arcs, which count from 0. Pieces are the parts of runs, in order.

    node_osm, node_place, node_ends   as net_file.Arrays has them, places of shape (nodes, 2)
    start, end                        of arcs
    piece, is_back                    the piece of an arc, and whether it leads along it backward
    is_split                          whether turns have taken an arc's piece apart
    penalty                           of the turn that leads into an arc, in hundredths of a second
    piece_run, runs, roads            the run of each piece, the runs, and the roads
    """

    node_osm: Ints
    node_place: Int32s
    node_ends: NDArray[np.uint8]
    start: Int32s
    end: Int32s
    piece: Int32s
    is_back: Bools
    is_split: Bools
    penalty: Int32s
    piece_run: Int32s
    runs: Runs
    roads: RoadTable

    def ways_of(self, pieces: "slice | int") -> Any:
        """The ids of the ways of pieces."""
        return self.roads.osm[self.runs.road[self.piece_run[pieces]]]

    def with_arcs(self, chosen: "NDArray[Any] | slice") -> "RoadNetwork":
        """The network with these of its arcs, by numbers, a mask or a slice."""
        names = ("start", "end", "piece", "is_back", "is_split", "penalty")
        return self._replace(**{name: getattr(self, name)[chosen] for name in names})

    def is_first(self) -> Bools:
        """Whether an arc is the first of its piece of road; each one that turns have taken apart is."""
        return differs(self.piece) | self.is_split


def first_index(values: NDArray[Any], size: int) -> NDArray[Any]:
    """For each value from 0 up to `size` the first place where it comes, -1 where it doesn't come."""
    found = np.full(size, -1, np.int32 if len(values) < 1 << 31 else np.int64)
    found[values[::-1]] = np.arange(len(values) - 1, -1, -1, dtype=found.dtype)
    return found


def by_slices(count: int, kinds: Sequence[Any], function: Callable[[slice], Sequence[Any]]) -> list[NDArray[Any]]:
    """Arrays of so many rows and these kinds, whose parts the function gives, by several threads."""
    found = [np.empty(count, kind) for kind in kinds]

    def fill(part: slice) -> None:
        for column, values in zip(found, function(part)):
            column[part] = values

    map_slices(fill, count)
    return found


# Nodes and arcs


def build_network(runs: Runs, roads: RoadTable, places: NodeArrays) -> tuple[RoadNetwork, Callable[[int], int]]:
    """The network of the runs, and a function to the node for a node of the map, -1 for none and for a barrier."""
    # the stops of all runs, in order: the first node of each, its last node, and its cuts; `stop` has the places of nodes
    ends, begin = runs.ends.reshape(-1), offsets(runs.parts + np.uint32(1))
    stop = (begin[:-1, None] + [0, 1]).reshape(-1).astype(np.int32)
    first, is_apart = first_index(ends, len(places.osm)), places.is_barrier[ends]
    is_new = mask(len(ends), first[first >= 0]) | is_apart
    node = np.cumsum(~mask(int(begin[-1]), stop[~is_new]), dtype=np.int32) - np.int32(1)
    count = int(node[-1]) + 1
    node[stop] = np.where(is_apart, node[stop], node[stop[first[ends]]])
    # the pieces: each ends where the next begins, but for the last of a run
    run = np.repeat(np.arange(len(runs.parts), dtype=np.int32), runs.parts)
    last = offsets(runs.parts)[1:] - 1
    start = node[~mask(len(node), stop[1::2])]
    end = np.roll(start, -1)
    end[last] = node[stop[1::2]]
    # the nodes
    osm, place, new = np.full(count, NO_OSM, np.int64), np.empty((count, 2), np.int32), node[stop[is_new]]
    osm[new], place[new] = places.osm[ends[is_new]], places.place[ends[is_new]]
    is_cut = ~mask(len(run), last)
    place[end[is_cut]] = runs.points[runs.end[is_cut] - 1]
    arcs = arcs_along(start, end, run, runs, roads)
    is_split, penalty = np.zeros(len(arcs[0]), np.bool_), np.zeros(len(arcs[0]), np.int32)
    found = RoadNetwork(osm, place, np.zeros(len(osm), np.uint8), *arcs, is_split, penalty, run, runs, roads)
    has_node = (first >= 0) & ~places.is_barrier
    return found, lambda number: int(node[stop[first[number]]]) if has_node[number] else -1


def arcs_along(
    start: Int32s, end: Int32s, run: Int32s, runs: Runs, roads: RoadTable
) -> tuple[Int32s, Int32s, Int32s, Bools]:
    """The arcs along pieces with these ends and runs, in the columns of RoadNetwork from `start` to `is_back`."""
    forward, backward = (~np.isnan(speed) for speed in (roads.forward, roads.backward))
    count = (forward.astype(np.int8) + backward)[runs.road][run]
    piece = np.repeat(np.arange(len(run), dtype=np.int32), count)
    is_back = ~differs(piece) | ~forward[runs.road[run]][piece]
    here, there = start[piece], end[piece]
    return np.where(is_back, there, here), np.where(is_back, here, there), piece, is_back


# Turn restrictions


def split_junctions(network: RoadNetwork, rules: Rules, penalties: dict[str, int], report: Report) -> RoadNetwork:
    """The network with the junctions split where a turn is forbidden, by the rules of nodes, or has a penalty, in
    hundredths of a second by the words left, right and back."""
    count, has_penalties = len(network.node_osm), any(penalties.values())
    nodes = np.arange(count) if has_penalties else np.fromiter(rules, np.int64, len(rules))
    turns = turn_restrictions.turns_at(nodes, network.start, network.end, count)
    cost = penalties_of(network, turns, penalties) if has_penalties else np.zeros(len(turns.turn), np.int32)
    forbid(network, turns, rules, cost)
    copies = turn_restrictions.make_copies(nodes, turns, cost, count)
    arc, start, end, penalty = turn_restrictions.copied_arcs(copies, turns, cost, network.start, network.end)
    split, is_there = nodes[copies.is_split], copies.is_split[turns.node]
    report["nodes split by turns" if has_penalties else "junctions split by turn restrictions"] = len(split)
    ends = network.node_ends.copy()
    ends[split] = turn_restrictions.START
    there = turns.into[is_there], turns.out[is_there[turns.turn]]
    is_apart = mask(len(network.piece_run), *(network.piece[arcs] for arcs in there))
    return network.with_arcs(arc)._replace(
        node_osm=np.concatenate((network.node_osm, network.node_osm[copies.beside])),
        node_place=np.concatenate((network.node_place, network.node_place[copies.beside])),
        node_ends=np.concatenate((ends, copies.ends)),
        start=start, end=end, penalty=penalty, is_split=is_apart[network.piece[arc]],
    )


def forbid(network: RoadNetwork, turns: Turns, rules: Rules, cost: Int32s) -> None:
    """Sets the cost of the turns that the rules of their nodes don't allow to FORBIDDEN."""
    into, out = turns.into[turns.turn], turns.out
    there = np.flatnonzero(mask(len(network.node_osm), list(rules))[network.start[out]])
    ways = (network.ways_of(network.piece[arcs[there]]).tolist() for arcs in (into, out))
    turn = zip(network.start[out[there]].tolist(), *ways)
    allowed = [turn_restrictions.allows(rules[node], start, end) for node, start, end in turn]
    cost[there[~np.array(allowed, np.bool_)]] = turn_restrictions.FORBIDDEN


def penalties_of(network: RoadNetwork, turns: Turns, penalties: dict[str, int]) -> Int32s:
    """The penalty of each turn, by its angle: straight on is within STRAIGHT degrees of the line of the road; back is the
    piece of road by which one came, or within BACK degrees of it."""
    into, out = turns.into[turns.turn], turns.out
    (east, north), (east_after, north_after) = headings(network, into, is_end=True), headings(network, out, is_end=False)
    # (a step without a length leads straight on: its 0 may have a sign, by which it would lead back)
    angle = np.degrees(np.arctan2(east * north_after - north * east_after, east * east_after + north * north_after + 0.0))
    is_back = (network.piece[into] == network.piece[out]) & (network.is_back[into] != network.is_back[out])
    found = np.zeros(len(into), np.int32)
    found[angle > STRAIGHT] = penalties.get("left", 0)
    found[angle < -STRAIGHT] = penalties.get("right", 0)
    found[is_back | (np.abs(angle) > 180 - BACK)] = penalties.get("back", 0)
    return found


def headings(network: RoadNetwork, arcs: Ints, is_end: bool) -> tuple[Floats, Floats]:
    """Where each arc leads to in its last step that has a length, or in its first: east and north, of any length."""
    piece, is_back, points = network.piece[arcs], network.is_back[arcs], network.runs.points
    begin, end = network.runs.begin[piece], network.runs.end[piece] - 2
    first, last = np.where(is_back ^ is_end, (end, begin), (begin, end))
    flat = np.flatnonzero(first != last)
    while len(flat := flat[(points[first[flat]] == points[first[flat] + 1]).all(axis=1) & (first[flat] != last[flat])]):
        first[flat] += np.sign(last[flat] - first[flat])
    here, there = (points[place].astype(np.float64) for place in (first, first + 1))
    half = 180 * UNITS
    east = ((there[:, 0] - here[:, 0] + half) % (2 * half) - half) * np.cos(np.radians(here[:, 1] / UNITS))
    sign = np.where(is_back, -1.0, 1.0)
    return sign * east, sign * (there[:, 1] - here[:, 1])


def keep_largest(network: RoadNetwork, report: Report) -> RoadNetwork:
    """The network with the nodes of the largest set that can all reach one another, and the arcs between them."""
    count, start, end, ends = len(network.node_osm), network.start, network.end, network.node_ends
    kept = in_largest(ends, start, end)
    number = (np.cumsum(kept) - 1).astype(np.int32)
    found = network.with_arcs(kept[start] & kept[end])
    report[OUTSIDE] = count - int(kept.sum())
    report["pieces of road outside it"] = int(network.is_first().sum()) - int(found.is_first().sum())
    return found._replace(
        node_osm=network.node_osm[kept], node_place=network.node_place[kept], node_ends=ends[kept],
        start=number[found.start], end=number[found.end],
    )


def metres_of_roads(network: RoadNetwork) -> float:
    """The metres of the road that the pieces are of; what turn restrictions have taken apart counts once."""
    whole, apart = network.piece[network.is_first() & ~network.is_split], np.unique(network.piece[network.is_split])
    metres = (network.runs.metres[network.piece_run[pieces]] for pieces in (whole, apart))
    return sum(float(np.cumsum(each)[-1]) for each in metres if len(each))


# As it is written


def to_arrays(network: RoadNetwork, kind: str, rows_of: RowsOf, attribution: str, report: Report) -> net_file.Arrays:
    """The network in arrays; `rows_of` gives the texts of the rows that roads name."""
    edge, along, edge_metres, edge_begin, points, point_osm = edges_from_pieces(network)
    weight, seconds, metres, osm, row = arc_columns(network, kind, report)
    texts, row_texts, arc_row = texts_of(row, rows_of, attribution)
    del row
    encoded = [text.encode("utf-8", "replace") for text in texts]
    lon, lat = (np.ascontiguousarray(degrees) for degrees in network.node_place.T)
    return net_file.Arrays({
        "node_osm": network.node_osm, "node_lon": lon, "node_lat": lat, "node_ends": network.node_ends,
        "arc_from": network.start, "arc_to": network.end, "arc_weight": weight, "arc_seconds": seconds,
        "arc_metres": metres, "arc_osm": osm, "arc_row": arc_row, "arc_edge": edge, "arc_along": along, "arc_penalty": network.penalty,
        "row_texts": row_texts, "edge_begin": edge_begin, "edge_metres": edge_metres, "points": points, "point_osm": point_osm,
        **net_file.text_columns(encoded),
    })


def arc_columns(network: RoadNetwork, kind: str, report: Report) -> list[NDArray[Any]]:
    """The weights, seconds, metres, ways and rows of texts of the arcs."""
    raised: list[int] = []

    def fill(part: slice) -> tuple[Any, ...]:
        chunk = network.with_arcs(part)
        run = network.piece_run[chunk.piece]
        road, metres = network.runs.road[run], network.runs.metres[run]
        milliseconds = metres * 3600 / np.where(chunk.is_back, network.roads.backward[road], network.roads.forward[road])
        amounts, penalty = milliseconds if kind == "time" else metres * 100, chunk.penalty.astype(np.int64)
        raised.append(int((np.rint(amounts) == 0).sum()))
        figures = whole_weights(amounts, penalty * WEIGHTS[kind]), seconds_of(milliseconds, penalty), rounded_exactly(metres, 2)
        return *figures, network.roads.osm[road], network.roads.row[road]

    columns = by_slices(len(network.start), [np.int64, np.float64, np.float64, np.int64, np.uint32], fill)
    report["weights raised to 1"] = sum(raised)
    return columns


def texts_of(row_of_arc: NDArray[np.uint32], rows_of: RowsOf, attribution: str) -> tuple[list[str], Int32s, Int32s]:
    """The list of texts, in the order in which arcs have them, and rows of texts and the row of each arc, as in Arrays."""
    first = first_index(row_of_arc, int(row_of_arc.max(initial=0)) + 1)
    used = np.flatnonzero(first >= 0)
    used = used[np.argsort(first[used])]
    number: dict[str, int] = {}
    numbers = (number.setdefault(text, len(number) + 1) for row in rows_of(used) for text in row)
    of_row = np.zeros((len(first), len(TEXTS)), np.int32)
    of_row[used] = np.fromiter(numbers, np.int32).reshape(-1, len(TEXTS))
    return [attribution, *number], *unique_text_rows(of_row, row_of_arc)


def edges_from_pieces(network: RoadNetwork) -> tuple[Int32s, Bools, Floats, Ints, Int32s, Ints]:
    """The edge of each arc and whether it leads along it, and the edges' metres, points and ids, as net_file.Arrays has them. A point has
    no id where two pieces of an edge differ by it, or both directions of one that leads back on itself."""
    runs, is_used = network.runs, mask(len(network.piece_run), network.piece)
    is_along, is_ring, keys = look_at_lines(network)
    is_same = np.zeros(len(keys), np.bool_)
    for piece in np.flatnonzero(is_ring & is_used).tolist():
        line = line_of(runs, piece).tolist()
        is_along[piece], is_same[piece] = line <= line[::-1], line == line[::-1]
    first_of: dict[int, int] = {}
    known: dict[tuple[int, bytes], int] = {}
    leader = first_of_equal(keys)
    is_again = leader != np.arange(len(leader))
    for piece in np.flatnonzero(is_used & (is_again | mask(len(leader), leader[is_again]))).tolist():
        points = line_of(runs, piece)[:: 1 if is_along[piece] else -1]
        first = known.setdefault((int(network.ways_of(piece)), points.tobytes()), piece)
        if first != piece:
            first_of[piece] = first
    is_edge = is_used & ~mask(len(keys), list(first_of))
    others = [(piece, 1 if is_along[piece] else -1) for piece in first_of]
    others += [(piece, -1) for piece in np.flatnonzero(is_same).tolist()]
    del keys, known, leader, is_again
    number = np.cumsum(is_edge, dtype=np.int32) - np.int32(1)
    number[list(first_of)] = number[list(first_of.values())]
    along = is_along[network.piece] ^ network.is_back | is_same[network.piece]
    begins, points, osm = chosen_lines(runs, is_edge, is_along)
    for piece, step in others:
        of_edge = osm[begins[number[piece]] : begins[number[piece] + 1]]
        of_edge[of_edge != ids_of(runs, piece)[::step]] = NO_OSM
    return number[network.piece], along, runs.metres[network.piece_run[is_edge]], begins, points, osm


def look_at_lines(network: RoadNetwork) -> list[NDArray[Any]]:
    """Whether each piece leads to the greater of its ends, whether both are one place, and a mix of 64 bits that pieces of
    one way have in common that lie on one line."""
    runs = network.runs

    def look(part: slice) -> tuple[Any, ...]:
        ends = (runs.points[place] for place in (runs.begin[part], runs.end[part] - 1))
        head, tail = ((places[:, 0].astype(np.int64) << 32) + places[:, 1] for places in ends)
        mixes = (splitmix64(values.astype(np.uint64)) for values in (head, tail, network.ways_of(part)))
        return head < tail, head == tail, np.add.reduce(list(mixes))

    return by_slices(len(network.piece_run), [np.bool_, np.bool_, np.uint64], look)


def line_of(runs: Runs, piece: int) -> Int32s:
    return np.array(runs.points[runs.begin[piece] : runs.end[piece]])


def ids_of(runs: Runs, piece: int) -> Ints:
    """The ids of the points of a line."""
    places = np.arange(runs.begin[piece], runs.end[piece])
    return np.array(runs.osm[runs.nodes[places, (places > places[0]).astype(np.int8)]])


def chosen_lines(runs: Runs, chosen: Bools, is_along: Bools) -> tuple[Ints, Int32s, Ints]:
    """The lines of chosen pieces one after the other, each along or against its points; where they begin; and the ids of the points,
    as net_file.Arrays has them."""
    begin, end = runs.begin[chosen], runs.end[chosen]
    line_begin = offsets(end - begin)
    found, osm = np.empty((int(line_begin[-1]), 2), np.int32), np.empty(int(line_begin[-1]), np.int64)
    step = np.where(is_along[chosen], 1, -1).astype(np.int8)
    first = np.where(is_along[chosen], begin, end - 1)
    del end

    def fill(part: slice) -> None:
        low, high = int(line_begin[part.start]), int(line_begin[part.stop])
        line = np.repeat(np.arange(part.start, part.stop), np.diff(line_begin[part.start : part.stop + 1]))
        place = first[line] + step[line] * (np.arange(low, high) - line_begin[line])
        found[low:high] = runs.points[place]
        osm[low:high] = runs.osm[runs.nodes[place, (place > begin[line]).astype(np.int8)]]

    map_slices(fill, len(first))
    return line_begin, found, osm
