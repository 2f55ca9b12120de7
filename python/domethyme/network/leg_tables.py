"""Tables of the least weights between points on roads. Needs numpy.

A point leads to some nodes, its exits, and is led to from some, its entries (snapping). All lengths between the nodes come of one
proved table, from the exits of all first points to the entries of all last ones. A cell is the least over its exits and entries,
each with the weight of its part of an arc, or the weight of the way that stays on one arc or at one node (legs). That is tested.
"""
import collections
import itertools
from collections.abc import Callable, Iterator, Sequence
from typing import NamedTuple

import numpy as np

from ..protocol import FAR, NO_PATH
from .column_file import Column
from .groups import Ints
from .leg_geometry import driven_thousandths, thousandths
from .legs import EMPTY_LEG, SnapEnds, leg_without_nodes
from .snapping import NO_ARC, RoadIndex, SnappedPoint

# The lengths from each of some nodes, from 0, to each of others, NO_PATH for no path: a new array with a row for each of the first.
NodeTable = Callable[[Ints, Ints], Ints]
# The same, and what the thousandths of seconds, or of metres, sum to along a path of that length, for each of some columns.
NodeTables = Callable[[Ints, Ints], Sequence[Ints]]
# First points of the rows that are made together, at most.
MAX_ROWS = 256


class Ends(NamedTuple):
    """The exits, or entries, of points one after the other: the number of the point, the node, from 0, and the weight and the arc
    between (NO_ARC if the point is the node)."""

    points: Ints
    nodes: Ints
    weights: Ints
    arcs: Ints

    @classmethod
    def of(cls, sides: Sequence[SnapEnds]) -> "Ends":
        rows = [(number, node, *side[node]) for number, side in enumerate(sides) for node in side]
        return cls(*np.array(rows, dtype=np.int64).reshape(-1, 4).T)

    def parts(self, roads: RoadIndex, points: Sequence[SnappedPoint], column: Column, are_exits: bool) -> Ints:
        """The thousandths of the parts between."""
        rows, found = np.flatnonzero(self.arcs != NO_ARC), np.zeros(len(self.arcs), np.int64)
        arcs, shares = self.arcs[rows], np.array([points[point].fraction for point in self.points[rows].tolist()])
        whole = thousandths(column[arcs])
        before = np.rint(np.where(roads.arrays.arc_along[arcs], shares, 1 - shares) * whole).astype(np.int64)
        found[rows] = whole - before if are_exits else before
        return found


def weight_rows(
    ask: NodeTable, roads: RoadIndex, starts: Sequence[SnappedPoint], ends: Sequence[SnappedPoint], cells: int
) -> Iterator[Ints]:
    """The least weights from each start to each end, FAR for no path, some rows at a time. `ask` is called once for
    these, for `cells` lengths or one row; memory is a few times as many numbers, and some for each end."""
    return (weights for weights, in table_rows(lambda sources, targets: [ask(sources, targets)], roads, starts, ends, cells, []))


def table_rows(
    ask: NodeTables, roads: RoadIndex, starts: Sequence[SnappedPoint], ends: Sequence[SnappedPoint], cells: int, columns: Sequence[Column]
) -> Iterator[list[Ints]]:
    """The same, and for each column of arcs, which `ask` sums up, the thousandths along a path of the least weight: of several those of one
    that stays on an arc, or else the least ones, of those between the nodes the ones that `ask` returns."""
    entries, ends_by_key = Ends.of([end.entries for end in ends]), collections.defaultdict[object, list[int]](list)
    for number, end in enumerate(ends):
        for key in place_keys(end):
            ends_by_key[key].append(number)
    into = [entries.weights, *(entries.parts(roads, ends, column, False) for column in columns)]
    at_a_time = max(1, min(MAX_ROWS, cells // max(1, len(entries.nodes))))
    for begin in range(0, len(starts), at_a_time):
        some = starts[begin : begin + at_a_time]
        exits = Ends.of([start.exits for start in some])
        out_of = [exits.weights, *(exits.parts(roads, some, column, True) for column in columns)]
        found = least_by_nodes(ask, exits, entries, (len(some), len(ends)), out_of, into)
        for row, start in enumerate(some):
            for number in itertools.chain(*(ends_by_key.get(key, ()) for key in place_keys(start))):
                leg = EMPTY_LEG if start is ends[number] else leg_without_nodes(roads, start, ends[number])
                if leg is not None and leg.weight <= found[0][row, number]:
                    found[0][row, number] = leg.weight
                    for sums, column in zip(found[1:], columns):
                        sums[row, number] = driven_thousandths(column, leg)
        yield found


def least_by_nodes(
    ask: NodeTables, exits: Ends, entries: Ends, shape: tuple[int, int], out_of: Sequence[Ints], into: Sequence[Ints]
) -> list[Ints]:
    """The least weights by the nodes of points, of which some may have no nodes, FAR for no path, and sums as `table_rows` has them.
    `out_of` and `into` are what exits and entries add to each."""
    found = [np.full(shape, FAR, np.int64) for _ in into]
    if not len(exits.nodes) or not len(entries.nodes):
        return found
    sources, row = np.unique(exits.nodes, return_inverse=True)
    targets, column = np.unique(entries.nodes, return_inverse=True)
    between = ask(sources, targets)
    between[0][between[0] == NO_PATH] = FAR
    tables = [table[row][:, column] + first[:, None] + last for table, first, last in zip(between, out_of, into)]
    (starts, first_exit), (ends, first_entry) = (np.unique(each.points, return_index=True) for each in (exits, entries))
    cells = np.ix_(starts, ends)

    def least(table: Ints) -> Ints:
        least_of_rows = np.minimum.reduceat(table, first_exit, axis=0)
        return np.minimum.reduceat(least_of_rows, first_entry, axis=1)

    weights = least(tables[0])
    found[0][cells] = np.minimum(weights, FAR)
    if len(tables) > 1:
        of_exit, of_entry = (np.unique(each.points, return_inverse=True)[1] for each in (exits, entries))
        is_dearer = tables[0] > weights[of_exit][:, of_entry]
        for sums, table in zip(found[1:], tables[1:]):
            table[is_dearer] = FAR
            sums[cells] = np.where(weights < FAR, least(table), FAR)
    return found


def place_keys(point: SnappedPoint) -> Iterator[object]:
    """The nodes that a point is, and the edge of the arcs on which it lies: what it shares with points to which a leg stays."""
    if point.copies:
        yield point.copies
    if point.arcs:
        yield point.edge
