"""Other routes between two points on roads, by plateaus (Camvit's choice routing, 2005; Abraham, Delling, Goldberg and Werneck,
Alternative routes in road networks, 2013). Needs numpy.

There are the least length from the start to each node, and from each node to the end. An arc is tight if it leads from one length to
the next in both. A plateau is a run of tight arcs, so a route by it is a shortest path from the start to the plateau's last node, and one
from its first node to the end. A part of the route that weighs less than the plateau lies within one of these two: no such part could be
shorter.
"""
from collections.abc import Callable, Iterator, Sequence
from typing import NamedTuple

import numpy as np

from ..protocol import RouterResult
from .grid import concat_ranges
from .groups import Ints
from .legs import Between, Leg, leg_via_route
from .net_file import MappedNetwork
from .snapping import NO_ARC, RoadIndex, SnappedPoint

# Of the weight of the best route: how much another one weighs at most, its plateau at least, and what it has in common with each other.
STRETCH, LEAST_PLATEAU, MOST_SHARED = 1.25, 0.2, 0.75
MAX_ALTERNATIVES = 3
# The least length of each node from the nearest of several, from 0, each with a length that is added, or `towards` it; -1 above a limit.
Reached = Callable[[Sequence[tuple[int, int]], int, bool], Ints]


class Plateau(NamedTuple):
    """A plateau: what a route by it weighs, and its nodes, from 0."""

    weight: int
    nodes: list[int]


def alternatives(
    roads: RoadIndex, start: SnappedPoint, end: SnappedPoint, best: Leg, between: Between, reached: Reached, count: int
) -> list[Leg]:
    """Up to so many other legs between two points than the best one, those first whose weight is less and whose plateau weighs more."""
    if not (count and best.weight and start.exits and end.entries):
        return []
    found, taken, limit = list[Leg](), [frozenset(best.arcs.tolist())], int(STRETCH * best.weight)
    there, back = (
        reached(sorted((node, weight) for node, (weight, _) in side.items()), limit, towards)
        for side, towards in ((start.exits, False), (end.entries, True))
    )
    for plateau in plateaus(roads.arrays, there, back, best.weight):
        leg = leg_by(roads, start, end, plateau, between)
        if leg is not None and all(shared(leg, arcs) <= MOST_SHARED * best.weight for arcs in taken):
            found.append(leg)
            if len(found) == count:
                break
            taken.append(frozenset(leg.arcs.tolist()))
    return found


def plateaus(network: MappedNetwork, there: Ints, back: Ints, best: int) -> Iterator[Plateau]:
    """The plateaus that weigh enough, of routes that don't weigh too much. The lengths are those from the start, and to the end."""
    near = np.flatnonzero(((there | back) >= 0) & (there + back <= int(STRETCH * best)))
    # (of several tight arcs that leave a node, or come to one, the first is taken)
    tails, heads = (ends[::-1] for ends in tight_arcs(network, near, there, back))
    after, before = np.full(len(near), -1), np.full(len(near), -1)
    after[tails], before[heads] = heads, tails
    tails = np.flatnonzero(after >= 0)
    tails = tails[before[after[tails]] == tails]
    goes_on = np.zeros(len(near), np.bool_)
    goes_on[tails] = True
    firsts = tails[(before[tails] < 0) | (after[before[tails]] != tails)]
    lasts, inner = firsts.copy(), np.arange(len(firsts))
    while len(inner):
        lasts[inner] = after[lasts[inner]]
        inner = inner[goes_on[lasts[inner]]]
    long = there[near[lasts]] - there[near[firsts]]
    is_long = long >= LEAST_PLATEAU * best
    firsts, lasts, long = firsts[is_long], lasts[is_long], long[is_long]
    weight = there[near[firsts]] + back[near[firsts]]
    for place in np.lexsort((firsts, 2 * weight - long)).tolist():
        nodes = [int(firsts[place])]
        while nodes[-1] != lasts[place]:
            nodes.append(int(after[nodes[-1]]))
        yield Plateau(int(weight[place]), near[nodes].tolist())


def tight_arcs(network: MappedNetwork, near: Ints, there: Ints, back: Ints) -> tuple[Ints, Ints]:
    """The ends of the tight arcs between some nodes, by their places among these. They have to be all of which the lengths sum to so much."""
    begins = network.out_begin[near]
    rows, places = concat_ranges(begins, network.out_begin[near + 1] - begins)
    arcs = network.out_arcs[places]
    heads, weights = network.arc_to[arcs], network.arc_weight[arcs]
    # (of five arcs some two are tight from the start: the others aren't looked at again)
    some = np.flatnonzero(there[heads] == there[near][rows] + weights)
    rows, heads, weights = rows[some], heads[some], weights[some]
    is_tight = (back[heads] >= 0) & (back[near][rows] == back[heads] + weights)
    place_of = np.empty(len(there), np.int64)
    place_of[near] = np.arange(len(near))
    return rows[is_tight], place_of[heads[is_tight]]


def leg_by(roads: RoadIndex, start: SnappedPoint, end: SnappedPoint, plateau: Plateau, between: Between) -> Leg | None:
    """The leg by a plateau; None if it comes to a node twice."""
    first, *inner, last = plateau.nodes
    before, behind = between(start.exits, {first: (0, NO_ARC)}), between({last: (0, NO_ARC)}, end.entries)
    if before is None or behind is None:
        return None
    nodes = [*before.nodes, *inner, *behind.nodes]
    if len({*nodes}) < len(nodes):
        return None
    return leg_via_route(roads, start, end, RouterResult(before.source, behind.target, plateau.weight, nodes))


def shared(leg: Leg, arcs: frozenset[int]) -> int:
    """What the arcs of a leg weigh that are among these."""
    return sum(weight for arc, weight in zip(leg.arcs.tolist(), leg.weights.tolist()) if arc in arcs)
