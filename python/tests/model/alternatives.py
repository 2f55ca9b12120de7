"""Other routes between two points, by looking at all ways that come to no node twice: docs/SERVICE.md's other routes."""
import itertools
import math
from collections.abc import Iterator, Sequence

from .network import Ambiguous, Network, Part, SnappedPoint, direct_parts

# Of the least weight: what another way weighs at most, its plateau at least, and what it shares at most. How many there are at most.
STRETCH, LEAST_PLATEAU, MOST_SHARED, MOST = 1.25, 0.2, 0.75, 3
# Beginnings of ways that are looked at.
MOST_WAYS = 3000


def alternatives(network: Network, start: SnappedPoint, end: SnappedPoint) -> list[list[Part]]:
    """The other ways, of points on different roads, those first that weigh less and whose plateau weighs more. Raises Ambiguous
    where shortest paths, or ways in this order, are equal."""
    there, back = lengths(network, start), lengths(network.turned, end)
    ways = sorted(all_ways(network, start, end), key=weight)
    best = weight(ways[0]) if ways else 0
    found = [(plateau((start, end), way, network, there, back), way) for way in ways if weight(way) <= STRETCH * best]
    rows = sorted((2 * weight(way) - long, way) for long, way in found if long > LEAST_PLATEAU * best)
    if any(abs(long - LEAST_PLATEAU * best) < 1e-6 for long, _ in found) or len({rank for rank, _ in rows}) < len(rows):
        raise Ambiguous
    taken = ways[:1]
    for _, way in rows:
        if len(taken) <= MOST and all(shared(way, other) <= MOST_SHARED * best for other in taken):
            taken.append(way)
    return taken[1:]


def weight(parts: Sequence[Part]) -> int:
    return sum(part[3] for part in parts)


def shared(parts: Sequence[Part], others: Sequence[Part]) -> int:
    """What is driven of arcs that others have too."""
    arcs = {arc for arc, *_ in others}
    return weight([part for part in parts if part[0] in arcs])


def lengths(network: Network, point: SnappedPoint) -> dict[int, int]:
    """The least length to each node from a point. Raises Ambiguous where a node has two shortest paths."""
    parts = network.parts_at(point, True).items()
    found = network.lengths({point.node: 0} if point.node is not None else {network.arcs[arc].end: part[3] for arc, part in parts})
    ends = [arc.end for arc in network.arcs if arc.start in found and found[arc.start] + arc.weight == found[arc.end]]
    if len({*ends}) < len(ends):
        raise Ambiguous
    return found


def all_ways(network: Network, start: SnappedPoint, end: SnappedPoint, most: float = math.inf) -> Iterator[list[Part]]:
    """All ways that come to no node twice, or where junctions are split by no arc twice, and weigh so much at most. Raises Ambiguous if
    these are too many."""
    first, last = network.parts_at(start, True), network.parts_at(end, False)
    yield from ([part] for part in direct_parts(network, first, last))
    begun = [[part] for part in first.values()]
    for way in itertools.islice(begun, MOST_WAYS):
        driven = {arc for arc, *_ in way}
        nodes = {start.node, *(network.arcs[arc].end for arc in driven)} - {None}
        for arc in network.followers[way[-1][0]]:
            is_new = arc not in driven if network.forbidden else network.arcs[arc].end not in nodes
            if arc in last and (is_new or end.node is None) and weight(way) + last[arc][3] <= most:
                yield [*way, last[arc]]
            if is_new and weight(way) + network.arcs[arc].weight <= most:
                begun.append([*way, (arc, 0.0, 1.0, network.arcs[arc].weight)])
    if len(begun) > MOST_WAYS:
        raise Ambiguous


def plateau(
    ends: tuple[SnappedPoint, SnappedPoint], way: Sequence[Part], network: Network, there: dict[int, int], back: dict[int, int]
) -> int:
    """What is driven of a way between nodes to which it is a shortest path, and from which it goes on as one."""
    sums = [0, *itertools.accumulate(part[3] for part in way)]
    nodes = zip([ends[0].node, *(network.arcs[arc].end for arc, *_ in way[:-1]), ends[1].node], sums)
    tight = [None if node is None or (there.get(node), back.get(node)) != (gone, sums[-1] - gone) else gone for node, gone in nodes]
    runs = ([*run] for is_not, run in itertools.groupby(tight, key=lambda gone: gone is None) if not is_not)
    return max((run[-1] - run[0] for run in runs), default=0)
