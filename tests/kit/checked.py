"""What `routecli check` has to find of a hierarchy, by a plain search over all pairs, and by contracting the nodes once more.

The second follows what docs/FORMATS.md says of verdicts, and shares nothing with the program. Nodes are numbered from 0, and
a cost is a pair (weight, arcs), as in plain.py.
"""
import functools
import re
from collections.abc import Iterable, Mapping

from .hierarchy_file import NONE
from .plain import Cost, Ends, Hierarchy, costs_of, least_from, plus
from .program import Ended

Arc = tuple[int, int, int]
# What leads from one node to another: its cost, and its middle or NONE.
Entry = tuple[Cost, int]
Distances = dict[int, Cost]


class Network:
    """A graph: how many nodes it has, and its arcs as (start, end, weight). Loops are on no shortest path."""

    def __init__(self, nodes: int, arcs: Iterable[Arc]) -> None:
        self.nodes, self.arcs = nodes, set(arcs)
        self.costs = costs_of(arc for arc in self.arcs if arc[0] != arc[1])
        self.bound = max(nodes - 1, 0) * max((weight for _, _, weight in self.arcs), default=0)

    @functools.cached_property
    def distances(self) -> list[Distances]:
        """From each node, the least cost of a walk to each other."""
        return [least_from(self.costs, source) for source in range(self.nodes)]

    def is_heavy(self, cost: Cost) -> bool:
        """Whether no walk that repeats no node costs as much."""
        return cost[0] > self.bound or cost[1] > self.nodes - 1


def values(hierarchy: Hierarchy) -> list[Distances]:
    """From each node, the least cost of a walk to each other that first rises in rank and then falls, and isn't longer than the
    bound."""
    nodes, ranks = range(len(hierarchy.ranks)), hierarchy.ranks
    costs = {ends: cost for ends, (cost, _) in hierarchy.links.items()}
    rising = {ends: cost for ends, cost in costs.items() if ranks[ends[0]] < ranks[ends[1]]}
    falling = {(end, start): cost for (start, end), cost in costs.items() if ranks[start] > ranks[end]}
    up, down = [least_from(rising, node) for node in nodes], [least_from(falling, node) for node in nodes]
    found: list[Distances] = [{} for _ in nodes]
    for source in nodes:
        for target in nodes:
            sums = [plus(up[source][top], down[target][top]) for top in up[source] if top in down[target]]
            if sums and min(sums)[0] <= hierarchy.bound:
                found[source][target] = min(sums)
    return found


def is_right(network: Network, hierarchy: Hierarchy, by_file: list[Distances]) -> bool:
    """Whether a hierarchy of version 2 answers as the graph does: links without a middle are arcs of it, and by the links each
    two nodes are as far apart as in it. (That a link costs what its halves do is part of the format.)"""
    if len(hierarchy.ranks) != network.nodes:
        return False
    bare = ((*ends, cost[0]) for ends, (cost, middle) in hierarchy.links.items() if middle == NONE)
    return all(arc in network.arcs for arc in bare) and by_file == network.distances


def faults(network: Network, hierarchy: Hierarchy) -> set[tuple[int, ...]]:
    """The places of the first faults where the nodes are contracted in the order of the ranks: (start, end) of a link, or (start,
    end, middle) of a path. None where this leads to the links. The graph has as many nodes, and the same bound."""
    left: dict[Ends, Entry] = {ends: (cost, NONE) for ends, cost in network.costs.items()}
    gone: dict[Ends, Entry] = {}
    for node in sorted(range(network.nodes), key=lambda node: hierarchy.ranks[node]):
        own = {ends: entry for ends, entry in left.items() if node in ends}
        found: set[tuple[int, ...]] = {ends for ends, entry in own.items() if hierarchy.links.get(ends) != entry}
        left = {ends: entry for ends, entry in left.items() if node not in ends}
        put, lacking = shortcuts(network, hierarchy, node, own, left)
        found = found or lacking
        if found:
            return found
        gone.update(own)
        left.update(put)
    return {ends for ends, entry in hierarchy.links.items() if gone.get(ends) != entry}


def shortcuts(
    network: Network, hierarchy: Hierarchy, node: int, own: Mapping[Ends, Entry], left: Mapping[Ends, Entry]
) -> tuple[dict[Ends, Entry], set[tuple[int, ...]]]:
    """The shortcuts that the hierarchy asks for where the node is contracted, whose arcs are its own, and which paths by way of it
    have neither one nor another path of the arcs that are left."""
    costs = {ends: cost for ends, (cost, _) in left.items()}
    put: dict[Ends, Entry] = {}
    lacking: set[tuple[int, ...]] = set()
    for (start, middle), (first, _) in own.items():
        if middle != node:
            continue
        least: Distances | None = None
        for (begin, end), (second, _) in own.items():
            ends, cost = (start, end), plus(first, second)
            if begin != node or start == end or network.is_heavy(cost) or (ends in left and left[ends][0] <= cost):
                continue
            link = hierarchy.links.get(ends)
            if link is not None and (link[0] < cost or link == (cost, node)):
                put[ends] = (cost, node)
                continue
            least = least_from(costs, start) if least is None else least
            if end not in least or least[end] > cost:
                lacking.add((start, end, node))
    return put, lacking


# Verdicts

LINES = {
    9: re.compile(rb"wrong: (nodes|pair (?P<start>\d+) (?P<end>\d+))\n"),
    10: re.compile(rb"not shown: (bound|link (?P<start>\d+) (?P<end>\d+)|way (?P<from>\d+) (?P<to>\d+) by (?P<by>\d+))\n"),
}


def complaint(network: Network, hierarchy: Hierarchy, found: Ended) -> str | None:
    """What is wrong with a verdict on a hierarchy of version 2, or none."""
    by_file = values(hierarchy)
    truth = is_right(network, hierarchy, by_file)
    if found.err or found.status not in (0, 9, 10) or (found.status == 0) != (found.out == b"right\n"):
        return "no verdict"
    if truth != (found.status == 0) and found.status != 10:
        return f"the file is {'right' if truth else 'wrong'}"
    if len(hierarchy.ranks) != network.nodes:
        return None if found.out == b"wrong: nodes\n" else "another number of nodes"
    if hierarchy.bound != network.bound:
        return None if found.out == b"not shown: bound\n" else "another bound"
    places = faults(network, hierarchy)
    if found.status == 0 or not places:
        return None if found.status == 0 and not places else f"it ends at none of {sorted(places)}"
    return complaint_of_place(network, by_file, places, found)


def complaint_of_place(network: Network, by_file: list[Distances], places: set[tuple[int, ...]], found: Ended) -> str | None:
    """What is wrong with the place that a verdict names, which may be one of these. It refutes the hierarchy exactly if the pair
    is another distance apart by the file than in the graph."""
    match = LINES[found.status].fullmatch(found.out)
    place = tuple(int(node) - 1 for node in match.groupdict().values() if node is not None) if match else ()
    if place not in (places if found.status == 10 else {ends[:2] for ends in places}):
        return f"it ends at none of {sorted(places)}"
    start, end = place[:2]
    is_apart = by_file[start].get(end) != network.distances[start].get(end)
    return None if is_apart == (found.status == 9) else "the distances of the pair say another verdict"
