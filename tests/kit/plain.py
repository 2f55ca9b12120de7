"""Slow and plain readers of the formats of docs/FORMATS.md, written from that page alone, and what the answers have to be.

They share no code with `routecli` and nothing of its ways: each looks at the whole file or text again for each question.
A cost is a pair (weight, arcs); Python orders pairs by the first number and then by the second, as costs are ordered. In
files of version 1 the arcs are 0.
"""
import heapq
from collections.abc import Callable, Iterable, Iterator, Mapping

from .answers import least_arcs
from .hierarchy_file import LINK_BYTES, NONE

MAGICS = {1: b"RCH1", 2: b"RCH2"}
MAX_NODES = 1 << 25
MAX_LINES = 1 << 27
HEAVIEST = (1 << 32) - 1

Ends = tuple[int, int]
Cost = tuple[int, int]
Links = list[tuple[int, int, Cost, int]]


class Refused(Exception):
    """What a file or text is refused for: a name, and the line of a text."""


class Hierarchy:
    """The version, ranks by node, the link of each pair as (cost, middle), and the greatest weight of a link."""

    def __init__(self, version: int, ranks: list[int], links: Links, bound: int) -> None:
        self.version, self.ranks, self.bound = version, ranks, bound
        self.links = {(start, end): (cost, middle) for start, end, cost, middle in links}


def plus(one: Cost, other: Cost) -> Cost:
    """What two walks cost together."""
    return one[0] + other[0], one[1] + other[1]


def number(data: bytes, at: int, count: int) -> int:
    if len(data) < at + count:
        raise Refused("Truncated")
    return int.from_bytes(data[at : at + count], "big")


def hierarchy_of(data: bytes) -> Hierarchy:
    """The hierarchy that the bytes spell, or their first fault."""
    version = version_of(data)
    if len(data) < 24:
        raise Refused("Truncated")
    nodes, count, bound = number(data, 4, 4), number(data, 8, 8), number(data, 16, 8)
    if nodes > MAX_NODES or count > nodes * (nodes - 1):
        raise Refused("TooBig")
    if bound > max(nodes - 1, 0) * HEAVIEST:
        raise Refused("BoundTooBig")
    ranks = ranks_of(data, nodes)
    links = links_of(data, version, ranks, count, bound)
    hierarchy = Hierarchy(version, ranks, links, bound)
    for start, end, cost, middle in links:
        if middle == NONE:
            continue
        first, second = hierarchy.links.get((start, middle)), hierarchy.links.get((middle, end))
        if first is None or second is None:
            raise Refused("HalfMissing")
        if plus(first[0], second[0]) != cost:
            raise Refused("HalfSum")
    if len(data) > 24 + 4 * nodes + LINK_BYTES[version] * count:
        raise Refused("Trailing")
    return hierarchy


def version_of(data: bytes) -> int:
    for length in range(1, 5):
        if len(data) < length:
            raise Refused("Truncated")
        if not any(magic.startswith(data[:length]) for magic in MAGICS.values()):
            raise Refused("BadMagic")
    return next(version for version, magic in MAGICS.items() if data.startswith(magic))


def ranks_of(data: bytes, nodes: int) -> list[int]:
    ranks: list[int] = []
    seen = set()
    for node in range(nodes):
        rank = number(data, 24 + 4 * node, 4)
        if rank >= nodes:
            raise Refused("RankRange")
        if rank in seen:
            raise Refused("RankTwice")
        ranks.append(rank)
        seen.add(rank)
    return ranks


def links_of(data: bytes, version: int, ranks: list[int], count: int, bound: int) -> Links:
    links: Links = []
    size = LINK_BYTES[version]
    for place in range(count):
        at = 24 + 4 * len(ranks) + size * place
        if len(data) < at + size:
            raise Refused("Truncated")
        start, end = number(data, at, 4), number(data, at + 4, 4)
        weight, middle = number(data, at + 8, 8), number(data, at + size - 4, 4)
        arcs = number(data, at + 16, 4) if version == 2 else 0
        if start >= len(ranks) or end >= len(ranks) or start == end:
            raise Refused("LinkEnds")
        if links and (start, end) <= links[-1][:2]:
            raise Refused("LinkOrder")
        if weight > bound or not does_count(version, weight, arcs, middle, len(ranks)):
            raise Refused("LinkWeight")
        if middle != NONE:
            if middle >= len(ranks):
                raise Refused("MiddleRange")
            if ranks[middle] >= min(ranks[start], ranks[end]):
                raise Refused("MiddleRank")
        links.append((start, end, (weight, arcs), middle))
    return links


def does_count(version: int, weight: int, arcs: int, middle: int, nodes: int) -> bool:
    """Whether a link counts what its version wants: some weight, or some arcs and one where there is no middle."""
    if version == 1:
        return weight >= 1
    return 1 <= arcs < nodes and (middle != NONE or arcs == 1)


class Routes:
    """The shortest up-down paths of a hierarchy, of those that are no longer than `longest`, or than its bound."""

    def __init__(self, hierarchy: Hierarchy, longest: int | None = None) -> None:
        self.hierarchy, self.nodes = hierarchy, len(hierarchy.ranks)
        self.longest = hierarchy.bound if longest is None else longest

    def climb(self, source: int, is_forward: bool, costs: dict[Cost, Cost]) -> dict[int, Cost]:
        """The least cost of each node that is come to by rising alone, where links cost so much."""
        ranks, best = self.hierarchy.ranks, {source: (0, 0)}
        for node in sorted(range(self.nodes), key=lambda node: ranks[node]):
            if node not in best:
                continue
            for (start, end), cost in costs.items():
                here, there = (start, end) if is_forward else (end, start)
                if here == node and ranks[there] > ranks[node]:
                    found = plus(best[node], cost)
                    best[there] = min(found, best.get(there, found))
        return best

    def least(self, source: int, target: int, costs: dict[Cost, Cost]) -> Cost | None:
        """The least cost of a walk that isn't too long, where links cost this much, or none."""
        up, down = self.climb(source, True, costs), self.climb(target, False, costs)
        found = [plus(up[top], down[top]) for top in up if top in down]
        return min((cost for cost in found if cost[0] <= self.longest), default=None)

    def value(self, source: int, target: int) -> Cost | None:
        """The least cost of a walk that isn't too long, or none. It may have as many arcs as it will."""
        return self.least(source, target, {ends: cost for ends, (cost, _) in self.hierarchy.links.items()})

    def arcs(self) -> dict[tuple[int, int], int]:
        """How many links without a middle each link represents."""
        ranks, links = self.hierarchy.ranks, self.hierarchy.links
        arcs: dict[tuple[int, int], int] = {}
        for start, end in sorted(links, key=lambda ends: min(ranks[ends[0]], ranks[ends[1]])):
            _, middle = links[start, end]
            arcs[start, end] = 1 if middle == NONE else arcs[start, middle] + arcs[middle, end]
        return arcs

    def most_arcs(self, source: int, target: int) -> int | None:
        """Of all walks of the least cost, the most links without a middle that one represents, or none."""
        arcs, links = self.arcs(), self.hierarchy.links
        if self.hierarchy.version == 1:
            found = self.least(source, target, {ends: (cost[0], -arcs[ends]) for ends, (cost, _) in links.items()})
            return None if found is None else -found[1]
        found = self.least(source, target, {ends: (cost[0], arcs[ends]) for ends, (cost, _) in links.items()})
        return None if found is None else found[1]

    def is_route(self, nodes: list[int], length: int) -> bool:
        """Whether links without a middle join these nodes, at this length."""
        found = 0
        for start, end in zip(nodes, nodes[1:]):
            step, middle = self.hierarchy.links.get((start, end), ((0, 0), 0))
            if middle != NONE:
                return False
            found += step[0]
        return found == length


def lines_of(text: bytes) -> Iterator[tuple[int, list[bytes] | None]]:
    """The fields of each line, with the line's number; lines of no field are left out."""
    lines = text.split(b"\n")
    if lines[-1] == b"":
        lines.pop()
    for place, line in enumerate(lines):
        line = line[:-1] if line.endswith(b"\r") else line
        fields = line.replace(b"\t", b" ").split(b" ")
        fields = [field for field in fields if field]
        if fields and not fields[0].startswith(b"c"):
            yield place + 1, fields
    yield len(lines), None


def numbers_of(fields: list[bytes], line: int) -> list[int]:
    for field in fields:
        if any(byte not in b"0123456789" for byte in field):
            raise Refused(f"NotANumber line {line}")
    return [int(field) for field in fields]


def read(text: bytes, entry: bytes, entry_fields: int, problem: list[bytes],
         sizes_of: Callable[[list[int], int], list[int]],
         entry_of: Callable[[list[int], list[int], int], list[int]]) -> tuple[list[int], list[list[int]]]:
    """What the lines of a text say: the sizes of its problem line, and its entries."""
    sizes: list[int] = []
    entries: list[list[int]] = []
    for line, fields in lines_of(text):
        if fields is None:
            break
        if fields[0] not in (b"p", entry):
            raise Refused(f"UnknownLine line {line}")
        if fields[0] == entry and not sizes:
            raise Refused(f"NoProblemLine line {line}")
        if fields[0] == b"p" and sizes:
            raise Refused(f"SecondProblemLine line {line}")
        if fields[0] == entry and len(entries) == sizes[-1]:
            raise Refused(f"ArcCount line {line}")
        if len(fields) != (entry_fields if fields[0] == entry else len(problem) + (2 if entry == b"a" else 1)):
            raise Refused(f"FieldCount line {line}")
        if fields[0] == b"p":
            if fields[: len(problem)] != problem:
                raise Refused(f"UnknownLine line {line}")
            sizes = sizes_of(numbers_of(fields[len(problem) :], line), line)
        else:
            entries.append(entry_of(numbers_of(fields[1:], line), sizes, line))
    if not sizes:
        raise Refused(f"NoProblemLine line {line}")
    if len(entries) < sizes[-1]:
        raise Refused(f"ArcCount line {line}")
    return sizes, entries


def graph_sizes(numbers: list[int], line: int) -> list[int]:
    if numbers[0] > MAX_NODES:
        raise Refused(f"TooManyNodes line {line}")
    if numbers[1] > MAX_LINES:
        raise Refused(f"TooManyArcs line {line}")
    return numbers


def arc(numbers: list[int], sizes: list[int], line: int) -> list[int]:
    if not all(1 <= node <= sizes[0] for node in numbers[:2]):
        raise Refused(f"NodeRange line {line}")
    if numbers[2] > HEAVIEST:
        raise Refused(f"WeightTooBig line {line}")
    return numbers


def graph_of(text: bytes) -> tuple[int, list[list[int]]]:
    """The number of nodes and the arcs that a graph's text says, or its first fault."""
    sizes, arcs = read(text, b"a", 4, [b"p", b"sp"], graph_sizes, arc)
    return sizes[0], arcs


def pairs_of(text: bytes, nodes: int) -> list[list[int]]:
    """The pairs that a text says, or its first fault."""

    def pair_sizes(numbers: list[int], line: int) -> list[int]:
        if numbers[0] > MAX_LINES:
            raise Refused(f"TooManyArcs line {line}")
        return numbers

    def pair(numbers: list[int], sizes: list[int], line: int) -> list[int]:
        if not all(1 <= node <= nodes for node in numbers):
            raise Refused(f"NodeRange line {line}")
        return numbers

    return read(text, b"q", 3, [b"p", b"aux", b"sp", b"p2p"], pair_sizes, pair)[1]


def least_from(costs: Mapping[Ends, Cost], source: int) -> dict[int, Cost]:
    """The least cost of a walk along arcs of these costs from a node to each that it leads to."""
    out: dict[int, list[tuple[int, Cost]]] = {}
    for (start, end), cost in costs.items():
        out.setdefault(start, []).append((end, cost))
    least: dict[int, Cost] = {}
    queue = [((0, 0), source)]
    while queue:
        cost, node = heapq.heappop(queue)
        if node not in least:
            least[node] = cost
            for end, more in out.get(node, []):
                heapq.heappush(queue, (plus(cost, more), end))
    return least


def costs_of(arcs: Iterable[tuple[int, int, int]]) -> dict[Ends, Cost]:
    """What the least arc costs of each pair of nodes."""
    return {ends: (weight, 1) for ends, weight in least_arcs(arcs).items()}


def least_costs(nodes: int, arcs: Iterable[tuple[int, int, int]]) -> dict[Ends, Cost]:
    """The least cost between each two nodes below a number."""
    costs = costs_of(arcs)
    return {(start, to): cost for start in range(nodes) for to, cost in least_from(costs, start).items()}
