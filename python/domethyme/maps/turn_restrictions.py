"""Turn restrictions: read from the relations of a map, and kept by a graph whose nodes are split where they are.

A restriction forbids to go on from one way into another at a node (no_*), or allows one way alone (only_*). At its junction
the graph has

    a node where routes begin: all arcs lead away from it, and those that may go on anywhere lead to it
    a node for each set of arcs that a restricted way may go on into; it is passed, and no route begins or ends there
    a node where routes end: an arc for each one that leads to the junction, and none away from it

in the columns `ends` of NETWORK.nodes.csv: `from`, `no` and `to`; other nodes have the empty text. So the graph is one of
plain nodes, arcs and weights, and its routes keep the restrictions.

A turn that has a penalty is kept by the same nodes: arcs that lead from them weigh more by it.
"""
import collections
from collections.abc import Callable, Iterable, Sequence
from typing import NamedTuple

import numpy as np
from numpy.typing import NDArray

from ..network.columns import ENDS
from ..network.groups import Ints, expand, first_of_equal, mask, offsets
from ..network.parallel import differs_from_previous as differs

Int32s = NDArray[np.int32]
Bools = NDArray[np.bool_]
Report = collections.Counter[str]
NOT_LOOKED_AT = "turn restrictions not looked at: "
# The places in ENDS of nodes where routes begin alone, neither begin nor end, and end alone.
START, PASSED, END = (ENDS.index(word) for word in ("from", "no", "to"))
# The cost of a turn that may not be taken
FORBIDDEN = -1


class Restriction(NamedTuple):
    """A turn from a way by a node into a way, by their ids, that is forbidden, or with `only` the one that is allowed."""

    start: int
    via: int
    end: int
    only: bool


class Member(NamedTuple):
    """A member of a relation: its kind (n, w, r), its id and its role."""

    kind: str
    osm: int
    role: str


def restrictions_of(
    tags: dict[str, str], members: Sequence[Member], access: Sequence[str], keys: Sequence[str] | None = None
) -> tuple[list[Restriction], str | None]:
    """The restrictions of a relation for a vehicle with these access tags, the most general first; or none, and why, in the
    words of the report, None where it isn't a turn restriction or is for other vehicles. `keys` are those that have them,
    the most general first; without them `restriction` and those of the access tags."""
    excepted = {word.strip() for word in tags.get("except", "").split(";")}
    if tags.get("type") != "restriction" or excepted & set(access):
        return [], None
    if keys is None:
        keys = ["restriction", *(f"restriction:{vehicle}" for vehicle in access)]
    value = next((tags[key] for key in reversed(keys) if key in tags), None)
    if value is None:
        is_conditional = any(f"{key}:conditional" in tags for key in keys)
        return [], NOT_LOOKED_AT + "at times only" if is_conditional else None
    if not value.startswith(("no_", "only_")):
        return [], NOT_LOOKED_AT + "of another kind"
    vias = [member for member in members if member.role == "via"]
    if [member.kind for member in vias] != ["n"]:
        return [], NOT_LOOKED_AT + "not by one node"
    starts, ends = ([osm for kind, osm, role in members if (kind, role) == ("w", wanted)] for wanted in ("from", "to"))
    only = value.startswith("only_")
    return [Restriction(start, vias[0].osm, end, only) for start in starts for end in ends], None


def allows(rules: Iterable[Restriction], start: int, end: int) -> bool:
    """Whether restrictions of one node let one go on from a way into another one."""
    of_start = [rule for rule in rules if rule.start == start]
    only = {rule.end for rule in of_start if rule.only}
    return (not only or end in only) and not any(rule.end == end for rule in of_start if not rule.only)


def applicable_rules(
    restrictions: Iterable[Restriction], ends_of: Callable[[int], Iterable[int] | None], report: Report
) -> dict[int, list[Restriction]]:
    """The restrictions at each node, of those whose ways end at their node. `ends_of` gives the nodes at the ends of a way,
    None for one that the vehicle doesn't take. The others are counted in the report."""
    rules: dict[int, list[Restriction]] = collections.defaultdict(list)
    for restriction in restrictions:
        start, end = ends_of(restriction.start), ends_of(restriction.end)
        if start is None or end is None and not restriction.only:
            report["turn restrictions without effect, of ways that are left out"] += 1
        elif restriction.via not in start or end is not None and restriction.via not in end:
            report[NOT_LOOKED_AT + "a way goes on through the node"] += 1
        else:
            rules[restriction.via].append(restriction)
    return rules


class Turns(NamedTuple):
    """The turns at some nodes.

    into  the arcs that lead to the nodes, node by node and in the order of arcs
    node  the place among the nodes of the one that each of them leads to
    turn  for each turn the place in `into` of the arc that it comes from; they rise
    out   for each turn the arc that it leads into
    """

    into: Ints
    node: Int32s
    turn: Ints
    out: Ints


def turns_at(nodes: Ints, start: Int32s, end: Int32s, count: int) -> Turns:
    """The turns at these nodes, of a graph with `count` nodes and arcs with these ends."""
    rank = np.full(count, -1, np.int32)
    rank[nodes] = np.arange(len(nodes), dtype=np.int32)

    def arcs_at(ends: Int32s) -> Ints:
        arcs = np.flatnonzero(rank[ends] >= 0)
        return arcs[np.argsort(rank[ends[arcs]], kind="stable")]

    into, leaving = arcs_at(end), arcs_at(start)
    node = rank[end[into]]
    counts = np.bincount(rank[start[leaving]], minlength=len(nodes))
    turn, position = expand(counts[node])
    return Turns(into, node, turn, leaving[offsets(counts)[node][turn] + position])


class Copies(NamedTuple):
    """The new nodes of junctions that are split. For each place of Turns.into whether a node is made for it and its like,
    and the number of that node; the node to which its arc leads where a route goes on, and where it ends. For each node
    that may be split whether it is. For each new node the one that it is beside, and its number in ENDS."""

    is_made: Bools
    made: Ints
    goes_to: Ints
    ends_at: Ints
    is_split: Bools
    beside: Ints
    ends: NDArray[np.uint8]


def make_copies(nodes: Ints, turns: Turns, cost: Int32s, count: int) -> Copies:
    """Splits those of the nodes where a turn is FORBIDDEN or has a penalty, by the cost of each turn. New nodes follow the
    others: of each node that is split the one where routes end, and one for each set of arcs that differ in what they may
    go on into, or at which penalty, in the order of the first of them. Arcs that may go on anywhere for nothing lead to the
    node itself."""
    node = turns.node
    is_free = ~mask(len(node), turns.turn[cost != 0])
    is_split = mask(len(nodes), node[~is_free])
    first = first_equivalent(turns, cost)
    is_made = ~is_free & (first == np.arange(len(first)))
    made_at = np.bincount(node[is_made], minlength=len(nodes))
    begin = count + offsets(np.where(is_split, 1 + made_at, 0))
    made = np.zeros(len(node), np.int64)
    made[is_made] = begin[node[is_made]] + 1 + expand(made_at)[1]
    ends = np.full(int(begin[-1]) - count, PASSED, np.uint8)
    ends[begin[:-1][is_split] - count] = END
    beside = np.repeat(nodes[is_split], 1 + made_at[is_split])
    return Copies(is_made, made, np.where(is_free, nodes[node], made[first]), begin[node], is_split, beside, ends)


def copied_arcs(
    copies: Copies, turns: Turns, cost: Int32s, start: Int32s, end: Int32s
) -> tuple[Ints, Int32s, Int32s, Int32s]:
    """The arcs of a graph with these copies of its nodes, in the order of those that they were: these, where they start and
    end, and their penalties."""
    # an arc starts where it did, and then at each node made that may take it
    leaves = np.flatnonzero(copies.is_made[turns.turn] & (cost != FORBIDDEN))
    leaves = leaves[np.argsort(turns.out[leaves], kind="stable")]
    out = turns.out[leaves]
    arc = np.insert(np.arange(len(start)), out + 1, out)
    starts = np.insert(start, out + 1, copies.made[turns.turn[leaves]])
    penalties = np.insert(np.zeros(len(start), np.int32), out + 1, cost[leaves])
    # each of these ends twice where it leads to a split node: where a route goes on, and where it ends
    is_there = copies.is_split[turns.node]
    into = turns.into[is_there]
    times, first_end, last_end = np.ones(len(start), np.int8), end.copy(), end.copy()
    times[into], first_end[into], last_end[into] = 2, copies.goes_to[is_there], copies.ends_at[is_there]
    row = np.repeat(np.arange(len(arc)), times[arc])
    arc = arc[row]
    return arc, starts[row], np.where(differs(row), first_end[arc], last_end[arc]), penalties[row]


def first_equivalent(turns: Turns, cost: Int32s) -> Ints:
    """For each arc that leads to a node the first of those that lead there and have the same costs, by a mix of 64 bits."""
    key = np.zeros(len(turns.into), np.uint64)
    codes = splitmix64((turns.out.astype(np.uint64) << np.uint64(32)) + (cost + 2).astype(np.uint64))
    first = np.flatnonzero(differs(turns.turn))
    if len(first):
        key[turns.turn[first]] = np.add.reduceat(codes, first)
    return first_of_equal(key, turns.node)


def splitmix64(values: NDArray[np.uint64]) -> NDArray[np.uint64]:
    """Numbers of 64 bits for numbers (the end of splitmix64)."""
    values = (values ^ values >> np.uint64(30)) * np.uint64(0xBF58476D1CE4E5B9)
    values = (values ^ values >> np.uint64(27)) * np.uint64(0x94D049BB133111EB)
    return values ^ values >> np.uint64(31)
