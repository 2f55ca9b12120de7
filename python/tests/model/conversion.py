"""The network of a map of OpenStreetMap, by `osm_to_gr --help` and the page of the profiles."""
import itertools
import math
from collections import Counter, defaultdict
from collections.abc import Iterator, Mapping, Sequence
from typing import Any, NamedTuple

from .network import Ambiguous
from .sphere import Point, along, bearing
from .vehicles import Tags, duration, is_barrier, is_road, last_of, speeds

# At each node: from a way, into another, and whether that is the only one.
Rules = Mapping[Any, list[tuple[int, int, bool]]]
# So near to a point of a road, in metres, it is cut at that point.
SAME = 0.001


class Map(NamedTuple):
    """Nodes with places and tags, ways with nodes and tags, and relations with tags and members (kind, id, role)."""

    nodes: Mapping[int, tuple[Point, Tags]]
    ways: Mapping[int, tuple[Sequence[int], Tags]]
    relations: Sequence[tuple[Tags, Sequence[tuple[str, int, str]]]]


class Node(NamedTuple):
    osm: int | None
    place: Point
    ends: str = ""


class Arc(NamedTuple):
    """The texts in the order of the tables' columns, the number of the piece of road, and the penalty in hundredths of a second."""

    start: int
    end: int
    kmh: float
    metres: float
    way: int
    texts: tuple[str, ...]
    line: tuple[Point, ...]
    piece: int
    is_back: bool
    penalty: int = 0


def texts_of(tags: Tags) -> tuple[str, ...]:
    name, ref, junction, destination = (" ".join(tags.get(key, "").split()) for key in ("name", "ref", "junction", "destination"))
    structure = [word for word in ("tunnel", "bridge") if tags.get(word, "no") != "no"] or [""]
    return tags["highway"], name or ref, ref, junction, destination, structure[0], "yes" if tags.get("toll") == "yes" else ""


def roads_of(of: Map, profile: Any) -> Iterator[tuple[int, list[int], Tags, Sequence[float | None]]]:
    """The ways that the vehicle may take, with their nodes, tags and km/h."""
    for way, (refs, tags) in of.ways.items():
        kmh = speeds({"highway": "ferry", **tags}, profile) if is_road(tags, profile) else ""
        if not isinstance(kmh, str):
            yield way, [ref for ref, _ in itertools.groupby(refs)], {"highway": "ferry", **tags}, kmh


def runs(refs: Sequence[int], stops: set[int], gaps: set[int]) -> Iterator[list[int]]:
    """The nodes of a road from one end, stop or gap to the next."""
    run: list[int] = []
    for ref in refs:
        here = [] if ref in gaps else [ref]
        run += here
        if ref in stops | gaps:
            yield run
            run = here
    yield run


def parts(line: Sequence[Point], longest: float, least: int) -> list[tuple[Point, ...]]:
    """A line in equal parts, as few as keep each within so many metres."""
    at, cuts = along(line), [(0.0, line[0])]
    count = max(least, math.ceil(at[-1] / longest))
    for wanted in (at[-1] * number / count for number in range(1, count)):
        step = max(number for number, metres in enumerate(at) if metres <= wanted + SAME)
        if step < len(line) - 1:
            share = (wanted - at[step]) / (at[step + 1] - at[step]) if wanted - at[step] > SAME else 0.0
            east, north = (there - here for here, there in zip(line[step], line[step + 1]))
            place = math.remainder(line[step][0] + math.remainder(east, 360) * share, 360), line[step][1] + north * share
            if any(abs(degrees * 1e7 % 1 - 0.5) < 1e-4 for degrees in place):
                raise Ambiguous
            cuts.append((step + share, (round(place[0], 7), round(place[1], 7))))
    steps = itertools.pairwise([*cuts, (len(line) - 1, line[-1])])
    return [(begin, *line[math.floor(low) + 1 : math.ceil(high)], end) for (low, begin), (high, end) in steps]


def convert(of: Map, profile: Any, longest: float) -> tuple[list[Node], list[Arc]]:
    """The network of a map, with its islands, and with turns that are free."""
    roads = [*roads_of(of, profile)]
    every = [ref for _, refs, *_ in roads for ref in refs]
    gaps, stops = {*every} - {*of.nodes}, {ref for ref in every if every.count(ref) > 1}
    barriers = {ref for ref in {*every} - gaps if is_barrier(of.nodes[ref][1], profile)}
    nodes, arcs, known, piece = list[Node](), list[Arc](), dict[int, int](), 0

    def node(osm: int | None, place: Point) -> int:
        if osm not in known:
            nodes.append(Node(osm, place))
        return len(nodes) - 1 if osm is None or osm in barriers else known.setdefault(osm, len(nodes) - 1)

    for way, refs, tags, kmh in roads:
        some = [run for run in runs(refs, stops | barriers, gaps) if len(run) > 1]
        lines = [[of.nodes[ref][0] for ref in run] for run in some]
        if (seconds := duration(tags)) and (whole := sum(along(line)[-1] for line in lines)):
            kmh = [each and whole * 3.6 / seconds for each in kmh]
        for run, line in zip(some, lines):
            found = parts(line, longest, 1 + (run[0] == run[-1] and run[0] not in barriers))
            ends, texts, metres = [node(run[0], line[0]), node(run[-1], line[-1])], texts_of(tags), along(line)[-1] / len(found)
            ends[1:1] = [node(None, part[-1]) for part in found[:-1]]
            for piece, step, part in zip(itertools.count(piece + 1), itertools.pairwise(ends), found):
                for own, side in zip(kmh, (1, -1)):
                    if own is not None:
                        arcs.append(Arc(*step[::side], own, metres, way, texts, part[::side], piece, side < 0))
    return nodes, arcs


def rules_of(of: Map, profile: Any) -> tuple[Rules, Counter[str]]:
    """The turn restrictions that are kept, and how many others there are."""
    ends, access = {way: (refs[0], refs[-1]) for way, refs, *_ in roads_of(of, profile) if len(refs) > 1}, profile["access"]
    keys = profile.get("restrictions", ["restriction", *(f"restriction:{name}" for name in access)])
    found, others = defaultdict(list), Counter[str]()
    for tags, members in of.relations:
        wanted = ("w", "from"), ("w", "to"), ("n", "via")
        starts, stops, vias = ([osm for kind, osm, role in members if (kind, role) == each] for each in wanted)
        said, is_conditional = last_of(tags, keys) or "", any(f"{key}:conditional" in tags for key in keys)
        if tags["type"] != "restriction" or {word.strip() for word in tags.get("except", "").split(";")} & {*access}:
            continue
        if not said.startswith(("no_", "only_")):
            others["not looked at: of another kind" if said else "not looked at: at times only"] += bool(said) or is_conditional
        elif not vias or [role for _, _, role in members].count("via") > 1:
            others["not looked at: not by one node"] += 1
        else:
            for start, stop in itertools.product(starts, stops):
                is_only = said.startswith("only_")
                if start not in ends or stop not in ends and not is_only:
                    others["without effect, of ways that are left out"] += 1
                elif vias[0] not in ends[start] or vias[0] not in ends.get(stop, vias):
                    others["not looked at: a way goes on through the node"] += 1
                elif vias[0] in of.nodes and not is_barrier(of.nodes[vias[0]][1], profile):
                    found[vias[0]].append((start, stop, is_only))
    return found, others


def cost(into: Arc, out: Arc, rules: Sequence[tuple[int, int, bool]], penalties: Mapping[str, int]) -> int:
    """What it costs to go on from an arc into another, in hundredths of a second; -1 where it is forbidden."""
    only, never = ([stop for start, stop, alone in rules if start == into.way and alone is is_only] for is_only in (True, False))
    if out.way in never or only and out.way not in only:
        return -1
    before, after = ([step for step in itertools.pairwise(arc.line) if step[0] != step[1]] for arc in (into, out))
    turn = math.remainder(bearing(*after[0]) - bearing(*before[-1]), 360) if before and after else 0.0
    if abs(turn) > 165 or into.piece == out.piece and into.is_back is not out.is_back:
        return penalties.get("back", 0)
    return penalties.get("right" if turn > 0 else "left", 0) if abs(turn) > 45 else 0


def split(nodes: list[Node], arcs: list[Arc], rules: Rules, penalties: Mapping[str, int]) -> list[Arc]:
    """The arcs with junctions split where a turn is forbidden or costs something; `nodes` get the new ones."""
    goes_to, comes_from = dict[int, list[int]](), dict[int, list[tuple[int, int]]]()
    numbers = {node.osm: number for number, node in enumerate(nodes)}
    for node in range(len(nodes)) if any(penalties.values()) else [numbers[osm] for osm in rules if osm in numbers]:
        outs, own = [k for k, arc in enumerate(arcs) if arc.start == node], rules.get(nodes[node].osm, ())
        costs = {k: tuple(cost(arc, arcs[out], own, penalties) for out in outs) for k, arc in enumerate(arcs) if arc.end == node}
        if any(map(any, costs.values())):
            made = {row: len(nodes) + k for k, row in enumerate(dict.fromkeys(filter(any, costs.values())), 1)}
            goes_to |= {k: [made.get(row, node), len(nodes)] for k, row in costs.items()}
            for k, out in enumerate(outs):
                comes_from[out] = [(node, 0), *((new, row[k]) for row, new in made.items() if row[k] >= 0)]
            nodes += [nodes[node]._replace(ends=ends) for ends in ("to", *["no"] * len(made))]
            nodes[node] = nodes[node]._replace(ends="from")
    return [
        arc._replace(start=start, end=end, penalty=penalty) for k, arc in enumerate(arcs)
        for start, penalty in comes_from.get(k, [(arc.start, 0)]) for end in goes_to.get(k, [arc.end])
    ]


def largest(nodes: Sequence[Node], arcs: Sequence[Arc]) -> Iterator[tuple[list[Node], list[Arc]]]:
    """The largest parts of a network whose nodes all reach one another, with those where routes of it only begin or end."""
    after = [{arc.end for arc in arcs if arc.start == node} for node in range(len(nodes))]
    reached = [{node} | after[node] for node in range(len(nodes))]
    while reached != (reached := [set[int]().union(*(reached[other] for other in seen)) for seen in reached]):
        pass
    sets = {frozenset(other for other in seen if node in reached[other]) for node, seen in enumerate(reached)}
    for core in (each for each in sets if len(each) == max(map(len, sets))):
        begin = {node for node in range(len(nodes)) if nodes[node].ends == "from" and after[node] & core}
        kept = sorted(core | begin | {node for each in core for node in after[each] if nodes[node].ends == "to"})
        some = [arc for arc in arcs if arc.start in kept and arc.end in kept]
        yield [nodes[node] for node in kept], [arc._replace(start=kept.index(arc.start), end=kept.index(arc.end)) for arc in some]
