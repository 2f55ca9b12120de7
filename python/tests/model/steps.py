"""The steps of a leg: one begins at another name or mode, at a turn above 45 degrees at a junction, and at a roundabout."""
import functools
import itertools
from collections.abc import Sequence
from typing import Any

from comparing import Direction, Holds, Intersection, Line, Near

from .network import Ambiguous, Arc, Network, Part, SnappedPoint
from .sphere import Point, along, bearing, metres_between

# The least degrees of each modifier but the first. Rounding decides so near to them, and about the direction of so short a line.
LIMITS, NEAR_LIMIT, SHORT = (20, 45, 120, 170), 2.1, 2.0
MODIFIERS = ("straight", "slight {}", "{}", "sharp {}", "uturn")
# The roundings of metres and of seconds.
METRES, SECONDS, UNITS = 0.0065, 0.0015, {"duration": 1000, "distance": 100}
Leg = Sequence[Part]
NOWHERE = Arc(0, 0, 0, 0.0, 0.0, ())


def near(place: Point) -> list[Near]:
    return [Near(place[0], 8.5e-7), Near(place[1], 8.5e-7)]


def turned(angle: float) -> float:
    """Degrees to the right, from -180 to 180."""
    return (angle + 180) % 360 - 180


def is_near_limit(angle: float) -> bool:
    return min(abs(abs(turned(angle)) - limit) for limit in LIMITS) <= NEAR_LIMIT


def modifier_of(angle: float) -> str:
    return MODIFIERS[sum(abs(angle) >= limit for limit in LIMITS)].format("right" if angle > 0 else "left")


def is_along(network: Network, part: Part) -> bool:
    return network.edges[network.edge_of[part[0]]].arcs[part[0]]


def is_within(leg: Leg, number: int) -> bool:
    """Whether a part of a leg behind the first one begins at a point within a road."""
    return leg[number - 1][2] != 1 or leg[number][1] != 0


def is_round(arc: Arc) -> bool:
    return arc.junction in ("roundabout", "circular")


def mode(arc: Arc) -> str:
    return "ferry" if arc.highway == "ferry" else "driving"


def is_junction(network: Network, node: int) -> bool:
    return len({network.edge_of[number] for number, arc in enumerate(network.arcs) if node in arc[:2]}) >= 3


def figures(network: Network, *legs: Leg) -> dict[str, Any]:
    """The weight, duration and distance of legs together: a weight in seconds or metres where weights are these."""
    rows, unit = [(network.arcs[arc], stop - begin, weight) for leg in legs for arc, begin, stop, weight in leg], network.unit
    weight = sum(row[2] for row in rows) / UNITS.get(unit, 1)
    seconds, metres = sum(arc.seconds * share for arc, share, _ in rows), sum(arc.metres * share for arc, share, _ in rows)
    duration = Near(weight if unit == "duration" else seconds, SECONDS * len(legs)) if network.has_seconds else None
    distance = Near(weight if unit == "distance" else metres, METRES * len(legs))
    return {"weight": Near(weight, 0 if len(legs) == 1 else 0.001), "duration": duration, "distance": distance}


def directions(lines: Sequence[list[Point]], step: int) -> list[float]:
    """The direction of each line at its beginning, or for -1 at its end, but of those about which rounding decides."""
    found = []
    for here, *others in (line[::step] for line in lines):
        other = next((point for point in others if point != here), here)
        if other == here or metres_between(here, other) > SHORT:
            found.append(bearing(*(here, other)[::step]))
    return found


def way_of(network: Network, part: Part, line: list[Point]) -> list[Point]:
    """A line with the direction of a part of an arc: its own one, or of a part without a length that of the arc there."""
    arc, begin, stop, _ = part
    whole, before = network.arcs[arc].line, along(network.arcs[arc].line)
    steps, at = [number for number in range(1, len(whole)) if before[number] > before[number - 1]], begin * before[-1]
    if begin < stop or not steps:
        return line
    if 0 < begin < 1 and any(abs(metres - at) < 0.1 for metres in before):
        raise Ambiguous
    number = next((number for number in steps if before[number] >= at), steps[-1])
    return [whole[number - 1], whole[number]]


def intersection(network: Network, leg: Leg, number: int, place: Point, ways: tuple[float, float]) -> Intersection:
    """The intersection before a part of a leg, by the bearings of the roads by which it comes and goes on. A road is an edge, and
    whether it begins there; it may be entered if an arc leads into it by which one may go on from the arc before."""
    before, behind = leg[number - 1 : number + 1]
    into = network.edge_of[before[0]], not is_along(network, before)
    out = network.edge_of[behind[0]], is_along(network, behind)
    roads: dict[tuple[int, bool], tuple[float | None, bool]] = {into: (None, into == out)}
    for (road, edge), is_begin in itertools.product(() if is_within(leg, number) else enumerate(network.edges), (True, False)):
        if network.arcs[behind[0]].start in {network.arcs[arc][way != is_begin] for arc, way in edge.arcs.items()}:
            is_open = any(way == is_begin and (before[0], arc) not in network.forbidden for arc, way in edge.arcs.items())
            # (rounding decides about the direction of a short line)
            roads[road, is_begin] = next(iter(directions([[*edge.line[:: 1 if is_begin else -1]]], 1)), None), is_open
    roads[into], roads[out] = (ways[0], roads[into][1]), (ways[1], True)
    return Intersection(near(place), [*roads.values()], roads[into][0], ways[1])


def is_begin(network: Network, leg: Leg, number: int, turn: float) -> bool:
    """Whether a step begins with a part of a leg behind the first one, by the turn before it."""
    *_, before, arc = arcs = [network.arcs[part[0]] for part in leg[: number + 1]]
    is_turn = abs(turn) > 45 and is_junction(network, arc.start)
    if is_within(leg, number):  # (there it goes on, or turns round)
        is_turn = is_along(network, leg[number]) != is_along(network, leg[number - 1])
    is_new = before.name != arc.name or mode(before) != mode(arc) or is_turn
    # (a step on a roundabout goes on behind it)
    return not is_round(before) if is_round(arc) else is_new and (not is_round(before) or all(map(is_round, arcs[:-1])))


def maneuver(network: Network, numbers: Sequence[int], named: int, angle: float) -> dict[str, Any]:
    """The type of the maneuver of a step, with its modifier, and the exit of a roundabout, by its arcs and the one before."""
    before, *behind = (network.arcs[number] for number in numbers)
    kind = "continue" if before.name == behind[0].name else "turn" if abs(angle) > 45 else "new name"
    if not is_round(behind[0]):
        return {"type": kind, "modifier": modifier_of(angle)}
    # (the edges that leave it behind each of its arcs)
    pairs = ((at, arc) for at in range(1, named) for arc in network.followers[numbers[at]])
    leaving = {(at, network.edge_of[arc]) for at, arc in pairs if not is_round(network.arcs[arc])}
    exits = {"exit": 1 + len(leaving)} if named > 0 or not is_round(behind[-1]) else {}
    return {"type": "roundabout", "modifier": modifier_of(angle), **exits}


def steps(network: Network, ends: tuple[SnappedPoint, SnappedPoint], leg: Leg, lines: Sequence[list[Point]], form: str) -> Any:
    """The steps of a leg whose parts have these lines; of what rounding decides about only that there are some."""
    arcs, ways, found = [network.arcs[part[0]] for part in leg], [*map(functools.partial(way_of, network), leg, lines)], []
    first, last = directions(ways, 1), directions(ways, -1)
    turns, unsure = [begin - end for end, begin in zip(last, first[1:])], Holds("two steps or more", lambda found: len(found) >= 2)
    if any(map(is_near_limit, turns)) or not len(first) == len(last) == len(leg):
        return unsure
    begins = [number for number in range(len(leg)) if not number or is_begin(network, leg, number, turned(turns[number - 1]))]

    def add(turn: dict[str, Any], sides: Any, named: Arc, mode: str, leg: Leg, line: list[Point], passed: Any) -> None:
        texts = {"ref": "; ".join(map(str.strip, named.ref.split(";")))} if named.ref else {}
        texts |= {"destinations": ", ".join(map(str.strip, named.destination.split(";")))} if named.destination else {}
        shown = {**turn, "location": near(line[0]), "bearing_before": sides[0], "bearing_after": sides[1]}
        found.append({
            "maneuver": shown, "name": named.name, "mode": mode, "driving_side": "left" if network.is_left else "right",
            **figures(network, leg), "geometry": Line(line, form), **texts, "intersections": passed,
        })

    depart, (start, end) = {"type": "depart"}, (near(point.place) for point in ends)
    for begin, stop in itertools.pairwise([*begins, len(leg)]):
        # (a step that enters a roundabout is named after the first arc behind it)
        behind = (number for number in range(begin, stop) if begin and is_round(arcs[begin]) and not is_round(arcs[number]))
        named = next(behind, begin)
        angle = turned(first[named] - last[begin - 1]) if begin else 0
        if begin and is_near_limit(angle):
            return unsure
        passed = [] if begin else [Intersection(start, [(first[0], True)], None, first[0])]
        for number in range(max(begin, 1), stop):
            if number == begin or not is_within(leg, number) and is_junction(network, arcs[number].start):
                both = (last[number - 1] + 180) % 360, first[number]
                passed.append(intersection(network, leg, number, lines[number][0], both))
        turn = maneuver(network, [part[0] for part in leg[begin - 1 : stop]], named - begin, angle) if begin else depart
        sides = Direction(last[begin - 1]) if begin else 0, Direction(first[begin])
        add(turn, sides, arcs[named], mode(arcs[begin]), leg[begin:stop], [*itertools.chain(*lines[begin:stop])], passed)
    if not leg:
        add(depart, (0, 0), NOWHERE, mode(NOWHERE), [], [ends[0].place] * 2, [Intersection(start, [(0, True)], None, 0)])
    before, how = (Direction(last[-1]), mode(arcs[-1])) if leg else (0, mode(NOWHERE))
    back = (last[-1] if leg else 0) + 180
    arrival = [Intersection(end, [(back, True)], back, None)]
    add({"type": "arrive"}, (before, 0), NOWHERE._replace(name=found[-1]["name"]), how, [], [ends[1].place] * 2, arrival)
    return found
