"""The way of a vehicle by a trace, by looking at all ways through all states of its points: docs/SERVICE.md's match."""
import itertools
import math
import statistics
from collections.abc import Sequence
from typing import NamedTuple

from .network import Ambiguous, Network, Part, SnappedPoint, arcs_of_bearing
from .request import Request
from .sphere import metres_between

# Deviations within which roads are near, of a step that is kept, and by which a vehicle that stands may go back.
REACH, STEP, STAND = 3, 6, 2
ROADS, DETOUR, LEFT_OUT = 8, 2000, 3
# Ways that are compared, and densities (their logarithms) and metres by which rounding may decide: millimetres are whole.
MOST, EQUAL, NEAR, METRES = 3000, 1e-9, 2e-3, 1e-3
# States, one for each of some points, and the logarithm of their density.
Sequences = list[tuple[list[SnappedPoint], float]]


class Way(NamedTuple):
    """Points of the trace by number, where they are on roads, the legs between, and the mean probability of these states."""

    numbers: list[int]
    places: list[SnappedPoint]
    legs: list[list[Part]]
    confidence: float


def deviations(request: Request) -> list[float]:
    return [float(word) if word else 5.0 for word in request.words("radiuses")]


def ways(network: Network, request: Request) -> list[list[Way]]:
    """The ways of a trace, of two points or more: for each all that are as probable. Raises Ambiguous."""
    found = []
    for part in parts(request):
        left = [number for number in thinned(request, part) if states(network, request, number)]
        while len(left) > 1:
            numbers, sequences = chain(network, request, left)
            if len(numbers) > 1:
                best = max(density for _, density in sequences)
                if any(EQUAL < best - density < NEAR for _, density in sequences) or len(part) > len(numbers):
                    raise Ambiguous  # (also where other points are to be placed on the way)
                chosen = [points for points, density in sequences if best - density <= EQUAL]
                found.append([way(network, request, numbers, points, confidence(sequences, points, best)) for points in chosen])
            left = [number for number in left if number > numbers[-1]]
    return found


def below(one: float, other: float) -> bool:
    """Whether metres are below others. Raises Ambiguous where rounding decides."""
    if abs(one - other) < METRES:
        raise Ambiguous
    return one < other


def apart(request: Request, one: int, other: int) -> float:
    return metres_between(request.places[one], request.places[other])


def parts(request: Request) -> list[list[int]]:
    """The points that are taken, in parts between which there are gaps of time."""
    seconds = [int(word) for word in request.value("timestamps").split(";") if word]
    numbers = [0]
    for number in range(1, len(request.places)):
        is_soon = bool(seconds) and seconds[number] - seconds[numbers[-1]] < 5
        if request.value("tidy") != "true" or not (below(apart(request, numbers[-1], number), 15) or is_soon):
            numbers.append(number)
    are_split = bool(seconds) and request.value("gaps") != "ignore"
    gaps = [seconds[b] - seconds[a] for a, b in itertools.pairwise(numbers)] if are_split else []
    cuts = [at for at, gap in enumerate(gaps, 1) if gap > max(60, 10 * statistics.median(gaps))]
    return [numbers[begin:stop] for begin, stop in itertools.pairwise([0, *cuts, len(numbers)])]


def thinned(request: Request, numbers: Sequence[int]) -> list[int]:
    """Each k-th point and the last one, by the least k for which more than half of the steps are long."""
    for stride in range(1, len(numbers)):
        steps = list(zip(numbers, numbers[stride:]))
        are_long = [below(STEP * max(deviations(request)[each] for each in step), apart(request, *step)) for step in steps]
        if 2 * sum(are_long) > len(steps):
            return [*numbers[:-1:stride], numbers[-1]]
    return [numbers[0], *numbers[1:][-1:]]


def states(network: Network, request: Request, number: int) -> list[SnappedPoint]:
    """The nearest points of the nearest roads, one for each direction."""
    reach, bearings, found = REACH * deviations(request)[number], request.bearings()[number], list[SnappedPoint]()
    near = itertools.takewhile(lambda row: row[0] < reach + 1, network.by_distance(request.places[number], None, is_any=True))
    rows = [row for row in near if below(row[0], reach)]
    if len(rows) > ROADS:
        below(rows[ROADS - 1][0], rows[ROADS][0])
    for point in (point for _, point in rows[:ROADS] if point is not None):
        edge, at = network.edges[point.edge], point.fraction * network.along[point.edge][-1]
        allowed = edge.arcs.keys() if bearings is None else arcs_of_bearing(edge, at, *bearings)
        sides = (frozenset(arc for arc in allowed if edge.arcs[arc] == way) for way in (True, False))
        found += (point._replace(arcs=arcs) for arcs in sides if arcs)
    return found


def ahead(network: Network, start: SnappedPoint, end: SnappedPoint) -> float:
    """The metres along an arc of both points, below 0 where the second is behind, NaN for no such arc."""
    shared = (start.arcs or frozenset()) & (end.arcs or frozenset())
    metres = (end.fraction - start.fraction) * network.along[start.edge][-1]
    return (metres if network.edges[start.edge].arcs[min(shared)] else -metres) if shared else math.nan


def surplus(network: Network, request: Request, numbers: tuple[int, int], start: SnappedPoint, end: SnappedPoint) -> float:
    """How unlikely the way from a state to one of the next point is, by its metres beyond those between both; infinity for none."""
    metres, deviation = ahead(network, start, end), [deviations(request)[number] for number in numbers]
    if 0 < abs(metres) < METRES:
        raise Ambiguous
    if metres < 0 and below(-metres, STAND * deviation[1]):
        found = {0}
    else:
        found = {sum(millimetres(network.arcs[arc].metres, *shares) for arc, *shares, _ in leg) for leg in network.legs(start, end)}
    if len(found) > 1:
        raise Ambiguous
    more = (found.pop() / 1000 if found else math.inf) - apart(request, *numbers)
    return math.inf if below(DETOUR, more) else abs(more) / (2 + 0.1 * max(deviation))


def millimetres(metres: float, begin: float, stop: float) -> int:
    """Those between two shares of an arc: whole ones before each, as answers have them."""
    return round(stop * round(1000 * metres)) - round(begin * round(1000 * metres))


def chain(network: Network, request: Request, numbers: Sequence[int]) -> tuple[list[int], Sequences]:
    """The first points that ways connect, and all ways by their states."""
    taken, found, left_out = list[int](), [(list[SnappedPoint](), 0.0)], 0
    for number in numbers:
        more: Sequences = []
        for (points, density), point in itertools.product(found, states(network, request, number)):
            off = surplus(network, request, (taken[-1], number), points[-1], point) if taken else 0.0
            if off < math.inf:
                more.append(([*points, point], density - 0.5 * (point.metres / deviations(request)[number]) ** 2 - off))
        if len(more) > MOST:
            raise Ambiguous
        left_out = 0 if more else left_out + 1
        if left_out > LEFT_OUT:
            break
        if more:
            found, taken = more, [*taken, number]
    return taken, found


def confidence(sequences: Sequences, chosen: Sequence[SnappedPoint], best: float) -> float:
    """The mean probability of the chosen states, by all ways and their densities."""
    shares = [(points, math.exp(density - best)) for points, density in sequences]
    whole = len(chosen) * sum(share for _, share in shares)
    return sum(share for points, share in shares for point, other in zip(points, chosen) if point == other) / whole


def way(network: Network, request: Request, numbers: list[int], points: Sequence[SnappedPoint], trust: float) -> Way:
    """The way by some states. Raises Ambiguous where a leg has several shortest paths."""
    found = Way(numbers, [points[0]], [], trust)
    for number, (before, point) in zip(numbers[1:], itertools.pairwise(points)):
        here, least = found.places[-1], -STAND * deviations(request)[number]
        is_standing = ahead(network, here, point) < 0 and ahead(network, before, point) > least
        legs: list[list[Part]] = [[]] if is_standing else network.legs(here, point)
        if len(legs) != 1:
            raise Ambiguous
        standing = here._replace(metres=metres_between(request.places[number], here.place))
        found.places.append(standing if is_standing else point)
        found.legs.append(legs[0])
    return found
