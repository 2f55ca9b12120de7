"""The way of a vehicle on roads, from places where it was measured to be. Needs numpy.

A hidden Markov model (Newson, Krumm 2009). A point of the trace is at one of its states: the nearest points, up to 3 deviations
away, of up to 8 roads, one for each direction. Its density falls with the distance from the state as that of a normal error
does, and from state to state with how many metres a shortest path, by weight, is longer or shorter than the great circle
between both points. The way of the greatest probability is found from point to point (Viterbi 1967).

Metres are sums along a shortest path, of tables of the library with sums: from all states of some points to those of the next ones.

Points that are nearer than their errors would lead to and fro: each k-th is taken, of the least k by which most steps are longer than 6
deviations, and the others are placed on the way between. That each leg is a shortest path is the library's, which is proved; which
points these are is tested.
"""
import bisect
import itertools
import math
from collections.abc import Callable, Iterable, Iterator, Sequence
from typing import NamedTuple

import numpy as np

from ..errors import NetworkError
from ..protocol import FAR, NO_PATH
from .bearings import BearingRange, bearing_at
from .columns import UNITS
from .geo import Point, metres_between
from .groups import Ints, expand, offsets
from .leg_geometry import driven_thousandths
from .leg_tables import Ends
from .legs import EMPTY_LEG, Between, Leg, find_each, leg_without_nodes
from .parallel import differs_from_previous
from .snapping import RoadIndex, SnappedPoint, point_at
from .sphere import Floats, great_circle_metres, interpolate_one, nearest_on_segments, unit_vectors

# Metres of the error of a point, by its deviation, to which states may be away; roads of a point; and the steps that are kept.
REACH, MAX_ROADS, STEP = 3.0, 8, 6.0
# Deviations by which a vehicle that stands may seem to go back.
STAND = 2.0
# Metres by which a path is longer or shorter, at a deviation of 0 and for each metre of it, of which the density is 1/e.
SLACK, SLACK_BY_DEVIATION = 2.0, 0.1
# How many steps are looked at for the k of each k-th point, at most.
MAX_STEPS = 100_000_000
# Metres by which a path may be longer than the great circle, and points in a row that may be left out.
MAX_DETOUR, MAX_LEFT_OUT = 2000.0, 3
# Steps whose ways are found by one table of the library.
STEPS_AT_ONCE = 16
# A gap of time: so many seconds, and so many times as many as between most points.
GAP_SECONDS, GAP_STEPS = 60.0, 10.0
# What is tidied away: points nearer than so many metres, or seconds, to the last one that is kept.
TIDY_METRES, TIDY_SECONDS = 15.0, 5.0


class Trace(NamedTuple):
    """Places in the order in which they were measured, the seconds of each if they are known, the standard deviation of each in metres,
    and the range of its direction or None."""

    places: Sequence[Point]
    seconds: Sequence[float] | None
    deviations: Sequence[float]
    ranges: Sequence[BearingRange | None]


class Matched(NamedTuple):
    """A way: the numbers of its points in the trace, where each is on the roads, the legs between, and the mean probability, by
    the model, that a point is where it is."""

    points: list[int]
    places: list[SnappedPoint]
    legs: list[Leg]
    confidence: float


class State(NamedTuple):
    """A point of the trace, where its states are, and their logarithms of density."""

    number: int
    points: list[SnappedPoint]
    density: Floats


class Chain(NamedTuple):
    """Points that ways connect, each with the one before: the logarithms of density of the ways from the states of each to those of the
    next, and of the best way to each state of each."""

    states: list[State]
    ways: list[Floats]
    best: list[Floats]


# The lengths from each of some nodes to each of others, NO_PATH for no path, and the millimetres along a path of that length.
NodeSums = Callable[[Ints, Ints], Iterable[Ints]]
# A place on a leg: the index of an arc, and the share of that.
Mark = tuple[int, float]


class Matcher:
    """What finds the ways of a trace."""

    def __init__(self, ask: Between, sums: NodeSums, roads: RoadIndex, trace: Trace) -> None:
        self._ask, self._sums, self._roads, self._trace = ask, sums, roads, trace
        self._places, self._deviations = np.array(trace.places, float).reshape(-1, 2), np.array(trace.deviations, float)
        self._vectors, self._reach = unit_vectors(*self._places.T), REACH * self._deviations

    def ways(self, is_split: bool, is_tidy: bool) -> list[Matched]:
        """The ways of the trace in order, each of two points or more. `is_split`: gaps of time begin another way. `is_tidy`: points that
        are near the one before in metres or seconds are left out."""
        found = []
        for part in self._parts(is_split, self._tidied() if is_tidy else list(range(len(self._vectors)))):
            states, begin = [each for each in self._states(self._thinned(part)) if each.points], 0
            while begin < len(states) - 1:
                chain = self._chain(states, begin)
                if chain.ways:
                    found.append(self._way(part, chain))
                begin = bisect.bisect(states, chain.states[-1].number, key=lambda state: state.number)
        return found

    # Which points are taken

    def _tidied(self) -> list[int]:
        """The first point, and each later one that is far from the last one that is kept, in metres and in seconds if there are any."""
        kept = [0]
        for number in range(1, len(self._vectors)):
            is_far = self._apart(kept[-1], number) >= TIDY_METRES
            seconds = self._trace.seconds
            if is_far and (seconds is None or seconds[number] - seconds[kept[-1]] >= TIDY_SECONDS):
                kept.append(number)
        return kept

    def _parts(self, is_split: bool, numbers: list[int]) -> list[list[int]]:
        """The points in parts between which there are gaps of time."""
        if self._trace.seconds is None or not is_split or len(numbers) < 2:
            return [numbers]
        gaps = np.diff(np.array(self._trace.seconds, float)[numbers])
        cuts = np.flatnonzero(gaps > max(GAP_SECONDS, GAP_STEPS * float(np.median(gaps)))) + 1
        return [[numbers[at] for at in part] for part in np.split(np.arange(len(numbers)), cuts)]

    def _thinned(self, numbers: list[int]) -> list[int]:
        """Each k-th point, and the last one."""
        vectors, least = self._vectors[numbers], STEP * self._deviations[numbers]
        most = min(len(numbers), 1 + MAX_STEPS // len(numbers))
        for stride in range(1, most):
            far = great_circle_metres(vectors[:-stride], vectors[stride:]) > np.maximum(least[:-stride], least[stride:])
            if 2 * np.count_nonzero(far) > len(far):
                return [*numbers[:-1:stride], numbers[-1]]
        return [*numbers[:-1:most], numbers[-1]]

    def _apart(self, one: int, other: int) -> float:
        return float(great_circle_metres(self._vectors[one], self._vectors[other]))

    def _states(self, numbers: Sequence[int]) -> list[State]:
        """The states of points."""
        near = dict[int, list[SnappedPoint]]()
        for reach, rows in itertools.groupby(sorted(numbers, key=self._reach.__getitem__), self._reach.__getitem__):
            some = [*rows]
            places = [self._trace.places[number] for number in some]
            near |= zip(some, self._roads.nearest_of_each(places, MAX_ROADS, float(reach)))
        return [self._state(number, near[number]) for number in numbers]

    def _state(self, number: int, roads: list[SnappedPoint]) -> State:
        points = [each for point in roads for each in directed(self._roads, point, self._trace.ranges[number])]
        away = np.array([point.metres for point in points]) / self._deviations[number]
        return State(number, points, -0.5 * away * away)

    # The most probable states

    def _chain(self, states: Sequence[State], begin: int) -> Chain:
        """The points from one on that ways connect. Points in a row to which no way leads are left out, up to MAX_LEFT_OUT, if another
        one follows."""
        chain, left_out = Chain([states[begin]], [], [states[begin].density]), 0
        for state, ways in zip(itertools.islice(states, begin + 1, None), self._ways(states, begin)):
            if left_out:
                ways, = self._ways_between([(chain.states[-1], state)])
            reached = (chain.best[-1][:, None] + ways).max(axis=0)
            if math.isinf(reached.max()):
                left_out += 1
                if left_out > MAX_LEFT_OUT:
                    break
                continue
            chain.states.append(state)
            chain.ways.append(ways)
            chain.best.append(reached + state.density)
            left_out = 0
        return chain

    def _ways(self, states: Sequence[State], begin: int) -> Iterator[Floats]:
        """The ways from each point, from one on, to the next."""
        for first in range(begin, len(states) - 1, STEPS_AT_ONCE):
            yield from self._ways_between([*itertools.pairwise(states[first : first + STEPS_AT_ONCE + 1])])

    def _ways_between(self, steps: Sequence[tuple[State, State]]) -> list[Floats]:
        """For each two points the logarithms of density of all ways from the states of the first to those of the second."""
        starts, ends = ([point for state in side for point in state.points] for side in zip(*steps))
        shapes = np.array([(len(start.points), len(end.points)) for start, end in steps])
        step, position = expand(shapes.prod(axis=1))
        rows, columns = (offsets(counts)[step] for counts in shapes.T)
        rows, columns = rows + position // shapes[step, 1], columns + position % shapes[step, 1]
        here, there = np.array([(start.number, end.number) for start, end in steps]).T
        metres = self._metres(starts, ends, rows, columns, STAND * self._deviations[there][step])
        slack = SLACK + SLACK_BY_DEVIATION * np.maximum(self._deviations[here], self._deviations[there])
        more = metres - great_circle_metres(self._vectors[here], self._vectors[there])[step]
        ways = np.where(more > MAX_DETOUR, -np.inf, -np.abs(more) / slack[step])
        return [each.reshape(shape) for each, shape in zip(np.split(ways, shapes.prod(axis=1).cumsum()[:-1]), shapes.tolist())]

    def _metres(
        self, starts: Sequence[SnappedPoint], ends: Sequence[SnappedPoint], rows: Ints, columns: Ints, behind: Floats
    ) -> Floats:
        """The metres along a shortest path from the start of each row to the end of each column, infinity for none; 0 for a vehicle that
        stands, which goes back by less than `behind`."""
        metres = self._through_nodes(starts, ends, rows, columns)
        of_starts, of_ends = (np.array([point.edge for point in points]) for points in (starts, ends))
        for at in np.flatnonzero(of_starts[rows] == of_ends[columns]).tolist():
            found = self._metres_on_arc(starts[rows[at]], ends[columns[at]], behind[at])
            if found is not None:
                metres[at] = found
        return metres

    def _through_nodes(self, starts: Sequence[SnappedPoint], ends: Sequence[SnappedPoint], rows: Ints, columns: Ints) -> Floats:
        """The metres along a path of the least weight through nodes, infinity for none."""
        column = self._roads.arrays.arc_metres
        exits, entries = Ends.of([point.exits for point in starts]), Ends.of([point.entries for point in ends])
        (sources, source), (targets, target) = (np.unique(side.nodes, return_inverse=True) for side in (exits, entries))
        lengths, millimetres = self._sums(sources, targets)
        out_of, into = (np.bincount(side.points, minlength=len(points)) for side, points in ((exits, starts), (entries, ends)))
        counts = out_of[rows] * into[columns]
        pair, position = expand(counts)
        one = offsets(out_of)[rows][pair] + position // into[columns][pair]
        other = offsets(into)[columns][pair] + position % into[columns][pair]
        between, sums = (table[source[one], target[other]] for table in (lengths, millimetres))
        weights = np.where(between == NO_PATH, FAR, between + exits.weights[one] + entries.weights[other])
        parts = exits.parts(self._roads, starts, column, True)[one] + entries.parts(self._roads, ends, column, False)[other]
        # (a state is on an arc, so it has an exit and an entry)
        firsts = offsets(counts)[:-1]
        least = np.minimum.reduceat(weights, firsts)
        metres = np.where((weights == FAR) | (weights > least[pair]), np.inf, (sums + parts) / 1000)
        return np.asarray(np.minimum.reduceat(metres, firsts))

    def _metres_on_arc(self, start: SnappedPoint, end: SnappedPoint, behind: float) -> float | None:
        """The metres of the way that stays on an arc, 0 if the vehicle stands; None for none. As states have arcs of one direction no way
        through nodes weighs less."""
        metres = ahead(self._roads, start, end)
        if metres is None or metres < 0:
            return 0.0 if metres is not None and -metres < behind else None
        return driven_thousandths(self._roads.arrays.arc_metres, needed(leg_without_nodes(self._roads, start, end))) / 1000

    # The way by these states

    def _way(self, part: list[int], chain: Chain) -> Matched:
        """The way of the greatest probability, with the points between on its legs."""
        chosen = [int(chain.best[-1].argmax())]
        for best, ways in zip(reversed(chain.best[:-1]), reversed(chain.ways)):
            chosen.append(int((best + ways[:, chosen[-1]]).argmax()))
        chosen.reverse()
        stops, stands = self._stops(chain, chosen)
        moves = [ends for ends, is_standing in zip(itertools.pairwise(stops), stands) if not is_standing]
        found = iter(find_each(self._ask, self._roads, moves))
        legs = [EMPTY_LEG if is_standing else needed(next(found)) for is_standing in stands]
        bounds = [bisect.bisect_left(part, state.number) for state in chain.states]
        between = [part[first + 1 : last] for first, last in itertools.pairwise(bounds)]
        numbers, places, parts = [chain.states[0].number], stops[:1], list[Leg]()
        for state, stop, leg, on_leg in zip(chain.states[1:], stops[1:], legs, self._placed(stops, legs, between)):
            numbers += [*(number for number, *_ in on_leg), state.number]
            places += [*(place for _, place, _ in on_leg), stop]
            parts += parts_of(self._roads, leg, [mark for *_, mark in on_leg])
        return Matched(numbers, places, parts, confidence(chain, chosen))

    def _stops(self, chain: Chain, chosen: Sequence[int]) -> tuple[list[SnappedPoint], list[bool]]:
        """Where the vehicle is by the chosen states, and whether it stands from each of these to the next."""
        states = [state.points[row] for state, row in zip(chain.states, chosen)]
        stops, stands = states[:1], list[bool]()
        for other, (before, there) in zip(chain.states[1:], itertools.pairwise(states)):
            here, number = stops[-1], other.number
            metres, gone = ahead(self._roads, here, there), ahead(self._roads, before, there)
            stands.append(metres is not None and metres < 0 and gone is not None and gone > -STAND * self._deviations[number])
            at_once = here._replace(metres=metres_between(*self._trace.places[number], here.lon, here.lat))
            stops.append(at_once if stands[-1] else there)
        return stops, stands

    def _placed(
        self, stops: Sequence[SnappedPoint], legs: Sequence[Leg], between: Sequence[Sequence[int]]
    ) -> Iterator[list[tuple[int, SnappedPoint, Mark]]]:
        """For each leg those of some points that are near it, and in its direction, each with the place on it, in order along it, for which
        the sum of squares of the metres to them is least; and these places by their marks."""
        for begin in range(0, len(legs), STEPS_AT_ONCE):
            some = slice(begin, begin + STEPS_AT_ONCE)
            marks = nearest_marks(self._roads, legs[some], between[some], self._places, self._reach)
            for stop, leg, numbers, on_leg in zip(stops[some], legs[some], between[some], marks):
                points = (point_at_mark(self._roads, leg, mark) if len(leg.arcs) else stop for mark in on_leg)
                found = zip(numbers, map(self._at, numbers, points), on_leg)
                yield [each for each in found if each[1].metres <= self._reach[each[0]] and self._is_in_range(*each[:2])]

    def _is_in_range(self, number: int, point: SnappedPoint) -> bool:
        """Whether a point of the trace may be at a place on a leg, by the direction of the arc there."""
        wanted = self._trace.ranges[number]
        return wanted is None or wanted.contains(bearing_at(self._roads, self._roads.arc(min(point.arcs)), point.fraction))

    def _at(self, number: int, point: SnappedPoint) -> SnappedPoint:
        """A point on a road that stands for one of the trace."""
        return point._replace(metres=round(metres_between(*self._trace.places[number], point.lon, point.lat), 6))


def directed(roads: RoadIndex, point: SnappedPoint, wanted: BearingRange | None) -> Iterator[SnappedPoint]:
    """A point on a road with the arcs of each direction, if that is in a range."""
    arcs = roads.edge(point.edge).arcs
    for is_along in (True, False):
        kept = {number: arc for number, arc in arcs.items() if arc.is_along == is_along}
        if kept and (wanted is None or wanted.contains(bearing_at(roads, next(iter(kept.values())), point.fraction))):
            yield roads.keep_arcs(point, kept)


def ahead(roads: RoadIndex, start: SnappedPoint, end: SnappedPoint) -> float | None:
    """The metres from a point to another along an arc of both, below 0 where it is behind; None where there is none."""
    if start.edge != end.edge or not start.arcs & end.arcs:
        return None
    edge = roads.edge(start.edge)
    share = end.fraction - start.fraction
    return (share if edge.arcs[min(start.arcs & end.arcs)].is_along else -share) * edge.metres


def confidence(chain: Chain, chosen: Sequence[int]) -> float:
    """The mean probability of the chosen states, of all ways by all states."""
    forward, backward = [chain.states[0].density], [np.zeros(len(chain.states[-1].points))]
    for state, ways in zip(chain.states[1:], chain.ways):
        forward.append(state.density + np.logaddexp.reduce(forward[-1][:, None] + ways, axis=0))
    for state, ways in zip(chain.states[:0:-1], reversed(chain.ways)):
        backward.append(np.logaddexp.reduce(ways + state.density + backward[-1], axis=1))
    whole = np.logaddexp.reduce(forward[-1])
    each = [float(before[state] + behind[state]) for before, behind, state in zip(forward, reversed(backward), chosen)]
    return float(np.exp(np.array(each) - whole).mean())


# Parts of legs


class Segments(NamedTuple):
    """The segments of lines of some legs that are driven: the number of the leg, the index of the arc on it, the shares of the arc at both
    ends, and these in degrees."""

    legs: Ints
    arcs: Ints
    shares: Floats
    ends: Floats


def driven_segments(roads: RoadIndex, legs: Sequence[Leg]) -> Segments:
    """The segments of legs, each with one or more."""
    begins, points = roads.arrays.arc_lines(np.concatenate([leg.arcs for leg in legs]))
    leg, index = expand(np.array([len(leg.arcs) for leg in legs]))
    firsts = np.flatnonzero(index == 0)
    drive = np.zeros(len(leg)), np.ones(len(leg))
    drive[0][firsts], drive[1][np.append(firsts[1:], len(leg)) - 1] = np.array([(leg.begin, leg.end) for leg in legs]).T
    of_point, _ = expand(np.diff(begins))
    rows = np.flatnonzero(of_point[1:] == of_point[:-1])
    arc, ends = of_point[rows], np.stack((points[rows], points[rows + 1])) / UNITS
    is_first = differs_from_previous(arc)
    metres = great_circle_metres(unit_vectors(*ends[0].T), unit_vectors(*ends[1].T))
    before = metres.cumsum() - metres
    before -= before[is_first][is_first.cumsum() - 1]
    low = before / np.maximum(np.bincount(arc, metres), 1e-9)[arc]
    high = np.append(low[1:], 0.0)
    high[np.append(is_first[1:], True)] = 1.0
    shares = np.stack((np.maximum(low, drive[0][arc]), np.minimum(high, drive[1][arc])))
    kept = np.flatnonzero(shares[0] <= shares[1] + 1e-9)
    cut, shares, ends = ((shares - low) / np.maximum(high - low, 1e-9))[:, kept], shares[:, kept], ends[:, kept]
    driven = ends.copy()
    for side, row in zip(*np.nonzero(cut != [[0.0], [1.0]])):  # (where a leg begins or ends within a segment)
        begin, end = ((lon, lat) for lon, lat in ends[:, row].tolist())
        driven[side, row] = interpolate_one(begin, end, float(cut[side, row]))
    return Segments(leg[arc[kept]], index[arc[kept]], shares, driven)


def nearest_marks(
    roads: RoadIndex, legs: Sequence[Leg], numbers: Sequence[Sequence[int]], places: Floats, reach: Floats
) -> Iterator[list[Mark]]:
    """For each leg the marks on it, in order along it, that are nearest to the places of some numbers; a place that is farther than its
    reach counts as that far. Without arcs there is one mark."""
    driven = [(leg, some) for leg, some in zip(legs, numbers) if some and len(leg.arcs)]
    rows = mark_costs(roads, [leg for leg, _ in driven], [some for _, some in driven], places, reach)
    for leg, some in zip(legs, numbers):
        yield marks_in_order([*itertools.islice(rows, len(some))]) if some and len(leg.arcs) else [(0, 0.0)] * len(some)


def mark_costs(
    roads: RoadIndex, legs: Sequence[Leg], numbers: Sequence[Sequence[int]], places: Floats, reach: Floats
) -> Iterator[tuple[Floats, Ints, Floats]]:
    """For each place on a leg, of one or more, the square of its metres to each segment, and the mark there."""
    if not legs:
        return
    segments = driven_segments(roads, legs)
    firsts = segments.legs.searchsorted(range(len(legs) + 1))
    chosen = np.array([*itertools.chain.from_iterable(numbers)])
    leg, _ = expand(np.array([*map(len, numbers)]))
    counts = np.diff(firsts)[leg]
    pair, position = expand(counts)
    rows = firsts[leg][pair] + position
    far, shares = nearest_on_segments(places[chosen][pair], segments.ends[:, rows])
    low, high = segments.shares[:, rows]
    columns = np.minimum(far, reach[chosen][pair]) ** 2, segments.arcs[rows], low + shares * (high - low)
    yield from zip(*(np.split(column, counts.cumsum()[:-1]) for column in columns))


def marks_in_order(rows: Sequence[tuple[Floats, Ints, Floats]]) -> list[Mark]:
    """The marks along a leg for which the sum of costs is least, by the cost of each place on each segment and the mark there."""
    sums = [rows[0][0]]
    for costs, *_ in rows[1:]:
        sums.append(costs + np.minimum.accumulate(sums[-1]))
    chosen, behind = list[int](), len(sums[0])
    for costs in reversed(sums):
        behind = int(costs[:behind].argmin()) + 1
        chosen.append(behind - 1)
    found = [(0, 0.0)]
    for (_, arcs, shares), at in zip(rows, reversed(chosen)):
        found.append(max(found[-1], (int(arcs[at]), float(shares[at]))))
    return found[1:]


def point_at_mark(roads: RoadIndex, leg: Leg, mark: Mark) -> SnappedPoint:
    """The point on a leg at a mark. No route leads from it or to it."""
    number = int(leg.arcs[mark[0]])
    arc = roads.arc(number)
    fraction, edge = roads.arc_fraction(arc, mark[1]), roads.edge(arc.edge)
    lon, lat = point_at(edge, fraction * edge.metres)
    return SnappedPoint(round(lon, 6), round(lat, 6), 0.0, arc.edge, fraction, {}, {}, (), frozenset((number,)), arc.name)


def parts_of(roads: RoadIndex, leg: Leg, marks: Sequence[Mark]) -> list[Leg]:
    """The parts of a leg between marks, which rise. Their weights sum to the leg's."""
    if not marks or not len(leg.arcs):
        return [leg] * (len(marks) + 1)
    sums: list[int] = offsets(leg.weights).tolist()
    whole: list[int] = roads.arrays.arc_weight[leg.arcs].tolist()
    last = len(leg.arcs) - 1

    def weight_at(arc: int, share: float) -> int:
        """The weight of the leg before a mark."""
        before = sums[arc] + round(share * whole[arc]) - (round(leg.begin * whole[0]) if arc == 0 else 0)
        return int(min(max(before, sums[arc]), sums[arc + 1]))

    stops = [(0, leg.begin, 0), *((arc, share, weight_at(arc, share)) for arc, share in marks), (last, leg.end, sums[-1])]
    found = []
    for (first, begin, before), (arc, end, behind) in itertools.pairwise(stops):
        if begin >= 1.0 and first < arc:
            first, begin = first + 1, 0.0
        if end <= 0.0 and arc > first:
            arc, end = arc - 1, 1.0
        weights = np.diff([before, *sums[first + 1 : arc + 1], behind])
        is_empty = first == arc and end <= begin and not weights.any()
        found.append(EMPTY_LEG if is_empty else Leg(behind - before, leg.arcs[first : arc + 1], weights, begin, end))
    return found


def needed(leg: Leg | None) -> Leg:
    """A leg that was found before. Raises NetworkError."""
    if leg is None:
        raise NetworkError("has no path where it had one", None)
    return leg
