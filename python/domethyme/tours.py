"""The order of places in which a tour has the least length. Needs numpy.

Up to MAX_EXACT places all orders are searched: by Held and Karp (1962), the least length to each place by each set of places before.
Beyond, a tour is begun by farthest insertion. Parts of it are exchanged or turned where that makes it shorter, and it is disturbed and
improved again a fixed number of times, by one fixed sequence of random numbers: the answer is the same each time.
"""
import itertools
import random
import statistics
from collections.abc import Sequence
from typing import Literal

import numpy as np
from numpy.typing import NDArray


Lengths = NDArray[np.int64]
Order = list[int]
Source = Literal["any", "first"]
Destination = Literal["any", "last"]
# Places whose orders are all searched, and places of a tour.
MAX_EXACT, MAX_PLACES = 12, 500
# A length from which on there is no path: a tour with one is none. No sum of lengths below comes near the end of int64.
TOO_FAR = 1 << 52
# The nearest places of each to which new arcs lead, how often a tour is disturbed, and places of the parts that are exchanged then.
NEAR, KICKS, MAX_KICKED = 10, 1000, 10
# By how much a disturbed tour may be longer, on average, as a share of the median of its arcs' lengths.
WARMTH = 0.2


def best_order(lengths: Lengths, roundtrip: bool, source: Source, destination: Destination) -> Order | None:
    """The order of all places with the least sum of lengths, each from 0; None where there is none.

    lengths       from each place to each other, FAR for no path; at least one place
    roundtrip     whether the way from the last place back to the first one counts
    source        "first": place 0 comes first
    destination   "last": the last place comes last
    """
    count, first, last = len(lengths), source == "first", destination == "last"
    costs = np.minimum(lengths, TOO_FAR)
    if count == 1:
        return [0]
    if first and last:
        # both ends are one place of a closed tour, which is left as the first one is and reached as the last one is
        inner = range(1, count - 1)
        closed = costs[np.ix_([0, *inner], [count - 1, *inner])]
        found = least_tour(closed)
        order = [0, *rotated(found, 0)[1:], count - 1]
    elif roundtrip or first or last:
        start, closed = 0, costs.copy()
        if not roundtrip:
            # the way back to the first place, or on from the last one, costs nothing
            closed[(slice(None), 0) if first else (count - 1, slice(None))] = 0
        found = least_tour(closed)
        order = rotated(found, start) if first or not last else [*rotated(found, count - 1)[1:], count - 1]
    else:
        # one more place, to which and from which all ways cost nothing
        closed = np.zeros((count + 1, count + 1), np.int64)
        closed[:count, :count] = costs
        order = rotated(least_tour(closed), count)[1:]
    return order if tour_length(costs, order, roundtrip) < TOO_FAR else None


def tour_length(costs: Lengths, order: Sequence[int], roundtrip: bool) -> int:
    """The sum of the lengths from each place to the next one, and with `roundtrip` back to the first."""
    after = [*order[1:], *([order[0]] if roundtrip else [])]
    return int(costs[list(order[: len(after)]), after].sum())


def rotated(order: Order, first: int) -> Order:
    """A closed tour from another place on."""
    at = order.index(first)
    return order[at:] + order[:at]


def least_tour(costs: Lengths) -> Order:
    """A closed tour of little cost through all places, of the least one up to MAX_EXACT places and one more."""
    return exact_tour(costs) if len(costs) <= MAX_EXACT + 1 else Tour(costs).improved()


def exact_tour(costs: Lengths) -> Order:
    """The closed tour of the least cost. Memory and time grow as 2^n n and 2^n n^2."""
    count = len(costs) - 1  # (of the places but the last one, at which tours begin and end)
    if count < 2:
        return list(range(len(costs)))
    between, sizes = costs[:count, :count], popcounts(count)
    # by the set of places that a way from the last one has gone through, and by the place at which it is
    least = np.full((1 << count, count), TOO_FAR * (count + 1))
    before = np.zeros((1 << count, count), np.int8)
    least[1 << np.arange(count), np.arange(count)] = costs[count, :count]
    for size in range(1, count):
        sets = np.flatnonzero(sizes == size)
        for place in range(count):
            some = sets[sets >> place & 1 == 0]
            ways = least[some] + between[:, place]
            before[some | 1 << place, place] = ways.argmin(axis=1)
            least[some | 1 << place, place] = ways.min(axis=1)
    chosen, place, order = (1 << count) - 1, int((least[-1] + costs[:count, count]).argmin()), list[int]()
    while chosen:
        order.append(place)
        chosen, place = chosen & ~(1 << place), int(before[chosen, place])
    return [count, *order[::-1]]


def popcounts(bits: int) -> NDArray[np.int64]:
    """How many bits each number below 2^bits has."""
    return np.asarray((np.arange(1 << bits)[:, None] >> np.arange(bits) & 1).sum(axis=1))


class Tour:
    """A closed tour through all places that is made shorter step by step: `_order` has its places, and `_at` where each is in it."""

    def __init__(self, costs: Lengths) -> None:
        count = len(costs)
        order = costs.copy()
        np.fill_diagonal(order, np.iinfo(np.int64).max)
        self._costs: list[list[int]] = costs.tolist()
        self._near: list[list[int]] = np.argsort(order, axis=1, kind="stable")[:, : min(NEAR, count - 1)].tolist()
        self._order, self._at = farthest_insertion(costs), [0] * count
        self._place(0, count)

    def improved(self) -> Order:
        """The best tour that is found by moves, and by kicks that are taken back where the tour is too much longer behind them."""
        drawn = random.Random(1)
        self._improve(self._order[::-1])
        arcs = [self._costs[place][after] for place, after in zip(self._order, [*self._order[1:], self._order[0]])]
        cost = least = sum(arcs)
        best, warmth = self._order[:], WARMTH * statistics.median(arcs)
        for _ in range(KICKS):
            kept = self._order[:], self._at[:]
            longer = self._kick(drawn)
            if longer > warmth * drawn.expovariate(1):
                self._order, self._at = kept
                continue
            cost += longer
            if cost < least:
                least, best = cost, self._order[:]
        return best

    def _kick(self, drawn: random.Random) -> int:
        """Puts three short parts that follow each other into the opposite order (a double bridge: Martin, Otto, Felten 1991), and
        improves the tour there. Returns by how much it is longer."""
        count, costs = len(self._order), self._costs
        at, most = drawn.randrange(count), min(MAX_KICKED, (count - 1) // 3)
        one, two, three = (drawn.randint(1, most) for _ in range(3))
        cuts = [self._order[(at + more) % count] for end in (0, one, one + two, one + two + three) for more in (end, end + 1)]
        before, first, first_end, second, second_end, third, third_end, after = cuts
        longer = costs[before][third] + costs[third_end][second] + costs[second_end][first] + costs[first_end][after]
        longer -= sum(costs[place][other] for place, other in zip(cuts[::2], cuts[1::2]))
        self._exchange(at + 1, one, two + three)
        self._exchange(self._at[before] + 1, two, three)
        return longer - self._improve(cuts)

    def _improve(self, waiting: Order) -> int:
        """Makes moves with a new arc from these places, and from those at each move and before them, until none makes the tour shorter.
        Returns by how much it is shorter."""
        are_waiting, shorter = set(waiting), 0
        while waiting:
            place = waiting.pop()
            are_waiting.discard(place)
            while found := self._move(place):
                shorter += found[0]
                for other in found[1]:
                    for each in (other, self._order[self._at[other] - 1]):
                        if each not in are_waiting:
                            are_waiting.add(each)
                            waiting.append(each)
        return shorter

    def _move(self, place: int) -> tuple[int, Order] | None:
        """Makes a move with a new arc from a place to one that is nearer than the one behind it. The part between them is turned with
        the other end, or exchanged with a part that follows (Or's moves of parts are such exchanges). Returns by how much the tour is
        shorter, and the places at the cuts; None if no such move makes it shorter."""
        costs, order, at, count = self._costs, self._order, self._at, len(self._order)
        here = at[place]
        first = order[here + 1 - count]
        step = costs[place][first]
        for other in self._near[place]:
            gain = step - costs[place][other]
            if gain <= 0:
                break
            behind, last = order[at[other] + 1 - count], order[at[other] - 1]
            size = (at[other] - here) % count
            turned = gain + costs[other][behind] - costs[first][behind]
            if turned > 0 and (turned := turned - self._turning(here + 1, size)) > 0:
                self._turn(here + 1, size)
                return turned, [place, first, other, behind]
            gain += costs[last][other]
            for after in self._near[last]:
                if gain <= costs[last][after]:
                    break
                more = ((at[after] - here) % count or count) - size
                end = order[at[after] - 1]
                if more > 0 and (exchanged := gain - costs[last][after] + costs[end][after] - costs[end][first]) > 0:
                    self._exchange(here + 1, size - 1, more)
                    return exchanged, [place, first, last, other, end, after]
        return None

    def _turning(self, start: int, size: int) -> int:
        """By how much a part is longer against its direction."""
        order, count, costs = self._order, len(self._order), self._costs
        part = [order[at - count] for at in range(start, start + size)]
        return sum(costs[after][place] - costs[place][after] for place, after in itertools.pairwise(part))

    def _turn(self, start: int, size: int) -> None:
        """Turns the part of so many places from one on."""
        start = self._begin_at(start, size)
        self._order[start : start + size] = self._order[start : start + size][::-1]
        self._place(start, size)

    def _exchange(self, start: int, one: int, other: int) -> None:
        """Exchanges two parts that follow each other. Of them and the rest of the tour it is the largest that stays where it is."""
        rest = len(self._order) - one - other
        if one > max(other, rest):
            start, one, other = start + one, other, rest
        elif other > rest:
            start, one, other = start + one + other, rest, one
        start = self._begin_at(start, one + other)
        middle, end = start + one, start + one + other
        self._order[start:end] = self._order[middle:end] + self._order[start:middle]
        self._place(start, one + other)

    def _begin_at(self, start: int, size: int) -> int:
        """Where a part begins in `_order`, which begins with the part if that would go beyond its end."""
        start %= len(self._order)
        if start + size <= len(self._order):
            return start
        self._order = self._order[start:] + self._order[:start]
        self._place(0, len(self._order))
        return 0

    def _place(self, start: int, size: int) -> None:
        """Writes where the places of a part are."""
        for at in range(start, start + size):
            self._at[self._order[at]] = at


def farthest_insertion(costs: Lengths) -> Order:
    """A closed tour to which the place that is farthest from it was added each time, where that costs least."""
    both = costs + costs.T
    np.fill_diagonal(both, -1)
    first, second = (int(place) for place in np.unravel_index(both.argmax(), both.shape))
    order, away = [first, second], np.minimum(both[first], both[second])
    away[[first, second]] = -1
    for _ in range(len(costs) - 2):
        place = int(away.argmax())
        tour = np.array(order)
        after = np.roll(tour, -1)
        order.insert(int((costs[tour, place] + costs[place, after] - costs[tour, after]).argmin()) + 1, place)
        away = np.minimum(away, both[place])
        away[order] = -1
    return order
