"""What requests cost. A request's cost is computed from its parameters before any work: a sum of numbers of things, such as roads
that are looked at or calls of the library, each with a price in units, which are some microseconds of a processor. The same prices
are counted while it is answered (Meter). So what a request may do depends on no clock, and how long its path is decides nothing.

    up to SHORT   it is answered at once
    up to MOST    it is a long request, which needs a slot (slots.Slots); so is one that passes SHORT while it is answered
    beyond        it is refused as TooBig, before or while it is answered
"""
import collections
import enum
import itertools
import math
from collections.abc import Callable, Sequence
from typing import NamedTuple

from domethyme.network.geo import Point
from domethyme.network.matching import MAX_ROADS, STEPS_AT_ONCE

from .errors import too_big
from .parameters import (
    ALTERNATIVES, ANNOTATIONS, BEARINGS, CONTINUE_STRAIGHT, CONTOURS_METERS, CONTOURS_MINUTES, DESTINATIONS, DEVIATIONS, NUMBER, OVERVIEW,
    ROUNDTRIP, SOURCES, STEPS,
    TABLE_ANNOTATIONS, Values
)

SHORT, MOST = 250_000, 10_000_000
# Nodes in a contour, from which on one of more takes no longer: it is drawn on a coarser grid.
MOST_DRAWN = 150_000
# Units between two calls of a meter's `tick`.
TICK = 20_000


class Work(enum.Enum):
    """What is counted, by its price in units and what it is."""

    PLACE = 400, "a place, or a point of a road that is found for it"
    ROAD = 1.5, "a road that is looked at: how far it is from a place"
    PAIR = 250, "a call of the library for the path of a pair of nodes"
    NODE = 1.3, "a node of a path"
    BEARING = 10_000, "a place with a bearing: the directions of roads around it"
    ROW = 2, "a row of a table of the library, and as much for each 10,000 links of its selection"
    SUM = 0.5, "a cell of a table of the library with sums, for each sum"
    REACH = 0.1, "a node of the hierarchy, where what is reached is computed"
    CONTOUR = 200_000, "a contour that is drawn"
    DRAWN = 15, f"a node that is reached, for each contour, of {MOST_DRAWN:,} at most"
    CELL = 1, "a cell of a table"
    STOP = 10_000, "a place of a trip, whose order is searched for"
    TRACE = 500, "a place of a trace: roads near it, and which ways lead there"
    POINT = 2, "a point of a leg's line, and as much for each thing that is written of it"
    LINE = 5, "a line of a batch"
    TILE = 50_000, "a tile of the map"
    BYTE = 0.01, "a byte of a table"

    def __init__(self, units: float, text: str) -> None:
        self.units, self.text = units, text


class NeedsSlot(Exception):
    """The request is a long one, or has become one, and has no slot."""


class Size(NamedTuple):
    """How large the served files are: the nodes and links of the hierarchy, and of the network the points of its lines for each
    node and the degrees from one end of its bounding box to the other. `alternatives` is how many other routes are searched for at most."""

    nodes: int
    links: int
    points: float = 0.0
    degrees: float = 0.0
    alternatives: int = 0


# Degrees that are driven in a minute at 130 km/h, and those of a metre.
DEGREES_A_MINUTE, DEGREES_A_METRE = 0.0195, 9e-6
# The cost of a request in units, by the names of Work and of VARIABLES.
Formula = Callable[[dict[str, float]], float]
VARIABLES = {
    "P": "places",
    "B": "places with a bearing",
    "K": "points that are asked for (`number`)",
    "G": "legs: one for each two places, or four with `continue_straight=true`",
    "W": "nodes of all legs, of each 2 √N or less by the distance of its places",
    "V": "points of all legs, by W, and as many more for each annotation, for steps and for the overview",
    "M": "rows of a table: two for each different source, or place of a trip",
    "L": "links of a table's selection: those of the hierarchy, or 20 √N for each different destination, if these are fewer",
    "Z": "cells of a table",
    "S": "sums between nodes: for a table four for each different source and destination, and each annotation that isn't the weight. "
    f"For each place of a trace {STEPS_AT_ONCE} times the square of its deviation in metres, to {2 * MAX_ROADS}",
    "A": "other routes that are asked for (`alternatives`), to 3; 0 if none are searched for",
    "U": "1 if other routes are searched for, else 0",
    "C": "contours",
    "N": "nodes of the hierarchy",
    "R": "nodes that are reached, of all contours, by the area that can be reached at 130 km/h",
    "T": "lines of the body, one for each 20 bytes",
}


def formula(text: str) -> Formula:
    """A formula by its text, which is Python's and has only names of Work and of VARIABLES."""
    prices, names = {work.name: work.units for work in Work}, compile(text, "a cost", "eval").co_names
    assert {*names} <= prices.keys() | VARIABLES.keys(), text
    cost = eval(f"lambda {''.join(f'{name}, ' for name in names if name in VARIABLES)}**_: {text}", {"__builtins__": {}, **prices})
    return lambda variables: float(cost(**variables))


class Meter:
    """Counts what a request costs while it is answered. `tick` is called every TICK units: it may be what reports that the process is
    alive. `counts` are those of the request, by Work."""

    def __init__(self) -> None:
        self.tick: Callable[[], object] = lambda: None
        self.begin(0, True)

    def begin(self, cost: float, has_slot: bool, is_in_blocks: bool = False) -> None:
        """A request of this cost begins, which has a slot or not. Raises NeedsSlot for a long one without, and RequestError for one
        beyond MOST, unless it is answered in blocks."""
        self.counts = collections.Counter[Work]()
        self.spent, self._next_tick, self._has_slot = 0.0, float(TICK), has_slot
        self._allowed = MOST if has_slot else SHORT
        if cost > MOST and not is_in_blocks:
            raise too_big(f"the request would cost {cost:,.0f} units, and may cost {MOST:,}: ask for less at once")
        if cost > SHORT and not has_slot:
            raise NeedsSlot

    def next_block(self) -> None:
        """The next block of an answer in blocks begins, of which each may cost MOST."""
        self.spent, self._next_tick, self._has_slot, self._allowed = 0.0, float(TICK), True, MOST

    def spend(self, work: Work, count: float = 1) -> None:
        """Adds what was done, or is about to be. Raises as `begin` does, once it is more than is allowed."""
        self.counts[work] += count  # type: ignore[assignment] # (a count of Counter may be a fraction)
        self.spent += work.units * count
        if self.spent > self._allowed:
            if not self._has_slot:
                raise NeedsSlot
            raise too_big(f"the answer costs more than {MOST:,} units: ask for less at once")
        if self.spent > self._next_tick:
            self._next_tick = self.spent + TICK
            self.tick()


def expected(size: Size, places: Sequence[Point], values: Values, unit: str) -> dict[str, float]:
    """The variables of a request with places; `unit` is that of the network's weights."""
    found: dict[str, float] = {"S": 0, "P": len(places), "B": sum(map(bool, values[BEARINGS])), "N": size.nodes}
    if NUMBER in values:
        return {**found, "K": values[NUMBER]}
    places = [*itertools.accumulate(places, lesser_way)]
    legs, rows, cells = [math.dist(*ends) for ends in itertools.pairwise(places)], 0, 0
    if SOURCES in values:
        sources, destinations = values[SOURCES], values[DESTINATIONS]
        different = len({*sources}), len({*destinations})
        sums = len({*values[TABLE_ANNOTATIONS]} - {unit, "weight"})
        legs, rows, found["S"] = [], 2 * different[0], 4 * sums * different[0] * different[1]
        cells = len(sources) * len(destinations)
        found["L"] = selected_links(size.nodes, size.links, 2 * different[1])
    if ROUNDTRIP in values:
        legs, rows, cells = [between_two(places)] * len(places), 2 * len(places), len(places) ** 2
        found["L"] = selected_links(size.nodes, size.links, 2 * len(places))
    others = min(values.get(ALTERNATIVES, 0), size.alternatives) if len(places) == 2 else 0
    nodes = sum(path_nodes(size, degrees) for degrees in legs)
    asked = 4 if values.get(CONTINUE_STRAIGHT) == "true" else 1
    if DEVIATIONS in values:
        found["S"] = sum(STEPS_AT_ONCE * min(each, 2 * MAX_ROADS) ** 2 for each in values[DEVIATIONS])
    found |= {"G": asked * len(legs), "W": asked * nodes, "V": nodes * size.points * things(values), "M": rows, "Z": cells}
    found |= {"A": others, "U": min(others, 1)}
    minutes, metres = values.get(CONTOURS_MINUTES) or (), values.get(CONTOURS_METERS) or ()
    circles = [*(DEGREES_A_MINUTE * each for each in minutes), *(DEGREES_A_METRE * each for each in metres)]
    # (a box that is as high as wide has half the square of its diagonal)
    shares = (min(1.0, 2 * math.pi * (radius / (size.degrees or 1.0)) ** 2) for radius in circles)
    return {**found, "C": len(circles), "R": sum(min(size.nodes * share, MOST_DRAWN) for share in shares)}


def lesser_way(last: Point, place: Point) -> Point:
    """A place by the lesser way round from the last one, so its longitude may be beyond 180."""
    return last[0] + math.remainder(place[0] - last[0], 360), place[1]


def between_two(places: Sequence[Point]) -> float:
    """The degrees between two of some places: in a square those are 0.37 of its diagonal."""
    return 0.37 * math.dist(*([ends(side) for side in zip(*places)] for ends in (min, max)))


def things(values: Values) -> int:
    """How many things are made of each point of a leg: its line, the overview, steps, and annotations."""
    is_asked: list[bool] = [values.get(STEPS) == "true", values.get(OVERVIEW, "false") != "false"]
    names: list[str] = values.get(ANNOTATIONS, [])
    return 1 + len(names) + sum(is_asked)


def path_nodes(size: Size, degrees: float = math.inf) -> float:
    """The nodes of a path between places that are so far apart, as they are expected."""
    return 2 * math.sqrt(size.nodes) * min(1.0, degrees / (size.degrees or 1.0))


def selected_links(nodes: int, links: int, targets: int) -> float:
    """The links of a table's selection, those from which a way leads up to its targets, as they are expected."""
    return min(links, 10 * math.sqrt(nodes) * targets)
