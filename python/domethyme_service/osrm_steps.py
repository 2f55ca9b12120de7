"""The steps of a leg as JSON, by the rules of domethyme.network.steps. A step has the intersections that it passes."""
import functools
import itertools
from collections.abc import Iterator, Sequence
from typing import NamedTuple

import numpy as np
from numpy.typing import NDArray

from domethyme.network.columns import TEXTS
from domethyme.network.groups import Ints
from domethyme.network.junctions import Junctions, junctions
from domethyme.network.leg_geometry import RouteGeometry, Totals
from domethyme.network.snapping import RoadIndex
from domethyme.network.steps import TURNS, RouteSteps

from .json_text import Texts, join_array, point_texts, string_json
from .osrm_geometry import line_string, polylines_json

# The first members of a maneuver, by the numbers of TURNS.
TURN_MEMBERS = [f'"type":"{kind}","modifier":"{modifier}"' for kind, modifier in TURNS]
# The texts of bearings, from 0 to 360.
BEARINGS = [*map(str, range(361))]
DEPART, ARRIVE = '"type":"depart"', '"type":"arrive"'
# The columns of arc_texts that steps have.
NAME_COLUMNS = [TEXTS.index(name) for name in ("name", "ref", "destination")]
# What a step's JSON has of its totals: a weight, seconds or null, and metres.
StepTotals = tuple[str, str, str]


class LegSteps(NamedTuple):
    """The steps of a leg as JSON, and the text of its summary."""

    text: str
    summary: str


class RoadTexts(NamedTuple):
    """The name of a road, and as JSON its name and the members with its refs and destinations, if it has any."""

    name: str
    name_json: str
    more: str

    @classmethod
    @functools.lru_cache(1 << 12)
    def of(cls, name: str, ref: str, destinations: str) -> "RoadTexts":
        """Semicolons between refs and destinations become "; " and ", "."""
        more = f',"ref":{string_json("; ".join(part.strip() for part in ref.split(";")))}' if ref else ""
        if destinations:
            more += f',"destinations":{string_json(", ".join(part.strip() for part in destinations.split(";")))}'
        return cls(name, string_json(name), more)


class StepBuilder(RouteSteps):
    """The steps of a route's legs as JSON."""

    def __init__(self, geometry: RouteGeometry) -> None:
        super().__init__(geometry)
        self.modes = [mode_json(self.roads, is_ferry) for is_ferry in (False, True)]

    def steps(self, locations: Sequence[str], shapes: Sequence[str], passed: list[str]) -> tuple[list[str], list[RoadTexts]]:
        """The JSON of the steps without arrivals, from that of their beginnings, of their lines and of the junctions that they pass; and the
        texts of their roads."""
        roads = self.road_texts()
        before = np.where(self.is_leg_first, 0, self.last_bearings[self.begins - 1]).tolist()
        after = self.first_bearings[self.begins].tolist()
        totals = totals_json(self.geometry.totals(self.begins, self.ends))
        ways = self.modes_of(self.begins)
        for step in self.is_leg_first.nonzero()[0].tolist():
            passed[step] = f'{intersection_json(locations[step], after[step], "out")}{"," if passed[step] else ""}{passed[step]}'
        return [*map(step_json, self.maneuvers(), locations, before, after, roads, totals, shapes, passed, ways)], roads

    def modes_of(self, arcs: NDArray[np.int64]) -> list[str]:
        """The members that say how one is on the way on some of the arcs."""
        return [self.modes[is_on] for is_on in self.is_on_ferry[arcs].tolist()]

    def junctions(self) -> Junctions:
        """Those that steps begin at, but the first one of a leg, or pass."""
        geometry = self.geometry
        is_begin = np.zeros(len(geometry.arcs) + 1, bool)
        is_begin[self.begins] = True
        is_there = self.is_junction.copy()
        is_there[geometry.joints] = False
        is_there |= is_begin[:-1]
        is_there[geometry.first[geometry.first < len(is_there)]] = False
        arcs = is_there.nonzero()[0]
        return junctions(geometry, arcs, is_begin[arcs])

    def intersections(self, found: Junctions, locations: Sequence[str]) -> list[str]:
        """The JSON of the junctions of each step, at these places, with commas between."""
        texts = intersection_texts(found, locations)
        bounds = found.arcs.searchsorted(np.append(self.begins, len(self.geometry.arcs))).tolist()
        return [",".join(texts[low:high]) for low, high in itertools.pairwise(bounds)]

    def road_texts(self) -> list[RoadTexts]:
        """The texts of each step's road, each row of texts once."""
        texts, rows = self.roads.texts, self.rows[self.named].tolist()
        different = [*dict.fromkeys(rows)]
        numbers = self.roads.arrays.row_texts[np.array(different)].tolist()
        known = {row: RoadTexts.of(*(texts[some[column]] for column in NAME_COLUMNS)) for row, some in zip(different, numbers)}
        return [known[row] for row in rows]

    def maneuvers(self) -> list[str]:
        """The first members of each step's maneuver: its type, its modifier, and the exit of a roundabout that it leaves."""
        found = [TURN_MEMBERS[number] for number in self.turns]
        for step in self.is_leg_first.nonzero()[0].tolist():
            found[step] = DEPART
        for step in self.roundabouts:
            way_out = self.exit_of(step)
            found[step] += "" if way_out is None else f',"exit":{way_out}'
        return found


def intersection_texts(found: Junctions, locations: Sequence[str]) -> list[str]:
    """The JSON of junctions at these places."""
    flags, bearings = found.entries.tobytes(), [*map(BEARINGS.__getitem__, found.bearings.tolist())]
    rows = zip(locations, itertools.pairwise(found.begins.tolist()), found.into.tolist(), found.out.tolist())
    return [
        f'{{"location":{location},"bearings":[{",".join(bearings[low:high])}],{ways_json(flags[low:high], into, out)}'
        for location, (low, high), into, out in rows
    ]


@functools.lru_cache(1 << 12)
def ways_json(flags: bytes, into: int, out: int) -> str:
    """The end of a junction's JSON: which of its roads may be entered, by 0 or 1 for each, and by which a route comes and goes on."""
    return f'"entry":[{",".join("true" if flag else "false" for flag in flags)}],"in":{into},"out":{out}}}'


def intersection_json(location: str, bearing: int, side: str) -> str:
    """The intersection at which a leg begins, or ends: it has one road, by which the route goes out, or comes in."""
    return f'{{"location":{location},"bearings":[{bearing}],"entry":[true],"{side}":0}}'


def mode_json(roads: RoadIndex, is_on_ferry: bool = False) -> str:
    """The members of a step that say how one is on the way."""
    return f'"mode":"{"ferry" if is_on_ferry else roads.arrays.mode}","driving_side":"{roads.arrays.driving_side}"'


def totals_json(totals: Totals) -> Iterator[StepTotals]:
    """The totals of steps; seconds may be the weights."""
    weights = [*map(repr, totals.weights.tolist())]
    seconds = itertools.repeat("null") if totals.seconds is None else map(repr, totals.seconds.tolist())
    return zip(weights, weights if totals.seconds is totals.weights else seconds, map(repr, totals.metres.tolist()))


def step_json(
    turn: str, location: str, before: int, after: int, road: RoadTexts, totals: StepTotals, shape: str, passed: str, mode: str
) -> str:
    """An OSRM step, by its turn and the bearings before and after it; `passed` is the JSON of its intersections, `mode` what `mode_json`
    returns."""
    weight, seconds, metres = totals
    return (
        f'{{"maneuver":{{{turn},"location":{location},"bearing_before":{before},"bearing_after":{after}}},"name":{road.name_json},{mode},'
        f'"weight":{weight},"duration":{seconds},"distance":{metres},"geometry":{shape},'
        f'"intersections":[{passed}]{road.more}}}'
    )


def build_steps(geometry: RouteGeometry, format_: str, shown: Texts | None) -> list[LegSteps]:
    """The steps of each leg, with geometries as `format_`; `shown` are the texts of `geometry.shown_and_ends`, for GeoJSON."""
    points = geometry.shown_and_ends
    places = np.arange(len(geometry.shown), len(points))
    count, begins, behind, chosen, bounds = len(places), places, places + 1, places, [0] * len(places)
    if len(geometry.arcs):
        builder = StepBuilder(geometry)
        at_junctions, (firsts, after) = builder.junctions(), geometry.slices(builder.begins, builder.ends)
        begins, behind = np.concatenate((places, firsts)), np.concatenate((places + 1, after))
        chosen = np.append(begins, geometry.slices(at_junctions.arcs, at_junctions.arcs + 1)[0])
        bounds = builder.begins.searchsorted(geometry.first).tolist()
    # one look for all texts: of places, of steps, and of junctions
    shapes = shapes_of(points, shown, begins, behind, format_)
    locations = point_texts(points.take(chosen, axis=0), 6).all_rows() if shown is None else shown.rows(chosen)
    texts, roads, last_bearings, last_modes = list[str](), list[RoadTexts](), list[int](), list[str]()
    if len(geometry.arcs):
        passed = builder.intersections(at_junctions, locations[len(begins) :])
        texts, roads = builder.steps(locations[count:], shapes[count:], passed)
        lasts = geometry.first[1:] - 1
        last_bearings, last_modes = builder.last_bearings[lasts].tolist(), builder.modes_of(lasts)
    nothing, standing = ("0.0", "0.0" if geometry.roads.has_seconds else "null", "0.0"), mode_json(geometry.roads)
    found = []
    for leg, (low, high) in enumerate(itertools.pairwise(bounds)):
        some, names = texts[low:high], roads[low:high]
        before, mode = (last_bearings[leg], last_modes[leg]) if some else (0, standing)
        if not some:
            names = [RoadTexts.of("", "", "")]
            crossing = intersection_json(locations[leg], 0, "out")
            some = [step_json(DEPART, locations[leg], 0, 0, names[0], nothing, shapes[leg], crossing, mode)]
        arrival, place = names[-1]._replace(more=""), locations[leg + 1]
        crossing = intersection_json(place, (before + 180) % 360, "in")
        some.append(step_json(ARRIVE, place, before, 0, arrival, nothing, shapes[leg + 1], crossing, mode))
        found.append(LegSteps(join_array(some), ", ".join(first_names(names))))
    return found


def first_names(roads: Sequence[RoadTexts]) -> list[str]:
    """The first two names."""
    first = next((road.name for road in roads if road.name), "")
    return [first, *itertools.islice((road.name for road in roads if road.name not in ("", first)), 1)] if first else []


def shapes_of(points: Ints, texts: Texts | None, firsts: Ints, behind: Ints, format_: str) -> list[str]:
    """The JSON of the lines points[firsts[k]:behind[k]], of which `texts` are those of all points, for GeoJSON; of two equal points if it
    is of one."""
    if texts is None:
        return polylines_json(points, firsts, behind, format_)
    arrays = zip(texts.arrays(firsts, behind), (behind - firsts == 1).tolist())
    return [line_string(f"{array[:-1]},{array[1:]}" if is_point else array) for array, is_point in arrays]
