"""OSRM's API, version 1: route, nearest and table. Answers are JSON with its members. A route is a shortest path, by
`weight`, between the points of roads that are nearest to the places, as the library proves."""
import binascii
import itertools
import math
from collections.abc import Iterable, Iterator, Sequence
from typing import NamedTuple

import numpy as np

from domethyme.network.alternatives import alternatives
from domethyme.network.bearings import Approach, BearingRange, at_curb, nearest_by_approach
from domethyme.network.leg_geometry import LegTotals, RouteGeometry, leg_totals
from domethyme.network.legs import Leg, find_legs
from domethyme.network.snapping import RoadIndex, SnappedPoint

from .costs import Meter, Work, things
from .errors import RequestError
from .json_text import Texts, figure_json, join_array, join_object, point_texts, string_json
from .osrm_geometry import Budget, annotations_json, join_lines, line_json, simplify_lines
from .osrm_request import Request
from .osrm_steps import LegSteps, build_steps
from .parameters import (
    ALTERNATIVES, ANNOTATIONS, APPROACHES, BEARINGS, CONTINUE_STRAIGHT, GENERATE_HINTS, GEOMETRIES, NUMBER, OVERVIEW, RADIUSES, SKIP_WAYPOINTS, SNAPPING,
    STEPS, WAYPOINTS
)
from .queries import Queries

# A place is near the network if it is within this many degrees of the bounding box of its roads.
NEAR_DEGREES = 0.2
# The approaches of an endpoint without the parameter, which has one place.
NOWHERE = [False]
# Places that are snapped at once.
SNAP_BATCH = 128


class Engine(NamedTuple):
    """What answers requests, and counts what they cost. `max_cells` is the limit of a table's cells."""

    queries: Queries
    roads: RoadIndex
    max_cells: int
    meter: Meter


def nearest(engine: Engine, request: Request) -> str:
    """The nearest points of roads, with the OpenStreetMap ids of the nodes at the ends of their edges; 0 is none."""
    roads = engine.roads
    points = snap_candidates(engine, request, 0, request.values[NUMBER])
    if not points:
        raise no_segment_error(roads, request, 0)
    arcs = [next(iter(roads.edge(snapped.edge).arcs.values())) for snapped in points]
    ids = roads.osm_ids(np.array([[arc.start, arc.end] for arc in arcs])).tolist()
    found = (waypoint_json(request, snapped, f',"nodes":[{start},{end}]') for snapped, (start, end) in zip(points, ids))
    is_shown = request.values[SKIP_WAYPOINTS] != "true"
    return join_object({"code": '"Ok"', **({"waypoints": join_array(found)} if is_shown else {})})


def snap_candidates(engine: Engine, request: Request, number: int, count: int) -> list[SnappedPoint]:
    """The nearest points of roads to a place, within its radius and its bearing."""
    place, radius, bearing = request.places[number], request.values[RADIUSES][number], request.values[BEARINGS][number]
    is_curb = request.values.get(APPROACHES, NOWHERE)[number]
    engine.meter.spend(Work.PLACE, count)
    is_any = may_be_any(request)
    if bearing is None and count == 1:
        found = [snapped for snapped in engine.roads.nearest_within([place], [radius], is_any) if snapped is not None]
        return [at_curb(engine.roads, place, snapped) or snapped for snapped in found] if is_curb else found
    if bearing is not None:
        engine.meter.spend(Work.BEARING)
    approach = Approach(bearing and BearingRange(*bearing), is_curb)
    return nearest_by_approach(engine.roads, place, count, approach, radius, is_any)


def may_be_any(request: Request) -> bool:
    """Whether a place may be on a ferry."""
    return request.values.get(SNAPPING) == "any"


def snap_places(engine: Engine, request: Request) -> list[SnappedPoint]:
    """The nearest point of a road to each place. Raises RequestError if there is none within a place's radius."""
    places = request.places
    points: Iterable[SnappedPoint | None]
    if any(request.values[BEARINGS]):
        points = (next(iter(snap_candidates(engine, request, number, 1)), None) for number in range(len(places)))
    else:
        parts = (slice(begin, begin + SNAP_BATCH) for begin in range(0, len(places), SNAP_BATCH))
        points = itertools.chain.from_iterable(snap_part(engine, request, part) for part in parts)
    found: list[SnappedPoint] = []
    for snapped in points:
        if snapped is None:
            raise no_segment_error(engine.roads, request, len(found))
        found.append(snapped)
    return found


def snap_part(engine: Engine, request: Request, part: slice) -> Iterable[SnappedPoint | None]:
    places, radiuses = request.places[part], request.values[RADIUSES][part]
    engine.meter.spend(Work.PLACE, len(places))
    found = engine.roads.nearest_within(places, radiuses, may_be_any(request))
    if not any(curbs := request.values.get(APPROACHES, NOWHERE)[part]):
        return found
    rows = zip(places, found, curbs)
    return (at_curb(engine.roads, place, point) if is_curb and point is not None else point for place, point, is_curb in rows)


def no_segment_error(roads: RoadIndex, request: Request, number: int) -> RequestError:
    """A place without a road near it: which place, its radius, and the bounding box of the roads."""
    (lon, lat), radius = request.places[number], request.values[RADIUSES][number]
    west, south, east, north = roads.box

    def is_near(x: float, y: float) -> bool:
        return west - NEAR_DEGREES <= x <= east + NEAR_DEGREES and south - NEAR_DEGREES <= y <= north + NEAR_DEGREES

    hint = "; is it LAT,LON?" if is_near(lat, lon) and not is_near(lon, lat) else ""
    what = "road of that bearing" if request.values[BEARINGS][number] else "road"
    where = f"within {radius:g} m of" if math.isfinite(radius) else "for"
    return RequestError(
        400, "NoSegment",
        f"there is no {what} {where} place {number}, {lon:g},{lat:g} (LON,LAT{hint}). "
        f"The roads are from {west:.4f},{south:.4f} to {east:.4f},{north:.4f}. No segment for coordinate {number}",
    )


def waypoint_json(request: Request, snapped: SnappedPoint, more: str = "") -> str:
    """An OSRM waypoint, with more members. Clients send its hint back, and the service ignores it."""
    if request.values[GENERATE_HINTS] == "true":
        more = f',"hint":"{binascii.b2a_base64(f"{snapped.lon:.6f},{snapped.lat:.6f}".encode(), newline=False).decode()}"{more}'
    location, metres = f"{snapped.lon!r},{snapped.lat!r}", round(snapped.metres, 6)
    return f'{{"name":{string_json(snapped.name)},"location":[{location}],"distance":{metres!r}{more}}}'


def waypoints(request: Request, points: Sequence[SnappedPoint], **lists: Iterable[int]) -> dict[str, str]:
    """The members of an answer with waypoints, by the numbers of their points, unless they are to be skipped."""
    if request.values[SKIP_WAYPOINTS] == "true":
        return {}
    shown = [waypoint_json(request, snapped) for snapped in points]
    return {name: join_array(shown[number] for number in some) for name, some in lists.items()}


def route(engine: Engine, request: Request) -> str:
    """The route by all places in order, a leg from each, or of those in `waypoints` from each of these, to the next. Raises RequestError
    if there is no path."""
    points = snap_places(engine, request)
    return route_by(engine, request, points, "routes", waypoints(request, points, waypoints=range(len(points))), request.values[ALTERNATIVES])


def route_by(
    engine: Engine, request: Request, points: Sequence[SnappedPoint], name: str, more: dict[str, str], others: int = 0
) -> str:
    """The answer whose member of this name has the route by some points in order, and between two up to so many others if the service
    searches for them; and more members. Raises RequestError if a leg has no path."""
    queries, stops = engine.queries, request.values.get(WAYPOINTS)
    legs = find_legs(queries.between, engine.roads, points, request.values.get(CONTINUE_STRAIGHT) == "true")
    if isinstance(legs, int):
        raise RequestError(400, "NoRoute", f"there is no route from place {legs} to place {legs + 1}")
    count, budget = min(others, queries.alternatives) if len(legs) == 1 else 0, Budget(engine.meter, things(request.values))
    found = alternatives(engine.roads, points[0], points[1], legs[0], queries.between, queries.reach, count) if count else []
    every = [Way(points, each, stops or range(len(points))) for each in (legs, *([leg] for leg in found))]
    parts = [part for way in every for part in (",", *route_parts(engine, request, way, budget, {}))]
    return "".join([f'{{"code":"Ok","{name}":[', *parts[1:], "]," if more else "]", join_object(more)[1:]])


class Way(NamedTuple):
    """A route: the parts between points, one more than parts, and the stops, the numbers of those between which its legs lead."""

    points: Sequence[SnappedPoint]
    parts: Sequence[Leg]
    stops: Sequence[int]


def route_parts(engine: Engine, request: Request, way: Way, budget: Budget, more: dict[str, str]) -> list[str]:
    """The parts of the text of a route, with more members. (Its legs may be long: they are copied once.)"""
    roads = engine.roads
    totals = [leg_totals(roads, way.parts[first:last]) for first, last in itertools.pairwise(way.stops)]
    weight, duration, distance = (round(sum(value or 0.0 for value in column), 3) for column in zip(*totals))
    geometry = RouteGeometry(roads, way.parts, way.points, way.stops) if needs_points(request) else None
    if geometry is not None:
        budget.spend(geometry.point_count)
    whole = {
        "weight_name": string_json(roads.unit), "weight": figure_json(weight),
        "duration": figure_json(duration if roads.has_seconds else None), "distance": figure_json(distance), **more,
    }
    texts = None
    if geometry is not None and request.values[GEOMETRIES] == "geojson" and shows_all_points(request):
        texts = point_texts(geometry.shown_and_ends, 6)
    if geometry is not None and request.values[OVERVIEW] != "false":
        lines = geometry.lines()
        line = join_lines(simplify_lines(lines, budget) if request.values[OVERVIEW] == "simplified" else lines)
        is_shown = texts is not None and len(lines) == 1 and len(line) == len(geometry.shown)
        whole["geometry"] = line_json(line, request.values[GEOMETRIES], texts if is_shown else None)
    legs = [part for leg in leg_parts(request, totals, geometry, texts) for part in (",", *leg)]
    return ['{"legs":[', *legs[1:], f"],{join_object(whole)[1:]}"]


def shows_all_points(request: Request) -> bool:
    """Whether an answer shows all points of the route."""
    return bool(request.values[OVERVIEW] == "full" or request.values[STEPS] == "true")


def needs_points(request: Request) -> bool:
    """Whether an answer shows points of the route."""
    values = request.values
    return values[OVERVIEW] != "false" or values[STEPS] == "true" or bool(values[ANNOTATIONS])


def leg_parts(
    request: Request, totals: Sequence[LegTotals], geometry: RouteGeometry | None, texts: Texts | None
) -> Iterator[Sequence[str]]:
    """The parts of the texts of a route's OSRM legs, with their totals. `texts` are those of the points that are shown and of the legs' ends, if any."""
    steps: Iterable[LegSteps] = itertools.repeat(LegSteps("[]", ""))
    annotations: Iterable[Sequence[str]] = itertools.repeat(())
    if geometry is not None and request.values[STEPS] == "true":
        steps = build_steps(geometry, request.values[GEOMETRIES], texts)
    if geometry is not None and request.values[ANNOTATIONS]:
        annotations = ((',"annotation":', text) for text in annotations_json(geometry, request.values[ANNOTATIONS]))
    for some, annotation, (weight, duration, distance) in zip(steps, annotations, totals):
        figures = f',"weight":{figure_json(weight)},"duration":{figure_json(duration)},"distance":{figure_json(distance)}'
        yield f'{{"summary":{string_json(some.summary)},"steps":', some.text, figures, *annotation, "}"
