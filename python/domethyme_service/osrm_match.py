"""OSRM's match: the way of a vehicle along roads, by the places where it was measured to be (domethyme.network.matching)."""
import functools

from domethyme.network.bearings import BearingRange
from domethyme.network.matching import Matcher, Trace

from .costs import Work, things
from .errors import RequestError
from .json_text import figure_json, join_array
from .osrm import Engine, Way, route_parts, waypoint_json
from .osrm_geometry import Budget
from .osrm_request import Request
from .parameters import BEARINGS, DEVIATIONS, GAPS, SKIP_WAYPOINTS, TIDY, TIMESTAMPS, WAYPOINTS


def match(engine: Engine, request: Request) -> str:
    """The ways that a trace is matched to, and for each of its points where it is on one, or null. Raises RequestError where it is
    nowhere, and where a point of `waypoints` is."""
    values = request.values
    ranges = [bearing and BearingRange(*bearing) for bearing in values[BEARINGS]]
    trace = Trace(request.places, values.get(TIMESTAMPS), values[DEVIATIONS], ranges)
    engine.meter.spend(Work.TRACE, len(request.places))
    sums = functools.partial(engine.queries.table_sums, names=["distance"])
    matcher = Matcher(engine.queries.between, sums, engine.roads, trace)
    found = matcher.ways(values[GAPS] == "split", values[TIDY] == "true")
    if not found:
        raise RequestError(400, "NoMatch", "no two points of the trace are on roads with a way between them")
    chosen = values[WAYPOINTS] or range(len(request.places))
    if lost := sorted(set(values[WAYPOINTS] or ()) - {point for way in found for point in way.points}):
        raise RequestError(400, "NoMatch", f"place {lost[0]} is one of waypoints, and has no match")
    budget = Budget(engine.meter, things(values))
    parts = list[str]()
    tracepoints = ["null"] * len(request.places)
    for number, way in enumerate(found):
        last = len(way.points) - 1
        stops = [at for at, point in enumerate(way.points) if at in (0, last) or point in chosen]
        more = {"confidence": figure_json(round(way.confidence, 6))}
        parts += [",", *route_parts(engine, request, Way(way.places, way.legs, stops), budget, more)]
        index = {at: index for index, at in enumerate(stops)}
        for at, (point, place) in enumerate(zip(way.points, way.places)):
            shown = f',"matchings_index":{number},"waypoint_index":{index.get(at, "null")}'
            tracepoints[point] = waypoint_json(request, place, shown)
    points = f',"tracepoints":{join_array(tracepoints)}' if values[SKIP_WAYPOINTS] != "true" else ""
    return "".join(('{"code":"Ok","matchings":[', *parts[1:], f"]{points}}}"))
