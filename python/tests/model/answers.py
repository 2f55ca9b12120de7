"""The answers of the service to requests: what docs/SERVICE.md has of each endpoint with places."""
import contextlib
import functools
import itertools
import math
from collections.abc import Iterator, Sequence
from typing import Any

from comparing import AnyOf, Contour, Holds, Line, Near, Others, Simplified, difference

from . import matching
from .alternatives import STRETCH, all_ways, weight
from .network import Ambiguous, Network, SnappedPoint
from .request import ANNOTATIONS, Request
from .sphere import Point, along, clip, metres_between
from .steps import METRES, Leg, figures, near, steps

# The roundings of metres to a point as it is shown, and of probabilities; and up to how many answers one is compared with.
STANDING, TRUST, MOST = 0.2, 1e-3, 256
TEXT = Holds("a text", lambda value: isinstance(value, str))
SHAPES = {"true": ("Polygon", "MultiPolygon"), "false": ("LineString", "MultiLineString")}
Points = Sequence[SnappedPoint]


class Refused(Exception):
    """An error, by its code."""


def refuse(code: str, is_refused: bool) -> None:
    if is_refused:
        raise Refused(code)


def choices(options: Sequence[Sequence[Any]], most: int = MOST) -> Iterator[tuple[Any, ...]]:
    """One of each, in all ways. Raises Ambiguous if these are too many."""
    if math.prod(map(len, options)) > most:
        raise Ambiguous
    return itertools.product(*options)


def part_lines(network: Network, leg: Leg) -> list[list[Point]]:
    """The points of the parts of arcs that are driven."""
    rows = ((network.arcs[arc].line, begin, stop) for arc, begin, stop, _ in leg)
    return [[*line] if (begin, stop) == (0, 1) else clip(line, begin, stop) for line, begin, stop in rows]


def leg_line(network: Network, start: SnappedPoint, leg: Leg, end: SnappedPoint) -> list[Point]:
    """The points of a leg, from one snapped point to the next."""
    return [start.place, *itertools.chain(*part_lines(network, leg)), end.place]


def waypoints(network: Network, request: Request, **members: Points) -> dict[str, list[dict[str, Any]]]:
    """The members of an answer with snapped points, if these are asked for."""
    def shown(point: SnappedPoint) -> dict[str, Any]:
        name = next(filter(None, (network.arcs[arc].name for arc in network.edges[point.edge].arcs)), "")
        hint = {} if request.value("generate_hints") == "false" else {"hint": TEXT}
        return {"name": name, "location": near(point.place), "distance": Near(point.metres, 2e-5), **hint}

    return {} if request.has("skip_waypoints") else {name: [*map(shown, points)] for name, points in members.items()}


def places_on_roads(network: Network, request: Request) -> list[SnappedPoint]:
    curbs, is_any = [word == "curb" for word in request.words("approaches")], request.value("snapping") == "any"
    found = [network.snap(*each, is_any) for each in zip(request.places, request.radiuses(), request.bearings(), curbs)]
    refuse("NoSegment", None in found)
    return [point for point in found if point is not None]


def route(network: Network, request: Request) -> Any:
    """The route by all places in order: any whose legs are shortest; and between two places others of little more weight."""
    points, asked = places_on_roads(network, request), request.value("alternatives", "false")
    most = min(3, int({"true": "1", "false": "0"}.get(asked, asked))) if len(points) == 2 else 0
    shown, options = waypoints(network, request, waypoints=points), [network.legs(*ends) for ends in itertools.pairwise(points)]
    refuse("NoRoute", not all(options))
    every = straight_legs(network, points) if request.has("continue_straight") else choices(options)
    wholes = [route_along(network, request, points, legs, request.stops()) for legs in every]

    def is_other(route: dict[str, Any]) -> bool:
        with contextlib.suppress(Ambiguous):
            ways = all_ways(network, points[0], points[1], STRETCH * weight(options[0][0]))
            return any(not difference(route, route_along(network, request, points, [way], [0, 1])) for way in ways)
        return True

    return AnyOf([{"code": "Ok", "routes": Others(whole, most, is_other), **shown} for whole in wholes])


def straight_legs(network: Network, points: Points) -> list[tuple[Leg, ...]]:
    """All legs that weigh least together of those that go on in their direction at each point within a road but both ends."""
    every = choices([points[:1], *(by_direction(network, point) for point in points[1:-1]), points[-1:]], MOST // 16)
    ways = [[network.legs(*ends) for ends in itertools.pairwise(some)] for some in every]
    whole = [(sum(part[3] for options in way for part in options[0]), way) for way in ways if all(way)]
    refuse("NoRoute", not whole)
    least = [way for weight, way in whole if weight == min(whole, key=lambda row: row[0])[0]]
    return [legs for way in least for legs in choices(way, MOST // len(least))]


def by_direction(network: Network, point: SnappedPoint) -> list[SnappedPoint]:
    """A point once for each direction of its road, or as it is at a node."""
    arcs = network.edges[point.edge].arcs
    sides = [frozenset(arc for arc in point.arcs or arcs if arcs[arc] == way) for way in (True, False)]
    return [point] if point.node is not None else [point._replace(arcs=side) for side in sides if side]


def trip(network: Network, request: Request) -> Any:
    """The route by all places in an order for which it weighs least: any of those orders, with any of the shortest legs."""
    points, count = places_on_roads(network, request), len(request.places)
    legs = {pair: network.legs(*(points[place] for place in pair)) for pair in itertools.permutations(range(count), 2)}
    found = []
    for order in itertools.permutations(range(count)):
        stops = order if request.value("roundtrip") == "false" else (*order, order[0])
        ways = [legs[step] for step in itertools.pairwise(stops)]
        is_asked = order[0] == 0 or request.value("source") != "first"
        if is_asked and (order[-1] == count - 1 or request.value("destination") != "last") and all(ways):
            found.append((sum(part[3] for way in ways for part in way[0]), stops, ways))
    refuse("NoTrips", not found)
    answers, least = [], min(weight for weight, *_ in found)
    for stops, ways in ((stops, ways) for weight, stops, ways in found if weight == least):
        shown = waypoints(network, request, waypoints=points)
        for place, each in enumerate(shown.get("waypoints", [])):
            each |= {"trips_index": 0, "waypoint_index": stops.index(place)}
        for some in choices(ways, MOST // len(found)):
            whole = route_along(network, request, [points[place] for place in stops], some, range(len(stops)))
            answers.append({"code": "Ok", "trips": [whole], **shown})
    return AnyOf(answers)


def match(network: Network, request: Request) -> Any:
    """The ways that a trace is matched to: any of those that are as probable."""
    options, answers = matching.ways(network, request), []
    refuse("NoMatch", not options)
    asked = {*request.stops()} if request.value("waypoints") else set[int]()
    for some in choices(options):
        # (which points have a match doesn't depend on which of equally probable ways is taken)
        refuse("NoMatch", not asked <= {number for way in some for number in way.numbers})
        points, matchings = list[Any]([None] * len(request.places)), []
        for index, way in enumerate(some):
            ends = way.numbers[0], way.numbers[-1]
            stops = [at for at, number in enumerate(way.numbers) if number in ends or number in request.stops()]
            whole = route_along(network, request, way.places, way.legs, stops)
            matchings.append({**whole, "confidence": Near(way.confidence, TRUST)})
            for at, shown in enumerate(waypoints(network, request, places=way.places).get("places", [])):
                shown |= {"matchings_index": index, "waypoint_index": stops.index(at) if at in stops else None}
                points[way.numbers[at]] = shown
                if at > 0 and way.places[at].place == way.places[at - 1].place:  # (it stands: metres are to what is shown)
                    shown["distance"] = Near(way.places[at].metres, STANDING)
        tracepoints = {} if request.has("skip_waypoints") else {"tracepoints": points}
        answers.append({"code": "Ok", "matchings": matchings, **tracepoints})
    return AnyOf(answers)


def route_along(network: Network, request: Request, points: Points, ways: Sequence[Leg], stops: Sequence[int]) -> dict[str, Any]:
    """The route by these points and the ways from each to the next. A leg is all from a stop, a point's number, to the next."""
    form, overview, lines = request.value("geometries", "polyline"), request.value("overview", "simplified"), []
    whole: dict[str, Any] = {"legs": [], "weight_name": network.unit, **figures(network, *ways)}
    for first, last in itertools.pairwise(stops):
        ends, leg, total = (points[first], points[last]), [*itertools.chain(*ways[first:last])], figures(network, *ways[first:last])
        lines.append(leg_line(network, ends[0], leg, ends[1]))
        found = {"summary": "", "steps": [], **total}
        if request.has("steps"):
            found["steps"] = shown = steps(network, ends, leg, part_lines(network, leg), form)
            names = [*dict.fromkeys(step["name"] for step in shown if step["name"])] if isinstance(shown, list) else None
            found["summary"] = TEXT if names is None else ", ".join(names[:2])
        if request.annotations():
            found["annotation"] = annotation(network, leg, request.annotations(), total)
        whole["legs"].append(found)
    if overview != "false":
        whole["geometry"] = Line([*itertools.chain(*lines)], form) if overview == "full" else Simplified(lines, form)
    return whole


def annotation(network: Network, leg: Leg, names: Sequence[str], total: dict[str, Any]) -> dict[str, Any]:
    """The annotations of a leg, for each step of its line: figures are an arc's by metres; speeds and nodes are those of arcs."""
    parts = [{name: each.value if each else 0.0 for name, each in figures(network, [part]).items()} for part in leg]
    is_long, is_slow = all(part["distance"] > 30 for part in parts), all(part["duration"] > 0.5 for part in parts)
    rows: dict[str, list[Any]] = {**{name: [] for name in ANNOTATIONS}, "nodes": [0]}
    for (arc, begin, stop, _), points, part in zip(leg, part_lines(network, leg), parts):
        line = along([(round(lon, 6), round(lat, 6)) for lon, lat in points])
        shares = [(behind - before) / line[-1] for before, behind in itertools.pairwise(line) if behind > before]
        for name, whole in part.items():
            rows[name] += (Near(share * whole, 0.005 + 0.01 * whole) for share in shares)
        speed = part["distance"] / (part["duration"] or math.inf)
        rows["speed"] += [Near(speed, 0.002 + 0.01 * speed)] * len(shares)
        rows["datasources"] += [0] * len(shares)
        start, end = (network.nodes[node].osm or 0 for node in network.arcs[arc][:2])
        rows["nodes"][-1:] = [start if begin == 0 else 0, *[0] * (len(shares) - 1), end if stop == 1 else 0]

    def rule(name: str, found: list[Any]) -> bool:
        if name in ("duration", "speed") and not network.has_seconds:
            return all(value is None for value in found)
        if is_long and len(found) == len(rows[name]) and (is_slow or name != "speed") and difference(found, rows[name]):
            return False
        if name in total:
            step = 0.005 if name == "distance" else 0.0006
            return not found or bool(abs(sum(found) - total[name].value) <= step * len(found) + total[name].tolerance)
        known = {*rows["nodes"]} if name == "nodes" else {0}
        return name == "speed" or {*found} <= known and all(type(value) is int for value in found)

    return {name: Holds(f"{name} of {total}, {rows[name]}", functools.partial(rule, name)) for name in names}


def nearest(network: Network, request: Request) -> Any:
    """The nearest points of roads, one of each edge, the nearest first, with the ids of the ends of its edge's first arc."""
    (place,), (radius,), (bearings,) = request.places, request.radiuses(), request.bearings()
    rows = network.by_distance(place, bearings, request.value("approaches") == "curb", request.value("snapping") == "any")
    inside = itertools.takewhile(lambda row: row[0] <= radius, rows)
    points = [point for _, point in inside if point is not None][: int(request.value("number", "1"))]
    refuse("NoSegment", not points)
    shown = waypoints(network, request, waypoints=points)
    for point, each in zip(points, shown.get("waypoints", [])):
        each["nodes"] = [network.nodes[node].osm or 0 for node in network.arcs[next(iter(network.edges[point.edge].arcs))][:2]]
    return {"code": "Ok", **shown}


def table(network: Network, request: Request) -> Any:
    """Tables of durations, distances and weights."""
    names = request.value("annotations", "duration").split(",")
    refuse("NotImplemented", "duration" in names and not network.has_seconds)
    points, sides = places_on_roads(network, request), [request.numbers(name) for name in ("sources", "destinations")]
    pairs = [[(row, column) for column in sides[1]] for row in sides[0]]
    legs = [[network.legs(*(points[number] for number in pair)) for pair in row] for row in pairs]
    cells = [[cell(network, request, points, *each) for each in zip(*rows)] for rows in zip(pairs, legs)]
    found: dict[str, Any] = {f"{name}s": [[each[name] for each in row] for row in cells] for name in names}
    if request.value("fallback_speed"):
        found["fallback_speed_cells"] = [[at, place] for at, row in enumerate(legs) for place, some in enumerate(row) if not some]
    starts, ends = ([points[number] for number in side] for side in sides)
    return {"code": "Ok", **found, **waypoints(network, request, sources=starts, destinations=ends)}


def cell(network: Network, request: Request, points: Points, pair: tuple[int, int], legs: Sequence[Leg]) -> dict[str, Any]:
    """A cell of a table: any of the shortest legs has its figures; without one a guess by `fallback_speed`, or None."""
    scale, speed = float(request.value("scale_factor", "1")), float(request.value("fallback_speed", "0"))
    totals = [figures(network, leg) for leg in legs]
    if not legs and speed:
        is_snapped = request.value("fallback_coordinate") == "snapped"  # (the metres are between the points as they are shown)
        metres = metres_between(*(points[number].place if is_snapped else request.places[number] for number in pair))
        off = (STANDING / speed, STANDING) if is_snapped else (METRES, METRES)
        guess: dict[str, Any] = {"duration": Near(metres / speed, off[0]), "distance": Near(metres, off[1])}
        totals = [{**guess, "weight": guess.get(network.unit)}]
    for total in totals:
        if duration := total["duration"]:
            total["duration"] = Near(duration.value * scale, duration.tolerance * (1 + scale))
    return {name: AnyOf([total[name] for total in totals]) if totals else None for name in ("duration", "distance", "weight")}


def isochrone(network: Network, request: Request) -> Any:
    """What is reached from a place within minutes or metres, or leads to it, the greatest contour first."""
    minutes, colors = request.value("contours_minutes"), request.value("contours_colors").split(",")
    metric, unit, factor = ("time", "duration", 60_000) if minutes else ("distance", "distance", 100)
    asked = [float(text) for text in (minutes or request.value("contours_meters")).split(",")]
    refuse("NotImplemented", network.unit != unit)
    refuse("InvalidValue", colors != [""] and len(colors) != len(asked))
    points, driven = places_on_roads(network, request), network.turned if request.has("reverse") else network
    metres, is_whole = float(request.value("generalize", "0")), request.value("denoise", "0") == "0"
    features = []
    for number, value in reversed([*enumerate(asked)]):
        color = Holds("a colour", lambda text: str(text).startswith("#")) if colors == [""] else f"#{colors[number]}"
        properties: dict[str, Any] = {"contour": int(value) if value.is_integer() else value, "metric": metric}
        properties |= dict.fromkeys(("color", "fill", "fillColor"), color)
        properties |= dict.fromkeys(("opacity", "fill-opacity", "fillOpacity"), 0.33)
        kinds = SHAPES[request.value("polygons", "false")]
        shape = Contour(driven, points, round(value * factor), kinds, metres, is_whole)
        features.append({"type": "Feature", "properties": properties, "geometry": shape})
    return {"type": "FeatureCollection", "features": features}
