"""Requests to the service on drawn networks: the whole answer is the model's, or the error has its code."""
import io
import itertools
import json
import math
import pathlib
import re
import tempfile
import urllib.parse
from collections.abc import Mapping, Sequence
from typing import Any
from unittest import mock

import pytest
from draws import (
    HEAVY, HIGHWAYS, KINDS, KNOWN, LIMITS, ORIGINS, WORDS, WRONG, Drawn, directions, drawn, networks, one_road, places, texts_of,
    write_network
)
from hypothesis import assume, given
from hypothesis import strategies as st
from model import answers, matching
from model.answers import Refused
from comparing import decoded, difference
from model.network import Ambiguous
from model.request import Request
from model.steps import modifier_of, turned

import domethyme
from domethyme_service import osrm, osrm_tables, osrm_trip, tiles
from domethyme_service.access import AccessPolicy
from domethyme_service.dataset import DatasetPaths, open_dataset
from domethyme_service.metrics import SharedMetrics
from domethyme_service.wsgi import Options, Service

pytestmark = pytest.mark.timeout(300)
REQUESTS = 6
# How many places a request of each service has, at most: the small numbers are likelier.
COUNTS = {"route": [2, 2, 2, 3, 4, 12], "nearest": [1], "table": [1, 2, 3, 6], "trip": [2, 3, 3, 4], "match": [2, 3, 4], "isochrone": [1]}
# Types of maneuvers whose modifiers are of the bearings before and after; and parameters that a request has more often than others.
MODIFIED = ("turn", "new name", "continue")
OFTEN = (
    "bearings", "approaches", "steps", "overview", "annotations", "waypoints", "snapping", "continue_straight", "sources",
    "destinations", "fallback_speed", "fallback_coordinate", "scale_factor", "roundtrip", "source", "destination"
)


def serve(drawn: Drawn, folder: pathlib.Path) -> Service:
    write_network(drawn, folder / "net")
    return open_service(folder / "net")


def open_service(prefix: pathlib.Path) -> Service:
    """The service of a network, in this process."""
    dataset = open_dataset(DatasetPaths(f"{prefix}.rch", str(prefix), towards=True))
    return Service(dataset, Options(AccessPolicy.from_options(["x"], "none")), SharedMetrics())


def environ_of(target: str, lines: str = "") -> dict[str, Any]:
    """WSGI's environ of a request, or of a batch of lines."""
    body = {"REQUEST_METHOD": "POST", "CONTENT_TYPE": "application/json", "CONTENT_LENGTH": str(len(lines))} if lines else {}
    return {
        "RAW_URI": target, "REQUEST_METHOD": "GET", "HTTP_HOST": "x", "SERVER_PROTOCOL": "HTTP/1.1", "REMOTE_ADDR": "127.0.0.1",
        "SERVER_NAME": "127.0.0.1", "wsgi.input": io.BytesIO(lines.encode()), **body,
    }


def ask(service: Service, target: str, lines: str = "", **more: str) -> tuple[int, Any]:
    """The status and the JSON of an answer, or of each of its lines for a batch of lines, with more keys in its environ."""
    begun: list[Any] = []
    body = b"".join(service({**environ_of(target, lines), **more}, lambda *head: begun.append(head)))
    return int(begun[0][0][:3]), [*map(json.loads, body.splitlines())] if lines else json.loads(body)


@st.composite
def requests(draw: Any, drawn: Drawn, service: str) -> tuple[Request, set[str]]:
    """A request, and the codes of the errors that its parameters may get: mostly none."""
    count, is_wrong = draw(st.sampled_from(COUNTS[service])), draw(st.integers(0, 5)) == 0
    where = draw(places(drawn.roads, count))
    texts = texts_of(service, count, directions(drawn.roads), is_wrong)
    names = (*OFTEN, *(["radiuses", "timestamps"] if service == "match" else []))
    often = [name for name in names for _ in range(4) if name in texts]
    chosen = draw(st.lists(st.sampled_from([*sorted(texts), *often]), min_size=3, max_size=9))
    rows = {name: draw(texts[name]) for name in dict.fromkeys(chosen)}
    return Request(service, where, {name: text for name, (text, _) in rows.items()}), {code for _, code in rows.values()} - {""}


def target(request: Request) -> str:
    where = ";".join(f"{lon:.7f},{lat:.7f}" for lon, lat in request.places)
    query = urllib.parse.urlencode(request.query)
    return f"/{request.service}/v1/car/{where}?{query}"


@drawn(300)
@given(st.data())
def test_routes_nearest_tables_and_trips(data: Any) -> None:
    made = data.draw(networks([*KINDS, HEAVY]))
    with tempfile.TemporaryDirectory() as folder, mock.patch.multiple(osrm_tables, NODE_CELLS=8, SUMMED_CELLS=8), \
            mock.patch.object(osrm_trip, "NODE_CELLS", 8), mock.patch.object(osrm, "SNAP_BATCH", 2):  # (so that these come in parts)
        service = serve(made, pathlib.Path(folder))
        for _ in range(REQUESTS):
            drawn_request = data.draw(requests(made, data.draw(st.sampled_from(["route", "route", "nearest", "table", "trip"]))))
            check(made, service, *drawn_request)
        nodes = st.integers(0, len(made.tables.nodes) - 1)
        check_nodes(made, service, data.draw(st.lists(st.tuples(nodes, nodes), min_size=1, max_size=3)))


@drawn(50)
@given(st.data())
def test_traces(data: Any) -> None:
    made = data.draw(networks(most=5))
    with tempfile.TemporaryDirectory() as folder, mock.patch("domethyme.network.matching.STEPS_AT_ONCE", 2):
        service = serve(made, pathlib.Path(folder))
        with domethyme.Hierarchy(f"{folder}/net.rch", network=f"{folder}/net") as hierarchy:
            for _ in range(REQUESTS):
                request, codes = data.draw(requests(made, "match"))
                check(made, service, request, codes)
                if not codes:
                    check_match(hierarchy, request, ask(service, target(request._replace(query={**request.query, "skip_waypoints": "false", "waypoints": ""})))[1])


def check_match(hierarchy: domethyme.Hierarchy, request: Request, found: Any) -> None:
    """The package matches the same points as the service."""
    seconds = [int(word) for word in request.words("timestamps") if word] or None
    deviation = matching.deviations(request) if request.value("radiuses") else None
    more: Any = {"gaps": request.value("gaps"), "tidy": request.has("tidy"), "deviation": deviation}
    match = hierarchy.match(request.places, seconds, bearings=request.bearings(), **{name: each for name, each in more.items() if each})
    ways: list[list[int]] = [[] for _ in found.get("matchings", [])]
    for number, point in enumerate(found.get("tracepoints", [])):
        place = match.places[number]
        assert (point is None) == (place is None)
        if place is not None:
            ways[point["matchings_index"]].append(number)
            assert point["location"] == [place.lon, place.lat]
    assert [way.points for way in match.matchings] == ways and (ways or not any(match.places))
    assert all(abs(way.confidence - each["confidence"]) < 1e-6 for way, each in zip(match.matchings, found.get("matchings", [])))


@drawn(40)
@given(st.data())
def test_isochrones(data: Any) -> None:
    """Not beside a pole, where the plane that contours are drawn in isn't the earth."""
    made = data.draw(networks(["duration", "distance"] * 4 + ["weight"], most=5, origins=[ORIGINS[0], ORIGINS[3]]))
    with tempfile.TemporaryDirectory() as folder:
        service = serve(made, pathlib.Path(folder))
        for _ in range(2):
            request, codes = data.draw(requests(made, "isochrone"))
            ends = sorted({arc.end for arc in made.roads.arcs} - {arc.start for arc in made.roads.arcs})
            if ends and data.draw(st.booleans()):  # (from which nothing is reached)
                request = request._replace(places=[made.roads.nodes[data.draw(st.sampled_from(ends))].place])
            limits = {"contours_minutes": ["0.02,0.5", "1,2", "0.1", "1,2,3,4"], "contours_meters": ["50,300", "700"]}
            unit = data.draw(st.sampled_from([*[made.roads.unit] * 9, "duration", "distance"]))
            own = "contours_minutes" if unit == "duration" else "contours_meters"
            check(made, service, request._replace(query={own: data.draw(st.sampled_from(limits[own])), **request.query}), codes)


@drawn(8)
@given(st.data())
def test_isochrones_beside_a_pole(data: Any) -> None:
    """Whatever they have there, it is on the earth."""
    made = data.draw(networks(["distance"], most=4, origins=[(30.0, 89.9935)]))
    roads = [arc for arc in made.roads.arcs if arc.highway != "ferry"]
    assume(roads and made.roads.unit == "distance")
    lon, lat = max((made.roads.nodes[arc.start] for arc in roads), key=lambda node: node.lat).place
    with tempfile.TemporaryDirectory() as folder:
        found = ask(serve(made, pathlib.Path(folder)), f"/isochrone/v1/car/{lon:.7f},{lat:.7f}?contours_meters=500")[1]["features"]
    texts = re.findall(r"\[([-.0-9e]+), ([-.0-9e]+)\]", str(found))
    assert all(abs(float(east)) <= 180 and abs(float(north)) <= 90 for east, north in texts)


def test_each_text_of_a_parameter(tmp_path: pathlib.Path) -> None:
    """Each valid text is answered, and each other one gets its code; also beside a word for another place, and for too many places."""
    service = serve(one_road((0.0, 0.0), (0.001, 0.0)), tmp_path)
    rows = [(what, name, *row) for what, texts in KNOWN.items() for name, codes in texts.items() for row in rows_of(codes)]
    rows += [("table", "sources", *row) for row in rows_of(KNOWN["table"]["destinations"])]
    rows += [("isochrone", "contours_minutes", text, "InvalidValue") for text in (*LIMITS, *WRONG)]
    rows += [("isochrone", "contours_meters", text, "InvalidValue") for text in (*LIMITS[:-1], *WRONG)]
    rows += [("table", "sources", "2", "InvalidValue"), ("table", "destinations", "0;2", "InvalidValue"),
             ("route", "waypoints", "0;2;1", "InvalidValue"), ("isochrone", "generalize", "1000000", ""),
             ("isochrone", "contours_meters", "1000000", "NotImplemented")]
    for what, name, text, code in [*rows, *(("route", name, *row) for name in WORDS for row in words_of(WORDS[name]))]:
        for endpoint in ["route", "nearest", "table", "trip", "match"] if what == "osrm" else [what]:
            where = [(0.0003, 0.0), (0.0007, 0.00001)] if endpoint in ("route", "table", "trip", "match") else [(0.0003, 0.0)]
            minutes = ",".join("1234"[: 1 + text.count(",") * (name == "contours_colors")])
            limits = {"contours_minutes": minutes} if endpoint == "isochrone" and name != "contours_meters" else {}
            status, found = ask(service, target(Request(endpoint, where, {**limits, name: text})))
            assert (status, found.get("code", "Ok")) == ((400, code) if code else (200, "Ok")), (endpoint, name, text, found)
    for endpoint, what in (("nearest", ""), ("route", ";0.0007,0")):  # (a place on a road is within 0 m)
        for lat, code in (("0", "Ok"), ("0.00001", "NoSegment")):
            assert ask(service, f"/{endpoint}/v1/car/0.0003,{lat}{what}?radiuses=0{';' if what else ''}")[1]["code"] == code


def rows_of(codes: Mapping[str, Sequence[str]]) -> list[tuple[str, str]]:
    return [(text, code) for code, texts in codes.items() for text in texts]


def words_of(codes: Mapping[str, Sequence[str]]) -> list[tuple[str, str]]:
    rows = [(f"{word};", code) for word, code in rows_of(codes) if word not in ("0", "10", "360,90")]
    return [*rows, *((f";{word}", code) for word, code in rows if code), (";;", "InvalidQuery"), (codes[""][0], "InvalidQuery")]


@drawn(90)
@given(st.data())
def test_tiles(data: Any) -> None:
    """Each step of each road is in the tile that has its middle, to the grid, with its kind, and from zoom 14 its name; below that once."""
    made = data.draw(networks(most=data.draw(st.sampled_from([3, 8])), origins=[ORIGINS[0], ORIGINS[1], ORIGINS[3]]))
    zoom = data.draw(st.sampled_from([16, 15, 14, 13, 9]))
    wide, wanted, around = 1024 << zoom, [], set()
    for edge in made.tables.edges:
        arc = made.tables.arcs[min(edge.arcs)]
        line = [(round((lon / 360 + 0.5) * wide), round((0.5 - math.asinh(math.tan(math.radians(lat))) / math.tau) * wide)) for lon, lat in edge.line]
        kind = (*HIGHWAYS, "ferry").index(arc.highway)
        for step in itertools.pairwise(line):
            wanted.append((min(kind, len(HIGHWAYS) - 1), arc.name, *step))
            x, y = step[0][0] + math.remainder(step[1][0] - step[0][0], wide) / 2, (step[0][1] + step[1][1]) / 2
            around |= {((x // 1024 + east) % (1 << zoom), y // 1024 + south) for east in (-1, 0, 1) for south in (-1, 0, 1)}
    assume(len(around) < 60)
    found = []
    with tempfile.TemporaryDirectory() as folder, mock.patch.object(tiles, "SEGMENTS_PER_CHUNK", 3):
        service = serve(made, pathlib.Path(folder))
        lons, lats = zip(*(point for edge in made.tables.edges for point in edge.line))
        lons = [lon % 360 for lon in lons] if max(lons) - min(lons) > 180 else lons
        assert ask(service, "/map/about")[1]["box"] == pytest.approx([min(lons), min(lats), max(lons), max(lats)], abs=1e-9)
        assert {ask(service, f"/map/roads/{zoom}/{x}/{y}")[0] for x, y in ((1 << zoom, 0), (0, 1 << zoom))} == {400}
        for x, y in ([*map(int, tile)] for tile in around):
            for road in ask(service, f"/map/roads/{zoom}/{x}/{y}")[1]["roads"]:
                names = [road["names"][number] for number in road["name"]] if zoom >= 14 else [""] * len(road["lines"])
                for line, name in zip(road["lines"], names, strict=True):
                    places = [*zip(*(itertools.accumulate(line[side::2], initial=start * 1024) for side, start in ((0, x), (1, y))))][1:]
                    steps = [sorted(step) for step in itertools.pairwise(places)]
                    assert all(abs((a[side] + b[side]) / 2048 - 0.5 - start) <= 0.502 for a, b in steps for side, start in ((0, x), (1, y)))
                    found += [(road["kind"], name, *step) for step in steps]

    def apart(one: Any, other: Any) -> float:
        return max(abs(math.remainder(one[0] - other[0], wide)), abs(one[1] - other[1]))

    def is_near(one: Any, other: Any) -> bool:
        is_there = any(max(map(apart, ends, other[2:])) <= 1 for ends in (one[2:], one[:1:-1]))
        return one[0] == other[0] and (zoom < 14 or one[1] == other[1]) and is_there

    assert all(any(is_near(step, other) for other in wanted) for step in found)
    assert all(any(is_near(step, other) for other in found) for step in wanted if apart(*step[2:]) > 2)
    assert len(set(found)) == len(found) if zoom < 14 else len(wanted) >= len(found)


def check_nodes(made: Drawn, service: Service, pairs: list[tuple[int, int]]) -> None:
    """Routes and lengths between nodes by number, and by key, of one pair and of a batch."""
    net, numbers = made.tables, [{"from": one + 1, "to": other + 1} for one, other in pairs]
    keys = [{"from_key": net.nodes[one].key, "to_key": net.nodes[other].key} if made.has_keys else {} for one, other in pairs]
    for words in (numbers, keys)[: 1 + made.has_keys]:
        lines = "".join(f"{json.dumps(each)}\n" for each in words)
        batches = [ask(service, f"/nodes/{what}", lines)[1] for what in ("routes", "lengths")]
        for (one, other), asked, number, key, *batched in zip(pairs, words, numbers, keys, *batches, strict=True):
            length, query = net.lengths({one: 0}).get(other), urllib.parse.urlencode(asked)
            expected = {**number, "length": length, **key}
            assert batched[1] == ask(service, f"/nodes/length?{query}")[1] == expected
            for found in (batched[0], ask(service, f"/nodes/route?{query}")[1]):
                nodes = found["nodes"] and [node - 1 for node in found["nodes"]]
                assert found == {**expected, "arcs": net.fewest_arcs(one, other), "nodes": found["nodes"]}
                assert nodes is None if length is None else net.is_path(nodes, one, other, length)
    if made.has_keys:
        key: Any = net.nodes[0].key
        wrong = [{"from_key": key, "to_key": each} for each in ("nowhere", f"{key} ", key.upper(), key[:-1], "", 1, True, None, [key])]
        errors = [ask(service, f"/nodes/length?{urllib.parse.urlencode(each)}")[1] for each in wrong[:2]]
        errors += ask(service, "/nodes/lengths", "\n".join(map(json.dumps, wrong)))[1]
        assert all(each["code"] == "InvalidValue" and each["message"].startswith("to_key ") for each in errors)


def check(made: Drawn, service: Service, request: Request, codes: set[str]) -> None:
    status, found = ask(service, target(request))
    try:
        expected = None if codes else getattr(answers, request.service)(made.roads, request)
    except Refused as refused:
        codes = set(refused.args)
    except Ambiguous:
        assert status in (200, 400), (target(request), found)
        return
    if codes:
        assert (status, found["code"] in codes, set(found)) == (400, True, {"code", "message"}), (target(request), found, codes)
    else:
        assert status == 200, (target(request), found)
        problem = difference(found, expected)
        assert not problem, (target(request), problem)
        assert request.service != "route" or fit_the_line(found, request), (target(request), found)
        assert have_their_modifiers(found), (target(request), found)


def have_their_modifiers(found: Any) -> bool:
    """Whether the modifiers of turns are those of the degrees between their bearings, which are integers."""
    routes = [route for name in ("routes", "trips", "matchings") for route in found.get(name, [])]
    turns = [step["maneuver"] for route in routes for leg in route["legs"] for step in leg["steps"]]
    rows = [(turn, turned(turn["bearing_after"] - turn["bearing_before"])) for turn in turns if turn["type"] in MODIFIED]
    return all(turn["modifier"] == modifier_of(angle) for turn, angle in rows)


def fit_the_line(found: Any, request: Request) -> bool:
    """Whether a route's annotations have a value for each step of its full line, and `nodes` one for each point."""
    route, steps = found["routes"][0], 0
    for leg in route["legs"]:
        counts = {len(values) - (name == "nodes" and len(values) > 0) for name, values in leg.get("annotation", {}).items()}
        steps += sum(counts)
        if len(counts) > 1:
            return False
    if not request.annotations() or request.value("overview") != "full":
        return True
    line = decoded(route["geometry"], request.value("geometries", "polyline"))
    return line is not None and (len(line) == steps + 1 or steps == 0 and line[0] == line[-1] and len(line) == 2)
