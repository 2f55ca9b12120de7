"""Networks and requests that are drawn for the generated tests, with Hypothesis; and the files of a network that was drawn.

In the gate the draws are the same each time. By hand `DRAWS=5000 python/tests/run generated` takes new ones, so many for each
test, and makes a draw that fails smaller before it is printed.
"""
import contextlib
import csv
import io
import itertools
import math
import os
import pathlib
import re
import sys
from collections.abc import Callable, Mapping, Sequence
from typing import Any, NamedTuple
from unittest import mock

import numpy as np
import pytest
from hypothesis import HealthCheck, Phase, settings
from hypothesis import strategies as st
from model.network import Arc, Network, Node
from model.request import ANNOTATIONS
from model.sphere import Point, along, bearing, point_at

import domethyme
from domethyme.maps import turn_restrictions

UNITS = 10**7
# The classes of ways, by their numbers: the place of each is the kind that maps have.
HIGHWAYS = ("trunk", "primary_link", "secondary", "tertiary", "residential", "track")
# Where networks lie: a town, both sides of the 180th meridian, near a pole, and where both degrees change their signs.
ORIGINS = [(9.5, 47.1), (179.9995, -17.0), (30.0, 89.95), (0.0, 0.0)]
# What weights are, and whether arcs have seconds.
KINDS = ("duration", "distance", "weight", "weight alone")
HEAVY = "weights of which two have more than 32 bits"
NAMES = ("", "", "High Street", "Mill Lane", "Rue de l'Été; \"Nord\"")
REFS, JUNCTIONS = ("", "", "B12; E60;A1"), ("", "", "", "roundabout", "circular")


def drawn(count: int) -> Callable[[Any], Any]:
    """Settings of a test of so many draws in the gate."""
    asked = os.environ.get("DRAWS")
    checks = [HealthCheck.too_slow, HealthCheck.filter_too_much, HealthCheck.data_too_large, HealthCheck.function_scoped_fixture]
    phases = [Phase.generate, *([Phase.shrink] if asked else [])]
    return settings(
        max_examples=int(asked or count), derandomize=not asked, deadline=None, database=None, suppress_health_check=checks,
        print_blob=True, phases=phases
    )


class Drawn(NamedTuple):
    """A network: `roads` as it was drawn, where turns may be forbidden, and `tables` as its tables have it, where junctions
    are split instead; and whether nodes have keys."""

    roads: Network
    tables: Network
    has_keys: bool


def key_of(number: int) -> str:
    return f"node {number}" if number % 2 else f'B\xf6"\\{number}'


@st.composite
def networks(draw: Any, kinds: Sequence[str] = KINDS, most: int = 8, origins: Sequence[Point] = ORIGINS) -> Drawn:
    origin, kind, has_keys = draw(st.sampled_from(origins)), draw(st.sampled_from(kinds)), draw(st.booleans())
    count, scale = draw(st.integers(2, most)), draw(st.sampled_from([1, 1, 1, 1, 100])) if origin[1] < 80 else 1
    points = [draw(points_near(origin, scale)) for _ in range(count)]
    nodes = []
    for number, point in enumerate(points):
        is_there_again = draw(st.integers(0, 9)) == 0  # (two junctions that are split in one place differ by their ids)
        point = points[draw(st.integers(0, number))] if is_there_again else point
        is_there_again |= point in [node.place for node in nodes]
        key = key_of(number) if has_keys else str(number + 1)
        osm = 40 + number if is_there_again else draw(st.sampled_from([None, 40 + number]))
        nodes.append(Node(point[0], point[1], key, osm))
    arcs: list[Arc] = []
    end = draw(st.integers(0, count - 1))
    for way in range(draw(st.integers(1, 2 * most))):
        start = end if draw(st.booleans()) else draw(st.integers(0, count - 1))
        end = draw(st.integers(0, count - 1))
        inner = [draw(points_near(origin, scale)) for _ in range(draw(st.sampled_from([0, 0, 1, 2, 4])))]
        line = (nodes[start].place, *inner, nodes[end].place)
        if draw(st.integers(0, 7)) == 0:  # (a point twice)
            at = draw(st.integers(0, len(line) - 1))
            line = (*line[:at], *line[at:][:1], *line[at:])
        bent = [arc for arc in arcs if len(arc.line) > 2]
        if bent and draw(st.integers(0, 5)) == 0:  # (by all points of another way)
            start, end, *_, line = draw(st.sampled_from(bent))[:6]
            start, end, line = (start, end, line) if draw(st.booleans()) else (end, start, line[::-1])
        highway = "ferry" if draw(st.integers(0, 4)) == 0 else HIGHWAYS[(way + 1) % len(HIGHWAYS)]
        texts = way + 1, *(draw(st.sampled_from(some)) for some in (NAMES, REFS, REFS, JUNCTIONS)), highway
        arcs.append(draw_arc(draw, kind, start, end, line, texts))
        if draw(st.booleans()):
            turned = {"track": "ferry", "ferry": "track"}.get(highway, HIGHWAYS[0])
            other = texts[0], draw(st.sampled_from(NAMES)), *texts[2:-1], turned
            arcs.append(draw_arc(draw, kind, end, start, line[::-1], other if draw(st.integers(0, 3)) == 0 else texts))
        if draw(st.integers(0, 5)) == 0:
            arcs.append(draw_arc(draw, kind, start, end, line, texts))
    has_ring = draw(st.integers(0, 3)) == 0  # (at the end of a road of the same name)
    if has_ring:
        end, inner = draw(st.integers(0, count - 1)), [draw(points_near(origin, scale)) for _ in range(3)]
        nodes.append(Node(*inner[0], key_of(count) if has_keys else str(count + 1)))
        texts = draw(st.sampled_from(NAMES)), "", "", "", HIGHWAYS[0]
        for way, other, line in ((2 * most + 1, end, (inner[0], nodes[end].place)), (2 * most + 2, count, (*inner, inner[0]))):
            arcs.append(draw_arc(draw, kind, count, other, line, (way, *texts)))
            arcs.append(draw_arc(draw, kind, other, count, line[::-1], (way, *texts)))
    if draw(st.integers(0, 3)) == 0:  # (the column of metres may say more than the line)
        longer = [arc._replace(metres=round(1.25 * arc.metres, 2)) for arc in arcs]
        arcs = [arc._replace(weight=round(100 * arc.metres)) for arc in longer] if kind == "distance" else longer
    turns = [(a, b) for a, one in enumerate(arcs) for b, other in enumerate(arcs) if one.end == other.start]
    forbidden = draw(st.sets(st.sampled_from(turns), max_size=4)) if turns and draw(st.integers(0, 2)) == 0 else set()
    if has_ring:
        forbidden |= {draw(st.sampled_from([turn for turn in turns if arcs[turn[0]].end == count]))}
    roads = Network(nodes, arcs, forbidden, draw(st.booleans()))
    return Drawn(roads, split(roads) if forbidden else roads, has_keys)


def draw_arc(draw: Any, kind: str, start: int, end: int, line: tuple[Point, ...], texts: tuple[Any, ...]) -> Arc:
    number = draw(st.one_of(st.integers(0, 20), st.integers(0, 100_000)))
    metres = round(along(line)[-1], 2)
    number = (1 << 32) - 1 - number if kind == HEAVY else number
    seconds = {"duration": number / 1000, "distance": number / 1000, "weight alone": 0.0}.get(kind, number % 977 / 4)
    return Arc(start, end, round(100 * metres) if kind == "distance" else number, seconds, metres, line, *texts)


def points_near(origin: Point, scale: int = 1) -> Any:
    """Places within some 700 m of one, or `scale` times as far, at whole steps of 11 m or a little beside these."""
    def place(steps: tuple[int, int], beside: int) -> Point:
        east, north = (step * scale * 1e-4 for step in steps)
        lon, lat = (round(each * UNITS) for each in (origin[0] + east / math.cos(math.radians(origin[1])), origin[1] + north))
        return ((lon + beside + 180 * UNITS) % (360 * UNITS) - 180 * UNITS) / UNITS, lat / UNITS

    return st.builds(place, st.tuples(st.integers(-60, 60), st.integers(-60, 60)), st.sampled_from([0, 0, 137, -2511]))


def split(roads: Network) -> Network:
    """The network whose junctions are split where turns are forbidden, as the tools split them."""
    start, end = (np.array([arc[side] for arc in roads.arcs], np.int32) for side in (0, 1))
    nodes = np.unique([roads.arcs[arc].end for arc, _ in roads.forbidden])
    turns = turn_restrictions.turns_at(nodes, start, end, len(roads.nodes))
    pairs = zip(turns.into[turns.turn].tolist(), turns.out.tolist())
    cost = np.array([turn_restrictions.FORBIDDEN * (pair in roads.forbidden) for pair in pairs], np.int32)
    copies = turn_restrictions.make_copies(nodes, turns, cost, len(roads.nodes))
    arc, starts, ends, _ = turn_restrictions.copied_arcs(copies, turns, cost, start, end)
    is_split = set(nodes[copies.is_split].tolist())
    before = [node._replace(ends="from") if number in is_split else node for number, node in enumerate(roads.nodes)]
    sides = enumerate(zip(copies.beside.tolist(), [turn_restrictions.ENDS[side] for side in copies.ends.tolist()]))
    more = [roads.nodes[beside]._replace(ends=side, key=f"copy {number}") for number, (beside, side) in sides]
    rows = zip(arc.tolist(), starts.tolist(), ends.tolist())
    return Network([*before, *more], [roads.arcs[row]._replace(start=one, end=other) for row, one, other in rows], is_left=roads.is_left)


def one_road(*line: Point) -> Drawn:
    """A network of one road, in both directions, of these points."""
    arcs = [Arc(start, 1 - start, 8006, 8.006, round(along(line)[-1], 2), line[:: 1 - 2 * start]) for start in (0, 1)]
    net = Network([Node(*line[0]), Node(*line[-1])], arcs)
    return Drawn(net, net, False)


# Files


def write_network(drawn: Drawn, prefix: pathlib.Path, *words: str) -> str:
    """Makes PREFIX.gr, PREFIX.net and PREFIX.rch of tables of a network. Returns what to_network reported."""
    folder = prefix.parent / f"{prefix.name}-tables"
    folder.mkdir(exist_ok=True)
    write_tables(drawn, folder)
    side = ("--driving-side", "left") if drawn.tables.is_left else ()
    said = run_tool("to_network", folder / "nodes.csv", folder / "arcs.csv", prefix, *side, *words)[1]
    domethyme.prepare(f"{prefix}.gr", f"{prefix}.rch", order="depth", workers=0).close()
    return said


def write_tables(drawn: Drawn, folder: pathlib.Path) -> None:
    """The user's tables of a network, nodes.csv and arcs.csv."""
    nodes, arcs = drawn.tables.nodes, drawn.tables.arcs
    names = [node.key if drawn.has_keys else number for number, node in enumerate(nodes, 1)]
    rows = [("node", "lon", "lat", "osm", "ends"), *(
        (name, f"{lon:.7f}", f"{lat:.7f}", "" if osm is None else osm, ends) for name, (lon, lat, _, osm, ends) in zip(names, nodes)
    )]
    lines = [", ".join(f"{lon:.7f} {lat:.7f}" for lon, lat in arc.line) for arc in arcs]
    of_arcs = [("from", "to", "weight", "seconds", "metres", "WKT", "osm", *Arc._fields[7:], "toll"), *(
        (names[arc.start], names[arc.end], *arc[2:5], f"LINESTRING ({line})", *arc[6:], "yes" if arc.way % 4 == 1 else "")
        for arc, line in zip(arcs, lines)
    )]
    for table, some in (("nodes", rows), ("arcs", of_arcs)):
        with open(folder / f"{table}.csv", "w", newline="") as file:
            csv.writer(file).writerows(some)


def model_of(prefix: pathlib.Path) -> Network:
    """The network of a file, without junctions that are split."""
    network = domethyme.Network(prefix)
    nodes, arcs = network.nodes_frame(), network.arcs_frame()
    osm = [int(value) if is_there else None for value, is_there in zip(nodes["osm"], nodes["osm"].notna())]
    lines = [tuple((float(lon), float(lat)) for lon, lat in map(str.split, text[12:-1].split(", "))) for text in arcs["WKT"]]
    names = "from", "to", "weight", "seconds", "metres", "osm", *Arc._fields[7:]
    columns = [arcs[name].tolist() for name in names]
    columns.insert(5, lines)
    return Network(map(Node, nodes["lon"].tolist(), nodes["lat"].tolist(), range(len(nodes)), osm), map(Arc, *columns))


def run_tool(name: str, *words: object, given: str = "") -> tuple[str, str]:
    """Runs a tool in this process. Returns what it wrote to standard output and to standard error; raises its errors."""
    module = __import__(f"domethyme_tools.{name}", fromlist=["main"])
    out, said = io.StringIO(), io.StringIO()
    stdin, argv = io.TextIOWrapper(io.BufferedReader(io.BytesIO(given.encode()))), [name, *map(str, words)]
    with contextlib.redirect_stdout(out), contextlib.redirect_stderr(said):
        with mock.patch.object(sys, "argv", argv), mock.patch.object(sys, "stdin", stdin):
            module.main()
    return out.getvalue(), said.getvalue()


def map_text(nodes: Mapping[int, Point], ways: Mapping[int, tuple[Sequence[int], Mapping[str, object]]], more: str = "") -> str:
    """A map of OpenStreetMap: nodes with their places, and ways with their nodes and tags."""
    text = [f"<node id='{node}' lon='{lon}' lat='{lat}'/>" for node, (lon, lat) in nodes.items()]
    for way, (refs, tags) in ways.items():
        inner = [*(f"<nd ref='{ref}'/>" for ref in refs), *(f"<tag k='{key}' v='{value}'/>" for key, value in tags.items())]
        text.append(f"<way id='{way}'>{''.join(inner)}</way>")
    return f"<osm version='0.6'>{''.join(text)}{more}</osm>"


def converted(folder: pathlib.Path, text: str, *words: object) -> tuple[str, Any]:
    """What `osm_to_gr` says of a map with this text, and the frame of its arcs; files are map.* in the folder."""
    (folder / "map.osm").write_text(text, encoding="utf-8")
    said = run_tool("osm_to_gr", folder / "map.osm", folder / "map", *words)[1]
    return said, domethyme.Network(folder / "map").arcs_frame()


def assert_refused(name: str, *words: object, says: str, given: str = "") -> None:
    """Wants an error of a tool in this process, with the text `says`, and the folder as it was; or status 2 where that is empty."""
    before = {path: path.read_bytes() for path in pathlib.Path().rglob("*") if path.is_file()}
    with pytest.raises(domethyme.DomethymeError if says else SystemExit, match=re.escape(says) or "^2$"):
        run_tool(name, *words, given=given)
    assert {path: path.read_bytes() for path in pathlib.Path().rglob("*") if path.is_file()} == before


# Places and requests


@st.composite
def places(draw: Any, roads: Network, count: int) -> list[Point]:
    """Places at nodes, in arcs and beside them, several or all on one road, between roads, and far away."""
    found: list[Point] = []
    arc, is_one_road = draw(st.sampled_from(roads.arcs)), draw(st.integers(0, 2)) == 0
    for _ in range(count):
        if not is_one_road and draw(st.booleans()):
            arc = draw(st.sampled_from(roads.arcs))
        kinds = ["in", "beside"] if is_one_road else ["node", "in", "in", "in", "beside", "beside", "near", "far"]
        kind = draw(st.sampled_from(kinds))
        base = draw(st.sampled_from(roads.nodes)).place
        if kind in ("in", "beside"):
            base = point_at(arc.line, draw(st.integers(0, 31)) / 31)
        east, north = draw(st.tuples(st.integers(-30, 30), st.integers(-30, 30))) if kind in ("beside", "near") else (0, 0)
        scale = 3e-6 if kind == "beside" else draw(st.sampled_from([2e-5, 2e-4]))
        north += 10_000 if kind == "far" and draw(st.integers(0, 5)) == 0 else 0
        lat = min(90.0, base[1] + north * scale)
        lon = base[0] + east * scale / max(math.cos(math.radians(base[1])), 1e-6)
        found.append((round((lon + 180) % 360 - 180, 7), round(lat, 7)))
    return found


def directions(roads: Network) -> list[int]:
    """The directions of all steps of roads, and those against them, to a few degrees."""
    steps = [step for arc in roads.arcs for step in zip(arc.line, arc.line[1:]) if step[0] != step[1]]
    return sorted({(round(bearing(*step) / 8) * 8 + turn) % 360 for step in steps for turn in (0, 180)}) or [0]


# A parameter's text, and the code of the error that it gets, "" for none.
Coded = tuple[str, str]


def coded(*good: str, **wrong: Sequence[str]) -> dict[str, Sequence[str]]:
    """Texts by their codes."""
    return {"": good, **wrong}


def invalid(good: Sequence[str], *wrong: str) -> dict[str, Sequence[str]]:
    return coded(*good, InvalidValue=wrong)


def of_words(words: Sequence[str], known: Sequence[str]) -> Coded:
    """A list of words, of which each has to be known, and to come once."""
    return ",".join(words), "" if set(words) <= set(known) and len(set(words)) == len(words) else "InvalidValue"


def for_places(rows: Sequence[Coded], count: int) -> Coded:
    """A word for each place."""
    code = next((code for _, code in rows if code), "InvalidQuery" if len(rows) != count else "")
    return ";".join(text for text, _ in rows), code if any(text for text, _ in rows) or len(rows) != count else ""


YES_NO = invalid(["true", "false"], "True", "FALSE", "yes", "", "1", "0", "none", "true;", "true,false", "\0", "\u2713", " true")
# Texts that aren't numbers.
WRONG = (
    "", "x", "nan", "-nan", "inf", "Infinity", "1e3", "1e999", "0x1A", "1_0", "+5", "-1", "--1", "1..2", "1.2.3", ".", ".5", "5m", "1 ", " 1",
    "1\0", "1,", "one", "None", "\u0661", "\uff11", "9" * 11
)
UNSUPPORTED = coded("", NotImplemented=["toll", "nan", "0;1", "\0"])
EXCLUDE = coded("", NotImplemented=["toll", "motorway,ferry"], InvalidValue=["nan", "0;1", "\0", "toll,toll", "toll,", "Toll"])
WAYPOINTS = invalid(["", "0;1", "0;1;0;1", "0;0;1"], "0", "1", "1;0", "0,1", "0;1;", ";0;1", "0;99;1", "-1;1", "all", "0;x;1", "0;1 ", "\0")
LIMITS = ("5,3", "5,5", "0", "1,2,3,4,5", "5;6", "1,,2", "1000001", "0.00001,0.000011")
OF_LINES = {
    "steps": YES_NO, "annotations": YES_NO, "geometries": invalid(["polyline", "polyline6", "geojson"], "wkt", "polyline7", ""),
    "overview": invalid(["simplified", "full", "false"], "by_legs", "True", "", "simplified,full", "full "),
}
KNOWN: dict[str, dict[str, dict[str, Sequence[str]]]] = {
    "osrm": {
        "hints": coded("", "a;b"), "generate_hints": YES_NO, "skip_waypoints": YES_NO, "exclude": EXCLUDE,
        "unknown": {"InvalidQuery": ["1"]}, "snapping": invalid(["default", "any"], "x", "", "any;"),
        "format": coded("json", NotImplemented=["flatbuffers"], InvalidValue=["x", "json5", ""]),
    },
    "route": {
        "alternatives": invalid(["true", "false", "3"], "1000", "1.5", "maybe", *WRONG), "waypoints": WAYPOINTS, **OF_LINES
    },
    "trip": {
        "roundtrip": YES_NO, "source": invalid(["any", "first"], "last", "0", "", "first;"),
        "destination": invalid(["any", "last"], "first", "", "last "), **OF_LINES
    },
    "match": {
        "timestamps": coded("0;1", "5;5", "1700000000;1700000009", InvalidQuery=["1", "1;2;3"], InvalidValue=[
            "1;0", "1;", ";", "1;x", "-1;2", "1.5;2", "1,2", "", "9999999999999;9999999999999"
        ]),
        "approaches": coded("", "unrestricted", "unrestricted;", NotImplemented=["curb", "unrestricted;curb", "opposite"]),
        "gaps": invalid(["split", "ignore"], "Split", "", "true"), "tidy": YES_NO, "waypoints": WAYPOINTS, **OF_LINES,
        "radiuses": coded("5;5", "200;40", ";20", InvalidQuery=["5", "5;5;5"], InvalidValue=["0;5", "201;5", "unlimited;5", "5;nan", "-1;5"]),
    },
    "nearest": {"number": invalid(["1", "2", "5", "100"], "0", "101", "1.0", "9999", *WRONG)},
    "table": {
        "fallback_speed": invalid(["10", "0.5"], "0", "0.0", *WRONG), "fallback_coordinate": invalid(["input", "snapped"], "x", ""),
        "scale_factor": invalid(["2", "0.5"], "0", "0.0", *WRONG),
        "destinations": invalid(["all"], "0;99", "all;0", "0,1", "0;", "any", *WRONG),
        "annotations": invalid(["duration", "weight,distance"], "true", "speed", "durations", "duration,", "duration,duration", ""),
    },
    "isochrone": {
        "polygons": YES_NO, "contours_colors": invalid(["ff0000", "00FF00,0000ff"], "red", "#ff0000", "ff000", ""),
        "generalize": invalid(["0", "10"], "1000001", *WRONG), "denoise": invalid(["0", "0.2", "1"], "2", "1.1", *WRONG),
        "reverse": invalid(["false", "true", "true"], "1", "", "True"), "access_token": coded("x", ""),
        "exclude": EXCLUDE, "depart_at": UNSUPPORTED, "unknown": {"InvalidQuery": ["1"]},
    },
}
# Of parameters with a word for each place.
WORDS = {
    "radiuses": invalid(["unlimited", "10", "50.5", "1000", "0"], "-1", "1e3", "Unlimited", "5m", *WRONG[1:9]),
    "bearings": invalid(["360,90"], "361,5", "10,181", "10", "a,b", "5,", ",5", "-5,5", "5,5,5", "1e1,5", "n,s"),
    "approaches": coded("curb", "unrestricted", InvalidValue=["Curb", "kerb", "curb,", "both"], NotImplemented=["opposite"]),
}


# What `radiuses` are for a trace.
DEVIATIONS = invalid(["5", "20", "1.5", "50", "200"], "0", "0.0", "201", "unlimited", *WRONG[1:9])


def texts_of(service: str, count: int, directions: Sequence[int], is_wrong: bool) -> dict[str, Any]:
    """For each parameter of a service what its text may be with so many places, valid, or wrong too, and its code."""
    def any_of(texts: dict[str, Sequence[str]]) -> Any:
        rows = [(text, code) for code, some in texts.items() for text in some if is_wrong or not code]
        return st.sampled_from(rows) if rows else None

    def of_places(word: Any) -> Any:
        sizes = (count, count + 1) if is_wrong else (count, count)
        words = st.lists(st.one_of(st.just(("", "")), word), min_size=sizes[0], max_size=sizes[1])
        return words.map(lambda rows: for_places(rows, count))

    pairs = st.tuples(st.sampled_from(directions), st.sampled_from([0, 20, 20, 60, 180]))
    bearings = pairs.map(lambda pair: ("%d,%d" % pair, ""))
    known = {**(KNOWN["osrm"] if service != "isochrone" else {}), **KNOWN[service]}
    found = {name: any_of(texts) for name, texts in known.items()}
    found["radiuses"] = of_places(any_of(DEVIATIONS if service == "match" else WORDS["radiuses"]))
    found["bearings"] = of_places(st.one_of(bearings, bearings, any_of(WORDS["bearings"])))
    if service not in ("match", "isochrone"):
        found["approaches"] = of_places(any_of(WORDS["approaches"]))
    annotations = ["duration", "distance", "weight", *(ANNOTATIONS[3:] if is_wrong or service in ("route", "trip", "match") else ())]
    some = st.lists(st.sampled_from(annotations), min_size=1, max_size=4, unique=not is_wrong)
    if service == "match":
        found["timestamps"] = st.lists(st.sampled_from([0, 1, 5, 20, 100]), min_size=count, max_size=count).map(
            lambda steps: (";".join(map(str, itertools.accumulate(steps))), "")
        )
    if service in ("route", "trip", "match"):
        found["annotations"] = st.one_of(some.map(lambda words: of_words(words, ANNOTATIONS)), found["annotations"])
    if service in ("route", "match"):
        inner = st.lists(st.integers(0, count - 1), max_size=3)
        stops = inner.map(lambda some: (";".join(map(str, (0, *some, count - 1))), ""))
        wrong = [(text, code) for text, code in ((text, code) for code, texts in WAYPOINTS.items() for text in texts) if code]
        found["waypoints"] = st.one_of(stops, st.sampled_from(wrong)) if is_wrong else stops
    if service == "route":
        found["continue_straight"] = any_of(invalid(["default", "false", "true", "true"], "x", "", "True"))
    if service == "table":
        indices = st.lists(st.integers(0, count - 1).map(str), min_size=1, max_size=count)
        found["annotations"] = st.one_of(some.map(lambda words: of_words(words, annotations[:3])), found["annotations"])
        places = indices.map(lambda words: (";".join(words), ""))
        found["sources"] = found["destinations"] = st.one_of(places, places, found["destinations"])
    return {name: texts for name, texts in found.items() if texts is not None}
