"""The tools on drawn networks: routes and tables between places, and networks of a user's own tables."""
import contextlib
import csv
import itertools
import json
import os
import pathlib
import subprocess
import tempfile
from collections.abc import Mapping
from typing import Any, NamedTuple

import numpy as np
import pytest
from draws import ORIGINS, drawn, networks, places, points_near, run_tool, write_network
from hypothesis import assume, given
from hypothesis import strategies as st
from model import matching
from model.answers import figures, leg_line
from comparing import Line, Near, difference
from model.network import Ambiguous, Network, Part, SnappedPoint
from model.request import Request
from model.sphere import Point, along

import domethyme
from domethyme_tools.cli import ToolError

# What the words of the column oneway mean: arcs along a row, and back.
DIRECTIONS = {
    **dict.fromkeys(["", "0", "no", "false", "0.0", " No"], (1, -1)), **dict.fromkeys(["1", "yes", "true", "1.0", "YES "], (1,)),
    **dict.fromkeys(["-1", "reverse", "-1.0", "Reverse"], (-1,))
}
SOURCES = ["from_lon", "from_lat", "to_lon", "to_lat"]
# Texts of a user's column: none that a program for sheets takes for a formula may be written as it is, unless it is a number.
NUMBERS = ("", "-1", "+1.5e3")
LABELS = (*NUMBERS, "depot", "=1+1", "+x", "-x", "@a", "'=x", "it's")
Trips = list[tuple[Point, Point]]


class Figures(NamedTuple):
    """An arc's weight, seconds and metres, and which of these its row says."""

    weight: int
    seconds: float
    metres: float
    has_weight: bool
    has_seconds: bool
    has_metres: bool


def figures_of(row: Mapping[str, str], line: list[Point], unit: str) -> Figures | None:
    """Those of an arc along a line; None for a row that says too little. `unit` is `time` or `length`."""
    said = {name: text for name, text in row.items() if text}
    has_weight, has_seconds, has_metres = "weight" in said, bool({"seconds", "kmh"} & set(said)), bool({"metres", "km"} & set(said))
    if unit == "time" and not has_weight and not has_seconds:
        return None
    metres = 1000 * float(said["km"]) if "km" in said else round(along(line)[-1], 2)
    metres = float(said.get("metres", metres))
    seconds = metres * 3.6 / float(said["kmh"]) if "kmh" in said else 0.0  # (the tool rounds them to the thousandth)
    seconds = float(said.get("seconds", seconds))
    weight = round(1000 * seconds if unit == "time" else 100 * metres)
    return Figures(int(said.get("weight", max(1, weight))), seconds, metres, has_weight, has_seconds, has_metres)


def write_rows(path: str, columns: list[str], rows: Any) -> None:
    with open(path, "w", newline="") as file:
        csv.writer(file).writerows([columns, *rows])


def routecli(*words: object, given: str = "") -> str:
    run = subprocess.run([os.environ["ROUTECLI"], *map(str, words)], input=given, capture_output=True, text=True)
    assert run.returncode == 0, run.stderr
    return run.stdout


@drawn(60)
@given(st.data())
def test_trips_and_tables(data: Any) -> None:
    made = data.draw(networks())
    trips = [tuple(data.draw(places(made.roads, 2))) for _ in range(data.draw(st.integers(1, 4)))]
    split = sorted({made.roads.arcs[arc].end for arc, _ in made.roads.forbidden})
    trips += [(made.roads.nodes[node].place,) * 2 for node in split[:2]]
    with tempfile.TemporaryDirectory() as folder, contextlib.chdir(folder):
        write_network(made, pathlib.Path("net"), "--attribution", "© the town")
        labels, radius = [data.draw(st.sampled_from(LABELS)) for _ in trips], data.draw(st.sampled_from([1000, 1000, 40_000]))
        write_rows("trips.csv", ["label", *SOURCES], ([label, *a, *b] for label, (a, b) in zip(labels, trips)))
        for name, end in (("sources", 0), ("targets", 1)):
            write_rows(f"{name}.csv", ["lon", "lat"], (trip[end] for trip in trips))
        with contextlib.suppress(Ambiguous):
            check_on_roads(made.roads, trips, labels, radius)


def check_on_roads(roads: Network, trips: Trips, labels: list[str], radius: float) -> None:
    """`routes` as GeoJSON and as CSV, and `table`."""
    points = [[roads.snap(place, radius) for place in trip] for trip in trips]
    problems = sum(None in pair for pair in points)
    for words in (["-o", "routes.geojson", "--steps"], ["-o", "routes.csv"]):
        says = pytest.raises(ToolError, match=f"{words[1]}: {problems} of {len(trips)} trips") if problems else contextlib.nullcontext()
        with says:
            run_tool("routes", "net", "net.rch", "trips.csv", "--radius", radius, *words)
    routes = json.loads(pathlib.Path("routes.geojson").read_text())
    assert routes["attribution"] == "© the town"
    columns, *rows = csv.reader(pathlib.Path("routes.csv").read_text().splitlines())
    for (start, end), feature, row, label in zip(points, routes["features"], rows, labels, strict=True):
        found, shown = dict(zip(columns, row, strict=True)), {**feature["properties"], "label": None, "steps": None}
        assert all(found[name] == str("" if value is None else value) for name, value in shown.items() if name in columns[1:])
        assert found["label"].lstrip("'") == label.lstrip("'") and (found["label"][:1] not in "=+-@" or label in NUMBERS)
        assert feature["properties"]["label"] == label.removeprefix("'")  # (which is there for a program for sheets)
        if start is None or end is None:
            side = "from" if start is None else "to"
            assert is_leg(roads, feature, None, None, None) and found["problem"].startswith(f"{side} has no road within {radius} m")
        else:
            assert any(is_leg(roads, feature, start, leg, end) for leg in roads.legs(start, end) or [None]), (feature, start, end)
    words = "net", "net.rch", "sources.csv", "targets.csv", "--radius", radius, "-o", "on.csv", "--metres", "m.npy"
    if problems:
        with pytest.raises(ToolError, match=r"(sources|targets).csv, row \d+: has no road within"):
            run_tool("table", *words)
        return
    run_tool("table", *words)
    with domethyme.Hierarchy("net.rch", network="net") as hierarchy:
        sums = hierarchy.table(*zip(*trips), radius=radius, sums=["metres"])
    np.testing.assert_array_equal(np.load("m.npy"), sums["metres"])
    cells = [line.split(",")[1:] for line in pathlib.Path("on.csv").read_text().splitlines()[1:]]
    for (row, (start, _)), (column, (_, end)) in itertools.product(enumerate(points), enumerate(points)):
        assert start is not None and end is not None
        legs = roads.legs(start, end)
        assert cells[row][column] == (str(sum(part[3] for part in legs[0])) if legs else ""), cells


def is_leg(roads: Network, feature: Any, start: SnappedPoint | None, leg: list[Part] | None, end: SnappedPoint | None) -> bool:
    """Whether a route between places on roads is this leg, or there is none."""
    found, geometry = feature["properties"], feature["geometry"]
    if leg is None or start is None or end is None:
        return geometry is None and [found[name] for name in ("weight", "metres", "seconds", "streets", "steps")] == [None] * 5
    total = figures(roads, leg)
    names = [name for name, _ in itertools.groupby(roads.arcs[arc].name for arc, *_ in leg if roads.arcs[arc].name)]
    expected = {"weight": sum(part[3] for part in leg), "seconds": total["duration"], "metres": total["distance"]}
    if difference({name: found[name] for name in expected}, expected) or found["streets"] != "; ".join(names):
        return False
    for name in ("seconds", "metres"):
        steps, whole = [step[name] for step in found["steps"]], found[name]
        assert steps == [None] * len(steps) if whole is None else abs(sum(steps) - whole) < 0.006 * (1 + len(steps))
    return geometry is not None and has_line(geometry, leg_line(roads, start, leg, end))


def has_line(geometry: Any, points: list[Point]) -> bool:
    """Whether a geometry, in parts where it crosses the 180th meridian, has these points."""
    parts = [geometry["coordinates"]] if geometry["type"] == "LineString" else geometry["coordinates"]
    line = [[lon, lat] for part in parts for lon, lat in part if len(parts) == 1 or abs(lon) != 180]
    return not difference({"type": "LineString", "coordinates": line}, Line(points, "geojson"))


@drawn(15)
@given(st.data())
def test_reach(data: Any) -> None:
    """What the tool writes is what the package returns of the same places, and refuses those that it refuses."""
    made = data.draw(networks(["duration", "distance"], most=5, origins=[ORIGINS[0]]))
    assume(made.roads.unit != "weight")
    where, towards = data.draw(places(made.roads, 2)), data.draw(st.booleans())
    shape = data.draw(st.sampled_from(["polygons", "lines", "roads"]))
    option, limits = ("minutes", [0.05, 0.5]) if made.roads.unit == "duration" else ("metres", [50, 200])
    with tempfile.TemporaryDirectory() as folder, contextlib.chdir(folder):
        write_network(made, pathlib.Path("net"), "--attribution", "© the town")
        write_rows("places.csv", ["lon", "lat"], where)
        style: dict[str, Any] = data.draw(st.fixed_dictionaries({}, optional={
            "generalize": st.sampled_from([0, 5, 20]), "denoise": st.sampled_from([0, 0.1, 0.5, 1]),
            "colors": st.just(["ff0000", "00ff00"]), "radius": st.sampled_from([950, 2000])}))
        options = {name: ",".join(value) if name == "colors" else value for name, value in style.items()}
        options |= {"shape": shape, option: ",".join(map(str, limits))}
        more = itertools.chain(*((f"--{name}", value) for name, value in options.items()))
        words = "reach", "net", "net.rch", "places.csv", "-o", "out", *more, *["--towards"] * towards
        with domethyme.Hierarchy("net.rch", network="net") as hierarchy:
            try:
                expected = hierarchy.within(where, shape=shape, towards=towards, **style, **{option: limits})
            except domethyme.NoSuchNode as error:
                with pytest.raises(ToolError, match=f"places.csv, row {error.key + 2}: has no "):
                    run_tool(*words)
                return
        run_tool(*words)
        found = json.loads(pathlib.Path("out").read_text())
        assert found == json.loads(json.dumps(expected))
        assert [repr(each["properties"]["contour"]) for each in found["features"]] == [*map(repr, limits[::-1])]
        assert expected["attribution"] == "© the town"


@drawn(120)
@given(st.data())
def test_match(data: Any) -> None:
    """The ways of a trace, by the deviation of each row, or --deviation where that is empty, and times, where there are any."""
    made = data.draw(networks(most=3))
    trace = data.draw(places(made.roads, data.draw(st.sampled_from([2, 3, 4]))))
    own, common = [data.draw(st.sampled_from(["", "", "5", "20", "1.5"])) for _ in trace], data.draw(st.sampled_from(["", "1", "40"]))
    times = [*itertools.accumulate(data.draw(st.sampled_from([1, 1, 1, 100])) for _ in trace)] if data.draw(st.booleans()) else []
    words = {word: data.draw(st.booleans()) for word in ("--tidy", "--ignore-gaps")}
    query = {"radiuses": ";".join(each or common for each in own), "timestamps": ";".join(map(str, times))}
    query |= {"tidy": "true"} if words["--tidy"] else {}
    request = Request("match", trace, query | ({"gaps": "ignore"} if words["--ignore-gaps"] else {}))
    with tempfile.TemporaryDirectory() as folder, contextlib.chdir(folder):
        write_network(made, pathlib.Path("net"))
        rows = [[lon, deviation, lat, *time] for (lon, lat), deviation, *time in zip(trace, own, *([times] if times else []))]
        rows.insert(empty := data.draw(st.integers(0, len(trace))), [])
        write_rows("trace.csv", ["lon", "deviation", "lat", *(["seconds"] if times else [])], rows)
        more = [*(["--deviation", common] if common else []), *(word for word in words if words[word])]
        run_tool("match", "net", "net.rch", "trace.csv", "-o", "out", *more)
        features = json.loads(pathlib.Path("out").read_text())["features"]
    with contextlib.suppress(Ambiguous):
        wanted = matching.ways(made.roads, request)
        assert len(features) == len(wanted), (features, wanted)
        for feature, options in zip(features, wanted):
            assert any(is_way(made.roads, feature, way, empty) for way in options), (feature, options)


def is_way(roads: Network, feature: Any, way: matching.Way, empty: int) -> bool:
    """Whether a feature is a way, of a trace with an empty row before one of that number."""
    found, total = feature["properties"], figures(roads, *way.legs)
    expected = {
        "weight": sum(part[3] for leg in way.legs for part in leg), "seconds": total["duration"], "metres": total["distance"],
        "confidence": Near(way.confidence, 0.0015), "rows": [number + 2 + (number >= empty) for number in way.numbers]
    }
    steps = zip(itertools.pairwise(way.places), way.legs)
    line = [point for (start, end), leg in steps for point in leg_line(roads, start, leg, end)]
    return not difference(found, expected) and has_line(feature["geometry"], line)


@st.composite
def own_rows(draw: Any, nodes: int) -> list[dict[str, str]]:
    """Rows of a user's table of arcs: columns may be missing, by other names, and empty in some rows."""
    texts = {
        "weight": st.integers(0, 9999).map(str), "seconds": st.integers(0, 5000).map(lambda value: str(value / 8)),
        "kmh": st.one_of(st.integers(1, 130), st.just(450)).map(str), "metres": st.integers(0, 3000).map(str),
        "km": st.sampled_from(["0.5", "1.25"]), "oneway": st.sampled_from(sorted(DIRECTIONS)),
    }
    columns = draw(st.sets(st.sampled_from(sorted(texts))))
    gaps = draw(st.sets(st.sampled_from(sorted(texts))))
    rows = []
    for _ in range(draw(st.integers(1, 6))):
        row = {name: draw(st.one_of(st.just(""), texts[name]) if name in gaps else texts[name]) for name in sorted(columns)}
        rows.append({"from": str(draw(st.integers(1, nodes))), "to": str(draw(st.integers(1, nodes))), **row})
    return rows


@drawn(200)
@given(st.data())
def test_own_tables(data: Any) -> None:
    """Each row's weight, seconds, metres and line, by the page of own data; and what is said of what may be meant otherwise."""
    points = data.draw(st.lists(points_near(ORIGINS[0]), min_size=1, max_size=4))
    rows, unit = data.draw(own_rows(len(points))), data.draw(st.sampled_from(["time", "length"]))
    other = data.draw(st.sampled_from([{}, {"from": "Source", "to": "target", "kmh": "km/h", "metres": "Meters", "WKT": "wkt"}]))
    most, forms = data.draw(st.sampled_from([0, 2])), [("", ""), ("LINESTRING ", "linestring")]
    inner = [data.draw(st.lists(points_near(ORIGINS[0]), max_size=most)) for _ in rows]
    lines = [[points[int(row["from"]) - 1], *some, points[int(row["to"]) - 1]] for row, some in zip(rows, inner)]
    for row, some, line in zip(rows, inner, lines):
        row |= {"WKT": wkt(line).replace(*data.draw(st.sampled_from(forms))) if some else ""} if any(inner) else {}
        straight = along([line[0], line[-1]])[-1]
        if row.get("metres") and straight and data.draw(st.booleans()):  # (what is doubted, or nearly)
            factor, more = data.draw(st.sampled_from([0.99, 100])), data.draw(st.sampled_from([-1.1, -0.9, 0.1]))
            row["metres"] = f"{max(0.0, factor * straight + more):.2f}"
    made, expected = [*zip(rows, lines)], []
    made += data.draw(st.lists(st.sampled_from(made), max_size=2))
    for number, (row, line) in enumerate(made, 2):
        for step in DIRECTIONS[row.get("oneway", "1")]:
            start, end = [int(row["from"]) - 1, int(row["to"]) - 1][::step]
            expected.append(OwnArc(start, end, figures_of(row, line[::step], unit), line[::step], number, row))
    refused = sorted({arc.row for arc in expected if arc.figures is None})
    with tempfile.TemporaryDirectory() as folder, contextlib.chdir(folder):
        write_rows("nodes.csv", ["lon", "lat"], [(f"{lon:.7f}", f"{lat:.7f}") for lon, lat in points])
        write_rows("arcs.csv", [other.get(name, name) for name in rows[0]], (list(row.values()) for row, _ in made))
        words = "nodes.csv", "arcs.csv", "net", "--weight", unit
        if refused:
            more = {1: "", 2: "; another row is refused too"}.get(len(refused), f"; {len(refused) - 1} other rows are refused too")
            with pytest.raises(domethyme.NetworkError, match=f"row {refused[0]}: has none of weight, seconds and kmh[^;]*{more}$"):
                run_tool("to_network", *words)
            return
        said = run_tool("to_network", *words)[1]
        arcs = domethyme.Network("net").arcs_frame()
        graph = [tuple(map(int, line.split()[1:])) for line in pathlib.Path("net.gr").read_text().splitlines() if line[0] == "a"]
    found = [tuple(row) for row in arcs[["from", "to", "weight", "seconds", "metres", "WKT"]].itertuples(index=False)]
    assert graph == [(start + 1, end + 1, weight) for start, end, weight, *_ in found]
    for (start, end, weight, seconds, metres, line), arc in zip(found, expected, strict=True):
        exact = figures_of(arc.texts | {"metres": str(metres)}, arc.line, unit)
        assert (start, end, line, seconds) == (arc.start, arc.end, wkt(arc.line), pytest.approx(exact.seconds, abs=0.000501))
        derived = max(1, round(1000 * seconds if unit == "time" else 100 * metres))
        assert metres == pytest.approx(arc.figures.metres, abs=0.0101) and weight == (exact.weight if exact.has_weight else derived)
    check_doubts(said, expected, unit)


class OwnArc(NamedTuple):
    """An arc of a user's table, its figures, None where its row says too little, its line, its row, and the texts of this."""

    start: int
    end: int
    figures: Any
    line: list[Point]
    row: int
    texts: dict[str, str]


def wkt(line: list[Point]) -> str:
    return f"LINESTRING ({', '.join(f'{lon:.7f} {lat:.7f}' for lon, lat in line)})"


def check_doubts(said: str, arcs: list[OwnArc], unit: str) -> None:
    """Columns that some rows alone have are doubted, figures that no road has, roads of one way alone, and rows that come twice."""
    figures = [arc.figures for arc in arcs]
    straight = [(arc.figures.metres, along([arc.line[0], arc.line[-1]])[-1]) for arc in arcs if arc.figures.has_metres]
    ends = {(arc.start, arc.end) for arc in arcs if arc.start != arc.end}
    known: dict[Any, int] = {}
    again = {arc.row for arc in arcs if known.setdefault((arc.start, arc.end, arc.figures[:3]), arc.row) != arc.row}
    without = [sum(not each.has_weight for each in figures), sum(not each.has_seconds for each in figures)]
    for text, count in {
        "weight of {} arcs is empty": without[0] % len(arcs), "{} arcs have neither seconds nor kmh": without[1] % len(arcs),
        "metres of {} arcs are less than the straight line": sum(metres < 0.99 * least - 1 for metres, least in straight),
        "metres, or km, of {} arcs are over 100 times": sum(metres > 100 * least and least >= 10 for metres, least in straight),
        "{} arcs are faster than 400 km/h": sum(each.metres * 3.6 > 400 * each.seconds > 0 for each in figures),
        "{} arcs take 0 seconds, and weigh 1": sum(not each.seconds and not each.has_weight for each in figures) * (unit == "time"),
        "no arc has one back": int(len(arcs) > 1 and bool(ends) and not any(each[::-1] in ends for each in ends)),
        "{} rows have the ends and figures of earlier ones": len(again),
    }.items():
        assert (f"arcs.csv: {text.format(count)}" in said) == (text.split("{}")[-1] in said) == (count > 0), (said, text, arcs)
