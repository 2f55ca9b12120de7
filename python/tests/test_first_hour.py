"""A newcomer's first hour: a map in one call, progress, frames, pictures, and what is said of what nobody can have meant."""
import fractions
import importlib.machinery
import importlib.util
import itertools
import json
import re
import sys
import types
import warnings
from unittest import mock

import numpy as np
import pandas as pd
import pytest
from tool_case import PYTHON, ROOT, TOOLS, VILLAGE

import domethyme
from domethyme.progress import reporting

pytestmark = pytest.mark.timeout(300)


@pytest.fixture(scope="module")
def village(tmp_path_factory):
    """The hierarchy of the village, and what its progress was."""
    told, out = [], tmp_path_factory.mktemp("village") / "v"
    with domethyme.from_osm(VILLAGE, out, keep_islands=True, at_least=1, progress=lambda *told_now: told.append(told_now)) as hierarchy:
        yield hierarchy, told, out


def test_a_map_in_one_call(village, monkeypatch):
    hierarchy, told, out = village
    begun = [*dict.fromkeys(what for what, _, _ in told if not what.startswith("building"))]  # (the converter, in a fresh clone)
    assert begun[:3] == ["ways", "places", "roads"]
    assert all(0 <= done <= total for _, done, total in told) and told[-1][0] in ("files", "prepare")
    with domethyme.open(out) as again, domethyme.open(f"{out}.rch") as third:
        assert domethyme.open(f"{out}.net").path == domethyme.open(f"{out}.gr").path == third.path
        assert again.keys is None and again.network.prefix == str(out)
        assert again.route(0, 5).nodes == third.route(0, 5).nodes == hierarchy.route(0, 5).nodes
    for option, value, says in [
        ("profile", "tank", "no profile tank"), ("speed", 3, "no option speed"), ("at_least", 1.0, "35 of 38 nodes reach"),
        ("at_least", 0.93, "35 of 38 nodes reach one another, less than 93%"), ("weight", "days", "'days' is none of length, time"),
        *(("at_least", value, "isn't from 0 to 1") for value in (-0.1, 1.1)), ("longest_arc", "250", "longest_arc '250' is no"),
        *(("longest_arc", value, "isn't from 1 to 1000000") for value in (1_000_001, 0.5)),
        ("weight", ["time"], r"weight \['time'\] is no text"), ("attribution", None, "attribution None is no text"),
        *((name, "no", f"{name} 'no' is neither True nor") for name in ("tables", "ignore_turn_restrictions", "keep_islands")),
    ]:
        with pytest.raises((domethyme.MapError, ValueError), match=says):
            domethyme.from_osm(VILLAGE, out.parent / "w", **{option: value})
    for place in (out.parent, f"{out.parent}/w/", "", *(f"{out.parent}/w.{ending}" for ending in ("gr", "net", "rch", "co", "nodes.csv"))):
        with pytest.raises(ValueError, match=r"is a folder, or empty|as .*/w, and '.*/w\.[a-z.]+' the name of one"):
            domethyme.from_osm(VILLAGE, place)
    assert not list(out.parent.glob("w*"))
    with pytest.raises(domethyme.ProgramError, match="--order"):
        domethyme.from_osm(VILLAGE, out.parent / "w", order="sideways")
    assert {path.suffix for path in out.parent.glob("w*")} == {".gr", ".net"}
    text = rf"""#!/bin/sh
case "$*" in *" --progress "*) printf '\033[?7l\r20 %%: 2 of 10 nodes\033[K\033[?7h' >&2 ;; esac
exec {domethyme.find_program()} "$@"
"""
    (out.parent / "slow").write_text(text)
    (out.parent / "slow").chmod(0o755)
    monkeypatch.setenv("ROUTECLI", str(out.parent / "slow"))
    (out.parent / "w.rch.keys").write_text("those of a hierarchy before")
    assert domethyme.from_osm(VILLAGE, out.parent / "w", progress=lambda *now: told.append(now)).keys is None
    assert ("prepare", 2, 10) in told and domethyme.open(out.parent / "w").keys is None


def test_progress_of_what_takes_long(tmp_path):
    rows, told, parts = np.arange(60_000), [], []
    graph = domethyme.Graph(rows, (rows + 1) % 60_000, rows % 7 + 1)
    with graph.prepare(tmp_path / "ring.rch", progress=lambda *now: told.append(now)) as ring:
        assert all(what == "prepare" and done <= 60_000 == total for what, done, total in told)
        ring.matrix(rows[:1000], rows[:300], progress=lambda *now: parts.append(now))
        assert parts[-1] == ("matrix", 1000, 1000) and [done for _, done, _ in parts] == sorted({done for _, done, _ in parts})
    (tmp_path / "bad.gr").write_text("p sp 2 5\na 1 2 3\n")
    with pytest.raises(domethyme.GraphError, match="TooManyArcs|ArcCount"):
        domethyme.prepare(tmp_path / "bad.gr", tmp_path / "bad.rch", progress=lambda *now: None)


def test_bars(capsys, monkeypatch):
    """Of what is done and how much there is; and of a single step the time."""
    monkeypatch.setattr("tqdm.std.time", itertools.count(0, 61).__next__)  # (each look at the clock is a minute later)
    with reporting(np.True_) as report:  # (as with True)
        for now in (("ways", 0, 20), ("ways", 5, 20), ("ways", 20, 20), ("files", 0, 1), ("files", 1, 1)):
            report(*now)
    said = capsys.readouterr().err
    assert re.search(r"ways: 100%\|.*\| 20.0/20.0 \[", said) and re.search(r"files \[0[1-9]:\d\d\]\n$", said), said


def test_what_notebooks_and_others_know(village):
    hierarchy, _, _ = village
    route, routes = hierarchy.route(0, 5), hierarchy.routes([[0, 5], [0, 0]] * 15)
    assert route.geojson() == route.__geo_interface__ == hierarchy.network.geojson(route)["features"][0]
    assert routes[:1].__geo_interface__["features"] == hierarchy.routes([[0, 5]]).geojson()["features"]
    contours = hierarchy.within((float(hierarchy.network.lon[0]), float(hierarchy.network.lat[0])), [1, 2])
    assert json.loads(json.dumps(contours)) == contours == contours.__geo_interface__
    places = [(float(hierarchy.network.lon[node]), float(hierarchy.network.lat[node])) for node in (0, 5)]
    directions, tour = hierarchy.directions(places), hierarchy.tour(places)
    for shown, what in ((route, "stroke"), (routes, "and 10 more"), (contours, "fill-rule"), (directions, "stroke"), (tour, "stroke")):
        picture = shown._repr_html_()
        assert picture.startswith("<svg") and what in picture and "© OpenStreetMap contributors" in picture
    for said in (repr(directions), repr(directions.legs)):
        assert f"weight {directions.weight}" in said and len(said) < 120
    with domethyme.Hierarchy(hierarchy.path) as bare:
        for shown in (bare.route(0, 5), bare.routes([[0, 5]])):
            assert shown._repr_html_() is None and not hasattr(shown, "__geo_interface__")
            with pytest.raises(ValueError, match="no network to draw on"):
                shown.geojson()
    assert not any("more" in routes[:count]._repr_html_() for count in (1, 20))
    with domethyme.Hierarchy(hierarchy.path, keys=map(fractions.Fraction, range(38)), network=hierarchy.network) as keyed:
        assert keyed.route(0, 5)._repr_html_() == route._repr_html_()
    assert repr(hierarchy) == f"<Hierarchy {hierarchy.path} of 38 nodes and {hierarchy.links} links>"
    other = types.SimpleNamespace(geojson=lambda drawn: {"features": [type(drawn)]})
    assert (route.geojson(other), routes.geojson(other)) == (domethyme.Route, {"features": [domethyme.Routes]})


@pytest.mark.needs("import:geopandas")
def test_places_of_geopandas(village):
    """Points in any system, of two places too, which aren't one place; and a row for each in the frame that comes back."""
    import geopandas
    import shapely.geometry

    hierarchy, _, _ = village
    places = [(float(hierarchy.network.lon[node]), float(hierarchy.network.lat[node])) for node in (0, 5, 9)]
    for count in (2, 3):
        wanted = hierarchy.directions(places[:count])
        points = [shapely.geometry.Point(place) for place in places[:count]]
        frame = geopandas.GeoDataFrame({"name": list("abc"[:count])}, geometry=points, crs=4326)
        for given in (points, frame, frame.geometry, frame.to_crs(3857), frame.geometry.to_crs(3857)):
            assert hierarchy.directions(given).weight == wanted.weight
        assert hierarchy.table(frame).to_numpy().tolist() == hierarchy.table(places[:count]).tolist()
        with pytest.raises(ValueError, match="take their centroids"):
            hierarchy.directions(geopandas.GeoSeries([*points[1:], points[0].buffer(1)]))
    assert hierarchy.directions(geopandas.GeoSeries(points)) == hierarchy.directions([places[0], *points[1:]])
    assert hierarchy.network.points_on_roads(points[0]) == hierarchy.network.points_on_roads(places[0])
    arcs, lines = hierarchy.network.arcs_frame(), hierarchy.network.to_geodataframe()
    assert lines.geometry.geom_equals_exact(geopandas.GeoSeries.from_wkt(arcs.pop("WKT"), crs=4326), 0).all() and lines.crs == 4326
    assert lines.drop(columns="geometry").equals(arcs)
    far = hierarchy.nearest(0.02, 0.005)[0]
    pairs = geopandas.GeoDataFrame({"from": [0, 0], "to": [5, far]}, geometry=points[:2], index=["near", "far"])
    routes = hierarchy.routes(pairs)
    frame, features = routes.to_geodataframe(), routes.geojson()["features"]
    assert hierarchy.lengths(pairs).index.tolist() == frame.index.tolist() == ["near", "far"]
    assert frame.crs == 4326 and frame.geometry["far"] is None and [*routes[1:].to_geodataframe().dtypes[-3:-1]] == [float] * 2
    for name in ("to", "length", "seconds", "metres"):
        assert frame.loc["near", name] == features[0]["properties"][name]
    assert json.loads(json.dumps(frame.geometry["near"].__geo_interface__)) == features[0]["geometry"]
    contours = hierarchy.within(places[0]).to_geodataframe()
    assert (contours.crs, contours["contour"].tolist()) == (4326, [15, 10, 5])
    lines = geopandas.GeoDataFrame.from_features([wanted], crs=4326)
    assert lines.weight[0] == wanted.weight and lines.geometry[0].geom_type == "LineString"


PLACE = 47.1, 9.5


@pytest.mark.parametrize("call, says", [
    (lambda h: h.within(PLACE, 10), r"minutes are a list, as \[10\]"), (lambda h: h.within(9.5, 47.1), r"a place is \(lon, lat\)"),
    (lambda h: h.within(PLACE, ["5"]), "have to be numbers"), (lambda h: h.within(PLACE, [600000]), "there may be 600"),
    (lambda h: h.reach("a"), r"starts are nodes in a list, as \['a'\]"), (lambda h: h.matrix(5), r"sources are .*, as \[5\]"),
    (lambda h: h.matrix([0], np.int64(5)), r"targets are nodes in a list, as \[5\]"), (lambda h: h.reach([0], np.array([5])), "limit has to be"),
    (lambda h: h.reach([0], 5, minutes=3), "one of both"), (lambda h: h.matrix(np.array([9.5])), "table.sources, targets. takes places"),
    (lambda h: h.route(PLACE, PLACE), "directions.places. takes places"), (lambda h: h.routes([PLACE, PLACE]), "directions.places. takes places"),
    (lambda h: h.directions([(*PLACE, 5), PLACE]), "rows .lon, lat., or points"), (lambda h: h.directions(["9.5,47.1", "9.6,47.1"]), "rows .lon, lat."),
    (lambda h: h.nearest([0.0, 0.005], [0.0, 0.02]), r"^place 1 has no node within 1000 m: .*: are lon and lat swapped\?$"),
    (lambda h: h.directions([(0.0, 0.0), (0.005, 0.02)]), r"^place 1 has no road within 1000 m: .*: are lon and lat swapped\?$"),
    (lambda h: h.nearest(0.0, np.nan), "have to be numbers of degrees"), (lambda h: h.nearest(180.1, 0), "lon has to be from -180"),
    (lambda h: h.nearest(0, -90.1), "lat from -90 to 90"), (lambda h: h.directions([(0, 0)] * 2, snapping="all"), "snapping has"),
    (lambda h: h.network.points_on_roads((0.0055, 0), 9, bearings=[(0, 5)]), "^place 0 has no road within 9 m in the direction of"),
    *((lambda h, value=value: h.network.points_on_roads((0, 0), bearings=[value]), "a bearing is .*, and not") for value in (
        (361, 5), (-1, 5), (90, 181), (90, -1), (90,), (90, 5, 5), 90, "a", (None, 5))),
    (lambda h: h.network.keys("name"), "v.nodes.csv: No such file"),
    (lambda h: h.nearest([0, 0.01], [0.0]), "2 values of lon and 1 of lat"), (lambda h: h.nearest(60, 0.0), r"km|m away$"),
    (lambda h: h.nearest(0.0, 60), "m away$"), (lambda h: h.network.nearest(0, 60), "no node within 1000 m"),
    (lambda h: h.network.geojson(None), "there is no route"), (lambda h: domethyme.Hierarchy(b"x"), "takes the path of a file, and no bytes"),
    (lambda h: domethyme.Hierarchy(h.path, keys=h.network), r"is it network.keys\(\)"),
    *((lambda h, net=net: domethyme.Hierarchy(h.path, network=net), "network is a Network, or the prefix") for net in (5, b"v")),
    *((lambda h, sums=sums: h.matrix([0], sums=sums), "sums has to be") for sums in ("metres", ["km"], 5)),
    (lambda h: domethyme.Hierarchy(h.path).matrix([0], sums=["metres"]), "has no network"),
    (lambda h: h.matrix([0], np.array([9.5])), "targets .* are float64: table.sources, targets. takes places"),
    (lambda h: h.within(PLACE, np.array(5)), "minutes are a list"),
    (lambda h: domethyme.Graph.from_keys([1], [2], [5e9]), "scale=1000"), (lambda h: domethyme.open("none"), "none.gr none.rch` makes it"),
    (lambda h: domethyme.Graph.from_frame(pd.DataFrame({"a": [1], "b": [2]}), "a", "b"), "no column weight; it has a, b"),
    (lambda h: domethyme.from_osm("none.osm", "none"), "none.osm: No such file"),
    (lambda h: domethyme.prepare("li.net", "li.rch"), "its graph ends in .gr"), (lambda h: domethyme.prepare("li.osm.pbf", "li.rch"), "is a map"),
    (lambda h: domethyme.prepare("a.b.net", "c.rch"), "in .gr"), (lambda h: domethyme.prepare("a.b.osm.pbf", "c.rch"), "is a map"),
    (lambda h: domethyme.check("li.rch", "li.rch"), "li.rch: is a hierarchy"),
    (lambda h: domethyme.Network("n.csv"), "n.csv: is a table: NETWORK comes first"),
])
def test_calls_that_nobody_can_mean(village, call, says):
    with pytest.raises((ValueError, KeyError, domethyme.DomethymeError), match=says):
        call(village[0])


@pytest.mark.needs("import:networkx")
@pytest.mark.parametrize("kind, back", [("MultiGraph", [(1, 0, 1), (1, 0, 2)]), ("MultiDiGraph", [])])
def test_graphs_of_networkx(kind, back):
    """Nodes in the graph's order; an edge without a direction leads both ways, and one from a node to itself once."""
    import networkx

    graph = getattr(networkx, kind)([("b", "a", {"km": 2}), ("b", "a", {"km": 1}), ("c", "c", {"km": 5})])
    graph.add_node("d")
    for weight, scale, factor in (("km", 10, 10), (None, None, 0)):
        made = domethyme.Graph.from_networkx(graph, weight, scale)
        arcs = zip(*(each.tolist() for each in (made.from_nodes, made.to_nodes, made.weights)))
        assert sorted(arcs) == [(start, end, km * factor or 1) for start, end, km in [(0, 1, 1), (0, 1, 2), *back, (2, 2, 5)]]
        assert [*made.keys] == ["b", "a", "c", "d"] and made.nodes == 4
    graph.add_edge("d", "a")
    with pytest.raises(ValueError, match="the edge from '[ad]' to '[ad]' has no km"):
        domethyme.Graph.from_networkx(graph, "km")


def test_graphs_without_node_0():
    with pytest.warns(UserWarning, match="node 0 has no arc"):
        domethyme.Graph([1, 2], [2, 3], [1, 1])
    with warnings.catch_warnings():
        warnings.simplefilter("error")
        for graph in ([1], [0], [1]), ([0], [1], [1]), ([1], [2], [1], 3):
            domethyme.Graph(*graph)


NODES = "node,lon,lat\n7,0,0\n8,0.001,0\n9,0.001,0.002\n10,0.5,0.5\n"
BOTH = "from,to,kmh,km,oneway\n7,8,50,0.2,no\n8,9,50,0.3,no\n9,10,30,90,1\n"


@pytest.mark.parametrize("nodes, arcs, words, status, says", [
    (NODES + "11,0,0\n", "from,to,seconds,km,oneway\n7,8,20,0.2,no\n8,9,0,0.1,no\n9,10,20,0.5,1\n", [], 0, [
        "3 of 5 nodes reach one another, and 2 don't, of which 1 have no arc", "to the greatest: 100, 100, 200, 200, 500\n",
        "km/h of arcs, from the least by quartiles to the greatest: 36, 36, 36, 63, 90\n"]),
    (NODES, BOTH, ["--largest"], 0, [
        "out: 3 nodes, 4 arcs, 0.5 km", "3 of 4 nodes reach one another, and 1 don't, of which 0 have no arc",
        "metres of arcs, from the least by quartiles to the greatest: 200, 200, 250, 300, 300\n"]),
    (NODES.replace(",", ";").replace(".", ","), BOTH.replace(",", ";").replace(".", ","), ["--delimiter", ";", "--decimal", ","], 0, ["out: 4 nodes"]),
    (NODES, BOTH.replace(",1\n", ",1.0\n"), [], 0, ["out: 4 nodes, 5 arcs"]),
    (NODES, BOTH.replace("7,", "7.0,"), [], 1, ["is it 7?"]), ("PK\3\4", BOTH, [], 1, ["spreadsheet"]),
    (NODES.replace(",", ";"), BOTH, [], 1, ["fields have to be separated by commas, or give --delimiter ';'\n"]),
    (NODES, BOTH, ["--delimiter", "tab"], 1, ["fields have to be separated by tabs, or give --delimiter ,\n"]),
    (NODES.replace("0.5,0.5", '"0,5",0'), BOTH, [], 1, ["lon '0,5' is not a number: write a point for the comma, or give --decimal ,"]),
    (NODES.replace(",", ";"), BOTH, ["--delimiter", ";", "--decimal", ","], 1, ["lon '0.001' is not a number: write a comma for the point"]),
    (NODES, BOTH, ["--decimal", ","], 2, ["a comma is between fields too: give --delimiter, as ';'"]),
    (NODES, BOTH, ["--delimiter", "ab"], 2, ["no mark"]), (NODES, BOTH.replace("kmh", "kmh\u00df").encode("latin-1"), [], 1, ["save it as CSV UTF-8"]),
])
def test_what_to_network_says(tmp_path, run, nodes, arcs, words, status, says):
    (tmp_path / "n.csv").write_text(nodes)
    (tmp_path / "a.csv").write_bytes(arcs if isinstance(arcs, bytes) else arcs.encode())
    said = run(TOOLS / "to_network", "n.csv", "a.csv", "out", *words, status=status)
    assert all(text in said for text in says), said


CONTAINER = ROOT / "packaging/container/domethyme-container"


def test_the_container(tmp_path, run, monkeypatch):
    """Its command prepares a map, says what is wrong, and takes the package's file for nginx, with its own sockets, port and logs."""
    monkeypatch.setenv("PYTHONPATH", str(PYTHON))
    monkeypatch.setenv("PYTHONDONTWRITEBYTECODE", "1")
    command = ["/usr/bin/python3", CONTAINER]
    said = run(*command, "prepare", VILLAGE, tmp_path / "out/v", status=1)
    assert "/out: " in said and "No such file or directory" in said
    said = run(*command, "prepare", VILLAGE, tmp_path / "v", "--profile", "bicycle")
    assert "domethyme: ways 100 %" in said and "domethyme: files done" in said and "v.rch: " in said
    assert {path.name for path in tmp_path.iterdir()} == {"v.gr", "v.net", "v.rch"}
    assert "usage: domethyme-serve" not in run(*command, "true")
    loader = importlib.machinery.SourceFileLoader("container", str(CONTAINER))
    module = importlib.util.module_from_spec(importlib.util.spec_from_loader("container", loader))
    monkeypatch.setattr(sys, "dont_write_bytecode", True)
    loader.exec_module(module)
    module.NGINX_FILE = ROOT / "packaging/nginx/domethyme.conf"
    text = module.nginx_file("/tmp/here")
    assert "listen 5000;" in text and text.count("unix:/tmp/here/serve.sock") == 3
    assert not any(place in text for place in ("listen 80;", "/run/domethyme/", "/var/log/"))
    monkeypatch.setattr(module.tempfile, "tempdir", str(tmp_path))
    for words in ([], ["--allowed-host", "a"], ["--allowed-host=a"]):
        with mock.patch.object(module.subprocess, "Popen") as started, mock.patch.object(module.signal, "signal"):
            module.Pair("v", words)
        assert ("*" in started.call_args_list[0].args[0]) == (not words)
