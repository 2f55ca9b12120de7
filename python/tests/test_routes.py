"""Tests of routes: its forms to the byte, on a network by hand, very many trips beside a plain search, and what is refused."""
import csv
import json
import os
import pathlib
import signal
import subprocess
import time

import numpy as np
import pytest
from draws import assert_refused, run_tool
from reach_case import Road, arrays, lengths, prepared, town_map
from tool_case import SECONDS, TAKES_SIGNALS, TOOLS

import domethyme

# From b to c the arc of High Street is the lightest, and the first of two as light; d can't be reached.
NODES = "node,lon,lat\na,0.02,0\nb,0.021,0\nc,0.022,0\nd,0.023,0\n"
ARCS = """\
from,to,weight,seconds,metres,name,WKT
a,b,100,10.001,111.20,High Street,"LINESTRING (0.02 0, 0.021 0)"
b,a,100,10.001,111.20,High Street,"LINESTRING (0.021 0, 0.02 0)"
b,c,300,30.003,150.00,Long Way,"LINESTRING (0.021 0, 0.0215 0.002, 0.022 0)"
b,c,200,20.002,120.25,High Street,"LINESTRING (0.021 0, 0.0215 0.001, 0.022 0)"
b,c,200,20.002,120.25,As Light,"LINESTRING (0.021 0, 0.0215 0.003, 0.022 0)"
c,a,400,40.004,222.40,,"LINESTRING (0.022 0, 0.021 -0.001, 0.02 0)"
d,c,500,50.005,111.20,"Mill ""Lane"" <&>","LINESTRING (0.023 0, 0.022 0)"
"""
# A quarter of the way from a to b, c, d, and a place that is far away unless its degrees are swapped. A quarter of 10,001 ms is
# 2,500 ms.
HERE, C, D, FAR = "0.02025,0", "0.022,0", "0.023,0", "0,0.021"
TRIPS = f"""\
trip,from_lon,from_lat,to_lon,to_lat
007,{HERE},{C}
"=1+1",{D},{HERE}
nowhere,{HERE},{D}

stays,{HERE},{HERE}
at c,{C},{C}
far,{FAR},{C}
"""
FROM_FAR = "from has no road within 1000 m: the nearest is 3,118 m away: are lon and lat swapped?"
# Of each trip: weight, metres, seconds, streets, problem and the line.
FOUND = [
    (275, 203.65, 27.503, "High Street", None, [[0.02025, 0], [0.021, 0], [0.0215, 0.001], [0.022, 0]]),
    (925, 361.4, 92.509, 'Mill "Lane" <&>; High Street', None, [[0.023, 0], [0.022, 0], [0.021, -0.001], [0.02, 0], [0.02025, 0]]),
    (None, None, None, None, None, None),
    (0, 0.0, 0.0, "High Street", None, [[0.02025, 0]] * 2),
    (0, 0.0, 0.0, "", None, [[0.022, 0]] * 2),
    (None, None, None, None, FROM_FAR, None),
]
COLUMNS = ["weight", "metres", "seconds", "streets", "problem"]
STEPS = ["type", "modifier", "name", "metres", "seconds"]
# At b the road goes on by some 63 degrees to the left.
STEPS_TO_C = [
    ("depart", None, "High Street", 83.4, 7.501), ("continue", "left", "High Street", 120.25, 20.002),
    ("arrive", None, "High Street", 0, 0)
]


@pytest.fixture
def net(write):
    write("nodes.csv", NODES)
    write("arcs.csv", ARCS)
    write("trips.csv", TRIPS)
    run_tool("to_network", "nodes.csv", "arcs.csv", "net", "--attribution", "© the town")
    domethyme.prepare("net.gr", "net.rch", workers=1).close()


def routes(trips, out, *words, given=""):
    """The text of the file that is written."""
    run_tool("routes", "net", "net.rch", trips, "-o", out, *words, given=given)
    return pathlib.Path(out).read_text()


def features(*words, trips="trips.csv", given=""):
    collection = json.loads(routes(trips, "out.geojson", *words, given=given))
    assert (collection.pop("type"), collection.pop("attribution")) == ("FeatureCollection", "© the town")
    return collection.pop("features")


def test_features_and_rows(net, write):
    """The status is 1 only because of the place without a road, whose file is written too."""
    for out in ("out.geojson", "out.csv"):
        with pytest.raises(domethyme.DomethymeError, match=f"^{out}: 1 of 6 trips have no road within 1000 m of a place"):
            routes("trips.csv", out)
    own = [row for row in csv.reader(TRIPS.splitlines()) if row]
    found = json.loads(pathlib.Path("out.geojson").read_text())
    assert found["attribution"] == "© the town"
    assert found["features"] == [
        {"type": "Feature", "properties": {**dict(zip(own[0], trip)), **dict(zip(COLUMNS, values))},
         "geometry": line and {"type": "LineString", "coordinates": line}}
        for trip, (*values, line) in zip(own[1:], FOUND, strict=True)
    ]
    assert len(pathlib.Path("out.geojson").read_text().splitlines()) == 2 + len(FOUND)
    rows = [*csv.reader(pathlib.Path("out.csv").read_text().splitlines())]
    assert rows[0] == [*own[0], *COLUMNS] and rows[2][0] == "'=1+1"
    assert [row[1:] for row in rows[1:]] == [
        [*trip[1:], *("" if value is None else str(value) for value in values)] for trip, (*values, _) in zip(own[1:], FOUND)
    ]
    assert rows[1] == ["007", "0.02025", "0", "0.022", "0", "275", "203.65", "27.503", "High Street", ""]
    write("near.csv", TRIPS.replace(f"far,{FAR},{C}\n", ""))
    assert routes("near.csv", "near.csv.csv") == "".join(pathlib.Path("out.csv").read_text().splitlines(keepends=True)[:-1])


def test_steps(net):
    (to_c, nowhere) = features("--steps", trips="-", given=f"from_lon,from_lat,to_lon,to_lat\n{HERE},{C}\n{HERE},{D}\n")
    assert to_c["properties"]["steps"] == [dict(zip(STEPS, step)) for step in STEPS_TO_C]
    assert nowhere["properties"]["steps"] is None


def test_columns_of_a_trip(net):
    """Their names as to_network takes them, and those that are ours too; of a table without rows there is an empty output."""
    head = "Weight,FROM_LNG,to_X,From_Latitude,TO_Y,weight,route_weight,problem,steps"
    (feature,) = features("--steps", trips="-", given=f"{head}\nW,0.02025,0.022,0,0,w,r,p,s\n")
    own = dict(zip(head.split(","), ["W", "0.02025", "0.022", "0", "0", "w", "r", "p", "s"]))
    found = feature["properties"]
    assert list(found) == [*own, "route_route_weight", "metres", "seconds", "streets", "route_problem", "route_steps"]
    assert {name: found[name] for name in own} == own and (found["route_route_weight"], found["route_problem"]) == (275, None)
    for trips in ("from_lon,from_lat,to_lon,to_lat\n", f"{head}\n"):
        assert features(trips="-", given=trips) == []
    assert routes("-", "out.csv", given=f"{head}\n") == f"{head},route_route_weight,metres,seconds,streets,route_problem\n"


def test_across_the_180th_meridian(write, net):
    """Of 222.39 m at 36 km/h it drives the fractions from 0.2 to 0.6."""
    write("nodes.csv", "lon,lat\n179.999,0\n-179.999,0\n")
    write("arcs.csv", "from,to,kmh,name\n1,2,36,Date Line\n2,1,36,Date Line\n")
    run_tool("to_network", "nodes.csv", "arcs.csv", "net", "--attribution", "© the town")
    domethyme.prepare("net.gr", "net.rch", workers=1).close()
    (feature,) = features(trips="-", given="from_lon,from_lat,to_lon,to_lat\n179.9994,0,-179.9998,0\n")
    assert [feature["properties"][name] for name in COLUMNS[:4]] == [13343 - 4448, 88.96, 8.895, "Date Line"]
    parts = [[[179.9994, 0], [180, 0]], [[-180, 0], [-179.9998, 0]]]
    assert feature["geometry"] == {"type": "MultiLineString", "coordinates": parts}


@pytest.fixture
def town(tmp_path, monkeypatch):
    """A town, and 10,000 trips between its nodes, whose weights a plain search finds. From its island none can leave."""
    monkeypatch.chdir(tmp_path)
    nodes, roads = town_map()
    prepared(nodes, roads, tmp_path / "net").close()
    draw = np.random.default_rng(7)
    starts, ends = ([*draw.permutation(len(nodes) - 1)[:99].tolist(), len(nodes) - 1] for _ in range(2))
    pairs = draw.permutation([(start, end) for start in starts for end in ends]).tolist()
    rows = (f"{row},{','.join(map(str, (*nodes[start], *nodes[end])))}\n" for row, (start, end) in enumerate(pairs))
    (tmp_path / "trips.csv").write_text(f"row,from_lon,from_lat,to_lon,to_lat\n{''.join(rows)}")
    network = arrays(nodes, roads)
    found = {start: lengths(network, {start: 0}) for start in starts}
    return [int(found[start][end]) for start, end in pairs]


def test_ten_thousand_trips(town):
    rows = [*csv.DictReader(routes("trips.csv", "out.csv").splitlines())]
    assert [row["row"] for row in rows] == [str(number) for number in range(10_000)]
    assert [int(row["weight"]) if row["weight"] else -1 for row in rows] == town
    assert all(row["seconds"] == str(weight / 1000) for row, weight in zip(rows, town) if weight >= 0)
    assert -1 in town and max(town) > 0


def test_an_interrupt(town):
    """What was there stays, and nothing else."""
    pathlib.Path("out.geojson").write_text("as it was\n")
    before = {*os.listdir()}
    words = [*TAKES_SIGNALS, TOOLS / "routes", "net", "net.rch", "trips.csv", "-o", "out.geojson"]
    with subprocess.Popen(words, stderr=subprocess.PIPE) as process:
        end = time.monotonic() + SECONDS
        while {*os.listdir()} == before and process.poll() is None:
            assert time.monotonic() < end
            time.sleep(0.01)
        process.send_signal(signal.SIGINT)
    assert process.returncode == 130
    assert ({*os.listdir()}, pathlib.Path("out.geojson").read_text()) == (before, "as it was\n")


HEAD = "from_lon,from_lat,to_lon,to_lat"


@pytest.mark.parametrize("trips, says", [
    (f"{HEAD}\n0,0,0,0\n\n9.5,95,0,0\n", "row 4: from_lat '95' isn't from -90 to 90: are longitude and latitude swapped?"),
    (f"{HEAD}\n0,0,181,0\n", "trips.csv, row 2: to_lon '181' isn't from -180 to 180: are these degrees?"),
    (f"{HEAD}\n0,0,0,inf\n", "row 2: to_lat 'inf'"), (f"{HEAD}\n0,north,0,0\n", "row 2: from_lat 'north' is not a number"),
    (f"{HEAD}\n0,0,0\n", "row 2: has 3 fields in place of 4"), ("", "trips.csv: is empty"),
    ("from_lon,from_lat,to_lon\n", "trips.csv, row 1: has no column to_lat"), (f"{HEAD},x,x\n", "row 1: has two columns x"),
    (f"{HEAD},to_lng,to_x\n".replace("to_lon,", ""), "has the columns to_lng and to_x, of which each may be to_lon"),
])
def test_bad_tables(net, write, trips, says):
    write("trips.csv", trips)
    for out in ("out.geojson", "out.csv"):
        write(out, "as it was\n")
        assert_refused("routes", "net", "net.rch", "trips.csv", "-o", out, says=says)


def test_calls_that_are_refused(net, write):
    call = "routes", "net", "net.rch", "trips.csv"
    for words in (["-o", "out.json"], ["-o", "out"], ["-o", "-"], [], ["-o", "trips.csv"], ["-o", "out.csv", "--steps"],
                  *(["-o", "out.csv", "--radius", far] for far in ("-1", "nan", "inf", "near"))):
        assert_refused(*call, *words, says="")
    os.link("net.rch", "hierarchy.csv")
    assert_refused(*call, "-o", "hierarchy.csv", says="")
    write("x.co", "p aux sp co 1\nv 1 0 0\n")
    assert_refused("routes", "x.co", *call[2:], "-o", "out.csv", says="x.co: has no roads but nodes: `routecli route`")
    assert_refused("routes", "none", *call[2:], "-o", "out.csv", says="none.net: No such file")
    assert_refused("routes", "net", "none.rch", "trips.csv", "-o", "out.csv", says="none.rch: No such file")
    assert_refused(*call[:3], "none.csv", "-o", "out.csv", says="none.csv: No such file")
    prepared([(0, 0), (0.01, 0)], [Road(0, 1, 5, 5)], pathlib.Path("road").resolve()).close()
    says = "road.rch: is the hierarchy of another network than net"
    assert_refused("routes", "net", "road.rch", "trips.csv", "-o", "out.csv", says=says)
