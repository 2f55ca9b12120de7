"""Tests of table and reach: their forms, table's to the byte, and what is refused. A thousandth of a degree is 111.195 m."""
import json
import pathlib
import subprocess

import numpy as np
import pytest
from draws import assert_refused, run_tool
from reach_case import Road, prepared, town_map

import domethyme

# A square of streets of 100 and 200, and a street that leads away from it alone.
NODES = "node,osm,lon,lat\n1,,0,0\n2,,0.001,0\n3,,0.001,0.001\n4,,0,0.001\n5,,0.002,0\n"
ARCS = "from,to,weight,metres\n1,2,100,128.01\n2,3,100,\n3,4,100,\n4,1,100,\n2,1,200,\n2,5,7,\n"
SOURCES = "key,lon,lat\nnorth,0.0001,0.001\n=south,0,0\naway,0.002,0\n"
TARGETS = "lat,lon,key\n0,0.0011,two\n0.0009,0.001,three\n"
# Words, tables of places, and what is said of them. 23171 * 23171 is 536,895,241, and 2^29 is 536,870,912.
MANY = "lon,lat\n" + "0,0\n" * 23171
REFUSED = [
    ([], SOURCES, TARGETS + "\n0.03,0,far\n", "targets.csv, row 5: has no road within 1000 m: the nearest is 3,225 m away"),
    ([], "lon,lat\n0.001,0.02\n", TARGETS, "sources.csv, row 2: has no road within 1000 m: the nearest is 2,113 m away"),
    (["--radius", "0.5"], "lon,lat\n0,0\n\n0,0.00101\n", TARGETS, "row 4: has no road within 0.5 m: the nearest is 1 m away"),
    ([], SOURCES, TARGETS + "91,0,x\n", "targets.csv, row 4: lat '91' isn't from -90 to 90"),
    ([], "east,lat\n0,0\n", TARGETS, "sources.csv, row 1: has no column lon"),
    (["--name", "name"], "name,lon,lat\na,0,0\n", TARGETS, "targets.csv, row 1: has no column name"),
    (["--name", "key"], SOURCES, "key,key,lon,lat\n", "has two columns key"),
    ([], MANY, MANY, "sources.csv: has 23171 places, which with 23171 targets make more than 536870912 weights"),
]
PLACE, PLACES = (9.004, 47.004), "name,lon,lat\nhere,9.004,47.004\n"


@pytest.fixture
def files(write):
    for name, text in (("own.nodes.csv", NODES), ("own.arcs.csv", ARCS), ("sources.csv", SOURCES), ("targets.csv", TARGETS)):
        write(name, text)
    run_tool("to_network", "own.nodes.csv", "own.arcs.csv", "net")
    domethyme.prepare("net.gr", "net.rch", workers=1).close()


def table(*words, places=("sources.csv", "targets.csv"), given=""):
    return run_tool("table", "net", "net.rch", *places, *words, given=given)[0]


def test_output_formats(write, files):
    """From the north, nine tenths along a street, it is 10 to the corner, and two streets to the next; to the first target a tenth of
    7 more, and to the second nine tenths of 100. Streets are 111.2 m, and one is 128.01 m."""
    wanted = "from,1,2\n1,211,300\n2,101,190\n3,,\n"
    assert table() == table(places=("-", "targets.csv"), given=SOURCES) == wanted
    table("-o", "table.csv")
    assert pathlib.Path("table.csv").read_text() == wanted
    assert table("--name", "key") == "from,two,three\nnorth,211,300\n'=south,101,190\naway,,\n"
    table("-o", "table.npy")
    found = np.load("table.npy")
    assert (found.dtype, found.tolist()) == (np.int64, [[211, 300], [101, 190], [-1, -1]])
    assert table("--metres", "m") == wanted and pathlib.Path("m").read_text() == "from,1,2\n1,261.45,350.41\n2,139.13,228.09\n3,,\n"
    assert table("--name", "key", places=["sources.csv"] * 2).splitlines()[0] == "from,north,'=south,away"
    table("--metres", "m.npy", "-o", "table.csv")
    np.testing.assert_array_equal(np.load("m.npy"), [[261.45, 350.41], [139.13, 228.09], [np.nan] * 2])
    write("at.csv", "X,Latitude\n0,0\n0.001,0\n")  # (as to_network takes them)
    assert table("--radius", "0", places=["at.csv"] * 2) == "from,1,2\n1,0,100\n2,200,0\n"
    write("twice.csv", "x,x,key,lon,lat\n8,9,here,0,0\n")  # (columns that nobody asks for)
    assert table("--name", "key", places=["twice.csv"] * 2) == "from,here\nhere,0\n"
    write("none.csv", "lon,lat\n")
    for places, text, shape in [(("none.csv", "targets.csv"), "from,1,2\n", (0, 2)), (("none.csv", "none.csv"), "from\n", (0, 0)),
                                (("sources.csv", "none.csv"), "from\n1\n2\n3\n", (3, 0))]:
        assert table(places=places) == text
        table("-o", "t.npy", places=places)
        assert np.load("t.npy").shape == shape


def test_input_that_is_refused(write, files):
    words = ("table", "net", "net.rch", "sources.csv", "targets.csv")
    for more, sources, targets, says in REFUSED:
        write("sources.csv", sources)
        write("targets.csv", targets)
        assert_refused(*words, *more, "-o", "table.csv", says=says)
    write("x.co", "p aux sp co 1\nv 1 0 0\n")
    assert_refused("table", "x.co", *words[2:], says="x.co: has no roads but nodes: `routecli route`")
    for more in (["-o", "targets.csv"], ["--metres", "targets.csv"]):
        assert_refused(*words, *more, says="")
    for places in (["-", "-"], ["sources.csv"]):
        assert_refused(*words[:3], *places, says="")
    write("sources.csv", SOURCES)
    write("targets.csv", TARGETS)
    write("own.arcs.csv", ARCS.replace("200", "201"))
    run_tool("to_network", "own.nodes.csv", "own.arcs.csv", "net")
    assert_refused(*words, "-o", "table.csv", says="net.rch: is the hierarchy of another network than net")


def test_ferries_alone(write):
    """No place is on one, so there is no road for any."""
    write("nodes.csv", "lon,lat\n0,0\n0.01,0\n")
    write("arcs.csv", "from,to,seconds,highway\n1,2,600,ferry\n2,1,600,ferry\n")
    write("trips.csv", "from_lon,from_lat,to_lon,to_lat,lon,lat\n0,0,0.01,0,0,0\n")
    run_tool("to_network", "nodes.csv", "arcs.csv", "net")
    domethyme.prepare("net.gr", "net.rch", workers=1).close()
    assert_refused("table", "net", "net.rch", "trips.csv", "trips.csv", says="trips.csv, row 2: has no road within 1000 m")
    with pytest.raises(domethyme.DomethymeError, match="1 of 1 trips have no road"):
        run_tool("routes", "net", "net.rch", "trips.csv", "-o", "out.csv")
    assert pathlib.Path("out.csv").read_text().splitlines()[1] == "0,0,0.01,0,0,0,,,,,from has no road within 1000 m"


@pytest.fixture
def town(write):
    """The hierarchy of a town, which is a file too."""
    write("places.csv", PLACES)
    with prepared(*town_map(), pathlib.Path("town").resolve()) as hierarchy:
        yield hierarchy


def reached(*words, places="places.csv"):
    return run_tool("reach", "town", "town.rch", places, *words, given=PLACES)[0]


def test_reach(town):
    """Of standard input, of what leads there; and a file, which has a feature on each line."""
    found = json.loads(reached("--minutes", "1", "--towards", places="-"))
    assert found == town.within(PLACE, [1], towards=True) != town.within(PLACE, [1])
    reached("-o", "out")
    text = pathlib.Path("out").read_text()
    assert (json.loads(text), len(text.splitlines())) == (town.within(PLACE), 5)
    assert [feature["properties"]["contour"] for feature in json.loads(text)["features"]] == [15, 10, 5]


def test_what_reach_refuses(write, town):
    for text, says in (("lon,lat\n9,47\n\n9.004,48\n", "bad, row 4: has no road within 1000 m"), ("lon,lat\n", "bad: has no place"),
                       ("lon,lat\n9,x\n", "bad, row 2"), ("east,north\n9,47\n", "lon")):
        write("bad", text)
        assert_refused("reach", "town", "town.rch", "bad", says=says)
    prepared([(0, 0), (0.01, 0)], [Road(0, 1, 111_195, 111_195)], pathlib.Path("road").resolve()).close()
    assert_refused("reach", "road", "road.rch", "places.csv", says="places.csv, row 2: has no road within 1000 m")
    write("at.csv", "lon,lat\n0,0\n")
    assert_refused("reach", "road", "road.rch", "at.csv", "--metres", "5", says="road: the weights of the")  # (that are no lengths)
    assert_refused("reach", "town", "road.rch", "places.csv", says="nodes")
    assert_refused("reach", "town", "town.rch", "places.csv", "--radius", "0", says="places.csv, row 2: has no road within 0 m")
    for words in ("--minutes 5,5", "--minutes 5,10,7", "--minutes 0", "--minutes 5 --metres 5", "-o places.csv", "--denoise 2",
                  "--denoise -0.1", "--colors red,red,red", "--colors ff0000"):
        assert_refused("reach", "town", "town.rch", "places.csv", *words.split(), says="")


@pytest.mark.needs("ogrinfo")
def test_gdal_opens_it(town):
    """As QGIS does: a layer of polygons in degrees, with the numbers as a column."""
    reached("--minutes", "1,2", "-o", "out.geojson")
    told = subprocess.run(["ogrinfo", "-ro", "-al", "out.geojson"], check=True, capture_output=True, text=True).stdout
    for text in ("Feature Count: 2", "WGS 84", "contour (Integer)", "fill-opacity (Real)"):
        assert text in told
