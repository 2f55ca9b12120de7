"""Tests of the columns of a user's own tables: names, what is refused, keys, units, and gzip."""
import gzip
import json
import tracemalloc

import numpy as np
import pytest
from draws import run_tool

import domethyme
from domethyme.dimacs import read_graph
from domethyme.network import column_file, from_tables, net_file
from domethyme.network.columns import NO_OSM, OF_NODES
from domethyme.network.net_file import NodeArrays
from domethyme.network.zoom_levels import road_class
from domethyme_service.errors import RequestError
from domethyme_service.queries import NodeKeys

NODES = "node,lon,lat\ndepot,0,0\nshop,0.001,0\nfarm,0.001,0.002\n"
MOST = (1 << 63) - 1
ARCS = "from,to,kmh\ndepot,shop,50\nshop,depot,50\nshop,farm,30\n"


@pytest.fixture
def folder(tmp_path, monkeypatch):
    """The folder in which the test runs, with a network and its tables."""
    monkeypatch.chdir(tmp_path)
    (tmp_path / "nodes.csv").write_text(NODES)
    (tmp_path / "arcs.csv").write_text(ARCS)
    run_tool("to_network", "nodes.csv", "arcs.csv", "net", "--tables")
    return tmp_path


def test_keys_come_back(folder):
    """In the package, and in tables."""
    domethyme.prepare("net.gr", "net.rch", workers=1).close()
    network = domethyme.Network("net")
    with domethyme.Hierarchy("net.rch", keys=network.keys(), network=network) as hierarchy:
        assert hierarchy.nearest(0.001, 0.0019)[0] == "farm"
    assert (folder / "net.nodes.csv").read_text().startswith("node,osm,lon,lat,ends,key\n1,,0.0000000,0.0000000,,depot\n")
    assert (folder / "net.nodes.csvt").read_text() == '"Integer","Integer64","CoordX","CoordY","String","String"\n'
    run_tool("to_network", "net.nodes.csv", "net.arcs.csv", "again")
    (folder / "net.net").unlink()
    assert [domethyme.Network(name).keys().node("farm") for name in ("net", "again")] == [2, 2]


def test_tables_and_dimacs_files_of_gzip(folder):
    (folder / "x.co").write_text("p aux sp co 3\nv 1 0 0\nv 2 1000 0\nv 3 1000 2000\n")
    graph = (folder / "net.gr").rename("x.gr").read_bytes()
    for name in ("nodes.csv", "arcs.csv", "x.co", "x.gr"):
        (folder / f"{name}.gz").write_bytes(gzip.compress((folder / name).read_bytes()))
        (folder / name).unlink()
    for out, tables in (("packed", ("nodes.csv.gz", "arcs.csv.gz")), ("dimacs", ("x.co.gz", "x.gr.gz"))):
        run_tool("to_network", *tables, out)
        assert (folder / f"{out}.gr").read_bytes() == graph
    assert read_graph("x.gr.gz") == read_graph("packed.gr")
    assert domethyme.Network("x.co.gz").nearest(0.001, 0.002)[0] == 2
    route = domethyme.Route(0, 2, 34693, [0, 1, 2], [0, 1, 2])
    for network in ("x.co.gz", "packed", "x.co.gz"):
        assert domethyme.Network(network).geojson(route)["features"][0]["properties"]["arcs"] == 2
        (folder / "x.gr").write_bytes(graph)  # (which is read in place of the other one)
        (folder / "x.gr.gz").write_text("p sp 1 0\n")


@pytest.mark.parametrize("nodes, arcs, unused", [
    ("id,lng,latitude", "source,target,meters,kmh", []), ("ID,long,y", "from_node,to_node,METRES,km/h", []),
    ("Node,Longitude,lat", "From_ID,to_id,Metres,kph", []), ("iD,X,LAT", "from,TO,metres,KMH", []),
    ("node,lon,lat,X", "from,to,metres,kmh,one_way,speed,kmhh", ["X", "one_way (did you mean oneway?), speed, kmhh"]),
])
def test_names_of_columns(tmp_path, nodes, arcs, unused):
    """Each that the page has, in letters of any case, and what is said of those that aren't the column's own."""
    said, paths, names = [], (tmp_path / "nodes.csv", tmp_path / "arcs.csv"), ("from", "to", "weight", "metres", "osm")
    paths[0].write_text(f"{nodes}\na,0.25,47\nb,0.5,47\n".replace("47\n", f"47{',' * (nodes.count(',') - 2)}\n"))
    paths[1].write_text(f"{arcs}\nb,a,20000,36{',' * (arcs.count(',') - 3)}\n")
    read = from_tables.read_nodes(paths[0], said.append)
    found = from_tables.read_arcs(paths[1], read, say=said.append).columns
    assert read.arrays.places.tolist() == [[2_500_000, 470_000_000], [5_000_000, 470_000_000]]
    assert [found[f"arc_{name}"].tolist() for name in names] == [[1], [0], [2_000_000], [20_000], [0]]
    words = ("node", "lon", "lat"), (*names[:2], "metres", "kmh")
    own = [(path, *pair) for path, head, some in zip(paths, (nodes, arcs), words) for pair in zip(head.split(","), some)]
    wanted = [f"{path}: column {name} is taken as {word}" for path, name, word in own if name.lower() != word]
    assert sorted(said) == sorted([*wanted, *(f"{path}: columns not used: {some}" for path, some in zip(paths, unused))])


@pytest.mark.parametrize("nodes, arcs, says", [
    *((nodes, ARCS, f"nodes{says}") for nodes, says in (
        ("lon,Lon,lat\n0,0,0\n", ", row 1: has the columns lon and Lon, of which each may be lon: rename one"),
        ("lng,x,lat\n0,0,0\n", ", row 1: has the columns lng and x, of which each may be lon: rename one"),
        ("node,place\na,b\n", ", row 1: has no columns lon, lat; its columns are node, place"),
        ("Lonn,latt\n1,2\n", ", row 1: has no columns lon, lat; its columns are Lonn, latt: is it Lonn for lon, latt for lat?"),
        ("lon,lat\n", ": has 0 nodes, and a network has from 1 to 33554432"),
        ("node,lon,lat\na,0,0\n\na,1,1\n", ", row 4: node 'a' comes twice"),
        ("node,lon,lat,key\na,0,0,x\nb,0,0,x\n", ", row 3: key 'x' comes twice"),
        ("lon,lat,ends\n0,0,both\n", ", row 2: ends 'both' is none of from, to, no"),
        (f"lon,lat,osm\n0,0,{MOST}\n0,0,-{MOST + 1}\n", f", row 3: osm -{MOST + 1} isn't from -{MOST} to {MOST}"),
        *((f"lon,lat\n{place}\n", f", row 2: {says}") for place, says in (
            ("180.1,0", "lon '180.1' isn't from -180 to 180"), ("-180.1,0", "lon '-180.1' isn't from -180 to 180"),
            ("0,90.1", "lat '90.1' isn't from -90 to 90"), ("0,-90.1", "lat '-90.1' isn't from -90 to 90"))))),
    *(("lon,lat\n0,0\n0.001,0\n", arcs, f"arcs, row {says}") for arcs, says in (
        ("from,to,weight\n1,3,1\n", "2: to 3 isn't from 1 to 2"), ("from,to,weight\n2,1,1\n0,2,1\n", "3: from 0 isn't from 1 to 2"),
        (ARCS, "2: from 'depot' is not a number, and {}/nodes has no column node, so its nodes are numbered by rows; "
         "its columns are lon, lat; 2 other rows are refused too"))),
    *((NODES, arcs, f"arcs{says}") for arcs, says in (
        ("", ": is empty"), ("a,b\n1,2\n", ", row 1: has no columns from, to; its columns are a, b"),
        ("from,to\n", ": has 0 arcs, and a network has from 1 to 134217728"),
        ("from,to,weight\ndepot,office,1\n", ", row 2: to 'office' isn't in {}/nodes"),
        ("from,to,weight\ndepot,shop,-1\n", ", row 2: weight -1 isn't from 0 to 4294967295"),
        ("from,to,weight\ndepot,shop,4294967296\n", ", row 2: weight 4294967296 isn't from 0 to 4294967295"),
        ("from,to,kmh\ndepot,shop,0\n", ", row 2: kmh is 0"),
        ("from,to,seconds\ndepot,shop,1\nshop,depot,1e9\n", ", row 3: would weigh more than 4294967295"),
        ("from,to,kmh,weight\ndepot,shop,1e-308,5\n", ", row 2: would take more than 1000000000000 seconds"),
        ("from,to,km,weight\ndepot,shop,1e12,5\n", ", row 2: would have more than 1000000000000 metres"),
        (ARCS.replace(",50", ",-1"), ", row 2: kmh '-1' isn't from 0 to 1e+12; another row is refused too"),
        (ARCS.replace("0\n", "x\n"), ", row 2: kmh '5x' is not a number; 2 other rows are refused too"),
        ("from,to,kmh,oneway\ndepot,shop,50,x\n", ", row 2: oneway 'x' is none of 1, yes, -1, 0, no"),
        ("from,to,weight,WKT\ndepot,shop,1,POINT (0 0)\n", ", row 2: WKT 'POINT (0 0)' is no line"),
        *((f'from,to,kmh,wkt\ndepot,shop,5,"LINESTRING ({line})"\n', f", row 2: {says}") for line, says in (
            ("0 0, 0.001 0.01", "its line ends 1,112 m from its node: are from and to swapped?"),
            ("0.01 0, 0.001 0", "its line ends 1,112 m from its node: are from and to swapped?"),
            *((line, f"WKT 'LINESTRING ({line})' has what are no degrees")
              for line in ("0 0, 0 -90.1, 0.001 0", "0 0, 180.1 0, 0.001 0", "0 0, 0 inf", "0 0, nan 0, 1 0")))))),
])
@pytest.mark.filterwarnings("error")
def test_rows_that_are_refused(tmp_path, nodes, arcs, says):
    (tmp_path / "nodes").write_text(nodes)
    (tmp_path / "arcs").write_text(arcs)
    with pytest.raises(domethyme.NetworkError) as refused:
        from_tables.read_arcs(tmp_path / "arcs", from_tables.read_nodes(tmp_path / "nodes"))
    assert str(refused.value) == f"{tmp_path}/{says}".replace("{}", str(tmp_path))


@pytest.mark.parametrize("rows, unit", [
    ("1,2,1001,1,0\n2,1,1999,2,0\n", "duration"), ("1,2,1000,1,10\n", "duration"), ("1,2,1001,0,10\n2,1,1999,1,20\n", "distance"),
    ("1,2,1002,1,0\n", "weight"), ("1,2,1000,1,0\n2,1,2000,0,0\n", "weight"), ("1,2,0,0,0\n", "weight")
])
def test_units_of_weights(tmp_path, monkeypatch, rows, unit):
    """Milliseconds or centimetres to a rounding, of all arcs, if any has some."""
    monkeypatch.setattr(net_file, "SECONDS_AT_A_TIME", 1)
    (tmp_path / "n.csv").write_text("lon,lat\n0,0\n0.00001,0\n")
    (tmp_path / "a.csv").write_text(f"from,to,weight,seconds,metres\n{rows}")
    run_tool("to_network", tmp_path / "n.csv", tmp_path / "a.csv", tmp_path / "net")
    found = net_file.read(tmp_path / "net.net")
    assert (found.unit, found.has_seconds) == (unit, any(row.split(",")[3] != "0" for row in rows.split()))


def test_kinds_of_roads():
    """Those of a kind are shown on maps from one zoom on."""
    kinds = "motorway trunk", "primary", "secondary", "tertiary", "unclassified residential living_street", "service track"
    names = [(name, kind) for kind, some in enumerate(kinds) for name in some.split()]
    assert [road_class(f"{name}{link}") for name, _ in names for link in ("", "_link")] == [kind for _, kind in names for _ in "ab"]
    assert road_class("") == 5


def test_a_line_of_many_points(tmp_path):
    """A field has more than the 131,072 characters that Python's csv takes by itself."""
    line = ", ".join(f"{0.001 * step / 9000:.7f} {0.0001 * (step % 2):.7f}" for step in range(9001))
    (tmp_path / "n.csv").write_text("lon,lat\n0,0\n0.0099,0\n")  # (990 m from the end of the line)
    (tmp_path / "a.csv").write_text(f'from,to,kmh,WKT\n1,2,50,"LINESTRING ({line})"\n')
    run_tool("to_network", tmp_path / "n.csv", tmp_path / "a.csv", tmp_path / "net")
    assert len(net_file.read(tmp_path / "net.net").points) == 9001


def test_metres_of_many_lines():
    """A line has its own metres, to the last digit, behind many that lead round the earth."""
    points = np.array([(0, 0), (1_700_000_000, 0)] * 100_000 + [(0, 0), (10_000, 0)] * 100_000, np.int32)
    metres = from_tables.line_metres(np.arange(0, len(points) + 1, 2), points)
    assert metres[-1] == pytest.approx(111.19508, abs=1e-5) and np.ptp(metres[100_000:]) == 0


@pytest.mark.parametrize("is_old", [False, True])
def test_keys_take_no_memory_of_a_process(tmp_path, is_old):
    """Each key is found in the file, whatever its order, and none that isn't there. A file of version 3 has no order of keys."""
    names = [f"{chr(0x2460 + number % 20)}{number * 7919 % 20_011}" for number in range(20_000)]
    nodes = NodeArrays({f"node_{name}": np.full(20_000, NO_OSM if name == "osm" else 0) for name in OF_NODES}, names)
    arcs = from_tables.straight_arcs(*(np.array([each]) for each in (0, 1, 3)), nodes)
    path = tmp_path / "net.net"
    with open(path, "w+b") as file:
        net_file.write(file, net_file.build_arrays(nodes, arcs))
    if is_old:
        columns = {name: column[:] for name, column in net_file.read(path).file.columns.items() if name != "key_nodes"}
        path = tmp_path / "old.net"
        with open(path, "w+b") as file:
            column_file.write(file, net_file.FORMS[3], 3, {**columns, "about": columns["about"][:-2]}.items())
    tracemalloc.start()
    keys = NodeKeys(net_file.read(path))
    assert [keys.node(names[number], "from_key") for number in (0, 77, 19_999)] == [0, 77, 19_999]
    assert json.loads(keys.add_keys(b'{"a":1}', (2, 4))) == {"a": 1, "from_key": names[2], "to_key": names[4]}
    _, peak = tracemalloc.get_traced_memory()
    tracemalloc.stop()
    assert is_old or peak < 20 * len(names)
    for key in ("", "no", names[0] + "x", "\ud800", "\uffff", 7, None):
        with pytest.raises(RequestError, match="from_key .* is the key of no node"):
            keys.node(key, "from_key")


@pytest.mark.parametrize("names", ["123", "213"])
def test_names_that_are_numbers(names, folder):
    """Names are keys whatever they are, also the numbers of rows from 1: a question by them would else be one by nodes from 0."""
    (folder / "nodes.csv").write_text("node,lon,lat\n" + "".join(f"{name},0.00{row},0\n" for row, name in enumerate(names)))
    (folder / "arcs.csv").write_text("from,to,weight\n1,2,10\n2,3,20\n")
    for tables, out in (("", "net"), ("net.", "again")):
        run_tool("to_network", f"{tables}nodes.csv", f"{tables}arcs.csv", out, "--tables")
        domethyme.prepare(f"{out}.gr", f"{out}.rch").close()
        with domethyme.open(out) as hierarchy:
            assert (hierarchy.length(1, 2), hierarchy.length(1, 3), [*hierarchy.network.keys()]) == (10, 30, [*map(int, names)])


@pytest.mark.parametrize("nodes, keys", [
    ("node,lon,lat,key\na,0,0,x\nb,1,1,\nc,2,2,\n", ["x", None, None]), ("node,lon,lat,key\nb,0,0,\na,1,1,\n", ["b", "a"]),
    ("node,lon,lat\na,0,0\n,1,1\n,2,2\n", ["a", None, None])
])
def test_empty_fields_are_no_keys(folder, nodes, keys):
    """In the network's file, and in tables, which are read where that isn't there. No arc names such a node."""
    (folder / "nodes.csv").write_text(nodes)
    (folder / "arcs.csv").write_text("from,to,weight\na,a,1\n")
    run_tool("to_network", "nodes.csv", "arcs.csv", "net", "--tables")
    for _ in range(2):
        network = domethyme.Network("net")
        assert ([*network.keys()], network.arrays.node("")) == (keys, None)
        (folder / "net.net").unlink(missing_ok=True)
    (folder / "arcs.csv").write_text("from,to,weight\na,,1\n")
    with pytest.raises(domethyme.NetworkError, match="arcs.csv, row 2: to '' isn't in nodes.csv"):
        run_tool("to_network", "nodes.csv", "arcs.csv", "other")


def test_keys_of_a_table_that_was_replaced(folder):
    """Another column of the table beside the network is read later, and has to be of the same table."""
    table = folder / "firm.nodes.csv"
    table.write_text("node,lon,lat,shop,key\na,0,0,north,x\nb,0.001,0,south,y\n")
    (folder / "firm.arcs.csv").write_text("from,to,kmh\na,b,50\n")
    run_tool("to_network", table, "firm.arcs.csv", "firm")
    network = domethyme.Network("firm")
    assert [network.keys(*column).node(key) for column, key in ((("shop",), "south"), ((), "y"), (("key",), "y"))] == [1, 1, 1]
    table.write_text("node,lon,lat,shop,key\nb,0.001,0,south,y\na,0,0,north,x\n")
    assert network.keys().node("y") == 1
    with pytest.raises(domethyme.NetworkError, match="firm.nodes.csv: isn't the table of the nodes that .*firm.net has"):
        network.keys("shop")
