"""Networks in the package domethyme: their keys, and files that are refused."""
import pickle

import pytest
from draws import run_tool
from tool_case import VILLAGE

import domethyme

# The ends of nodes by their keys: of one junction with turn restrictions, one node, one without a key, and then of several.
ENDS = [(7, ["to", "from", "no"]), (8, [""]), ("", ["from"]), (3, ["from", "to", "from", "to"]), (4, ["", "from", "to"]),
        (5, ["from", "to", "to"]), (6, ["to", "to"]), (2, ["no", "from"])]


def test_a_relative_path(tmp_path, monkeypatch):
    """A network that was pickled has its files in another folder too, and leaves the same classes out."""
    (tmp_path / "net.nodes.csv").write_text("node,osm,lon,lat\n1,,0.5,0\n")
    monkeypatch.chdir(tmp_path)
    pickled = pickle.dumps(domethyme.Network("net", exclude=["toll", "ferry"]))
    monkeypatch.chdir("/")
    network = pickle.loads(pickled)
    assert (repr(network), network.exclude, network.lon.tolist()) == (f"<Network {tmp_path}/net>", {"toll", "ferry"}, [0.5])
    with pytest.raises(domethyme.NetworkError, match="/net: its nodes have no keys: they are in the column node, or osm"):
        network.keys()


def test_keys(tmp_path):
    """Those of a map, in which a bollard parts node 53, and of a table: a key of more than one junction can't be asked for."""
    run_tool("osm_to_gr", VILLAGE, tmp_path / "v", "--tables")
    rows = [f"{key},0,0,{end}" for key, ends in ENDS for end in ends]
    (tmp_path / "t.nodes.csv").write_text("\n".join(["node,osm,lon,lat,ends", *map("{},{}".format, range(1, 99), rows), ""]))
    of_map, own = (domethyme.Network(tmp_path / name) for name in "vt")
    assert (of_map.keys().node(1), 1 in of_map.keys(), 53 in of_map.keys()) == (0, True, False)
    for keys in (own.keys(), domethyme.Keys.read(tmp_path / "t.nodes.csv")):
        assert [*map(keys.node, (7, 8, 2)), *map(keys.end, (7, 8, 2)), keys.end(7, 1)] == [1, 3, 18, 0, 3, 18, 1]
        assert (keys.begins(), keys.key(4), None in keys) == ({0: 1}, None, False)
    for known, key in [(of_map.keys(), 53), *((keys, key) for key in (3, 4, 5, 6))]:
        with pytest.raises(domethyme.NoSuchNode, match=f"{key} names several nodes$"):
            known.node(key)
    with pytest.raises(domethyme.NetworkError, match="has no column name"):
        of_map.keys("name")


@pytest.mark.parametrize("name, says", [
    ("a", "row 1: has no column lat; its columns are node, osm, lon"), ("b", "b.net: No such file"),
    *((f"v{end}", f"v{end}: .*name the network by the prefix of its files") for end in (".gr", ".net", ".nodes.csv", ".arcs.csv")),
])
def test_files_that_are_refused(tmp_path, name, says):
    (tmp_path / "a.nodes.csv").write_text("node,osm,lon\n1,1,0\n")
    with pytest.raises(domethyme.NetworkError, match=says):
        domethyme.Network(tmp_path / name).nearest(0, 0)
