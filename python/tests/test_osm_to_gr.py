"""Tests of osm_to_gr: what it says, which files it reads and writes, and its faults. Its networks are in test_generated_maps."""
import argparse
import bz2
import contextlib
import gzip
import pathlib

import osmium
import pytest
from draws import assert_refused, converted, map_text, run_tool
from tool_case import VILLAGE, ToolCase

from domethyme.dimacs import read_graph
from domethyme.errors import DomethymeError
from domethyme.maps.conversion import options_of
from domethyme.network.tables import ALL_ARC_COLUMNS, read_attribution
from domethyme_tools.osm_to_gr import longest_arc, share

pytestmark = pytest.mark.timeout(300)
LEFT_OUT = """\
osm_to_gr: ways for destinations alone that are taken as open: 1
osm_to_gr: ways left out as closed to the vehicle: 3
osm_to_gr: ways left out by their class: 1
osm_to_gr: ways left out as areas: 1
osm_to_gr: ways left out as their direction changes: 1
osm_to_gr: maxspeeds that weren't understood (signals 1): 1
osm_to_gr: nodes that the map lacks: 2
osm_to_gr: barriers that part roads: 2
osm_to_gr: ways left out with fewer than two nodes in the map: 1
osm_to_gr: turn restrictions not looked at: a way goes on through the node: 1
osm_to_gr: nodes outside the largest strongly connected component: 3
osm_to_gr: pieces of road outside it: 2
osm_to_gr: weights raised to 1: 2
osm_to_gr: village: 35 nodes, 73 arcs, 6.1 km of road
"""


@pytest.fixture(autouse=True)
def folder(tmp_path, monkeypatch):
    monkeypatch.chdir(tmp_path)
    return tmp_path


def convert(*words, source=VILLAGE, out="village"):
    return run_tool("osm_to_gr", source, out, "--tables", *words)[1]


def test_what_is_left_out():
    """It is counted, and files are in the place of old ones."""
    old = {"gr": "old", "nodes.csv": "node,osm,lon,lat,ends,key\n", "arcs.csv": f"{','.join(ALL_ARC_COLUMNS)}\n"}
    for ending, text in old.items():
        pathlib.Path(f"village.{ending}").write_text(text)
    assert convert("--at-least", "0.92") == LEFT_OUT
    assert len([*pathlib.Path().iterdir()]) == 8 and read_graph("village.gr").nodes == 35


@pytest.mark.parametrize("words, wanted", [
    ([], "© OpenStreetMap contributors (ODbL 1.0)"), (["--attribution", ""], ""),
    (["--attribution", "Drawn\nby hand"], "Drawn by hand"), (["--attribution", "caf\udce9"], "caf?"),  # (that isn't UTF-8)
])
def test_attribution_is_a_comment_of_the_graph(words, wanted):
    convert(*words)
    assert (read_attribution("village"), read_graph("village.gr").nodes) == (wanted, 35)


@pytest.mark.parametrize("least, says", [("0.9", None), ("0.905", "less than 90.5%"), ("1", "less than 100%")])
def test_at_least(folder, least, says):
    """Of ten nodes, of which one is beyond a one-way street."""
    ways = {1: ((1, 9), {"highway": "road"}), 2: ((1, 0), {"highway": "road", "oneway": "yes"})}
    refused = pytest.raises(DomethymeError, match=f"9 of 10 nodes reach one another, {says}: is the map cut")
    with refused if says else contextlib.nullcontext():
        converted(folder, map_text({x: (x / 1000, 0) for x in range(10)}, ways), "--longest-arc", "112", "--at-least", least)


def test_histories_and_changes_are_no_maps(folder):
    """In which roads that are gone, or are to come, lie beside those of the map."""
    text = VILLAGE.read_text(encoding="utf-8").replace("<osm ", "<osmChange ").replace("'hand'>", "'hand'><create>")
    (folder / "change.osc").write_text(text.replace("</osm>", "</create></osmChange>"))
    with contextlib.closing(osmium.SimpleWriter("map.osh.pbf")) as file:
        for number, version in ((1, 1), (1, 2), (2, 1)):
            file.add_node(osmium.osm.mutable.Node(id=number, version=version, visible=True, location=(number / 1000, 0)))
    for name in ("change.osc", "map.osh.pbf"):
        with pytest.raises(DomethymeError, match=f"{name}: has several versions of an object, as a history or a change"):
            convert(source=name)


def test_what_gdal_wants_to_know():
    convert()
    for table, whole in (("nodes", {"node", "osm"}), ("arcs", {"from", "to", "weight", "osm"})):
        head, *_ = pathlib.Path(f"village.{table}.csv").read_text().partition("\n")
        kinds = dict(zip(head.split(","), pathlib.Path(f"village.{table}.csvt").read_text().strip().split(","), strict=True))
        assert {name for name, kind in kinds.items() if kind in ('"Integer"', '"Integer64"')} == whole
        assert kinds.get("WKT") == (None if table == "nodes" else '"WKT"')
        assert 'AUTHORITY["EPSG","4326"]' in pathlib.Path(f"village.{table}.prj").read_text()


def test_formats(folder):
    """The same files come of bzip2 and of PBF."""
    (folder / "village.osm.bz2").write_bytes(bz2.compress(VILLAGE.read_bytes()))
    write_map("village.osm.pbf", VILLAGE)
    convert()
    for source in ("village.osm.bz2", "village.osm.pbf"):
        convert(source=source, out="other")
        for ending in ("gr", "net", "nodes.csv", "arcs.csv"):
            assert (folder / f"other.{ending}").read_bytes() == (folder / f"village.{ending}").read_bytes(), source


def write_map(path, source):
    """Writes the nodes and ways of a map in the format of the path's ending."""
    with contextlib.closing(osmium.SimpleWriter(str(path))) as writer:
        methods = {"node": lambda _, node: writer.add_node(node), "way": lambda _, way: writer.add_way(way)}
        type("Copier", (osmium.SimpleHandler,), methods)().apply_file(str(source))


# A map, or a path, with what is said of it.
MAP = "<osm version='0.6'>{}</osm>"
WAY = "<way id='1'><nd ref='1'/><nd ref='2'/><nd ref='3'/><tag k='highway' v='road'/></way>"
BAD_MAPS = [
    ("none.osm", None, "none.osm: No such file or directory"), ("/dev/null", None, "/dev/null: is no regular file"),
    ("broken.osm", MAP.format("\n<node id='1' lon='0' lat='0'/>\n<way id='1'\n"), "broken.osm: XML parsing error at line 4"),
    ("broken.osm", MAP.format("<node id='x' lon='0' lat='0'/>"), "broken.osm: illegal id: 'x'"),
    ("broken.osm", MAP.format("<node id='1' lon='x' lat='0'/>"), "broken.osm: wrong format for coordinate: 'x'"),
    ("broken.osm", MAP.format("<way id='1'><nd ref='x'/></way>"), "broken.osm: illegal id: 'x'"),
    ("far.osm", MAP.format("<node id='1' lon='200' lat='0'/><node id='2' lon='0' lat='0'/><node id='3'/>" + WAY),
     "far.osm: has no road that the profile takes"),
    ("bare.osm", MAP.format("<node id='1' lon='0' lat='0'/>"), "bare.osm: has no road that the profile takes"),
    ("map.txt", VILLAGE.read_bytes(), "map.txt: Could not detect file format"),
    ("half.osm", VILLAGE.read_bytes()[:5000], "half.osm: XML parsing error"),
    ("half.osm.bz2", bz2.compress(VILLAGE.read_bytes())[:900], "half.osm.bz2: bzip2 error"),
    ("half.osm.gz", gzip.compress(VILLAGE.read_bytes())[:900], "half.osm.gz: gzip error: read close failed"),
    ("packed.osm", gzip.compress(VILLAGE.read_bytes()), "(invalid token): it is compressed by gzip, so gunzip it first"),
    ("map.osm.opl", b"n1 x0 y0\nn2 x0.001 y0\nw1 Thighway=residential,name=caf\xe9 Nn1,n2\n",
     "map.osm.opl: 'utf-8' codec can't decode byte 0xe9"),
]


@pytest.fixture
def refused(folder):
    """Wants that a map is refused, and that the files stay as they were."""
    for name in ("out.gr", "out.arcs.csv"):
        (folder / name).write_text("old")
    return lambda source, *words, says: assert_refused("osm_to_gr", source, "out", *words, says=says)


@pytest.mark.parametrize("source, text, says", BAD_MAPS, ids=[source for source, *_ in BAD_MAPS])
def test_bad_maps(folder, refused, source, text, says):
    if text is not None:
        (folder / source).write_bytes(text.encode() if isinstance(text, str) else text)
    refused(source, says=says)


def test_faults_of_files(folder, refused):
    (folder / "map.osm").mkdir()
    refused("map.osm", says="map.osm: Is a directory")
    write_map("village.osm.pbf", VILLAGE)
    (folder / "half.osm.pbf").write_bytes((folder / "village.osm.pbf").read_bytes()[:700])
    refused("half.osm.pbf", says="half.osm.pbf: PBF error")
    refused(VILLAGE, "--profile", "boat", says="there is no profile boat: there is bicycle, car, foot, lorry; for another")
    (folder / "own.json").write_text("[]")
    refused(VILLAGE, "--profile", "own.json", says="own.json: is no object with the members of a profile")


class WhereFilesCanNotBe(ToolCase):
    def test_tools(self):
        pathlib.Path("there").mkdir()
        for out in ("", "folder/", "./", ".", "there", "there/", "li.net", "li.gr", "li.rch", "li.co", "li.csv", "li.arcs.csv"):
            for words in (("osm_to_gr", VILLAGE), ("to_network", "n.csv", "a.csv"), ("reweigh", "v", "s.csv")):
                assert_refused(*words, out, says="")
        (self.folder / "out.arcs.csv").mkdir()
        self.assert_refused("osm_to_gr", VILLAGE, "no/out", says="no/out.gr: No such file or directory")
        self.assert_refused("osm_to_gr", VILLAGE, "out", "--tables", says="out.arcs.csv: is a folder")
        self.run_tool("osm_to_gr", VILLAGE, "out")


def test_arguments():
    for words in ([], [VILLAGE], [VILLAGE, "out", "--longest-arc", "0"], [VILLAGE, "out", "--weight", "days"]):
        assert_refused("osm_to_gr", *words, says="")
    for least, longest in ((0, 1), (1, 1_000_000)):
        options = options_of({"at_least": least, "longest_arc": longest})
        assert (options.at_least, options.longest_arc) == (share(str(least)), longest_arc(str(longest))) == (least, longest)
    for read, texts in ((longest_arc, ("0.99", "1000000.5", "nan", "x")), (share, ("-0.01", "1.01", "nan", "x"))):
        for text in texts:
            with pytest.raises(argparse.ArgumentTypeError):
                read(text)


def said_of(folder, *ways, profile="car"):
    """What is said of a map of ways with these tags, of which each is a primary road."""
    named = {number: ((1, 2), {"highway": "primary", **way}) for number, way in enumerate(ways, 1)}
    return converted(folder, map_text({1: (0, 0), 2: (0.001, 0)}, named), "--profile", profile)[0].splitlines()


def test_weights_raised(tmp_path):
    """Of roads of 1.1 cm, 0.31 ms at 130 km/h and 0.8 ms at 50: those that would be 0."""
    ways = {way: ((1, 2), {"highway": "primary", "maxspeed": speed}) for way, speed in enumerate(("none", "50"), 1)}
    said, arcs = converted(tmp_path, map_text({1: (0, 0), 2: (0, "0.0000001")}, ways))
    assert said.startswith("osm_to_gr: weights raised to 1: 2\n") and arcs["weight"].tolist() == [1] * 4


def test_what_is_said_of_tags(tmp_path):
    """Ten of the values that aren't understood, the most frequent first; and of rules that aren't looked at the ways, once."""
    for count, more in ((10, ""), (11, ", ...")):
        said = said_of(tmp_path, *({"maxspeed": f"s{number}"} for number in range(count)), {"maxspeed": "s0"})
        shown = ", ".join(["s0 2", *(f"s{number} 1" for number in range(1, 10))])
        assert said[0] == f"osm_to_gr: maxspeeds that weren't understood ({shown}{more}): {count + 1}"
    ways = {"maxspeed:forward": "b", "maxspeed:backward": "a"}, {"maxspeed": "sign", "maxspeed:forward": "9"}
    said = said_of(tmp_path, *ways)
    assert said[0] == "osm_to_gr: maxspeeds that weren't understood (a and b 1, sign 1): 2"
    said = said_of(tmp_path, {"maxheight": "tall"}, profile="lorry")
    assert said[0] == "osm_to_gr: limits that weren't understood (tall 1): 1"
    said = said_of(
        tmp_path, {"access:conditional": "no @ (1-2)"}, {"bicycle:conditional": "no @ wet", "access": "agricultural; destination"},
        {"oneway:conditional": "yes @ (1-2)", "access": "destination", "motor_vehicle": "yes"},
        *[{"access": "no", "access:conditional": "yes @ (1-2)"}] * 2,
        *[{"maxspeed:forward:conditional": "5 @ wet", "maxspeed:conditional": "9 @ wet"}] * 2,
    )
    assert set(said[:3]) == {
        "osm_to_gr: ways with rules for some times or conditions, which aren't looked at: 4",
        "osm_to_gr: ways for destinations alone that are taken as open: 1", "osm_to_gr: ways left out as closed to the vehicle: 2",
    }
