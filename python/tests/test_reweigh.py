"""New speeds: a network with them has the bytes of one that is made of a map whose maxspeed says the same; what is closed; and what
is refused. A thousandth of a degree is 111.195 m along the equator."""
import itertools
import pathlib
import re
import shutil
from typing import Any, NamedTuple

import numpy as np
import pandas
import pytest
from draws import Drawn, drawn, map_text, model_of, run_tool
from hypothesis import given
from hypothesis import strategies as st
from model.sphere import Point, metres_between
from test_without import without
from tool_case import PYTHON

import domethyme
from domethyme.dimacs import read_graph
from domethyme.network import column_file, net_file
from domethyme.network.reweigh import read_speeds

pytestmark = pytest.mark.timeout(1200)
CAR = (PYTHON / "domethyme/maps/profiles/car.json").read_text(encoding="utf-8")
TURNS = CAR.replace('{\n  "about"', '{\n  "turns": {"left": 700, "right": 250, "back": 2000},\n  "about"', 1)
# A square, 1 2 5 4, with a bar in its middle, a road to 6 that nothing else leads to, and one that a car may not take.
#
#     4 -- 5 -- 6
#     |    |
#     1 -- 2 -- 3
PLACES = {1: (0, 0), 2: (0.001, 0), 3: (0.002, 0), 4: (0, 0.001), 5: (0.001, 0.001), 6: (0.002, 0.001)}
STREET = {"highway": "residential"}
SQUARE = map_text(PLACES, {
    11: ((1, 2, 3), {"highway": "primary"}), 12: ((1, 4, 5), STREET), 13: ((2, 5), {**STREET, "toll": "yes"}), 14: ((5, 6), STREET),
    15: ((3, 6), {"highway": "footway"})
})


class Way(NamedTuple):
    """A way of a map: the numbers of its points, its class, whether it is one-way, and its maxspeed along it and against it."""

    points: tuple[int, ...]
    highway: str
    is_oneway: bool
    speeds: tuple[float, float]


# The ids of points and ways are above these, and more than 32 bits long.
POINTS, WAYS = 12_000_000_100, 5_000_000_000


class Map(NamedTuple):
    points: list[Point]
    ways: list[Way]

    def text(self) -> str:
        ways = {}
        for number, way in enumerate(self.ways, WAYS):
            tags = {"highway": way.highway, "maxspeed:forward": way.speeds[0], "maxspeed:backward": way.speeds[1]}
            ways[number] = [POINTS + point for point in way.points], tags | ({"oneway": "yes"} if way.is_oneway else {})
        return map_text(dict(enumerate(self.points, POINTS)), ways)


SPEEDS = st.one_of(st.integers(1, 130), st.floats(1, 200).map(lambda value: round(value, 2)))


@st.composite
def maps(draw: Any) -> Map:
    steps = st.tuples(st.integers(-40, 40), st.integers(-40, 40))
    places = draw(st.lists(steps, min_size=3, max_size=12, unique=True))
    points = [(9.5 + east * 1e-4, 47.1 + north * 1e-4) for east, north in places]
    points += draw(st.lists(st.sampled_from(points), max_size=draw(st.sampled_from([0, 0, 3]))))  # (some lie in one place)
    ways, end = [], 0
    for _ in range(draw(st.integers(1, 6))):
        line = [end]
        for _ in range(draw(st.integers(1, 4))):
            line.append(draw(st.integers(0, len(points) - 1).filter(lambda point: point != line[-1])))
        end = draw(st.sampled_from(line))
        highway, is_oneway = draw(st.sampled_from(["primary", "residential"])), draw(st.integers(0, 4)) == 0
        ways.append(Way(tuple(line), highway, is_oneway, (draw(SPEEDS), draw(SPEEDS))))
    return Map(points, ways)


def rows_of_steps(ways: list[Way]) -> list[tuple[float, ...]]:
    """A row for each step of ways, and one back."""
    steps = ((pair, way.speeds) for way in ways for pair in itertools.pairwise(way.points))
    return [(*(POINTS + point for point in pair[::side]), speed) for pair, speeds in steps for side, speed in zip((1, -1), speeds)]


def convert(text: str, folder: pathlib.Path, name: str, *words: object) -> None:
    (folder / f"{name}.osm").write_text(text)
    run_tool("osm_to_gr", folder / f"{name}.osm", folder / name, "--keep-islands", *words)


@drawn(40)
@given(st.data())
def test_as_the_map_says(tmp_path: pathlib.Path, data: Any) -> None:
    """Byte for byte: by rows of ways, or of all their steps, with penalties of turns or without, and cut or whole."""
    before = data.draw(maps())
    after = before._replace(ways=[way._replace(speeds=(data.draw(SPEEDS), data.draw(SPEEDS))) for way in before.ways])
    profile, longest = data.draw(st.sampled_from([CAR, TURNS])), data.draw(st.sampled_from([70, 250, 100_000]))
    rows = rows_of_steps(after.ways)
    # (in one place points may be of one road, which has no ids there)
    if data.draw(st.integers(0, 2)) == 0 or len({*after.points}) < len(after.points):
        after = after._replace(ways=[way._replace(speeds=way.speeds[:1] * 2) for way in after.ways])
        rows = [(WAYS + number, way.speeds[0]) for number, way in enumerate(after.ways)]
    elif len({row[:2] for row in rows}) < len({*rows}):  # (a step of several ways, or of one in both directions)
        after = after._replace(ways=[way._replace(speeds=after.ways[0].speeds[:1] * 2) for way in after.ways])
        rows = rows_of_steps(after.ways)
    (tmp_path / "own.json").write_text(profile)
    for each, text, more in (("before", before.text(), ["--tables"]), ("wanted", after.text(), [])):
        convert(text, tmp_path, each, "--profile", tmp_path / "own.json", "--longest-arc", longest, *more)
    rows, end = data.draw(st.permutations(rows)), data.draw(st.sampled_from(["\n", "\r\n"]))
    (tmp_path / "speeds.csv").write_bytes("".join(f"{','.join(map(str, row))}{end}" for row in rows).encode())
    run_tool("reweigh", tmp_path / "before", tmp_path / "speeds.csv", tmp_path / "found")
    assert are_same(tmp_path / "found", tmp_path / "wanted")


@drawn(40)
@given(st.data())
def test_a_part_of_a_road(tmp_path: pathlib.Path, data: Any) -> None:
    """A road whose steps have different new speeds, or none, takes as long as its steps do one after the other, to a rounding. A
    turn that leads into it costs what it did."""
    count, norths = data.draw(st.integers(2, 6)), st.integers(0, 30)
    steps = [(9.5 + 8e-4 * place, 47.1 + 1e-4 * data.draw(norths)) for place in range(count)]
    old, longest = data.draw(SPEEDS), data.draw(st.sampled_from([40, 100_000]))
    new = [data.draw(st.one_of(st.none(), SPEEDS)) for _ in steps[1:]]
    of_way = data.draw(st.one_of(st.none(), SPEEDS))
    (tmp_path / "own.json").write_text(data.draw(st.sampled_from([CAR, TURNS])))
    drawn_map = Map(steps, [Way(tuple(range(len(steps))), "primary", False, (old, old))])
    convert(drawn_map.text(), tmp_path, "map", "--longest-arc", longest, "--profile", tmp_path / "own.json")
    rows: list[tuple[float, ...]] = [] if of_way is None else [(WAYS, of_way)]
    rows += [(POINTS + place, POINTS + place + 1, speed) for place, speed in enumerate(new) if speed is not None]
    (tmp_path / "speeds.csv").write_text("".join(f"{','.join(map(str, row))}\n" for row in rows) or "way,kmh\n")
    run_tool("reweigh", tmp_path / "map", tmp_path / "speeds.csv", tmp_path / "new")
    networks = [domethyme.Network(tmp_path / each) for each in ("map", "new")]
    arcs, (before, penalty) = [each.arcs_frame() for each in networks], (each.arrays.arc_penalty[:] for each in networks)
    assert (before == penalty).all()
    metres = [metres_between(*step) for step in zip(steps, steps[1:])]
    wanted = sum(3600 * step / (speed or of_way or old) for step, speed in zip(metres, new))
    back = sum(3600 * step / (of_way or old) for step in metres)
    lons = [[float(place.split()[0]) for place in line[12:-1].split(", ")] for line in arcs[1]["WKT"]]
    frame = arcs[1].assign(is_along=[line[0] < line[-1] for line in lons])
    frame = frame.assign(weight=frame["weight"] - 10 * penalty, seconds=(frame["seconds"] - penalty / 100).round(3))
    frame = frame[["WKT", "weight", "seconds", "is_along"]].drop_duplicates()
    assert frame["WKT"].is_unique
    sums = frame.groupby("is_along")["weight"].sum()
    # (a weight is rounded to a millisecond, and the place of a cut to some centimetres of the road)
    most = len(frame) * (1 + 0.02 * 3600 / min(filter(None, [old, of_way, *new])))
    assert abs(sums[True] - wanted) <= most and abs(sums[False] - back) <= most
    assert (frame["seconds"] - frame["weight"] / 1000).abs().max() <= 0.00051 and (arcs[0]["metres"] == arcs[1]["metres"]).all()


@drawn(40)
@given(st.data())
def test_closed_ways(tmp_path: pathlib.Path, data: Any) -> None:
    """What is left is the model's, as are lengths by the hierarchy that `renew` makes; the old one is refused if it has others."""
    drawn_map = data.draw(maps())
    convert(drawn_map.text(), tmp_path, "before")
    roads, ways = model_of(tmp_path / "before"), st.integers(WAYS, WAYS + len(drawn_map.ways) - 1)
    closed = data.draw(st.sets(ways, min_size=1))
    made = without(Drawn(roads, roads, False), lambda arc: arc.way in closed)
    if made is None:
        return
    (tmp_path / "speeds.csv").write_text("way,kmh\n" + "".join(f"{way},0\n" for way in closed))
    said = run_tool("reweigh", tmp_path / "before", tmp_path / "speeds.csv", tmp_path / "after")[1]
    found, wanted, nodes = model_of(tmp_path / "after"), made.roads, range(len(roads.nodes))
    shut = sum(arc.way in closed for arc in roads.arcs)
    assert f" 0 arcs changed, {shut} closed, and {len(roads.arcs) - shut - len(wanted.arcs)} cut off by these\n" in said
    assert found.arcs == wanted.arcs and [node.place for node in found.nodes] == [node.place for node in wanted.nodes]
    assert list(zip(*read_graph(tmp_path / "after.gr")[1:])) == [(arc.start, arc.end, arc.weight) for arc in wanted.arcs]
    domethyme.prepare(tmp_path / "before.gr", tmp_path / "before.rch", workers=0).close()
    domethyme.renew(tmp_path / "after.gr", tmp_path / "before.rch", tmp_path / "after.rch").close()
    lengths = [[wanted.lengths({node: 0}).get(other, -1) for other in nodes] for node in nodes]
    with domethyme.Hierarchy(tmp_path / "after.rch", network=tmp_path / "after") as hierarchy:
        assert hierarchy.matrix(list(nodes)).tolist() == lengths
    with domethyme.Hierarchy(tmp_path / "before.rch") as old:
        is_same = old.matrix(list(nodes)).tolist() == lengths
    if not is_same:
        with pytest.raises(domethyme.WrongHierarchy):
            domethyme.Hierarchy(tmp_path / "before.rch", network=tmp_path / "after")


@pytest.fixture
def square(tmp_path: pathlib.Path, monkeypatch: pytest.MonkeyPatch) -> None:
    """The network `map` in the test's folder."""
    monkeypatch.chdir(tmp_path)
    convert(SQUARE, tmp_path, "map", "--longest-arc", "100000")


def reweighed(speeds: str, *words: str) -> tuple[list[str], dict[Any, int]]:
    """What the tool says, and the arcs of the graph."""
    pathlib.Path("speeds.csv").write_text(speeds)
    said = run_tool("reweigh", "map", "speeds.csv", "new", *words)[1]
    return said.splitlines(), arcs_of("new")


def arcs_of(name: str) -> dict[Any, int]:
    """The arcs of a graph by the ids of their nodes."""
    graph, osm = read_graph(f"{name}.gr"), domethyme.Network(name).keys()
    return {(osm.key(start), osm.key(end)): weight for start, end, weight in zip(*graph[1:])}


def are_same(*names: object) -> bool:
    return all(len({pathlib.Path(f"{name}.{ending}").read_bytes() for name in names}) == 1 for ending in ("gr", "net"))


@pytest.mark.usefixtures("square")
def test_rows() -> None:
    """By hand: 111.195 m are 13,343.4 ms at 30 km/h, 5,718.6 at 70 and 40,030.2 at 10; the last row counts."""
    before = arcs_of("map")
    assert (before[1, 2], before[1, 5], before[2, 5]) == (5719, 26687, 13343)
    said, arcs = reweighed("FROM,TO,KMH\n1,2,30\n\n2,1,70\n13,20\n13,10\n1,4,10\n7,8,50\n3,6,50\n99,5\n1,5,50\n")
    assert arcs == {**before, (1, 2): 13343, (2, 5): 40030, (5, 2): 40030, (1, 5): 53374}
    wanted = "speeds.csv: 4 of 9 rows match nothing: 8, 9, 10, 11", "new: 4 arcs changed, 0 closed, and 0 cut off by these"
    assert said == [f"reweigh: {line}" for line in wanted]
    for count, more in ((10, ""), (12, ", ..")):
        line = reweighed("".join(f"{way},50\n" for way in range(100, 100 + count)), "--unmatched", "rows")[0][0]
        assert line == f"reweigh: speeds.csv: {count} of {count} rows match nothing: 1, 2, 3, 4, 5, 6, 7, 8, 9, 10{more}"
    assert pathlib.Path("rows").read_text() == "".join(f"{row}\n" for row in range(1, 13))
    assert are_same("new", "map")
    domethyme.prepare("new.gr", "new.rch", workers=1).close()
    line = "reweigh: standard input: 1 of 2 rows match nothing: 2"
    for speeds, rows, lines in (("13,20\n99,5\n", "2\n", [line]), ("13,20\n", "", [])):
        said = run_tool("reweigh", "map", "-", "new", "--unmatched", "rows", given=speeds)[1].splitlines()
        assert (pathlib.Path("rows").read_text(), said[:-2]) == (rows, lines)
        assert "reweigh: new.rch is older than new.gr: run " in said[-1]


@pytest.mark.usefixtures("square")
def test_roads_of_one_way_in_one_place(tmp_path: pathlib.Path) -> None:
    """From 1 to 2 and from 3 to 4, and there and back by 7, points that nothing but their ids tells apart: rows of these match
    nothing, and those of the way both."""
    nodes: Any = dict.fromkeys((1, 3, 8, 9), (0, 0)) | dict.fromkeys((2, 4), (0.001, 0))
    nodes |= {5: (0.001, -0.001), 6: (0, -0.001), 7: (0.0005, 0.001)}
    ways = {21: (1, 2, 7, 3, 4), 22: (2, 5), 23: (6, 3), 24: (8, 7, 9), 25: (8, 1)}
    convert(map_text(nodes, {way: (refs, {"highway": "primary"}) for way, refs in ways.items()}), tmp_path, "map")
    before = arcs_of("map")
    said, arcs = reweighed("1,2,35\n3,4,35\n8,7,35\n9,7,35\n2,7,35\n-9223372036854775808,7,35\n")
    assert said[0] == "reweigh: speeds.csv: 5 of 6 rows match nothing: 1, 2, 3, 4, 6"
    assert {ends for ends in arcs if arcs[ends] != before[ends]} == ({(2, 7)} if (2, 7) in arcs else {(2, 3)})
    said, arcs = reweighed("21,35\n")
    assert [arcs[ends] for ends in ((1, 2), (2, 1), (3, 4), (4, 3))] == [11437] * 4


@pytest.mark.usefixtures("square")
def test_closed() -> None:
    """A direction, a road, and what it cuts off; in the graph, the network, and in another network that is made of that."""
    before = arcs_of("map")
    said, arcs = reweighed("2,1,0\n14,0\n1,2,35\n1,4,0\n")
    assert said == ["reweigh: new: 1 arcs changed, 4 closed, and 0 cut off by these"]
    left = before.keys() - {(2, 1), (5, 6), (6, 5), (1, 5)}  # (an arc of which a part is closed is closed)
    assert arcs == {**{ends: before[ends] for ends in left}, (1, 2): 11437}
    network = domethyme.Network("new")
    assert network.keys().key(network.nearest(0.0019, 0.001)[0]) == 5
    (point,) = network.points_on_roads((0.0018, 0.001))
    assert [round(each, 7) for each in (point.lon, point.lat)] == [0.001, 0.001]
    assert run_tool("without", "new", "ferry", "few.gr")[1] == f"without: few.gr: {len(arcs)} of {len(arcs)} arcs\n"
    said = run_tool("reweigh", "new", "speeds.csv", "again")[1].splitlines()
    assert said[-1] == "reweigh: again: 0 arcs changed, 0 closed, and 0 cut off by these" and arcs_of("again") == arcs
    reweighed("12,0\n")  # (then the toll road is the only one to the rest)
    assert {*domethyme.Network("new", exclude=["toll"]).arcs_frame()["osm"]} == {11}
    pathlib.Path("speeds.csv").write_text("13,0\n")  # (and what was closed before is no way round it)
    assert run_tool("reweigh", "new", "speeds.csv", "again")[1].endswith(" 0 arcs changed, 2 closed, and 2 cut off by these\n")
    heavy = "would have an arc that weighs more than 4294967295"
    for kmh, says in ((0, "would have no arc that is open"), (0.00001, heavy), (1e-14, heavy), (1e-320, heavy)):
        with pytest.raises(domethyme.NetworkError, match=f"map.net: {says}"):
            domethyme.Network("map").reweigh([(way, kmh) for way in range(11, 15)], "other")


@pytest.mark.usefixtures("square")
def test_refused(tmp_path: pathlib.Path) -> None:
    for name, text in (("speeds", "11,50\n"), ("nodes", "lon,lat\n0,0\n0.001,0\n"), ("arcs", "from,to,kmh\n1,2,50\n2,1,50\n")):
        (tmp_path / f"{name}.csv").write_text(text)
    run_tool("to_network", "nodes.csv", "arcs.csv", "own")
    convert(SQUARE, tmp_path, "length", "--weight", "length")
    convert(SQUARE, tmp_path, "edited", "--tables")
    shutil.copy("edited.arcs.csv", "other.arcs.csv")
    nodes = tmp_path / "edited.nodes.csv"
    nodes.write_text(nodes.read_text().replace("0.0010000", "0.0010001"))  # (so it is read in place of the network's file)
    whole = net_file.read("map.net").file.columns
    with open("old.net", "wb") as file:
        column_file.write(file, net_file.FORMS[4], 4, ((name, whole[name][:]) for name in net_file.FORMS[4]))
    for network, out, says in (
        *((name, "new", f"{name}: has no ids of the points") for name in ("own.net", "old.net", "edited")),
        ("length", "new", "length.net: has weights that are no milliseconds"),
        *(("map", name, f"{name}.{table}.csv: is there, and would be read in place of {name}.net")
          for name, table in (("edited", "nodes"), ("other", "arcs")))
    ):
        with pytest.raises(domethyme.NetworkError, match=says):
            run_tool("reweigh", network.removesuffix(".net"), "speeds.csv", out)
        assert not [*tmp_path.glob("new.*"), *tmp_path.glob("other.[gn]*")]
    for out in ("map", ".", "", "new.net", "new.gr"):
        with pytest.raises(SystemExit, match="2"):
            run_tool("reweigh", "map", "speeds.csv", out)


@pytest.mark.usefixtures("square")
def test_package() -> None:
    """Rows, frames and files make the same network."""
    network, rows, before = domethyme.Network("map"), [(1, 2, 30), (5, 4, 7.5), (8, 9, 1000)], arcs_of("map")
    reweighed("".join(f"{','.join(map(str, row))}\n" for row in rows))
    frame = pandas.DataFrame(rows, columns=["from", "to", "kmh"], index=[9, 8, 7])
    of_places = rows, iter(rows), frame, frame.astype({"from": "Int64", "to": "Int64"})
    for speeds, unmatched in (*((speeds, 2) for speeds in of_places), ("speeds.csv", 3), (pathlib.Path("speeds.csv"), 3)):
        assert tuple(network.reweigh(speeds, "own")) == (2, 0, 0, [unmatched]) and are_same("own", "new")
    for speeds, changed in (([(11, 35)], 4), (pandas.DataFrame({"kmh": [35.0], "way": [11]}), 4), ([], 0)):
        assert network.reweigh(speeds, "own").changed == changed
    no_kmh = frame.assign(kmh=pandas.array([None, 5.5, 9], "Float64"))
    for speeds, says in (
        (np.array(rows), "ids have to be integers"), ([(1 << 63, 5)], "ids have to be from -9"),
        *((wrong, "speeds have to be rows") for wrong in ([(1, 2, 3, 4)], None, [5], [(11, 5), 5], frame["kmh"])),
        *((wrong, "kmh isn't from 0 to 1000") for wrong in ([(11, 1001)], [(11, -1)], [(11, np.nan)], no_kmh)),
        (frame.rename(columns={"from": "a"}), "a frame of speeds has to have the columns"), (frame.assign(way=11), "and not both"),
        *((pandas.concat([frame, frame[[name]]], axis=1), f"several columns {name}") for name in frame.columns),
        (pandas.DataFrame([(1, 2, 30)], columns=["way", "way", "kmh"]), "several columns way")
    ):
        with pytest.raises(ValueError, match=says):
            network.reweigh(speeds, "own")
    with pytest.raises(ValueError, match="out is the network itself, whose ./map.net would be overwritten"):
        network.reweigh(rows, "./map")
    assert arcs_of("own") == arcs_of("map") == before


@pytest.mark.parametrize("rows, says", [
    ("", ": is empty"), ("11,50\n11\n", ", row 2: has 1 fields, and a row is FROM,TO,KMH or WAY,KMH"), ("1,2,50,3\n", ", row 1: has 4 fields"),
    ("11;50\n", ", row 1: has 1 fields, and a row is FROM,TO,KMH or WAY,KMH: fields have to be separated by commas"),
    ("1,2,-1\n", ", row 1: kmh '-1' isn't from 0 to 1000"), ("11,1001\n", "isn't from 0 to 1000"), ("11,nan\n", "is no finite number"),
    ("a,2,50\n", ", row 1: from 'a' isn't an integer"), ("11,50\n1.5,2,50\n", ", row 2: from '1.5' isn't an integer"),
    ("9" * 20 + ",2,50\n", "from 99999999999999999999 isn't from -9223372036854775808 to 9223372036854775807"), ("1,2.0,50\n", "to '2.0' isn't an integer"),
    ("way,kmh\n11,50\nway,kmh\n", ", row 3: way 'way' isn't an integer"), ("to,from,kmh\n1,2,50\n", ", row 1: from 'to' isn't an integer"),
])
def test_wrong_rows(tmp_path, rows, says):
    (tmp_path / "speeds.csv").write_text(rows)
    with pytest.raises(domethyme.NetworkError) as refused:
        read_speeds(tmp_path / "speeds.csv")
    assert f"speeds.csv{says}" in str(refused.value) if says[0] in ":," else says in str(refused.value)


@pytest.mark.parametrize("rows", ["", "1,2,50\n", "-1,2,7.5\n3,4,0\n1,2,.5\n", "5,10\n6,20.\n", "007,10\n"])
def test_plain_rows(tmp_path, rows):
    """Rows of plain numbers, which are read at once, are those that are read one by one: with quotes, and a blank line behind."""
    quoted = re.sub(r"^([-0-9]+),", r'"\1",', rows, flags=re.M)
    for names in ("", "from,to,kmh\n", "\ufeffWAY,KMH\n", '"from","to","kmh"\n')[not rows :]:
        found = []
        for text in (rows, quoted, f"{rows}\n", rows.replace("\n", "\r\n")):
            (tmp_path / "speeds.csv").write_bytes((names + text).encode())
            speeds = read_speeds(tmp_path / "speeds.csv")
            found.append([(each.ids.tolist(), each.kmh.tolist(), each.number.tolist()) for each in speeds])
        assert all(each == found[0] for each in found)
