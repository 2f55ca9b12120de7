"""Tests of which roads are reached, and of what Hierarchy.reach and within refuse. A thousandth of a degree is 111.195 m along the
equator, and weighs 1000 there."""
import os
import pickle
import shutil

import numpy as np
import pytest
from draws import run_tool
from reach_case import Road, lengths, network, prepared
from shapely.geometry import Point

import domethyme
from domethyme.network import isochrones, net_file
from domethyme.network.contours import contours
from domethyme.network.reach import Reach
from domethyme.network.snapping import RoadIndex

# A road of two directions, one to the east alone, and roads without weight; a node apart.
ROW = [(0, 0), (0.001, 0), (0.002, 0), (0.003, 0), (0.004, 0), (0, 0.01)]
ROADS = [Road(0, 1, 1000, 1000), Road(1, 2, 1000, None), Road(2, 3, 0, 0), Road(3, 4, 60_000, 0)]


@pytest.fixture(scope="module")
def row(tmp_path_factory):
    with prepared(ROW, ROADS, tmp_path_factory.mktemp("row") / "row") as hierarchy:
        yield hierarchy


def test_copies_of_a_node_count_once():
    """Of the copies at a junction one is reached, so all are. Others in the same place aren't copies of it."""
    here = (0.001, 0.0)
    nodes = [(0, 0), (*here, "from", 7), (*here, "to", 7), (*here, "no", 7), (*here, "", 8), (0.002, 0), (*here, "to", 9)]
    net = network(nodes, [Road(start, 5, 1000, None) for start in (1, 3, 4, 6)] + [Road(0, 2, 1000, None)])
    reach = Reach(net, lengths(net, {0: 0}).astype(np.int16), [500, 1000])
    assert reach.node_levels(np.arange(7)).tolist() == [0, 1, 1, 1, 2, 2, 2]
    assert reach.roads(1) == [[(0, 0), (0.001, 0)]]  # the copy from which roads lead isn't reached itself


@pytest.mark.parametrize("off", [0.001, 0.0089, -0.0089])
def test_a_line_far_from_its_nodes(tmp_path, off):
    """A line may end up to 1000 m from the nodes of its road."""
    (tmp_path / "n.csv").write_text("lon,lat\n0,0\n0.0001,0\n")
    (tmp_path / "a.csv").write_text(f'from,to,weight,WKT\n1,2,1000,"LINESTRING (0 {off}, 0.001 {off})"\n')
    run_tool("to_network", tmp_path / "n.csv", tmp_path / "a.csv", tmp_path / "net")
    reach = Reach(net_file.read(f"{tmp_path}/net.net"), np.array([0, -1]), [500])
    assert reach.roads(0) == [[(0, off), (0.0005, off)]]
    assert any(part.contains(Point(0.0003, off)) for part in contours(reach)[0].polygons)


def test_a_place_at_a_node_from_which_one_road_is_taken():
    """What is reached begins at the node, though it isn't reached itself."""
    roads = RoadIndex(network(ROW, ROADS))
    (point,) = roads.nearest((0.001, 0))
    for arc in (1, 0):
        some = roads.keep_arcs(point, {arc: roads.arc(arc)})
        reach = isochrones.reach_of(roads, [some], [500], lambda starts, most: np.full(6, -1))
        assert reach.roads(0) == ([[(0.0005, 0), (0.001, 0)]] if arc else [])


@pytest.mark.parametrize("values, limits", [
    *((np.zeros(6, np.int64), limits) for limits in ([], [-1], [2, 2], range(128))), (np.zeros(6), [1]),
    (np.zeros(6, np.uint64), [1]), (np.zeros(3, np.int64), [1]),
])
def test_what_does_not_fit(values, limits):
    with pytest.raises(ValueError):
        Reach(network(ROW, ROADS), values, limits)


def test_limits_in_the_unit_of_weights():
    """They are rounded: as floats these are a little less than integers."""
    assert isochrones.limits("duration", [2.01]) == [120_600] and isochrones.limits("distance", metres=[0.29]) == [29]
    for unit, name, metric in (("weight", "minutes", "time"), ("distance", "minutes", "time"), ("weight", "metres", "distance")):
        with pytest.raises(ValueError, match=f"aren't a {metric}: they are {unit}s"):
            isochrones.limits(unit, **{name: [5]})


@pytest.mark.parametrize("starts, limit, says", [
    ([], 5, "a node or more"), ([True], 5, "no node"), (["a"], 5, "no node"), ({0: -1}, 5, "from 0 to"),
    ({0: 1 << 32}, 5, "from 0 to"), ({0: 0.5}, 5, "integers"), ([0], -1, "limit"), ([0], (1 << 62) + 1, "limit"),
    ([0], 1.5, "limit"), ([0], True, "limit"), ([0], "5", "limit"), ([6], 5, "nodes 0 to 5"),
])
def test_what_cannot_be_reached(row, starts, limit, says):
    with pytest.raises(ValueError, match=says) as caught:
        row.reach(starts, limit)
    assert isinstance(caught.value, domethyme.NoSuchNode) == (starts == [6])


@pytest.mark.parametrize("change", [
    lambda path: os.replace(shutil.copy2(path, f"{path}.new"), path),
    lambda path: os.utime(path, ns=(0, os.stat(path).st_mtime_ns + 1)),
], ids=["inode", "time"])
@pytest.mark.parametrize("ask, why", [
    (lambda each: pickle.loads(pickle.dumps(each)).length("a", "c"), "no other process can read it again"),
    (lambda each: each.reach(["c"], towards=True)["a"], "it can't be turned round"),
    (lambda each: each.reach(["a"], sums=["metres"])["length"]["c"], "its links can't be summed up"),
])
def test_a_file_that_is_read_again(tmp_path, monkeypatch, change, ask, why):
    """By its whole path, and if it is still the same, at the first such question only."""
    prepared(ROW, ROADS, tmp_path / "row").close()
    monkeypatch.chdir(tmp_path)
    asked, late = (domethyme.Hierarchy("row.rch", network=tmp_path / "row", keys="abcdef") for _ in range(2))
    with asked, late:
        monkeypatch.chdir("/")
        assert ask(asked) == 2000
        change(tmp_path / "row.rch")
        assert ask(asked) == 2000
        with pytest.raises(domethyme.WrongHierarchy, match=f"^row.rch: was replaced since it was read, so {why}$"):
            ask(late)
    for each in (asked, late):
        with pytest.raises(ValueError, match="row.rch is closed"):
            each.reach(["d"], towards=True)


@pytest.mark.parametrize("words, says", [
    ({"place": (0, 2)}, "no road within 1000 m"), ({"place": (0, 91)}, "swapped"), ({"place": (0, float("nan"))}, "degrees"),
    ({"place": (0, 0, 0)}, "lon, lat"), ({"place": []}, "a place or more"), ({"minutes": [5, 3]}, "greater than the one before"),
    ({"metres": [5]}, "aren't a distance: they are durations"), ({"minutes": [5], "metres": [5]}, "one of both"),
    ({"minutes": [1e300]}, "too much"), ({"minutes": [5, 600.5]}, "600.5 minutes are too much: there may be 600"),
    ({"minutes": [float("nan")]}, "above 0"), ({"minutes": [0, 1]}, "above 0"), ({"minutes": [float("inf")]}, "above 0"),
    ({"metres": ["5"]}, "above 0"), ({"colors": ["ff00000"] * 3}, "hexadecimal"), ({"colors": ["#ff000"] * 3}, "hexadecimal"),
    ({"colors": ["ff0000"]}, "3 limits, and 3 numbers and 1"), ({"colors": 5}, "hexadecimal"), ({"colors": [5] * 3}, "hexadecimal"),
    *(({name: wrong}, f"{name} has .* {wrong}$") for name in ("denoise", "generalize") for wrong in (-0.1, "x", np.nan, np.inf)),
    ({"denoise": 1.1}, "denoise has .* 1.1"), ({"shape": "circles"}, "polygons, lines, roads, and is 'circles'"),
])
def test_arguments_that_are_refused(row, words, says):
    with pytest.raises(ValueError, match=says) as caught:
        row.within(**{"place": (0, 0), **words})
    assert isinstance(caught.value, domethyme.NoSuchNode) == (words == {"place": (0, 2)})


def test_without_a_network(row):
    with domethyme.Hierarchy(row.path) as hierarchy:
        with pytest.raises(ValueError, match="no network"):
            hierarchy.within((0, 0))
        assert hierarchy.reach([0], minutes=0.03).tolist() == row.reach([0], minutes=0.03).tolist() == [0, 1000, -1, -1, -1, -1]
    with pytest.raises(ValueError, match="closed"):
        hierarchy.reach([0])
