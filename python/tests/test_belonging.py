"""Tests that what doesn't belong together is refused: a hierarchy of another network, keys of another file, by the package, the tools and the service."""
import contextlib
import functools
import itertools
import os
import pathlib
import pickle
import random
import re
import shutil
import struct
import unittest.mock

import numpy as np
import pytest
from draws import one_road, run_tool, write_network
from tool_case import VILLAGE

import domethyme
from domethyme import belonging, links
from domethyme.network import net_file
from domethyme_service.dataset import DatasetPaths, open_dataset
from domethyme_service.errors import StartupError

pytestmark = pytest.mark.timeout(300)
FOREIGN = "is the hierarchy of another network than"
# Three nodes in a row, and a detour: 1 to 2 and 2 to 3 of 100, 1 to 3 of 500 or, in another network, of less.
NODES = "node,lon,lat\na,0,0\nb,0.001,0\nc,0.002,0\n"
ARCS = "from,to,weight\na,b,100\nb,a,100\nb,c,100\nc,b,100\na,c,500\n"


def made(folder, name, arcs=ARCS, nodes=NODES, is_prepared=True):
    """The prefix of a network of tables, and of its hierarchy."""
    for what, text in (("nodes", nodes), ("arcs", arcs)):
        (folder / f"{name}-{what}.csv").write_text(text)
    run_tool("to_network", folder / f"{name}-nodes.csv", folder / f"{name}-arcs.csv", folder / name)
    if is_prepared:
        domethyme.prepare(folder / f"{name}.gr", folder / f"{name}.rch", workers=1).close()
    return folder / name


AHEAD = ARCS.replace("c,b,100\n", "")


@pytest.mark.parametrize("before, arcs, nodes, says", [
    (ARCS, ARCS, NODES + "d,0.003,0\n", "it has 3 nodes, and the network 4"),
    (ARCS, ARCS.replace("b,c,100", "b,c,101"), NODES, "from node 2 to node 3 it has 100, where the least arc weighs 101"),
    (ARCS, ARCS.replace("b,c,100", "b,c,99"), NODES, "from node 2 to node 3 it has 100, where the least arc weighs 99"),
    (ARCS, ARCS.replace("a,c,500", "a,c,150"), NODES, "from node 1 to node 3 it has "),
    (ARCS, ARCS + "c,a,1000\n", NODES, "from node 3 to node 1 it "),
    (ARCS, ARCS.replace("b,a,100\n", ""), NODES, "from node 2 to node 1 it has 100, where there is no arc"),
    (AHEAD, ARCS, NODES, "from node 3 to node 2 it lacks an arc"),
])
def test_networks_that_differ(tmp_path, monkeypatch, before, arcs, nodes, says):
    """Another number of nodes; a weight, heavier, lighter, or lighter where there is a shortcut; an arc more, and one less; and one
    behind the last link. The same by a file of version 1, whose links are without their arcs, link by link."""
    right, other = made(tmp_path, "net", before), made(tmp_path, "other", arcs, nodes, False)
    path = tmp_path / "net.rch"
    data, begin = path.read_bytes(), 24 + 4 * 3
    rows = [data[at : at + 16] + data[at + 20 : at + 24] for at in range(begin, len(data), 24)]
    for whole, at_a_time in ((data, links.AT_A_TIME), (b"RCH1" + data[4:begin] + b"".join(rows), 1)):
        path.write_bytes(whole)
        monkeypatch.setattr(links, "AT_A_TIME", at_a_time)
        with domethyme.Hierarchy(path, network=right) as hierarchy:
            assert (hierarchy.length(0, 2), hierarchy.links) == (200, len(rows))
        with pytest.raises(domethyme.WrongHierarchy, match=f"net.rch: {FOREIGN} .*: {says}"):
            domethyme.Hierarchy(path, network=other)
    # a parallel arc that is heavier, and a road from a node to itself, change nothing
    domethyme.Hierarchy(path, network=made(tmp_path, "same", before + "a,b,700\nb,b,3\n", is_prepared=False)).close()


@pytest.mark.parametrize("metres, is_refused", [("4294967.295", False), ("4294967.296", True)])
def test_arcs_that_are_too_long_to_be_summed(tmp_path, metres, is_refused):
    network = made(tmp_path, "far", ARCS.replace("weight\n", "weight,metres\n").replace("00\n", f"00,{metres}\n"))
    refused = pytest.raises(domethyme.NetworkError, match="more than 4294967 seconds or metres")
    with domethyme.Hierarchy(f"{network}.rch", network=network) as hierarchy, refused if is_refused else contextlib.nullcontext():
        assert hierarchy.matrix([0], [2], sums=["metres"])["metres"].tolist() == [[2 * float(metres)]]


def test_one_weight_of_many(tmp_path, caplog):
    """Of a made town with 900 nodes some arcs in turn: a weight that differs by one is found, and so are drawn ones."""
    draw, size = random.Random(1), 30
    nodes = "lon,lat\n" + "".join(f"{x / 1000},{y / 1000}\n" for y in range(size) for x in range(size))
    number = {(x, y): y * size + x + 1 for y in range(size) for x in range(size)}
    ends = [(number[x, y], number[x + east, y + 1 - east]) for x in range(size - 1) for y in range(size - 1) for east in (0, 1)]
    arcs = [(start, end, draw.randrange(50, 99)) for pair in ends for start, end in (pair, pair[::-1])]

    def text(changed=None, by=0):
        rows = [f"{start},{end},{weight + (row == changed) * by}\n" for row, (start, end, weight) in enumerate(arcs)]
        return "from,to,weight\n" + "".join(rows)

    def said():
        return [record.getMessage() for record in caplog.records if record.name.startswith("domethyme")]

    right = net_file.read(f"{made(tmp_path, 'town', text(), nodes)}.net")
    with open(tmp_path / "town.rch", "rb") as file:
        def compare(network, most, *words):
            with unittest.mock.patch.object(belonging, "MAX_COMPARED", most):
                belonging.compare(file.fileno(), "town.rch", network, *words)

        size = links.Links.of(file.fileno(), "").size
        refused = functools.partial(pytest.raises, domethyme.WrongHierarchy, match=FOREIGN)
        for changed, by in itertools.product(draw.sample(range(len(arcs)), 5), (1, -1)):
            other = net_file.read(f"{made(tmp_path, 'other', text(changed, by), nodes, False)}.net")
            for words in ((size,), (0, True)):
                with unittest.mock.patch.multiple(links, DRAWN=1, ROUNDS=1), refused():
                    compare(other, *words)
        with refused():
            compare(other, 0)
        compare(right, size)
        assert not said()
        compare(right, size - 1)
        says = "town.rch: 5,000 of its [0-9,]+ links were compared with .*town.net: --compare-all, or compare_all=True, .*"
        assert re.fullmatch(says, "".join(said()))


def test_flipped_bits(tmp_path):
    """A flipped bit that reading takes is found if it changes a length; and no other error is raised without the library."""
    run_tool("osm_to_gr", VILLAGE, tmp_path / "v", "--keep-islands")
    with domethyme.prepare(tmp_path / "v.gr", tmp_path / "v.rch", workers=1) as hierarchy:
        every = np.arange(hierarchy.nodes)
        right = hierarchy.matrix(every, every)
    damaged, whole, draw, found = tmp_path / "damaged.rch", (tmp_path / "v.rch").read_bytes(), random.Random(7), 0
    network = net_file.read(f"{tmp_path}/v.net")
    for _ in range(600):
        place = draw.randrange(24, len(whole))
        damaged.write_bytes(whole[:place] + bytes([whole[place] ^ 1 << draw.randrange(8)]) + whole[place + 1 :])
        with open(damaged, "rb") as file, contextlib.suppress(domethyme.HierarchyError):
            belonging.compare(file.fileno(), "damaged.rch", network)
        try:
            with domethyme.Hierarchy(damaged) as hierarchy:
                is_right = np.array_equal(hierarchy.matrix(every, every), right)
        except domethyme.DomethymeError:
            continue
        if not is_right:
            found += 1
            with pytest.raises(domethyme.WrongHierarchy, match=FOREIGN):
                domethyme.Hierarchy(damaged, network=tmp_path / "v")
    assert found > 0


@pytest.mark.parametrize("file, text, nodes", [
    ("t.nodes.csv", "node,osm,lon,lat,ends\n1,7,0,0,\n2,8,0.001,0,\n", 2),
    ("x.co", "p aux sp co 4\nv 1 0 0\nv 2 1000 0\nv 3 2000 0\nv 4 3000 0\n", 4),
])
def test_nodes_without_arcs(tmp_path, file, text, nodes):
    (tmp_path / file).write_text(text)
    name, path = file.removesuffix(".nodes.csv"), f"{made(tmp_path, 'net')}.rch"
    with pytest.raises(domethyme.WrongHierarchy, match=f"{FOREIGN} .*{name}: it has 3 nodes, and the network {nodes}"):
        domethyme.Hierarchy(path, network=tmp_path / name)


@pytest.mark.parametrize("names", ["abc", [("a", 1), "b", "c"]])
def test_keys_of_another_graph(tmp_path, names):
    """Keys of a graph, saved or not, are refused for another one's hierarchy of as many nodes, and taken for a second one of it."""
    firm, second, town, some, copy = (tmp_path / f"{name}.rch" for name in ("firm", "second", "town", "some", "copy"))
    graph, can_be_saved = domethyme.Graph.from_keys(names, [*names[1:], names[0]], [3, 4, 5]), isinstance(names, str)
    for path, seed in ((firm, 1), (second, 2)):
        graph.prepare(path, workers=1, seed=seed).close()
    domethyme.Graph([0, 1, 2], [1, 2, 0], [7, 7, 7]).prepare(town, workers=1).close()
    assert os.path.exists(f"{firm}.keys") == can_be_saved
    for keys in (graph.keys, *([domethyme.Keys.load(firm), domethyme.Keys(domethyme.Keys.load(firm))] if can_be_saved else [])):
        for path in (firm, shutil.copy(firm, copy), *[second] * (keys is graph.keys)):
            domethyme.Hierarchy(path, keys=keys).close()
        with pytest.raises(ValueError, match=r"the keys were saved for another file than .*town.rch: .* keys.save\(path\)"):
            domethyme.Hierarchy(town, keys=keys)
    with contextlib.nullcontext() if can_be_saved else pytest.raises(ValueError, match="str or int"):
        keys.save(town)
        domethyme.Hierarchy(firm, keys=keys).close()  # (they are keys of both)
        with domethyme.Hierarchy(town, keys=keys) as hierarchy:
            assert (hierarchy.length("a", "b"), hierarchy.keys.key(2)) == (7, "c")
    domethyme.Graph([0], [1], [5], nodes=3, keys=domethyme.Keys({"a": 0, "b": 1})).prepare(some, workers=1).close()
    with domethyme.Hierarchy(some, keys=domethyme.Keys.load(some)) as hierarchy:
        assert (hierarchy.length("a", "b"), hierarchy.keys.key(2)) == (5, None)


@pytest.fixture
def net(tmp_path, monkeypatch):
    """A working folder with a network, its hierarchy, and a trip from the first node to the last."""
    monkeypatch.chdir(tmp_path)
    (tmp_path / "trips.csv").write_text("from_lon,from_lat,to_lon,to_lat\n0,0,0.002,0\n")
    return made(tmp_path, "net")


def test_a_hierarchy_that_is_older(net):
    again = "to_network", "net-nodes.csv", "net-arcs.csv", "net"
    says = "net.rch is older than net.gr: run `routecli prepare --order balanced net.gr net.rch` again\n"
    assert f"to_network: {says}" in run_tool(*again)[1]
    domethyme.prepare("net.gr", "net.rch", workers=1).close()
    assert f"osm_to_gr: {says}" in run_tool("osm_to_gr", VILLAGE, "net")[1]
    for later, is_older in ((0, False), (1, True)):  # (a nanosecond)
        for name, stamp in (("net.rch", 10**18), ("net.gr", 10**18 + later)):
            os.utime(name, ns=(stamp, stamp))
        assert (belonging.older_hierarchy("net") is not None) == is_older
    os.unlink("net.rch")
    assert "older" not in run_tool(*again)[1]


def test_keys_of_another_node(net):
    """A list of keys that has a key of the network's at another node."""
    with pytest.raises(ValueError, match="key 'b' names node 0 here, and node 1 in .*net.net"):
        domethyme.Hierarchy("net.rch", keys=["b", "a", "c"], network=net)
    domethyme.Hierarchy("net.rch", keys=["x", "y", "c"], network=net).close()
    domethyme.Hierarchy("net.rch", keys=["b", "a", "c"]).close()
    assert [*domethyme.open("net").keys] == ["a", "b", "c"]
    domethyme.Keys(["x", "y", "c"]).save("net.rch")
    assert [*domethyme.open("net").keys] == ["x", "y", "c"]
    os.unlink("net.net")
    alone = domethyme.open("net")
    assert ([*alone.keys], alone.network) == (["x", "y", "c"], None)


def test_what_the_service_opens(tmp_path, caplog):
    """With --compare-all all links are compared, and by the package if asked, of what was pickled too. A hierarchy that changes
    meanwhile is refused, and a network with another byte."""
    write_network(one_road((0.0, 0.0), (0.001, 0.0)), tmp_path / "v")
    paths, network = DatasetPaths(str(tmp_path / "v.rch"), str(tmp_path / "v")), tmp_path / "v.net"
    with unittest.mock.patch.object(belonging, "MAX_COMPARED", 0):
        open_dataset(paths._replace(compare_all=True))
        pickle.loads(pickle.dumps(domethyme.Hierarchy(paths.hierarchy, network=paths.network, compare_all=True)))
        assert not caplog.messages
        open_dataset(paths)
        domethyme.Hierarchy(paths.hierarchy, network=paths.network)
        assert [" of its 2 links were compared" in message for message in caplog.messages] == [True, True]
    other = made(tmp_path, "other", is_prepared=False)
    for compare_all in (False, True):
        with pytest.raises(domethyme.WrongHierarchy, match=f"v.rch: {FOREIGN} .*other.net: it has 2 nodes"):
            open_dataset(paths._replace(network=str(other), compare_all=compare_all))
    with unittest.mock.patch.object(belonging, "compare", lambda *_: os.utime(paths.hierarchy)):
        with pytest.raises(StartupError, match="v.rch: has changed"):
            open_dataset(paths)
    whole = bytearray(network.read_bytes())
    whole[whole.rindex(struct.pack("<i", 10_000))] ^= 1  # (of the points of the road, which requests read)
    network.write_bytes(whole)
    with pytest.raises(domethyme.NetworkError, match="v.net: is damaged"):
        open_dataset(paths)


@pytest.mark.parametrize("words", [
    "routes net net.rch trips.csv -o out.csv", "table net net.rch places.csv places.csv", "reach net net.rch places.csv --minutes 0.001",
    "match net net.rch places.csv",
])
def test_tools_use_what_they_have_compared(net, monkeypatch, caplog, words):
    """A network that takes the name of the one that was compared, a moment later, changes nothing, and is refused the next time.
    All links are compared if asked."""
    monkeypatch.setattr(belonging, "MAX_COMPARED", 0)
    pathlib.Path("places.csv").write_text("name,lon,lat\nc,0.002,0\na,0,0\n")
    arcs, compare, printed = ARCS.replace("weight", "seconds").replace("00", "").replace("c,b,1", "c,b,3"), belonging.compare, []
    made(net.parent, "net", arcs)
    made(net.parent, "new", arcs, "node,lon,lat\nc,0.002,0\nb,0.001,0\na,0,0\n", False)

    def replacing(*arguments):
        compare(*arguments)
        if printed:
            os.replace("new.net", "net.net")

    monkeypatch.setattr(belonging, "compare", replacing)
    for more in (["--compare-all"], []):
        printed.append(run_tool(*words.split(), *more)[0] or pathlib.Path("out.csv").read_text())
        assert ("--compare-all" in caplog.text) == (more == [])
    assert printed[0] == printed[1] != "" and not os.path.exists("new.net")
    for more in ([], ["--compare-all"]):
        with pytest.raises(domethyme.WrongHierarchy, match=f"net.rch: {FOREIGN} net.net: from node "):
            run_tool(*words.split(), *more)
