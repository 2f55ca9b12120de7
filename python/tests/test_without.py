"""Networks without some classes of roads: by the model, over HTTP and in Python; and ferries and toll roads of maps."""
import contextlib
import itertools
import pathlib
import pickle
import re
from collections.abc import Callable, Collection, Sequence
from typing import Any

import pytest
from draws import ORIGINS, Drawn, drawn, map_text, networks, places, run_tool, split, write_network
from hypothesis import given
from hypothesis import strategies as st
from model.network import Ambiguous, Arc, Network
from model.request import Request
from test_generated_package import check_frames, check_nearest
from test_generated_service import ask, check, requests

import domethyme
from domethyme.dimacs import read_graph
from domethyme.network.without import parse_classes
from domethyme_service import command
from domethyme_service.access import AccessPolicy
from domethyme_service.dataset import DatasetPaths, open_dataset
from domethyme_service.errors import StartupError
from domethyme_service.metrics import SharedMetrics
from domethyme_service.wsgi import Options, Service
from domethyme_tools.cli import ToolError

pytestmark = pytest.mark.timeout(300)

# Whether an arc is of a class.
CLASSES: dict[str, Callable[[Arc], bool]] = {"toll": lambda arc: arc.way % 4 == 1, "ferry": lambda arc: arc.highway == "ferry"}


def without(made: Drawn, is_left_out: Callable[[Arc], bool]) -> Drawn | None:
    """The network of the other arcs between nodes of the largest set that can all reach one another, and to and from those where
    routes end and begin beside it; None if there are several, or no arc is left."""
    roads, tables = made.roads, made.tables
    numbered = Network(roads.nodes, [arc._replace(ref=str(row)) for row, arc in enumerate(roads.arcs)], roads.forbidden)
    rows = [int(arc.ref) for arc in split(numbered).arcs] if roads.forbidden else range(len(roads.arcs))
    arcs = [row for row, arc in enumerate(tables.arcs) if not is_left_out(arc)]
    plain = Network(tables.nodes, [tables.arcs[row] for row in arcs])
    reached = [set(plain.lengths({node: 0})) for node in range(len(plain.nodes))]
    sets = {frozenset(other for other in reached[node] if node in reached[other]) for node in range(len(plain.nodes))}
    *_, second, largest = frozenset[int](), *sorted(sets, key=len)
    if len(second) == len(largest):
        return None
    ends = {arc.end for arc in plain.arcs if arc.start in largest and tables.nodes[arc.end].ends == "to"}
    starts = {arc.start for arc in plain.arcs if arc.end in largest and tables.nodes[arc.start].ends == "from"}
    kept = [row for row in arcs if {*tables.arcs[row][:2]} <= largest | starts | ends]  # (as a ring at such a node)
    few = with_arcs(tables, kept)
    # (an arc follows on another if it does so at one of the nodes that the junction is split into)
    following = {(rows[one], rows[other]) for one in kept for other in kept if tables.arcs[one].end == tables.arcs[other].start}
    numbers = sorted({rows[row] for row in kept})
    forbidden = {
        (one, other) for one, first in enumerate(numbers) for other, second in enumerate(numbers)
        if roads.arcs[first].end == roads.arcs[second].start and (first, second) not in following
    }
    return Drawn(with_arcs(roads, numbers, forbidden), few, made.has_keys) if kept else None


def with_arcs(network: Network, rows: Sequence[int], forbidden: Collection[tuple[int, int]] = ()) -> Network:
    """The network with some of its arcs. At a node without any no route begins or ends."""
    arcs = [network.arcs[row] for row in rows]
    joined = {node for arc in arcs for node in arc[:2]}
    nodes = [node if number in joined else node._replace(ends="no") for number, node in enumerate(network.nodes)]
    found = Network(nodes, arcs, forbidden, network.is_left)
    vars(found).update(unit=network.unit, has_seconds=network.has_seconds)
    return found


@drawn(60)
@given(st.data())
def test_as_the_model(tmp_path: pathlib.Path, data: Any) -> None:
    """Over HTTP and in Python. What isn't reached has neither roads that are left out nor nodes that have no others."""
    is_flat, name = data.draw(st.integers(0, 2)) == 0, data.draw(st.sampled_from(sorted(CLASSES)))
    made = data.draw(networks(["distance"], origins=[ORIGINS[0]]) if is_flat else networks())
    wanted = without(made, CLASSES[name])
    if wanted is None:
        return
    prefix = tmp_path / "net"
    write_network(made, prefix)
    said = run_tool("without", prefix, name, f"{prefix}.few.gr")[1]
    assert said.endswith(f"{len(wanted.tables.arcs)} of {len(made.tables.arcs)} arcs\n")
    domethyme.prepare(f"{prefix}.few.gr", f"{prefix}.few.rch", workers=0).close()
    service = serve(prefix, {frozenset([name]): f"{prefix}.few.rch"})
    for _ in range(4):
        request, codes = data.draw(requests(made, data.draw(st.sampled_from(["route", "nearest", "table", "trip", "match"]))))
        if "exclude" not in request.query and not codes:
            check(wanted, service, request._replace(query={**request.query, "exclude": name}), codes)
            check(made, service, request, codes)
    if is_flat:
        query = {"contours_meters": "300,700,2000", "polygons": "true", "exclude": name}
        check(wanted, service, Request("isochrone", data.draw(places(wanted.roads, 1)), query), set())
    network, place = domethyme.Network(prefix, exclude=[name]), made.roads.nodes[0].place
    hierarchy = domethyme.Hierarchy(f"{prefix}.few.rch", network=network)
    assert pickle.loads(pickle.dumps(network)).exclude == {name} and hierarchy.network is network
    check_nearest(hierarchy, wanted.tables, place, data.draw(st.sampled_from(["from", "to"])))
    assert network.nodes_frame()["ends"].tolist() == [node.ends for node in wanted.tables.nodes]
    assert network.arcs_frame()[["from", "to", "weight"]].to_numpy().tolist() == [[*arc[:3]] for arc in wanted.tables.arcs]
    (point,) = network.points_on_roads(place, radius=1e8, snapping="any")
    with contextlib.suppress(Ambiguous):
        assert point.metres <= min(metres for metres, _ in wanted.roads.by_distance(place, is_any=True)) + 0.01
    lengths = [[net.lengths({node: 0}) for node in range(len(net.nodes))] for net in (made.tables, wanted.tables)]
    rows = [*enumerate(made.tables.nodes)]
    begins, ends = ({node.osm: row for row, node in rows if node.ends in ("", side)} for side in ("from", "to"))
    if known := begins.keys() & ends.keys() - {None}:  # (also of a junction that is split, and cut off)
        by_osm = domethyme.Hierarchy(f"{prefix}.few.rch", keys=network.keys("osm"), network=network)
        for one, other in itertools.permutations(sorted(known), 2):
            assert by_osm.length(one, other) == lengths[1][begins[one]].get(ends[other])
    if lengths[0] != lengths[1]:  # (an arc that is longer than a way around it may be missing)
        for path, other in ((f"{prefix}.rch", network), (f"{prefix}.few.rch", str(prefix))):
            with pytest.raises(domethyme.WrongHierarchy):
                domethyme.Hierarchy(path, network=other)


@drawn(25)
@given(st.data())
def test_the_largest_set(tmp_path: pathlib.Path, data: Any) -> None:
    """to_network --largest makes the tables of its nodes, in their order, and of the arcs between them."""
    made = data.draw(networks())
    made.tables.nodes[:] = [node._replace(key=f"key {number}") for number, node in enumerate(made.tables.nodes)]
    few = without(made, lambda arc: False)
    if few is None:
        return
    kept = sorted({node for arc in few.tables.arcs for node in arc[:2]})
    arcs = [arc._replace(start=kept.index(arc.start), end=kept.index(arc.end)) for arc in few.tables.arcs]
    wanted = Network([made.tables.nodes[node] for node in kept], arcs)
    said = write_network(made._replace(has_keys=True), tmp_path / "net", "--largest")
    left, count = len(made.tables.nodes) - len(kept), len(made.tables.nodes)
    assert f"{len(kept)} of {count} nodes reach one another, and {left} don't" in said or not left
    check_frames(few._replace(tables=wanted), domethyme.Network(tmp_path / "net"))


def serve(prefix: pathlib.Path, excluded: dict[frozenset[str], str], **more: Any) -> Service:
    dataset = open_dataset(DatasetPaths(f"{prefix}.rch", str(prefix), excluded=excluded, **more))
    return Service(dataset, Options(AccessPolicy.from_options(["x"], "none")), SharedMetrics())


@pytest.mark.parametrize("turn", [1, -1])
def test_a_ferry_beside_a_bridge(tmp_path, turn):
    """Of one line: places are on the bridge, whichever comes first in the table, and on none where the bridge is left out."""
    (tmp_path / "nodes.csv").write_text("lon,lat\n0,0\n0.01,0\n")
    rows = "1,2,600,ferry,\n2,1,600,ferry,\n", "1,2,60,primary,yes\n2,1,60,primary,yes\n"
    (tmp_path / "arcs.csv").write_text("from,to,seconds,highway,toll\n" + "".join(rows[::turn]))
    run_tool("to_network", tmp_path / "nodes.csv", tmp_path / "arcs.csv", tmp_path / "net")
    (point,) = domethyme.Network(tmp_path / "net").points_on_roads((0.004, 0.0))
    assert point.fraction == pytest.approx(0.4)
    free = domethyme.Network(tmp_path / "net", exclude=["toll"])
    assert len(free.points_on_roads((0.004, 0.0), snapping="any")) == 1
    with pytest.raises(domethyme.NoSuchNode, match="place 0 has no road"):
        free.points_on_roads((0.004, 0.0))


def test_a_bend_at_a_road_that_is_left_out(tmp_path):
    """No step begins there, as if there were no such road."""
    (tmp_path / "nodes.csv").write_text("lon,lat\n0,0\n-0.01,0\n0,0.01\n0.01,0\n")
    rows = "1,2,60,\n2,1,60,\n1,3,60,\n3,1,60,\n1,4,60,yes\n4,1,60,yes\n"
    (tmp_path / "arcs.csv").write_text(f"from,to,seconds,toll\n{rows}")
    run_tool("to_network", tmp_path / "nodes.csv", tmp_path / "arcs.csv", tmp_path / "net")
    run_tool("without", tmp_path / "net", "toll", tmp_path / "few.gr")
    for name in ("net", "few"):
        domethyme.prepare(tmp_path / f"{name}.gr", tmp_path / f"{name}.rch").close()
    service = serve(tmp_path / "net", {frozenset(["toll"]): tmp_path / "few.rch"})
    for more, kinds in (("", ["depart", "continue", "arrive"]), ("&exclude=toll", ["depart", "arrive"])):
        (leg,) = ask(service, f"/route/v1/car/-0.005,0;0,0.005?steps=true{more}")[1]["routes"][0]["legs"]
        assert [step["maneuver"]["type"] for step in leg["steps"]] == kinds


# Two islands with a road each, a ferry with a duration and one without, a toll bridge, and a road in a tunnel.
PLACES = {1: (0, 0), 2: (0.01, 0), 3: (0.02, 0), 4: (0.03, 0), 5: (0.01, 0.005), 6: (0.04, 0), 7: (0.02, 0.001), 8: (0.035, 0.002)}
ROAD, FERRY = {"highway": "primary"}, {"route": "ferry", "name": "Boat"}
MAP = map_text(PLACES, {
    11: ((1, 2), ROAD), 12: ((2, 7, 3), {**FERRY, "duration": "DURATION"}), 13: ((3, 4, 6), {**ROAD, "bridge": "yes"}),
    14: ((1, 5, 2), {**ROAD, "toll": "yes"}), 15: ((4, 8, 6), {**ROAD, "tunnel": "yes"}),
    16: ((1, 6), {**FERRY, "motor_vehicle": "no"}), 17: ((1, 3), {"route": "bus"})
})


@pytest.fixture
def convert(tmp_path, monkeypatch):
    """Makes the network `net` of the map, in whose folder the test runs. Returns its arcs."""
    monkeypatch.chdir(tmp_path)

    def convert_map(duration="12", *words):
        pathlib.Path("map.osm").write_text(MAP.replace("DURATION", duration))
        run_tool("osm_to_gr", "map.osm", "net", "--longest-arc", "100000", *words)
        return domethyme.Network("net").arcs_frame()

    return convert_map


@pytest.mark.parametrize("duration, seconds", [
    *(("72", 4320), ("01:12", 4320), (" 1:12:10 ", 4330), ("PT72M", 4320), ("PT1H12M10S", 4330), ("PT4330S", 4330)),
    *((wrong, None) for wrong in ("", "soon", "0", "12:99", "PT", "P1D", "-5", "1.5", "1200:00"))
])
def test_durations(convert, duration, seconds):
    """Each form of 72 minutes and 10 seconds, or none, for both directions; and else 5 km/h."""
    arcs = convert(duration)
    ferry = arcs[arcs["highway"] == "ferry"]
    wanted = [metres * 3.6 / 5 if seconds is None else seconds for metres in ferry["metres"]]
    assert ferry["seconds"].tolist() == pytest.approx(wanted, abs=0.01) and ferry["name"].tolist() == ["Boat"] * 2


def test_classes(convert):
    arcs = convert("12", "--tables")
    assert sorted({*zip(arcs["osm"], arcs["toll"], arcs["structure"])}) == [
        (11, "", ""), (12, "", ""), (13, "", "bridge"), (14, "yes", ""), (15, "", "tunnel")]
    for classes, osm in (("toll", {11, 12, 13, 15}), ("tunnel,toll", {11, 12, 13}), ("motorway", {11, 12, 13, 14, 15})):
        kept = arcs[arcs["osm"].isin(osm)]
        assert run_tool("without", "net", classes, "out.gr")[1] == f"without: out.gr: {len(kept)} of {len(arcs)} arcs\n"
        assert [*zip(*read_graph("out.gr")[1:])] == [*kept[["from", "to", "weight"]].itertuples(index=False, name=None)]
    run_tool("to_network", "net.nodes.csv", "net.arcs.csv", "again")
    assert domethyme.Network("again").arcs_frame()["toll"].tolist() == arcs["toll"].tolist()
    only = MAP.replace("'primary'", "'motorway_link'", 1).replace("'primary'", "'motorway'")
    pathlib.Path("only.osm").write_text(only.replace("'ferry'", "'bus'"))
    run_tool("osm_to_gr", "only.osm", "only", "--keep-islands")
    with pytest.raises(ToolError, match="only: has no arc without these classes"):
        run_tool("without", "only", "motorway", "out2.gr")
    with pytest.raises(SystemExit, match="2"):
        run_tool("without", "net", "toll,toll", "out2.gr")
    profile = (pathlib.Path(domethyme.__file__).parent / "maps/profiles/car.json").read_text()
    pathlib.Path("own.json").write_text(re.sub(r',\s*"ferry": 5', "", profile))
    assert "ferry" not in {*convert("12", "--profile", "own.json", "--keep-islands")["highway"]}


def test_the_service(convert):
    """Which sets are served is said; others are refused; and what doesn't belong together isn't opened."""
    convert()
    for classes in ("toll", "tunnel,toll"):
        run_tool("without", "net", classes, f"{classes}.gr")
    for name in ("net", "toll", "tunnel,toll"):
        domethyme.prepare(f"{name}.gr", f"{name}.rch").close()
    excluded = {parse_classes(classes): f"{classes}.rch" for classes in ("toll", "tunnel,toll")}
    service, path = serve(pathlib.Path("net"), excluded), "/route/v1/car/0.0001,0;0.0399,0?overview=false"
    words = "", "&exclude=toll", "&exclude=tunnel,toll", "&exclude=toll,tunnel"
    assert len({ask(service, path + more)[1]["routes"][0]["weight"] for more in words}) == 1
    for towards, status in ((True, 200), (False, 400)):
        one = serve(pathlib.Path("net"), excluded, towards=towards)
        assert {ask(one, f"/isochrone/v1/car/0.005,0?contours_minutes=1&reverse=true{more}")[0] for more in words} == {status}
    for code, some in (("NotImplemented", ("motorway", "tunnel")), ("InvalidValue", ("toll,toll", "roads"))):
        for status, found in (ask(service, f"{path}&exclude={each}") for each in some):
            assert (status, found["code"]) == (400, code)
            assert code == "InvalidValue" or "it was started with toll and toll,tunnel" in found["message"]
    assert ask(service, "/health")[1]["exclude"] == [["toll"], ["toll", "tunnel"]]
    verified = {"graph": "net.gr", "program": domethyme.find_program()}
    serve(pathlib.Path("net"), excluded, **verified)
    for more, says in (({}, "of another network"), (verified, "net.rch: not shown: ")):
        with pytest.raises(domethyme.DomethymeError, match=says):
            serve(pathlib.Path("net"), {parse_classes("ferry"): "net.rch"}, **more)
    with pytest.raises(StartupError, match="needs --network"):
        open_dataset(DatasetPaths("net.rch", None, excluded=excluded))
    for word, says in (("toll", "has no =HIERARCHY"), ("roads=x", "there is no class"), ("toll=", "has no =HIERARCHY")):
        with pytest.raises(Exception, match=says):
            command.parse_excluded(word)
    for wrong, says in ((["m"], "there is no class 'm'"), *((wrong, "there is no class") for wrong in (5, [5], None))):
        with pytest.raises(ValueError, match=says):
            domethyme.Network("net", exclude=wrong)
