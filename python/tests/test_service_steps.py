"""Steps and their intersections where junctions are split, the side on which vehicles are, and what they are, by hand; the generated tests
have what is on other networks."""
import json
import pathlib
from typing import Any
from unittest import mock

import pytest
from draws import Drawn, run_tool, split, write_network
from model.network import Arc, Network, Node
from test_generated_service import ask, open_service
from tool_case import VILLAGE

import domethyme
from domethyme.maps.vehicle_profile import PROFILES
from domethyme.network import net_file
from domethyme.network.columns import ABOUT

CENTRE, WEST, EAST, NORTH, SOUTH = (0.0, 0.0), (-0.001, 0.0), (0.001, 0.0), (0.0, 0.001), (0.0, -0.001)
PLACES = [CENTRE, WEST, EAST, NORTH, SOUTH]
# From each of these nodes to another: High Street from west to east, North Lane, and South Lane, which leads north alone.
ROADS = [(1, 0, "High Street"), (0, 2, "High Street"), (0, 3, "North Lane"), (3, 0, "North Lane"), (2, 0, "High Street"), (0, 1, "High Street")]


def crossing(*forbidden: tuple[int, int], north: str = "North Lane", end: tuple[float, float] = NORTH) -> Drawn:
    """Four roads that meet, where some arcs may not follow on others, and of which that to the north may lead elsewhere."""
    places = [*PLACES[:3], end, SOUTH]
    ends = [(start, end, name.replace("North Lane", north)) for start, end, name in [*ROADS, (4, 0, "South Lane")]]
    ways = {frozenset((1, 0)): 1, frozenset((0, 2)): 2, frozenset((0, 3)): 3, frozenset((4, 0)): 4}
    arcs = [
        Arc(*pair, 8006, 8.006, 111.2, (places[pair[0]], places[pair[1]]), ways[frozenset(pair)], name) for *pair, name in ends
    ]
    roads = Network([Node(*place, osm=number + 1) for number, place in enumerate(places)], arcs, forbidden)
    return Drawn(roads, split(roads) if forbidden else roads, False)


def steps(folder: pathlib.Path, made: Drawn, places: str, query: str = "") -> list[Any]:
    write_network(made, folder / "net")
    status, found = ask(open_service(folder / "net"), f"/route/v1/car/{places}?steps=true{query}")
    assert status == 200, found
    return [step for leg in found["routes"][0]["legs"] for step in leg["steps"]]


@pytest.mark.parametrize("forbidden, entry", [
    ([], [True, True, False, True]), ([(0, 2)], [False, True, False, True]), ([(0, 5)], [True, True, False, False]),
    ([(0, 2), (0, 5)], [False, True, False, False]), ([(6, 1)], [True, True, False, True]),
])
def test_a_crossing(tmp_path: pathlib.Path, forbidden: list[tuple[int, int]], entry: list[bool]) -> None:
    """All four roads are there, however the junction is split; those that may not be entered, by the turn or as they lead here, are false."""
    first, arrival = steps(tmp_path, crossing(*forbidden), "-0.0005,0;0.0005,0")
    assert first["intersections"] == [
        {"location": [-0.0005, 0.0], "bearings": [90], "entry": [True], "out": 0},
        {"location": [0.0, 0.0], "bearings": [0, 90, 180, 270], "entry": entry, "in": 3, "out": 1},
    ]
    assert arrival["intersections"] == [{"location": [0.0005, 0.0], "bearings": [270], "entry": [True], "in": 0}]
    for places, nodes in (("-0.001,0;0.001,0", [2, 1, 3]), ("-0.0005,0;0.0005,0", [0, 1, 0])):
        (leg,) = ask(open_service(tmp_path / "net"), f"/route/v1/car/{places}?annotations=nodes")[1]["routes"][0]["legs"]
        assert leg["annotation"]["nodes"] == nodes


def test_a_via_at_a_crossing(tmp_path: pathlib.Path) -> None:
    """With a bearing it is within a road, by which the route goes on from the crossing, which it passes once."""
    some = steps(tmp_path, crossing(), "-0.0005,0;0,0;0,0.0005", "&waypoints=0;2&bearings=;0,20;")
    assert [[road["bearings"] for road in step["intersections"]] for step in some] == [[[90]], [[0, 90, 180, 270]], [[180]]]


def test_an_exit_by_two_arcs(tmp_path: pathlib.Path) -> None:
    """A road that leads to two copies of a junction is one exit of a roundabout."""
    places = [(-0.002, 0.0), (-0.001, 0.0), (0.0, -0.001), (0.001, 0.0), (0.0, -0.002), (0.002, 0.0)]
    ways = [(0, 1, ""), (1, 2, "roundabout"), (2, 3, "roundabout"), (2, 4, ""), (2, 4, ""), (3, 5, "")]
    arcs = [Arc(one, two, 8006, 8.006, 111.2, (places[one], places[two]), 10 * one + two, junction=kind) for one, two, kind in ways]
    roads = Network([Node(*place) for place in places], arcs)
    _, turn, _ = steps(tmp_path, Drawn(roads, roads, False), "-0.002,0;0.002,0")
    assert turn["maneuver"]["exit"] == 2


@pytest.mark.parametrize("end, side", [((0.001, 0.001), "left"), ((0.001, -0.001), "right")])
def test_turns_of_45_degrees(tmp_path: pathlib.Path, end: tuple[float, float], side: str) -> None:
    """One of 46 begins a step, and is a turn; at one of 45 the road goes on, which may have a new name."""
    for east, kinds in ((0.001, ["", "new name"]), (0.000966, ["continue", "turn"])):
        for name, kind in zip(("High Street", "North Lane"), kinds):
            _, *turns, _ = steps(tmp_path, crossing(north=name, end=(east, end[1])), f"-0.0005,0;{east / 2},{end[1] / 2}")
            assert [(turn["maneuver"]["type"], turn["maneuver"]["modifier"]) for turn in turns] == [(kind, side)] * bool(kind)


RING = (0.0, -0.0003), (0.0003, 0.0), (0.0, 0.0003), (-0.0003, 0.0)
# South comes to a roundabout; two roads leave it in the east, and one in the north, where Lane comes to it, and one in the west.
ARMS = ("South", (4, 0)), ("East", (1, 5)), ("Far East", (1, 6)), ("North", (2, 7)), ("Lane", (9, 2)), ("West", (3, 8))


@pytest.mark.parametrize("places, wanted", [
    ("0,-0.0009;0.0009,0", ("roundabout", 1, "East")), ("0,-0.0009;0.0009,0.00045", ("roundabout", 1, "Far East")),
    ("0,-0.0009;0,0.0009", ("roundabout", 3, "North")), ("0,-0.0009;-0.0009,0", ("roundabout", 4, "West")),
    ("0.00045,0.0009;-0.0009,0", ("roundabout", 1, "West")), ("0.00045,0.0009;0.0009,0", ("roundabout", 2, "East")),
    ("0,-0.0009;0.00015,0.00015", ("roundabout", None, "")), ("0.00015,-0.00015;-0.0009,0", ("new name", None, "West")),
])
def test_exits_of_a_roundabout(tmp_path: pathlib.Path, places: str, wanted: Any) -> None:
    """Roads that leave it are counted from where it is entered. A route that begins on it, or ends there, has no exit."""
    spots = [*RING, (0.0, -0.001), (0.001, 0.0), (0.001, 0.0005), (0.0, 0.001), (-0.001, 0.0), (0.0005, 0.001)]
    arcs = [
        Arc(*pair, 1000, 1.0, 90.0, (spots[pair[0]], spots[pair[1]]), way, name, junction="" if name else "roundabout")
        for way, (name, pair) in enumerate([*(("", (place, (place + 1) % 4)) for place in range(4)), *ARMS])
    ]
    roads = Network([Node(*spot) for spot in spots], arcs)
    _, step, _ = steps(tmp_path, Drawn(roads, roads, False), places)
    assert (step["maneuver"]["type"], step["maneuver"].get("exit"), step["name"]) == wanted
    with domethyme.Hierarchy(tmp_path / "net.rch", network=tmp_path / "net") as hierarchy:
        spots = [tuple(map(float, place.split(","))) for place in places.split(";")]
        depart, turn, arrive = hierarchy.directions(spots, turns=True).turns
        assert hierarchy.directions(spots).turns == []
    assert (turn["type"], turn.get("exit"), turn["name"]) == wanted
    assert (depart["type"], arrive["type"], arrive["metres"], depart["modifier"]) == ("depart", "arrive", 0, None)


def test_annotations(tmp_path: pathlib.Path) -> None:
    """Segments of a bend have their shares of the arc's figures, of what is driven; ids are those of nodes, and what takes no time
    has no speed."""
    lines = ((0.0, 0.0), (0.001, 0.0), (0.003, 0.0)), ((0.003, 0.0), (0.003, 0.001))
    nodes = [Node(*place, osm=number) for number, place in enumerate((*lines[0][::2], lines[1][1]), 1)]
    roads = Network(nodes, [Arc(0, 1, 9000, 9.0, 450.0, lines[0]), Arc(1, 2, 0, 0.0, 100.0, lines[1], 1)])
    write_network(Drawn(roads, roads, False), tmp_path / "net")
    found = ask(open_service(tmp_path / "net"), "/route/v1/car/0,0;0.0015,0;0.003,0.001?annotations=true")[1]
    seconds, metres = [[3.0, 1.5], [4.5, 0.0]], [[150.0, 75.0], [225.0, 100.0]]
    rows = zip(seconds, seconds, metres, [[0, 0], [0, 0]], [[50.0, 50.0], [50.0, 0.0]], [[1, 0, 0], [0, 2, 3]])
    assert [[*leg["annotation"].values()] for leg in found["routes"][0]["legs"]] == [*map(list, rows)]


@pytest.mark.parametrize("base, more, mode, side", [
    ("car", {}, "driving", "right"), ("car", {"driving_side": "left"}, "driving", "left"), ("bicycle", {}, "cycling", "right"),
    ("foot", {"driving_side": "left"}, "walking", "left"),
])
def test_what_a_profile_says_of_steps(tmp_path: pathlib.Path, base: str, more: dict[str, str], mode: str, side: str) -> None:
    """Steps have the mode and the side of the profile, where `curb` is: of a place north of a road the way on the right leads west."""
    members = json.loads((PROFILES / f"{base}.json").read_text(encoding="utf-8"))
    (tmp_path / "own.json").write_text(json.dumps({**members, **more}))
    run_tool("osm_to_gr", VILLAGE, tmp_path / "v", "--keep-islands", "--profile", tmp_path / "own.json")
    domethyme.prepare(tmp_path / "v.gr", tmp_path / "v.rch").close()
    found = ask(open_service(tmp_path / "v"), "/route/v1/car/0.003,0.00001;0.0045,0?steps=true&approaches=curb;")[1]["routes"][0]
    shown = [step for leg in found["legs"] for step in leg["steps"]]
    assert {(step["mode"], step["driving_side"]) for step in shown} == {(mode, side)}
    assert shown[0]["maneuver"]["bearing_after"] == (270 if side == "right" else 90)


def test_files_without_a_side(tmp_path: pathlib.Path) -> None:
    """A file that was made before it had one is read as of cars on the right, and one with an unknown one is refused. New speeds keep it."""
    written = net_file.write
    for number, (names, about, side) in enumerate([
        (ABOUT, {}, "right"), (ABOUT, {"driving_side": 1, "mode": 2}, "left"), (ABOUT[: ABOUT.index("driving_side")], {"driving_side": 1}, "right"),
        (ABOUT, {"driving_side": 2}, None), (ABOUT, {"mode": 3}, None), (ABOUT[:-1], {}, None),
    ]):
        def write(file: Any, arrays: Any) -> None:
            arrays.about |= about
            with mock.patch.object(net_file, "ABOUT", names):
                written(file, arrays)

        prefix = tmp_path / str(number)
        with mock.patch.object(net_file, "write", write):
            run_tool("osm_to_gr", VILLAGE, prefix)
        if side is None:
            with pytest.raises(domethyme.NetworkError, match="about has"):
                domethyme.Network(prefix).roads
            continue
        network = domethyme.Network(prefix)
        assert (network.arrays.driving_side, network.arrays.mode) == (side, "walking" if side == "left" else "driving")
        network.reweigh([], f"{prefix}-new")
        assert domethyme.Network(f"{prefix}-new").arrays.driving_side == side
