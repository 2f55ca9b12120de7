"""Routes, tables and tours between places on roads: by the model on drawn networks, and orders of tours by plain enumeration."""
import contextlib
import functools
import itertools
import math
import pathlib
import random
import tempfile
from typing import Any
from unittest import mock

import numpy as np
import pandas
import pytest
from comparing import difference, is_same_line, rings_of
from draws import Drawn, drawn, networks, places, run_tool, write_network
from hypothesis import given
from hypothesis import strategies as st
from model.alternatives import alternatives as every_alternative
from model.answers import Refused, figures, leg_line, straight_legs
from model.network import Ambiguous, Arc, Network, Node
from model.request import Request
from model.steps import UNITS
from reach_case import Road, network, prepared
from test_generated_service import ask, check, open_service, target
from tool_case import VILLAGE

import domethyme
from domethyme import batch, tours
from domethyme.network import directions
from domethyme.network.bearings import Approach, BearingRange, nearest_by_approach, restrict_to_bearing
from domethyme.network.geo import bearing
from domethyme.network.snapping import RoadIndex
from domethyme.protocol import FAR

pytestmark = pytest.mark.timeout(600)
SETTINGS = list(itertools.product((True, False), ("any", "first"), ("any", "last")))


@drawn(80)
@given(st.data())
def test_as_the_model(data: Any) -> None:
    made = data.draw(networks())
    spots = data.draw(places(made.roads, data.draw(st.sampled_from([1, 2, 3, 4]))))

    def for_each(*words: Any) -> Any:
        return data.draw(st.lists(st.sampled_from(words), min_size=len(spots), max_size=len(spots)))

    bearings, approaches = for_each(*[None] * 9, (0, 60), (90, 20), (270, 180), (360, 0)), for_each(None, "unrestricted", "curb")
    radiuses, snapping = for_each(*[None, 600.5, math.inf] * 12, 0, 2), data.draw(st.sampled_from(["default", "any"]))
    options: Any = {"bearings": bearings, "radiuses": radiuses, "approaches": approaches, "snapping": snapping}
    words = data.draw(st.sampled_from([(), ("--attribution", "© the town")]))
    with tempfile.TemporaryDirectory() as folder, mock.patch.object(directions, "NODE_CELLS", 8):  # (so that tables come in parts)
        write_network(made, pathlib.Path(folder) / "net", *words)
        hierarchy = domethyme.Hierarchy(f"{folder}/net.rch", network=f"{folder}/net")
        try:
            points = [
                made.roads.snap(spot, 1000.0 if radius is None else radius, each, side == "curb", snapping == "any")
                for spot, radius, each, side in zip(spots, radiuses, bearings, approaches)
            ]
            legs = {pair: made.roads.legs(*pair) for pair in itertools.product(points, repeat=2)} if all(points) else {}
        except Ambiguous:
            return
        if not all(points):
            with pytest.raises(domethyme.NoSuchNode) as raised:
                hierarchy.network.points_on_roads(spots, **options)
            assert raised.value.key == points.index(None)
            return
        snapped = hierarchy.network.points_on_roads(spots, **options)
        weights = [[least_weight(legs[start, end]) for end in points] for start in points]
        table = hierarchy.table(snapped, snapped[::-1])
        assert table.tolist() == [[-1 if weight is None else weight for weight in row[::-1]] for row in weights]
        both = hierarchy.table(snapped, snapped[::-1], sums=["metres"])
        assert both["weight"].tolist() == table.tolist()
        for (start, end), metres in zip(itertools.product(points, points[::-1]), both["metres"].ravel().tolist()):
            wanted = [sum(made.roads.arcs[arc].metres * (stop - begin) for arc, begin, stop, _ in leg) for leg in legs[start, end]]
            assert any(abs(metres - each) < 0.0012 for each in wanted) if wanted else math.isnan(metres)
        if len(spots) > 1:
            stops = sorted({0, *data.draw(st.sets(st.integers(0, len(spots) - 1))), len(spots) - 1})
            found = hierarchy.directions(spots, waypoints=stops, **options)
            check_directions(made.roads, found, points, legs, stops)
            assert found is None or found.attribution == "".join(words[1:])
            for some in (slice(3), *[slice(1, 4)] * (len(spots) > 2), slice(5)):
                check_straight(made.roads, hierarchy.directions(snapped[some], continue_straight=True), points[some])
        for setting in SETTINGS:
            words = {name: each for name, each in zip(("roundtrip", "source", "destination"), setting) if each not in (True, "any")}
            check_tour(hierarchy.tour(snapped, **words), weights, *setting)


@drawn(30)
@given(networks(), st.data())
def test_points_of_another_network(made: Any, data: Any) -> None:
    """Points within an arc that weighs more there are refused; those at nodes, or of rounded weights, mean the same."""
    heavier = [arc._replace(weight=arc.weight + 2) for arc in made.tables.arcs]
    spots = data.draw(places(made.roads, 3))
    with tempfile.TemporaryDirectory() as folder:
        write_network(made, pathlib.Path(folder) / "net")
        write_network(made._replace(tables=Network(made.tables.nodes, heavier)), pathlib.Path(folder) / "other")
        hierarchy = domethyme.Hierarchy(f"{folder}/net.rch", network=f"{folder}/net")
        others = domethyme.Network(f"{folder}/other").points_on_roads(spots, math.inf, snapping="any")
        own = hierarchy.network.points_on_roads(spots, math.inf, snapping="any")
        if any(point.arcs and (point.exits, point.entries) != (mine.exits, mine.entries) for point, mine in zip(others, own, strict=True)):
            with pytest.raises(domethyme.NetworkError, match="is a point on the roads of another network"):
                hierarchy.table(others)
        else:
            assert hierarchy.table(others).tolist() == hierarchy.table(spots, radius=math.inf, snapping="any").tolist()
        for edge in (-1, hierarchy.network.roads.edges):
            with pytest.raises(domethyme.NetworkError, match="place 1 is a point on the roads of another network"):
                hierarchy.table([own[0], own[1]._replace(edge=edge)])
        for word in ("bearings", "radiuses", "approaches"):
            with pytest.raises(ValueError, match="have no bearings, radiuses or approaches"):
                hierarchy.directions(own, **{word: [None] * len(spots)})


@st.composite
def forks(draw: Any) -> Drawn:
    """A way of three arcs, from node 0 to node 3, and others that leave it, or one another, and come back with little more weight."""
    ways, nodes, arcs = [[0, 1, 2, 3]], [(0.004 * number, 0.0) for number in range(4)], dict[tuple[int, int], int]()
    for step in itertools.pairwise(ways[0]):
        arcs[step] = draw(st.integers(300, 900))
    for number in range(1, draw(st.integers(3, 6))):
        way = draw(st.sampled_from(ways))
        begin, end = sorted(draw(st.lists(st.integers(0, len(way) - 1), min_size=2, max_size=2, unique=True)))
        whole = sum(arcs[step] for step in itertools.pairwise(way[begin : end + 1])) * draw(st.integers(101, 125)) // 100
        inner = [len(nodes), len(nodes) + 1]
        nodes += [(0.003 + 0.003 * side, 0.001 * number) for side in (0, 1)]
        new = way[begin], *inner, way[end]
        arcs |= zip(itertools.pairwise(new), (whole // 20, whole - whole // 20 * 2, whole // 20))
        ways.append([*way[:begin], *new, *way[end + 1 :]])
    rows = [Arc(*step, weight, 0.0, 100.0, (nodes[step[0]], nodes[step[1]]), row + 1) for row, (step, weight) in enumerate(arcs.items())]
    roads = Network([Node(*place) for place in nodes], rows)
    return Drawn(roads, roads, False)


@drawn(100)
@given(made=forks(), data=st.data())
def test_alternatives(made: Drawn, data: Any) -> None:
    """None of the model's other ways is missing, and they come in order; over HTTP with all that an answer has."""
    spots = [(0.001 * data.draw(st.sampled_from(shares)), 0.0) for shares in ([0.0, 0.0, 0.7, 1.9, 2.4], [12.0, 12.0, 11.2, 10.1, 9.6])]
    words = {"steps": ["true", "false"], "overview": ["full", "simplified", "false"], "annotations": ["true", "false"]}
    query = {"alternatives": "3", **{name: data.draw(st.sampled_from(texts)) for name, texts in words.items()}}
    with tempfile.TemporaryDirectory() as folder:
        write_network(made, pathlib.Path(folder) / "net")
        hierarchy = domethyme.Hierarchy(f"{folder}/net.rch", network=f"{folder}/net")
        best, *found = shown = hierarchy.alternatives(spots)
        assert best == hierarchy.directions(spots) and hierarchy.alternatives(spots, 1) == shown[:2]
        service, request = open_service(pathlib.Path(folder) / "net"), Request("route", spots, query)
        check(made, service, request, set())
        factor = UNITS.get(made.roads.unit, 1)
        routes = ask(service, target(request))[1]["routes"]
        assert [round(factor * route["weight"]) for route in routes] == [each.weight for each in shown]
    with contextlib.suppress(Ambiguous):
        net, points = made.roads, [made.roads.snap(spot, 1000.0) for spot in spots]
        for route, way in zip(found, every_alternative(net, *points), strict=True):
            (leg,), whole = route.legs, in_seconds(figures(net, way))
            assert (route.weight, leg.arcs) == (least_weight([way]), len(way))
            assert not difference({"seconds": route.seconds, "metres": route.metres}, whole)
            assert is_same_line(leg.line, leg_line(net, points[0], way, points[1]), 1.5e-6)


@pytest.mark.parametrize("ways, forks, wanted", [
    ([(1500, 500), (850, 500, 850), (1000, 500, 1000)], [(100, 400, 100)], [2000, 2100, 2200, 2500]),
    ([(1501, 499), (900, 400, 900), (1000, 501, 1000)], [(100, 400, 100)], [2000, 2200]),
    ([(1500, 500), (901, 399, 900), (1000, 501, 1000)], [(100, 400, 100)], [2000, 2100]),
    ([(1000, 1000), *[(550, middle, 550) for middle in (1300, 1000, 1200, 1100)]], [], [2000, 2100, 2200, 2300]),
])
def test_alternatives_by_hand(tmp_path: pathlib.Path, ways: list[Any], forks: list[Any], wanted: list[int]) -> None:
    """Beside a way of 2000 one of 2200, whose middle is a plateau: a fifth of 2000 is enough. A way of 2501 is too long. A fork
    leaves the first way behind 1500: so much they may have in common. The service has as many as it is asked for, between two places."""
    nodes, roads = [(0.0, 0.0), (0.02, 0.0)], []
    for number, weights in enumerate([*ways, *forks]):
        inner = [(0.02 * (place + 1) / len(weights), 0.002 * number) for place in range(len(weights) - 1)]
        line = [0 if number < len(ways) else 2, *range(len(nodes), len(nodes) + len(inner)), 1]
        nodes += inner
        roads += [Road(*step, weight, None) for step, weight in zip(itertools.pairwise(line), weights)]
    with prepared(nodes, roads, tmp_path / "net") as hierarchy:
        ends = [(0.0, 0.0), (0.02, 0.0)]
        assert [each.weight for each in hierarchy.alternatives(ends)] == wanted
        for count in (0, 1):
            assert [each.weight for each in hierarchy.alternatives(ends, count)] == wanted[: 1 + count]
        assert hierarchy.alternatives(ends[::-1]) == []
        for some, count in ((ends[:1], 3), (ends, 4), (ends, True)):
            with pytest.raises(ValueError):
                hierarchy.alternatives(some, count)
    service = open_service(tmp_path / "net")
    for asked, most in (("false", 1), ("true", 2), ("0", 1), ("1", 2), ("2", 3), ("3", 4), ("9", 4)):
        for more, count in (("", most), (";0.02,0", 1)):
            found = ask(service, f"/route/v1/car/0,0;0.02,0{more}?alternatives={asked}")[1]["routes"]
            assert [route["weight"] for route in found] == [weight / 1000 for weight in wanted[:count]]
    assert ask(service, "/health")[1].items() >= {"towards": True, "alternatives": 3}.items()


@pytest.mark.parametrize("middle, away, inside, outside", [
    (80, 10, [70, 90], [69, 91]), (355, 10, [345, 5], [344, 6]), (5, 10, [355, 15], [16]), (360, 0, [0], [1]), (90, 180, [270], []),
])
def test_ranges_of_bearings(middle: int, away: int, inside: list[int], outside: list[int]) -> None:
    """They end with the degrees that they name, also beyond north."""
    assert [*filter(BearingRange(middle, away).contains, [*inside, *outside])] == inside


def test_roads_of_a_direction_and_a_side(tmp_path: pathlib.Path) -> None:
    """The nearest road eastwards is found beyond 70 northwards. A place beyond a sharp bend to the left, given twice, is right. A direction
    is kept at the end of a road, and within one."""
    steps = [((number * 1e-5, 0.0), (number * 1e-5, 0.001)) for number in range(70)]
    steps += [((0.0, 0.002), (0.001, 0.002)), ((0.0, 0.01), (0.0017, 0.0101))]
    roads = [Road(2 * row, 2 * row + 1, 9, 9, ((0.002, 0.01),) * 2 if row == 71 else ()) for row in range(len(steps))]
    with prepared([place for step in steps for place in step], roads, tmp_path / "net") as hierarchy:
        east, bend = hierarchy.network.points_on_roads(
            [(0.0003, 0.0005), (0.0021, 0.01002)], bearings=[(90, 5), None], approaches=[None, "curb"]
        )
        assert (east.lat, {*east.exits}, {*bend.exits}, {*bend.entries}) == (0.002, {141}, {143}, {142})
        (kept,) = hierarchy.network.points_on_roads([(0.0005, 0.0019999)], 50, bearings=[(90, 5)], approaches=["curb"])
        assert {*kept.exits} == {141}
        with pytest.raises(domethyme.NoSuchNode):  # (westwards the curb is on its other side)
            hierarchy.network.points_on_roads([(0.0005, 0.0019999)], 50, bearings=[(270, 5)], approaches=["curb"])
        spots = [(0.0, 0.002), (0.0004, 0.002), (0.001, 0.002)]
        eastwards = hierarchy.network.points_on_roads(spots[0], bearings=[(90, 5)])
        assert hierarchy.table(eastwards, spots[1:]).tolist() == [[4, 9]]
        assert hierarchy.directions(spots, bearings=[None, (270, 5), None], continue_straight=True).weight == 27


def test_all_roads_of_a_direction() -> None:
    """They are those of which the direction at the nearest point is in the range, also at bends and ends, and beyond the nearest roads."""
    draw = random.Random(4)
    lines = [[(draw.randrange(40) * 1e-4, draw.randrange(40) * 1e-4) for _ in range(11)] for _ in range(12)]
    ways = [Road(2 * row, 2 * row + 1, 9, (9, None)[row % 2], tuple(line[1:-1])) for row, line in enumerate(lines)]
    roads = RoadIndex(network([end for line in lines for end in line[::10]], ways))
    for line, at in itertools.product(lines, range(11)):
        place = line[at][0] + draw.choice([0, 0, 2e-5]), line[at][1] + draw.choice([0, 0, 3e-5])
        step = draw.choice([*itertools.pairwise(draw.choice([line[max(at - 1, 0) : at + 2], draw.choice(lines)]))])
        wanted = BearingRange(bearing(*step) + draw.choice([0, 180]), draw.choice([0, 1, 20]))
        kept = [restrict_to_bearing(roads, roads.snap(place, edge), wanted) for edge in roads.nearest_edges(place, len(lines))]
        some = nearest_by_approach(roads, place, 3, Approach(wanted), math.inf)
        assert some == [point for point in kept if point is not None][:3]


def least_weight(legs: Any) -> int | None:
    return sum(part[3] for part in legs[0]) if legs else None


def check_directions(roads: Any, found: Any, points: Any, legs: Any, stops: list[int]) -> None:
    """The route has the figures and the line of some shortest path of each leg, which is one way or several from stop to stop."""
    options = [legs[pair] for pair in itertools.pairwise(points)]
    if not all(options):
        assert found is None
        return
    assert found.weight == sum(map(least_weight, options))
    for leg, (first, last) in zip(found.legs, itertools.pairwise(stops), strict=True):
        if math.prod(map(len, options[first:last])) > 200:
            continue
        fits = [
            whole for choice in itertools.product(*options[first:last]) for whole in [[*itertools.chain(*choice)]]
            if not difference({"seconds": leg.seconds, "metres": leg.metres}, in_seconds(figures(roads, *choice)))
            and leg.arcs == len(whole) and is_same_line(leg.line, leg_line(roads, points[first], whole, points[last]), 1.5e-6)
        ]
        assert fits, (leg, options[first:last])
        assert any(are_steps(roads, leg.steps, whole) for whole in fits)
    if math.prod(map(len, options)) == 1:
        whole = in_seconds(figures(roads, *(choices[0] for choices in options)))
        assert not difference({"seconds": found.seconds, "metres": found.metres}, whole)
    feature, line = found.geojson(), [point for point, _ in itertools.groupby(point for leg in found.legs for point in leg.line)]
    assert feature == found.__geo_interface__ and found.line == (line if len(line) > 1 else line * 2)
    shown = [point for part in rings_of(feature["geometry"]) for point in part if abs(point[0]) < 180]
    assert shown == [point for point in found.line if abs(point[0]) < 180]
    more = {"attribution": found.attribution} if found.attribution else {}
    assert feature["properties"] == {"weight": found.weight, "seconds": found.seconds, "metres": found.metres, **more}
    assert found.steps == [step for leg in found.legs for step in leg.steps]
    assert repr(found) == f"<Directions by {len(points)} places: {described(found)}>"
    assert [*map(repr, found.legs)] == [f"<RoadRoute: {described(leg)}, {len(leg.line)} points>" for leg in found.legs]


def described(route: Any) -> str:
    seconds = "" if route.seconds is None else f", {route.seconds:.12g} s"
    return f"weight {route.weight}, {route.metres:.12g} m{seconds}"


def are_steps(roads: Any, found: Any, parts: Any) -> bool:
    """Whether steps are the streets of some parts, with their figures."""
    names = itertools.groupby(parts, lambda part: roads.arcs[part[0]].name)
    return not difference(found, [{"name": name, **in_seconds(figures(roads, [*some]))} for name, some in names])


def check_straight(roads: Any, found: Any, points: Any) -> None:
    """The route goes on in its direction at each place within a road but the first and the last, and weighs least of all that do."""
    with contextlib.suppress(Ambiguous):
        try:
            legs, *_ = straight_legs(roads, points)
            assert found.weight == sum(part[3] for leg in legs for part in leg)
        except Refused:
            assert found is None


def in_seconds(figures: Any) -> dict[str, Any]:
    return {"seconds": figures["duration"], "metres": figures["distance"]}


def check_tour(found: Any, weights: Any, roundtrip: bool, source: str, destination: str) -> None:
    best = least_tour(weights, roundtrip, source, destination)
    assert (found is None) == (best is None)
    if found is not None:
        assert sorted(found.order) == list(range(len(weights))) and found.directions.weight == best
        assert (source == "any" or found.order[0] == 0) and (destination == "any" or found.order[-1] == len(weights) - 1)


def least_tour(weights: Any, roundtrip: bool, source: str, destination: str) -> int | None:
    last, sums = len(weights) - 1, []
    for order in itertools.permutations(range(len(weights))):
        if (source == "any" or order[0] == 0) and (destination == "any" or order[-1] == last):
            steps = [weights[start][end] for start, end in itertools.pairwise([*order, *(order[:1] if roundtrip else [])])]
            sums += [] if None in steps else [sum(steps)]
    return min(sums, default=None)


@drawn(60)
@given(st.data())
def test_orders_by_enumeration(data: Any) -> None:
    count = data.draw(st.sampled_from([1, 2, 3, 5, 7]))
    cell = st.one_of(st.integers(0, 40), st.integers(0, 40), st.just(FAR))
    lengths = np.array(data.draw(st.lists(cell, min_size=count**2, max_size=count**2)), np.int64).reshape(count, count)
    np.fill_diagonal(lengths, 0)
    weights = [[None if each == FAR else each for each in row] for row in lengths.tolist()]
    for setting in SETTINGS:
        order, best = tours.best_order(lengths, *setting), least_tour(weights, *setting)
        assert (order is None) == (best is None)
        if order is not None:
            assert sorted(order) == list(range(count)) and tours.tour_length(lengths, order, setting[0]) == best


@pytest.mark.parametrize("against", [1, 3])
def test_long_tours(against: int) -> None:
    """Of many places the tour is the same each time, and the best one around a ring, also if ways against it are thrice as long."""
    count, drawn_order = 60, np.random.default_rng(1).permutation(60)
    angles = drawn_order * math.tau / count
    chords = np.abs(np.exp(1j * angles)[:, None] - np.exp(1j * angles)[None, :])
    is_against = (drawn_order[:, None] - drawn_order[None, :]) % count < count // 2
    lengths = np.rint(chords * 10_000).astype(np.int64) * np.where(is_against, against, 1)
    orders = [tours.best_order(lengths, True, "first", "any") for _ in range(2)]
    assert orders[0] == orders[1] and orders[0][0] == 0 and sorted(orders[0]) == list(range(count))
    assert tours.tour_length(lengths, orders[0], True) == count * lengths[drawn_order == 0][0][drawn_order == 1][0]
    lengths[:, 7] = FAR
    assert tours.best_order(lengths, True, "any", "any") is None


def test_radius_and_ferries(tmp_path: pathlib.Path) -> None:
    """All calls take a radius, and places on ferries where that is said, here over the 180th meridian; also with bearings."""
    line = (179.995, 0.0), (-179.995, 0.0)
    arcs = [Arc(start, 1 - start, 7, 0.0, 9.0, line[:: 1 - 2 * start], 1, highway="ferry") for start in (0, 1)]
    roads = Network([Node(*place) for place in line], arcs)
    write_network(Drawn(roads, roads, False), tmp_path / "net")
    with domethyme.Hierarchy(tmp_path / "net.rch", network=tmp_path / "net") as hierarchy:
        places, near = [(179.997, 0.011), (-179.996, 0.0)], hierarchy.network.points_on_roads
        to_places = functools.partial(hierarchy.table, places[1:])
        aside = functools.partial(near, bearings=[(90, 20), None]), functools.partial(near, approaches=["curb", "curb"])
        for call in (hierarchy.directions, hierarchy.table, to_places, hierarchy.tour, hierarchy.alternatives, near, *aside):
            for words in ({"radius": 1300}, {"snapping": "any"}, {"radius": 1200, "snapping": "any"}):
                with pytest.raises(domethyme.NoSuchNode):
                    call(places, **words)
            assert call(places, radius=1300, snapping="any") is not None


def test_places_beyond_the_search() -> None:
    """The tour of more than twelve is nearly the best one within its bounds, the same each time, and no longer for more kicks."""
    for count, setting in itertools.product((12, 14), SETTINGS):
        lengths, orders = np.random.default_rng(count).integers(1, 1000, (count, count)), []
        for most, tour in ((tours.MAX_EXACT if count == 12 else count, None), (1, tours.Tour)):
            with mock.patch.multiple(tours, MAX_EXACT=most, Tour=tour):
                orders.append(tours.best_order(lengths, *setting))
            assert sorted(orders[-1]) == list(range(count))
            assert (setting[1] == "any" or orders[-1][0] == 0) and (setting[2] == "any" or orders[-1][-1] == count - 1)
        best, found = (tours.tour_length(lengths, order, setting[0]) for order in orders)
        assert best <= found <= 1.02 * best
    lengths, found = np.random.default_rng(1).integers(1, 1000, (90, 90)), list[int]()
    for kicks in range(0, 150, 25):
        with mock.patch.object(tours, "KICKS", kicks):
            orders = [tours.least_tour(lengths) for _ in range(2)]
        assert orders[0] == orders[1] and sorted(orders[0]) == list(range(90))
        found.append(tours.tour_length(lengths, orders[0], True))
    assert found == sorted(found, reverse=True) and found[-1] < found[0]


@pytest.fixture(scope="module")
def village(tmp_path_factory: pytest.TempPathFactory) -> Any:
    folder = tmp_path_factory.mktemp("village")
    run_tool("osm_to_gr", VILLAGE, folder / "v", "--keep-islands")
    domethyme.prepare(folder / "v.gr", folder / "v.rch").close()
    with domethyme.Hierarchy(folder / "v.rch", network=folder / "v") as hierarchy:
        yield hierarchy


PLACES = [(0.0, 0.0), (0.003, 0.0), (0.005, 0.0)]
FRAME = pandas.DataFrame([(lat, "x", lon) for lon, lat in PLACES], columns=["lat", "name", "lon"], index=["depot", "shop", "farm"])


def test_frames(village: Any) -> None:
    """A frame is as its places, and its index is that of its side of a table."""
    rows = village.table(PLACES)
    assert village.table(FRAME, FRAME.iloc[:2]).to_numpy().tolist() == rows[:, :2].tolist()
    names, sides = [*FRAME.index], ((PLACES[:2], FRAME), (FRAME.iloc[1:], PLACES), (FRAME,), (FRAME, FRAME[:2]))
    axes = [[*map(list, village.table(*side).axes)] for side in sides]
    assert axes == [[[0, 1], names], [names[1:], [0, 1, 2]], [names, names], [names, names[:2]]]
    apart = pandas.DataFrame([*PLACES[:2], (0.0203, 0.005)], columns=["lon", "lat"])
    rows, metres = village.table(apart.to_numpy(), sums=["metres"]).values()
    assert (rows < 0).any() and (np.isnan(metres) == (rows < 0)).all()
    for missing in (-5, 0, math.inf):
        tables = [village.table(apart, missing=missing), *village.table(apart, missing=missing, sums=["metres"]).values()]
        wanted = [np.where(rows < 0, missing, each).tolist() for each in (rows, rows, metres)]
        assert [each.to_numpy().tolist() for each in tables] == wanted
    assert village.directions(FRAME) == village.directions(PLACES) == village.directions(np.array(PLACES))
    assert village.directions(PLACES[:1] * 2).line == PLACES[:1] * 2


@pytest.mark.parametrize("places, words, says", [
    (PLACES[:1], {}, "two places or more"), ([(1, 2, 3)], {}, r"rows \(lon, lat\)"), ([], {}, "a place or more"),
    (FRAME[["lat"]], {}, "columns lon and lat"), (pandas.concat([FRAME, FRAME["lon"]], axis=1), {}, "lon and lat, each once"),
    (FRAME.assign(lon=pandas.array([9.5, None, 9.5], "Float64")), {}, "some are missing"), ([(200, 0)] * 2, {}, "lon has to be"),
    ([PLACES[0], (0, 80)], {}, "no road within 1000 m"), (PLACES, {"radiuses": [math.nan, None, None]}, "to be numbers, and one"),
    (PLACES, {"bearings": [(0, 10)]}, "one for each place"), (PLACES, {"bearings": [(400, 10), None, None]}, "a bearing is"),
    (PLACES, {"approaches": ["left", None, "curb"]}, "approaches are .unrestricted. or .curb., and not .left."),
    *((PLACES, {"waypoints": stops}, "waypoints have to be numbers of places that rise from 0 to the last, 2") for stops in (
        [], [0, 1], [1, 2], [0, 2, 1, 2], [0, 1, 1, 2], [0, 3], [0, 2.0], [0, None], 2
    )),
])
def test_what_is_refused(village: Any, places: Any, words: dict[str, Any], says: str) -> None:
    with pytest.raises(ValueError, match=says):
        village.directions(places, **words)


def test_limits_of_tables_and_tours(village: Any) -> None:
    for sums, what in (((), "lengths"), (["metres"], "sums")):
        with mock.patch.object(batch, "MAX_CELLS", 3), pytest.raises(domethyme.OutOfMemory, match=f"v.rch: a table of .* {what}"):
            village.table(PLACES, sums=sums)
    for act, radius in itertools.product((village.directions, village.table, village.nearest), ("5", True, None, math.nan)):
        with pytest.raises(ValueError, match="radius.* to be numbers, and one is"):
            act(*((0.0, 0.0) if act == village.nearest else [PLACES]), radius=radius)
    for spots, words, says in ((PLACES, {"source": "last"}, "source has to be"), (PLACES * 200, {}, "1 to 500 places")):
        with pytest.raises(ValueError, match=says):
            village.tour(spots, **words)
    with mock.patch.object(tours, "MAX_PLACES", 2):
        assert village.tour(PLACES[:2], roundtrip=False) is not None
        with pytest.raises(ValueError, match="has 1 to 2 places, and not 3"):
            village.tour(PLACES)
    with domethyme.Hierarchy(village.path) as alone, pytest.raises(ValueError, match="no network"):
        alone.directions(PLACES)
