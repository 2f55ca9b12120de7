"""The package on drawn networks, with and without keys: lengths, routes, tables, what is reached, nodes and frames."""
import contextlib
import itertools
import json
import math
import pathlib
import shutil
import tempfile
from collections.abc import Iterable
from typing import Any
from unittest import mock

import numpy as np
import pandas
import pytest
from draws import HEAVY, KINDS, Drawn, drawn, networks, places, write_network
from hypothesis import given
from hypothesis import strategies as st
from comparing import Near, difference, is_same_line, rings_of
from model.network import Ambiguous, Arc, Network
from model.reach import reached_lines
from model.sphere import Point, along

import domethyme
from domethyme import batch

# Kinds of keys: none, texts that programs take for something else, pairs, other nodes' numbers, and numbers beyond those of floats.
ODD = ("NA", "007", "7", "=x", "-1", "a,b", "nan", "", "None")
KEYS: dict[str, Any] = {
    "none": None, "texts": lambda node: ODD[node] if node < len(ODD) else f"key {node}",
    "pairs": lambda node: (node // 3, node % 3), "numbers": lambda node: node * 7 % 1009,
    "mixed": lambda node: [node, f"{node}", (node, 0)][node % 3], "great": lambda node: [(1 << 60) + node, node + 0.5][node % 2]
}
# What numbers of nodes may be.
NUMBERS = [int, np.int64, np.int32, np.uint32, np.uint64]
# The columns of frames of pairs.
FRAMES = {"nodes": ("from_node", "to_node"), "ends": ("from", "to"), "graph": ("source", "target")}


class Asked:
    """A hierarchy of a drawn network, and the model's nodes for the package's keys."""

    def __init__(self, made: Drawn, folder: pathlib.Path, kind: str, number: type = int) -> None:
        write_network(made, folder / "net")
        self.net, count = made.tables, len(made.tables.nodes)
        self.keys = [KEYS[kind](node) for node in range(count)] if KEYS[kind] else [*map(number, range(count))]
        self.hierarchy = domethyme.Hierarchy(folder / "net.rch", keys=self.keys if KEYS[kind] else None, network=folder / "net")
        self.lengths = [self.net.lengths({node: 0}) for node in range(count)]

    def node(self, key: Any) -> int:
        return self.keys.index(key)

    def is_route(self, keys: list[Any], source: Any, target: Any, length: int) -> bool:
        """Whether nodes lead from one to another by arcs that weigh as much together."""
        return self.net.is_path([*map(self.node, keys)], self.node(source), self.node(target), length)


def plain(found: Any) -> list[Any]:
    """The values of an array, or of an object of pandas, None for missing ones."""
    rows = np.asarray(found, object).tolist()
    return [plain(row) if isinstance(row, list) else None if row is pandas.NA else row for row in rows]


@drawn(110)
@given(st.data())
def test_lengths_routes_and_tables(data: Any) -> None:
    made, kind = data.draw(networks([*KINDS, HEAVY])), data.draw(st.sampled_from(sorted(KEYS)))
    rows = mock.patch.object(batch, "rows_at_a_time", return_value=data.draw(st.sampled_from([1, 2, 512])))
    with tempfile.TemporaryDirectory() as folder, rows:
        asked = Asked(made, pathlib.Path(folder), kind, data.draw(st.sampled_from(NUMBERS)))
        nodes = st.sampled_from(range(len(asked.keys)))
        with asked.hierarchy:
            pairs = data.draw(st.lists(st.tuples(nodes, nodes), max_size=5))
            has_arrays = kind in ("none", "texts", "numbers")  # (others can't be in an array of numpy)
            of_pairs = ["list", *["array"] * has_arrays, *FRAMES, *["index"] * (kind != "none")]
            check_pairs(asked, pairs, data.draw(st.sampled_from(of_pairs)), None if has_arrays else object)
            of_pandas = ["series", "index"] if has_arrays or kind == "pairs" else []
            forms = [data.draw(st.sampled_from(["list", "iterator", *of_pandas, *["array"] * has_arrays])) for _ in range(2)]
            sides = [data.draw(st.lists(nodes, max_size=6)) for _ in range(2)]
            check_table(asked, *sides, forms, data.draw(st.sampled_from([None, None, 0, -1, math.inf])))
            added = st.one_of(st.just(0), st.integers(0, 50_000), st.just((1 << 32) - 1))
            starts, ends = (data.draw(st.dictionaries(nodes, added, min_size=1, max_size=4)) for _ in range(2))
            check_between(asked, starts, ends, data.draw(st.sampled_from(["mapping", "rows", "alone"])))
            limit = data.draw(st.one_of(st.sampled_from([None, 0, 1 << 62]), st.integers(0, 100_000)))
            check_reach(asked, starts, limit, data.draw(st.booleans()))


def check_pairs(asked: Asked, pairs: list[tuple[int, int]], form: str, kind: Any) -> None:
    by_key = [(asked.keys[source], asked.keys[target]) for source, target in pairs]
    wanted = [asked.lengths[source].get(target) for source, target in pairs]
    assert [asked.hierarchy.length(*each) for each in by_key] == wanted
    arcs = [asked.net.fewest_arcs(*pair) for pair in pairs]
    for (source, target), length, count in zip(by_key, wanted, arcs):
        route = asked.hierarchy.route(source, target)
        assert (route is None) == (length is None)
        if route is not None:
            assert (route.source, route.target, route.length, route.arcs) == (source, target, length, count)
            assert count == len(route.nodes) - 1 and asked.is_route(route.nodes, source, target, length)
            check_line(asked, route)
    given: Any = np.array(by_key) if form == "array" else by_key
    if form == "index":
        given = pandas.Index(by_key, dtype=object, tupleize_cols=False)
    if form in FRAMES:
        index, columns = [7 * row for row in range(len(pairs))], [*FRAMES.values()][[*FRAMES].index(form) :]
        rows = [[*each, *each[::-1] * (len(columns) - 1)] for each in by_key]  # (of several names the first ones count)
        given = pandas.DataFrame(rows, columns=[*itertools.chain(*columns)], index=index, dtype=kind)
    lengths, routes = asked.hierarchy.lengths(given), asked.hierarchy.routes(given)
    filled = [[-1 if each is None else each for each in row] for row in (wanted, arcs)]
    assert [routes.lengths.tolist(), routes.arcs.tolist()] == filled
    assert plain(lengths) == (wanted if form in FRAMES else filled[0])
    for route, (source, target), length in zip(routes, by_key, wanted):
        assert len(route) == 0 if length is None else asked.is_route(route.tolist(), source, target, length)
    features, frame = asked.hierarchy.network.geojson(routes)["features"], routes.to_frame()
    shown = [[feature["properties"][name] for name in ("from", "to", "length", "arcs")] for feature in features]
    assert shown == plain(frame) == [[*pair, *figures] for pair, *figures in zip(by_key, wanted, arcs)]
    assert [feature["geometry"] is None for feature in features] == [length is None for length in wanted]
    if form in FRAMES:
        assert lengths.index.tolist() == frame.index.tolist() == index and lengths.name == "length"
    for rows in (slice(1, 3), slice(None, None, -2), slice(4, 9)):
        part, same = routes[rows], asked.hierarchy.routes(given[rows])
        assert part == same and part.to_frame().equals(same.to_frame()) and [*map(list, part)] == [*map(list, routes)][rows]
    assert [list(routes[row - len(pairs)]) for row in range(len(pairs))] == [*map(list, routes)]


def check_line(asked: Asked, route: Any) -> None:
    """The route as GeoJSON: its figures are sums over arcs, and its line is theirs."""
    network: Network = asked.net
    (feature,) = asked.hierarchy.network.geojson(route)["features"]
    line = [asked.node(key) for key in route.nodes]
    steps = [network.lightest(*step) for step in zip(line, line[1:])]
    if any(len(arcs) > 1 for arcs in steps):
        return  # (of equally light arcs any may be taken)
    arcs = [network.arcs[each] for each, *_ in steps]
    assert not difference(feature["properties"], {
        "from": route.source, "to": route.target, "length": route.length, "arcs": len(arcs),
        "seconds": Near(sum(arc.seconds for arc in arcs), 0.001) if network.has_seconds else None,
        "metres": Near(sum(arc.metres for arc in arcs), 0.011),
    })
    points, parts = [network.nodes[line[0]].place, *(point for arc in arcs for point in arc.line)], rings_of(feature["geometry"])
    assert all(abs(b[0] - a[0]) <= 180 for part in parts for a, b in zip(part, part[1:]))
    found = [point for part in parts for point in part if len(parts) == 1 or abs(point[0]) != 180]
    assert len(found) > 1 and is_same_line(found, points, 1e-6), (found, points)
    assert len({*found}) == 1 or all(one != other for one, other in zip(found, found[1:])) or len(parts) > 1


def check_table(asked: Asked, sources: list[int], targets: list[int], forms: list[str], missing: float | None) -> None:
    """Objects of pandas and lists of keys give a frame, which has its axes, and arrays an array."""
    makes: Any = {"list": list, "iterator": iter, "array": np.array, "index": pandas.Index}
    makes["series"] = lambda side: pandas.Series(side, dtype=None if side else object)
    rows, columns = ([asked.keys[node] for node in side] for side in (sources, targets))
    found = asked.hierarchy.matrix(*(makes[form](side) for form, side in zip(forms, (rows, columns))), missing=missing)
    summed = asked.hierarchy.matrix(rows, columns, missing=missing, sums=["metres"])
    is_frame = any(form in ("series", "index") or form != "array" and asked.hierarchy.keys is not None for form in forms)
    assert isinstance(found, pandas.DataFrame) == is_frame
    assert not is_frame or [(axis.tolist(), axis.nlevels) for axis in found.axes] == [(rows, 1), (columns, 1)]
    stand, none = missing if missing is not None else None if is_frame else -1, 0 if missing == 0 else math.inf
    lengths = [[asked.lengths[source].get(target) for target in targets] for source in sources]
    assert plain(found) == [[stand if length is None else length for length in row] for row in lengths]
    for table in [summed["length"], *[found] * (missing is None)]:
        floats = np.asarray(domethyme.unscaled(table), float).tolist()
        assert floats == [[none if length is None else length for length in row] for row in lengths]
    for source, row in zip(sources, np.asarray(summed["metres"], float).reshape(len(sources), len(targets)), strict=True):
        check_metres(row, targets, asked.net, asked.lengths[source], {source: 0}, math.nan if missing is None else missing)


def check_metres(
    found: Any, nodes: Iterable[int], net: Network, lengths: dict[int, int], starts: dict[int, int], missing: float = math.nan
) -> None:
    """The metres to some nodes are those along a shortest path to each."""
    millimetres = millimetres_reached(net, lengths, starts)
    for node, metres in zip(nodes, found, strict=True):
        assert round(1000 * metres) in millimetres[node] if node in lengths else np.array_equal(metres, missing, equal_nan=True)


def check_between(asked: Asked, starts: dict[int, int], ends: dict[int, int], form: str) -> None:
    """The least of all sums, from one of several nodes to one of several."""
    if form == "alone":
        starts, ends = dict.fromkeys(starts, 0), dict.fromkeys(ends, 0)
    sides: list[Any] = [{asked.keys[node]: added for node, added in side.items()} for side in (starts, ends)]
    if form != "mapping":
        sides = [list(side) if form == "alone" else list(side.items()) for side in sides]
    found, reached = asked.hierarchy.between(*sides), asked.net.lengths(starts)
    sums = [reached[node] + added for node, added in ends.items() if node in reached]
    assert (found is None) == (not sums)
    if found is not None:
        first, last = asked.node(found.source), asked.node(found.target)
        assert found.added == starts[first] + ends[last] and found.length == min(sums) == found.added + asked.lengths[first][last]
        assert asked.is_route(found.nodes, found.source, found.target, asked.lengths[first][last])
        check_line(asked, found)


def check_reach(asked: Asked, starts: dict[int, int], limit: int | None, towards: bool) -> None:
    by_key, net = {asked.keys[node]: added for node, added in starts.items()}, asked.net.turned if towards else asked.net
    found, summed = (asked.hierarchy.reach(by_key, limit, towards, sums=sums) for sums in ((), ["metres"]))
    lengths = {node: length for node, length in net.lengths(starts).items() if limit is None or length <= limit}
    is_array, count = isinstance(found, np.ndarray), len(asked.keys)
    assert plain(found) == [lengths.get(node, -1 if is_array else None) for node in range(count)]
    assert [*summed] == ["length", "metres"] and [*map(type, summed.values())] == [type(found)] * 2
    for each in (found, *summed.values()):
        assert is_array or (each.index.tolist(), each.index.nlevels) == (asked.keys, 1)
    assert plain(summed["length"]) == plain(found)
    check_metres(np.asarray(summed["metres"], float), range(count), net, lengths, starts)


def millimetres_reached(net: Network, lengths: dict[int, int], starts: dict[int, int], most: int = 12) -> dict[int, set[int]]:
    """Those along each shortest path of at most so many arcs from a start, by the node to which it leads."""
    last = {node: {0} if starts.get(node) == length else set[int]() for node, length in lengths.items()}
    found = {node: {*millimetres} for node, millimetres in last.items()}
    arcs = [arc for arc in net.arcs if arc.start in lengths and lengths[arc.start] + arc.weight == lengths.get(arc.end)]
    for _ in range(most):
        longer: dict[int, set[int]] = {node: set() for node in lengths}
        for arc in arcs:
            longer[arc.end] |= {round(1000 * arc.metres) + millimetres for millimetres in last[arc.start]}
        for node, more in longer.items():
            found[node] |= more
        last = longer
    return found


@drawn(50)
@given(st.data())
def test_ids_of_a_map(data: Any) -> None:
    """Routes begin and end at the right nodes of junctions with turn restrictions, which have one key, and stay at one."""
    made = data.draw(networks())
    rows, sides = [*enumerate(made.tables.nodes)], ("from", "to")
    begins, ends = ({node.osm: number for number, node in rows if node.ends in ("", side)} for side in sides)
    known = sorted(osm for osm in begins if osm is not None and osm in ends)
    if not known:
        return
    with tempfile.TemporaryDirectory() as folder:
        write_network(made, pathlib.Path(folder) / "net")
        network = domethyme.Network(f"{folder}/net")
        with domethyme.Hierarchy(f"{folder}/net.rch", keys=network.keys("osm"), network=network) as given:
            given.keys.save(f"{folder}/net.rch")
        with domethyme.Hierarchy(f"{folder}/net.rch", keys=domethyme.Keys.load(f"{folder}/net.rch"), network=network) as hierarchy:
            starts, targets = (data.draw(st.lists(st.sampled_from(known), min_size=1, max_size=4, unique=True)) for _ in range(2))
            lengths = {start: made.tables.lengths({begins[start]: 0}) for start in starts}
            pairs = [(start, target) for start in starts for target in targets]
            wanted = [0 if start == target else lengths[start].get(ends[target]) for start, target in pairs]
            flat, floats = ([none if each is None else each for each in wanted] for none in (-1, math.inf))
            assert [hierarchy.length(*pair) for pair in pairs] == wanted and hierarchy.lengths(pairs).tolist() == flat
            routes = hierarchy.routes(pairs)
            assert routes.lengths.tolist() == flat and routes.to_frame()[["from", "to"]].to_numpy().tolist() == [*map(list, pairs)]
            assert hierarchy.matrix(np.array(starts), np.array(targets)).ravel().tolist() == flat
            summed = hierarchy.matrix(starts, targets, sums=["metres"])
            assert domethyme.unscaled(summed["length"]).to_numpy().ravel().tolist() == floats
            assert all(summed["metres"].loc[key, key] == 0 for key in {*starts} & {*targets})
            way, there = hierarchy.between(starts, dict.fromkeys(targets, 7)), hierarchy.reach(targets, towards=True)
            assert (math.inf if way is None else way.length - 7) == min(floats)
            assert way is None or way.source in starts and way.target in targets
            least = [min(floats[row : row + len(targets)]) for row in range(0, len(floats), len(targets))]
            assert [domethyme.unscaled(there).iloc[begins[start]] for start in starts] == least
            assert there.index.tolist() == [*hierarchy.keys]


@drawn(110)
@given(st.data())
def test_places(data: Any) -> None:
    """The nearest node to a place, on either side, and the roads that are reached from one, or lead to it."""
    made = data.draw(networks(["duration", "distance"]))
    with tempfile.TemporaryDirectory() as folder:
        write_network(made, pathlib.Path(folder) / "net")
        keys = [f"key {node}" for node in range(len(made.tables.nodes))] if not made.has_keys and data.draw(st.booleans()) else None
        hierarchy = domethyme.Hierarchy(f"{folder}/net.rch", network=f"{folder}/net", keys=keys)
        spots = data.draw(places(made.roads, 4))
        for number, place in enumerate(spots):
            for side in ("from", "to"):
                check_nearest(hierarchy, made.tables, place, side)
            with_limits = {"duration": ("minutes", 60_000), "distance": ("metres", 100)}.get(made.roads.unit)
            is_flat = abs(place[1]) < 80 and all(arc.metres < 10_000 for arc in made.roads.arcs)
            for towards in (False, True) if with_limits and is_flat else ():  # (else the plane of what is reached isn't the earth)
                with contextlib.suppress(Ambiguous):
                    check_roads(hierarchy, made.roads, spots[: number + 1][-2:], *with_limits, towards)
        if made.roads.unit == "distance":
            with pytest.raises(ValueError, match="aren't a time"):
                hierarchy.reach([0], minutes=1)
            with pytest.raises(ValueError, match="is too much: lengths are asked for up to 2.62"):
                hierarchy.within(spots, metres=[250, 1e17])


def check_nearest(hierarchy: domethyme.Hierarchy, network: Network, place: Point, side: Any) -> None:
    (nodes, metres), words = network.nearest(place, side), () if side == "from" else (side,)
    if metres > 1000:
        with pytest.raises(domethyme.NoSuchNode):
            hierarchy.nearest(*place, *words)
        return
    node, away = hierarchy.nearest(*place, *words)
    number = node if hierarchy.keys is None else hierarchy.keys.node(node)
    assert number in nodes and abs(away - metres) < 1e-4 and hierarchy.network.nearest(*place, *words) == (number, away)
    assert hierarchy.nearest(*place, *words, radius=away) == (node, away)
    many, all_away = hierarchy.nearest(*(np.full((1, 2), each) for each in place), *words)
    assert many.tolist() == [[node] * 2] and all_away.tolist() == [[away] * 2]


def check_roads(hierarchy: domethyme.Hierarchy, roads: Network, where: list[Point], unit: str, factor: int, towards: bool) -> None:
    """The lines that are reached from places, or lead there, by their points; where they cross the 180th meridian by their metres."""
    radius, colors = 30.5 if towards else 1000.0, ["ffff00", "00ff00", "0000ff"]
    points = [point for place in where if (point := roads.snap(place, radius))]
    values, metric = {"minutes": ([0.1, 0.3, 600], "time"), "metres": ([70, 250, 4e16], "distance")}[unit]
    place: Any = where if len(where) > 1 else where[0]
    words: Any = {"shape": "roads", "towards": towards, "radius": radius, "colors": colors}
    if len(points) < len(where):
        with pytest.raises(domethyme.NoSuchNode):
            hierarchy.within(place, **words, **{unit: values})
        return
    given: Any = np.array(values) if towards else iter(values)
    found = json.loads(json.dumps(hierarchy.within(place, **words, **{unit: given})))["features"]
    assert [feature["properties"]["color"] for feature in found] == [f"#{color}" for color in colors[::-1]]
    for feature, value in zip(found, reversed(values), strict=True):
        said, geometry = feature["properties"], feature["geometry"]
        assert (said["contour"], said["metric"]) == (value, metric)
        lines = rings_of(geometry) if geometry else []
        expected = reached_lines(roads.turned if towards else roads, points, round(value * factor))
        if any(max(lon for lon, _ in line) - min(lon for lon, _ in line) > 180 for line in expected):
            metres = [sum(along(line)[-1] for line in some) for some in (lines, expected)]
            assert abs(metres[0] - metres[1]) <= 0.3 * (1 + len(expected))
        else:
            assert are_same_lines(lines, expected), (lines, expected)


def are_same_lines(found: list[list[Point]], expected: list[list[Point]]) -> bool:
    """Whether lines have the same points, but for such that are shown as one point."""
    left = [*found]
    for line in expected:
        same = next((each for each in left if is_same_line(each, line, 2.1e-6)), None)
        if same is not None:
            left.remove(same)
        elif along(line)[-1] > 1:
            return False
    return not left


@drawn(25)
@given(st.data())
def test_frames_keys_and_attribution(data: Any) -> None:
    """Frames are the tables, whether these lie beside the network's file, or alone, or not; and the file alone has the attribution."""
    made = data.draw(networks())
    names = [KEYS["texts"](node) for node in range(len(made.tables.nodes)) if KEYS["texts"](node)]
    made.tables.nodes[:] = [node._replace(key=name) for node, name in zip(made.tables.nodes, [*names, "last"])]
    made = made._replace(has_keys=True)
    with tempfile.TemporaryDirectory() as folder:
        path = pathlib.Path(folder)
        words = data.draw(st.sampled_from([(), ("--tables",)]))
        write_network(made, path / "net", "--attribution", "© the town", *words)
        check_frames(made, domethyme.Network(path / "net"))
        (path / "alone").mkdir()
        for suffix in ("net", "rch"):
            shutil.copy(path / f"net.{suffix}", path / f"alone/net.{suffix}")
        (path / "alone/net.gr").write_text("c attribution: © another town\np sp 1 0\n")
        assert domethyme.Network(path / "alone/net").arrays.texts[0] == "© the town"
        check_frames(made, domethyme.Network(path / "alone/net"))
        if words:
            (path / "net.net").unlink()
            check_frames(made, domethyme.Network(path / "net"))


def check_frames(made: Drawn, network: Any) -> None:
    nodes, arcs = network.nodes_frame(), network.arcs_frame()
    keys = [node.key for node in made.tables.nodes]  # (texts all, since one is no number)
    assert [*network.keys()] == keys and network.has_names and nodes.index.tolist() == [*range(len(keys))]
    assert plain(nodes[["lon", "lat", "key", "osm", "ends"]]) == [[*node] for node in made.tables.nodes]
    columns = ["from", "to", "weight", "seconds", "metres", "osm", *Arc._fields[7:], "toll", "structure"]
    wanted = [[*arc[:5], *arc[6:], "yes" if arc.way % 4 == 1 else "", ""] for arc in made.tables.arcs]
    assert plain(arcs[columns]) == wanted
    lines = [[tuple(map(float, point.split())) for point in text[12:-1].split(", ")] for text in arcs["WKT"]]
    assert lines == [list(arc.line) for arc in made.tables.arcs]
