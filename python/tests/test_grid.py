"""Tests of what is derived of roads: their grid, very many near a place, what maps show, and roads over the 180th meridian."""
import collections
import itertools
import json
import math
import random
import re

import numpy as np
import pytest
from draws import Drawn, drawn, run_tool, write_network
from hypothesis import given
from hypothesis import strategies as st
from model import sphere
from model.network import Arc, Network, Node
from reach_case import MILLI, Road, arrays, network, prepared

from domethyme.network import grid, junctions, parallel, snapping, zoom_levels
from domethyme.network.geo import bearing, metres_between
from domethyme.network.indexes import bounding_box, edge_grid, edge_segments, node_degrees, node_grid
from domethyme.network.snapping import RoadIndex
from domethyme.network.sphere import great_circle_metres, nearest_on_segments, unit_vectors
from domethyme_service.tiles import Tiles

pytestmark = pytest.mark.timeout(600)
FEW = {"CHUNK_SIZE": 3, "MAX_CANDIDATES": 20, "BATCH_SIZE": 7}


def ahead(place, turn, degrees):
    """The place so many degrees of a great circle from another one, in units."""
    lat, far = np.radians(place[1]), np.radians(degrees)
    north = np.arcsin(np.clip(np.sin(lat) * np.cos(far) + np.cos(lat) * np.sin(far) * np.cos(turn), -1, 1))
    east = np.arctan2(np.sin(turn) * np.sin(far) * np.cos(lat), np.cos(far) - np.sin(lat) * np.sin(north))
    return round(math.degrees(math.remainder(math.radians(place[0]) + east, math.tau)), 7), round(math.degrees(north), 7)


@pytest.mark.parametrize("middle, wide, count", [((9, 47), 0.03, 250), ((0, 90), 0.0015, 12), ((50, -90), 0.0015, 12)])
def test_places_between_short_roads(tmp_path, middle, wide, count):
    """Roads of some 8 metres, 250 metres apart: the nearest is often not in the nearest cells, and is the model's; at a pole also
    on its other side. Places that are looked for together are found as each alone."""
    draw = random.Random(4)

    def beside():
        return ahead(middle, draw.uniform(0, math.tau), abs(draw.gauss(0, wide)))

    begins = [beside() for _ in range(count)]
    lines = [(begin, ahead(begin, math.pi if begin[1] > 0 else 0, 7e-5)) for begin in begins]
    arcs = [Arc(2 * row, 2 * row + 1, 7, 0.0, 8.0, line, row + 1) for row, line in enumerate(lines)]
    net = Network([Node(*point) for line in lines for point in line], arcs)
    write_network(Drawn(net, net, False), tmp_path / "net")
    roads, places = RoadIndex(str(tmp_path / "net")), [beside() for _ in range(60)]
    for place, spot in zip(places, roads.nearest_within(places, [math.inf] * len(places)), strict=True):
        edges = [point.edge for _, point in itertools.islice(net.by_distance(place, None), 2)]
        assert [each.edge for each in roads.nearest(place, 2)] == edges and spot.edge == edges[0], place
    assert roads.nearest_of_each(places, 3, 400.0) == [roads.nearest(place, 3, within=400.0, is_any=True) for place in places]


@pytest.mark.parametrize("long, wide, count, few", [
    (0.0024, 0.003, 58, {}), (0.3, 0.5, 16, FEW), (60, 180, 16, FEW), (0, 0.01, 10, FEW), (0, 180, 9, {})
])
def test_what_is_within_some_metres(monkeypatch, long, wide, count, few):
    """Roads of one step in all directions, of as many degrees and as far from some places, or nodes: those within some metres of a
    place are among the candidates; the nearest are found one by one and together, of equally near ones the first."""
    draw = random.Random(4)
    for name, value in few.items():
        monkeypatch.setattr(grid, name, value)

    def beside(degrees):
        middle = draw.choice([(9, 47), (180, -17), (30, 89.999), (0, -90), (0, 0)])
        return ahead(middle, draw.uniform(0, math.tau), degrees * draw.random())

    begins = [beside(wide) for _ in range(150)]
    begins += begins[:20]
    lines = [(begin, ahead(begin, draw.uniform(0, math.tau), long)) for begin in begins]
    lines[-10:] = lines[10:20]
    units = np.rint(np.array(lines).reshape(-1, 2) * 1e7).astype(np.int32)
    made = edge_grid(units, *edge_segments(np.arange(len(lines) + 1) * 2)) if long else node_grid(*units[::2].T)
    for row, middle in enumerate(made.middles(np.arange(len(made.keys))).tolist()):
        ways = [sphere.nearest_on_segment(middle, *lines[thing])[0] for thing in made.things_in(np.array([row]))]
        assert long > 1 or abs(middle[1]) > 80 or max(ways) <= made.cell_metres - made.margin
    spots = [draw.choice([beside(wide), draw.choice(lines)[draw.randrange(2)]]) for _ in range(count)]
    away = np.array([[sphere.nearest_on_segment(spot, *line)[0] for line in lines] for spot in spots])
    for spot, far in zip(spots, away):
        reach = draw.choice([0.1, sorted(far)[draw.randrange(30)]])
        which, found = made.candidates_of_each([spot, (0, 0), spot], reach)
        in_cells = made.things_in(made.cells_near(*np.array([spot]).T, np.array([reach])))
        one_by_one = np.concatenate([[-1], *made.candidates(spot, reach)])
        for things in (one_by_one, in_cells, *([found[which == 2]] if 2 in which or not few else [])):
            assert {*np.flatnonzero(far <= reach - 0.01)} <= {*things.tolist()}
    away = away.round(3)
    away[[0, -1]], away[1:-1, ::3] = np.inf, np.inf
    order = np.argsort(away, kind="stable")
    for far, spot, rows in zip(away[1:], spots[1:], order[1:]):
        count = draw.choice([1, 2, 15])
        wanted, within = [(far[row], row) for row in rows[:count] if far[row] < np.inf], far[rows[draw.randrange(4)]]
        assert made.nearest(spot, count, far.__getitem__) == wanted
        some = made.nearest(spot, count, far.__getitem__, within=within)
        assert [each for each in some if each[0] <= within] == [each for each in wanted if each[0] <= within]
    nearest, metres = made.nearest_batch(*np.array(spots).T, lambda rows, things: away[rows, things])
    assert nearest.tolist() == [-1, *order[1:-1, 0], -1] and metres.tolist() == away[range(len(spots)), order[:, 0]].tolist()


@drawn(150)
@given(st.data())
def test_steps_of_all_lengths(data):
    """The nearest point of each step beside a place, of a metre to thousands of kilometres, is the model's, whatever the others are."""
    place = data.draw(st.integers(-1800, 1800)) / 10, data.draw(st.integers(-890, 890)) / 10

    def near():
        degrees = data.draw(st.sampled_from([1e-5, 1e-3, 0.08, 0.15, 3, 40]))
        east, north = (degrees * data.draw(st.integers(-20, 20)) / 20 for _ in range(2))
        return place[0] + east, max(-90.0, min(90.0, place[1] + north))

    steps = [(near(), near()) for _ in range(data.draw(st.integers(1, 3)))]
    metres, shares = nearest_on_segments(np.array([place]), np.array(steps).swapaxes(0, 1))
    for step, away, share in zip(steps, metres, shares):
        wanted, at = sphere.nearest_on_segment(place, *step)
        most = 1e-3 + 8e-6 * min(wanted + sphere.metres_between(*step), 30_000)
        assert abs(away - wanted) <= most and 0 <= share <= 1
        found = sphere.interpolate(*step, share)
        assert abs(sphere.metres_between(place, found) - wanted) <= most, (step, share, at)


def test_the_other_side_of_the_earth():
    """It is half way round, and of a step there the end may be nearer."""
    for lat in np.arange(-89, 89, 0.37).tolist():
        place, far = (-137.41, lat), (42.59, -lat)
        both = metres_between(*place, *far), float(great_circle_metres(unit_vectors(*place), unit_vectors(*far)))
        assert both == pytest.approx([sphere.EARTH_RADIUS * math.pi] * 2)
    (metres,), shares = nearest_on_segments(np.zeros((1, 2)), np.array([[[170.0, 0.0]], [[-110.0, 0.0]]]))
    assert (metres, shares.tolist()) == (pytest.approx(sphere.EARTH_RADIUS * math.radians(110)), [1.0])


@pytest.mark.parametrize("begin, end, degrees", [
    ((0, 0), (-1e-5, 0.01), 0), ((180, 60), (-179.98, 60.01), 45), ((0, 0), (0.0158, 0.01), 58), ((0, 0), (-0.01, 0), 270)
])
def test_bearings_in_whole_degrees(begin, end, degrees):
    assert bearing(begin, end) == degrees


def test_steps_by_kind_and_cell(monkeypatch):
    """The first kind that there is is always shown, another from the zoom at which a step of it or of those before has few in its
    cell on average. The steps of a kind are in the order of their cells, and those of a cell in their own."""
    draw = np.random.default_rng(2)
    monkeypatch.setattr(zoom_levels, "MAX_PER_CELL", 4)
    monkeypatch.setattr(parallel, "SLICE_ROWS", 7)
    for count in (0, 1, 4, 8, 20, 40, 60, 80):
        kinds, edges = draw.choice(draw.integers(0, 6, 3), count), np.arange(count, dtype=np.int32)[::-1]
        codes = (draw.integers(0, 1 << 30, count) >> 2 * draw.integers(0, 14, count)) * (count > 8)
        (begins, *found), zooms = zoom_levels.sort_by_cell(
            lambda part: codes[part].astype(np.uint32), kinds[::-1].astype(np.uint8), 2 * edges[::-1], edges
        )
        rows = sorted(zip(kinds.tolist(), codes.tolist(), range(0, 2 * count, 2), edges.tolist()))
        assert [*zip(*(column.tolist() for column in found))] == [row[1:] for row in rows]
        assert begins.tolist() == [sum(row[0] < kind for row in rows) for kind in range(7)]
        least = 0
        for place, kind in enumerate(sorted({*kinds.tolist()})):
            codes_to = [code for each, code, *_ in rows if each <= kind]
            cells = [collections.Counter(code >> 2 * (15 - zoom) for code in codes_to).values() for zoom in range(15)]
            is_few = [zoom >= least and sum(each**2 for each in some) <= 4 * len(codes_to) for zoom, some in enumerate(cells)]
            least = [*is_few, True].index(True) if place else 0
            assert zooms[kind] == least


def test_bounding_box():
    """The narrowest one to a hundredth of a degree, whose east may be beyond 180."""
    draw, full = np.random.default_rng(3), 36 * 10**8
    for count in (1, 2, 2, 3, 3, 4, 8, 8):
        lons = np.append(draw.integers(-full // 2, full // 2, count, endpoint=True), [-full // 2, full // 2][: count % 3])
        lats = draw.integers(-full // 4, full // 4, len(lons))
        west, south, east, north = bounding_box(np.column_stack((lons, lats)).astype(np.int32))
        turned = np.sort((lons - west) % full)
        assert (south, north, west in lons, east in lons or east - full in lons) == (lats.min(), lats.max(), True, True)
        assert -full // 2 <= west <= full // 2 and east - west in (turned[-1], full)
        assert full - (east - west) >= np.diff(np.append(np.unique(turned), full)).max() - 10**5
    assert bounding_box(np.empty((0, 2), np.int32)) == [0, 0, 0, 0]


def test_many_edges_at_a_node(monkeypatch):
    """255 are counted, and a ring once."""
    monkeypatch.setattr(parallel, "SLICE_ROWS", 7)
    nodes = [(0, 0), *((0.01, 0.001 * row) for row in range(256))]
    roads = [*(Road(0, end, 5, 5) for end in range(1, 257)), Road(1, 1, 5, 5, ((0.02, 0), (0.02, -0.01)))]
    assert node_degrees(arrays(nodes, roads)).tolist() == [0, 255, 2, *[1] * 255]


@pytest.mark.parametrize("metres, is_end", [(0.004, True), (0.006, False)])
def test_points_near_an_end(metres, is_end):
    """One up to 5 mm from an end is the node there."""
    roads = RoadIndex(network([(0, 0), (0.001, 0)], [Road(0, 1, 5, 5)]))
    for end in (0, 1):
        (point,) = roads.nearest((abs(0.001 * end - metres / MILLI / 1000), 0))
        assert ((point.fraction, point.copies) == (end, (end,))) == is_end == (not point.arcs)


@pytest.mark.parametrize("lat, row, y", [(86, 0, 0), (-86, 31, 1024)])
def test_tiles_end_before_the_poles(tmp_path, lat, row, y):
    """A road beyond them is at their side. 10 degrees are 0.8889 of a tile from 0, and 10.5 are 0.9333."""
    tiles = Tiles(network([(10, lat), (10.5, lat * 1.04)], [Road(0, 1, 5, 5)]))
    assert [road["lines"] for road in json.loads(tiles.tile(5, 16, row))["roads"]] == [[[910, y, 46, 0]]]


def test_many_entries_of_few_things():
    """More are asked for than lie in a circle whose cells have very many entries: the search ends, and finds those beyond."""
    lines = [[(9 + number / 60_000, 47 + step * 0.003) for step in range(11)] for number in range(1000)]  # (each in ten cells)
    lines += [[(9.4 + number / 100_000, 47.2 + step / 1000) for step in range(2)] for number in range(100)]
    nodes = [end for line in lines for end in (line[0], line[-1])]
    ways = [Road(2 * row, 2 * row + 1, 5, None, tuple(line[1:-1])) for row, line in enumerate(lines)]
    roads, place, steps = RoadIndex(network(nodes, ways)), (9.0051, 47.0151), []
    assert len(roads.arrays.edge_grid.things) > grid.MAX_CANDIDATES + 1000
    for count in (1, 999, 1001, 1050, 1100):
        found = roads.nearest(place, count, lambda: steps.append(count))
        assert (len(found), len({spot.edge for spot in found})) == (count, count)
        assert [spot.metres for spot in found] == sorted(spot.metres for spot in found)
    assert len(steps) < 200
    with pytest.raises(ZeroDivisionError):
        roads.nearest(place, 1050, lambda: 1 / 0)


def test_cells_hold_their_places():
    """Each is at least as wide as its band is high, a place on the seam is beside its neighbour, and the last ones have room where they
    are packed with the greatest numbers."""
    counts = grid.columns_per_band(0.0025)
    assert (len(counts), counts[0], counts[36000], counts.max()) == (72000, counts[-1], counts[35999], 143999) and counts[0] <= 6
    keys = grid.cell_keys(np.array([180.0, -180.0, 179.9999]), np.array([0.001] * 3), 0.0025)
    assert keys.tolist() == [(36000 << 32) + 143998, 36000 << 32, (36000 << 32) + 143998]
    cells, things = np.array([36000 << 32, (36000 << 32) + 143998, 71999 << 32]), np.array([(1 << 29) - 1, 7, (1 << 29) - 2])
    made = grid.build_grid([grid.pack_keys(cells, things)], 0.0025, 1.0)
    assert (made.keys.tolist(), made.things.tolist()) == (cells.tolist(), things.tolist())
    assert min(snapping.EDGE_BITS, junctions.ROAD_BITS - 1) >= 29


def test_from_routes_to_a_picture(tmp_path):
    """A road over the 180th meridian, from 179.998 to -179.998, is 444.78 m, and in parts as GeoJSON."""
    net, routes = tmp_path / "net", tmp_path / "routes"
    with prepared([(179.998, 0), (-179.998, 0), (-179.9, 0)], [Road(0, 1, 32_024, 32_024), Road(1, 2, 784_590, None)], net) as hierarchy:
        found = hierarchy.routes([[0, 1], [1, 0]]).geojson()
    routes.write_text(json.dumps(found))
    first = found["features"][0]
    assert first["geometry"] == {"type": "MultiLineString", "coordinates": [[[179.998, 0], [180, 0]], [[-180, 0], [-179.998, 0]]]}
    assert first["properties"]["metres"] == 444.78
    run_tool("draw", net, routes, tmp_path / "out.svg")
    picture = (tmp_path / "out.svg").read_text()
    # the scale's bar is of 50 or 100 metres: the picture has the road, and not the world
    assert re.search(r">(50|100|200) m<", picture)
    assert re.search('<path stroke="#918d86" [^>]*d="([^"]*)"', picture)[1].count("M") == 2
