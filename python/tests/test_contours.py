"""Tests of contours: on which side of the line nodes are, that contours are valid and nested, and how they are given."""
import itertools
import json
import pathlib
import subprocess
import sys

import numpy as np
import pytest
from draws import run_tool
from reach_case import MILLI, Road, lengths, network, town_map
from shapely import vectorized
from shapely.affinity import scale, translate
from shapely.geometry import LineString, MultiLineString, MultiPolygon, Point, Polygon, box as rectangle, shape

import domethyme
from domethyme.network import contour_shapes, isochrones, net_file
from domethyme.network.contours import NONE, contours, meshes_of, nearest_levels, nearest_levels_far
from domethyme.network.geo import multi_geometry
from domethyme.network.indexes import UNITS
from domethyme.network.isochrones import Style, features
from domethyme.network.outlines import outlines
from domethyme.network.reach import DECIMALS, METRES_OF_DEGREE, Reach, Zone

pytestmark = pytest.mark.timeout(600)


@pytest.fixture(scope="module")
def made_town():
    return network(*town_map())


@pytest.fixture(scope="module")
def made_roads(tmp_path_factory):
    """Roads of 20,000 nodes as bench has them: of four kinds, with dead ends and streets of one way."""
    prefix, bench = tmp_path_factory.mktemp("roads") / "net", pathlib.Path(__file__).resolve().parents[2] / "bench"
    subprocess.run([sys.executable, bench / "make_roads.py", "20000", "7", prefix], check=True, capture_output=True)
    return net_file.read(f"{prefix}.net")


def in_plane(reach, geometry):
    """A geometry, or polygons, in metres."""
    geometry = MultiPolygon(geometry) if isinstance(geometry, list) else geometry
    return scale(translate(geometry, -reach.plane.origin / UNITS), reach.plane.east, METRES_OF_DEGREE, origin=(0, 0))


def misplaced(net, found, reach, limit, contour):
    """By the lengths alone the nodes further than a step from the line that are reached and outside, or inside and aren't."""
    area = in_plane(reach, contour.polygons)
    points = reach.plane.of(np.column_stack((net.node_lon[:], net.node_lat[:])))
    is_reached = (found >= 0) & (found <= reach.limits[limit])
    wrong = points[is_reached != vectorized.contains(area, *points.T)]
    return [point for point in wrong.tolist() if area.boundary.distance(Point(point)) > contour.step]


def are_nested(found):
    shapes = [MultiPolygon(getattr(contour, "polygons", contour)) for contour in found]
    return all(each.is_valid for each in shapes) and all(outer.covers(inner) for inner, outer in itertools.pairwise(shapes))


def check_grids(reach, found):
    """Contours are nested. The step is at most 1/200 of width and height, or half a metre; a grid has 4,000,000 points at most."""
    assert are_nested(found)
    for contour in found:
        west, south, east, north = in_plane(reach, contour.polygons).bounds
        assert contour.step <= max(0.5, min(east - west, north - south) / 200)
    assert all(mesh.points <= 4_000_000 for mesh in meshes_of(reach))


@pytest.mark.parametrize("start, minutes, towards", [
    (9000, [4, 8], False), (9000, [6], True), (100, [2, 9], True), (15000, [0.5, 5], False),
])
def test_no_node_of_a_network_is_on_the_wrong_side(made_roads, start, minutes, towards):
    found = lengths(made_roads, {start: 0}, towards)
    reach = Reach(made_roads, found, isochrones.limits(made_roads.unit, minutes), towards=towards)
    drawn = contours(reach)
    for limit, contour in enumerate(drawn):
        assert misplaced(made_roads, found, reach, limit, contour) == []
        assert 0 < np.count_nonzero((found >= 0) & (found <= reach.limits[limit])) < len(found)
    check_grids(reach, drawn)


def test_limits_that_differ_much(made_roads):
    """Some grids, one within the other: contours are nested, of one piece where their boxes meet, and drawn on the grid of
    the smallest box that they pass."""
    reach = Reach(made_roads, lengths(made_roads, {9000: 0}), isochrones.limits(made_roads.unit, [0.03, 1, 20]))
    meshes = meshes_of(reach)
    assert len(meshes) > 2 and [mesh.step for mesh in meshes] == sorted({mesh.step for mesh in meshes})
    drawn = contours(reach)
    check_grids(reach, drawn)
    assert drawn[0].step < drawn[1].step < drawn[2].step
    for mesh in meshes[:-1]:
        sides = rectangle(*mesh.shown).boundary
        assert in_plane(reach, drawn[2].polygons).boundary.intersection(sides).length < 0.05 * sides.length
    parts = [part for contour in drawn for part in in_plane(reach, contour.polygons).geoms]
    rings = [np.array(line.coords) for part in parts for line in (part.exterior, *part.interiors)]
    ends, counts = np.concatenate([np.stack((ring[:-1], ring[1:]), axis=1) for ring in rings]), []
    for mesh in meshes:
        box = mesh.shown or mesh.box
        within, around = (box.grown(by).has(ends.reshape(-1, 2)).reshape(-1, 2).all(axis=1) for by in (-0.2, 0.2))
        assert np.hypot(*(ends[within, 1] - ends[within, 0]).T).max(initial=0) < mesh.step
        counts.append(np.count_nonzero(within))
        ends = ends[~around]
    assert np.count_nonzero(counts) > 2


def test_roads_far_from_what_is_reached_change_nothing(made_roads, monkeypatch):
    """Also where a long road, a ferry say, is reached up to a place that is far from any node; nor do those in the box of a smaller
    contour, beyond its sides."""
    roads = [Road(0, 1, 500_000, 500_000), Road(2, 3, 10_000, 10_000), Road(0, 4, 1000, 1000)]
    ferry = network([(0, 0), (0.5, 0), (0.2, 0.0005), (0.21, 0.0005), (0.001, 0.001)], roads)
    for net, start, limits in (
        (made_roads, 9000, [200_000]), (made_roads, 100, [100_000, 400_000]), (made_roads, 9000, [1800, 480_000, 1_200_000]),
        (ferry, 0, [500, 205_000]),
    ):
        reach = Reach(net, lengths(net, {start: 0}), limits)
        found = [MultiPolygon(contour.polygons).wkt for contour in contours(reach)]
        with monkeypatch.context() as patched:
            everywhere = Zone.over(reach.boxes[-1].grown(5000))
            everywhere.squares[:] = True
            patched.setattr(Reach, "zone", lambda *_: everywhere)
            patched.setattr(Zone, "without", lambda zone, _: zone)
            assert found == [MultiPolygon(contour.polygons).wkt for contour in contours(reach)]


@pytest.mark.parametrize("turns", range(4))
@pytest.mark.parametrize("limits, away, allowances", [([10_000], 0.00135, [139]), ([1000, 30_000], 0.00117, [100, 200])])
def test_roads_beyond_a_grid(limits, away, allowances, turns):
    """The nearest road decides, although it lies beyond the grid, on any of its sides: a contour ends half-way between a road that
    is reached and one that isn't, 150 m away. So it does in the grid of a lesser contour, 30 m beyond which the other road is."""
    turned = [lambda x, y: (x, y), lambda x, y: (-y, x), lambda x, y: (-x, -y), lambda x, y: (y, -x)][turns]
    nodes = [turned(*place) for place in ((0, 0), (0.1, 0), (-0.1, away), (0.1, away))]
    net = network(nodes, [Road(0, 1, 100_000, 100_000), Road(2, 3, 1000, 1000)])
    drawn = contours(Reach(net, lengths(net, {0: 0}), limits))
    for contour, allowance in zip(drawn, allowances, strict=True):
        far, off = allowance / MILLI / 1000, 2 * contour.step / MILLI / 1000
        expected = {away / 2 - off: True, away / 2 + off: False, off - far: True, -off - far: False}
        area = MultiPolygon(contour.polygons)
        assert {y: area.contains(Point(turned(0.0005, y))) for y in expected} == expected


def test_nodes_that_have_lost_their_roads(tmp_path):
    """They lie beside a road that is reached, and make no holes, as their own road does."""
    (tmp_path / "nodes.csv").write_text("lon,lat\n0,0\n0.01,0\n0.004,0\n0.006,0.00001\n")
    (tmp_path / "arcs.csv").write_text("from,to,seconds,toll\n1,2,60,\n2,1,60,\n3,4,9,yes\n4,3,9,yes\n")
    run_tool("to_network", tmp_path / "nodes.csv", tmp_path / "arcs.csv", tmp_path / "net")
    for exclude, holes in (([], 1), (["toll"], 0)):
        net = domethyme.Network(tmp_path / "net", exclude=exclude).roads.arrays
        (contour,) = contours(Reach(net, np.array([0, 60_000, -1, -1]), [60_000]))
        assert len(contour.polygons[0].interiors) == holes


@pytest.mark.parametrize("radius", [1, 6, 25, 126])
def test_nearest_levels(radius):
    """By columns and rows up to a radius, and by scipy's transform, as by all points one after the other."""
    draw, bits = np.random.default_rng(radius), 2
    for share in (0.003, 0.03, 0.3):
        levels = np.where(draw.random((50, 70)) < share, draw.integers(0, 3, (50, 70)), NONE).astype(np.uint8)
        least = np.full(levels.shape, 1 << 30)
        rows, columns = np.indices(levels.shape)
        for row, column in np.argwhere(levels != NONE):
            away = (rows - row) ** 2 + (columns - column) ** 2
            least = np.minimum(least, away << bits | levels[row, column])
        found, is_near = nearest_levels(levels, radius, bits), least >> bits <= radius**2
        assert (found[is_near] == least[is_near]).all() and (found[~is_near] >> bits > radius**2).all()
        assert (nearest_levels_far(levels, bits) >> bits == least >> bits).all()


@pytest.mark.parametrize("share", [0.05, 0.4, 0.6, 0.95])
def test_outlines(share):
    """Points are on their side of them; between neighbours they pass where the value would be 0; of four points two that aren't
    neighbours are joined by the sum; and rings are as RFC 7946 has them."""
    draw = np.random.default_rng(7)
    for _ in range(30):
        size = draw.integers(1, 12, 2)
        is_inside = np.pad(draw.random(size) < share, 1)
        values = np.where(is_inside, 1, -1) * draw.choice([1, 3, 9], is_inside.shape)
        points, polygons = outlines(values.astype(np.int8))
        shapes = [Polygon(points[outer], [points[hole] for hole in holes]) for outer, *holes in polygons]
        assert MultiPolygon(shapes).is_valid
        rows, columns = np.indices(values.shape)
        assert (is_inside == np.any([vectorized.contains(each, columns, rows) for each in shapes or [Polygon()]], axis=0)).all()
        fours = values[:-1, :-1], values[:-1, 1:], values[1:, 1:], values[1:, :-1]
        (one, other, third, last), middles = (each > 0 for each in fours), (columns[:-1, :-1] + 0.5, rows[:-1, :-1] + 0.5)
        is_saddle = (one == third) & (other == last) & (one != other)
        are_joined = np.any([vectorized.contains(each, *middles) for each in shapes or [Polygon()]], axis=0)
        assert (are_joined == (sum(fours) > 0))[is_saddle].all()
        low, high = np.floor(points).astype(int), np.ceil(points).astype(int)
        (low, high), share_of_way = (values[each[:, 1], each[:, 0]] for each in (low, high)), (points - low).sum(axis=1)
        assert np.allclose(low + (high - low) * share_of_way, 0) and (low * high < 0).all()
        for each in shapes:
            assert each.exterior.is_ccw and not any(hole.is_ccw for hole in each.interiors)


@pytest.fixture(scope="module")
def drawn_town(made_town):
    """What is reached of the town within four limits, and its contours."""
    reach = Reach(made_town, lengths(made_town, {430: 0}), [60_000, 90_000, 120_000, 150_000])
    return reach, [contour.polygons for contour in contours(reach)]


@pytest.mark.parametrize("metres", [0.5, 5, 40, 300, 5000])
def test_generalize(drawn_town, metres):
    """Of the points some are left, and none of a ring that is left lies further from the line than was asked for."""
    reach, drawn = drawn_town
    found = contour_shapes.generalized(drawn, metres)
    assert are_nested(found)
    for before, after in zip(drawn, found):
        rings, left = ([set(ring) for part in parts for ring in contour_shapes.rings_of(part)] for parts in (before, after))
        assert sum(map(len, left)) < sum(map(len, rings)) and left
        line = in_plane(reach, after).boundary
        for some in left:
            (ring,) = [ring for ring in rings if some <= ring]
            assert max(line.distance(in_plane(reach, Point(point))) for point in ring) <= metres + 0.001


@pytest.mark.parametrize("metres, is_left", [(3, True), (5, False)])
def test_metres_by_which_contours_are_simplified(metres, is_left):
    """A point 4 m to the east of the line between its neighbours, where a degree is half as long to the east as to the north."""
    dent = (8 / MILLI / 1000, 60.005)
    (found,) = contour_shapes.generalized([[Polygon([(0, 60), (0.01, 60), (0.01, 60.01), (0, 60.01), dent])]], metres)
    assert (dent[1] in np.array(found[0].exterior.coords)) == is_left


@pytest.mark.parametrize("turn", range(5))
def test_lines_part_where_rings_do(turn):
    """Two rings have three points in common, of which both go on at the second, wherever a ring begins."""
    one, other = ((2, 0), (2, 1), (2, 2), (0, 2), (0, 0)), ((2, 2), (2, 1), (2, 0), (4, 0), (4, 2))
    found = contour_shapes.split_at_forks([one[turn:] + one[:turn], other])
    assert {line[0] for lines in found.values() for line in lines} == {(2, 0), (2, 2)}


def square(west, south, side, *holes):
    return rectangle(west, south, west + side, south + side).difference(MultiPolygon(holes))


LESSER = [square(1, 1, 10), square(30, 1, 3), square(36, 1, 2, square(36.5, 1.5, 1))]
GREATER = [square(0, 0, 20, square(14, 14, 4)), square(15, 15, 1), square(30, 0, 8)]


@pytest.mark.parametrize("lesser, greater, share, inner, outer", [
    *((LESSER, GREATER, *row) for row in (
        (0, [100, 9, 3], [384, 64, 1]), (0.04, [100, 9, 4], [384, 64]), (0.05, [100, 9], [400, 64]), (0.16, [100], [400, 64]),
        (0.165, [100], [400]), (1, [100], [400]),
    )),
    ([square(1, 1, 3), square(31, 1, 3)], [square(0, 0, 20), square(30, 0, 5)], 0.5, [9, 9], [400, 25]),
    ([square(1, 1, 2), square(7, 7, 1.5)], [square(0, 0, 20, square(5, 5, 5)), square(6, 6, 3)], 0.5, [4, 2.25], [400]),
    ([square(1, 1, 3)], [square(0, 0, 5), square(30, 0, 20)], 0.5, [9], [400, 25]),
])
def test_denoise(lesser, greater, share, inner, outer):
    """Parts and holes that are small beside the largest part go, but for parts around one of a lesser contour."""
    found = contour_shapes.denoised([lesser, greater], share)
    assert [sorted((part.area for part in parts), reverse=True) for parts in found] == [inner, outer] and are_nested(found)


def test_features(made_town):
    """Rings are as RFC 7946 has them, with six decimals; lines are the rings; and what is denoised is the largest part."""
    reach = Reach(made_town, lengths(made_town, {300: 0}), isochrones.limits(made_town.unit, [0.5, 1, 1.5]))
    for words in ({}, {"denoise": 1}, {"generalize": 40, "denoise": 0.5}):
        found, lines = (features(reach, [0.5, 1, 1.5], "time", Style(form, **words)) for form in ("polygons", "lines"))
        geometries = [[each["geometry"] for each in some["features"]] for some in (found, lines)]
        assert list(found) == ["type", "features"] and (len(geometries[0][0]["coordinates"]) > 1) == (not words)
        for geometry, line in zip(*geometries, strict=True):
            polygons = [geometry["coordinates"]] if geometry["type"] == "Polygon" else geometry["coordinates"]
            assert shape(geometry).is_valid and line == multi_geometry("LineString", [ring for polygon in polygons for ring in polygon])
            for part in (Polygon(outer, holes) for outer, *holes in polygons):
                assert part.exterior.is_ccw and not any(hole.is_ccw for hole in part.interiors)
            assert all(value == round(value, DECIMALS) for polygon in polygons for ring in polygon for point in ring for value in point)


def test_nothing_is_reached(made_town):
    reach = Reach(made_town, np.where(np.arange(len(made_town.node_lon)) == 7, 5000, -1), [*range(1, 126), 4999, 10_000])
    for form in ("polygons", "lines", "roads"):
        greater, *others = features(reach, range(127), "time", Style(form, generalize=5, denoise=0.5))["features"]
        assert {each["geometry"] for each in others} == {None} and greater["geometry"] is not None
        colors = [each["properties"]["color"] for each in (greater, *others)]
        assert colors == [f"#{isochrones.COLORS[place % 4]}" for place in reversed(range(127))]


def test_across_the_180th_meridian():
    """A cross of roads on the meridian has the contour of one elsewhere, in parts on both sides, with six decimals."""
    shapes, lons = [], (10.0, 180.0, 179.999)
    for lon in lons:
        places = [(lon, 0), (lon + 0.006, 0.002), (lon - 0.006, -0.002), (lon - 0.002, 0.006), (lon + 0.002, -0.006)]
        nodes = [(round((x + 180) % 360 - 180, 7), y) for x, y in places]
        net = network(nodes, [Road(0, end, 6000, 6000) for end in range(1, 5)])
        reach = Reach(net, lengths(net, {0: 0}), [2500, 5000])
        shapes.append([shape(each["geometry"]) for each in features(reach, [1, 2], "time")["features"]])
        assert all(value == round(value, DECIMALS) for line in reach.roads(1) for place in line for value in place)
    for lon, found in zip(lons[1:], shapes[1:]):
        for plain, parted in zip(shapes[0], found):
            west, east = sorted(parted.geoms, key=lambda part: part.bounds)
            assert parted.is_valid and west.bounds[0] == -180 and east.bounds[2] == 180
            assert all(value == round(value, DECIMALS) for part in (west, east) for value in np.ravel(part.exterior.coords))
            whole = MultiPolygon([east, translate(west, 360)]).buffer(1e-9)
            assert translate(plain, lon - 10).symmetric_difference(whole).area < 1e-3 * plain.area


CROSS = """\
{"type": "FeatureCollection", "features": [
{"type": "Feature", "properties": {"contour": 4, "metric": "time", "color": "#E69F00", "opacity": 0.33, "fill": "#E69F00", \
"fillColor": "#E69F00", "fill-opacity": 0.33, "fillOpacity": 0.33}, "geometry": {"type": "Polygon", "coordinates": \
[[[-0.003993, -0.000985], [-0.001003, -0.000999], [-0.000997, -0.003988], [0.001003, -0.003992], [0.001008, -0.001003], \
[0.003988, -0.000997], [0.003992, 0.001003], [0.001012, 0.001008], [0.001006, 0.003988], [-0.000994, 0.003992], \
[-0.000999, 0.001012], [-0.003988, 0.001006], [-0.003993, -0.000985]]]}}
{"type": "Feature", "properties": {"contour": 2, "metric": "time", "color": "#0072B2", "opacity": 0.33, "fill": "#0072B2", \
"fillColor": "#0072B2", "fill-opacity": 0.33, "fillOpacity": 0.33}, "geometry": {"type": "Polygon", "coordinates": \
[[[-0.001996, -0.000886], [-0.0009, -0.000904], [-0.000895, -0.001995], [0.000904, -0.001995], [0.000909, -0.000904], \
[0.001995, -0.000895], [0.001995, 0.000904], [0.000913, 0.000909], [0.000904, 0.001995], [-0.000895, 0.001995], \
[-0.000904, 0.000909], [-0.001995, 0.000904], [-0.001996, -0.000886]]]}}
], "attribution": "\\u00a9 the town"}"""


def test_a_fixed_town_byte_for_byte():
    """Four roads to the east, west, north and south, on which a thousandth of a degree takes a second, so after 2 and 4 seconds the
    arms are 0.002 and 0.004 degrees long. They are as broad as the allowance: 100 m (0.0009 degrees), and an eighth of 0.008."""
    nodes = [(0, 0), (-0.01, 0), (0.01, 0), (0, 0.01), (0, -0.01)]
    net = network(nodes, [Road(0, end, 10_000, 10_000) for end in range(1, 5)])
    reach = Reach(net, lengths(net, {0: 0}), [2000, 4000])
    found = features(reach, [2, 4], "time", Style(generalize=10, attribution=net.texts[0]))
    assert json.dumps(found) == CROSS.replace("}\n{", "}, {").replace("\n", "")
    for feature, long, broad in zip(found["features"], (0.004, 0.002), (0.001, 100 / MILLI / 1000)):
        arms = [rectangle(-long, -broad, long, broad), rectangle(-broad, -long, broad, long)]
        outline = LineString(feature["geometry"]["coordinates"][0])
        assert outline.hausdorff_distance(arms[0].union(arms[1]).boundary) < 2 / MILLI / 1000


@pytest.mark.parametrize("far, count, allowance, step", [(0.0045, 2, 125.09, 1), (0.01, 4, 200, 8), (1, 4, 2048, 1024)])
def test_allowances(far, count, allowance, step):
    """Places beside roads are inside up to an eighth of the extent, or 200 m, or two steps. A node without roads isn't, also in the
    square of one that is reached."""
    ends = [(-far, 0), (far, 0), (0, far), (0, -far)][:count]
    net = network([(0, 0), *ends, (1e-6, 1e-6)], [Road(0, end, 10_000, 10_000) for end in range(1, count + 1)])
    found = lengths(net, {0: 0})
    reach = Reach(net, found, [10_000])
    (contour,) = contours(reach)
    arms = MultiLineString([((0, 0), end) for end in ends]).buffer(allowance / MILLI / 1000)
    (outline,) = (Polygon(each.exterior).boundary for each in contour.polygons)
    assert outline.hausdorff_distance(arms.boundary) < 1.1 * step / MILLI / 1000 and contour.step == step
    assert misplaced(net, found, reach, 0, contour) == []
