"""Tests of draw: three streets on the equator by hand, where a thousandth of a degree is 111.195 m both ways."""
import itertools
import json
import re
import xml.etree.ElementTree as xml
from unittest import mock

import pytest
from draws import run_tool
from tool_case import VILLAGE, ToolCase, contrast

import domethyme
from domethyme import DomethymeError
from domethyme.drawing import geometry, picture, roads, routes
from domethyme.network import net_file

# High Street has two directions, and Far Road lies two hundredths of a degree in the north.
ARCS = """\
from,to,weight,seconds,metres,osm,highway,name,WKT
1,2,1,1,222.39,101,tertiary,High Street,"LINESTRING (0 0, 0.001 0, 0.002 0)"
2,1,1,1,222.39,101,tertiary,High Street,"LINESTRING (0.002 0, 0.001 0, 0 0)"
2,3,1,1,222.39,102,primary_link,Slip,"LINESTRING (0.002 0, 0.004 0)"
4,5,1,1,444.78,103,residential,Far Road,"LINESTRING (0 0.02, 0.004 0.02)"
"""
NODES = "node,osm,lon,lat\n1,,0,0\n2,,0.002,0\n3,,0.004,0\n4,,0,0.02\n5,,0.004,0.02\n"
LABEL = '</script> <b>"A" & \'B\'</b>'


def route(label, line, metres=444.78, seconds=90, steps=()):
    properties = {"trip": label, "metres": metres, "seconds": seconds, "steps": list(steps)}
    return {"type": "Feature", "properties": properties, "geometry": {"type": "LineString", "coordinates": line}}


def area(label, rings, **properties):
    return {"type": "Feature", "properties": {"trip": label, **properties}, "geometry": {"type": "Polygon", "coordinates": rings}}


STEPS = [{"name": "<High> Street", "metres": 222.39, "seconds": 40}, {"name": "", "metres": 222.39, "seconds": 50}]
EAST = route(LABEL, [[0, 0], [0.001, 0], [0.002, 0], [0.004, 0]], steps=STEPS)
WEST = route("west", [[0.002, 0], [0.001, 0], [0, 0]], metres=12345, seconds=7384)
NO_WAY = {"type": "Feature", "properties": {"trip": "nowhere", "metres": None, "seconds": None}, "geometry": None}
# A route from corner to corner and back along the others, so that each corner has a part of it.
ACROSS = [[0, 0], [0.01, 0.0056], [0, 0.0056], [0.01, 0], [0, 0]]
# A route, and what is said of it.
NO_LINE = "has no line of places"
REFUSED = [
    (7, "has no properties"), ({"type": "Feature", "geometry": None}, "has no properties"),
    ({**EAST, "geometry": {"type": "Point", "coordinates": [0, 0]}}, NO_LINE), (route("a", [[0, 0]]), NO_LINE),
    *((route("a", [[0, 0], place]), NO_LINE) for place in ([0, 91], [0, float("nan")], [-181, 0], [True, 0])),
    (route("a", ACROSS, steps=[{"name": "A"}]), "has no number metres"), (route("a", ACROSS, metres="far"), "has no number metres"),
    (route("a", ACROSS, metres=-1), "has no number metres"), (route("a", ACROSS, seconds=10**400), "has no number seconds"),
    (route("a", ACROSS, steps=["High Street"]), "has no list of steps"),
    ({**EAST, "geometry": {"type": "Polygon", "coordinates": [[[0, 0], [0.001, 0], [0, 0]]]}}, "has no polygon of places"),
]


def texts_at(picture, path="./g[@transform]/text"):
    return ["".join(element.itertext()) for element in picture.findall(path)]


def size_of(picture):
    return picture.get("width"), picture.get("height")


def lines_at(picture, path="./g[@clip-path]/g/path"):
    """Those of routes, or of other paths."""
    return [path.get("d") for path in picture.findall(path)]


def arrows_of(picture):
    return lines_at(picture, "./g[@clip-path]/path[@fill]")


def roads_in(picture, what=lambda path: path.get("d").count("M")):
    """The widths and the numbers of lines of the roads of a picture."""
    paths = picture.findall("./g[@clip-path]/path")
    return {path.get("stroke-width"): what(path) for path in paths if path.get("stroke") != "#fff"}


class Draw(ToolCase):
    def setUp(self):
        super().setUp()
        self.network(NODES, ARCS)

    def network(self, nodes, arcs):
        self.write("net.nodes.csv", nodes)
        self.write("net.arcs.csv", arcs)

    def widen(self):
        """Has a road lead on in the north, so that the network has room for routes from corner to corner."""
        self.network(f"{NODES}6,,0.012,0.02\n", f'{ARCS}5,6,1,1,9,104,residential,,"LINESTRING (0.004 0.02, 0.012 0.02)"\n')

    def drawn(self, name, *features, words=("--label", "trip"), network="net", text=""):
        """The text of a picture of the features, or of a text of routes."""
        path = self.write("routes.json", text or json.dumps({"type": "FeatureCollection", "features": features}))
        run_tool("draw", self.folder / network, path, self.folder / name, *words)
        return (self.folder / name).read_text()

    def picture_of(self, *features, **more):
        """The root of a picture of the features, without the names of its space."""
        return xml.fromstring(self.drawn("out.svg", *features, **more).replace(' xmlns="http://www.w3.org/2000/svg"', ""))

    def assert_refused_here(self, says, *features, **more):
        """Nothing is written, and an old picture stays."""
        self.write("out.svg", "as it was\n")
        with pytest.raises(DomethymeError) as caught:
            self.drawn("out.svg", *features, **more)
        assert re.search(says, str(caught.value)) and (self.folder / "out.svg").read_text() == "as it was\n", str(caught.value)

    def test_pixels_of_places(self):
        """A route of 0.004 degrees, with a tenth and 200 m, 0.0017986, on each side, in 1000 pixels; the height is 0.56 of that. At
        60 degrees 200 m are 0.0035973 degrees of longitude, and at the pole, which is drawn at 85.05 degrees, 0.020845."""
        picture = self.picture_of(EAST, words=[])
        ring, dot = picture.findall("./g[@clip-path]/circle")
        assert [circle.get(axis) for circle in (ring, dot) for axis in ("cx", "cy")] == ["261.8", "280.0", "738.2", "280.0"]
        assert (size_of(picture), lines_at(picture)[0]) == (("1000", "560"), "M261.8 280l119.1 0 119.1 0 238.2 0")
        strokes = ring.get("stroke"), picture.find("./g[@clip-path]/g/path").get("stroke")
        assert (ring.get("fill"), *strokes) == ("#fff", dot.get("fill"), dot.get("fill"))
        picture = self.picture_of(route("n", [[0, 0], [0, 0.004]]))
        assert (size_of(picture), lines_at(picture)[0]) == (("714", "1000"), "M357 737.9l0 -476.2")
        # The legend is below the map, 280 pixels high, with a margin: a row of 24, and 14. Roads are narrower, at most by a half.
        for width, size, widths in ((500, ("500", "332"), {"1.5": 1, "2.5": 1}), (200, ("200", "182"), {"0.9": 1, "1.5": 1})):
            picture = self.picture_of(EAST, words=["--width", width])
            assert (size_of(picture), roads_in(picture)) == (size, widths)
        for lat, far, line, bar, widths in ((60, 60.02, "M333.3 333.3l333.4 0", "150.0", {"1.8": 1, "3": 1}),
                                            (-90, -89.98, "M457 457l86 0", "112.1", {"1.2": 1, "1.8": 1, "3": 1})):
            nodes, arcs = NODES.replace(",0\n", f",{lat}\n").replace(",0.02\n", f",{far}\n"), ARCS.replace(" 0,", f" {lat},")
            self.network(nodes, arcs.replace(" 0)", f" {lat})").replace(" 0.02", f" {far}"))
            picture = self.picture_of(route("n", [[0, lat], [0.004, lat]]))
            assert (lines_at(picture)[0], roads_in(picture)) == (line, widths)
            assert f"h{bar}v" in picture.findall("path")[-1].get("d")  # (100 m, of 0.66687 m in a pixel, and 50 of 0.44600)

    def test_at_the_180th_meridian(self):
        """What lies on both sides of it is drawn as elsewhere, around routes and areas, or all; but roads maybe from their end."""
        def lon(east):
            return round((west + float(east) + 180) % 360 - 180, 7)

        def eastward(found):
            return f'M{float(found[1]) - float(found[3]):g} {found[2]}l{found[3]} 0"'

        pictures = []
        for west in (0, 179.997):
            nodes = re.sub(",,([^,]*)", lambda found: f",,{lon(found[1])}", NODES)
            self.network(nodes, re.sub("([0-9.]+) (?=[0-9])", lambda found: f"{lon(found[1])} ", ARCS))
            line = [[lon(east), north] for east, north in ((0.004, 0), (0.002, 0), (0, 0))]
            ring = [[lon(east), north] for east, north in ACROSS]
            features = [route("a", line), route("b", line[::-1]), area("c", [ring]), area("d", [ring[:4] + ring[:1], ring])]
            far = route("", [[lon(0), 0.02], [lon(0.0001), 0.02]])
            kinds = itertools.product((features, features[2:], [far]), ([], ["--full-network"]))
            drawn = [self.drawn("out.svg", *some, words=words) for some, words in kinds]
            pictures.append([re.sub(r'M([\d.]+) ([\d.]+)l-([\d.]+) 0"', eastward, text) for text in drawn])
        assert pictures[0] == pictures[1]

    def test_arrows(self):
        """At 65, 195, 325 and 455 of 476.4 pixels. A route of 71 pixels has none, as that at 65 would lie below its dot."""
        [arrows] = arrows_of(self.picture_of(EAST))
        assert arrows.startswith("M333.8 280.0L321.8 286.0L321.8 274.0Z") and arrows.count("Z") == 4
        [back] = arrows_of(self.picture_of(route("back", [[0.004, 0], [0, 0]])))
        assert back.startswith("M666.2 280.0L678.2 274.0L678.2 286.0Z")
        short = route("short", [[0, 0], [0.000005, 0], [0.0006, 0]])
        for features, count in (([route("stay", [[0, 0], [0, 0]])], 0), ([EAST] * 20, 20), ([EAST] * 21, 0), ([EAST, short], 1)):
            assert len(arrows_of(self.picture_of(*features))) == count
        # Points that are less than 1.5 pixels from the one before are drawn where routes have arrows.
        for count, line in ((18, "l0.6 0 70.9 0"), (20, "l71.5 0")):
            assert lines_at(self.picture_of(EAST, *[short] * count))[-1].endswith(line)

    def test_roads(self):
        """The least important are below, and left out first. The most important stay, in a picture of all the network."""
        assert roads_in(self.picture_of(EAST)) == {"1.8": 1, "3": 1}
        whole = roads_in(self.picture_of(NO_WAY))
        assert [*whole.items()] == [("1.2", 1), ("1.8", 1), ("3", 1)]
        for most, width in ((7, "0"), (6, "1.8"), (5, "1.8"), (4, "3"), (1, "3")):
            with mock.patch.object(roads, "MAX_POINTS", most):
                shown = self.picture_of(EAST, words=["--full-network"])
                assert roads_in(shown) == {each: 1 for each in whole if each >= width} and size_of(shown) == ("714", "1052")
        arcs = ARCS + ARCS.splitlines(keepends=True)[1].replace("101", "109")  # (a road in the same place is drawn once)
        for highway, width in zip("motorway trunk_link secondary tertiary_link path".split(), "3.6 3.6 2.4 1.8 1.2".split()):
            self.network(NODES, arcs.replace("tertiary", "primary").replace("primary_link", highway))
            assert roads_in(self.picture_of(EAST)) == {"3": 1, width: 1}
        # Tunnels are dashed, and below the others.
        self.network(NODES, ARCS.replace(",WKT", ",structure,WKT").replace(',"LINE', ',,"LINE').replace("Slip,,", "Slip,tunnel,"))
        dashes = roads_in(self.picture_of(EAST), lambda path: path.get("stroke-dasharray"))
        assert [*dashes.items()] == [("3", "5 4"), ("1.8", None)]

    def test_legend_and_titles(self):
        drawn = self.picture_of(EAST, WEST, NO_WAY)
        assert texts_at(drawn) == [LABEL, "0.44 km, 1.5 min", "west", "12.3 km, 2 h 3 min", "nowhere", "no path"]
        assert texts_at(drawn, "./g/g/title")[0] == f"{LABEL}: 0.44 km, 1.5 min\n<High> Street, 222 m\nunnamed road, 222 m"
        assert len(drawn.findall("./g[@transform]/circle")) == 4
        assert texts_at(self.picture_of(EAST, WEST, words=[]))[::2] == ["route 1", "route 2"]
        for label, shown in ((0, "0"), ("x" * 48, "x" * 48), ("x" * 49, "x" * 47 + "…"), ("a\x00b\ud800", "a\ufffdb\ufffd")):
            assert texts_at(self.picture_of(route(label, [[0, 0], [0.004, 0]])))[0] == shown
        for seconds, figures in ((0, "0.00 km, 0.0 min"), (None, "0.00 km")):
            drawn = self.picture_of(route("stay", [[0, 0], [0, 0]], 0, seconds))
            assert lines_at(drawn)[0].endswith("l0 0") and texts_at(drawn)[1] == figures

    def test_long_legend(self):
        """Three fifths of 1000 pixels are 25 rows of 24. Below the map, where a route would be hidden, there is room for 40."""
        self.widen()
        for feature, count, rows, last in ((NO_WAY, 40, 25, "and 16 more"), (route("", ACROSS), 20, 20, "route 20"),
                                           (route("", ACROSS), 60, 40, "and 21 more")):
            texts = texts_at(self.picture_of(*[feature] * count, words=[]))
            assert (len(texts), texts[-2]) == (2 * rows, last)

    def test_the_legend_hides_no_route_and_is_in_the_picture(self):
        """Its texts are in it, at 7.8 and 8.8 pixels a letter, and no end of a route is below it."""
        self.widen()
        lines = ACROSS, [[0, 0], [0.004, 0]], [[0, 0], [0, 0.004], [0.004, 0.004], [0.004, 0]]
        labels = "a", "a label that is rather long for any of them", LABEL
        for label, width, line in itertools.product(labels, (200, 300, 500, 1000), lines):
            picture = self.picture_of(route(label, line), words=["--label", "trip", "--width", width])
            group = picture.find("./g[@transform]")
            left, top = map(float, re.findall("[0-9.]+", group.get("transform")))
            width, height = (float(group.find("rect").get(side)) for side in ("width", "height"))
            assert left + width <= float(picture.get("width")) and top + height <= float(picture.get("height"))
            for circle in picture.findall("./g[@clip-path]/circle"):
                x, y = float(circle.get("cx")), float(circle.get("cy"))
                assert not (left <= x <= left + width and top <= y <= top + height)
            for text, said in zip(group.findall("text"), texts_at(group, "text")):
                wide = len(said) * (8.8 if text.get("font-weight") else 7.8)
                start = float(text.get("x")) - (wide if text.get("text-anchor") else 0)
                assert 0 <= start and start + wide <= width + 1, said

    def test_contrast(self):
        """Of all colours, and the more, the more important a road is."""
        strokes = roads_in(self.picture_of(NO_WAY), lambda path: path.get("stroke"))
        rising = [contrast("#fbfaf8", stroke) for stroke in strokes.values()]
        dots = {dot.get("fill") for dot in self.picture_of(*[WEST] * 8).findall("./g[@clip-path]/circle")[1::2]}
        assert len(dots) == 8 and rising == sorted(rising) and min(*rising, *(contrast("#fbfaf8", colour) for colour in dots)) >= 3

    def test_a_network_of_dimacs(self):
        """Which has small roads alone, and more than there is room for."""
        self.write("d.co", "p aux sp co 3\nv 1 0 0\nv 2 1000 0\nv 3 2000 1000\n")
        self.write("d.gr", "p sp 3 3\na 1 2 7\na 2 3 9\na 2 3 8\n")
        found = domethyme.Network(self.folder / "d.co").geojson(domethyme.Route(0, 2, 15, [0, 1, 2], [0, 1, 2]))
        text, feature = json.dumps(found), found["features"][0]
        assert feature["geometry"]["coordinates"] == [[0, 0], [0.001, 0], [0.002, 0.001]]
        assert (feature["properties"]["metres"], feature["properties"]["seconds"]) == (268.45, None)
        with mock.patch.object(roads, "MAX_POINTS", 1):
            drawn = self.picture_of(text=text, network="d.co", words=[])
        assert (roads_in(drawn), texts_at(drawn)) == ({"1.2": 2}, ["route 1", "0.27 km"])

    def test_shared_road(self):
        """Both go along High Street, so the first is wider there, and not along the slip road."""
        first, second, _ = (group.findall("path") for group in self.picture_of(EAST, WEST, NO_WAY).findall("./g/g"))
        assert [[path.get("stroke-width") for path in paths] for paths in (first, second)] == [["8.5", "4.5"], ["4.5"]]
        assert first[0].get("stroke") != second[0].get("stroke")
        drawn = self.picture_of(*[EAST] * 5)
        white = [path for path in drawn.findall("./g[@clip-path]/path") if path.get("stroke") == "#fff" and not path.get("fill")]
        for paths, widths in ((drawn.findall("./g/g/path"), (16.5, 16.5, 12.5, 8.5, 4.5)), (white, (19, 19, 15, 11, 7))):
            assert [float(path.get("stroke-width")) for path in paths] == [*widths]

    def test_attribution(self):
        """That of the network, of the routes, and of --attribution, each once."""
        assert len(self.picture_of(EAST).findall("text")) == 1
        self.write("net.gr", "c attribution: © A & OpenStreetMap\np sp 5 0\n")
        more = ["--attribution", "<tiles>"]
        for own, words, said in ((("© C\n", "© B"), more, ", © C, © B, <tiles>"), (("© A & OpenStreetMap",) * 2, [], "")):
            text = "".join(json.dumps({"type": "FeatureCollection", "attribution": each, "features": [EAST]}) for each in own)
            drawn = self.picture_of(text=text, words=words)
            assert texts_at(drawn, "text")[-1] == f"© A & OpenStreetMap{said}" and texts_at(drawn)[2] == "route 2"

    def test_areas(self):
        """By the names of their contours, or numbers, in their own colours, or the next ones, a third of each, below the roads."""
        features = [area("<b>", [ACROSS, ACROSS], contour=contour, metric=metric, fill=fill) for contour, metric, fill in (
            (1234567, "distance", "red"), (2.5, "time", "#0072b2"), (7, "weight", "#ab01234"), ("7", "time", None))]
        features[2]["geometry"] = {"type": "MultiPolygon", "coordinates": [[ACROSS, ACROSS], [ACROSS]]}
        drawn, wanted = self.picture_of(*features, words=[]), [*zip(("#0072b2", "#0072b2", *routes.COLOURS[2:4]), (2, 2, 3, 2))]
        *areas, first, second = drawn.findall("./g[@clip-path]//path")
        assert [(path.get("stroke"), path.get("d").count("Z")) for path in areas] == wanted
        assert [path.get(name) for path, name in ((first, "stroke"), (areas[1], "fill"), (areas[1], "fill-rule"))] == [
            "#8b877f", "#a8cde1", "evenodd"]
        assert texts_at(drawn)[::2] == texts_at(drawn, "./g/g/title") == ["1234567 m", "2.5 min", "7", "area 4"]
        assert [rect.get("fill") for rect in drawn.findall("./g[@transform]/rect")[1:]] == [path.get("fill") for path in areas]
        assert texts_at(self.picture_of(features[0]), "./g/g/title") == ["<b>"]
        nothing = {**NO_WAY, "properties": {"contour": 1, "metric": "time"}}
        assert texts_at(self.picture_of(features[0], nothing, words=[]))[2:] == ["1 min", "nothing"]

    def test_corners(self):
        """The legend hides the fewest points of routes, also between their own, and of roads where corners are alike."""
        def line(*places):
            return [geometry.from_mercator((x / 1000, y / 1000)) for x, y in places]

        view = geometry.View(geometry.Box(0, 0, 1, 1), 1000)
        road = roads.RoadLines(roads.ROAD_STYLES[0], None, [line((50, 30), (60, 30))])
        for places, corner in (([(950, 30)], (0, 786, 910)), ([(950, 30), (950, 940), (50, 940)], (0, 14, 14))):
            drawn = [routes.DrawnRoute("", "", "#0072b2", line=line(place)) for place in places]
            assert picture.corner_for(200, 40, drawn, [road], view) == corner
        long = routes.DrawnRoute("", "", "#0072b2", line=line((100, 1), (100, 200), (500, 900), (999, 900), (999, 1)))
        assert picture.corner_for(200, 40, [long], [], view) == (0, 786, 14)

    def test_lines_and_collection_are_one(self):
        before = self.drawn("out.svg", EAST, NO_WAY)
        line = [[*place, 7.5] for place in EAST["geometry"]["coordinates"]]
        high = {**EAST, "geometry": {"type": "MultiLineString", "coordinates": [line[:2], line[1:]]}}
        lines = f"\ufeff{json.dumps(high)}\n{json.dumps(NO_WAY)}\n"
        self.run_tool("draw", "net", "-", "out.svg", "--label", "trip", given=lines)
        assert (self.folder / "out.svg").read_text() == before

    def test_texts_that_are_refused(self):
        """And a file without a route, which isn't."""
        self.write("none", '{"type": "FeatureCollection", "features": []}')
        said = self.run_tool("draw", "net", "none", "out.svg").stderr
        assert said == "draw: none has no route: the roads alone are drawn\n"
        good = json.dumps(EAST)
        for text, says in (
            ("\n", ": is empty: a step that was to write it has failed"), ("{}", ", row 1: is neither a feature nor a collection"),
            (f"{good}\n[]\n", ", row 2: is neither"), (f"{good}\n\nroute\n", ", row 3: isn't GeoJSON"),
            ('{"type": "FeatureCollection",\n"features": [,]}', ", row 2: isn't GeoJSON"),
            *((text, ", row 1: isn't GeoJSON") for text in ("[" * 100_000, "1" * 5000))
        ):
            self.assert_refused_here(f"routes.json{says}", text=text)
        self.assert_refused_here("routes.json: feature 1 has no property name", EAST, words=["--label", "name"])
        for bad, says in REFUSED:
            self.assert_refused_here(f"routes.json: feature 2 {says}", EAST, bad)
        self.folder.joinpath("latin").write_bytes(b"\xe9")
        self.assert_refused("draw", "net", "latin", "out.svg", says="latin: isn't UTF-8")

    def test_routes_of_another_network(self):
        """One that lies elsewhere is refused, whichever it is; one that is beside a road isn't."""
        says = "feature 2 leads by .*, and the roads of .*net are from 0.0000,0.0000 to 0.0040,0.0200: is it of another network"
        near = [[lon, lat] for lon, lat in ((-0.0011, 0), (0.0051, 0), (0, -0.0011), (0, 0.0211))]
        for line in ([[9.5, 47.1], [9.6, 47.2]], *([place, [0, 0]] for place in near)):
            self.assert_refused_here(says, EAST, route("far", line))
        self.drawn("out.svg", route("beside", [[0.0049, -0.0009], [-0.0009, 0.0209]]))
        self.drawn("out.svg", area("beside", [[[0, 0], [0, 0.119], [0.103, 0.119], [0, 0]]]))
        self.assert_refused_here(says, EAST, area("far", [[[0, 0], [0, 0.121], [0.103, 0.121], [0, 0]]]))

    def test_networks_that_are_refused(self):
        self.assert_refused_here("nowhere.net: No such file", EAST, network="nowhere")
        self.assert_refused_here("net.co: No such file", EAST, network="net.co")
        self.network(NODES, ARCS.replace("LINESTRING (0.002 0, 0.004 0)", "POINT (0 0)"))
        self.assert_refused_here(r"net.arcs.csv, row 4: WKT 'POINT \(0 0\)' is no line", EAST)
        self.network(NODES, ARCS.splitlines()[0])
        self.assert_refused_here("net.arcs.csv: has 0 arcs", NO_WAY)

    def test_arguments_that_are_refused(self):
        for words in [
            [], [""], ["out.png"], ["-"], ["out.html"], *(["out.svg", "--width", width] for width in ("0", "wide", "199", "10001"))
        ]:
            with pytest.raises(SystemExit, match="2"):
                run_tool("draw", "net", *["routes"] * bool(words), *words)




A, B, C, D = (0, 0), (1, 0), (2, 0), (3, 0)
WIDE = [(0, 0), (1, 0), (2, 0), (2, 9), (9, 9)]
# By the projection of web maps 45 degrees north lie at log(1 + sqrt(2)) / (2 pi) = 0.140275 above the middle. Steps are between
# places that are rounded, so what is left out of one is in a later one. At 60 degrees a degree to the east is half as long.
GEOMETRY = [
    *((geometry.to_mercator, ([place],), [pytest.approx(point, abs=1e-4)]) for place, point in (
        ((-180, 0), (0, 0.5)), ((0, 45), (0.5, 0.359725)), ((180, -90), (1, 1)), ((0, 90), (0.5, 0)))),
    *((geometry.from_mercator, geometry.to_mercator([place]), pytest.approx(place)) for place in ((-180, 0), (20, 45), (179, -60))),
    (geometry.path_of, ([(0, 0), (0.04, 0), (0.08, 0), (0.12, -0.04)],), "M0 0l0.1 0"),
    (geometry.path_of, ([(-123_456.7, 0), (1_234_567.8, 0)],), "M-123456.7 0l1358024.5 0"),
    (geometry.overlap_pieces, ([[A, B, C, D], [C, B, A, B], [B, C]], 9),
     [[(1, [A, B]), (2, [B, C]), (0, [C, D])], [(1, [C, B]), (0, [B, A, B])], [(0, [B, C])]]),
    (geometry.overlap_pieces, ([[A, B], [A, B], [A, B], []], 1), [[(1, [A, B])], [(1, [A, B])], [(0, [A, B])], []]),
    (geometry.arrows, ([(0, 0), (10, 0), (10, 10)], 8), [((4, 0), (1, 0)), ((10, 2), (0, 1))]),
    (geometry.arrows, ([(0, 0), (0, 0), (0, -3)], 2), [((0, -1), (0, -1))]), (geometry.arrows, ([(0, 0), (0, 0)], 2), []),
    *((geometry.scale_bar_metres, (metres,), bar) for metres, bar in (
        (1, 1), (1.99, 1), (4.9, 2), (5, 5), (999, 500), (1000, 1000), (2500, 2000), (0.3, 0.2))),
    (picture.spaced, (WIDE, 1.5), [(0, 0), (2, 0), (2, 9), (9, 9)]),
    *((routes.kilometres, (metres,), text) for metres, text in (
        (999.4, "1.00 km"), (999.5, "1.00 km"), (9999, "10.00 km"), (10_000, "10.0 km"), (1e6, "1000.0 km"))),
    *((routes.minutes, (seconds,), text) for seconds, text in (
        (599.9, "10.0 min"), (600, "10 min"), (3569, "59 min"), (3570, "1 h 0 min"), (90_060, "25 h 1 min"))),
    *((routes.way_of, (metres,), text) for metres, text in ((999.4, "999 m"), (999.5, "1.00 km"), (10_000, "10.0 km"))),
]


@pytest.mark.parametrize("call, words, wanted", GEOMETRY)
def test_geometry(call, words, wanted):
    assert call(*words) == wanted


def test_views():
    """The bar is a fifth of 4.4, of 5.6 and of 55.6 km."""
    for degrees, said in ((0.04, "500 m"), (0.05, "1 km"), (0.5, "10 km")):
        view = geometry.View(geometry.box_of(geometry.to_mercator([(0, 0), (degrees, 0)])), 1000)
        assert f">{said}</text>" in "".join(picture.draw_foot("", view))


def test_roads_in_boxes(tmp_path, monkeypatch):
    """Those whose boxes meet it, wherever their points are, of the same styles as in all the network."""
    monkeypatch.setattr(roads, "PART", 3)
    run_tool("osm_to_gr", VILLAGE, tmp_path / "v", "--keep-islands")
    arrays = net_file.read(str(tmp_path / "v.net"))
    whole = roads.read_roads(arrays, None)
    for west, south, width in ((12, -1, 2), (1, 1, 58), (-61, -3, 10), (199, -351, 402), (-100, -100, 400)):
        west, south, east, north = (each / 1e4 for each in (west, south, west + width, south + width))
        found = roads.read_roads(arrays, geometry.box_of(geometry.to_mercator([(west, south), (east, north)])))
        for some, every in zip(found, whole, strict=True):
            lines = [(line, *map(min, zip(*line)), *map(max, zip(*line))) for line in every.lines]
            near = [each[0] for each in lines if each[1] <= east and each[2] <= north and each[3] >= west and each[4] >= south]
            assert sorted(some.lines) == sorted(near)
    assert sum(len(each.lines) for each in found) == sum(len(each.lines) for each in whole) > 30
