"""The page that finds routes offline (domethyme_tools.page): its files, its rules beside those of the service, and in a browser."""
import base64
import contextlib
import csv
import functools
import gzip
import hashlib
import itertools
import json
import math
import os
import pathlib
import random
import re
import shutil
import struct
import subprocess

import numpy as np
import pytest
from browser import Browser
from draws import drawn, run_tool
from hypothesis import given
from hypothesis import strategies as st
from scipy.sparse.csgraph import dijkstra
from reach_case import Road, network as made_network
from tool_case import PYTHON, ROOT, TOOLS, VILLAGE
from web_case import built

import domethyme
from domethyme import HierarchyError, batch
from domethyme.network import isochrones
from domethyme.network.directions import ask_router, route_along
from domethyme.network.legs import find_leg
from domethyme.network.from_tables import load_network
from domethyme.network.snapping import RoadIndex
from domethyme.router import Router
from domethyme_service.tiles import Tiles
from domethyme_tools import page
from domethyme_tools.cli import ToolError
from domethyme_tools.page import leaflet
from domethyme_tools.page.bundle import bundled
from domethyme_tools.page.hierarchy import NO_MIDDLE, columns_of as columns_of_hierarchy
from domethyme_tools.page.network import network_bytes, preferred, split_nodes

PAGE = PYTHON / "domethyme_tools/page"
DOCUMENT = ROOT / "docs/liechtenstein.html"
# Links of a hierarchy that are arcs: start, end, weight, arcs and middle.
FIRST, SECOND = (0, 1, 5, 1, NO_MIDDLE), (1, 2, 7, 1, NO_MIDDLE)
pytestmark = [pytest.mark.xdist_group("page"), pytest.mark.timeout(3600)]  # (the library is built, which took 15 minutes once)


def run(*words, status=0, **environment):
    ended = subprocess.run([str(word) for word in words], capture_output=True, text=True, check=False, env={**os.environ, **environment})
    assert ended.returncode == status, ended.stderr
    return ended


def village_in(folder, *words):
    run(TOOLS / "osm_to_gr", VILLAGE, folder / "n", "--keep-islands", *words)
    domethyme.prepare(folder / "n.gr", folder / "n.rch", workers=1).close()
    return folder


def made_in(folder, nodes, arcs, *words, name="n"):
    """The folder with a network of the rows of tables, and its hierarchy."""
    heads = {"nodes": ["node", "lon", "lat"], "arcs": ["from", "to", "oneway", "weight", "highway", "name", "WKT"]}
    for table, rows in (("nodes", nodes), ("arcs", arcs)):
        with open(folder / f"t.{table}.csv", "w", newline="") as file:
            csv.writer(file).writerows([heads[table], *rows])
    run(TOOLS / "to_network", folder / "t.nodes.csv", folder / "t.arcs.csv", folder / name, *words)
    domethyme.prepare(folder / f"{name}.gr", folder / f"{name}.rch", workers=1).close()
    return folder


@pytest.fixture(scope="module", params=["car", "metres", "weights"])
def network(request, tmp_path_factory):
    """A folder with the network n and its hierarchy n.rch: the village by time and by length, and a grid of weights alone over the
    180th meridian, with bends, one-way roads and ferries, and a ring at each node."""
    folder = tmp_path_factory.mktemp("page")
    if request.param != "weights":
        return village_in(folder, *["--weight", "length"] * (request.param == "metres"))
    draw, arcs, grid = random.Random(2), [], [*itertools.product(range(12), repeat=2)]
    places = {(x, y): (round(((x - 6) / 500 + draw.gauss(0, 2e-4)) % 360 - 180, 7), round(60 + y / 900, 7)) for x, y in grid}
    for (x, y), (lon, lat) in places.items():
        for other in sorted({(x + 1, y), (x, y + 1)}.intersection(grid)):
            line = (lon, lat), (lon, lat + draw.gauss(0, 3e-4)), places[other]
            wkt = ", ".join(f"{east:.7f} {north:.7f}" for east, north in line)
            figures = draw.randrange(2), draw.randrange(1, 5000), draw.choice(["ferry", *["primary"] * 4]), f"Way {x}"
            arcs.append((grid.index((x, y)), grid.index(other), *figures, f"LINESTRING ({wkt})"))
        moves, node = ((0, 0), (2, 3), (4, 2), (0, 0)), grid.index((x, y))
        ring = ", ".join(f"{(lon + east / 1e4 + 180) % 360 - 180:.7f} {lat - south / 1e4:.7f}" for east, south in moves)
        arcs.append((node, node, 0, draw.randrange(500, 5000), "primary", "Ring", f"LINESTRING ({ring})"))
    return made_in(folder, [(node, *place) for node, place in enumerate(places.values())], arcs)


def places_near(roads: RoadIndex, count: int, seed: int = 5) -> list[tuple[float, float]]:
    """Places beside points of roads, and some on them."""
    draw, found = random.Random(seed), []
    for _ in range(count):
        lon, lat = (np.asarray(roads.arrays.points[draw.randrange(len(roads.arrays.points))]) / 1e7).tolist()
        spread = draw.choice((0, 0.0002, 0.003))
        found.append(((lon + draw.gauss(0, spread) + 180) % 360 - 180, lat + draw.gauss(0, spread)))
    return found


def asked_of_page(folder, tmp_path, **question):
    for file in [*PAGE.glob("*.js"), pathlib.Path(__file__).parent / "web/roads.mjs", built() / "domethyme.js"]:
        shutil.copy(file, tmp_path)
    (tmp_path / "package.json").write_text('{"type": "module"}')
    (tmp_path / "network").write_bytes(network_bytes(load_network(str(folder / "n"))))
    files = {"library": str(built() / "domethyme.wasm"), "network": str(tmp_path / "network"), "hierarchy": str(folder / "n.rch")}
    ran = subprocess.run(["nodejs", tmp_path / "roads.mjs"], input=json.dumps({**files, **question}), capture_output=True, text=True, check=False)
    assert ran.returncode == 0, ran.stderr
    return json.loads(ran.stdout)


def hierarchy_of_page(columns: bytes, tmp_path) -> bytes:
    (tmp_path / "columns").write_bytes(columns)
    script = ("import(process.argv[1]).then(({ hierarchyBytes }) => "
              "process.stdout.write(hierarchyBytes(new Uint8Array(require('fs').readFileSync(process.argv[2])))))")
    module = shutil.copy(PAGE / "hierarchy.js", tmp_path / "hierarchy.mjs")
    words = ["nodejs", "-e", script, f"file://{module}", tmp_path / "columns"]
    return subprocess.run(words, check=True, capture_output=True).stdout


def test_junctions_in_one_place():
    """Two of them, split by turn restrictions, whose ids differ, as where two roads cross on two levels."""
    nodes = [(0, 0), *((0.001, 0, end, osm) for osm in (7, 8) for end in ("from", "to"))]
    split, groups = split_nodes(made_network(nodes, [Road(0, 2, 5, None), Road(3, 0, 5, None)]))
    assert split.tolist() == [1, 2, 3, 4] and groups[0] == groups[1] != groups[2] == groups[3]


def length_of(lines) -> float:
    return sum(math.dist(begin, end) for line in lines for begin, end in itertools.pairwise(line) if abs(begin[0] - end[0]) < 180)


@pytest.mark.needs("nodejs")
@pytest.mark.needs("wasm-opt")
@pytest.mark.needs("wasm-objdump")
class TestRules:
    """Nearest roads, parts of arcs, streets, reach and tiles are those of the service, and the hierarchy is the file's."""

    def test_hierarchy_in_the_page(self, network, tmp_path):
        """And those without links."""
        data = (network / "n.rch").read_bytes()
        assert len(columns_of_hierarchy(data, "n.rch")) < 0.75 * len(data)
        for each in (data, *(b"RCH2" + count.to_bytes(4, "big") + bytes(16 + 4 * count) for count in (0, 1))):
            assert hierarchy_of_page(columns_of_hierarchy(each, "n.rch"), tmp_path) == each

    def test_routes_as_the_library_has_them(self, network, tmp_path):
        roads, router = RoadIndex(str(network / "n")), Router((network / "n.rch").read_bytes(), "n.rch")
        places = places_near(roads, 300)
        pairs = list(zip(places[::2], places[1::2]))
        found = asked_of_page(network, tmp_path, pairs=pairs, limits=[1], tiles=[])["routes"]
        several = 0
        for (begin, end), answer in zip(pairs, found, strict=True):
            points = [roads.nearest(place)[0] for place in (begin, end)]
            for ours, theirs in zip(answer["points"], points):
                assert (ours["edge"], ours["name"]) == (theirs.edge, theirs.name)
                assert ours["metres"] == pytest.approx(theirs.metres, abs=2e-6)
                assert ours["fraction"] == pytest.approx(theirs.fraction, abs=1e-9)
                assert math.dist(ours["location"], (theirs.lon, theirs.lat)) < 1.5e-6
            leg = find_leg(functools.partial(ask_router, router), roads, *points)
            assert (leg is None) == (answer["leg"] is None)
            if leg is None:
                continue
            wanted, ours = route_along(roads, points, [leg]), answer["leg"]
            assert ours["length"] == wanted.weight
            assert ours["duration"] == pytest.approx(wanted.seconds, abs=0.002) if roads.has_seconds else ours["duration"] is None
            assert ours["distance"] == pytest.approx(wanted.metres, abs=0.02)
            if wanted.steps:
                assert [step["name"] for step in ours["steps"]] == [step["name"] for step in wanted.steps]
                assert [step["distance"] for step in ours["steps"]] == pytest.approx([step["metres"] for step in wanted.steps], abs=0.02)
                several += len(wanted.steps) > 1
            line = [point for step in ours["steps"] for point in step["geometry"]["coordinates"]]
            assert (line[0], line[-1]) == tuple(each["location"] for each in answer["points"])
            assert length_of([line]) == pytest.approx(length_of([wanted.line]), abs=2e-5)
        assert several > 20

    def test_reach_as_the_library_has_it(self, network, tmp_path):
        roads, router = RoadIndex(str(network / "n")), Router((network / "n.rch").read_bytes(), "n.rch")
        places, limits = places_near(roads, 25, 6), [500, 20_000, 60_000]
        found = asked_of_page(network, tmp_path, pairs=[(place, place) for place in places], limits=limits, tiles=[])["reached"]
        for place, answer in zip(places, found, strict=True):
            reach = isochrones.reach_of(roads, [roads.nearest(place)[0]], limits, lambda starts, most: batch.reach(router, starts, most))
            for number, lines in enumerate(answer):
                assert length_of(lines) == pytest.approx(length_of(reach.roads(number)), abs=1e-5 + 2e-6 * len(lines))

    def test_tiles_as_the_service_has_them(self, network, tmp_path):
        """The same steps of roads by kind and name as the service's, at zooms with names; without, fewer repeated ones."""
        arrays = load_network(str(network / "n"))
        tiles, (west, south, east, north) = Tiles(arrays), arrays.box
        def tile(zoom, lon, lat):
            y = 0.5 - math.asinh(math.tan(math.radians(lat))) / (2 * math.pi)
            return f"{zoom}/{int((lon / 360 + 0.5) % 1 * 2**zoom)}/{int(y * 2**zoom)}"

        corners = itertools.product((0, 3, 9, 14, 15, 16), (west, (west + east) / 2, east - 1e-6), (south, (south + north) / 2, north))
        keys = sorted({tile(*corner) for corner in corners})
        found = asked_of_page(network, tmp_path, pairs=[], limits=[1], tiles=keys)["tiles"]

        def steps(answer):
            for road in answer["roads"]:
                for number, line in enumerate(road["lines"]):
                    places = list(zip(itertools.accumulate(line[::2]), itertools.accumulate(line[1::2])))
                    for pair in itertools.pairwise(places):
                        yield road["kind"], road["names"][road["name"][number]] if "names" in road else None, frozenset(pair)

        total = 0
        for key, answer in zip(keys, found, strict=True):
            wanted = set(steps(json.loads(tiles.tile(*map(int, key.split("/"))))))
            assert len(wanted ^ set(steps(answer))) <= (2 + len(wanted) // 50 if key != "0/0/0" else 0), key
            total += len(wanted)
        assert total > 100


@pytest.fixture
def browser():
    browser = Browser()
    browser.call("Network.emulateNetworkConditions", offline=True, latency=0, downloadThroughput=0, uploadThroughput=0)
    yield browser
    browser.close()


def opened(browser, page, fragment="", **window):
    browser.open(f"file://{page}{fragment}", **window)
    browser.until("main_js && document.getElementById('scale').textContent !== '' && document.getElementById('hint').textContent !== ''")
    browser.until("document.getElementById('credit').textContent !== '' || document.getElementById('fault').textContent !== ''")


def text_of(browser, name):
    return browser.value(f"document.getElementById('{name}').textContent")


def asked_routes(browser, pairs):
    script = f"Promise.all({json.dumps(pairs)}.map((places) => service_js.service.route(places).catch((error) => error.code)))"
    return browser.value(script)


def quiet(browser):
    """The console has no error, and nothing was asked of a network."""
    assert not browser.faults and all(each.startswith(("file:", "blob:", "about:", "data:")) for each in browser.asked)


@pytest.fixture(scope="module")
def village(tmp_path_factory):
    folder = village_in(tmp_path_factory.mktemp("village"))
    run(TOOLS / "page", folder / "n", folder / "n.rch", folder / "page.html", "--library", built())
    return folder


@pytest.mark.needs("chromium")
@pytest.mark.needs("wasm-opt")
@pytest.mark.needs("wasm-objdump")
class TestInABrowser:
    @pytest.mark.parametrize("width, height", [(1280, 800), (390, 780), (820, 1180), (1920, 1080)])
    def test_a_route_by_clicks(self, village, browser, width, height):
        """Two clicks on High Street: from 1 to 3 they are 4 steps, of 111.195 m, at 50 km/h by its profile."""
        opened(browser, village / "page.html", width=width, height=height, is_dark=width < 600)
        assert text_of(browser, "credit") == load_network(str(village / "n")).texts[0]
        for lon in (0.0005, 0.0035):
            browser.click(browser.pixel(lon, 0.00002))
        browser.until("document.getElementById('total').textContent !== ''")
        roads, router = RoadIndex(str(village / "n")), Router((village / "n.rch").read_bytes(), "n")
        spots = browser.value("main_js.then(({places}) => places.all)")
        points = [roads.nearest(tuple(spot))[0] for spot in spots]
        route = route_along(roads, points, [find_leg(functools.partial(ask_router, router), roads, *points)])
        [leg] = asked_routes(browser, [spots])[0]["routes"][0]["legs"]
        assert (leg["length"], len(leg["steps"]), len(route.steps)) == (route.weight, 1, 1)
        assert leg["steps"][0]["name"] == route.steps[0]["name"] == "High Street"
        shown = browser.value("[...document.querySelectorAll('#steps .text')].map((each) => each.textContent)")
        assert shown == ["Start: High Street"]
        assert re.fullmatch(r"< 1 min3\d0 m", text_of(browser, "total")), text_of(browser, "total")
        assert browser.value("document.documentElement.scrollWidth <= innerWidth")
        quiet(browser)

    def test_keyboard_drag_and_reach(self, village, browser):
        opened(browser, village / "page.html", "#0.0005,0.00002;0.0035,0.00002")
        browser.until("document.getElementById('total').textContent !== ''")
        browser.value("document.querySelector('#marks button').focus()")
        before = browser.value("location.hash")
        browser.press("ArrowRight")
        browser.until(f"location.hash !== {json.dumps(before)}")
        browser.drag(browser.pixel(0.002, 0), browser.pixel(0.002, 0.001))
        browser.until("document.querySelectorAll('#places li').length === 3")
        browser.value("document.querySelector('#marks button').focus()")
        browser.press("Delete")
        browser.until("document.querySelectorAll('#places li').length === 2")
        browser.value("document.querySelector('#modes [value=reach]').click()")
        browser.until("document.querySelectorAll('#legend li').length === 3")
        found = json.loads(browser.value("main_js.then(({reach}) => JSON.stringify(reach.found))"))
        assert [each["properties"]["contour"] for each in found["features"]] == [15, 10, 5]
        browser.until("""(() => { const canvas = document.getElementById('reach');
            return canvas.getContext('2d').getImageData(0, 0, canvas.width, canvas.height).data.some((value) => value); })()""")
        quiet(browser)

    def test_lengths_are_the_services(self, village, browser):
        """And so is what has no route. What it offers is less: round trips and what leads to a place are the service's alone."""
        roads, router = RoadIndex(str(village / "n")), Router((village / "n.rch").read_bytes(), "n")
        pairs = [*itertools.pairwise(places_near(roads, 50, 9))]
        pairs += [(far, (0.0005, 0)) for far in ((0, 0.015), (20, 10), (-170, -60), (180, 0), (0, 90))]
        opened(browser, village / "page.html", "#0.0005,0;0.5,0.5")
        browser.until("document.getElementById('fault').textContent !== ''")
        assert text_of(browser, "fault") == "There is no road near the destination. Move it nearer to a road."
        browser.value("location.hash = '#0.0005,0;0.0205,0.005'")
        browser.until("document.getElementById('fault').textContent.includes('There is no route between these places')")
        for pair, answer in zip(pairs, asked_routes(browser, pairs), strict=True):
            points = [roads.nearest(place)[0] for place in pair]
            leg = find_leg(functools.partial(ask_router, router), roads, *points)
            wanted = "NoSegment" if max(point.metres for point in points) > 1000 else leg.weight if leg else "NoRoute"
            assert (answer if isinstance(answer, str) else answer["routes"][0]["legs"][0]["length"]) == wanted
        shown = "[...document.querySelectorAll('#modes label')].filter((each) => !each.hidden).map((each) => each.textContent.trim())"
        assert browser.value(shown) == ["Route", "Isochrones"]
        text = " ".join(text_of(browser, "panel").split())
        for part in ("from a library that a checker has proved", "Not proved, but tested: the nearest road",
                     "Trusted: how the library was made WebAssembly, and the browser."):
            assert part in text
        quiet(browser)


def unpacked(page: str, name: str) -> bytes:
    return gzip.decompress(base64.b64decode(re.search(rf'id="{name}">([^<]*)</script>', page)[1]))


def columns_of(data: bytes) -> tuple[dict, dict[str, np.ndarray]]:
    """The head and the columns of a page's network, by its description in network.py."""
    size = int.from_bytes(data[:4], "little")
    about, at, found = json.loads(data[4 : 4 + size]), 4 + size, {}
    for name, kind, count in about["columns"]:
        at += -at % 8
        found[name] = np.frombuffer(data, {"i4": "<i4", "u4": "<u4", "u1": "u1", "f4": "<f4"}[kind], count, at)
        at += found[name].nbytes
    return about, found


@pytest.mark.needs("chromium")
def test_the_documents_routes_are_right(browser):
    """By a plain search of the network that is in the page, which packaging/page_anew compares with a new one."""
    assert DOCUMENT.stat().st_size < 1_000_000
    about, columns = columns_of(unpacked(DOCUMENT.read_text(encoding="utf-8"), "network"))
    starts = np.cumsum(columns["arcFrom"])
    ends, weights = starts + columns["arcTo"], np.full((2991, 2991), np.inf)
    np.minimum.at(weights, (starts, ends), columns["arcWeight"])
    assert about["nodes"] == 2991 and "OpenStreetMap" in about["attribution"]
    points = np.cumsum(columns["edgePoints"]) - columns["edgePoints"]  # (places at the ends of edges are nodes)
    places = np.column_stack([np.cumsum(columns[name])[points] / 1e7 for name in ("lons", "lats")]).tolist()
    first = np.cumsum(columns["edgeArcs"]) - columns["edgeArcs"]
    begins = np.where(columns["arcAlong"][first], starts[first], ends[first]).tolist()
    place_of = {node: place for node, place in zip(begins, places) if node not in columns["splitNodes"]}
    nodes = random.Random(1).sample(sorted(place_of), 40)
    least = dijkstra(weights, indices=nodes[:5])[:, nodes]
    opened(browser, DOCUMENT)
    found = asked_routes(browser, [(place_of[start], place_of[end]) for start in nodes[:5] for end in nodes])
    assert [answer["routes"][0]["legs"][0]["length"] for answer in found] == least.ravel().tolist()
    quiet(browser)


class TestTheCommand:
    @pytest.fixture
    def folder(self, tmp_path):
        for weight, *words, name in ((5, "--attribution", "Firm", "n"), (6, "other")):
            made_in(tmp_path, [(1, 0, 0), (2, 0.001, 0)], [(1, 2, 0, weight, "", "", "")], *words, name=name)
        (tmp_path / "web").mkdir()
        (tmp_path / "web/domethyme.wasm").write_bytes(b"module")
        shutil.copy(ROOT / "packaging/web/domethyme.js", tmp_path / "web")
        return tmp_path

    def test_a_page(self, folder):
        words = [TOOLS / "page", folder / "n", folder / "n.rch", folder / "a.html", "--attribution", "© Us & 'Co'"]
        run(*words, DOMETHYME_WEB=str(folder / "web"))
        text = (folder / "a.html").read_text(encoding="utf-8")
        assert unpacked(text, "module") == b"module"
        assert unpacked(text, "hierarchy") == columns_of_hierarchy((folder / "n.rch").read_bytes(), "n.rch")
        about = columns_of(unpacked(text, "network"))[0]
        assert [about[name] for name in ("attribution", "box", "nodes", "hasSeconds")] == ["Firm, © Us & 'Co'", [0, 0, 0.001, 0], 2, False]
        policy = re.search(r'Content-Security-Policy" content="([^"]*)"', text)[1]
        for kind in ("script", "style"):
            [part] = re.findall(rf"<{kind}>(.*?)</{kind}>", text, re.S)
            assert f"{kind}-src 'sha256-{base64.b64encode(hashlib.sha256(part.encode()).digest()).decode()}'" in policy
        assert "default-src 'none'" in policy and "connect-src" not in policy
        run(*words, "--library", folder / "web", "--compare-all", DOMETHYME_WEB="none")
        assert (folder / "a.html").read_text(encoding="utf-8") == text

    @pytest.mark.parametrize("words, status, says", [
        ("n n.rch a.html --library none", 1, "has no domethyme.wasm: packaging/build-web makes it"),
        ("n n.rch a.txt", 2, "OUT doesn't end in .html"), ("n none.rch a.html --library web", 7, "none.rch: No such file"),
        ("n t.nodes.csv a.html --library web", 4, "t.nodes.csv: is no file that `routecli prepare` wrote"),
        ("other n.rch a.html --library web", 1, "n.rch: is the hierarchy of another network than"),
        ("n.co n.rch a.html --library web", 1, "has no roads but nodes"), ("none n.rch a.html --library web", 1, "none"),
    ])
    def test_input_that_is_refused(self, folder, words, status, says):
        given = [word if word.startswith("--") else folder / word for word in words.split()]
        ended = run(TOOLS / "page", *given, status=status)
        assert says in ended.stderr and not (folder / "a.html").exists()

    @pytest.mark.parametrize("links, says", [
        ([FIRST, (0, 2, 12, 2, 1), SECOND], None), ([(0, 1, (1 << 32) - 1, 1, NO_MIDDLE)], None),
        *((links, "aren't well made") for links in (
            [FIRST, (0, 2, 13, 2, 1), SECOND], [FIRST, (0, 2, 12, 3, 1), SECOND], [FIRST, SECOND, (0, 2, 12, 2, 1)], [FIRST, FIRST],
            [(0, 1, 5, 1, 2)], [(3, 1, 5, 1, NO_MIDDLE)], [(1, 3, 5, 1, NO_MIDDLE)], [(0, 1, 5, 1, 3)],
        )),
        ([FIRST, (0, 2, 5 + (1 << 32), 2, 1), (1, 2, 1 << 32, 1, NO_MIDDLE)], "arcs that no graph has"),
        ([(0, 1, 5, 2, NO_MIDDLE)], "arcs that no graph has"),
    ])
    def test_links_that_are_refused(self, links, says):
        """Of three nodes: those that are no sums of two others, that don't rise, or that lead to no node; and what no arc is."""
        head = struct.pack(">4sIQQ3I", b"RCH2", 3, len(links), 0, 0, 1, 2)
        data = head + b"".join(struct.pack(">IIQII", *link) for link in links)
        with pytest.raises(HierarchyError, match=says) if says else contextlib.nullcontext():
            columns_of_hierarchy(data, "n.rch")
        for other in (b"RCH1" + data[4:], data[:-1], data + b"\0"):
            with pytest.raises(HierarchyError, match="is no whole hierarchy file of version 2"):
                columns_of_hierarchy(other, "n.rch")

    def test_a_network_that_is_too_large(self, folder, monkeypatch):
        assert page.MOST_NODES == 300_000
        words = "page", *(folder / name for name in ("n", "n.rch", "a.html"))
        says = "has 2 nodes, and a page has at most 1: a larger map needs a page that is served"
        for most, refused in ((1, pytest.raises(ToolError, match=says)), (2, contextlib.nullcontext())):
            monkeypatch.setattr(page, "MOST_NODES", most)
            with refused:
                run_tool(*words, "--library", folder / "web")
            assert (folder / "a.html").exists() == (most == 2)

    def test_which_library_is_found(self, folder, monkeypatch):
        monkeypatch.delenv("DOMETHYME_WEB", raising=False)
        shutil.copy(folder / "web/domethyme.wasm", folder)
        for inside, beside in (("web", "."), ("none", "web")):
            monkeypatch.setattr(page, "INSIDE", folder / inside)
            monkeypatch.setattr(page, "BUILT", folder / beside)
            assert page.find_library(None) == folder / "web"


@drawn(100)
@given(st.lists(st.tuples(st.integers(0, 1), st.integers(0, 1), st.integers(1, 2)), max_size=8).flatmap(lambda arcs: st.tuples(
    st.just(arcs), st.permutations(range(len(arcs))))))
def test_arcs_of_one_weight(drawn_arcs):
    """Of the lightest from one node to another those that are first in the file, where others are first in the page."""
    arcs, numbers = drawn_arcs
    wanted = set()
    for ends in {arc[:2] for arc in arcs}:
        least = min(arc for arc in arcs if arc[:2] == ends)
        lightest = [place for place, arc in enumerate(arcs) if arc == least]
        wanted |= {min(lightest, key=lambda place: numbers[place])} - {lightest[0]}
    found = preferred(*np.array(arcs, np.int64).reshape(-1, 3).T, np.array(numbers, np.int64)).tolist()
    assert set(found) == wanted and len(found) == len(wanted)


@pytest.mark.parametrize("text, says", [
    ('import * as b from "./b.js";\n', "a.js: has a form that can't be joined: import * as b"),
    ('import { b } from "./b.js";\n', "b.js: exports no b, which a.js imports"),
    ("export default 1;\n", "a.js: has a form that can't be joined: export default 1"),
    ('const b = await import("./b.js");\n', "a.js: has a form that can't be joined: import("),
])
def test_modules_that_can_not_be_joined(text, says):
    with pytest.raises(ToolError, match=re.escape(says)):
        bundled({"a.js": text, "b.js": "export const c = 1;\n"}, "a.js")


def test_leaflet_with_its_licence(tmp_path, monkeypatch):
    """What a page embeds names no other file, and the notice has the licence once."""
    assert "sourceMappingURL" not in leaflet.of_leaflet("leaflet.min.js") + leaflet.of_leaflet("leaflet.css")
    for part in ("Vladimir Agafonkin", "Redistributions in binary form", "EVEN IF ADVISED OF THE POSSIBILITY"):
        assert leaflet.leaflet_notice().count(part) == 1, part
    monkeypatch.setattr(leaflet, "LEAFLET", tmp_path)
    with pytest.raises(ToolError, match="leaflet.css: isn't there: pages need Debian's package libjs-leaflet"):
        leaflet.of_leaflet("leaflet.css")
