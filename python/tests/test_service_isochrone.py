"""The service's isochrones: a Mapbox client's request, invalid requests, and what leads to a place."""
import json
import signal
import unittest.mock
import urllib.parse

import numpy as np
import pytest
from reach_case import Road, lengths, prepared
from service_case import ServiceCase
from test_generated_service import ask, open_service
from tool_case import ROOT

from domethyme.network import net_file
from domethyme.network.isochrones import Drawn, Style, features, limits
from domethyme.network.reach import Reach
from domethyme_service import isochrone

PATH = "/isochrone/v1/car/0.002,0"


class IsochroneTests(ServiceCase):
    def drawn(self, asked, towards=False, **style):
        """What is drawn of the model's lengths around the village's node at (0.002, 0)."""
        net = net_file.read(self.folder / "v.net")
        places = [*zip(net.node_lon[:].tolist(), net.node_lat[:].tolist())]
        found = lengths(net, {places.index((20_000, 0)): 0}, towards)
        reach = Reach(net, found, limits("duration", asked), towards=towards)
        return json.loads(json.dumps(features(reach, asked, "time", Style("polygons", attribution=net.texts[0], **style))))

    def test_a_client_of_mapbox(self):
        """Its path and all of its parameters; and the answer for HEAD."""
        self.serve("--network", self.folder / "v")
        colors = ["6706ce", "04e813", "4286f4"]
        words = {"contours_minutes": "1,1.5,3", "contours_colors": ",".join(colors), "polygons": "true", "denoise": "0.5",
                 "generalize": "5", "access_token": "pk.eyJ1"}
        told = self.ask(f"/isochrone/v1/mapbox/driving/0.002,0?{urllib.parse.urlencode(words)}")
        self.assertEqual(told, (200, self.drawn([1, 1.5, 3], generalize=5, denoise=0.5, colors=colors)))
        self.assertEqual([each["properties"]["fill"] for each in told[1]["features"]], [f"#{color}" for color in colors[::-1]])
        self.assertEqual(self.headers["Content-Type"], "application/json; charset=utf-8")
        answer = self.raw(f"HEAD {PATH}?contours_minutes=0.1 HTTP/1.1\r\nHost: x\r\n\r\n".encode())
        self.assertTrue(answer.startswith(b"HTTP/1.1 200 OK\r\n") and answer.endswith(b"\r\n\r\n"), answer[:200])

    def test_requests_that_are_refused(self):
        """Messages; and paths, since a profile may have two words. (Other texts of parameters are in draws.py.)"""
        self.serve("--network", self.folder / "v")
        for query, code, says in [
            ("", "InvalidQuery", "one of contours_minutes and contours_meters"),
            ("contours_minutes=5&contours_meters=5", "InvalidQuery", "one of"),
            ("contours_meters=500", "NotImplemented", "contours_meters isn't supported"),
            ("contours_minutes=9,5", "InvalidValue", "rising"), ("contours_minutes=601", "InvalidValue", "600"),
            ("contours_minutes=0.00001,0.00002", "InvalidValue", "differ"), ("contours_meters=1000001", "InvalidValue", "1,000,000"),
            ("contours_minutes=5&reverse=true", "NotImplemented", "reverse=true isn't supported: the service was started without --towards"),
            ("contours_minutes=5&radiuses=5;5", "InvalidQuery", "radius"), ("contours_minutes=5&costing=auto", "InvalidQuery", "'costing'"),
        ]:
            status, told = self.ask(f"{PATH}?{query}")
            self.assertEqual((status, told["code"], says in told["message"]), (400, code, True), told)
        for path, code in [
            *((path, "InvalidUrl") for path in ("v1/0,0", "v1/a/b/c/0,0", "v1/a,b/0,0")), ("v2/car/0,0", "InvalidVersion"),
            ("v1/car/0,0;1,1", "InvalidQuery"), ("v1/car/x", "InvalidQuery"), ("v1/car/0,91", "InvalidValue")
        ]:
            status, told = self.ask(f"/isochrone/{path}?contours_minutes=5")
            self.assertEqual((status, told["code"]), (400, code), told)
        self.assertEqual(self.ask(f"{PATH}?contours_minutes=5", "POST", "")[0], 405)

    def test_what_leads_to_a_place(self):
        """Also after a reload, and the other way as without --towards; as far as the page allows."""
        process = self.serve("--network", self.folder / "v", "--towards")
        self.assertNotEqual(self.drawn([1, 600], True), self.drawn([1, 600]))
        for turn in range(2):
            for word, towards in (("true", True), ("false", False)):
                told = self.ask(f"{PATH}?contours_minutes=1,600&polygons=true&exclude=&reverse={word}")
                self.assertEqual(told, (200, self.drawn([1, 600], towards)))
            if not turn:
                process.send_signal(signal.SIGHUP)
                self.wait_for(lambda: any("reloaded" in line for line in self.said))


@pytest.mark.parametrize("kind, counts", [
    ("Polygon", [1]), ("Polygon", [3]), ("Polygon", [2, 1, 3]), ("LineString", [1]), ("LineString", [1, 1]),
])
def test_geometries_are_those_of_the_package(kind, counts):
    """Each polygon has its own holes."""
    draw = np.random.default_rng(1)
    drawn = Drawn(kind, [[draw.uniform(-180, 180, (99 + ring, 2)).round(6) for ring in range(count)] for count in counts])
    assert json.loads(isochrone.geometry_text(drawn)) == drawn.geometry


@pytest.mark.parametrize("most, status, told", [(2, 200, None), (1, 400, ("TooBig", "more than 1 nodes are reached"))])
def test_nodes_that_may_be_reached(tmp_path, most, status, told):
    """Two are, of three; and as many as the page says."""
    assert f"Beyond {isochrone.MAX_REACHED:,} nodes" in (ROOT / "docs/SERVICE.md").read_text(encoding="utf-8")
    prepared([(0, 0), (0.001, 0), (0.002, 0)], [Road(0, 1, 1000, 1000), Road(1, 2, 90_000, 90_000)], tmp_path / "row").close()
    with unittest.mock.patch.object(isochrone, "MAX_REACHED", most):
        found = ask(open_service(tmp_path / "row"), "/isochrone/v1/car/0,0?contours_minutes=1&polygons=true")
    assert found[0] == status and (told is None or (found[1]["code"], found[1]["message"][: len(told[1])]) == told)
