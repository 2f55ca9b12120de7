"""The service as eight clients of OSRM use it, and other forms of requests. Each request is as in the client's source code, with its
parameters, their order, its number format and its headers; the whole answer is the model's."""
import json
import urllib.parse
from typing import Any

import numpy as np
from comparing import decoded, difference
from draws import model_of
from model import answers
from model.request import Request
from test_service_osrm import HIGH, OsrmCase

from domethyme.network.polyline import decode_polyline, encode_polylines

# By High Street and north by Mill Road to a roundabout, which Hill Road leaves.
START, END, BETWEEN = [0.0003, 0.00001], [0.007, 0.00203], [0.004, 0.0]
PLACES = "0.0003,0.00001;0.007,0.00203"
PACKED = urllib.parse.quote(f"polyline({encode_polylines([START, END], 5, np.array([0]), np.array([2]))[0]})", safe="()")
BROWSER = {"Accept": "*/*", "Origin": "https://example.org", "Referer": "https://example.org/", "Sec-Fetch-Mode": "cors"}
OSMAND = {"User-Agent": "OsmAnd~ 4.5", "Accept-Encoding": "gzip", "Connection": "Keep-Alive"}
VIKING = {"Accept": "*/*", "User-Agent": "viking/1.10"}
ROUTINGPY = {"User-Agent": "routingpy/v1.3.0", "Content-Type": "application/json", "Accept-Encoding": "gzip, deflate", "Accept": "*/*"}
WEBSITE = {**BROWSER, "Accept": "application/json, text/javascript, */*; q=0.01", "Origin": "https://www.openstreetmap.org"}
VIA = "0.00029999999999999997,1.0000000000000001e-05;0.0049999999999999996,1.0000000000000001e-05;0.0070000000000000001,0.00203"
# The requests of the clients, and their headers: leaflet-routing-machine 3.2, openstreetmap.org (fossgis_osrm.js), OsmAnd, which
# writes small numbers with an exponent, Viking 1.10, R's package osrm, which encodes places, and routingpy.
REQUESTS = [
    (f"/route/v1/driving/{PLACES}?overview=false&alternatives=true&steps=true&hints=;", BROWSER),
    (f"/route/v1/driving/{PLACES}?overview=full&alternatives=true&steps=true&hints=;", BROWSER),
    (f"/route/v1/driving/{PLACES}?overview=false&geometries=polyline&steps=true", WEBSITE),
    ("/route/v1/driving/3.0E-4,1.0E-5;0.007,0.00203?overview=full&steps=true", OSMAND),
    (f"/route/v1/car/{VIA}?geometries=geojson&overview=full", VIKING),
    (f"/route/v1/driving/{PACKED}?alternatives=false&geometries=geojson&steps=false&overview=full&generate_hints=false", {}),
    (f"/table/v1/driving/{PACKED}?sources=0;1&destinations=0;1&annotations=duration,distance&generate_hints=false", {}),
    ("/nearest/v1/driving/0.0003,0.00001?number=3&radiuses=1000", {}),
    (f"/route/v1/driving/{PLACES}?alternatives=false&annotations=true&continue_straight=default&geometries=polyline&overview=full"
     "&steps=true", ROUTINGPY),
    (f"/table/v1/driving/{PLACES}?annotations=duration%2Cdistance&destinations=0%3B1&radiuses=500%3B500&sources=0%3B1", ROUTINGPY),
    # other forms
    (f"/route/v1/driving/{HIGH}?alternatives=false&overview=full&geometries=polyline6", {}),
    ("/route/v1/driving/polyline(_ibE_seK_seK_seK)?generate_hints=false&radiuses=unlimited;unlimited", {}),
    # (of one latitude, as a client sends it that escapes nothing)
    ("/route/v1/driving/polyline6(A{@?g^).json?radiuses=unlimited;unlimited", {}),
    ("/table/v1/driving/polyline(A{@?g^)?annotations=duration,distance", {}),
    (f"/route/v1/driving/{HIGH}.json?continue_straight=true&approaches=unrestricted;&bearings=;", {}),
    ("/route/v1/driving/0.00030000000000000003,1e-5;+7.7E-3,-.00002", {}),
    (f"/route/v1/car/{urllib.parse.quote(HIGH, safe='')}?skip_waypoints=true", {"Connection": "Close"}),
]


def test_lines_of_places() -> None:
    """The example of the format, and the corners of the earth."""
    example = [(-120.2, 38.5), (-120.95, 40.7), (-126.453, 43.252)]
    assert decode_polyline("_p~iF~ps|U_ulLnnqC_mqNvxq`@", 5) == example
    corners = [(digits, [(-180.0, -90.0), (180.0, 90.0), (-(10.0**-digits), 0.0), (0.0, -(10.0**-digits))]) for digits in (5, 6)]
    for digits, line in ((5, example), (6, example), *corners):
        text, = encode_polylines(line, digits, np.array([0]), np.array([len(line)]))
        assert decode_polyline(text, digits) == decoded(text, "polyline6" if digits == 6 else "polyline") == line


def request_of(path: str) -> Request:
    """What the text of a request says."""
    _, service, _, _, rest = path.split("/", 4)
    places, _, query = rest.rpartition("?") if "(" in rest else rest.partition("?")
    places = urllib.parse.unquote(places).removesuffix(".json")
    form, _, line = places.rstrip(")").partition("(")
    points = decoded(line, form) if line else [tuple(map(float, word.split(","))) for word in places.split(";")]
    return Request(service, points, dict(urllib.parse.parse_qsl(query, keep_blank_values=True)), 5000.0)  # type: ignore[arg-type]


class EightClientsTests(OsrmCase):
    words = ("--cors", "*", "--allowed-host", "router.project-osrm.org")

    def setUp(self) -> None:
        super().setUp()
        self.village = model_of(self.folder / "v")

    def look_at(self, path: str, found: Any) -> None:
        """Asserts that an answer is the model's."""
        request = request_of(path)
        self.assertEqual(difference(found, getattr(answers, request.service)(self.village, request)), "", path)

    def test_requests(self) -> None:
        for path, headers in REQUESTS:
            found = self.ask(path, headers=headers)[1]
            self.look_at(path, found)
            if "Origin" in headers:  # (a browser's: it sends the hints of the answer, which are texts of a URL)
                self.assertEqual(self.headers["Access-Control-Allow-Origin"], "*")
                hints = ";".join(waypoint["hint"] for waypoint in found["waypoints"])
                self.assertRegex(hints, "^[A-Za-z0-9_=;-]+$")
                self.assertEqual(self.ask(path.replace("hints=;", f"hints={hints}"), headers=headers)[1], found)
        self.assertIn("Content-Length", self.headers)

    def test_no_route(self) -> None:
        """OsmAnd shows the text of the error."""
        for before, more, first in (("", "", 0), ("7.0E-3,0.0;", "", 1), ("7.0E-3,0.0;", "&continue_straight=true", 1)):
            path = f"/route/v1/driving/{before}3.0E-4,1.0E-5;0.020,0.005?overview=full&steps=true{more}"
            message = f"there is no route from place {first} to place {first + 1}"
            self.assertEqual(self.ask(path, headers=OSMAND), (400, {"code": "NoRoute", "message": message}))

    def test_marble(self) -> None:
        """Version 22.12, `OSRMRunner.cpp`, through the service as its proxy, so for OSRM's own host."""
        path = "/route/v1/driving/0.000300,0.000010;0.007000,0.002030?alternatives=false&overview=full&geometries=polyline6"
        lines = [f"GET http://router.project-osrm.org{path} HTTP/1.1", "Host: router.project-osrm.org", "Proxy-Connection: Keep-Alive",
                 "Accept-Encoding: gzip, deflate", "Accept-Language: en,*",
                 "User-Agent: Mozilla/5.0 (compatible; Marble/22.12; Browser; OSRMRunner)", "", ""]
        head, _, body = self.raw("\r\n".join(lines).encode(), True).partition(b"\r\n\r\n")
        self.assertTrue(head.startswith(b"HTTP/1.1 200 OK\r\n"), head)
        self.look_at(path, json.loads(body))

    def test_vroom(self) -> None:
        """`osrm_routed_wrapper.cpp`: it reads to the end of the connection, and parses from the first brace to the last."""
        places = "0.000300,0.000010;0.007000,0.002030;0.004000,0.000000"
        for path in (f"/table/v1/car/{places}?annotations=duration,distance",
                     f"/route/v1/car/{places}?alternatives=false&steps=false&overview=full&continue_straight=false"):
            text = self.raw(f"GET {path} HTTP/1.1\r\nHost: 127.0.0.1\r\nAccept: */*\r\nConnection: Close\r\n\r\n".encode())
            self.look_at(path, json.loads(text[text.index(b"{") : text.rindex(b"}") + 1]))
