"""The table of endpoints: docs/SERVICE.md has it, each endpoint is answered, and its parameters are those that are
parsed."""
import json
import os
import re
import subprocess
import sys

import pytest
from service_case import ServiceCase, resident
from tool_case import TOOLS

from domethyme_service import endpoints, metrics
from domethyme_service.errors import RequestError
from domethyme_service.osrm_request import parse_request

pytestmark = pytest.mark.timeout(300)
PAGE = TOOLS.parent / "docs/SERVICE.md"


def test_the_page_has_the_tables():
    """And the command prints them."""
    tables, page = ["\n".join(table) for table in endpoints.tables()], PAGE.read_text(encoding="utf-8")
    assert [table for table in tables if f"\n\n{table}\n\n" not in page] == []
    assert printed_by("endpoints") == "\n\n".join(tables) + "\n"


def printed_by(module):
    words = [sys.executable, "-m", f"domethyme_service.{module}"]
    return subprocess.run(words, cwd=TOOLS.parent / "python", capture_output=True, encoding="utf-8", check=True).stdout


def test_names_and_statuses():
    """Each endpoint has a name of its own, and each status of the package a counter."""
    assert len(endpoints.BY_NAME) == len(endpoints.ENDPOINTS)
    text = "".join(path.read_text() for path in (TOOLS.parent / "python/domethyme_service").glob("*.py"))
    rows = re.findall(r"RequestError[(,]\s*([1-5]\d\d)|Response\(.*, ([1-5]\d\d)\)", text)
    found = {int(error or other) for error, other in rows}
    assert len(found) > 9 and found <= {*metrics.STATUSES}


@pytest.mark.parametrize("service, least, most", [
    ("route", 2, 500), ("nearest", 1, 1), ("table", 1, 2000), ("trip", 2, 500), ("match", 2, 500), ("isochrone", 1, 1),
])
def test_how_many_places_there_may_be(service, least, most):
    """Places may be at all ends of the earth; and the last one may be named by its number."""
    names = {"route": "waypoints", "match": "waypoints", "table": "sources"}

    def ended(count):
        path = f"/{service}/v1/car/{';'.join((['180,90', '-180,-90'] * count)[:count])}"
        query = {names[service]: f"0;{count - 1}"} if service in names else {}
        try:
            return len(parse_request(endpoints.find_endpoint(path), path, query, 1000.0).places)
        except RequestError as error:
            return error.message if error.code == "TooBig" else error.code

    wanted = ["InvalidQuery", least, most, f"there may be {most} places" if most > 1 else "InvalidQuery"]
    assert [ended(count) for count in (least - 1, least, most, most + 1)] == wanted


class EndpointTests(ServiceCase):
    def test_how_long_a_tile_is_kept(self):
        """A day under the network's number, which is asked for anew; not at all under another one, since a new network's roads may
        come for the old one's."""
        self.serve("--network", self.folder / "v")
        version, tile, day = self.ask("/map/about")[1]["version"], "/map/roads/14/8192/8191", "public, max-age=86400"
        kept_by_path = {tile: day, f"{tile}?v={version}": day, f"{tile}?v=0123abcd": "no-store", "/map/about": "no-cache"}
        for path, kept in kept_by_path.items():
            self.assertEqual(self.ask(path)[0], 200)
            self.assertEqual(self.headers["Cache-Control"], kept)

    def test_parameters_that_are_not_there(self):
        """Each endpoint with parameters rejects others by name, and the others accept any."""
        self.serve("--network", self.folder / "v")
        place = "0.0003,0.00001"
        paths = {"ZOOM/X/Y": "0/0/0", "PROFILE/PLACES": f"car/{place};{place}", "PROFILE/PLACE": f"car/{place}", "FILE": "main.js"}
        for endpoint in endpoints.ENDPOINTS:
            path = endpoint.path
            for word, right in paths.items():
                path = path.replace(word, right)
            if path:
                status, found = self.ask(f"{path}?colour=red", endpoint.method, b"" if endpoint.method == "POST" else None)
                self.assertEqual(status, 200 if endpoint.parameters is None else 400, path)
                if status == 400:
                    self.assertEqual(found, {"code": "InvalidQuery", "message": endpoint.unknown.format("colour")})

    def test_answers_have_the_shapes_of_openapi(self):
        described = json.loads(printed_by("openapi"))
        shapes = described["components"]["schemas"]
        self.serve("--network", self.folder / "v")
        place, far = "0.0003,0.00001", "0.0077,-0.00002"
        every = "steps=true&annotations=true&overview=full"
        asked = {
            "/": [""], "/map/{FILE}": ["/map/main.js"], "/map/about": [""], "/map/roads/{ZOOM}/{X}/{Y}": ["/map/roads/16/32768/32767"],
            "/route/v1/{PROFILE}/{PLACES}": [
                f"/route/v1/car/{place};{far}{query}" for query in ("", f"?{every}", f"?{every}&geometries=geojson")
            ],
            "/nearest/v1/{PROFILE}/{PLACE}": [f"/nearest/v1/car/{place}{query}" for query in ("?number=3", "?skip_waypoints=true")],
            "/table/v1/{PROFILE}/{PLACES}": [f"/table/v1/car/{place};{far}?annotations=duration,distance,weight&fallback_speed=1"],
            "/trip/v1/{PROFILE}/{PLACES}": [f"/trip/v1/car/{place};{far}?{every}"],
            "/match/v1/{PROFILE}/{PLACES}": [
                f"/match/v1/car/{place};0.0013,0;{far}?{every}", f"/match/v1/car/{place};0.0013,0;{far}?waypoints=0;2",
                "/match/v1/car/0.0003,0;0.0013,0;0.5,0.5"
            ],
            "/isochrone/v1/{PROFILE}/{PLACE}": [f"/isochrone/v1/car/{place}?contours_minutes=1&polygons={each}" for each in ("true", "false")],
            "/nodes/route": ["?from=1&to=7", "?from=1&to=99"], "/nodes/length": ["?from=1&to=7"], "/nodes/routes": [""], "/nodes/lengths": [""],
            "/health": [""], "/metrics": [""],
        }
        self.assertEqual(asked.keys(), described["paths"].keys())
        body = b'{"from": 1, "to": 7}\n{"from": 1}\n'
        for path, operations in described["paths"].items():
            (method, operation), = operations.items()
            for more in asked[path]:
                status, found = self.ask(f"{path}{more}" if more[:1] in ("", "?") else more, method.upper(), body if method == "post" else None)
                ((media, content),) = operation["responses"]["200" if status == 200 else "default"]["content"].items()
                self.assertIn(self.headers["Content-Type"].partition(";")[0], (media, "text/javascript"))
                values = map(json.loads, found.splitlines()) if method == "post" else [found]
                self.assertEqual([value for value in values if not fits(value, content["schema"], shapes)], [], path)
        health = {"status": "ok", "nodes": 1, "links": 1, "towards": True, "alternatives": 0}
        others = {"status": "ok", "nodes": 1}, {**health, "nodes": "1"}, {**health, "nodes": True}, {**health, "status": "no"}, {**health, "x": 1}
        self.assertEqual([fits(value, shapes["Health"], shapes) for value in (health, *others)], [True, *[False] * 5])


BOUNDS = "0.001 0.0025 0.005 0.01 0.025 0.05 0.1 0.25 0.5 1.0 2.5 5.0 10.0 30.0".split()


def test_metrics_of_several_processes():
    """Sums of all, and the memory of the largest. A time at a bound is in its bucket; only what is called so is a total."""
    found, counts = metrics.SharedMetrics(4), {each.name: 1_234_567 * number for number, each in enumerate(metrics.METRICS, 1)}
    for row, process in zip(found.rows[1:], (os.getpid(), os.getpid(), 1 << 30)):
        row.process, row.reported = process, 5
        for name, count in counts.items():
            setattr(row, name, count)
    for seconds in map(float, BOUNDS):
        found.rows[1].count("/table", 200, seconds)
    found.rows[2].count("/table", 503, 30.5)
    text = found.text(7)
    values = dict(line.removeprefix("domethyme_").rsplit(" ", 1) for line in text.splitlines() if line[0] != "#")
    assert float(values.pop("resident_memory_bytes")) == pytest.approx(1024 * resident(os.getpid()), rel=0.1)
    wanted = {**{name: 3 * count for name, count in counts.items() if name != "resident_memory_bytes"}, "nodes": 7, "build_info{}": 1}
    wanted |= {f'request_seconds_bucket{{endpoint="/table",le="{bound}"}}': at for at, bound in enumerate([*BOUNDS, "+Inf"], 1)}
    wanted |= {f'request_seconds_{name}{{endpoint="/table"}}': each for name, each in (("count", 15), ("sum", "79.943500"))}
    wanted |= {f'requests_total{{endpoint="/table",status="{status}"}}': count for status, count in ((200, 14), (503, 1))}
    assert values == {name: str(each) for name, each in wanted.items()}
    for name, kind in re.findall(r"(?m)^# TYPE domethyme_(\S+) (\S+)$", text):
        assert kind == ("histogram" if name == "request_seconds" else "counter" if name.endswith("_total") else "gauge")


KINDS = {"string": str, "number": (int, float), "integer": int, "boolean": bool, "object": dict, "array": list}


def fits(value, schema, shapes):
    """Whether a value is as a schema of OpenAPI says, by the words that this document has."""
    schema = shapes[schema["$ref"].rpartition("/")[2]] if "$ref" in schema else schema
    if "oneOf" in schema:
        return any(fits(value, each, shapes) for each in schema["oneOf"])
    if value is None and schema.get("nullable"):
        return True
    is_kind = isinstance(value, KINDS[schema["type"]]) and (schema["type"] == "boolean" or not isinstance(value, bool))
    if not is_kind or value not in schema.get("enum", [value]):
        return False
    if isinstance(value, list):
        is_long = schema.get("minItems", 0) <= len(value) <= schema.get("maxItems", len(value))
        return is_long and all(fits(each, schema["items"], shapes) for each in value)
    members = value if isinstance(value, dict) else {}
    known, is_closed = schema.get("properties", {}), "additionalProperties" in schema
    are_known = {*schema.get("required", ())} <= {*members} and not (is_closed and {*members} - {*known})
    return are_known and all(fits(members[name], known[name], shapes) for name in {*members} & {*known})
