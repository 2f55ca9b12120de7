"""Malformed and hostile requests: ten thousand different ones, from one seed. Each has to get the error of its kind, and
none may leak memory. Invalid texts of parameters are in draws.py."""
import contextlib
import itertools
import json
import pathlib
import random
import socket
import string
from collections.abc import Callable, Iterator
from typing import NamedTuple
from unittest import mock

import pytest
from draws import one_road, write_network
from gunicorn.config import Config
from gunicorn.http import RequestParser
from gunicorn.http.errors import ParseException
from gunicorn.http.wsgi import create
from service_case import Answer, ServiceCase, read_answer
from test_generated_service import open_service
from tool_case import PYTHON, SECONDS

from domethyme_service.errors import malformed
from domethyme_service.gunicorn_app import FIXED_SETTINGS
from domethyme_service.static import POLICY
from domethyme_service.worker import MAX_HEAD, SHORT_BODY, HeadState, classify_head
from domethyme_service.wsgi import size_of

pytestmark = pytest.mark.timeout(300)
SEED, COUNT, FEW = 17, 10_000, 100
NODES = 38
HIGH = "0.0003,0.00001;0.0077,-0.00002"

# What the names in templates stand for: one of these texts, which are templates, or what a function returns.
PARTS: dict[str, tuple[str, ...] | Callable[["Draw"], object]] = {
    "get": ("/nearest/v1/$text/$place$query", "/$many/v1/$text/$places$query"), "many": ("route", "table", "trip", "match"),
    "places": ("$place;$place", "$place;$place;$place", "$place;$place;$place;$place"), "query": ("", "?$right", "?$right&format=json"),
    "right": ("hints=$text", "generate_hints=false", "skip_waypoints=true", "snapping=default"), "pair": ("from=$node&to=$node",),
    "nodes": ("/nodes/route", "/nodes/length"), "batch": ("/nodes/routes", "/nodes/lengths"), "few": tuple("123456789"),
    "site": ("cross-site", "same-site"), "upper": ("POST", "PUT", "DELETE", "PATCH", "OPTIONS"),
    "line": ("_ibE_ibE", "??_ibE_ibE", "_ibE_ibE$few$few"),
    "type": ("application/json", "application/x-ndjson", "application/JSONL", "application/json ;charset=utf-8"),
    # texts that are no numbers
    "bad": tuple((
        "nan NaN -nan inf -inf Infinity 1e999 -1e999 1e100 0x1A 1_0 + - --1 +-1 1..2 1.2.3 . 1e e5 1e+ 1e1.5 1d3 1f 1L one None null "
        "true [1] (1) {1} '1' 1' 1: 1= 1! 1* %D9%A1 %EF%BC%91 %E2%88%921 1%20 %201 +1%20 1%00 %00 %0A1 1%2C 1%3B %251 % 1%2 %zz 1\\2"
    ).split()),
    # percent escapes that aren't UTF-8: an invalid first byte, a continuation byte alone, a truncated sequence, an overlong one, a
    # surrogate, and a code point above U+10FFFF
    "escape": ("%FF", "%80", "%C3", "%C3%28", "%C0%AF", "%E2%82", "%ED%A0%80", "%F4%90%80%80", "1%FE", "%a0true"),
    "far": ("180.000001", "-181", "999", "1e99", "-9e9", "200.5e0", "18$few.$few", "-2$few$few"),
    # what is drawn anew each time
    "text": lambda draw: "".join(draw.choices(string.ascii_lowercase, k=draw.randint(3, 12))),
    "place": lambda draw: f"{draw['degrees']},{draw.uniform(-0.0001, 0.0001):.6f}", "degrees": lambda draw: f"{draw.uniform(0, 0.008):.6f}",
    "node": lambda draw: draw.randint(1, NODES), "above": lambda draw: NODES + draw.randint(1, 999),
    "many_places": lambda draw: ";".join([draw["place"]] * draw.randint(2001, 2400)),
    "hundred_places": lambda draw: ";".join([draw["place"]] * draw.randint(101, 200)),
    "many_fields": lambda draw: "&".join(f"{draw['text']}{number}=" for number in range(draw.randint(51, 200))),
    "long": lambda draw: "x" * draw.randint(66_000, 150_000), "long_line": lambda draw: "x" * draw.randint(65, 300),
    "fields": lambda draw: f"X-{draw['text']}: 1\r\n" * draw.randint(200, 900),
    "too_large": lambda draw: (4 << 20) + draw.randint(1, 10 ** draw.randint(1, 12)),
}
# Paths in which a place is none.
AMONG = ("/nearest/v1/$text/{}$query", "/$many/v1/$text/{};$place$query", "/$many/v1/$text/$place;{}", "/$many/v1/$text/$places;{};$place")


class Draw(random.Random):
    """Parts of requests, drawn anew for each name in a template, so that hardly any two requests are the same."""

    def __getitem__(self, name: str) -> str:
        part = PARTS[name]
        return str(part(self)) if callable(part) else self.fill(self.choice(part))

    def fill(self, template: str) -> str:
        return string.Template(template).substitute(self)  # type: ignore[arg-type]


def by_get(_draw: Draw, path: str) -> bytes:
    return f"GET {path} HTTP/1.1\r\nHost: x\r\n\r\n".encode("latin-1")


def whole(_draw: Draw, text: str) -> bytes:
    return text.encode("latin-1")


def with_length(_draw: Draw, text: str) -> bytes:
    head, _, body = text.partition("\r\n\r\n")
    return f"{head}\r\nContent-Length: {len(body)}\r\n\r\n{body}".encode("latin-1")


def in_lines(draw: Draw, line: str) -> bytes:
    """A batch of a line, or of others before it that aren't all good, of an accepted type."""
    body, head = line.encode("latin-1").replace(b"\n", b""), draw.fill("POST $batch HTTP/1.1\r\nHost: x\r\nContent-Type: $type\r\n")
    body = b"\n".join([body] * draw.randint(1, 4))
    return f"{head}Content-Length: {len(body)}\r\n\r\n".encode() + body


class Kind(NamedTuple):
    """A kind of malformed requests, by templates, and their answer: the status, and the code of OSRM or of the service."""

    status: int
    code: str
    name: str
    templates: tuple[str, ...]
    make: Callable[[Draw, str], bytes] = by_get

    def drawn(self, draw: Draw) -> bytes:
        template = draw.choice(self.templates)
        return self.make(draw, draw.fill(template if self.make in (by_get, in_lines) else template.replace("\n", "\r\n")))


def among(*wrong: str) -> tuple[str, ...]:
    return tuple(form.format(each) for form in AMONG for each in wrong)


HEAD = "GET $get HTTP/1.1\nHost: x\n"
POST = "POST $batch HTTP/1.1\nHost: x\nContent-Type: application/json\n"
PAIR, CHUNKED = '{"from": 1, "to": $node}', "Transfer-Encoding: chunked\n"
KINDS = (
    Kind(400, "InvalidQuery", "a number that is none", among(
        "$degrees,$bad", "$bad,$degrees", "12345,$degrees", "$degrees,0001")),
    Kind(400, "InvalidQuery", "a place that is none", among(
        "", "$degrees", "$degrees,", ",$degrees", ",", "$place,0", "$degrees%20$degrees", "$degrees:$degrees", "$degrees;$degrees",
        "$place|$place", "$place,$place", "$place/$place", "($place)", "[$place]", "$place.xml", "$place%2Ejson%20")),
    Kind(400, "InvalidQuery", "places too few or too many", (
        "/route/v1/$text/$place", "/nearest/v1/$text/$places", "/$many/v1/$text/", "/nearest/v1/$text/", "/table/v1/$text/$places;",
        "/$many/v1/$text/polyline()", "/route/v1/$text/polyline(_ibE_ibE)")),
    Kind(400, "InvalidQuery", "a line that is none", tuple(
        f"/$many/v1/$text/{form}$query" for six in ("", "6") for form in (
            f"polyline{six}(${{line}}_)", f"polyline{six}($line~~~~~~~~~~~~%3F)", f"polyline{six}($line%3F)", f"polyline{six}($line%0A)",
            f"polyline{six}($few$line)", f"polyline{six}($line%7F)", f"polyline{six}($line%C3%A4)", f"polyline{six}(%20$line)",
            "polyline5($line)", "Polyline($line)", "line($line)", "polyline($line", "polyline$line", "polyline[$line]", "($line)"))),
    Kind(400, "InvalidQuery", "an escape in places that isn't UTF-8", among(
        "$escape$degrees,$degrees", "$degrees$escape,$degrees", "$degrees,$degrees$escape")),
    Kind(400, "InvalidValue", "a place off the earth", among("$far,$degrees", "$degrees,$far", "$far,$far")),
    Kind(400, "TooBig", "more places than there may be", (
        "/$many/v1/$text/$many_places", "/route/v1/$text/$hundred_places;$hundred_places;$hundred_places;$hundred_places;$hundred_places")),
    Kind(400, "TooBig", "more cells than there may be", (
        f"/table/v1/$text/{';'.join(['$hundred_places'] * 10)}?annotations=duration,distance", f"/table/v1/$text/{';'.join(['$hundred_places'] * 10)}")),
    Kind(400, "InvalidVersion", "another version", tuple(f"/$many/{version}/$text/$places" for version in (
        "", "v0", "v2", "v5", "V1", "v1.0", "v11", "1", "v", "v%31", "v1%00", "v-1", "latest", "v2$few$few"))),
    Kind(400, "InvalidUrl", "a path that ends early", (
        "/$many/v1/$text", "/$many/v1/$text?steps=true", "/nearest/v1?$text=1", "/$many/v1?$text=1")),
    Kind(400, "InvalidUrl", "a profile that is none", tuple(f"/$many/v1/{profile}/$places$query" for profile in (
        "", "c%61r", "car!", "ca;r", "car,bike", "%00", "%FF", "(car)", "~", "car:1", "*", "$long_line"))),
    Kind(400, "InvalidService", "a service that isn't there", ("/tile/v1/$text/$places$query",)),
    Kind(404, "InvalidUrl", "a path that is none", (
        "/$text", "/$text/v1/car/$places", "/Route/v1/car/$places", "//route/v1/car/$places", "/nodes/$text", "/nodes/length/?$pair",
        "/nodes?$pair", "/map/$text.js", "/map/../$text", "/%2e%2e/$text", "/map/roads/$few/x/0", "/map/roads/1/$few.0/0",
        "/map/roads/-1/0/$few", "/map/roads/$few/0/0$text", "/$many?$text", "/health/$text", "/metrics%00$text", "/$text%FF",
        "/$text$long_line", "/%72oute/v1/car/$places")),
    Kind(400, "InvalidQuery", "an option that is none", tuple(f"/{path}?{name}" for path, others in (
        ("$many/v1/$text/$places", ("number=3", "Steps=true", "OVERVIEW=", "step=$text")),
        ("nearest/v1/$text/$place", ("steps=true", "sources=0", "overview=full", "annotations=true")),
        ("table/v1/$text/$places", ("steps=true", "overview=", "alternatives=1;2", "continue_straight=true")),
        ("route/v1/$text/$places", ("sources=all", "number=1", "fallback_speed=3", "scale_factor=1")),
    ) for name in (*others, "${text}s=$text", "${text}s", "=$text", ";=1", "%00=$text", "steps%20=true", "steps[]=true", "$$=1", "/=1"))),
    Kind(400, "InvalidQuery", "an option that comes twice", (
        "/route/v1/$text/$places?hints=&hints=$text", "/route/v1/$text/$places?steps=true&steps=$text", "$nodes?$pair&from=$node",
        "/route/v1/$text/$places?$text=1&radiuses=&radiuses=$text", "/nearest/v1/$text/$place?number=1&number=$few")),
    Kind(400, "InvalidQuery", "an escape in options that isn't UTF-8", (
        "$get&hints=$escape".replace("$get", "/$many/v1/$text/$places?format=json"), "/$many/v1/$text/$places?$escape=true",
        "/route/v1/$text/$places?steps=true$escape", "$nodes?from=$node&to=$escape", "/$text?$escape")),
    Kind(400, "InvalidQuery", "more options than there may be", ("/$many/v1/$text/$places?$many_fields",)),
    Kind(400, "InvalidValue", "a node that is none", tuple(f"$nodes?{query}" for wrong in (
        "$bad", "$bad", "", "0", "$above", "-$few", "1.0", "99999999999", "9" * 300) for query in (
        f"from={wrong}&to=$node", f"from=$node&to={wrong}", f"from_key={wrong}&to=$node"))),
    Kind(400, "InvalidQuery", "a node that is missing", (
        "$nodes?from=$node", "$nodes?to=$node", "$nodes?$pair&from_key=$text", "$nodes?to_key=$text&$pair",
        "$nodes?$pair&$text=1", "$nodes?$pair&By=car", "$nodes?From=$node&To=$node")),
    Kind(400, "InvalidValue", "a tile that is none", (
        "/map/roads/2$few/$few/$few", "/map/roads/5/$above/0", "/map/roads/3/0/$above", "/map/roads/5/$above/$above")),
    Kind(400, "InvalidQuery", "an option of the page that is none", ("/map/about?$text=$text", "/map/roads/$few/0/0?$text=$text")),
    Kind(405, "MethodNotAllowed", "another method", (
        "PUT $batch?$text HTTP/1.1\nHost: x\n\n", "GET $batch?$text HTTP/1.1\nHost: x\n\n", "$upper $get HTTP/1.1\nHost: x\n\n$text",
        "$upper $nodes?$pair HTTP/1.1\nHost: x\n\n", "TRACE /health?$text HTTP/1.1\nHost: x\n\n", "PROPFIND /?$text HTTP/1.1\nHost: x\n\n",
        "SEARCH $get HTTP/1.1\nHost: x\n\n$text", "${upper}X $get HTTP/1.1\nHost: x\n\n"), with_length),
    Kind(400, "InvalidQuery", "a body where there is none", (
        f"{HEAD}Content-Length: 2\n\n$few$few", f"{HEAD}{CHUNKED}\n2\n$few$few\n0\n\n", f"{HEAD}Content-Encoding: gzip\n\n",
        "GET /health HTTP/1.1\nHost: x\nX: $text\nContent-Length: 1\n\n$few",
        "GET $nodes?$pair HTTP/1.1\nHost: x\nContent-Encoding: br\nContent-Length: 1\n\n$few"), whole),
    Kind(400, "InvalidQuery", "options of a batch", tuple(
        f"POST $batch?{query} HTTP/1.1\nHost: x\n\n{PAIR}" for query in ("$pair", "$text")), with_length),
    Kind(415, "InvalidQuery", "a body that is compressed", tuple(
        f"{POST}Content-Encoding: {coding}\n\n$text$text" for coding in ("gzip", "br", "deflate", "GZIP", "identity, gzip", "$text")),
        with_length),
    Kind(415, "InvalidQuery", "a type that a page can send", tuple(
        f"POST $batch HTTP/1.1\nHost: x\nX: $text\n{field}\n{PAIR}" for field in ("", *(f"Content-Type: {kind}\n" for kind in (
            "application/xml", "text/html; charset=utf-16", "multipart/form-data; boundary=x", "text/plain", "image/png", "nonsense", "",
            "application/x-www-form-urlencoded", ",application/json", "text/plain; application/json")))), with_length),
    Kind(403, "Forbidden", "a page of another origin", tuple(f"{head}{site}\n{body}" for head, body in (
        (HEAD, ""), ("GET $nodes?$pair HTTP/1.1\nHost: x\n", ""), (POST, "{}"), ("GET /metrics HTTP/1.1\nHost: x\nX: $text\n", "")
    ) for site in (
        "Sec-Fetch-Site: $site\n", "Origin: http://$text.example\n", "Origin: null\n", "Origin: x\n",
        "Sec-Fetch-Site: cross-site\nSec-Fetch-Mode: navigate\n")), whole),
    # (a batch reports errors in its lines, and each of these lines has one)
    Kind(200, "InvalidQuery", "lines that aren't JSON", (
        f"{PAIR},", PAIR * 2, "{'from': 1, 'to': $node}", '{"from"= 1, "to"= $node}', "\xff" + PAIR, '{"from": $node, "to": "\xff"}',
        "[" * 200 + "$node", '{"a":' * 40 + "$node", "from=1&to=$node", "<from>$node</from>", "\0$node", "\xef\xbb\xbf{$node",
        "{from: 1, to: $node}", '{"from": 01, "to": $node}', '{"from": 0x1, "to": $node}', "nul$node", "-", '"$text', '{"from": $node, "to',
        '$node, "to": 2}', '{"from": $node "to": 2}', "$text{"), in_lines),
    Kind(200, "InvalidQuery", "lines of other members", (
        "[$node, 2]", "$node", "null", "true", '"from"', "{}", "NaN", "1e999", '{"from": $node}', '{"to": $node}', '[{"from": $node, "to": 2}]',
        '{"From": $node, "to": 2}', '{"from": $node, "to": 2, "by": "car"}', '{"": $node}', '{"from": null, "to": $node}',
        '{"from": 1, "to": $node, "$text": 1}'), in_lines),
    Kind(200, "InvalidValue", "lines of other nodes", tuple(f'{{"from": {one}, "to": {other}}}' for value in (
        "0", "-1", "$above", "1.5", "1.0", "1e0", "1e999", "NaN", "-Infinity", "true", "[1]", '{"a": 1}', '"one"', '""', '"1.0"', '"\\\\u0661"',
        '" 1"', '"\\\\u0000"', "9" * 200, '"%s"' % ("1" * 240)) for one, other in ((value, "$node"), ("$node", value))), in_lines),
    Kind(413, "TooBig", "a body that is too long", (f"{POST}Content-Length: $too_large\n\n",), whole),
    Kind(505, "HttpVersion", "another HTTP", tuple(f"GET $get HTTP/{version}\nHost: x\n\n" for version in ("1.2", "0.9", "2.0")), whole),
    Kind(400, "InvalidUrl", "a first line that is none", tuple(f"{line}\nHost: x\n\n" for line in (
        "$get HTTP/1.1", "GET $get", "GET  $get HTTP/1.1", "CONNECT $text:80 HTTP/1.1", "GE\0T $get HTTP/1.1", "GET$get HTTP/1.1",
        "GET $get HTTP/1", "GET $get HTTP/1.x", "GET $get HTTP/11", "GET $get HTTP/1.1 $text", "GET $get http/1.1", "GET $get HTTPS/1.1",
        "GET $get $text HTTP/1.1", "GET HTTP/1.1 $get", "\x16\x03\x01$text", "SSH-2.0-$text", "EHLO $text", "GET $get\0 HTTP/1.1",
        "PRI * HTTP/2.0\n\nSM\n\n$text", "\0\1\2$text", "*1 $text", "GET\t$get\tHTTP/1.1", "{$get}")), whole),
    Kind(400, "InvalidUrl", "a field that is none", tuple(f"{HEAD}{field}\n\n" for field in (
        "$text $text: 1", "$text\0: 1", "$text", "$text : 1", "$text(: 1", "$text\x01: 1", '"$text": 1', "$text: 1\0", "$text: \x01",
        "$text: \x7f", "\xe4$text: 1", "$text@: 1", "$text\t: 1", "$text: 1\rX: 2")), whole),
    Kind(400, "InvalidUrl", "an end of a line that is none", (
        "GET $get HTTP/1.1${lf}Host: x${lf}X-A: $text$lf$lf", "GET $get HTTP/1.1${lf}Host: x\nX-A: $text\n\n",
        "GET $get HTTP/1.1\nHost: x${lf}X-A: $text\n\n", f"${{lf}}{HEAD}X-A: $text\n\n", f"{HEAD}X-A:\n $text\n\n", f"{HEAD}X-A: b\n\t$text\n\n",
        f"{HEAD} X-A: $text\n\n"), whole),
    Kind(400, "InvalidUrl", "a host that is missing", tuple(f"GET $get HTTP/1.1\n{hosts}\n" for hosts in (
        "", "Host: x\nHost: x\n", "Host: x\nHost: $text\n", "Hos: x\n")), whole),
    Kind(421, "InvalidHost", "a host that isn't allowed", ("GET http://$text.example$get HTTP/1.1\nHost: x\n\n", *(
        f"GET $get HTTP/1.1\nHost: {host}\n\n" for host in (
            "$text.example", "", "127.0.0.2", "x.example", "x@127.0.0.1", "127.0.0.1.example", "127.0.0.1:5:5", "[::1]", "0x7f000001",
            "2130706433", "x y", "localhost.example"))), whole),
    Kind(400, "InvalidUrl", "a length that is none", tuple(f"{POST}X-A: $text\nContent-Length: {length}\n\n" for length in (
        "-1", "+1", "1x", "0x10", "1e3", "1.0", "", "one", "1 2", "1,1", "NaN", "9" * 99, "\xb2", "-$node", "1;2", "'1'", "4_0", "4, 4",
        " 4 4", "\x0b4")), whole),
    Kind(400, "InvalidUrl", "two lengths", (
        f"{POST}X: $text\nContent-Length: 1$few\nContent-Length: 2$few\n\n", f"{POST}X: $text\nContent-Length: 1$few\n{CHUNKED}\n",
        f"{POST}X: $text\n{CHUNKED}Content-Length: 1$few\n\n"), whole),
    Kind(411, "LengthRequired", "a body in parts", tuple(f"{POST}{CHUNKED}\n5\nhello\n{part}\nhello\n0\n\n$text" for part in (
        "5", "x", "-1", "0x5", " ", "", "\0", "g" * 9, "f" * 17, "${upper}Z")), whole),
    Kind(400, "InvalidUrl", "a coding that is none", tuple(
        f"{POST}X-A: $text\nTransfer-Encoding: {coding}\n\n5\nhello\n0\n\n" for coding in (
            "$text", "gzip", "chunked, identity", "chunked, gzip", "identity", "chunke", "chunked;q=1", "xchunked", "identity, chunked",
            "\x0bchunked", "chunked\nTransfer-Encoding: chunked")), whole),
    Kind(400, "InvalidUrl", "a head that is too long", (
        "GET /$text$long HTTP/1.1\nHost: x\n\n", "GET /route/v1/car/$many_places;$many_places HTTP/1.1\nHost: x\n\n",
        "GET /route/v1/$text/$places?hints=$long HTTP/1.1\nHost: x\n\n", "GET /health HTTP/1.1\nHost: x\nX-$text: $long\n\n",
        "GET /health HTTP/1.1\nHost: x\nX-$long: $text\n\n", "$long$text", "GET /$text" + "\0" * 70_000,
        "GET /health HTTP/1.1\nHost: x\n$fields\n"), whole),
)
PARTS["lf"] = ("\n",)


def drawn(draw: Draw) -> Iterator[tuple[Kind, bytes]]:
    """Requests of all kinds in turn, all different."""
    seen: set[bytes] = set()
    for kind in itertools.cycle(KINDS):
        request = next((made for made in (kind.drawn(draw) for _ in range(1000)) if made not in seen), None)
        assert request is not None, f"there are no more of the kind: {kind.name}"
        seen.add(request)
        yield kind, request


class InProcess:
    """The WSGI function behind gunicorn's parser, without a socket."""

    def __init__(self, folder) -> None:
        self.service, self.settings = open_service(folder / "v"), Config()
        for name, value in FIXED_SETTINGS.items():
            self.settings.set(name, value)

    def answer(self, request: bytes) -> Answer:
        error, begun = malformed(), []
        if classify_head(request[:MAX_HEAD]) is HeadState.WHOLE:
            with contextlib.suppress(ParseException, ValueError, OSError):
                parsed = next(RequestParser(self.settings, [request], ("127.0.0.1", 9)))
                _, environ = create(parsed, mock.Mock(), ("127.0.0.1", 9), ("127.0.0.1", 80), self.settings)
                body = b"".join(self.service(environ, lambda *head: begun.append(head)))
                status, fields = begun[0]
                return Answer(int(status[:3]), {name.lower(): value for name, value in fields}, body)
        fields = {"content-type": "application/json; charset=utf-8"}
        return Answer(error.status, fields, json.dumps({"code": error.code, "message": error.message}).encode())


def test_a_short_body_is_waited_for() -> None:
    """A request is read once its body is there, to the last byte; before a long body, and one whose client waits for `100 Continue`."""
    for length in (1, 4, 5, SHORT_BODY):
        head = f"POST / HTTP/1.1\r\nContent-Length: {length}\r\n\r\n".encode()
        states = [classify_head(head + bytes(count)) for count in (0, max(0, length - 4), length - 1, length)]
        assert states == [HeadState.PARTIAL] * 3 + [HeadState.WHOLE]
    for length, more in ((SHORT_BODY + 1, b""), (5, b"Expect: 100-continue\r\n")):
        assert classify_head(b"POST / HTTP/1.1\r\n%bContent-Length: %d\r\n\r\n" % (more, length)) is HeadState.WHOLE


CROSS = "Sec-Fetch-Site: cross-site\r\n"


def test_requests_at_the_limits_and_fields_of_answers(tmp_path: pathlib.Path) -> None:
    """What is just allowed is answered, and one byte or option more isn't. Any page may lead to `/`. HEAD has the fields of GET."""
    write_network(one_road((0.0, 0.0), (12.0, 0.0), (12.0, 16.0)), tmp_path / "v", "--attribution", "© the town")
    case = InProcess(tmp_path)

    def get(target: str, fields: str = "Host: x\r\n", method: str = "GET", version: str = "1.1") -> Answer:
        return case.answer(f"{method} {target} HTTP/{version}\r\n{fields}\r\n".encode())

    host, fill = "Host: x\r\n", "X-A: " + "a" * 8000 + "\r\n"
    left = 131_072 - len(f"GET /health HTTP/1.1\r\n{host}{16 * fill}X-B: \r\n\r\n")
    for target, fields, status in [
        ("/" + "x" * 65_535, host, 404), ("/" + "x" * 65_536, host, 400),
        ("/health", f"{host}{16 * fill}X-B: {'b' * left}\r\n", 200), ("/health", f"{host}{16 * fill}X-B: {'b' * left}b\r\n", 400),
        ("/health?" + "&".join(map(str, range(50))), host, 200), ("/health?" + "&".join(map(str, range(51))), host, 400),
        ("/health", f"{host}Content-Length: 00\r\n", 200), ("http://x:1/health?a", "Host: other.example\r\n", 200),
        ("/", f"{host}{CROSS}", 403), ("/", f"{host}{CROSS}Sec-Fetch-Mode: navigate\r\n", 200),
        ("/health", f"{host}{CROSS}Sec-Fetch-Mode: navigate\r\n", 403), ("/health", f"{host}Origin: http://x\r\n", 200),
        ("/health", f"{host}Origin: http://other\r\n", 403), ("/health", "Host: 10.0.0.1\r\nX-Local-Address: 10.0.0.1\r\n", 421),
        ("/nodes/length?from=%31&to=2", host, 200), ("/nodes/length?&from=1&&to=2&", host, 200), ("/map/", host, 404),
        ("/map/page.py", host, 404), ("/map/roads/1/0/0?z=1", host, 400), ("/map/about?v=1", host, 400),
        ("/map/roads/17/0/0", host, 400), ("/map/roads/1/2/0", host, 400), ("/map/roads/1/0", host, 404), ("/map/roads/-1/0/0", host, 404),
    ]:
        assert get(target, fields).status == status, (target[:99], fields[:99])
    head = f"GET /health HTTP/1.1\r\n{host}{16 * fill}X-B: {'b' * left}\r\n\r\n".encode()
    assert {classify_head(head[:end]) for end in range(-9, 0)} == {HeadState.PARTIAL}
    for method, path, allowed in (("POST", "/", "GET, HEAD"), ("OPTIONS", "/health", "GET, HEAD"), ("OPTIONS", "/nodes/lengths", "POST")):
        found = get(path, f"{host}Access-Control-Request-Method: POST\r\n", method)
        assert (found.status, found.fields["allow"]) == (405, allowed)
    assert get("/health", "", version="1.0").status == 200
    policies = {"referrer-policy": "no-referrer", "cache-control": "no-cache", "content-security-policy": POLICY}
    kinds = {f".{name}": f"text/{kind}; charset=utf-8" for name, kind in (("css", "css"), ("js", "javascript"), ("html", "html"))}
    kinds[".svg"] = "image/svg+xml"
    files = {f"/map/{file.name}": file for file in (PYTHON / "domethyme_service/page").iterdir() if file.name != "index.html"}
    for path, file in {"/": PYTHON / "domethyme_service/page/index.html", **files, "/health": None, "/nothing": None}.items():
        found = get(path)
        assert get(path, method="HEAD") == found._replace(body=b"")
        assert (found.fields["x-content-type-options"], int(found.fields["content-length"])) == ("nosniff", len(found.body))
        if file is not None:
            assert (found.body, found.fields["content-type"]) == (file.read_bytes(), kinds[file.suffix])
            assert found.fields.items() >= policies.items()
    about, size = get("/map/about"), case.service.size
    wanted = {"box": [0, 0, 12, 16], "attribution": "© the town", "deepest": 16, "grid": 1024, "unit": "duration"}
    assert (json.loads(about.body), about.fields["cache-control"]) == ({**wanted, "version": mock.ANY}, "no-cache")
    assert (size.nodes, size.links, size.points, size.degrees) == (2, 2, 3, pytest.approx(20))
    roads = mock.Mock(box=(-3, 51, 4, 75), edges=2, arrays=mock.Mock(points=[0] * 7))
    assert size_of(mock.Mock(links=5, roads=roads, router=mock.Mock(nodes=6))) == (6, 5, 3.5, 25, 0)
    assert json.loads(get("/map/roads/0/0/0").body) == {"roads": [{"kind": 5, "lines": [[512, 512, 34, 0, 0, -46]]}]}
    write_network(one_road((0.0, 0.0), (0.0, 16.0), (12.0, 16.0)), tmp_path / "v", "--attribution", "© the town")
    assert InProcess(tmp_path).answer(b"GET /map/about HTTP/1.0\r\n\r\n").body != about.body  # (by its version)


class MalformedTests(ServiceCase):
    def test_ten_thousand(self):
        """Each gets the error of its kind, and a valid request after each hundred is answered as ever."""
        service, cases, draw = InProcess(self.folder), drawn(Draw(SEED)), Draw(SEED)
        rights = [by_get(draw, path) for path in (f"/route/v1/car/{HIGH}?steps=true", "/nodes/length?from=1&to=7", draw["get"])]
        wanted = [service.answer(right) for right in rights]
        self.assertEqual([answer.status for answer in wanted], [200, 200, 200])
        for _ in range(COUNT // FEW):
            for kind, request in itertools.islice(cases, FEW):
                self.look_at(kind, request, service.answer(request))
            self.assertEqual([service.answer(right) for right in rights], wanted)

    def test_on_connections(self):
        """A few of each kind over sockets: all are answered and closed, and memory doesn't grow."""
        process, cases = self.serve("--network", self.folder / "v"), drawn(Draw(SEED + 1))

        def some() -> None:
            for kind, request in itertools.islice(cases, len(KINDS)):
                self.look_at(kind, request, self.ask_one(request))

        self.assert_level(process, some)
        self.assertEqual((self.value("worker_restarts_total"), self.value("requests_cancelled_total")), (0, 0))
        self.assertFalse([line for line in self.said if "Traceback" in line], self.said)

    def ask_one(self, request: bytes) -> Answer:
        with socket.create_connection(("127.0.0.1", self.port), SECONDS) as stream:
            with contextlib.suppress(ConnectionError):
                stream.sendall(request)
            return read_answer(stream)

    def look_at(self, kind: Kind, request: bytes, answer: Answer) -> None:
        """Asserts the error of the kind, as JSON."""
        about, faults = (kind.name, request[:300], answer), [json.loads(line) for line in answer.body.splitlines()]
        self.assertEqual((answer.status, *{fault["code"] for fault in faults}), (kind.status, kind.code), about)
        numbers = {} if answer.status != 200 else {"line": int}
        for fault in faults:
            self.assertEqual({name: type(value) for name, value in fault.items()}, {"code": str, "message": str, **numbers}, about)
        media = "application/x-ndjson" if numbers else "application/json"
        self.assertEqual(answer.fields["content-type"], f"{media}; charset=utf-8", about)
