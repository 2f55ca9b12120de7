"""The service as a WSGI function (PEP 3333): `Service(dataset, options, metrics)(environ, start_response)`. It reads no clock,
starts no process and opens no socket: timeouts and processes are the caller's (gunicorn_app).

It reads RAW_URI, the percent-encoded target, which gunicorn adds to WSGI's keys. For logs it stores in `environ`
`domethyme.endpoint`, the name by which the request is counted, and `domethyme.error`, the RequestError of an error response. The worker
sets `domethyme.has_slot`; where that is False a long request raises NeedsSlot, and the worker calls again with the same `environ`, in
which `domethyme.body` is what was read.
A request on a unix socket comes from nginx, so its X-Local-Address is trusted."""
import http
import logging
import math
import re
import urllib.parse
from collections.abc import Callable, Iterable, Sequence
from typing import NamedTuple

from domethyme import DomethymeError, HierarchyError, LibraryError, OutOfMemory
from domethyme.network.snapping import RoadIndex

from .access import AccessPolicy
from .costs import Meter, NeedsSlot, Size, Work
from .dataset import Dataset
from .endpoints import find_endpoint
from .errors import RequestError, invalid_query, malformed
from .handlers import JSON, Call, Environ, Response
from .metrics import SharedMetrics
from .osrm import Engine
from .queries import NodeKeys, Queries
from .tiles import Tiles

MAX_FIELDS = 50
# Targets of requests, and lengths of bodies.
TARGET = re.compile(r"/[!-~]{0,65535}|https?://[!-~]{1,65528}")
LENGTH = re.compile("[0-9]{1,18}")
# What a target has before its query: a polyline may have question marks.
PATH = re.compile(r"(?:[^?(]*polyline6?\([^)]*\))?[^?]*")
STATUS_LINES = {status.value: f"{status.value} {status.phrase}" for status in http.HTTPStatus}
StartResponse = Callable[..., object]
log = logging.getLogger("domethyme_service")


class Options(NamedTuple):
    """Which requests are allowed, the default of the greatest metres to a road, a table's greatest number of cells, and the words that
    PROFILE may be, any if there are none."""

    access: AccessPolicy
    default_radius: float = 1000.0
    max_table_cells: int = 1_000_000
    profiles: Sequence[str] = ()


# The answer to a CORS preflight.
ALLOWED = {"Access-Control-Allow-Methods": "GET, POST", "Access-Control-Allow-Headers": "Content-Type"}
PREFLIGHT = Response([b""], "", {**ALLOWED, "Access-Control-Max-Age": "7200"}, 204)


class Service:
    """Answers requests from a dataset. Queries are counted in `metrics.own`."""

    def __init__(self, dataset: Dataset, options: Options, metrics: SharedMetrics) -> None:
        self.dataset, self.options, self.metrics = dataset, options, metrics
        roads, keys = dataset.roads, NodeKeys(None if dataset.roads is None else dataset.roads.arrays)
        self.meter = Meter()
        self.queries = self.queries_of(dataset, keys)
        self.size = size_of(dataset)._replace(alternatives=self.queries.alternatives)
        self.engine = None if roads is None else self.engine_of(roads, self.queries)
        # the engines by the classes of roads that they leave out
        self.engines = {} if self.engine is None else {frozenset[str](): self.engine}
        for classes, other in dataset.excluded.items():
            if other.roads is not None:
                self.engines[classes] = self.engine_of(other.roads, self.queries_of(other, keys))
        self.tiles = None if roads is None else Tiles(roads.arrays)
        self.headers = {"X-Content-Type-Options": "nosniff", **options.access.headers}

    def queries_of(self, dataset: Dataset, keys: NodeKeys) -> Queries:
        """The queries to a dataset's hierarchy, counted with all others."""
        return Queries(dataset.router, dataset.links, self.metrics, self.meter, keys, dataset.turned, dataset.summers)

    def engine_of(self, roads: RoadIndex, queries: Queries) -> Engine:
        """What answers requests by places on some roads."""
        roads.on_looked = lambda count: self.meter.spend(Work.ROAD, count)
        return Engine(queries, roads, self.options.max_table_cells, self.meter)

    def __call__(self, environ: Environ, start_response: StartResponse) -> Iterable[bytes]:
        environ["domethyme.endpoint"] = "other"
        try:
            return self.send(environ, start_response, self.respond(environ))
        except NeedsSlot:
            raise
        except RequestError as error:
            return self.error_response(environ, start_response, error)
        except (HierarchyError, LibraryError, OutOfMemory) as error:  # (of a query)
            message = error.message
        except DomethymeError as error:
            log.error("%s", error.message)
            message = "a file of the service can't be read: its log says why"
        except Exception as error:
            message = self.failure(error)
        return self.error_response(environ, start_response, RequestError(500, "InternalError", message))

    def failure(self, error: Exception) -> str:
        """Logs an error inside, and returns the message for it. What a file that is written in place leads to is that file's."""
        try:
            if self.engine is not None:
                self.engine.roads.arrays.file.check_unchanged()
        except DomethymeError as changed:
            log.error("%s", changed.message)
            return "a file of the service can't be read: its log says why"
        log.error("error while answering", exc_info=error)
        return "an error inside"

    def error_response(self, environ: Environ, start_response: StartResponse, error: RequestError) -> Iterable[bytes]:
        """Answers with an error, and stores it in `environ`."""
        environ["domethyme.error"] = error
        return self.send(environ, start_response, Response(error.json(), JSON, error.headers, error.status))

    def send(self, environ: Environ, start_response: StartResponse, response: Response) -> Iterable[bytes]:
        """Starts a response, and returns its body, which is empty for HEAD."""
        headers, body = {"Content-Type": response.kind} if response.kind else {}, response.body
        if isinstance(body, (str, bytes)):
            whole = body if isinstance(body, bytes) else body.encode("utf-8", "replace")
            headers["Content-Length"], body = str(len(whole)), [whole]
        start_response(STATUS_LINES[response.status], [*{**headers, **self.headers, **response.headers}.items()])
        return [] if environ["REQUEST_METHOD"] == "HEAD" else body

    def respond(self, environ: Environ) -> Response:
        """The response to a request. Raises RequestError, and a DomethymeError if a query fails or a file is damaged."""
        host, path, query = parse_target(environ)
        endpoint = find_endpoint(path)
        environ["domethyme.endpoint"] = endpoint.name
        local = environ.get("SERVER_NAME") if environ.get("REMOTE_ADDR") else environ.get("HTTP_X_LOCAL_ADDRESS", "")
        self.options.access.check(host, str(local), environ, endpoint.name == "/")
        method = environ["REQUEST_METHOD"]
        if method == "OPTIONS" and "HTTP_ACCESS_CONTROL_REQUEST_METHOD" in environ and self.options.access.headers:
            return PREFLIGHT
        if method != endpoint.method and not (method == "HEAD" and endpoint.method == "GET"):
            allowed = "GET, HEAD" if endpoint.method == "GET" else endpoint.method
            raise RequestError(405, "MethodNotAllowed", f"the method of this path is {endpoint.method}", Allow=allowed)
        has_body = environ.get("CONTENT_LENGTH", "0").strip("0") or "HTTP_TRANSFER_ENCODING" in environ
        if endpoint.method == "POST" and "HTTP_TRANSFER_ENCODING" in environ:
            raise RequestError(411, "LengthRequired", "a body needs its Content-Length")
        if endpoint.method == "GET" and (has_body or "HTTP_CONTENT_ENCODING" in environ):
            raise invalid_query("a GET has no body")
        return endpoint.handler(Call(self, endpoint, path, query, environ))


def size_of(dataset: Dataset) -> Size:
    """How large the files are, by which costs are computed."""
    if dataset.roads is None:
        return Size(dataset.router.nodes, dataset.links)
    west, south, east, north = dataset.roads.box
    points = len(dataset.roads.arrays.points) / max(1, dataset.roads.edges)
    return Size(dataset.router.nodes, dataset.links, points, math.hypot(east - west, north - south))


def parse_target(environ: Environ) -> tuple[str | None, str, dict[str, str]]:
    """The host, the path and the parameters of a request. Raises RequestError."""
    target, host = environ["RAW_URI"], environ.get("HTTP_HOST")
    length, coding = environ.get("CONTENT_LENGTH") or "0", environ.get("HTTP_TRANSFER_ENCODING", "chunked")
    if not TARGET.fullmatch(target) or not LENGTH.fullmatch(length) or coding.lower() != "chunked" or "," in (host or ""):
        raise malformed()
    if environ["SERVER_PROTOCOL"] not in ("HTTP/1.0", "HTTP/1.1"):
        raise RequestError(505, "HttpVersion", "the service speaks HTTP/1.0 and HTTP/1.1")
    if host is None and environ["SERVER_PROTOCOL"] == "HTTP/1.1" or environ["REQUEST_METHOD"] == "CONNECT":
        raise malformed()
    if target[0] != "/":
        host, _, target = target.partition("://")[2].partition("/")
        target = f"/{target}"
    path = PATH.findall(target)[0]
    query = target[len(path) + 1 :]
    try:
        pairs = parse_query(query)
    except ValueError:
        raise invalid_query("the parameters cannot be read") from None
    parameters = dict(pairs)
    if len(parameters) != len(pairs):
        raise invalid_query("a parameter comes twice")
    return host, path, parameters


def parse_query(query: str) -> list[tuple[str, str]]:
    """The names and values of a query. Raises ValueError."""
    if "%" in query or "+" in query or query.count("&") >= MAX_FIELDS:
        return urllib.parse.parse_qsl(query, keep_blank_values=True, errors="strict", max_num_fields=MAX_FIELDS)
    return [(name, value) for name, _, value in (field.partition("=") for field in query.split("&") if field)]
