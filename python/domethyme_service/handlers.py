"""What answers requests: a handler for each endpoint, which takes a Call and returns a Response. Before any work it computes what the
request costs. All raise RequestError, and a DomethymeError if a query fails or a file is damaged."""
import itertools
from collections.abc import Callable, Iterable, Iterator, Mapping
from typing import TYPE_CHECKING, Any, NamedTuple, TypeVar

from domethyme import NetworkError

from . import node_queries
from .access import check_content_type
from .costs import expected, path_nodes
from .errors import RequestError, invalid_query, not_implemented
from .json_text import to_json
from .osrm import Engine
from .osrm_request import Request, parse_request
from .parameters import EXCLUDE, FROM, FROM_KEY, TO, TO_KEY, Context
from .static import CACHE_ONE_DAY, HEADERS, NO_CACHE, NO_STORE, PAGE_FILES

if TYPE_CHECKING:
    from .endpoints import Endpoint
    from .wsgi import Service

T = TypeVar("T")
Environ = dict[str, Any]
JSON = "application/json; charset=utf-8"
LINES = "application/x-ndjson; charset=utf-8"
METRICS = "text/plain; version=0.0.4; charset=utf-8"
MAX_BODY = 4 << 20
# The bytes of a line of a body by which its lines are counted before it is read: `{"from":1,"to":23456}` has one more.
LINE_BYTES = 20


class Response(NamedTuple):
    """A response. The body is complete, or in blocks; `kind` is its media type, "" if there is no body."""

    body: str | bytes | Iterable[bytes]
    kind: str = JSON
    headers: Mapping[str, str] = {}
    status: int = 200


class Call(NamedTuple):
    """A request: the service that answers it, its endpoint, its percent-encoded path, its parameters, and WSGI's environ."""

    service: "Service"
    endpoint: "Endpoint"
    path: str
    query: Mapping[str, str]
    environ: Environ

    def begin(self, variables: dict[str, float]) -> None:
        """Computes the cost of the request by its variables (costs.VARIABLES), and begins to count it. Raises NeedsSlot for a long
        request without a slot, which the worker begins anew once it has one, and RequestError."""
        cost, has_slot = self.endpoint.formula(variables), self.environ.get("domethyme.has_slot", True)
        self.service.meter.begin(cost, has_slot, self.endpoint.has_lines)


def page_file(call: Call) -> Response:
    kind, text = PAGE_FILES[call.path]
    return Response(text, kind, HEADERS)


def about(call: Call) -> Response:
    """What there is to know of the page's map."""
    tiles = needed(call.service.tiles)
    call.endpoint.values(call.query)
    return Response(tiles.about_json, headers=NO_CACHE)


def tile(call: Call) -> Response:
    """A tile of the page's map."""
    tiles = needed(call.service.tiles)
    call.endpoint.values(call.query)
    call.begin({})
    # (of another version while files are replaced, when both are asked for)
    is_asked_for = call.query.get("v", tiles.about["version"]) == tiles.about["version"]
    return Response(unchanged(call, lambda: tiles.read(call.path)), headers=CACHE_ONE_DAY if is_asked_for else NO_STORE)


def places(answer: Callable[[Engine, Request], str]) -> Callable[[Call], Response]:
    """The handler of a service of OSRM's API, or for what is reached, as Mapbox's API has it."""
    def handle(call: Call) -> Response:
        options = call.service.options
        request = parse_request(call.endpoint, call.path, call.query, options.default_radius, options.profiles)
        needed(call.service.engine)
        engine = engine_without(call.service, request.values[EXCLUDE])
        call.begin(expected(call.service.size, request.places, request.values, engine.roads.unit))
        return Response(unchanged(call, lambda: answer(engine, request)).encode("utf-8", "replace"))

    return handle


def engine_without(service: "Service", classes: frozenset[str]) -> Engine:
    """What answers requests without some classes of roads. Raises RequestError if the service wasn't started with these."""
    if classes not in service.engines:
        known = [",".join(sorted(each)) for each in service.engines if each]
        words = f"it was started with {' and '.join(known)}" if known else "it was started without --exclude"
        raise not_implemented(f"exclude={','.join(sorted(classes))} isn't answered: {words}")
    return service.engines[classes]


def unsupported(call: Call) -> Response:
    raise RequestError(400, "InvalidService", f"the service {call.endpoint.name[1:]} isn't supported")


def route(call: Call) -> Response:
    return Response(unchanged(call, lambda: node_queries.route_answer(call.service.queries, *ends(call))))


def length(call: Call) -> Response:
    return Response(unchanged(call, lambda: node_queries.length_answer(call.service.queries, *ends(call))))


def ends(call: Call) -> Iterator[int]:
    """The nodes of a pair."""
    queries = call.service.queries
    values = call.endpoint.values(call.query, Context(nodes=queries.nodes))
    call.begin({"W": path_nodes(call.service.size)})
    return (node_queries.find_node(queries, values, *each) for each in ((FROM, FROM_KEY), (TO, TO_KEY)))


def routes(call: Call) -> Response:
    return batch(call, True)


def lengths(call: Call) -> Response:
    return batch(call, False)


def batch(call: Call, has_routes: bool) -> Response:
    """Reads the whole body, since a client may send all of it before it reads, and answers in blocks, or whole if that is one. An
    error before the first block is an error response; after it the connection is broken."""
    call.endpoint.values(call.query)
    check_content_type(call.environ.get("CONTENT_TYPE", ""))
    lines = int(call.environ.get("CONTENT_LENGTH") or 0) / LINE_BYTES
    call.begin({"T": lines, "W": lines * path_nodes(call.service.size)})
    if "domethyme.body" not in call.environ:  # (it may be begun again, once it has a slot)
        call.environ["domethyme.body"] = read_body(call.environ)
    body = call.environ["domethyme.body"]
    blocks = node_queries.batch_answer(call.service.queries, has_routes, body, lambda block: unchanged(call, block))
    first = next(blocks, b"")
    return Response(first if body.count(b"\n", 0, -1) < node_queries.BLOCK_LINES else itertools.chain([first], blocks), LINES)


def health(call: Call) -> Response:
    queries = call.service.queries
    more: dict[str, object] = {"towards": queries.turned is not None, "alternatives": queries.alternatives}
    if excluded := [sorted(classes) for classes in call.service.engines if classes]:
        more["exclude"] = excluded
    return Response(to_json({"status": "ok", "nodes": queries.nodes, "links": queries.links, **more}))


def metrics(call: Call) -> Response:
    return Response(call.service.metrics.text(call.service.queries.nodes), METRICS)


def unchanged(call: Call, answer: Callable[[], T]) -> T:
    """An answer. If the network's file was written to while it was computed it is computed once more, by blocks that are verified anew.
    Raises NetworkError if that is so again, or the file is another one."""
    if call.service.engine is None:
        return answer()
    file = call.service.engine.roads.arrays.file
    for _ in range(2):
        before = file.check_unchanged()
        try:
            found = answer()
        except RequestError:  # (it may be for what was written that there is no road)
            if file.check_unchanged() == before:
                raise
        else:
            if file.check_unchanged() == before:
                return found
    raise NetworkError("is being written to while it is in use; new files have to take their place by a rename", file.path)


def needed(part: T | None) -> T:
    """A part of the network. Raises RequestError if the service has none."""
    if part is None:
        raise RequestError(400, "InvalidService", "the service has no network: start it with --network")
    return part


def read_body(environ: Environ) -> bytes:
    """The body of a batch. Raises RequestError if it is longer than MAX_BODY, compressed, or incomplete."""
    if environ.get("HTTP_CONTENT_ENCODING", "identity").lower() != "identity":
        raise RequestError(415, "InvalidQuery", "the body may not be compressed")
    length = int(environ.get("CONTENT_LENGTH") or 0)
    if length > MAX_BODY:
        raise RequestError(413, "TooBig", f"the body may have {MAX_BODY} bytes")
    body: bytes = environ["wsgi.input"].read(length)
    if len(body) < length:
        raise invalid_query("the body has not come whole")
    return body
