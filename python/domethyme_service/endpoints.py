"""The table of endpoints: what each is asked by, what answers it, its limits and what it costs. Requests are dispatched by it, counted
by it, docs/SERVICE.md has what `python3 -m domethyme_service.endpoints` prints, and `openapi` makes its document of it. An endpoint
is added here alone, and its parameters in `parameters`."""
import enum
import functools
import math
import re
from collections.abc import Callable, Iterator, Mapping
from typing import Any, NamedTuple

from . import costs, handlers, isochrone, osrm, osrm_match, osrm_tables, osrm_trip
from .access import BATCH_TYPES
from .costs import Formula, Work, formula
from .errors import RequestError, invalid_query
from .parameters import (
    ALTERNATIVES, ANNOTATIONS, BEARINGS, COMMON, CONTINUE_STRAIGHT, CONTOURS_COLORS, CONTOURS_METERS, CONTOURS_MINUTES, DENOISE,
    DESTINATION, DESTINATIONS, DEVIATIONS, EXCLUDE, FALLBACK_COORDINATE, FALLBACK_SPEED, FROM, FROM_KEY, GAPS, GENERALIZE, GEOMETRIES, NUMBER,
    OVERVIEW, POLYGONS, RADIUSES, REVERSE, ROUNDTRIP, SCALE_FACTOR, SOURCE, SOURCES, STEPS, TABLE_ANNOTATIONS, TIDY, TIMESTAMPS, TO, TO_KEY,
    WAYPOINTS, Context, Parameter, Values, any_text, unsupported
)
from .static import PAGE_FILES

Handler = Callable[[handlers.Call], handlers.Response]


class Kind(enum.Enum):
    """What a path has: nothing that varies, the name of a file, a tile's numbers, places, or a body of lines."""

    FIXED, FILE, TILE, PLACES, LINES = range(5)


class Endpoint(NamedTuple):
    """An endpoint.

    name        of its counters
    path        as documented, with words in capitals for what varies; "" for a service of OSRM's that isn't there
    answer      what it answers, for the documents
    handler     what answers it
    kind        of its path
    places      how many places it may have
    parameters  those that it takes; None if all are ignored
    cost        the text of the formula of its cost; "" if that is nearly nothing
    schema      the name of its answer's shape (openapi), "" for text; of a batch that of each line
    media       the type of its answer
    method      of HTTP
    unknown     the message for another parameter
    """

    name: str
    path: str
    answer: str
    handler: Handler
    kind: Kind = Kind.FIXED
    places: range = range(0)
    parameters: tuple[Parameter[Any], ...] | None = ()
    cost: str = ""
    schema: str = ""
    media: str = "application/json"
    method: str = "GET"
    unknown: str = "there is no parameter {!r}"

    def values(self, query: Mapping[str, str], context: Context = Context()) -> Values:
        """The values of its parameters. Raises RequestError for an unknown parameter, and for an invalid value."""
        if self.parameters is None:
            return {}
        given = [parameter for parameter in self.parameters if parameter.name in query]
        if len(given) < len(query):
            names = {parameter.name for parameter in given}
            raise invalid_query(self.unknown.format(next(name for name in query if name not in names)))
        found = {parameter: parameter.value(query[parameter.name], context) for parameter in given}
        return {**default_values(self.name, context), **found}

    @property
    def has_lines(self) -> bool:
        """Whether it answers the lines of a body, in blocks."""
        return self.kind is Kind.LINES

    @property
    def formula(self) -> Formula:
        """The cost of a request by its variables."""
        return FORMULAS[self.cost]


def osrm_endpoint(
    service: str, answer: str, handler: Handler, places: range, cost: str, schema: str, *parameters: Parameter[Any]
) -> Endpoint:
    path = f"/{service}/v1/PROFILE/{'PLACE' if len(places) == 1 else 'PLACES'}" if answer else ""
    names = {parameter.name for parameter in parameters}
    taken = (*(each for each in COMMON if each.name not in names), *parameters)
    unknown = f"{service} has no parameter {{!r}}"
    return Endpoint(f"/{service}", path, answer, handler, Kind.PLACES, places, taken, cost, schema, unknown=unknown)


NOWHERE = "there is no such parameter"
NO_PARAMETERS = "this path has no parameters"
OF_PAIRS = (FROM, TO, FROM_KEY, TO_KEY)
SNAPPING = "PLACE*P + BEARING*B"
OF_ROUTES: tuple[Parameter[Any], ...] = (ANNOTATIONS, OVERVIEW, GEOMETRIES, STEPS)
ENDPOINTS = (
    Endpoint("/", "/", "the page", handlers.page_file, parameters=None, media="text/html"),
    Endpoint("/map/files", "/map/FILE", "its files", handlers.page_file, Kind.FILE, parameters=None, media="*/*"),
    Endpoint("/map/about", "/map/about", "the box of the roads, the attribution, and a number that changes with the network",
             handlers.about, schema="MapAbout", unknown=NOWHERE),
    Endpoint("/map/roads", "/map/roads/ZOOM/X/Y", "the roads of a slippy-map (XYZ) tile, up to zoom 16",
             handlers.tile, Kind.TILE, parameters=(any_text("v"),), cost="TILE", schema="MapTile", unknown=NOWHERE),
    osrm_endpoint("route", "a route through 2 to 500 places, with a leg between each two consecutive ones, and other routes between two", handlers.places(osrm.route),
                  range(2, 501), f"{SNAPPING} + PAIR*G + (NODE*W + POINT*V)*(1 + A) + U*(2*REACH*N + 20*PAIR)", "Routes",
                  ALTERNATIVES, CONTINUE_STRAIGHT, WAYPOINTS, *OF_ROUTES),
    osrm_endpoint("nearest", "the nearest points of roads", handlers.places(osrm.nearest), range(1, 2),
                  f"{SNAPPING} + PLACE*K", "Nearest", NUMBER),
    osrm_endpoint("table", "durations (seconds), distances (metres) and weights between up to 2,000 places", handlers.places(osrm_tables.table),
                  range(1, 2001), f"{SNAPPING} + ROW*M*(1 + L/10000) + SUM*S + (CELL + 10*BYTE)*Z", "Table",
                  FALLBACK_SPEED, FALLBACK_COORDINATE, SCALE_FACTOR, TABLE_ANNOTATIONS, SOURCES, DESTINATIONS),
    osrm_endpoint("trip", "a round trip through 2 to 500 places, in an order of little weight", handlers.places(osrm_trip.trip),
                  range(2, 501), f"{SNAPPING} + ROW*M*(1 + L/10000) + CELL*Z + STOP*P + PAIR*G + NODE*W + POINT*V", "Trips",
                  ROUNDTRIP, SOURCE, DESTINATION, *OF_ROUTES),
    osrm_endpoint("match", "the way of a vehicle along roads, by 2 to 500 places where it was measured to be",
                  handlers.places(osrm_match.match), range(2, 501), "TRACE*P + SUM*S + PAIR*G + NODE*W + POINT*V", "Matchings",
                  DEVIATIONS, TIMESTAMPS, GAPS, TIDY, WAYPOINTS, unsupported("approaches", "unrestricted"), *OF_ROUTES),
    Endpoint("/isochrone", "/isochrone/v1/PROFILE/PLACE", "isochrones: what is within minutes or metres of a place, or leads to it, as GeoJSON",
             handlers.places(isochrone.answer), Kind.PLACES, range(1, 2),
             (CONTOURS_MINUTES, CONTOURS_METERS, CONTOURS_COLORS, POLYGONS, GENERALIZE, DENOISE, RADIUSES, BEARINGS,
              any_text("access_token"), REVERSE, EXCLUDE, unsupported("depart_at")), f"{SNAPPING} + REACH*N + CONTOUR*C + DRAWN*R",
             "FeatureCollection", unknown="isochrone has no parameter {!r}"),
    osrm_endpoint("tile", "", handlers.unsupported, range(0), "", ""),
    Endpoint("/nodes/route", "/nodes/route", "a route between nodes by their numbers, from 1", handlers.route, parameters=OF_PAIRS,
             cost="PAIR + NODE*W", schema="NodeRoute"),
    Endpoint("/nodes/length", "/nodes/length", "only its length; null if there is no path", handlers.length, parameters=OF_PAIRS,
             cost="PAIR", schema="NodeLength"),
    Endpoint("/nodes/routes", "/nodes/routes", "a route for each line of the body, as a line of JSON", handlers.routes, Kind.LINES,
             cost="T*(LINE + PAIR) + NODE*W", schema="NodeRoutes", media=BATCH_TYPES[0], method="POST", unknown=NO_PARAMETERS),
    Endpoint("/nodes/lengths", "/nodes/lengths", "a length for each line of the body, as a line of JSON", handlers.lengths,
             Kind.LINES, cost="T*(LINE + PAIR)", schema="NodeLengths", media=BATCH_TYPES[0], method="POST", unknown=NO_PARAMETERS),
    Endpoint("/health", "/health", "200, the numbers of nodes and links, whether `reverse=true` is answered, and how many `alternatives` are", handlers.health, parameters=None,
             schema="Health"),
    Endpoint("/metrics", "/metrics", "the text format 0.0.4 of Prometheus", handlers.metrics, parameters=None,
             media="text/plain"),
)
BY_NAME = {endpoint.name: endpoint for endpoint in ENDPOINTS}
FORMULAS = {endpoint.cost: formula(endpoint.cost or "0") for endpoint in ENDPOINTS}
BY_PATH = {endpoint.path: endpoint for endpoint in ENDPOINTS if endpoint.kind in (Kind.FIXED, Kind.LINES)}
BY_PATH |= {path: endpoint for endpoint in ENDPOINTS if endpoint.kind is Kind.FILE for path in PAGE_FILES if path != "/"}
# Those whose paths have places, by the first word of these; and those of tiles, by what their paths begin with.
BY_WORD = {endpoint.name: endpoint for endpoint in ENDPOINTS if endpoint.kind is Kind.PLACES}
TILE = re.compile(r"(/map/roads)/[0-9]{1,2}/[0-9]{1,6}/[0-9]{1,6}")


@functools.lru_cache(32)
def default_values(name: str, context: Context) -> Values:
    """The values that the parameters of an endpoint have which aren't given."""
    some = BY_NAME[name].parameters or ()
    return {parameter: parameter.value(parameter.default, context) for parameter in some if parameter.default is not None}


def find_endpoint(path: str) -> Endpoint:
    """The endpoint of a path. Raises RequestError if there is none."""
    if found := BY_PATH.get(path):
        return found
    words = path.split("/", 2)
    if len(words) == 3 and (found := BY_WORD.get(f"/{words[1]}")):
        return found
    if tile := TILE.fullmatch(path):
        return BY_NAME[tile[1]]
    raise RequestError(404, "InvalidUrl", "there is no such path")


def endpoint_list() -> list[str]:
    """The lines of the list of endpoints in docs/SERVICE.md."""
    shown = [(each, "?from=NODE&to=NODE" if FROM in (each.parameters or ()) else "") for each in ENDPOINTS if each.path]
    return [f"- `{endpoint.method} {endpoint.path}{query}`: {endpoint.answer}" for endpoint, query in shown]


def cost_tables() -> list[str]:
    """The lines of the tables of costs in docs/SERVICE.md: of endpoints and of variables."""
    rows = ["|Request|Its cost, in units|", "|---|---|", *(f"|`{each.name}`|{shown(each.cost)}|" for each in ENDPOINTS if each.cost)]
    return [*rows, "", "|Number|of|", "|---|---|", *(f"|{name}|{text}|" for name, text in costs.VARIABLES.items())]


def shown(text: str) -> str:
    """A formula as the documents show it, with prices as numbers."""
    return f"`{re.sub(r'[A-Z0-9]+([*][A-Z0-9]+)*', shown_product, text).replace('*', ' ')}`"


def shown_product(found: re.Match[str]) -> str:
    """A product of prices, numbers and variables, as one number and the variables."""
    factors = found[0].split("*")
    named = " ".join(each for each in factors if each in costs.VARIABLES)
    number = math.prod(float(each) if each.isdigit() else Work[each].units for each in factors if each not in costs.VARIABLES)
    return named if named and number == 1 else f"{number:,g} {named}".strip()


def parameter_list() -> list[str]:
    """The lines of the list of the parameters of OSRM's API and Mapbox's in docs/SERVICE.md."""
    lines = ["- OSRM's API", *map(parameter_line, COMMON), "- `route`, `trip` and `match` also", *map(parameter_line, OF_ROUTES)]
    for name in ("route", "nearest", "table", "trip", "match"):
        own = [each for each in BY_NAME[f"/{name}"].parameters or () if each not in (*COMMON, *OF_ROUTES)]
        lines += [f"- `{name}` also", *map(parameter_line, own)]
    own = [each for each in BY_NAME["/isochrone"].parameters or () if each not in COMMON]
    return [*lines, "- `isochrone`, with `radiuses` and `bearings` of OSRM's", *map(parameter_line, own)]


def parameter_line(parameter: Parameter[Any]) -> str:
    refused = f"; refused: {parameter.rejected}" if parameter.rejected else ""
    return f"  - `{parameter.name}`: {parameter.accepted}{refused}" if parameter.accepted else f"  - `{parameter.name}`: refused"


def tables() -> Iterator[list[str]]:
    """The parts of docs/SERVICE.md that this module makes."""
    yield from (endpoint_list(), parameter_list(), cost_tables())


if __name__ == "__main__":
    print("\n\n".join("\n".join(lines) for lines in tables()))
