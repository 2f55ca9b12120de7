"""The routes and areas that are drawn, of a file of GeoJSON."""
import itertools
import json
import re
from collections.abc import Iterable, Iterator
from typing import Any, NamedTuple

from ..csv_tables import open_input
from ..errors import NetworkError
from ..network.geo import Point
from .geometry import overlap_pieces, unwrapped

COLOURS = ["#0072b2", "#d55e00", "#009e73", "#cc5f9c", "#b8860b", "#2b8fc7", "#7b3294", "#5b7a1f"]
NARROWEST, STEP_OF_WIDTH, MAX_NESTED = 4.5, 4, 3
TOO_LARGE = 1e12
NO_PATH, NOTHING = "no path", "nothing"
NO_NAME = "unnamed road"
# The units of contours by their metrics, and a colour that an area may bring.
CONTOURS = {"time": "min", "distance": "m"}
COLOUR = re.compile("#[0-9A-Fa-f]{6}")
NOT_BLANK = re.compile(r"\S")


class DrawnRoute(NamedTuple):
    """A route as it is shown: its streets with their ways, as texts, its places, or None where there is no route, and the pieces of its
    line with their widths. An area has rings in place of a line."""

    label: str
    figures: str
    colour: str
    steps: list[tuple[str, str]] = []
    line: list[Point] | None = None
    pieces: list[tuple[float, list[Point]]] = []
    rings: list[list[Point]] = []

    @property
    def places(self) -> list[Point]:
        """Where it lies."""
        return self.line or list(itertools.chain.from_iterable(self.rings))


def read_routes(path: str, label: str | None) -> tuple[list[DrawnRoute], list[str]]:
    """The routes of a file of GeoJSON, and what its collections ask to be said."""
    with open_input(path) as stream:
        try:
            text = stream.read().decode("utf-8-sig")
        except UnicodeDecodeError as error:
            raise NetworkError("isn't UTF-8", path) from error
    if not text.strip():
        raise NetworkError("is empty: a step that was to write it has failed", path)
    said: list[str] = []
    return routes_of(features_in(text, path, said), path, label), said


def routes_of(features: Iterable[Any], path: str, label: str | None) -> list[DrawnRoute]:
    """The routes of features of GeoJSON, which are in the file at the path."""
    coloured = enumerate(zip(features, itertools.cycle(COLOURS)), 1)
    return placed([make_route(feature, FeatureRef(path, number), label, colour) for number, (feature, colour) in coloured])


def placed(routes: list[DrawnRoute]) -> list[DrawnRoute]:
    """The routes with longitudes beyond 180 degrees where they cross that meridian, all on one side of the first one's
    begin; and with their pieces, which are the wider, the more of the later routes go along them."""
    near = next((route.places[0][0] for route in routes if route.places), 0.0)
    lines = [unwrapped(route.line or [], near) for route in routes]
    lines = [line * 2 if len(line) == 1 else line for line in lines]
    return [
        route._replace(
            line=line or None, pieces=[(NARROWEST + STEP_OF_WIDTH * depth, piece) for depth, piece in pieces],
            rings=[unwrapped(ring, near) for ring in route.rings],
        )
        for route, line, pieces in zip(routes, lines, overlap_pieces(lines, MAX_NESTED))
    ]


def features_in(text: str, path: str, said: list[str]) -> Iterator[Any]:
    """The features of a text of collections and features, one after the other. Attributions of collections go to `said`."""
    decoder, place = json.JSONDecoder(), 0
    while (found := NOT_BLANK.search(text, place)) is not None:
        row = text.count("\n", 0, found.start()) + 1
        try:
            document, place = decoder.raw_decode(text, found.start())
        except json.JSONDecodeError as error:
            raise NetworkError(f"isn't GeoJSON: {error.msg}", path, error.lineno) from error
        except (RecursionError, ValueError) as error:
            raise NetworkError(f"isn't GeoJSON: {error}", path, row) from error
        members: Any = document if isinstance(document, dict) else {}
        kind, features = members.get("type"), members.get("features")
        if kind != "Feature" and (kind != "FeatureCollection" or not isinstance(features, list)):
            raise NetworkError("is neither a feature nor a collection of features", path, row)
        yield from [document] if kind == "Feature" else features
        if isinstance(members.get("attribution"), str):
            said.append(" ".join(members["attribution"].split()))


class FeatureRef(NamedTuple):
    """Where a feature is: the file, and its number there."""

    path: str
    number: int

    def require(self, condition: object, problem: str) -> None:
        """Refuses the feature where it isn't so."""
        if not condition:
            raise NetworkError(f"feature {self.number} {problem}", self.path)


def make_route(feature: Any, place: FeatureRef, label: str | None, colour: str) -> DrawnRoute:
    """A feature as a route, still without pieces."""
    place.require(isinstance(feature, dict) and isinstance(feature.get("properties"), dict), "has no properties")
    properties, geometry = feature["properties"], feature.get("geometry")
    place.require(label is None or label in properties, f"has no property {label}")
    contour = contour_of(properties)
    name = contour if label is None else str(properties[label])
    if isinstance(geometry, dict) and geometry.get("type") in ("Polygon", "MultiPolygon"):
        return make_area(properties, geometry, place, f"area {place.number}" if name is None else name, colour)
    name, line = f"route {place.number}" if name is None else name, read_line(geometry, place)
    if line is None:
        return DrawnRoute(name, NO_PATH if contour is None else NOTHING, colour)
    metres = read_number(properties, "metres", place)
    figures = kilometres(metres)
    if properties.get("seconds", 0.0) is not None:
        figures += f", {minutes(read_number(properties, 'seconds', place))}"
    steps, line = read_steps(properties, place), unwrapped(line, line[0][0])
    line = line if len(line) > 1 else line * 2
    return DrawnRoute(name, figures, colour, [(street or NO_NAME, way_of(way)) for street, way in steps], line)


def contour_of(properties: dict[str, Any]) -> str | None:
    """What a contour is called, by its number."""
    contour, unit = properties.get("contour"), CONTOURS.get(str(properties.get("metric")), "")
    return f"{contour:.12g} {unit}".strip() if is_number(contour) else None


def make_area(properties: dict[str, Any], geometry: dict[str, Any], place: FeatureRef, name: str, colour: str) -> DrawnRoute:
    """A feature with polygons, by its own colour where it has one."""
    whole = geometry.get("coordinates")
    polygons: Any = [whole] if geometry["type"] == "Polygon" else whole
    place.require(isinstance(polygons, list) and polygons and all(map(is_polygon, polygons)), "has no polygon of places")
    fill = properties.get("fill")
    own = fill if isinstance(fill, str) and COLOUR.fullmatch(fill) else colour
    rings = [[(lon, lat) for lon, lat, *_ in ring] for polygon in polygons for ring in polygon]
    return DrawnRoute(name, "", own, rings=rings)


def is_polygon(value: Any) -> bool:
    """Whether a value of JSON is the rings of a polygon."""
    return isinstance(value, list) and len(value) > 0 and all(is_line(ring) and len(ring) > 3 for ring in value)


def read_line(geometry: Any, place: FeatureRef) -> list[Point] | None:
    """The places of a geometry, or None where there is none."""
    if geometry is None:
        return None
    kind, whole = (geometry.get("type"), geometry.get("coordinates")) if isinstance(geometry, dict) else (None, None)
    parts: Any = {"LineString": [whole], "MultiLineString": whole}.get(str(kind))
    place.require(isinstance(parts, list) and parts and all(map(is_line, parts)), "has no line of places")
    return [(lon, lat) for part in parts for lon, lat, *_ in part]


def is_line(value: Any) -> bool:
    """Whether a value of JSON is a line of places in degrees."""
    return isinstance(value, list) and len(value) > 1 and all(map(is_place, value))


def is_place(value: Any) -> bool:
    """Whether a value of JSON is a place in degrees."""
    is_pair = isinstance(value, list) and len(value) >= 2 and all(map(is_number, value[:2]))
    return is_pair and abs(value[0]) <= 180 and abs(value[1]) <= 90


def is_number(value: Any) -> bool:
    """Whether a value of JSON is a number of a size that can be drawn."""
    return isinstance(value, (int, float)) and not isinstance(value, bool) and abs(value) < TOO_LARGE


def read_number(properties: dict[str, Any], name: str, place: FeatureRef) -> float:
    """A property that is a number, 0 or more."""
    value: Any = properties.get(name)
    place.require(is_number(value) and value >= 0, f"has no number {name}")
    return float(value)


def read_steps(properties: dict[str, Any], place: FeatureRef) -> list[tuple[str, float]]:
    """The streets of a route with their metres, each once where several steps are on it; none where it has no steps."""
    steps = properties.get("steps", [])
    place.require(isinstance(steps, list) and all(isinstance(step, dict) for step in steps), "has no list of steps")
    streets = [(str(step.get("name") or ""), read_number(step, "metres", place)) for step in steps]
    return [(name, sum(metres for _, metres in some)) for name, some in itertools.groupby(streets, lambda street: street[0])]


def way_of(metres: float) -> str:
    """The way along a street: whole metres below a kilometre."""
    return f"{round(metres)} m" if round(metres) < 1000 else kilometres(metres)


def kilometres(metres: float) -> str:
    """A distance as legends show it: two digits after the point below 10 km, and one from there on."""
    return f"{metres / 1000:.1f} km" if metres >= 10_000 else f"{metres / 1000:.2f} km"


def minutes(seconds: float) -> str:
    """A time as legends show it: tenths of minutes below 10 minutes, and else minutes, or hours and minutes."""
    if seconds < 600:
        return f"{seconds / 60:.1f} min"
    whole = round(seconds / 60)
    return f"{whole} min" if whole < 60 else f"{whole // 60} h {whole % 60} min"
