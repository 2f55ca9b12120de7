"""The parameters of requests: how the text of each becomes a value, what is rejected, and how the documents describe it. First
their kinds, and then the parameters themselves, which the table of endpoints lists (endpoints)."""
import itertools
import re
from collections.abc import Callable, Mapping, Sequence
from typing import Any, Generic, NamedTuple, TypeVar

from domethyme.limits import DEFAULT_DEVIATION, MAX_DEVIATION
from domethyme.network.without import CLASSES, parse_classes

from .errors import invalid_query, invalid_value, not_implemented

T = TypeVar("T")
METRES = re.compile(r"[0-9]{1,9}(?:\.[0-9]{0,20})?")
BEARING = re.compile(r"([0-9]{1,3}),([0-9]{1,3})")
INDEX = re.compile("[0-9]{1,4}")
NODE = re.compile("[0-9]{1,10}")
COUNT = re.compile("[0-9]{1,3}")
DECIMAL = re.compile(r"[0-9]{1,9}(?:\.[0-9]{1,20})?")
TIMESTAMP = re.compile("[0-9]{1,12}")
COLOR = re.compile("[0-9A-Fa-f]{6}")
MAX_CONTOURS = 4


class Context(NamedTuple):
    """What values depend on: the number of places, the default of the metres to a road, and the number of nodes."""

    places: int = 0
    default_radius: float = 0.0
    nodes: int = 0


# Returns the value of a text. Raises ValueError for an invalid one, or a RequestError with a message of its own.
Parse = Callable[[str, Context], T]


class Parameter(Generic[T]):
    """A parameter. `invalid` is the message for an invalid text, after the name; `default` the text of a missing one.
    `accepted` and `rejected` are its line in docs/SERVICE.md; rejected values are those of OSRM that get NotImplemented. `words` are
    all texts that it may have, () for any number."""

    def __init__(
        self, name: str, accepted: str, parse: Parse[T], invalid: str = "", default: str | None = None, rejected: str = "",
        words: Sequence[str] = ()
    ) -> None:
        self.name, self.accepted, self.rejected, self.words = name, accepted, rejected, words
        self.parse, self.invalid, self.default = parse, invalid, default

    def value(self, text: str, context: Context) -> T:
        """The value of a text. Raises RequestError."""
        try:
            return self.parse(text, context)
        except ValueError:
            raise invalid_value(f"{self.name} {self.invalid}") from None


# The values of parameters; one without a default may be missing.
Values = Mapping[Parameter[Any], Any]


def choice(name: str, *words: str, rejected: Sequence[str] = (), message: str = "", condition: str = "") -> Parameter[str]:
    """One of `words`; the first is the default. Words of `rejected` are refused with `message`. `condition` is for the documents."""
    def parse(text: str, _context: Context) -> str:
        if text in rejected:
            raise not_implemented(message)
        require(text in words)
        return text

    lists = [", ".join(f"`{word}`" for word in some) for some in (words, rejected)]
    invalid = f"has to be one of {', '.join((*words, *rejected))}"
    return Parameter(name, lists[0] + condition, parse, invalid, words[0], lists[1], words)


def any_text(name: str, accepted: str = "any, not used") -> Parameter[str]:
    return Parameter(name, accepted, lambda text, _context: text)


def unsupported(name: str, allowed: str = "") -> Parameter[None]:
    """An unsupported parameter: only an empty value is accepted, or a list of the word `allowed`, which changes nothing."""
    def parse(text: str, _context: Context) -> None:
        if not {"", allowed}.issuperset(text.split(";") if allowed else [text]):
            raise not_implemented(f"{name} isn't supported")

    return Parameter(name, f"`{allowed}`" if allowed else "", parse, rejected="all others" if allowed else "all")


def number_range(name: str, high: float, accepted: str) -> Parameter[float]:
    """A number from 0 to `high`, 0 without the parameter."""
    parse = parse_number(DECIMAL, float, lambda number: number <= high)
    return Parameter(name, f"{accepted}; 0 without it", parse, f"is a number from 0 to {high:,g}", "0")


def contours(name: str, high: int, condition: str) -> Parameter[list[float]]:
    """Numbers above 0 to `high` that rise."""
    def parse(text: str, _context: Context) -> list[float]:
        words = text.split(",")
        require(len(words) <= MAX_CONTOURS and all(map(DECIMAL.fullmatch, words)))
        values = [float(word) for word in words]
        require(values[-1] <= high and all(low < value for low, value in itertools.pairwise([0.0, *values])))
        return [int(value) if value.is_integer() else value for value in values]

    accepted = f"1 to {MAX_CONTOURS} numbers above 0, rising, to {high:,}"
    return Parameter(name, accepted + condition, parse, f"are {accepted}")


def annotations(known: Sequence[str], default: str, is_list_only: bool = False) -> Parameter[list[str]]:
    """A list of words of `known`. Unless `is_list_only`, `true` is all of them and `false` none."""
    def parse(text: str, _context: Context) -> list[str]:
        if text in ("true", "false") and not is_list_only:
            return list(known) if text == "true" else []
        words = text.split(",")
        require(set(words) <= set(known) and len(set(words)) == len(words))
        return words

    accepted = f"some of {', '.join(f'`{word}`' for word in known)}"
    accepted = f"{accepted}; `{default}` without it" if is_list_only else f"`false`, `true`, or {accepted}"
    some = f"some of {', '.join(known)}, each once"
    return Parameter("annotations", accepted, parse, f"are {some if is_list_only else f'true, false, or {some}'}", default)


def node(name: str) -> Parameter[int]:
    return Parameter(name, "", lambda text, context: parse_node(text, name, context.nodes))


def require(is_valid: object) -> None:
    """Raises ValueError unless a text is valid."""
    if not is_valid:
        raise ValueError


def parse_number(pattern: re.Pattern[str], convert: Callable[[str], T], is_valid: Callable[[T], bool]) -> Parse[T]:
    """Parses a number of this form, if it is a valid one."""
    def parse(text: str, _context: Context) -> T:
        require(pattern.fullmatch(text) and is_valid(convert(text)))
        return convert(text)

    return parse


def per_place(parse: Parse[T], missing: str) -> Parse[list[T]]:
    """Parses a value for each place, or an empty word for each; `missing` is the message for another number of values."""
    def parse_all(text: str, context: Context) -> list[T]:
        found = [parse(word, context) for word in text.split(";")] if text else [parse("", context)] * context.places
        if len(found) != context.places:
            raise invalid_query(missing)
        return found

    return parse_all


def parse_radius(word: str, context: Context) -> float:
    """The greatest metres to a road."""
    require(word in ("", "unlimited") or METRES.fullmatch(word))
    return context.default_radius if not word else float("inf") if word == "unlimited" else float(word)


def parse_deviation(word: str, _context: Context) -> float:
    """The standard deviation of a place of a trace, in metres."""
    require(not word or METRES.fullmatch(word) and 0 < float(word) <= MAX_DEVIATION)
    return float(word) if word else DEFAULT_DEVIATION


def parse_timestamps(text: str, context: Context) -> list[int]:
    """The seconds of each place, which don't fall."""
    words = text.split(";")
    require(all(map(TIMESTAMP.fullmatch, words)))
    if len(words) != context.places:
        raise invalid_query("there has to be a timestamp for each place")
    require(all(before <= behind for before, behind in itertools.pairwise(map(int, words))))
    return [int(word) for word in words]


def parse_bearing(word: str, _context: Context) -> tuple[int, int] | None:
    """The direction of the road at the place, and the greatest deviation from it, in degrees; None for any."""
    if not word:
        return None
    degrees, _, deviation = word.partition(",")
    require(BEARING.fullmatch(word) and int(degrees) <= 360 and int(deviation) <= 180)
    return int(degrees), int(deviation)


def parse_approach(word: str, _context: Context) -> bool:
    """Whether a route has to come to the place, and to leave it, with it at the side of the road on which vehicles are."""
    if word == "opposite":
        raise not_implemented("approaches=opposite isn't supported")
    require(word in ("", "unrestricted", "curb"))
    return word == "curb"


def parse_colors(text: str, _context: Context) -> list[str]:
    words = text.split(",")
    require(all(map(COLOR.fullmatch, words)))
    return words


def parse_alternatives(text: str, _context: Context) -> int:
    """How many other routes are asked for; `true` is one."""
    require(text in ("true", "false") or COUNT.fullmatch(text))
    return int(text) if text.isdigit() else int(text == "true")


def parse_exclude(text: str, _context: Context) -> frozenset[str]:
    """The classes of roads that are left out."""
    return parse_classes(text) if text else frozenset()


def parse_indices(text: str, context: Context) -> list[int]:
    if text == "all":
        return list(range(context.places))
    words = text.split(";")
    require(all(INDEX.fullmatch(word) and int(word) < context.places for word in words))
    return [int(word) for word in words]


def parse_waypoints(text: str, context: Context) -> list[int] | None:
    """The numbers of the places at which legs begin or end, once each in order; None for all."""
    if not text:
        return None
    found = parse_indices(text, context)
    require(text != "all" and found[0] == 0 and found[-1] == context.places - 1)
    return sorted(set(found))


def parse_node(text: object, name: str, nodes: int) -> int:
    """The node, from 0, of a text or of a JSON number from 1 to `nodes`. Raises RequestError."""
    if text is None:
        raise invalid_query(f"{name} is missing")
    digits = str(text) if isinstance(text, (int, str)) and not isinstance(text, bool) else ""
    if not NODE.fullmatch(digits) or not 1 <= int(digits) <= nodes:
        raise invalid_value(f"{name} has to be a node from 1 to {nodes}")
    return int(digits) - 1


SNAPPING = choice("snapping", "default", "any")
RADIUSES = Parameter(
    "radiuses", "for each place metres, `unlimited`, or nothing for that of `--radius`",
    per_place(parse_radius, "there has to be a radius for each place"), "are metres, or unlimited", "",
)
BEARINGS = Parameter(
    "bearings", "for each place `DEGREES,RANGE`, from north, clockwise, to 360 and 180, or nothing",
    per_place(parse_bearing, "there has to be a bearing for each place, or nothing between semicolons"),
    "are DEGREES,RANGE, from 0 to 360 and from 0 to 180", "",
)
APPROACHES = Parameter(
    "approaches", "for each place `unrestricted`, or nothing, or `curb`: with the place at the side of the road on which vehicles are",
    per_place(parse_approach, "there has to be an approach for each place, or nothing between semicolons"),
    "are unrestricted or curb", "", "`opposite`",
)
FALLBACK_SPEED, SCALE_FACTOR = [
    Parameter(name, "a number above 0", parse_number(METRES, float, lambda number: number > 0), "is a number above 0")
    for name in ("fallback_speed", "scale_factor")
]
FALLBACK_COORDINATE = choice("fallback_coordinate", "input", "snapped")
EXCLUDE = Parameter(
    "exclude", f"classes of roads, with commas between, of {', '.join(f'`{each}`' for each in CLASSES)}", parse_exclude,
    f"are some of {', '.join(CLASSES)}, each once", "", "those that the service wasn't started with",
)
GENERATE_HINTS, SKIP_WAYPOINTS = choice("generate_hints", "true", "false"), choice("skip_waypoints", "false", "true")
OVERVIEW = choice("overview", "simplified", "full", "false")
GEOMETRIES = choice("geometries", "polyline", "polyline6", "geojson")
STEPS, POLYGONS = choice("steps", "false", "true"), choice("polygons", "false", "true")
ANNOTATIONS = annotations(("duration", "weight", "distance", "datasources", "speed", "nodes"), "false")
TABLE_ANNOTATIONS = annotations(("duration", "distance", "weight"), "duration", is_list_only=True)
NUMBER = Parameter(
    "number", "1 to 100; 1 without it", parse_number(INDEX, int, lambda number: 1 <= number <= 100), "is from 1 to 100", "1"
)
SOURCES, DESTINATIONS = [
    Parameter(name, "`all`, or numbers of places, from 0", parse_indices, "are numbers of places, from 0", "all")
    for name in ("sources", "destinations")
]
ALTERNATIVES = Parameter(
    "alternatives", "`false`, a number, or `true` for 1: up to 3 other routes, between two places if the service has `--towards`",
    parse_alternatives, "is true, false or a number", "false",
)
REVERSE = choice("reverse", "false", "true", condition=" if the service has `--towards`: what leads to the place")
ROUNDTRIP, SOURCE = choice("roundtrip", "true", "false"), choice("source", "any", "first")
DESTINATION = choice("destination", "any", "last")
WAYPOINTS = Parameter(
    "waypoints", "numbers of places, from 0, at which legs begin and end, the first place and the last at both ends; all without it",
    parse_waypoints, "are numbers of places, from 0, of which the first is 0 and the last that of the last place", "",
)
CONTINUE_STRAIGHT = choice("continue_straight", "default", "false", "true")
DEVIATIONS = Parameter(
    "radiuses",
    f"for each place the standard deviation of its error in metres, above 0, to {MAX_DEVIATION:g}, or nothing for {DEFAULT_DEVIATION:g}",
    per_place(parse_deviation, "there has to be a radius for each place"), f"are metres, above 0 and to {MAX_DEVIATION:g}", "",
)
TIMESTAMPS = Parameter(
    "timestamps", "for each place whole seconds, which don't fall", parse_timestamps, "are whole seconds for each place, which don't fall",
)
GAPS, TIDY = choice("gaps", "split", "ignore"), choice("tidy", "false", "true")
CONTOURS_MINUTES = contours("contours_minutes", 600, ", if weights are times")
CONTOURS_METERS = contours("contours_meters", 1_000_000, ", if weights are lengths")
CONTOURS_COLORS = Parameter(
    "contours_colors", "six hexadecimal digits for each contour; without it four that differ for the colour-blind",
    parse_colors, "are six hexadecimal digits each",
)
GENERALIZE = number_range("generalize", 1e6, "metres by which contours are simplified")
DENOISE = number_range("denoise", 1, "0 to 1: parts and holes smaller than this share of the largest part go")
FROM, TO, FROM_KEY, TO_KEY = node("from"), node("to"), any_text("from_key", ""), any_text("to_key", "")

# The parameters of all of OSRM's services.
COMMON: tuple[Parameter[Any], ...] = (
    RADIUSES, any_text("hints"), GENERATE_HINTS, SKIP_WAYPOINTS, BEARINGS, APPROACHES,
    EXCLUDE, SNAPPING, choice("format", "json", rejected=["flatbuffers"], message="flatbuffers aren't supported"),
)
