"""Parses a request of OSRM's API, or of an isochrone: its places, and the values of its parameters (endpoints). An
unsupported parameter that would change the answer is an error, never ignored."""
import re
import urllib.parse
from collections.abc import Mapping, Sequence
from typing import TYPE_CHECKING, NamedTuple

from domethyme.network.geo import Point
from domethyme.network.polyline import decode_polyline

from .errors import RequestError, invalid_query, invalid_value, too_big
from .parameters import Context, Values

if TYPE_CHECKING:
    from .endpoints import Endpoint

DEGREES = r"([-+]?(?:[0-9]{1,3}(?:\.[0-9]{0,20})?|\.[0-9]{1,20})(?:[eE][-+]?[0-9]{1,2})?)"
PLACE = re.compile(f"{DEGREES},{DEGREES}")
PROFILE = re.compile("[A-Za-z0-9_.-]{1,64}")
POLYLINE = re.compile(r"polyline(6?)\((.*)\)", re.DOTALL)


class Request(NamedTuple):
    """A request: the places (lon, lat) in degrees, and the values of the parameters."""

    places: list[Point]
    values: Values


def parse_request(
    endpoint: "Endpoint", path: str, query: Mapping[str, str], default_radius: float, profiles: Sequence[str] = ()
) -> Request:
    """The request of a path `/SERVICE/v1/PROFILE/PLACES`, percent-encoded, where an isochrone's PROFILE may have two
    words, with the metres to a road of a place without a radius. The last word is one of `profiles`, if there are any. Raises
    RequestError."""
    is_isochrone = endpoint.name == "/isochrone"
    words = path.split("/", -1 if is_isochrone else 4)
    form = "/isochrone/v1/PROFILE/PLACE" if is_isochrone else "/SERVICE/v1/PROFILE/PLACES"
    if words[2] != "v1":
        raise RequestError(400, "InvalidVersion", f"the path is {form}")
    if len(words) not in (5, 5 + is_isochrone) or not all(map(PROFILE.fullmatch, words[3:-1])):
        hint = ", and PROFILE has a word or two" if is_isochrone else ""
        raise RequestError(400, "InvalidUrl", f"the path is {form}{hint}")
    if profiles and words[-2] not in profiles:
        raise invalid_value(f"PROFILE has to be one of {', '.join(profiles)}")
    places = parse_coordinates(words[-1], endpoint.places)
    return Request(places, endpoint.values(query, Context(len(places), default_radius)))


def parse_coordinates(text: str, counts: range) -> list[Point]:
    """The places of `LON,LAT;..`, `polyline(..)` or `polyline6(..)`, of which there may be so many. Raises RequestError."""
    try:
        decoded = urllib.parse.unquote(text, errors="strict").removesuffix(".json")
        if found := POLYLINE.fullmatch(decoded):
            places = decode_polyline(found[2], 6 if found[1] else 5)
            count = len(places)
        else:
            words = decoded.split(";")
            places, count = [parse_coordinate(word) for word in words[: counts.stop]], len(words)
    except ValueError:
        raise invalid_query("places are LON,LAT;LON,LAT;.. or polyline(..)") from None
    for number, (lon, lat) in enumerate(places):
        if abs(lon) > 180 or abs(lat) > 90:
            hint = "; is it LAT,LON?" if abs(lon) <= 90 and abs(lat) <= 180 else ""
            order = "longitude first, from -180 to 180, then latitude, from -90 to 90"
            raise invalid_value(f"place {number} is {lon:g},{lat:g}: {order}{hint}")
    if len(counts) > 1 and count >= counts.stop:
        raise too_big(f"there may be {counts.stop - 1} places")
    if count not in counts:
        wanted = f"{'two places' if counts.start == 2 else 'one place'}{' or more' if len(counts) > 1 else ''}"
        raise invalid_query(f"the path has to have {wanted}, and has {count}")
    return places


def parse_coordinate(word: str) -> Point:
    found = PLACE.fullmatch(word)
    if found is None:
        raise ValueError("no place")
    return float(found[1]), float(found[2])
