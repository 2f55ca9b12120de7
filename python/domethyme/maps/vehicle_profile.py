"""The rules of a vehicle: which ways it may take, in which directions, and how fast; and its profile, the file that has them."""
import json
import math
import os
import pathlib
import re
from collections.abc import Callable, Iterable, Iterator, Mapping
from typing import Any, NamedTuple, TypeVar

from ..csv_tables import open_input
from ..errors import MapError
from ..network.columns import DRIVING_SIDES, MODES
from ..program import StrPath

Tags = dict[str, str]
Value = TypeVar("Value")

PROFILES = pathlib.Path(__file__).resolve().parent / "profiles"
# km/h that are believed
SLOWEST, FASTEST = 1, 1000
DIRECTIONS = ("forward", "backward")
COUNTRY, ZONE = re.compile("[A-Z]{2}:(.+)"), re.compile("[A-Z]{2}:zone:?([0-9]+)")
SPEED = re.compile(r"([0-9]+(?:\.[0-9]+)?) *(km/h|kmh|kph|mph|knots)?")
UNITS = {None: 1, "km/h": 1, "kmh": 1, "kph": 1, "mph": 1.609344, "knots": 1.852}
# metres and tonnes
LENGTH = re.compile(r"([0-9]+(?:\.[0-9]+)?) *(m|cm|ft)?")
WEIGHT = re.compile(r"([0-9]+(?:\.[0-9]+)?) *(t|kg|st|lt|lbs|cwt)?")
FEET = re.compile(r"([0-9]+)' *(?:([0-9]+(?:\.[0-9]+)?)\")?")
MEASURES = {None: 1, "m": 1, "cm": 0.01, "ft": 0.3048, "t": 1, "kg": 0.001, "st": 0.90718474, "lt": 1.0160469088,
            "lbs": 0.00045359237, "cwt": 0.05080234544}
NO_LIMIT = ("none", "no", "default", "unsigned", "no_sign", "unspecified")
# The class of a ferry's way, and the forms of its duration, which a weight has room for
FERRY = "ferry"
DURATION = re.compile("[0-9]{1,4}|[0-9]{1,3}(:[0-5][0-9]){1,2}")
ISO_DURATION = re.compile(r"PT(?:([0-9]{1,3})H)?(?:([0-9]{1,4})M)?(?:([0-9]{1,4})S)?")
# hundredths of a second
TURNS, MAX_PENALTY = ("left", "right", "back"), 360_000
# What the network keeps of a profile, and what it may be.
KEPT = {"driving_side": DRIVING_SIDES, "mode": MODES}
ONEWAY = {"yes": "forward", "true": "forward", "1": "forward", "-1": "backward", "reverse": "backward"}


class Profile(NamedTuple):
    """The rules of a vehicle; profiles/README.md says what each member means."""

    speeds: dict[str, float]
    maxspeed_words: dict[str, float]
    access: list[str]
    closed: list[str]
    barriers: list[str]
    oneway_highways: list[str]
    oneway_junctions: list[str]
    oneway: list[str] = ["oneway"]
    both_ways: list[str] = []
    maxspeed: list[str] = ["maxspeed"]
    fastest: float = FASTEST
    surfaces: dict[str, float] = {}
    measures: dict[str, float] = {}
    closed_by: list[str] = []
    only_where_allowed: list[str] = []
    restrictions: list[str] | None = None
    turns: dict[str, int] = {}
    driving_side: str = "right"
    mode: str = "driving"


class Judgement(NamedTuple):
    """What the rules say of a way: why it is left out, in the words of the report, or None; the km/h in each direction,
    None where it may not be taken; and the values of maxspeed and of limits that weren't understood, or None."""

    refusal: str | None
    forward: float | None = None
    backward: float | None = None
    unknown_speed: str | None = None
    unknown_limit: str | None = None


# The profile's file


def read_profile(word: str) -> Profile:
    """The profile of a file *.json, or of the folder profiles by its name."""
    path = pathlib.Path(word) if word.endswith(".json") else PROFILES / f"{word}.json"
    if not word.endswith(".json") and not os.path.exists(path):
        known = ", ".join(sorted(each.stem for each in PROFILES.glob("*.json")))
        remedy = f"there is {known}; for another vehicle copy its file and name the copy"
        raise MapError(f"there is no profile {word}: {remedy}")
    with open_input(path) as stream:
        try:
            members = json.load(stream)
        except json.JSONDecodeError as error:
            raise MapError(f"isn't JSON: {error.msg}", path, error.lineno) from error
        except UnicodeDecodeError as error:
            raise MapError("isn't UTF-8", path) from error
    return validate_profile(members, path)


def validate_profile(members: Any, path: StrPath) -> Profile:
    """The profile with these members, or the first that is missing, unknown or of the wrong kind."""
    if not isinstance(members, dict):
        raise MapError("is no object with the members of a profile", path)
    members.pop("about", None)
    for name in Profile._fields:
        if name not in members and name not in Profile._field_defaults:
            raise MapError(f"has no member {name}", path)
        if name in members and (wrong := member_error(name, members[name])):
            raise MapError(f"{name} isn't {wrong}", path)
    if unknown := [name for name in members if name not in Profile._fields]:
        raise MapError(f"has the unknown member {unknown[0]}", path)
    return Profile(**members)


def member_error(name: str, value: Any) -> str:
    """What a member isn't and has to be, or the empty text."""
    if name == "turns":
        fits = isinstance(value, dict) and all(
            kind in TURNS and type(penalty) is int and 0 <= penalty <= MAX_PENALTY for kind, penalty in value.items()
        )
        return "" if fits else f"hundredths of a second from 0 to {MAX_PENALTY} by the words {', '.join(TURNS)}"
    if name in KEPT:
        return "" if value in KEPT[name] else f"one of {', '.join(KEPT[name])}"
    if name == "fastest":
        return speed_error({"fastest": value}) and f"a speed from {SLOWEST} to {FASTEST}"
    if name in ("speeds", "maxspeed_words", "surfaces"):
        return (wrong := speed_error(value)) and f"speeds from {SLOWEST} to {FASTEST} by names{wrong}"
    if name == "measures":
        return (wrong := speed_error(value, 0)) and f"measures in metres or tonnes by names{wrong}"
    are_tags = name in ("both_ways", "closed_by")
    if isinstance(value, list) and all(isinstance(word, str) and (not are_tags or word.count("=") == 1) for word in value):
        return ""
    return "a list of words KEY=VALUE" if are_tags else "a list of words"


def speed_error(value: Any, least: float = SLOWEST) -> str:
    """What of a value isn't numbers from `least` to FASTEST by names: that it is no object, the first wrong one, or ""."""
    if not isinstance(value, dict):
        return ": it is no object"
    for name, speed in value.items():
        if type(speed) not in (int, float) or not least <= speed <= FASTEST:
            return f": {name} is {json.dumps(speed)}"
    return ""


# The rules


def way_keys(profile: Profile) -> list[str]:
    """The keys of a way that the rules look at, but those of conditions; the first is the one that a road has."""
    tags = [word.partition("=")[0] for word in (*profile.both_ways, *profile.closed_by)]
    kinds = ["highway", "area", "junction", "tunnel", "bridge", "toll", *["surface"] * bool(profile.surfaces)]
    kinds += ["duration"] * (FERRY in profile.speeds)
    return list(dict.fromkeys([*kinds, *profile.access, *profile.oneway, *speed_keys(profile), *profile.measures, *tags]))


def speed_keys(profile: Profile) -> list[str]:
    """The keys of speeds, the most general first."""
    return [key for base in profile.maxspeed for key in (base, *(f"{base}:{direction}" for direction in DIRECTIONS))]


def conditional_keys(profile: Profile) -> tuple[str, ...]:
    """What the keys of conditions that concern the vehicle begin with; they end with `:conditional`."""
    return *profile.access, *profile.oneway[:1], *profile.maxspeed[:1]


def judge(tags: Tags, profile: Profile) -> Judgement:
    """What the rules say of a way with these tags, one of which is `highway` (FERRY for a ferry's)."""
    reason = rejection_reason(tags, profile)
    if reason is not None:
        return Judgement(reason)
    found = {direction: speed_of(tags, direction, profile) for direction in directions(tags, profile)}
    forward, backward = (found[direction][0] if direction in found else None for direction in DIRECTIONS)
    is_known = all(known for _, known in found.values())
    texts = set() if is_known else {tags[key] for key in speed_keys(profile) if key in tags}
    speeds = {text for text in texts if maxspeed_of(text, profile) is None}
    limits = {tags[key] for key in profile.measures if key in tags and limit_of(key, tags[key]) is None}
    unknown = (" and ".join(sorted(values)) or None for values in (speeds, limits))
    return Judgement(None, forward, backward, *unknown)


def first_value(tags: Mapping[str, Value], keys: Iterable[str]) -> Value | None:
    """The value of the first of the keys that is set."""
    return next((tags[key] for key in keys if key in tags), None)


def is_open(tags: Tags, profile: Profile) -> bool:
    """Whether the most particular access tag lets the vehicle in; of several values one that isn't closed is enough."""
    values = first_value(tags, reversed(profile.access))
    return values is None or any(value.strip() not in profile.closed for value in values.split(";"))


def has_one(tags: Tags, words: list[str]) -> bool:
    """Whether one of these tags KEY=VALUE is set."""
    return any(tags.get(key) == value for key, _, value in (word.partition("=") for word in words))


def limit_of(key: str, text: str) -> float | None:
    """The metres or tonnes of a limit, infinite where there is none, or None where it isn't understood."""
    if (text := text.strip()) in NO_LIMIT:
        return math.inf
    is_weight = "weight" in key or "axleload" in key
    if not is_weight and (feet := FEET.fullmatch(text)):
        return (float(feet[1]) + float(feet[2] or 0) / 12) * MEASURES["ft"]
    found = (WEIGHT if is_weight else LENGTH).fullmatch(text)
    return float(found[1]) * MEASURES[found[2]] if found else None


def blocks_way(tags: Tags, profile: Profile) -> bool:
    """Whether a node with these tags is a barrier to the vehicle: by its access tags if it has some, else by its kind."""
    if "barrier" not in tags:
        return False
    if any(key in tags for key in profile.access):
        return not is_open(tags, profile)
    return tags["barrier"] in profile.barriers


def rejection_reason(tags: Tags, profile: Profile) -> str | None:
    """Why a way with these tags is left out, in the words of the report, or None."""
    if tags["highway"] not in profile.speeds:
        return "ways left out by their class"
    if tags.get("area") == "yes":
        return "ways left out as areas"
    needs_leave = tags["highway"] in profile.only_where_allowed or has_one(tags, profile.closed_by)
    has_own = any(key in tags for key in profile.access[-1:])
    if not is_open(tags, profile) or needs_leave and not has_own:
        return "ways left out as closed to the vehicle"
    limits = ((limit_of(key, tags[key]), measure) for key, measure in profile.measures.items() if key in tags)
    if any(limit is not None and limit < measure for limit, measure in limits):
        return "ways left out as too low, narrow, short or weak for the vehicle"
    if first_value(tags, reversed(profile.oneway)) == "reversible":
        return "ways left out as their direction changes"
    return None


def directions(tags: Tags, profile: Profile) -> tuple[str, ...]:
    """The directions in which a way may be taken."""
    one_way = tags["highway"] in profile.oneway_highways or tags.get("junction") in profile.oneway_junctions
    value = first_value(tags, reversed(profile.oneway))
    only = ONEWAY.get(value) if value is not None else "forward" if one_way else None
    return DIRECTIONS if only is None or has_one(tags, profile.both_ways) else (only,)


def speed_of(tags: Tags, direction: str, profile: Profile) -> tuple[float, bool]:
    """The speed in a direction in km/h, and whether a maxspeed that is set was understood."""
    keys = (key for base in reversed(profile.maxspeed) for key in (f"{base}:{direction}", base))
    text = first_value(tags, keys)
    limit = None if text is None else maxspeed_of(text, profile)
    speed = profile.speeds[tags["highway"]] if limit is None else limit
    of_surface = profile.surfaces.get(tags.get("surface", ""), FASTEST)
    return min(speed, profile.fastest, of_surface), text is None or limit is not None


def maxspeed_of(text: str, profile: Profile) -> float | None:
    """The km/h that a value of maxspeed means, or None where it isn't understood. For a country's kind of road, as
    RO:urban, it is the country's where the profile has it, else that of all, *:urban; a zone has its own number."""
    place, zone = COUNTRY.fullmatch(text), ZONE.fullmatch(text)
    known = first_value(profile.maxspeed_words, (text, f"*:{place[1]}") if place else (text,))
    if known is None and (found := SPEED.fullmatch(zone[1] if zone else text.strip())):
        speed = float(found[1]) * UNITS[found[2]]
        return speed if SLOWEST <= speed <= FASTEST else None
    return known


def unsupported_tags(tags: Tags, profile: Profile) -> Iterator[tuple[str, bool]]:
    """What of a way's rules isn't looked at, in the words of the report, and whether it is so."""
    access = first_value(tags, reversed(profile.access)) or ""
    yield "ways for destinations alone that are taken as open", "destination" in map(str.strip, access.split(";"))
    conditional = any(key.endswith(":conditional") and key.startswith(conditional_keys(profile)) for key in tags)
    yield "ways with rules for some times or conditions, which aren't looked at", conditional


def other_ways(profile: Profile) -> list[str]:
    """The tags of ways that are taken though they are no highways."""
    return ["route=ferry"] * (FERRY in profile.speeds)


def road_tags(tags: Tags) -> Tags:
    """The tags of a way with a class of highway: a way without one that was read is a ferry's."""
    return {"highway": FERRY, **tags}


def seconds_of(tags: Tags) -> float:
    """The seconds of a ferry's way by its `duration`, minutes or HH:MM or HH:MM:SS or PT..H..M..S; NaN if that isn't known."""
    text = tags.get("duration", "").strip() if tags["highway"] == FERRY else ""
    if plain := DURATION.fullmatch(text):
        numbers = [int(each) for each in text.split(":")]
        hours, minutes, seconds = [0, *numbers, 0] if len(numbers) == 1 else [*numbers, 0][:3]
    elif plain := ISO_DURATION.fullmatch(text):
        hours, minutes, seconds = (int(each or 0) for each in plain.groups())
    else:
        return math.nan
    return 3600 * hours + 60 * minutes + seconds or math.nan


def structure_of(tags: Tags) -> str:
    """Whether a way is a tunnel or a bridge: that word, or the empty text."""
    return next((word for word in ("tunnel", "bridge") if tags.get(word, "no") != "no"), "")


# The texts of a road (network.columns.TEXTS) that its tags give, for which `way_keys` has their keys; map_arrays.TEXTS are the others.
ROAD_TEXTS: Mapping[str, Callable[[Tags], str]] = {
    "highway": lambda tags: tags["highway"],
    "junction": lambda tags: " ".join(tags.get("junction", "").split()),
    "structure": structure_of,
    "toll": lambda tags: "yes" if tags.get("toll", "no") == "yes" else "",
}
