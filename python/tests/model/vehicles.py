"""What a profile says of the ways of a map, by the page of the profiles."""
import math
import re
from collections.abc import Mapping, Sequence
from typing import Any

Tags = Mapping[str, str]
KMH, METRES = {"": 1.0, "km/h": 1, "kmh": 1, "kph": 1, "mph": 1.609344, "knots": 1.852}, {"": 1.0, "m": 1, "cm": 0.01, "ft": 0.3048}
TONNES = {"": 1.0, "t": 1, "kg": 0.001, "st": 0.90718474, "lt": 1.0160469088, "lbs": 0.00045359237, "cwt": 0.05080234544}


def last_of(tags: Tags, keys: Sequence[str]) -> str | None:
    """The value of the most particular key."""
    return next((tags[key] for key in reversed(keys) if key in tags), None)


def is_open(tags: Tags, profile: Any) -> bool:
    said = last_of(tags, profile["access"])
    return said is None or not {word.strip() for word in said.split(";")} <= {*profile["closed"]}


def is_barrier(tags: Tags, profile: Any) -> bool:
    has_said = any(key in tags for key in profile["access"])
    return "barrier" in tags and (not is_open(tags, profile) if has_said else tags["barrier"] in profile["barriers"])


def amount(text: str, units: Mapping[str, float]) -> float | None:
    """A number with a unit, None for anything else."""
    found = re.fullmatch(r"([0-9]+(?:\.[0-9]+)?) *([a-z/]*)", text.strip())
    return float(found[1]) * units[found[2]] if found and found[2] in units else None


def limit(key: str, text: str) -> float | None:
    feet = re.fullmatch(r"([0-9]+)' *(?:([0-9]+(?:\.[0-9]+)?)\")?", text.strip())
    if text.strip() in ("none", "no", "default", "unsigned", "no_sign", "unspecified"):
        return math.inf
    if "weight" in key or "axleload" in key:
        return amount(text, TONNES)
    return (int(feet[1]) + float(feet[2] or 0) / 12) * 0.3048 if feet else amount(text, METRES)


def speed(text: str, words: Mapping[str, float]) -> float | None:
    """The km/h of a value of maxspeed."""
    country = re.fullmatch("[A-Z]{2}:(.+)", text)
    zone = country and re.fullmatch("zone:?([0-9]+)", country[1])
    known = [words[word] for word in (text, f"*:{country[1]}" if country else text) if word in words]
    found = amount(zone[1] if zone else text, KMH)
    return known[0] if known else found if found and 1 <= found <= 1000 else None


def is_road(tags: Tags, profile: Any) -> bool:
    """Whether a way is a road or a ferry, of any class."""
    return "highway" in tags or tags.get("route") == "ferry" and "ferry" in profile["speeds"]


def speeds(tags: Tags, profile: Any) -> list[float | None] | str:
    """The km/h along a way and against it, None where it is closed; or why it is left out."""
    def has_one(name: str) -> bool:
        return any(f"{key}={value}" in profile.get(name, ()) for key, value in tags.items())

    kind, way, found = tags["highway"], last_of(tags, profile.get("oneway", ["oneway"])), list[float | None]()
    limits = [(limit(key, tags[key]), most) for key, most in profile.get("measures", {}).items() if key in tags]
    has_leave = profile["access"][-1] in tags or not has_one("closed_by") and kind not in profile.get("only_where_allowed", ())
    for is_so, reason in [
        (kind not in profile["speeds"], "by their class"), (tags.get("area") == "yes", "as areas"),
        (not is_open(tags, profile) or not has_leave, "as closed to the vehicle"),
        (any(least is not None and least < most for least, most in limits), "as too low, narrow, short or weak for the vehicle"),
        (way == "reversible", "as their direction changes")
    ]:
        if is_so:
            return f"ways left out {reason}"
    if way is None and (kind in profile["oneway_highways"] or tags.get("junction") in profile["oneway_junctions"]):
        way = "yes"
    for side, closed in (("forward", ("-1", "reverse")), ("backward", ("yes", "true", "1"))):
        said = last_of(tags, [word for key in profile.get("maxspeed", ["maxspeed"]) for word in (key, f"{key}:{side}")])
        own = (said and speed(said, profile["maxspeed_words"])) or profile["speeds"][kind]
        own = min(own, profile.get("fastest", 1000), profile.get("surfaces", {}).get(tags.get("surface"), 1000))
        found.append(None if way in closed and not has_one("both_ways") else own)
    return found


def duration(tags: Tags) -> int:
    """The seconds of a ferry, 0 for none that is known, and for other ways."""
    iso = r"PT(?:([0-9]{1,3})H)?(?:([0-9]{1,4})M)?(?:([0-9]{1,4})S)?"
    forms = r"()([0-9]{1,4})()", r"([0-9]{1,3}):([0-5][0-9])(?::([0-5][0-9]))?", iso
    text = tags.get("duration", "").strip() if tags["highway"] == "ferry" else ""
    found = next(filter(None, (re.fullmatch(form, text) for form in forms)), None)
    return sum(int(part or 0) * unit for part, unit in zip(found.groups(), (3600, 60, 1))) if found else 0
