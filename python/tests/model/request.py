"""A request of docs/SERVICE.md, and what its parameters say."""
import math
from collections.abc import Mapping
from typing import NamedTuple

from .sphere import Point

ANNOTATIONS = ("duration", "weight", "distance", "datasources", "speed", "nodes")


class Request(NamedTuple):
    """The service, its places, and the texts of its parameters, which are valid."""

    service: str
    places: list[Point]
    query: Mapping[str, str]
    default_radius: float = 1000.0

    def value(self, name: str, default: str = "") -> str:
        return self.query.get(name, default)

    def has(self, name: str) -> bool:
        return self.value(name) == "true"

    def words(self, name: str) -> list[str]:
        """A word for each place, "" for none."""
        return self.value(name).split(";") if self.value(name) else [""] * len(self.places)

    def radiuses(self) -> list[float]:
        """The greatest metres from each place to a road."""
        known = {"": self.default_radius, "unlimited": math.inf}
        return [known[word] if word in known else float(word) for word in self.words("radiuses")]

    def bearings(self) -> list[tuple[int, int] | None]:
        """The direction at each place, and how far it may be off, in degrees; None for any."""
        pairs = [word.partition(",") for word in self.words("bearings")]
        return [(int(degrees), int(deviation)) if comma else None for degrees, comma, deviation in pairs]

    def annotations(self) -> list[str]:
        text = self.value("annotations", "false")
        return {"false": [], "true": [*ANNOTATIONS]}.get(text, text.split(","))

    def numbers(self, name: str) -> list[int]:
        """The numbers of places that a parameter lists; all without it."""
        text = self.value(name, "all")
        return [int(word) for word in text.split(";")] if text not in ("", "all") else [*range(len(self.places))]

    def stops(self) -> list[int]:
        """The numbers of the places at which legs begin or end."""
        return sorted({*self.numbers("waypoints")})
