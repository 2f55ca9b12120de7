#!/usr/bin/python3
"""Looks for the dearest request that is allowed, by counted units, in a service in this process: it draws requests, and changes what was
dearest of each service.

    python/tests/dearest.py PREFIX SECONDS      PREFIX is that of a hierarchy's and a network's files

Prints the dearest ones by units, and by processor seconds beside them: those of which a unit takes long have a wrong price.
"""
import collections
import pathlib
import random
import sys
import time

TEXTS = {
    "annotations": ["true", "false", "duration,distance", "nodes"], "steps": ["true", "false"], "overview": ["full", "simplified", "false"],
    "geometries": ["geojson", "polyline", "polyline6"], "skip_waypoints": ["true"], "number": ["1", "10", "100"],
    "contours_minutes": ["1", "5,10", "15,30,60,600", "600", "597,598,599,600"], "polygons": ["true", "false"],
    "generalize": ["0", "1000"], "denoise": ["0", "0.000001", "1"], "scale_factor": ["2"], "fallback_speed": ["1"],
    "tidy": ["true"], "roundtrip": ["true", "false"], "source": ["any", "first"], "destination": ["any", "last"],
    "alternatives": ["1", "3"], "continue_straight": ["true"], "reverse": ["true"], "snapping": ["any"],
}
NAMES = {
    "route": ["annotations", "steps", "overview", "geometries", "skip_waypoints", "alternatives", "continue_straight", "snapping"],
    "nearest": ["number", "snapping"],
    "trip": ["annotations", "steps", "overview", "geometries", "skip_waypoints", "roundtrip", "source", "destination"],
    "match": ["annotations", "steps", "overview", "geometries", "skip_waypoints", "tidy"],
    "table": ["annotations", "scale_factor", "fallback_speed"], "isochrone": ["contours_minutes", "polygons", "generalize", "denoise", "reverse"],
}
MOST_PLACES = {"route": 500, "nearest": 1, "table": 2000, "trip": 500, "match": 500, "isochrone": 1}
TABLE_TEXTS = ["duration", "distance", "duration,distance,weight"]


class Climber:
    """Asks a service, and keeps what was dearest of each of its parts. `ends` counts how requests ended, `most` is the greatest number of
    units that one has spent, and `rows` has (units, seconds, bytes of the answer, end, target) of each."""

    def __init__(self, service, draw):
        self.service, self.draw, self.best, self.most = service, draw, {}, 0.0
        self.ends, self.rows = collections.Counter(), []

    def climb(self, count=10**9, seconds=10**9):
        end = time.monotonic() + seconds
        for _ in range(count):
            if time.monotonic() > end:
                return
            service = self.draw.choice([*NAMES])
            before = self.best.get(service)
            asked = self.changed(before[1]) if before and self.draw.random() < 0.7 else self.drawn(service)
            units = self.ask(asked)
            if before is None or units >= before[0]:
                self.best[service] = units, asked

    def drawn(self, service):
        """A request: its service, the shape of its places, and its parameters."""
        count = min(MOST_PLACES[service], self.draw.choice([2, 2, 3, 10, 25, 60, 200, 1000])) if MOST_PLACES[service] > 1 else 1
        asked = {"service": service, "places": self.places(count), "query": {}}
        for _ in range(self.draw.randint(1, 4)):
            asked = self.changed(asked)
        return asked

    def changed(self, asked):
        """One that differs in something."""
        service, places, query = asked["service"], [*asked["places"]], dict(asked["query"])
        name = self.draw.choice([*NAMES[service], "places", "radiuses", "bearings", *(["sources"] if service == "table" else [])])
        if name == "places":
            most = MOST_PLACES[service]
            places = self.places(min(most, max(min(2, most), round(len(places) * self.draw.choice([0.5, 1, 2])))))
            for each in ("radiuses", "bearings", "sources", "destinations"):
                query.pop(each, None)
        elif name == "sources":
            for side in ("sources", "destinations"):
                query[side] = ";".join(str(self.draw.randrange(len(places))) for _ in range(self.draw.choice([1, 5, 100, 900])))
        elif name == "radiuses":
            texts = ["5", "20", "200"] if service == "match" else ["unlimited", "50000", "10"]
            query[name] = ";".join([self.draw.choice(texts)] * len(places))
        elif name == "bearings":
            query[name] = ";".join([self.draw.choice(["45,0", "0,180", "0,90", "100,3"])] * len(places))
        else:
            query[name] = self.draw.choice(TABLE_TEXTS if (service, name) == ("table", "annotations") else TEXTS[name])
        if service == "isochrone":
            query.setdefault("contours_minutes", "5")
        return {"service": service, "places": places, "query": query}

    def places(self, count):
        """Places on the network: all over it, near together, in two corners in turn, or on the other side of the earth."""
        west, south, east, north = self.service.engine.roads.box
        wide, high, kind = east - west, north - south, self.draw.randrange(8)
        if kind == 0:
            return [((west + wide / 2) % 360 - 180, -south - high / 2)] * count
        if kind == 1:
            shares = [0.05 + 0.9 * (number % 2) for number in range(count)]
            return [(west + wide * share, south + high * share) for share in shares]
        size = self.draw.choice([1, 1, 0.1, 0.01])
        x, y = self.draw.uniform(west, east - size * wide), self.draw.uniform(south, north - size * high)
        return [(x + self.draw.uniform(0, size * wide), y + self.draw.uniform(0, size * high)) for _ in range(count)]

    def ask(self, asked):
        """The units that a request has spent."""
        from test_generated_service import environ_of

        from domethyme_service.costs import NeedsSlot

        where = ";".join(f"{lon:.5f},{lat:.5f}" for lon, lat in asked["places"])
        target = f"/{asked['service']}/v1/car/{where}?" + "&".join(f"{name}={text}" for name, text in asked["query"].items())
        has_slot, heads = self.draw.random() < 0.7, []
        environ = {**environ_of(target), "domethyme.has_slot": has_slot}
        self.service.meter.begin(0, True)
        begun, size = time.process_time(), 0
        try:
            size = sum(map(len, self.service(environ, lambda *head: heads.append(head))))
            error = environ.get("domethyme.error")
            end = "answered" if error is None else error.code
            assert heads[-1][0][:3] in ("200", "400"), heads
        except NeedsSlot:
            end = "needs a slot"
        seconds, units = time.process_time() - begun, self.service.meter.spent
        self.ends[end] += 1
        self.most = max(self.most, units)
        self.rows.append((units, seconds, size, end, target))
        return units


def main(prefix, seconds):
    sys.path.insert(0, str(pathlib.Path(__file__).resolve().parents[1]))
    from test_generated_service import open_service

    climber = Climber(open_service(pathlib.Path(prefix)), random.Random())
    climber.climb(seconds=float(seconds))
    print(len(climber.rows), "requests:", dict(climber.ends))
    for name, key in (("units", 0), ("seconds", 1), ("bytes", 2)):
        print(f"most {name}:")
        for units, used, size, end, target in sorted(climber.rows, key=lambda row: -row[key])[:5]:
            print(f"  {units:12,.0f} units {used:7.2f} s {size / 1e6:7.1f} MB {end:14} {len(target)} bytes: {target[:60]} .. {target[-60:]}")


if __name__ == "__main__":
    main(*sys.argv[1:])
