#!/usr/bin/python3
"""Measures how well traces are matched by the Python package, and the processor time for 100 points.

    matching.py NETWORK HIERARCHY [--kilometres N] [--seed N]

Traces are drawn along known routes, with a normal error in both directions: along fastest routes, and along odd ones, whose vias are
some 1.5 km apart. For each deviation and each time between points a line says, of both kinds, which share of the true metres, up to the
last point, was matched, and its standard error by routes; of the matched ones which share is wrong, by road and direction; and how
long 100 points take. Real traces are worse:
these have the errors that the model has, and a map that is exact. Beside a time stands that of a yardstick, so many steps of
plain Python and numpy, which says how fast the machine was.
"""
import collections
import functools
import itertools
import math
import os
import time

import numpy as np

from kit.counted import parser  # (finds domethyme too)

import domethyme
from domethyme.network.directions import ask_router
from domethyme.network.legs import find_legs

DEVIATIONS, SECONDS = (5, 20), (1, 5, 10, 15, 30)
VIA_METRES, METRES_OF_DEGREE = 1500, 111_195


class Roads:
    """What draws routes and traces on a network."""

    def __init__(self, hierarchy, seed):
        self.hierarchy, self.network, self.draw = hierarchy, hierarchy.network, np.random.default_rng(seed)
        self.roads = self.network.roads
        self.ask = functools.partial(ask_router, hierarchy._router)

    def legs(self, places):
        """The legs by some places without turning round at one, or None."""
        found = find_legs(self.ask, self.roads, self.network.points_on_roads(places), True)
        return None if isinstance(found, int) else found

    def route(self, is_odd):
        """The parts of arcs of a route: each with its arc and the shares between which it is driven."""
        while True:
            nodes = self.draw.choice(len(self.network.lon), 2, replace=False)
            places = [(self.network.lon[node], self.network.lat[node]) for node in nodes]
            if is_odd:
                places = places[:1]
                for _ in range(6):
                    angle = self.draw.uniform(0, math.tau)
                    away = VIA_METRES / METRES_OF_DEGREE
                    lon, lat = places[-1]
                    places.append((lon + away * math.cos(angle) / math.cos(math.radians(lat)), lat + away * math.sin(angle)))
            try:
                legs = self.legs(places)
            except domethyme.NoSuchNode:
                continue
            if legs and sum(len(leg.arcs) for leg in legs) > 4:
                return [part for leg in legs for part in parts_of(leg)]

    def trace(self, route, deviation, seconds):
        """The places of a vehicle along a route at these seconds, with errors; and the route up to the last of them."""
        arrays, points, left, driven = self.roads.arrays, [], 0.0, []
        for number, (arc, begin, end) in enumerate(route):
            whole = float(arrays.arc_seconds[arc]) or 0.001
            at = begin * whole + left
            while at < end * whole:
                points.append(self.roads.line(arc, at / whole, 1.0)[0])
                driven = [*route[:number], (arc, begin, at / whole)]
                at += seconds
            left = at - end * whole
        lon, lat = np.array(points).T
        east, north = self.draw.normal(0, deviation / METRES_OF_DEGREE, (2, len(lon)))
        return np.column_stack((lon + east / np.cos(np.radians(lat)), lat + north)), driven

    def intervals(self, parts):
        """The metres that are driven of each road in each direction."""
        found = collections.defaultdict(list)
        for number, begin, end in parts:
            arc = self.roads.arc(number)
            metres = self.roads.edge(arc.edge).metres
            found[arc.edge, arc.is_along].append((begin * metres, end * metres))
        return found


def parts_of(leg):
    """The parts of arcs of a leg."""
    last = len(leg.arcs) - 1
    return [
        (arc, leg.begin if at == 0 else 0.0, leg.end if at == last else 1.0) for at, arc in enumerate(leg.arcs.tolist())
    ]


def common(one, other):
    """The metres that are in both, as often as they are in both."""
    stops = sorted({stop for part in (*one, *other) for stop in part})
    return sum(
        (high - low) * min(sum(begin <= low and end >= high for begin, end in side) for side in (one, other))
        for low, high in itertools.pairwise(stops)
    )


def total(intervals):
    return sum(end - begin for parts in intervals.values() for begin, end in parts)


def yardstick():
    """Seconds of so much plain Python and numpy."""
    begun, row = time.process_time(), np.arange(100.0)
    for number in range(20_000):
        row[number % 100] = float((row * row).sum())
        row /= row.max()
    return time.process_time() - begun


def measure(roads, is_odd, deviation, seconds, kilometres):
    """The share of the metres that is matched, its standard error, the wrong share, the mean confidence, points, and processor seconds."""
    matched = spent = points = 0
    trust, rows = [], []
    while sum(true for true, _ in rows) < 1000 * kilometres:
        trace, route = roads.trace(roads.route(is_odd), deviation, seconds)
        if len(trace) < 3:
            continue
        begun = time.process_time()
        found = roads.hierarchy.match(trace, range(0, seconds * len(trace), seconds), deviation=deviation)
        spent += time.process_time() - begun
        points += len(trace)
        driven, wanted = roads.intervals(part for each in found.matchings for leg in each.matched.legs for part in parts_of(leg)), roads.intervals(route)
        trust += [each.confidence for each in found.matchings]
        matched += total(driven)
        rows.append((total(wanted), sum(common(parts, wanted[road]) for road, parts in driven.items() if road in wanted)))
    true, right = np.array(rows).T
    share = right.sum() / true.sum()
    error = math.sqrt(((right - share * true) ** 2).sum()) / true.sum()
    return share, error, (matched - right.sum()) / max(matched, 1), float(np.mean(trust)), points, spent


def main():
    words = parser(__doc__)
    words.add_argument("network", metavar="NETWORK", help="the network")
    words.add_argument("hierarchy", metavar="HIERARCHY", help="its hierarchy")
    words.add_argument("--kilometres", type=float, default=40, metavar="N", help="of each kind of traces (40)")
    words.add_argument("--seed", type=int, default=1, metavar="N", help="of the draws (1)")
    options = words.parse_args()
    with domethyme.Hierarchy(options.hierarchy, network=options.network) as hierarchy:
        print(f"load {os.getloadavg()[0]:.1f}, {os.cpu_count()} processors, yardstick {1000 * yardstick():.0f} ms")
        print("noise, every | fastest: matched, wrong, confidence | odd: matched, wrong, confidence | 100 points")
        for deviation, seconds in itertools.product(DEVIATIONS, SECONDS):
            rows = [measure(Roads(hierarchy, options.seed), is_odd, deviation, seconds, options.kilometres) for is_odd in (False, True)]
            shares = " | ".join(
                f"{100 * right:.1f} +- {100 * error:.1f} %, {100 * wrong:.1f} %, {trust:.3f}" for right, error, wrong, trust, *_ in rows
            )
            spent = 1e5 * sum(row[5] for row in rows) / sum(row[4] for row in rows)
            print(f"{deviation:2} m, {seconds:2} s | {shares} | {spent:.0f} ms", flush=True)
        print(f"yardstick {1000 * yardstick():.0f} ms")


if __name__ == "__main__":
    main()
