#!/usr/bin/env python3
"""Writes a road-like network and a query file, the same for the same arguments.

    make_network.py SIDE PAIRS SEED NETWORK.gr NETWORK.pairs [--roads] [--nodes N] [--near STEPS COUNT NEAR.pairs]

Towns lie on a jittered square of SIDE times SIDE places. Neighbours in the square are joined by a road in both
directions, but for one in seven; one in twenty has a diagonal, and one in thirty of the roads is a one-way street.
Weights are travel times.

Every 16th row and column is a fast road, a third of the length in time: so the long ways have many roads to choose from,
and a hierarchy is harder to prepare and to ask than that of a real network of that size. With `--roads` every 8th row and
column is an arterial, a half of the length in time, and every 32nd a motorway, a quarter of it, which is joined by arterials
and motorways alone: so long ways lead over few roads, as in real networks. By `--order depth` a query settles 148 nodes at
65,536 and 250 at 264,346, where it settles 388 without.

With `--nodes` there are only the first N places, row by row. Both ends of a pair are drawn from all places; `--near` also writes
NEAR.pairs, COUNT pairs whose ends are at most STEPS rows and columns apart.
"""
import math
import random

from kit.counted import parser, positive

# How many lines lie between two of a kind, and how much faster it is, the fastest last.
SQUARE = [(1, 1), (16, 3)]
ROADS = [(1, 1), (8, 2), (32, 4)]


def write_pairs(file, pairs):
    with open(file, "w") as out:
        out.write(f"p aux sp p2p {len(pairs)}\n")
        out.writelines(f"q {s + 1} {t + 1}\n" for s, t in pairs)


def near_pair(draw, side, nodes, steps):
    """Two places at most so many rows and columns apart."""

    def beside(at):
        return draw.randint(max(at - steps, 0), min(at + steps, side - 1))

    while True:
        x, y = draw.randrange(side), draw.randrange(side)
        one, other = y * side + x, beside(y) * side + beside(x)
        if max(one, other) < nodes:
            return one, other


class Lines:
    """The rows and columns of a square, by how fast their roads are."""

    def __init__(self, kinds):
        self.kinds = kinds
        self.has_ramps = len(kinds) > 2

    def speed(self, line):
        return max(speed for step, speed in self.kinds if line % step == 0)

    def joins(self, speed, beside):
        """Whether a road of this speed joins a line. The fastest lines of several kinds take no plain street."""
        return not self.has_ramps or speed > 1 or beside < self.kinds[-1][1]


def arcs_of(draw, side, nodes, lines):
    place = [(x + draw.uniform(-0.3, 0.3), y + draw.uniform(-0.3, 0.3)) for y in range(side) for x in range(side)]
    speeds = [lines.speed(line) for line in range(side)]
    arcs = []

    def road(u, v, speed):
        length = math.dist(place[u], place[v]) * draw.uniform(1.0, 1.3)
        weight = max(1, round(1000 * length / speed))
        arcs.append((u, v, weight))
        if draw.random() >= 1 / 30:
            arcs.append((v, u, weight))

    def is_open(speed, across, at):
        """Whether there is a road of this speed between this line across and the next."""
        return all(lines.joins(speed, across[end]) for end in (at, at + 1)) and (speed > 1 or draw.random() >= 1 / 7)

    for y in range(side):
        for x in range(side):
            u = y * side + x
            if x + 1 < side and u + 1 < nodes and is_open(speeds[y], speeds, x):
                road(u, u + 1, speeds[y])
            if y + 1 < side and u + side < nodes and is_open(speeds[x], speeds, y):
                road(u, u + side, speeds[x])
            if x + 1 < side and y + 1 < side and u + side + 1 < nodes and draw.random() < 1 / 20:
                if all(lines.joins(1, speeds[line]) for line in (x, x + 1, y, y + 1)):
                    road(u, u + side + 1, 1)
    return arcs


def main():
    words = parser(__doc__)
    words.add_argument("side", type=positive)
    words.add_argument("pairs", type=int)
    words.add_argument("seed", type=int)
    words.add_argument("network")
    words.add_argument("queries")
    words.add_argument("--roads", action="store_true")
    words.add_argument("--nodes", type=int)
    words.add_argument("--near", nargs=3, metavar=("STEPS", "COUNT", "FILE"))
    asked = words.parse_args()
    side, draw = asked.side, random.Random(asked.seed)
    nodes = side * side if asked.nodes is None else asked.nodes
    if not 0 <= nodes <= side * side:
        words.error(f"a square of {side} has no {nodes} places")
    arcs = arcs_of(draw, side, nodes, Lines(ROADS if asked.roads else SQUARE))
    with open(asked.network, "w") as out:
        kind = "network of roads" if asked.roads else "road-like network"
        out.write(f"c a {kind}, side {side}, seed {asked.seed}\np sp {nodes} {len(arcs)}\n")
        out.writelines(f"a {u + 1} {v + 1} {w}\n" for u, v, w in arcs)
    write_pairs(asked.queries, [(draw.randrange(nodes), draw.randrange(nodes)) for _ in range(asked.pairs)])
    if asked.near:
        steps, count, file = asked.near
        write_pairs(file, [near_pair(draw, side, nodes, int(steps)) for _ in range(int(count))])


if __name__ == "__main__":
    main()
