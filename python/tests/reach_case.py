"""What the tests of reach share: small networks in memory, a made town, and the model's lengths."""
import csv
import itertools
import math
import pathlib
import tempfile
from typing import NamedTuple

import numpy as np
from model.network import cheapest
from model.sphere import along

import domethyme
from domethyme.network import from_tables, net_file
from domethyme.network.geo import format_linestring
from domethyme.network.tables import ALL_NODE_COLUMNS, ARC_COLUMNS

# A thousandth of a degree along the equator, in metres.
MILLI = 111.19508


class Road(NamedTuple):
    """A road from a node to another, from 0: the weight there and back, None for no arc, and points (lon, lat) between."""

    start: int
    end: int
    there: int | None
    back: int | None
    between: tuple = ()


def network(nodes, roads):
    """A network of nodes (lon, lat) or (lon, lat, ends, osm), and of roads, each a way by itself."""
    return net_file.map_tempfile(arrays(nodes, roads), "town")


def arrays(nodes, roads):
    places = [(lon, lat, *(more or ("", number))) for number, (lon, lat, *more) in enumerate(nodes)]
    table = [(number, osm, lon, lat, ends) for number, (lon, lat, ends, osm) in enumerate(places, 1)]
    rows = []
    for way, (start, end, there, back, between) in enumerate(roads):
        line = [nodes[start][:2], *between, nodes[end][:2]]
        for one, other, weight, points in ((start, end, there, line), (end, start, back, line[::-1])):
            if weight is not None:
                texts = way, "residential", "", format_linestring(points)
                rows.append((one + 1, other + 1, weight, weight / 1000, along(line)[-1], *texts))
    with tempfile.TemporaryDirectory() as folder:
        for name, all_rows in (("nodes", [ALL_NODE_COLUMNS, *table]), ("arcs", [ARC_COLUMNS, *rows])):
            with open(f"{folder}/n.{name}.csv", "w", newline="") as file:
                csv.writer(file).writerows(all_rows)
        pathlib.Path(folder, "n.gr").write_text("c attribution: © the town\n")
        return from_tables.arrays_from_tables(f"{folder}/n")


def prepared(nodes, roads, prefix, **words):
    """The hierarchy of such a network, with its file."""
    built = arrays(nodes, roads)
    with open(f"{prefix}.net", "wb") as file:
        net_file.write(file, built)
    graph = domethyme.Graph(built.arc_from, built.arc_to, built.arc_weight, len(built.node_lon))
    graph.prepare(f"{prefix}.rch", workers=1).close()
    return domethyme.Hierarchy(f"{prefix}.rch", network=prefix, **words)


def lengths(net, starts, towards=False):
    """The least length of each node from the nearest of `starts`, nodes with what is added there, or towards it; -1 for none."""
    begins, ends = (net.arc_to, net.arc_from) if towards else (net.arc_from, net.arc_to)
    arcs = [[] for _ in range(len(net.node_lon))]
    for begin, end, weight in zip(begins[:].tolist(), ends[:].tolist(), net.arc_weight[:].tolist()):
        arcs[begin].append((weight, end))
    found = cheapest(((added, node) for node, added in starts.items()), arcs)
    return np.array([found.get(node, -1) for node in range(len(arcs))])


def town_map():
    """The nodes and the roads of a town of 24 by 24 streets, some of one way, around a lake. In the lake is an island of four
    nodes, to which a bridge leads one way. Weights are milliseconds, by 30 km/h."""
    draw = np.random.default_rng(5)
    places, number, roads = [], {}, []

    def join(start, end, is_one_way=False):
        weight = round(math.dist(places[start], places[end]) / 30 * 3600)
        roads.append(Road(start, end, weight, None if is_one_way else weight))

    for row, column in itertools.product(range(24), repeat=2):
        x, y = np.array((column, row)) * 90.0 + draw.uniform(-20, 20, 2)
        if ((x - 1400) / 350) ** 2 + ((y - 1100) / 260) ** 2 > 1:
            number[column, row] = len(places)
            places.append((x, y))
    for (column, row), node in number.items():
        for other in ((column + 1, row), (column, row + 1)):
            if other in number and draw.integers(0, 9):
                join(node, number[other], not draw.integers(0, 15))
    island = [*range(len(places), len(places) + 4)]
    places += [(1340, 1040), (1460, 1040), (1460, 1160), (1340, 1160)]
    for start, end in zip(island, island[1:] + island[:1]):
        join(start, end)
    join(min(number.values(), key=lambda node: math.dist(places[node], places[island[0]])), island[0], True)
    east = MILLI * 1000 * math.cos(math.radians(47))
    return [(round(9 + x / east, 7), round(47 + y / MILLI / 1000, 7)) for x, y in places], roads
