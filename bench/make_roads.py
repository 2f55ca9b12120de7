#!/usr/bin/python3
"""Writes a road network with places, names and classes, the same for the same arguments: a graph with the figures of those of the
Ninth DIMACS Implementation Challenge, some 2.4 arcs a node, most nodes on chains or dead ends, near numbers.

    make_roads.py NODES SEED NETWORK [--tables]

It writes NETWORK.gr and NETWORK.net, and with --tables NETWORK.nodes.csv and NETWORK.arcs.csv too. Junctions lie on a jittered
square of 400 metres a step around 47 N, 9 E, each joined to the next in its row and column but for one plain road in seven.
Every 8th line is a tertiary road, every 32nd a primary one and every 128th a motorway. A road has 0 to 3 nodes on it. One in
forty is a one-way street. Dead ends make up the rest. A line has a name for 16 of its steps. Weights are milliseconds.
"""

import numpy as np

from kit.counted import parser  # (finds domethyme too)

from domethyme.network import geo, indexes, net_file, table_files, tables

STEP, LON, LAT = 400.0, 9.0, 47.0
METRES = geo.EARTH_RADIUS * np.pi / 180
KINDS = [(128, "motorway", 110), (32, "primary", 80), (8, "tertiary", 50), (1, "residential", 30)]
ON_ROAD = np.array([0, 0, 0, 0, 1, 1, 2, 2, 2, 3])


def make(nodes, seed):
    """The arrays of the network."""
    draw = np.random.default_rng(seed)
    side = int(np.sqrt(0.311 * nodes))
    column, row = (axis.ravel() for axis in np.meshgrid(np.arange(side), np.arange(side)))
    places = np.column_stack((column, row)) + draw.uniform(-0.3, 0.3, (side * side, 2))
    roads = [roads_of(side, draw, is_row) for is_row in (True, False)]
    begin, end, kind, name = (np.concatenate(parts) for parts in zip(*roads))
    count = ON_ROAD[draw.integers(0, 10, len(begin))]
    while side * side + count.sum() > nodes:
        count[draw.integers(0, len(count), 100)] = 0
    first = side * side + np.cumsum(count) - count
    of_road = np.repeat(np.arange(len(begin)), count + 1)
    part = np.arange(len(of_road)) - np.repeat(np.cumsum(count + 1) - count - 1, count + 1)
    share = (part / (count[of_road] + 1))[:, None]
    points = places[begin][of_road] * (1 - share) + places[end][of_road] * share
    points[part > 0] += draw.uniform(-0.05, 0.05, ((part > 0).sum(), 2))
    places = np.concatenate((places, points[part > 0]))
    starts = np.where(part == 0, begin[of_road], first[of_road] + part - 1)
    stops = np.where(part == count[of_road], end[of_road], first[of_road] + part)
    single = np.repeat(draw.integers(0, 40, len(begin)) == 0, count + 1)
    kind, name = kind[of_road], name[of_road]
    rest = nodes - len(places)
    at = draw.integers(0, side * side, rest)
    places = np.concatenate((places, places[at] + draw.uniform(-0.3, 0.3, (rest, 2))))
    starts, stops = np.concatenate((starts, at)), np.concatenate((stops, np.arange(nodes - rest, nodes)))
    single = np.concatenate((single, np.zeros(rest, bool)))
    kind = np.concatenate((kind, np.full(rest, len(KINDS) - 1)))
    name = np.concatenate((name, np.zeros(rest, np.int64)))
    return arrays_of(places, starts, stops, single, kind, name)


def roads_of(side, draw, is_row):
    """The roads along rows, or along columns: begin, end, kind and name."""
    line, place = (axis.ravel() for axis in np.meshgrid(np.arange(side), np.arange(side - 1), indexing="ij"))
    kind = np.select([line % every == 0 for every, _, _ in KINDS], range(len(KINDS)))
    kept = (kind < len(KINDS) - 1) | (draw.integers(0, 7, len(line)) > 0)
    line, place, kind = line[kept], place[kept], kind[kept]
    begin, step = (line * side + place, 1) if is_row else (place * side + line, side)
    return begin, begin + step, kind, 2 * (line * (side // 16 + 1) + place // 16) + 1 + is_row


def arrays_of(places, starts, stops, single, kind, name):
    # numbered along a Z-order curve, so that near places have near numbers
    cells = np.clip((places + 1) * 16, 0, (1 << 16) - 1).astype(np.int64)
    order = np.argsort(spread(cells[:, 0]) | spread(cells[:, 1]) << 1, kind="stable")
    number = np.empty(len(places), np.int64)
    number[order] = np.arange(len(places))
    lat = LAT + places[order, 1] * STEP / METRES
    lon = LON + places[order, 0] * STEP / METRES / np.cos(np.radians(LAT))
    units = np.round(np.column_stack((lon, lat)) * net_file.UNITS).astype(np.int32)
    starts, stops = number[starts], number[stops]
    lines = np.stack((units[starts], units[stops]), axis=1)
    is_turned = (lines[:, 0, 0] > lines[:, 1, 0]) | (lines[:, 0, 0] == lines[:, 1, 0]) & (lines[:, 0, 1] > lines[:, 1, 1])
    lines[is_turned] = lines[is_turned][:, ::-1]
    steps = (lines[:, 1] - lines[:, 0]) / net_file.UNITS * METRES
    metres = np.round(
        np.hypot(steps[:, 0] * np.cos(np.radians(lines[:, :, 1].mean(axis=1) / net_file.UNITS)), steps[:, 1]), 2
    )
    seconds = np.round(metres * 3.6 / np.array([speed for _, _, speed in KINDS])[kind], 3)
    both = np.repeat(np.arange(len(starts)), 2 - single)
    is_back = np.append(both[1:] == both[:-1], False)[np.maximum(np.arange(len(both)) - 1, 0)] & (np.arange(len(both)) > 0)
    names = [f"{'Street' if number % 2 else 'Avenue'} {number // 2}" if number else "" for number in range(name.max() + 1)]
    texts = ["", "", *(highway for _, highway, _ in KINDS), *names]
    pairs, of_pair = np.unique(np.column_stack((kind, name)), axis=0, return_inverse=True)
    rows = np.ones((len(pairs), len(net_file.TEXTS)), np.int32)
    rows[:, 0], rows[:, 1] = 2 + pairs[:, 0], 2 + len(KINDS) + pairs[:, 1]
    rows, of_arc = indexes.unique_text_rows(rows, of_pair[both])
    encoded = [text.encode() for text in texts]
    return net_file.Arrays({
        "node_osm": np.arange(1, len(places) + 1), "node_lon": units[:, 0].copy(), "node_lat": units[:, 1].copy(),
        "node_ends": np.zeros(len(places), np.uint8),
        "arc_from": np.where(is_back, stops[both], starts[both]), "arc_to": np.where(is_back, starts[both], stops[both]),
        "arc_weight": np.maximum(1, np.round(1000 * seconds[both])), "arc_seconds": seconds[both], "arc_metres": metres[both],
        "arc_osm": both + 1, "arc_row": of_arc, "arc_edge": both, "arc_along": is_back == is_turned[both], "row_texts": rows,
        "edge_begin": np.arange(0, 2 * len(starts) + 1, 2), "points": lines.reshape(-1, 2), **net_file.text_columns(encoded),
    })


def spread(values):
    found = values & 0xFFFF
    for shift, mask in ((8, 0x00FF00FF), (4, 0x0F0F0F0F), (2, 0x33333333), (1, 0x55555555)):
        found = (found | found << shift) & mask
    return found


def write_tables(prefix, arrays):
    """The tables of osm_to_gr; returns what they are known by."""
    files = tables.Files(prefix)
    with open(files.nodes, "w") as nodes, open(files.arcs, "w") as arcs:
        table_files.write_nodes(nodes, arrays)
        table_files.write_arcs(arcs, arrays)
    return net_file.marks_of(files.nodes, files.arcs)


def main():
    words = parser(__doc__)
    words.add_argument("nodes", metavar="NODES", type=int)
    words.add_argument("seed", metavar="SEED", type=int)
    words.add_argument("network", metavar="NETWORK")
    words.add_argument("--tables", action="store_true")
    given = words.parse_args()
    if not 1000 <= given.nodes <= 25_000_000:
        words.error("NODES is from 1,000 to 25,000,000")
    arrays = make(given.nodes, given.seed)
    if problem := net_file.find_inconsistency(arrays):
        raise AssertionError(problem)
    with open(f"{given.network}.gr", "wb") as file:
        table_files.write_graph_of(file, arrays, "")
    if given.tables:
        arrays.about |= write_tables(given.network, arrays)
    with open(tables.Files(given.network).binary, "wb") as file:
        net_file.write(file, arrays)
    print(f"{given.network}: {len(arrays.node_osm)} nodes, {len(arrays.arc_from)} arcs, {len(arrays.edge_begin) - 1} edges")


if __name__ == "__main__":
    main()
