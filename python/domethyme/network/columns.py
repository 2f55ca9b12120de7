"""The columns of a network, each a row of a table here: of its file NETWORK.net, and of its tables NETWORK.nodes.csv and NETWORK.arcs.csv.

All that makes, checks, writes and reads files goes by them. A new column is a row, with a version of the file that has it (PARTS); what
gives its values of a map is `to_arrays` or `text_rows` of domethyme.maps. Needs nothing but Python's own library.
"""
import functools
from collections import Counter
from collections.abc import Mapping
from typing import NamedTuple

from ..limits import MAX_WEIGHT

# Of a degree in the file.
UNITS = 10_000_000
FAR_EAST, FAR_NORTH = 180 * UNITS, 90 * UNITS
INT64 = -(1 << 63), (1 << 63) - 1
NO_OSM = INT64[0]
# Which ends of routes a node may be, both, one or none.
ENDS = ("", "from", "to", "no")
UNITS_OF_WEIGHTS = ("weight", "duration", "distance")
# Of the profile: the side of the road on which vehicles are, and what OSRM's clients call a step with one.
DRIVING_SIDES, MODES = ("right", "left"), ("driving", "cycling", "walking")
# The classes of roads of which maps show one after the other.
ROAD_CLASSES: tuple[tuple[str, ...], ...] = (
    ("motorway", "trunk"), ("primary",), ("secondary",), ("tertiary",), ("unclassified", "residential", "living_street"), ()
)
# The texts of an arc: columns of NETWORK.arcs.csv, and of `row_texts`, of which those behind them are 0. Tables may lack all but two.
TEXTS = ("highway", "name", "ref", "junction", "destination", "structure", "toll")
TEXTS_PER_ROW = 8
# The numbers of the column `about`; files of versions 2 and 3 lack those from nodes_sum on, and others made before 1.1 those from
# driving_side on, which are 0 then.
ABOUT = (
    "nodes_size", "arcs_size", "unit", "begins", "ends", "node_height", "edge_height", "west", "south", "east", "north",
    *(f"shown_{kind}" for kind in range(len(ROAD_CLASSES))), "nodes_sum", "arcs_sum", "driving_side", "mode",
)
ABOUT_SIZES = ABOUT.index("nodes_sum"), ABOUT.index("driving_side"), len(ABOUT)
# Those by which edited tables are told from the ones that the file has: the bytes and the CRC-32 of each, 0 where there is none.
OF_TABLES = ("nodes_size", "arcs_size", "nodes_sum", "arcs_sum")
# Those of the profile, which tables lack.
OF_PROFILE = ("driving_side", "mode")
# The versions of the file that are read, and the parts that each has beside the columns of every network.
PARTS: Mapping[int, tuple[str, ...]] = {2: (), 3: ("keys",), 4: (), 5: ("keys", "order"), 6: ("map",)}


class ColumnSpec(NamedTuple):
    """A column of the file.

    kind        the type of its values, as numpy names it
    rows        how many it has, None for any number
    low, high   the least and the greatest value, None for any
    text        how tables show a value: as Python's `format`, of degrees for units, or by its word; "" where they lack the column
    default     the value of an empty text there; None where a reader of its own has the column
    width       how many values are in a row
    part        of PARTS, "" for a column of every network
    min_step    how much more each value is at least than the one before, from 0 to `high`: it has offsets
    is_derived  whether it is made of others where the file is written
    base        what is added to each value in files and tables
    """

    kind: str
    rows: int | None = None
    low: float | None = None
    high: float | None = None
    text: str = ""
    default: int | None = None
    width: int = 1
    part: str = ""
    min_step: int | None = None
    is_derived: bool = False
    base: int = 0

    @property
    def row_shape(self) -> tuple[int, ...]:
        return (self.width,) if self.width > 1 else ()


def columns_of(size: Mapping[str, int]) -> dict[str, ColumnSpec]:
    """The columns of the file by their names, in order, by how many rows some have."""
    nodes, arcs, edges, texts = size["node_osm"], size["arc_from"], size["edge_begin"] - 1, size["text_begin"] - 1
    points, steps = size["points"], size["step_codes"]
    derived = functools.partial(ColumnSpec, is_derived=True)
    return {
        "about": derived("<i8"),
        # the id of OpenStreetMap, or NO_OSM; the place in units of a degree; and a number in ENDS
        "node_osm": ColumnSpec("<i8", nodes, text="d", default=NO_OSM),
        "node_lon": ColumnSpec("<i4", nodes, -FAR_EAST, FAR_EAST, ".7f"),
        "node_lat": ColumnSpec("<i4", nodes, -FAR_NORTH, FAR_NORTH, ".7f"),
        "node_ends": ColumnSpec("|u1", nodes, 0, len(ENDS) - 1, "word", 0),
        # the nodes, which files and tables number from 1; the id of the way
        "arc_from": ColumnSpec("<i4", arcs, 0, nodes - 1, "d", base=1),
        "arc_to": ColumnSpec("<i4", arcs, 0, nodes - 1, "d", base=1),
        "arc_weight": ColumnSpec("<i8", arcs, 0, MAX_WEIGHT, "d"),
        "arc_seconds": ColumnSpec("<f8", arcs, 0, 1e12, ".3f"),
        "arc_metres": ColumnSpec("<f8", arcs, 0, 1e12, ".2f"),
        "arc_osm": ColumnSpec("<i8", arcs, text="d", default=0),
        # the row of texts of an arc; the edge that it lies on, and whether it leads along it
        "arc_row": ColumnSpec("<i4", arcs, 0, size["row_texts"] - 1),
        "arc_edge": ColumnSpec("<i4", arcs, 0, edges - 1),
        "arc_along": ColumnSpec("|b1", arcs),
        # rows of numbers of texts, in the order of TEXTS: different ones that arcs have, in the order of these numbers
        "row_texts": ColumnSpec("<i4", None, 0, texts - 1, width=TEXTS_PER_ROW),
        # the points of edge e are points[edge_begin[e]:edge_begin[e + 1]], lon and lat in units
        "edge_begin": ColumnSpec("<i8", None, 0, points, min_step=2),
        "points": ColumnSpec("<i4", None, -FAR_EAST, FAR_EAST, width=2),
        # text t is text_bytes[text_begin[t]:text_begin[t + 1]] in UTF-8; the first is the attribution, "" for none
        "text_begin": ColumnSpec("<i8", None, 0, size["text_bytes"], min_step=0),
        "text_bytes": ColumnSpec("|u1"),
        # indexes (indexes.py)
        "out_begin": derived("<i8", nodes + 1, 0, size["out_arcs"], min_step=0),
        "out_arcs": derived("<i4", None, 0, arcs - 1),
        "edge_first": derived("<i8", edges + 1, 0, size["edge_arcs"], min_step=0),
        "edge_arcs": derived("<i4", size["out_arcs"], 0, arcs - 1),
        "degrees": derived("|u1", nodes + 1),
        "node_keys": derived("<i8"),
        "node_cells": derived("<i8", size["node_keys"] + 1, 0, nodes, min_step=0),
        "node_things": derived("<i4", nodes, 0, nodes - 1),
        "edge_keys": derived("<i8"),
        "edge_cells": derived("<i8", size["edge_keys"] + 1, 0, size["edge_things"], min_step=0),
        "edge_things": derived("<i4", None, 0, edges - 1),
        "step_begin": derived("<i8", len(ROAD_CLASSES) + 1, 0, steps, min_step=0),
        "step_codes": derived("<u4"),
        "step_points": derived("<i4", steps, 0, points - 2),
        "step_edges": derived("<i4", steps, 0, edges - 1),
        # the text by which a user knows a node, its key; and the nodes, from 0, in the order of the bytes of their keys
        "node_texts": ColumnSpec("<i4", nodes, 0, texts - 1, part="keys"),
        "key_nodes": derived("<i4", nodes, 0, nodes - 1, part="order"),
        # the id of OpenStreetMap of a point, of the one beyond the end for an edge that begins or ends between two of the map; the metres
        # of an edge, which aren't rounded; and the penalty of the turn that leads into an arc, in hundredths of a second
        "point_osm": ColumnSpec("<i8", points, part="map"),
        "edge_metres": ColumnSpec("<f8", edges, 0, 1e12, part="map"),
        "arc_penalty": ColumnSpec("<i4", arcs, 0, MAX_WEIGHT, part="map"),
    }


def in_tables(kind: str) -> dict[str, ColumnSpec]:
    """The columns of nodes, or of arcs, that tables have, by their names there."""
    return {name.removeprefix(kind): column for name, column in COLUMNS.items() if column.text and name.startswith(kind)}


COLUMNS = columns_of(Counter())
OF_NODES, OF_ARCS = in_tables("node_"), in_tables("arc_")
