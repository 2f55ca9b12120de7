"""Tables of durations and distances between points on roads, of the library's tables, which are proved (domethyme.network.leg_tables):
weights, and sums along paths of the least weight."""
import collections
from collections.abc import Iterator, Sequence

import numpy as np

from domethyme.network.groups import Ints
from domethyme.network.leg_geometry import UNITS_PER_OUTPUT_UNIT
from domethyme.network.leg_tables import table_rows
from domethyme.network.snapping import SnappedPoint
from domethyme.network.sphere import Floats, great_circle_metres, unit_vectors
from domethyme.protocol import FAR

from .costs import Work
from .errors import not_implemented, too_big
from .json_text import decimal_texts, join_array, join_object, to_json
from .osrm import Engine, snap_places, waypoints
from .osrm_request import Request
from .parameters import DESTINATIONS, FALLBACK_COORDINATE, FALLBACK_SPEED, SCALE_FACTOR, SOURCES, TABLE_ANNOTATIONS

# Lengths between nodes that are computed at once, in some ten milliseconds: an alarm is handled between two calls.
NODE_CELLS = 1 << 16
# The same with sums.
SUMMED_CELLS = 1 << 15
# Decimals of durations and distances, and of weights, by what they are.
DIGITS = {"duration": 3, "distance": 2, "weight": 1}
# Some rows of a table by the names of their values; NaN is none.
Rows = dict[str, Floats]


def table(engine: Engine, request: Request) -> str:
    """Tables of durations, distances or weights, null for pairs without a path. Raises RequestError."""
    values, roads = request.values, engine.roads
    sources, destinations, names = values[SOURCES], values[DESTINATIONS], values[TABLE_ANNOTATIONS]
    cells = len(sources) * len(destinations)
    if cells > engine.max_cells:
        raise too_big(f"a table may have {engine.max_cells} cells (--max-table-cells), and this one would have more")
    if "duration" in names and not roads.has_seconds:
        raise not_implemented("this network has no seconds, so no durations: ask annotations=weight or distance")
    points = snap_places(engine, request)
    # (what is named twice is computed once)
    starts, ends = ([points[number] for number in dict.fromkeys(side)] for side in (sources, destinations))
    members = table_members(engine, request, points, rows_of(engine, names, starts, ends))
    return join_object({"code": '"Ok"', **members, **waypoints(request, points, sources=sources, destinations=destinations)})


def rows_of(engine: Engine, names: list[str], starts: Sequence[SnappedPoint], ends: Sequence[SnappedPoint]) -> Iterator[Rows]:
    """The rows of a table, some at a time."""
    roads, queries = engine.roads, engine.queries
    summed = {"duration": roads.arrays.arc_seconds, "distance": roads.arrays.arc_metres}
    some = [name for name in summed if name in names and name != roads.unit]
    units = [UNITS_PER_OUTPUT_UNIT.get(roads.unit, 1), *(1000 for _ in some)]

    def ask(sources: Ints, targets: Ints) -> list[Ints]:
        return queries.table_sums(sources, targets, some) if some else [queries.table(sources, targets)]

    cells = SUMMED_CELLS if some else NODE_CELLS
    for found in table_rows(ask, roads, starts, ends, cells, [summed[name] for name in some]):
        weights, *sums = (np.where(each == FAR, np.nan, each / unit) for each, unit in zip(found, units))
        values = dict(zip(some, sums))
        yield {name: values.get(name, weights).copy() for name in names}


def table_members(engine: Engine, request: Request, points: list[SnappedPoint], rows: Iterator[Rows]) -> dict[str, str]:
    """The members of the answer, from the rows of the values by name, of each source and to each destination once."""
    values, unit = request.values, engine.roads.unit
    sources, destinations, scale, speed = values[SOURCES], values[DESTINATIONS], values.get(SCALE_FACTOR), values.get(FALLBACK_SPEED)
    origins, times = [*dict.fromkeys(sources)], collections.Counter[int](sources)
    row_of = {number: row for row, number in enumerate(origins)}
    column_of = {number: column for column, number in enumerate(dict.fromkeys(destinations))}
    columns = [column_of[number] for number in destinations]
    is_snapped = values[FALLBACK_COORDINATE] == "snapped"
    places = np.array([(point.lon, point.lat) for point in points] if is_snapped else request.places)
    texts: dict[str, list[str]] = {name: [] for name in values[TABLE_ANNOTATIONS]}
    fallback_columns, done = collections.defaultdict[int, list[int]](list), 0
    for part in rows:
        count = len(next(iter(part.values())))
        froms = origins[done : done + count]
        engine.meter.spend(Work.CELL, count * len(columns))
        some = {name: each[:, columns] for name, each in part.items()}
        if speed is not None:
            for row, column in fill_fallback(some, unit, speed, places[froms], places[destinations]):
                fallback_columns[froms[row]].append(column)
        if scale is not None and "duration" in some:
            some["duration"] *= scale
        for name, each in some.items():
            found = decimal_texts(each.ravel(), DIGITS[unit if name == "weight" else name])
            firsts = np.arange(0, each.size, each.shape[1])
            shown = found.arrays(firsts, firsts + each.shape[1])
            engine.meter.spend(Work.BYTE, sum(len(text) * times[source] for text, source in zip(shown, froms)))
            texts[name] += shown
        done += count
    members = {
        f"{name}s": join_array(texts[name][row_of[source]] for source in sources)
        for name in ("duration", "distance", "weight") if name in texts
    }
    cells = [(number, column) for number, source in enumerate(sources) for column in fallback_columns[source]]
    return members if speed is None else {**members, "fallback_speed_cells": to_json(cells)}


def fill_fallback(rows: Rows, unit: str, speed: float, starts: Floats, ends: Floats) -> list[tuple[int, int]]:
    """Fills cells without a route by the great-circle distance, or that over `speed` in metres a second, if they have such a
    unit; returns their rows and columns."""
    cells = np.nonzero(np.any([np.isnan(values) for values in rows.values()], axis=0))
    metres = great_circle_metres(unit_vectors(*starts[cells[0]].T), unit_vectors(*ends[cells[1]].T))
    guesses = {"duration": (metres / speed).round(3), "distance": metres.round(2)}
    for name, values in rows.items():
        values[cells] = guesses.get(unit if name == "weight" else name, np.nan)
    return [*zip(cells[0].tolist(), cells[1].tolist())]
