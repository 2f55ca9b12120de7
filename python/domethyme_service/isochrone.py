"""Mapbox's Isochrone API, version 1: what is reached from a place within minutes or metres, or leads to it, as GeoJSON. The lengths to
the nodes, or from them, are the library's, which are proved; contours are drawn from them (domethyme.network.contours)."""
import itertools
from collections.abc import Sequence

import numpy as np

from domethyme.network.groups import Ints, offsets
from domethyme.network.isochrones import METRICS, Drawn, Shape, Style, drawn, limits, reach_of
from domethyme.network.reach import DECIMALS

from .costs import MOST_DRAWN, Work
from .errors import invalid_query, invalid_value, not_implemented, too_big
from .json_text import join_array, join_object, point_texts, to_json
from .osrm import Engine, snap_places
from .osrm_request import Request
from .parameters import CONTOURS_COLORS, CONTOURS_METERS, CONTOURS_MINUTES, DENOISE, GENERALIZE, POLYGONS, REVERSE, Values

# Nodes that may be reached. To draw four contours of a million took up to 140 MB and 5 seconds.
MAX_REACHED = 4_000_000


def answer(engine: Engine, request: Request) -> str:
    """The answer to a request. Raises RequestError."""
    roads, values, colors = engine.roads, request.values, request.values.get(CONTOURS_COLORS) or []
    contours, weight_limits = parse_limits(values, roads.unit)
    towards = values[REVERSE] == "true"
    if colors and len(colors) != len(contours):
        raise invalid_value("contours_colors has to have a colour for each contour")

    def lengths(starts: Sequence[tuple[int, int]], limit: int) -> Ints:
        found = engine.queries.reach(starts, limit, towards)
        if np.count_nonzero(found >= 0) > MAX_REACHED:
            raise too_big(f"more than {MAX_REACHED:,} nodes are reached: ask for less")
        engine.meter.spend(Work.CONTOUR, len(weight_limits))
        counts = (np.count_nonzero((0 <= found) & (found <= each)) for each in weight_limits)
        engine.meter.spend(Work.DRAWN, sum(min(count, MOST_DRAWN) for count in counts))
        return found

    reach = reach_of(roads, snap_places(engine, request), weight_limits, lengths, towards)
    shape: Shape = "polygons" if values[POLYGONS] == "true" else "lines"
    style = Style(shape, values[GENERALIZE], values[DENOISE], colors)
    features = (
        join_object({"type": '"Feature"', "properties": to_json(properties), "geometry": geometry_text(found)})
        for properties, found in drawn(reach, contours, METRICS[roads.unit][0], style)
    )
    attribution = {"attribution": to_json(roads.texts[0])} if roads.texts[0] else {}
    return join_object({"type": '"FeatureCollection"', "features": join_array(features), **attribution})


def geometry_text(found: Drawn | None) -> str:
    """A geometry as GeoJSON."""
    if found is None:
        return "null"
    lines = [line for part in found.parts for line in part]
    points, bounds = np.rint(np.concatenate(lines) * 10**DECIMALS).astype(np.int64), offsets(np.array([*map(len, lines)]))
    texts = point_texts(points, DECIMALS).arrays(bounds[:-1], bounds[1:])
    if found.kind == "Polygon":
        rings = iter(texts)
        texts = [join_array(itertools.islice(rings, len(part))) for part in found.parts]
    kind, coordinates = (found.kind, texts[0]) if len(texts) == 1 else (f"Multi{found.kind}", join_array(texts))
    return join_object({"type": to_json(kind), "coordinates": coordinates})


def parse_limits(values: Values, unit: str) -> tuple[list[float], list[int]]:
    """The contours, and the same in the unit of weights. Raises RequestError."""
    minutes, metres = values.get(CONTOURS_MINUTES) or [], values.get(CONTOURS_METERS) or []
    if bool(minutes) == bool(metres):
        raise invalid_query("there has to be one of contours_minutes and contours_meters")
    name = CONTOURS_MINUTES.name if minutes else CONTOURS_METERS.name
    needed, what = ("duration", "times") if minutes else ("distance", "lengths")
    if unit != needed:
        raise not_implemented(f"{name} isn't supported: the weights of this network aren't {what}")
    found = limits(unit, minutes, metres)
    if any(low == limit for low, limit in itertools.pairwise(found)):
        raise invalid_value(f"{name} have to differ by more")
    return minutes or metres, found
