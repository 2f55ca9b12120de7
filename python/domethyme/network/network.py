"""The class Network: where the nodes of a network lie, and the piece of road of each arc. Needs numpy."""
import functools
import itertools
import math
import numbers
import os
from collections.abc import Iterable, Iterator, Sequence
from typing import Any, Literal, overload

import numpy as np
from numpy.typing import NDArray

from .. import belonging
from ..arrays import places_of
from ..errors import NetworkError, NoSuchNode
from ..extras import load
from ..features import route_feature
from ..keys import Keys, parse_keys
from ..limits import DEFAULT_RADIUS, MAX_DEVIATION
from ..links import Links
from ..program import StrPath
from ..route import Route, Rows
from ..routes import Routes
from . import from_tables, net_file
from .bearings import Approach, BearingRange, at_curb, nearest_by_approach
from .columns import ENDS, NO_OSM, OF_ARCS, UNITS
from .geo import Point
from .matching import Trace
from .node_index import NodeIndex, load_node_index
from .reweigh import Reweighed, read_speeds, speeds_of, write_reweighed
from .snapping import RoadIndex, SnappedPoint
from .sphere import Floats as Floats
from .table_files import lines_of_arcs, texts_of_arcs
from .tables import KEY, Files, Side, arcs_file, need_nodes
from .without import parse_classes, without

# For each place None, or (bearing, tolerance) in degrees.
Bearings = Sequence[tuple[int, int] | None] | None
Snapping = Literal["default", "any"]
# For each place None or "unrestricted", or "curb".
Approaches = Sequence[Literal["unrestricted", "curb"] | None] | None


class Network:
    """The files of a network. They are opened once, when they are first needed or when a Hierarchy compares them with its own:
    files that take their names later change nothing.

    prefix   how their names begin
    exclude  the classes of roads that are left out
    """

    def __init__(self, prefix: StrPath, *, exclude: Iterable[str] = ()) -> None:
        """With `exclude`, some of motorway, toll, ferry and tunnel, the network is without these roads, and without what they cut off: its
        hierarchy is that of the graph that the tool `without` makes. That takes scipy. Raises NetworkError where there are no such files, and ValueError."""
        self.prefix, self._files = os.fspath(prefix), Files(prefix)
        words = ",".join(map(str, exclude)) if isinstance(exclude, Iterable) and not isinstance(exclude, str) else str(exclude)
        self.exclude = parse_classes(words) if words else frozenset[str]()
        self._full_prefix = os.path.abspath(self.prefix)
        need_nodes(prefix)

    def __repr__(self) -> str:
        return f"<Network {self.prefix}>"

    def __reduce__(self) -> tuple[Any, ...]:
        return functools.partial(Network, exclude=sorted(self.exclude)), (self._full_prefix,)

    @functools.cached_property
    def node_index(self) -> NodeIndex:
        """Its nodes, for look-ups by place."""
        return NodeIndex(self._arrays) if self._has_arcs else load_node_index(self.prefix)

    @functools.cached_property
    def lon(self) -> Floats:
        """The longitudes of the nodes in degrees, of shape (nodes,). Raises NetworkError, as all that reads files."""
        return np.asarray(self.node_index.lon[:] / UNITS)

    @functools.cached_property
    def lat(self) -> Floats:
        """The latitudes of the nodes in degrees, of shape (nodes,)."""
        return np.asarray(self.node_index.lat[:] / UNITS)

    def keys(self, column: str | None = None) -> Keys:
        """The Keys of the nodes: those of the table that `to_network` made the network of, and of a map, or with `osm` as the column, the
        ids of OpenStreetMap, of which points between have none. Else those in another column of NETWORK.nodes.csv, if that is the
        table of these nodes. Raises NetworkError, also where nodes have no keys at all."""
        if column is not None and column not in ("osm", KEY):
            if self._has_arcs and not net_file.is_same_table(self._files.nodes, self._arrays):
                raise NetworkError(f"isn't the table of the nodes that {self._arrays.path} has", self._files.nodes)
            return Keys.read(self._files.nodes, column)
        if column != "osm" and (keys := self.node_index.keys()):
            return Keys(parse_keys(keys))
        osm = [None if each == NO_OSM else each for each in self.node_index.osm[:].tolist()]
        if all(each is None for each in osm):
            why = "its nodes have no keys: they are in the column node, or osm, of the table of nodes"
            raise NetworkError(why, self.prefix)
        ends = [ENDS[each] for each in self.node_index.ends[:].tolist()]
        if self._has_arcs and self._arrays.is_partial:
            begins = {None, *(key for key, end in zip(osm, ends) if end in ("", "from"))}
            for node, key in enumerate(osm):
                if ends[node] == "no" and key not in begins:  # (where routes began at a junction from which nothing leads any more)
                    ends[node] = "from"
                    begins.add(key)
        return Keys.of_rows(zip(osm, ends))

    @property
    def has_names(self) -> bool:
        """Whether its nodes have names of a table, as those that `to_network` has made of one."""
        return len(self.node_index.keys()) > 0

    def nodes_frame(self) -> Any:
        """A DataFrame of pandas with the columns osm, lon, lat and ends, and key where nodes have keys, whose index are the nodes from
        0."""
        pandas = load("pandas")
        osm = pandas.array(self.node_index.osm[:], dtype="Int64")
        osm[self.node_index.osm[:] == NO_OSM] = pandas.NA
        ends = np.array(ENDS, dtype=object)[self.node_index.ends[:]]
        columns = {"osm": osm, "lon": self.lon, "lat": self.lat, "ends": ends}
        if keys := self.node_index.keys():
            columns[KEY] = np.array(parse_keys(keys), dtype=object)
        return pandas.DataFrame(columns).rename_axis("node")

    def arcs_frame(self) -> Any:
        """A DataFrame of pandas with the columns of NETWORK.arcs.csv, whose `from` and `to` count from 0."""
        pandas = load("pandas")
        arrays, arcs = self._arrays, np.flatnonzero(self._arrays.are_open())
        numbers = {name: getattr(arrays, f"arc_{name}")[arcs].astype(column.kind[1] + "8") for name, column in OF_ARCS.items()}
        return pandas.DataFrame({**numbers, **texts_of_arcs(arrays, arcs), "WKT": lines_of_arcs(arrays, arcs)})

    def to_geodataframe(self) -> Any:
        """The frame of `arcs_frame` as a GeoDataFrame of geopandas, with the line of each arc in WGS 84 in place of WKT."""
        frame, geopandas = self.arcs_frame(), load("geopandas")
        lines = geopandas.GeoSeries.from_wkt(frame.pop("WKT"))
        return geopandas.GeoDataFrame(frame, geometry=lines, crs="EPSG:4326")

    @overload
    def nearest(
        self, lon: float, lat: float, side: Side = "from", *, radius: float = DEFAULT_RADIUS
    ) -> tuple[int, float]: ...
    @overload
    def nearest(
        self, lon: Rows, lat: Rows, side: Side = "from", *, radius: float = DEFAULT_RADIUS
    ) -> tuple[NDArray[np.int64], Floats]: ...
    def nearest(self, lon: Any, lat: Any, side: Side = "from", *, radius: float = DEFAULT_RADIUS) -> tuple[Any, Any]:
        """The node nearest to each place, from 0, and how many metres away it is along the great circle, on a sphere of
        6,371,008.8 m: of those where routes may begin, or with side="to" of those where they may end, which differ at
        junctions with turn restrictions. Two numbers give an int and a float, two arrays of one shape give two arrays of that shape.
        Raises NoSuchNode where none is within `radius` metres, and ValueError for what are no degrees."""
        radius = as_number("radius", radius)
        if side not in ("from", "to"):
            raise ValueError(f"side has to be from or to, and is {side!r}")
        east, north = np.asarray(lon, float), np.asarray(lat, float)
        if east.ndim and north.ndim and east.shape != north.shape:
            raise ValueError(f"there are {east.size} values of lon and {north.size} of lat")
        east, north = np.broadcast_arrays(east, north)
        check_degrees(east, north)
        nodes, away = self.node_index.nearest(east.ravel(), north.ravel(), side)
        for place in np.flatnonzero(~(away <= radius))[:1].tolist():
            other_lon, other_lat = north.ravel()[[place]], east.ravel()[[place]]
            swapped = abs(other_lat[0]) <= 90 and self.node_index.nearest(other_lon, other_lat, side)[1][0] <= radius
            raise too_far("node", place, float(away[place]), radius, bool(swapped))
        if east.ndim == 0:
            return int(nodes[0]), float(away[0])
        return nodes.reshape(east.shape), away.reshape(east.shape)

    def geojson(self, routes: "Route | Routes | None") -> dict[str, Any]:
        """The routes along the real road, as a FeatureCollection with a Feature for each, longitude first.

        The properties are from, to (nodes or keys), length, arcs, seconds, None if the network has none, and metres. If there is
        no path there is no geometry, and all but the pair are None. From a node to the next a route takes the lightest arc.
        Raises NetworkError if the network lacks an arc, or if weights don't sum to a length: then it is another network's; and ValueError
        for None, as `route` returns if there is no path.
        """
        return {"type": "FeatureCollection", "features": [self._feature(*each) for each in iter_routes(routes)]}

    def line(self, nodes: "list[int]") -> list[Point]:
        """The points (lon, lat) along the arcs from each of these nodes, from 0, to the next: two or more."""
        arrays = self._arrays
        points = [(float(arrays.node_lon[nodes[0]] / UNITS), float(arrays.node_lat[nodes[0]] / UNITS))]
        for arc in self._arcs(nodes):
            points += arrays.line(arc)
        points = [point for point, _ in itertools.groupby(points)]
        return points if len(points) > 1 else points * 2

    def _feature(self, ends: tuple[Any, Any], length: int | None, numbers: list[int], added: int) -> dict[str, Any]:
        properties = {"from": ends[0], "to": ends[1], "length": None, "arcs": None, "seconds": None, "metres": None}
        line = None
        if length is not None:
            arcs, arrays = self._arcs(numbers), self._arrays
            weight = int(arrays.arc_weight[arcs].sum()) if arcs else 0
            if weight != length - added:
                sums = f"its arcs' weights in {self.prefix} sum to {weight}"
                raise NetworkError(f"a route has the length {length - added}, and {sums}")
            ways = [sum(values[arcs].tolist()) if arcs else 0.0 for values in (arrays.arc_seconds, arrays.arc_metres)]
            seconds = round(ways[0], 3) if arrays.has_seconds else None
            properties.update(length=length, arcs=len(arcs), seconds=seconds, metres=round(ways[1], 2))
            line = self.line(numbers)
        return route_feature(properties, line)

    def _arcs(self, nodes: "list[int]") -> list[int]:
        """The lightest arc from each of the nodes, from 0, to the next."""
        line, count = np.array(nodes, dtype=np.int64), len(self._arrays.node_osm)
        if line.min() < 0 or line.max() >= count:
            raise NetworkError(f"a route has a node that it hasn't: it has {count} nodes", self._files.arcs)
        arcs: list[int] = self._arrays.lightest(line[:-1], line[1:]).tolist()
        if -1 in arcs:
            start, end = nodes[arcs.index(-1) :][:2]
            raise NetworkError(f"has no arc from node {start} to node {end}, counted from 0", self._files.arcs)
        return arcs

    def compare(self, file: int, name: str, whole: bool = False) -> None:
        """Raises WrongHierarchy where the open file of a hierarchy is that of another network (belonging.compare). Of nodes without
        arcs, a table alone or a DIMACS .co file, the number is compared."""
        if self._has_arcs:
            belonging.compare(file, name, self._arrays, whole)
        else:
            belonging.need_nodes(name, Links.of(file, name).nodes, self.prefix, len(self.node_index.lon))

    def check_keys(self, keys: Keys | None) -> None:
        """Raises ValueError where a key is that of another node in the network's file."""
        if keys is not None and self._has_arcs and self._arrays.has_keys:
            keys.need_same(self.keys(), self._arrays.path)

    def millimetres(self, file: int, name: str) -> NDArray[np.uint32]:
        """The whole millimetres of the lightest arc for each link without a middle of the open file of a hierarchy, in order. Raises
        NetworkError for an arc of more than 4,294 km."""
        return Links.of(file, name).thousandths(self._arrays, [self._arrays.arc_metres])[0]

    @functools.cached_property
    def _has_arcs(self) -> bool:
        return os.path.exists(arcs_file(self.prefix)) or os.path.exists(self._files.binary)

    @property
    def arrays(self) -> net_file.MappedNetwork:
        """What NETWORK.net has, in arrays. Raises NetworkError."""
        return self._arrays

    @functools.cached_property
    def _arrays(self) -> net_file.MappedNetwork:
        found = from_tables.load_network_or_dimacs(self.prefix)
        return without(found, self.exclude) if self.exclude else found

    @functools.cached_property
    def roads(self) -> RoadIndex:
        """Its roads, for points on them. Raises NetworkError where there are no arcs."""
        return RoadIndex(self._arrays)

    def reweigh(self, speeds: Any, out: StrPath) -> Reweighed:
        """Writes the files of the network with new speeds, OUT.gr and OUT.net, as the tool `reweigh` does; this one isn't changed. `renew`
        makes their hierarchy by that of this network.

        speeds   rows (from, to, kmh) with the ids of neighbouring points of the map, or rows (way, kmh), or a frame with these columns;
                 or the path of a table of both. 0 closes a road

        Returns how many arcs have changed, are closed, and are cut off by these, and the rows that match nothing: of a table their
        numbers from 1, else their places from 0. Raises NetworkError for a network that isn't of a map, for a table, and where
        no arc would be left, ValueError, and OSError. If roads are closed it needs scipy.
        """
        rows = read_speeds(speeds) if isinstance(speeds, (str, os.PathLike)) else speeds_of(speeds)
        return write_reweighed(self._arrays, rows, out)

    def points_on_roads(
        self, places: Rows, radius: float = DEFAULT_RADIUS, *, bearings: Bearings = None, radiuses: Sequence[float | None] | None = None,
        snapping: Snapping = "default", approaches: Approaches = None
    ) -> list[SnappedPoint]:
        """The nearest point of a road to a place (lon, lat) in degrees, or to each of several: rows, a frame with the columns lon and
        lat, or points of shapely or geopandas.

        radius    how many metres away a road may be; `radiuses` has a number for each place, or None for `radius`
        bearings  for each place None, or (bearing, tolerance) in whole degrees clockwise from north: a route begins and ends
                  there in a direction from bearing - tolerance to bearing + tolerance
        snapping  "any": also points on ferries
        approaches  for each place "curb", if a route has to come and to leave with the place at the side of the road on which vehicles are,
                  or None

        Raises NoSuchNode where no such road is near enough, ValueError for what are no degrees, and NetworkError.
        """
        radius = as_number("radius", radius)
        rows = places_of(places)
        if not len(rows):
            raise ValueError("there has to be a place or more")
        check_degrees(rows[:, 0], rows[:, 1])
        if snapping not in ("default", "any"):
            raise ValueError(f'snapping has to be "default" or "any", not {snapping!r}')
        wanted_sides = each_place("approaches", approaches, len(rows))
        if unknown := [each for each in wanted_sides if each not in (None, "unrestricted", "curb")]:
            raise ValueError(f'approaches are "unrestricted" or "curb", and not {unknown[0]!r}')
        is_any, curbs = snapping == "any", [each == "curb" for each in wanted_sides]
        limits = [radius if each is None else as_number("radiuses", each) for each in each_place("radiuses", radiuses, len(rows))]
        ranges = [None if each is None else bearing_range(each) for each in each_place("bearings", bearings, len(rows))]
        spots = [(lon, lat) for lon, lat in rows.tolist()]
        points: Iterable[SnappedPoint | None] = self.roads.nearest_within(spots, [math.inf] * len(spots), is_any)
        if any(ranges):
            wishes = (Approach(*each) for each in zip(ranges, curbs))
            points = (
                next(iter(nearest_by_approach(self.roads, spot, 1, wish, limit if wish.bearing_range else math.inf, is_any)), None)
                for spot, wish, limit in zip(spots, wishes, limits)
            )
        elif any(curbs):
            points = (
                at_curb(self.roads, spot, point) if is_curb and point is not None else point
                for spot, point, is_curb in zip(spots, points, curbs)
            )
        found = []
        for number, (point, limit) in enumerate(zip(points, limits)):
            if point is None:
                direction = " in the direction of its bearing" if ranges[number] else ""
                raise NoSuchNode(f"place {number} has no road within {limit:g} m{direction}", number)
            if not point.metres <= limit:
                lon, lat = rows[number].tolist()
                swapped = abs(lon) <= 90 and any(self.roads.nearest_within([(lat, lon)], [limit]))
                raise too_far("road", number, point.metres, limit, swapped)
            found.append(point)
        return found


def trace_of(places: Any, seconds: Sequence[float] | None, deviation: float | Sequence[float], bearings: Bearings) -> Trace:
    """The Trace of some places, given as for `points_on_roads`. Raises ValueError."""
    rows = places_of(places)
    count = len(rows)
    if count < 2:
        raise ValueError(f"a trace has two places or more, and not {count}")
    check_degrees(rows[:, 0], rows[:, 1])
    times = None if seconds is None else [as_number("seconds", each) for each in each_place("seconds", seconds, count)]
    if times is not None and not all(-math.inf < before <= behind < math.inf for before, behind in itertools.pairwise(times)):
        raise ValueError("seconds have to be numbers that don't fall")
    given: Any = deviation
    each_deviation: Sequence[Any] = [given] * count if isinstance(given, numbers.Real) else each_place("deviation", given, count)
    deviations = [as_number("deviation", each) for each in each_deviation]
    if not all(0 < each <= MAX_DEVIATION for each in deviations):
        raise ValueError(f"a deviation is above 0 and up to {MAX_DEVIATION:g} metres")
    ranges = [None if each is None else bearing_range(each) for each in each_place("bearings", bearings, count)]
    return Trace([(lon, lat) for lon, lat in rows.tolist()], times, deviations, ranges)


def each_place(name: str, values: "Sequence[Any] | None", count: int) -> Sequence[Any]:
    """A value for each place, None for each without any. Raises ValueError for another number of them."""
    if values is None:
        return [None] * count
    try:
        size: Any = len(values)
    except TypeError:
        size = repr(values)
    if size != count:
        raise ValueError(f"{name} have to be one for each place, {count}, and are {size}")
    return values


def as_number(name: str, value: Any) -> float:
    """A number, also of numpy, as a float. Raises ValueError for NaN, a date, a text, a truth value and anything else."""
    try:
        found = math.nan if isinstance(value, (np.datetime64, np.timedelta64, str, bytes, bool, np.bool_)) else float(value)
    except (TypeError, ValueError):
        found = math.nan
    if math.isnan(found):
        raise ValueError(f"{name} have to be numbers, and one is {value!r}")
    return found


def bearing_range(value: Sequence[int]) -> BearingRange:
    """The range of a bearing and its tolerance. Raises ValueError."""
    try:
        bearing, tolerance = value
        is_right = 0 <= bearing <= 360 and 0 <= tolerance <= 180
    except (TypeError, ValueError):
        is_right = False
    if not is_right:
        raise ValueError(f"a bearing is (degrees from 0 to 360, tolerance from 0 to 180), and not {value!r}")
    return BearingRange(bearing, tolerance)


def too_far(what: str, place: int, metres: float, radius: float, is_swapped: bool) -> NoSuchNode:
    """What to raise of a place that has nothing near."""
    doubt = ": are lon and lat swapped?" if is_swapped else ""
    return NoSuchNode(f"place {place} has no {what} within {radius:g} m: the nearest is {metres:,.0f} m away{doubt}", place)


def check_degrees(lon: Floats, lat: Floats) -> None:
    """Raises ValueError for what are no degrees."""
    if not (np.isfinite(lon).all() and np.isfinite(lat).all()):
        raise ValueError("lon and lat have to be numbers of degrees")
    if (np.abs(lon) > 180).any() or (np.abs(lat) > 90).any():
        raise ValueError("lon has to be from -180 to 180 and lat from -90 to 90: are they swapped?")


def iter_routes(routes: "Route | Routes | None") -> Iterator[tuple[tuple[Any, Any], int | None, list[int], int]]:
    """For each route its ends, its length or None, its nodes from 0, and what was added to the weights of its arcs."""
    if routes is None:
        raise ValueError("there is no route: the hierarchy has no path between these nodes")
    if isinstance(routes, Route):
        yield (routes.source, routes.target), routes.length, routes.node_indices, routes.added
        return
    for row, (pair, length) in enumerate(zip(routes.pairs.tolist(), routes.lengths.tolist())):
        ends = pair if routes.keys is None else [routes.keys.key(node) for node in pair]
        yield (ends[0], ends[1]), None if length < 0 else length, routes.node_indices(row).tolist(), 0
