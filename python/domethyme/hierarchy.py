"""A file of a hierarchy, and the questions that it answers."""
import contextlib
import functools
import operator
import os
import zlib
from collections.abc import Hashable, Iterable, Iterator, Mapping, Sequence
from typing import IO, TYPE_CHECKING, Any, Literal, Union, overload

from .errors import NoSuchNode, WrongHierarchy
from .extras import need
from .features import Features
from .hierarchy_file import file_stamp, open_hierarchy_file, pread_all, read_header
from .keys import Keys, as_list, to_python_scalar
from .limits import DEFAULT_DEVIATION, DEFAULT_RADIUS
from .network.tables import Side
from .program import StrPath
from .progress import Progress
from .protocol import FAR, NO_PATH, RouterResult
from .route import Route, Rows
from .router import Router

if TYPE_CHECKING:
    import numpy as np
    from numpy.typing import NDArray

    from .batch import Summer
    from .network.directions import Directions, Match, Tour
    from .network.isochrones import Shape
    from .network.network import Approaches, Bearings, Network, Snapping
    from .network.snapping import SnappedPoint
    from .routes import Routes
    from .tours import Destination, Source

MAX_ADDED = (1 << 32) - 1

# The greatest limit of what is reached, and the minutes of contours that nobody chose.
MAX_LIMIT = 1 << 62
DEFAULT_MINUTES = (5, 10, 15)

Ends = Union[Mapping[Any, int], Iterable[Any]]
Gaps = Literal["split", "ignore"]


class Hierarchy:
    """A file that `routecli prepare` wrote, in memory, and the questions that it answers.

    The library libdomethyme answers, in this process. It has read the file when the object was made, so another file that
    takes its name later changes nothing. Several threads may ask at once, and other threads of Python go on meanwhile. A
    child of a fork has the hierarchy too, if no other thread ran at that moment. A pickled object reads its file again, and
    raises WrongHierarchy for another file.

    Nodes are numbered from 0, as rows of arrays are: node n is node n + 1 of a file. With `keys` all methods take and give
    the user's own keys in their place. Lengths are integers in the unit of the graph's weights.

    path      the path, as it was given
    nodes     the number of nodes
    links     the number of links
    keys      the Keys, or None
    network   the Network on which `nearest` looks for places, or None
    """

    def __init__(
        self, path: StrPath, *, keys: "Keys | Mapping[Any, int] | Iterable[Hashable] | None" = None,
        network: "Network | StrPath | None" = None, compare_all: bool = False
    ) -> None:
        """Reads the file, which takes 0.65 seconds for a million nodes, and some 250 bytes of memory per node.

        keys         a key for each node, in order, or a mapping from keys to nodes from 0; Keys.load has those that Graph.prepare
                     saved. Saved keys of another file are refused, and others that contradict those saved beside it, or the keys
                     that the network's nodes have
        network      the network of the nodes: a Network, or the prefix of its files. It is compared with the hierarchy,
                     which takes a second for a million nodes: their nodes, and the weights of all links that are arcs
        compare_all  all links are compared with the network, also of a file with more than ten million; else 5,000 of these

        Raises HierarchyNotFound, HierarchyError, OutOfMemory, LibraryNotFound, NetworkError, WrongHierarchy for that of another
        network, and ValueError for keys that don't fit.
        """
        self._open(path, keys, network, compare_all, None)

    def _open(
        self, path: StrPath, keys: "Keys | Mapping[Any, int] | Iterable[Hashable] | None", network: "Network | StrPath | None",
        compare_all: bool, checksum: int | None
    ) -> None:
        """Reads the file, which has to have the checksum if one is given. Raises WrongHierarchy, and what `__init__` does."""
        if not isinstance(path, (str, os.PathLike)):
            raise ValueError(f"Hierarchy takes the path of a file, and no {type(path).__name__}")
        self.path, self._name, self._checksum = path, os.fspath(path), checksum
        self._full_path = os.path.abspath(self._name)
        self._summers: dict[bool, Summer] = {}
        self._turned: Router | None = None
        with open_hierarchy_file(self._name) as file:
            self.nodes, self.links = read_header(file.fileno(), self._name)
            self._stamp = file_stamp(file.fileno())
            data = pread_all(file.fileno(), 0, self._stamp.size)
            if checksum not in (None, zlib.crc32(data)):
                raise WrongHierarchy(f"{self._name}: is another file than that of the Hierarchy that was pickled")
            self.keys = None if keys is None else Keys(keys, self.nodes)
            if self.keys is not None:
                self.keys.check_consistent(path, data)
            if network is not None:
                need("numpy")
                from .network.network import Network

                if not isinstance(network, (str, os.PathLike, Network)):
                    raise ValueError(f"network is a Network, or the prefix of its files, and no {type(network).__name__}")
                network = network if isinstance(network, Network) else Network(network)
            self.network, self._compare_all = network, compare_all
            self._router = Router(data, self._name)
            del data  # (the library has what it needs of it)
            if self.network is not None:
                self.network.compare(file.fileno(), self._name, compare_all)
                self.network.check_keys(self.keys)

    def __enter__(self) -> "Hierarchy":
        return self

    def __exit__(self, *_: object) -> None:
        self.close()

    def __repr__(self) -> str:
        return f"<Hierarchy {self._name} of {self.nodes} nodes and {self.links} links>"

    def __reduce__(self) -> tuple[Any, ...]:
        """The file is read again by its absolute path, and has to be the same. Raises WrongHierarchy where it was replaced already."""
        if self._checksum is None:
            with self._open_again("no other process can read it again") as file:
                self._checksum = zlib.crc32(pread_all(file.fileno(), 0, self._stamp.size))
        return reopened, (self._full_path, self.keys, self.network, self._compare_all, self._checksum)

    def close(self) -> None:
        """Frees the memory. Questions then raise ValueError, as those of a closed file do."""
        self._router.close()
        self._summers = {}
        if self._turned is not None:
            self._turned.close()

    # One question

    def length(self, source: Hashable, target: Hashable) -> int | None:
        """The length of a shortest path from one node to another, None if there is no path. Raises NoSuchNode."""
        return self._router.length(*self._pair(source, target))

    def route(self, source: Hashable, target: Hashable) -> Route | None:
        """A shortest path from one node to another, None if there is no path. Raises NoSuchNode."""
        return self._route(self._router.route(*self._pair(source, target)))

    def between(self, starts: Ends, ends: Ends) -> Route | None:
        """The shortest route from one of several nodes to one of several, None if there is no path.

        `starts` and `ends` are a node or more each: a mapping from nodes to the length that is added there, rows of (node, added
        length), or nodes alone with 0 added; a row that is a key is that key. Added lengths are integers from 0 to 4294967295. The route's source and target
        are those that were taken, and its length has what was added. Raises NoSuchNode and ValueError.
        """
        return self._route(self._router.between(self._ends("starts", starts), self._ends("ends", ends, True)))

    # Many questions

    @overload
    def lengths(self, pairs: Rows) -> "NDArray[np.int64]": ...
    @overload
    def lengths(self, pairs: Any) -> Any: ...
    def lengths(self, pairs: Any) -> Any:
        """The lengths of shortest paths of many pairs, an array of int64 of shape (n,), -1 if there is no path.

        `pairs` are rows (from, to): an array of shape (n, 2), a list, or a frame of pandas with the columns `from_node` and
        `to_node` (in the tools' tables these count from 1), or else `from` and `to`, or `source` and `target`, and with keys first
        `from_key` and `to_key`; for a frame the lengths are a Series of Int64 with its index, missing if there is no path. As many
        threads ask as there are processors. Raises NoSuchNode, with the row or the key, and ValueError for what can't be pairs.
        """
        need("numpy")
        from . import arrays, batch

        found, index = batch.lengths(self._router, arrays.pairs_of(pairs, self.keys, self.nodes)), arrays.index_of(pairs)
        return found if index is None else arrays.series(found, index)

    def routes(self, pairs: Any) -> "Routes":
        """The Routes of many pairs, which are given and asked for as for `lengths`."""
        need("numpy")
        from . import arrays, batch, routes
        from .network.groups import offsets

        asked = arrays.pairs_of(pairs, self.keys, self.nodes)
        lengths, counts, nodes = batch.routes(self._router, asked)
        found = routes.Routes(lengths, nodes, offsets(counts), asked, self.keys, arrays.index_of(pairs))
        found.network = self.network
        return found

    @overload
    def matrix(self, sources: "NDArray[Any]", targets: "NDArray[Any] | None" = None) -> "NDArray[np.int64]": ...
    @overload
    def matrix(
        self, sources: Any, targets: Any = None, *, missing: Any = None, progress: Progress = False
    ) -> Any: ...
    @overload
    def matrix(
        self, sources: Any, targets: Any = None, *, missing: Any = None, progress: Progress = False, sums: Sequence[str]
    ) -> dict[str, Any]: ...
    def matrix(
        self, sources: Any, targets: Any = None, *, missing: Any = None, progress: Progress = False, sums: Sequence[str] = ()
    ) -> Any:
        """The lengths of shortest paths from each source to each target, an array of int64 of shape (sources, targets), -1
        if there is no path. Without targets they are the sources. If one of the two is a Series or Index of pandas, or a
        list of keys, the table is a DataFrame of Int64, missing if there is no path, whose axes are the sources and the
        targets. Arrays of numpy give an array, of keys too.

        missing   what a cell without a path has instead, as numpy.inf to find the nearest, since -1 is below all lengths
        progress  True shows a bar of tqdm; a callable receives ("matrix", rows done, rows) as they are answered
        sums      ["metres"]: the result is a dictionary. `length` has the table, and `metres` one of floats, of the metres along
                  some shortest path from each source to each target, to the millimetre, NaN if there is no path

        The library computes all lengths, row by row, by as many threads as there are processors. Each thread selects what paths to
        the targets take, and keeps that: further rows to the same targets, in this call or in later ones, take less time. A table
        has 8 bytes a cell, and 2^29 cells at most: ask for some of the sources at a time beyond that. Sums need the
        network, and one thread finds them, in two to four times the time of lengths. The first ones take a second for four million links, and
        then 8 bytes a link and some 32 a node are kept.

        Raises NoSuchNode, ValueError, and OutOfMemory for too many cells, before memory is taken. With sums also WrongHierarchy,
        if the file was replaced before the first ones.
        """
        need("numpy")
        from . import arrays, batch

        need_list("sources", sources)
        if targets is not None:
            need_list("targets", targets)
        sources = sources if hasattr(sources, "__array__") else as_list(sources)
        targets = sources if targets is None else targets if hasattr(targets, "__array__") else as_list(targets)
        starts = arrays.nodes_of("sources", sources, self.keys, self.nodes)
        ends = arrays.nodes_of("targets", targets, self.keys, self.nodes, are_ends=True)
        table = batch.table(self._router, starts, ends, progress)
        arrays.stay(table, starts, ends, self.keys)
        lengths = arrays.like_axes(table, sources, targets, self.keys is not None, missing)
        if not is_with_metres(sums):
            return lengths
        found = self._metres_summer().table(starts, ends)[1]
        arrays.stay(found, starts, ends, self.keys)
        without = float("nan") if missing is None else missing
        return {"length": lengths, "metres": arrays.like_axes(arrays.thousandths(found), sources, targets, self.keys is not None, without)}

    @overload
    def nearest(
        self, lon: float, lat: float, side: Side = "from", *, radius: float = DEFAULT_RADIUS
    ) -> tuple[Any, float]: ...
    @overload
    def nearest(
        self, lon: Rows, lat: Rows, side: Side = "from", *, radius: float = DEFAULT_RADIUS
    ) -> "tuple[NDArray[Any], NDArray[np.float64]]": ...
    def nearest(self, lon: Any, lat: Any, side: Side = "from", *, radius: float = DEFAULT_RADIUS) -> tuple[Any, Any]:
        """The node nearest to each place in degrees, or its key, None if it has none, and how many metres away it is along the great
        circle: one where routes begin, or with side="to" one where they end, which differ at junctions with turn restrictions. Two
        numbers give a node and a float, two arrays give two arrays. Needs the network. Raises NoSuchNode where none is within
        `radius` metres, and ValueError. A node is up to half an arc from the place on the road that `within` and the service begin at."""
        nodes, metres = self._need_network().nearest(lon, lat, side, radius=radius)
        if self.keys is None:
            return nodes, metres
        return (self.keys.key(nodes) if isinstance(nodes, int) else self.keys.of(nodes)), metres

    # What is reached

    @overload
    def reach(self, starts: Ends, limit: int | None = None, towards: bool = False, *, minutes: float | None = None) -> Any: ...
    @overload
    def reach(
        self, starts: Ends, limit: int | None = None, towards: bool = False, *, minutes: float | None = None, sums: Sequence[str]
    ) -> dict[str, Any]: ...
    def reach(
        self, starts: Ends, limit: int | None = None, towards: bool = False, *, minutes: float | None = None, sums: Sequence[str] = ()
    ) -> Any:
        """The length of a shortest path to each node from the nearest of several starts, which are given as for `between`:
        an array of int64 of shape (nodes,), -1 for a node without a path or above the limit. With keys it is a Series of
        Int64 with the nodes' keys as its index, missing for these.

        limit   the greatest length that is asked for, in the unit of the weights, from 0 to 2^62; None for all
        minutes the same in minutes, if weights are milliseconds: of a network, or else nobody compares them
        towards True: the length of a shortest path from each node to the nearest of them, as of a depot that they drive to
        sums    ["metres"]: the result is a dictionary. `length` has the lengths, and `metres` floats, of the metres along some shortest
                path to each node, to the millimetre, NaN where there is no length. Needs the network

        The library goes once over all nodes, whatever the limit: 0.02 s for a million, and 0.1 s the first time. With sums one or
        two starts take 7 or 11 times as long, and `matrix` says what the first ones take. Memory: 8
        bytes for each node, and the library's. The first question `towards` reads the file again and turns each link round, which
        takes some three times as long as to open it, and then the memory of a hierarchy more. Raises NoSuchNode, ValueError,
        OutOfMemory, and WrongHierarchy if the file was replaced before the first question `towards` or the first sums.
        """
        need("numpy")
        from . import arrays, batch

        if minutes is not None:
            limit = self._limit_of(minutes, limit)
        if limit is not None and not (is_whole(limit) and 0 <= limit <= MAX_LIMIT):
            raise ValueError(f"limit has to be an integer from 0 to 2^62, or None, and is {limit!r}")
        ends = self._ends("starts", starts, towards)
        if not is_with_metres(sums):
            lengths = batch.reach(self._towards() if towards else self._router, ends, limit)
            return lengths if self.keys is None else arrays.by_keys(lengths, self.keys)
        lengths, found = self._metres_summer(towards).reach(ends, limit)
        metres = arrays.metres_of(found)
        if self.keys is None:
            return {"length": lengths, "metres": metres}
        return {"length": arrays.by_keys(lengths, self.keys), "metres": arrays.by_keys(metres, self.keys)}

    def within(
        self, place: Rows, minutes: Sequence[float] = (), *, metres: Sequence[float] = (), shape: "Shape" = "polygons",
        generalize: float = 0.0, denoise: float = 0.0, colors: Sequence[str] = (), towards: bool = False,
        radius: float = DEFAULT_RADIUS
    ) -> Features:
        """What is reached from a place (lon, lat) in degrees, or from the nearest of several, as GeoJSON: a
        FeatureCollection (Features, a dict) with a Feature for each number of minutes, the greatest first, with the properties of Mapbox's
        Isochrone API. It begins at the nearest point of a road, in both directions. Needs the network, scipy and shapely.

        minutes     up to 127 that rise, (5, 10, 15) without them and without `metres`; weights have to be milliseconds
        metres      the same in metres; weights have to be centimetres
        shape       "polygons", "lines" (their outlines) or "roads" (those that are reached)
        generalize  simplified by this many metres
        denoise     without parts and holes smaller than this share, from 0 to 1, of the largest part
        colors      six hexadecimal digits for each number
        towards     True: the roads from which a place is reached, or the nearest of several
        radius      how many metres away a road may be

        The lengths are the library's. Polygons and lines are drawn from them and aren't proved. Raises NoSuchNode if no
        road is near enough, ValueError, and what `reach` does.
        """
        network = self._need_network()
        for name in ("numpy", "scipy", "shapely"):
            need(name)
        from . import batch
        from .network import isochrones

        for name, numbers in (("minutes", minutes), ("metres", metres)):
            if not is_list(numbers):
                raise ValueError(f"{name} are a list, as [{numbers!r}], and a place is (lon, lat)")
        minutes, metres = ([*map(to_python_scalar, numbers)] for numbers in (minutes, metres))
        roads, asked = network.roads, metres or minutes or list(DEFAULT_MINUTES)
        limits = isochrones.limits(roads.unit, minutes if metres else asked, metres)
        if max(limits) > MAX_LIMIT:
            raise ValueError(f"{max(asked):g} is too much: lengths are asked for up to 2^62")
        points = network.points_on_roads(place, radius)
        lengths = functools.partial(batch.reach, self._towards() if towards else self._router)
        reach = isochrones.reach_of(roads, points, limits, lengths, towards)
        style = isochrones.Style(shape, generalize, denoise, colors, roads.texts[0])
        return Features(isochrones.features(reach, asked, "distance" if metres else "time", style), network)

    # Places on roads

    def directions(
        self, places: Any, *, radius: float = DEFAULT_RADIUS, bearings: "Bearings" = None, radiuses: Sequence[float | None] | None = None,
        snapping: "Snapping" = "default", approaches: "Approaches" = None, waypoints: Sequence[int] | None = None,
        continue_straight: bool = False, turns: bool = False
    ) -> "Directions | None":
        """The Directions by two or more places in degrees in their order: a shortest path from each to the next, between the nearest
        points of roads, each of which leaves its place in either direction. None if there is no path. Needs the network.

        places    rows (lon, lat), a frame of pandas with the columns lon and lat, points of shapely or geopandas, or what
                  Network.points_on_roads of this network returned
        radius, bearings, radiuses, snapping, approaches   as for Network.points_on_roads
        waypoints   the places at which a leg begins or ends, numbers from 0 that rise: the first and the last place are among them; None
                    for all
        continue_straight   True: it goes on in its direction at each place within a road but the first and the last
        turns       True: each leg has `turns` too, what to do in order, by the rules of the service's steps

        The service's `/route` answers the same. Raises NoSuchNode if a road isn't near enough, NetworkError for points on the roads
        of another network, and ValueError.
        """
        points = self._points(places, radius, bearings, radiuses, snapping, approaches)
        if len(points) < 2:
            raise ValueError("directions need two places or more")
        from .network import directions

        stops = None if waypoints is None else directions.stops_of(waypoints, len(points))
        found = directions.directions(self._router, self._need_network().roads, points, stops, continue_straight, turns)
        return None if found is None else found._replace(network=self.network)

    def alternatives(
        self, places: Any, count: int = 3, *, radius: float = DEFAULT_RADIUS, snapping: "Snapping" = "default"
    ) -> "list[Directions]":
        """The Directions from one of two places in degrees to the other, given as for `directions`, and up to `count` others (0 to 3) that
        differ from it and from one another; none if there is no path. Needs the network.

        Another route weighs up to 1.25 times as much as the first, and has at most 0.75 of its weight in common with it and with each
        other one. It has a plateau, of 0.2 of that weight or more: a part on shortest paths both from the first place and to the second.
        No part of it that weighs less than its plateau could be shorter. This rests on proved lengths; how many are found doesn't, and
        there may be none.

        Each call takes the time of two calls of `reach`, one of them `towards`, and some hundredths of a second for a million nodes.
        Raises what `directions` and `reach` do.
        """
        points = self._points(places, radius, snapping=snapping)
        if len(points) != 2:
            raise ValueError("alternatives are between two places")
        from . import batch
        from .network import alternatives, directions

        if not is_whole(count) or not 0 <= count <= alternatives.MAX_ALTERNATIVES:
            raise ValueError(f"count has to be from 0 to {alternatives.MAX_ALTERNATIVES}, and is {count!r}")
        roads = self._need_network().roads

        def reached(seeds: Sequence[tuple[int, int]], limit: int, towards: bool) -> "NDArray[np.int64]":
            return batch.reach(self._towards() if towards else self._router, seeds, limit)

        found = directions.alternatives(self._router, roads, points[0], points[1], reached, count)
        return [each._replace(network=self.network) for each in found]

    @overload
    def table(
        self, sources: Any, targets: Any = None, *, radius: float = DEFAULT_RADIUS, snapping: "Snapping" = "default", missing: Any = None
    ) -> Any: ...
    @overload
    def table(
        self, sources: Any, targets: Any = None, *, radius: float = DEFAULT_RADIUS, snapping: "Snapping" = "default", missing: Any = None,
        sums: Sequence[str]
    ) -> dict[str, Any]: ...
    def table(
        self, sources: Any, targets: Any = None, *, radius: float = DEFAULT_RADIUS, snapping: "Snapping" = "default", missing: Any = None,
        sums: Sequence[str] = ()
    ) -> Any:
        """The weights of shortest paths from each source to each target, places in degrees that are given as for `directions`: an array
        of int64 of shape (sources, targets), -1 if there is no path. Without targets they are the sources. If a side is a frame of
        pandas or geopandas, the table is a DataFrame of Int64, missing if there is no path, whose axes are the frames' own index, and
        numbers from 0 for a side that is none. Needs the network.

        radius    how many metres away a road may be
        snapping  as for Network.points_on_roads
        missing   as for `matrix`
        sums      ["metres"]: the result is a dictionary. `weight` has the table, and `metres` one of floats, of the metres along some
                  path of that weight, to the millimetre, NaN if there is no path

        One table of the library between the nodes of the roads has all lengths, and `matrix` says what it takes: some two rows and
        columns a place. The service's `/table` answers the same. Raises NoSuchNode if a road isn't near enough, ValueError and
        OutOfMemory.
        """
        starts = self._points(sources, radius, snapping=snapping)
        ends = starts if targets is None else self._points(targets, radius, snapping=snapping)
        from . import arrays
        from .network import directions

        roads, found = self._need_network().roads, list["NDArray[Any]"]()
        if is_with_metres(sums):
            found += directions.weights_and_millimetres(self._metres_summer(), roads, starts, ends)
        else:
            found.append(directions.weights(self._router, roads, starts, ends))
        for values in found:
            values[values == FAR] = NO_PATH
        indices = [getattr(side, "index", None) for side in (sources, sources if targets is None else targets)]
        axes = None
        if not all(index is None or callable(index) for index in indices):
            rows, columns = (range(size) if index is None or callable(index) else index for index, size in zip(indices, found[0].shape))
            axes = rows, columns
        weights = arrays.filled(found[0], axes, missing)
        if len(found) == 1:
            return weights
        return {"weight": weights, "metres": arrays.filled(arrays.thousandths(found[1]), axes, float("nan") if missing is None else missing)}

    def tour(
        self, places: Any, *, roundtrip: bool = True, source: "Source" = "any", destination: "Destination" = "any",
        radius: float = DEFAULT_RADIUS, snapping: "Snapping" = "default"
    ) -> "Tour | None":
        """A Tour by up to 500 places in degrees, given as for `directions`, in an order for which the weight is least, or near that; None
        if no order has a path. Needs the network.

        roundtrip     whether it leads back to where it began
        source        "first": it begins at the first place
        destination   "last": the last place is the last of the order

        Up to 12 places the order is the best one, by a search of all of them that is tested. Above it is found by insertion and by
        moves of parts, the same each time, in some seconds for 500 places, and has no promise. Each leg is a shortest path.
        Raises NoSuchNode if a road isn't near enough, and ValueError.
        """
        if source not in ("any", "first") or destination not in ("any", "last"):
            raise ValueError(f'source has to be "any" or "first", and destination "any" or "last", not {source!r} and {destination!r}')
        points = self._points(places, radius, snapping=snapping)
        from . import tours
        from .network import directions

        if not 1 <= len(points) <= tours.MAX_PLACES:
            raise ValueError(f"a tour has 1 to {tours.MAX_PLACES} places, and not {len(points)}")
        roads = self._need_network().roads
        order = tours.best_order(directions.weights(self._router, roads, points, points), roundtrip, source, destination)
        if order is None:
            return None
        stops = [points[place] for place in [*order, *(order[:1] if roundtrip or len(order) == 1 else [])]]
        route = self.directions(stops)
        return None if route is None else directions.Tour(order, route)

    def match(
        self, trace: Any, seconds: Sequence[float] | None = None, *, deviation: float | Sequence[float] = DEFAULT_DEVIATION,
        bearings: "Bearings" = None, gaps: Gaps = "split", tidy: bool = False
    ) -> "Match":
        """The way of a vehicle that was measured at some places in degrees, given as for `directions` in order: a Match. Needs the network.

        seconds    when it was at each place, whole or not, which rise; without them nothing is known of gaps
        deviation  the standard deviation of the error of a place in metres, above 0 to 200, or one for each place
        bearings   for each place None, or (bearing, tolerance) in whole degrees clockwise from north
        gaps       "split": a way ends at a gap of time, of more than 60 s and more than ten times the usual; "ignore": it goes on
        tidy       places less than 15 m, or less than 5 s, from the last one that is kept have no match

        The way is the most probable one by a hidden Markov model: a place is near roads within 3 deviations, and the metres between
        two of its points are near those of the great circle. Each leg is a shortest path, or a part of one; which points these are is
        tested, and has no promise. A deviation that is too small gives wrong roads. Raises ValueError.
        """
        if gaps not in ("split", "ignore"):
            raise ValueError(f'gaps has to be "split" or "ignore", not {gaps!r}')
        need("numpy")
        from .network import directions
        from .network.network import trace_of

        found, roads = trace_of(trace, seconds, deviation, bearings), self._need_network().roads
        return directions.match(self._router, self._metres_summer(), roads, found, gaps == "split", tidy)

    # What they share

    def _points(
        self, places: Any, radius: float, bearings: "Bearings" = None, radiuses: Sequence[float | None] | None = None,
        snapping: "Snapping" = "default", approaches: "Approaches" = None
    ) -> "list[SnappedPoint]":
        """The points on roads for places, which may be such points of the network already."""
        need("numpy")
        from .network.snapping import SnappedPoint

        self._router.need_open()
        network = self._need_network()
        if not (isinstance(places, Sequence) and places and all(isinstance(each, SnappedPoint) for each in places)):
            return network.points_on_roads(
                places, radius, bearings=bearings, radiuses=radiuses, snapping=snapping, approaches=approaches
            )
        if not bearings is radiuses is approaches is None:
            raise ValueError("places that are points on roads already have no bearings, radiuses or approaches")
        for number, point in enumerate(places):
            network.roads.check_point(number, point)
        return list(places)

    def _limit_of(self, minutes: float, limit: int | None) -> int:
        """Minutes in milliseconds. Raises ValueError where a limit is given too, or weights are no times."""
        if limit is not None:
            raise ValueError("give limit or minutes, one of both")
        from .network import isochrones

        return isochrones.limits("duration" if self.network is None else self.network.roads.unit, [minutes])[0]

    def _metres_summer(self, towards: bool = False) -> "Summer":
        """What sums up the whole millimetres of the network's lightest arc for each link without a middle, along paths from nodes or to
        them. Raises ValueError where there is no network, and WrongHierarchy where the file was replaced."""
        from .batch import Summer

        network = self._need_network()
        if towards not in self._summers:
            self._router.need_open()
            turned = self._towards() if towards else None
            with self._open_again("its links can't be summed up") as file:
                self._summers[towards] = Summer(self._router, network.millimetres(file.fileno(), self._name), turned)
        return self._summers[towards]

    def _towards(self) -> Router:
        """The router of the hierarchy with each link turned round, which is opened once. Raises WrongHierarchy where the file was
        replaced before, ValueError where this is closed, and what opening raises."""
        if self._turned is None:
            self._router.need_open()
            with self._open_again("it can't be turned round") as file:
                self._turned = Router(pread_all(file.fileno(), 0, self._stamp.size), self._name, is_turned=True)
        return self._turned

    @contextlib.contextmanager
    def _open_again(self, why: str) -> Iterator[IO[bytes]]:
        """The file that was read. Raises WrongHierarchy, with what therefore can't be, where it was replaced."""
        with open_hierarchy_file(self._full_path) as file:
            if file_stamp(file.fileno()) != self._stamp:
                raise WrongHierarchy(f"{self._name}: was replaced since it was read, so {why}")
            yield file

    def _need_network(self) -> "Network":
        if self.network is None:
            raise ValueError("the hierarchy has no network: pass network= to Hierarchy")
        return self.network

    def _pair(self, source: Hashable, target: Hashable) -> tuple[int, int]:
        """The numbers of two nodes or keys, from 0, where a route begins and where it ends."""
        start = self._node(source)
        return start, self._node(target) if self.keys is None else self.keys.end(target, start)

    def _node(self, node: Hashable) -> int:
        """The number of a node or key, from 0."""
        if self.keys is not None:
            return self.keys.node(node)
        if not is_whole(node):
            doubt = ": directions(places) takes places, and nearest(lon, lat) finds nodes" if isinstance(node, (tuple, float)) else ""
            raise ValueError(f"{node!r} is no node: nodes are integers, or keys where Hierarchy has keys={doubt}")
        number = operator.index(node)  # type: ignore[arg-type]
        if not 0 <= number < self.nodes:
            known = f"nodes 0 to {self.nodes - 1}" if self.nodes else "no nodes"
            raise NoSuchNode(f"there is no node {number}: the hierarchy has {known}", node)
        return number

    def _ends(self, name: str, ends: Ends, are_ends: bool = False) -> list[tuple[int, int]]:
        """One side of `between`, where routes begin or end: nodes from 0, and what is added at each."""
        need_list(name, ends)
        rows = ends.items() if isinstance(ends, Mapping) else [
            row if isinstance(row, tuple) and len(row) == 2 and not self._is_key(row) else (row, 0) for row in ends
        ]
        found = []
        for node, added in rows:
            number = self._node(node)
            if not is_whole(added):
                raise ValueError(f"the lengths added at {name} must be integers, not {added!r}")
            found.append((number, operator.index(added)))
            if are_ends and self.keys is not None and (end := self.keys.end(node)) != number:
                found.append((end, operator.index(added)))
        if not found:
            raise ValueError(f"{name} have to be a node or more")
        if not all(0 <= added <= MAX_ADDED for _, added in found):
            raise ValueError(f"the lengths added at {name} have to be from 0 to {MAX_ADDED}")
        return found

    def _is_key(self, row: Hashable) -> bool:
        return self.keys is not None and self.keys.names_any(row)

    def _route(self, answer: RouterResult | None) -> Route | None:
        if answer is None:
            return None
        nodes: list[Any] = list(answer.nodes if self.keys is None else map(self.keys.key, answer.nodes))
        return Route(nodes[0], nodes[-1], answer.length, nodes, answer.nodes, answer.added, self.network)


def is_with_metres(sums: Sequence[str]) -> bool:
    """Whether a table has the metres along paths too. Raises ValueError for other sums."""
    if sums and not (is_list(sums) and [*sums] == ["metres"]):
        raise ValueError(f'sums has to be ["metres"], and is {sums!r}')
    return bool(sums)


def reopened(path: str, keys: Keys | None, network: "Network | None", compare_all: bool, checksum: int) -> Hierarchy:
    """The Hierarchy that was pickled."""
    hierarchy = Hierarchy.__new__(Hierarchy)
    hierarchy._open(path, keys, network, compare_all, checksum)
    return hierarchy


def need_list(name: str, nodes: Any) -> None:
    """Raises ValueError for a node alone, a key that is a text, or a table of nodes."""
    if not is_list(nodes):
        raise ValueError(f"{name} are nodes in a list, {f'as [{nodes!r}]' if getattr(nodes, 'ndim', 0) < 2 else 'of one dimension'}")


def is_list(values: Any) -> bool:
    """Whether these are values to go through, and no text, nor a frame, of which these would be the names of its columns."""
    return isinstance(values, Iterable) and not isinstance(values, str) and getattr(values, "ndim", 1) == 1


def is_whole(value: Any) -> bool:
    """Whether a value is an integer, of Python or numpy, and no truth value."""
    if isinstance(value, bool) or getattr(value, "dtype", None) == bool:
        return False
    try:
        operator.index(value)
    except TypeError:  # (as of arrays of numpy, all of which have __index__)
        return False
    return True
