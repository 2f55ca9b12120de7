"""A network of a map of OpenStreetMap: what `osm_to_gr` and `from_osm` do. Needs numpy, scipy and the program of map_arrays."""
import collections
import dataclasses
import numbers
import os
from collections.abc import Callable, Iterator, Mapping
from typing import Any, NamedTuple

import numpy as np
from numpy.typing import NDArray

from ..atomic_files import atomic_write_all
from ..errors import MapError, raised_as
from ..limits import MAX_LINES, MAX_NODES
from ..network import net_file
from ..network.columns import TEXTS
from ..network.groups import offsets
from ..network.sphere import Floats
from ..network.table_files import bytes_of, tables_there, write_graph_of, write_tables
from ..network.tables import OSM_ATTRIBUTION, Files
from ..program import StrPath
from ..progress import OnProgress
from . import turn_restrictions
from .map_arrays import Folder, NodeArrays, Runs, WayArrays, cut_runs, folder_beside, read_places, read_ways
from .road_network import (
    OUTSIDE, WEIGHTS, RoadNetwork, RoadTable, RowsOf, Rules, build_network, keep_largest, metres_of_roads, split_junctions, to_arrays
)
from .turn_restrictions import Bools, Report, Restriction
from .vehicle_profile import (
    KEPT, ROAD_TEXTS, Profile, blocks_way, conditional_keys, judge, other_ways, road_tags, seconds_of, unsupported_tags, way_keys
)

# metres: the most of a longest arc
MAX_METRES = 1_000_000
MAX_VALUES = 10


@dataclasses.dataclass(frozen=True)
class Options:
    """How a map becomes a network, as the options of `osm_to_gr` of the same names say."""

    weight: str = "time"
    longest_arc: float = 250
    tables: bool = False
    ignore_turn_restrictions: bool = False
    keep_islands: bool = False
    at_least: float = 0
    attribution: str = OSM_ATTRIBUTION


def options_of(words: Mapping[str, Any]) -> Options:
    """The options by their names. Raises ValueError for others, and for values that they can't have."""
    known = [field.name for field in dataclasses.fields(Options)]
    if unknown := [name for name in words if name not in known]:
        raise ValueError(f"there is no option {unknown[0]}: there are {', '.join(known)}")
    options = Options(**words)
    for name in ("weight", "attribution"):
        if not isinstance(getattr(options, name), str):
            raise ValueError(f"{name} {getattr(options, name)!r} is no text")
    if options.weight not in WEIGHTS:
        raise ValueError(f"weight {options.weight!r} is none of {', '.join(WEIGHTS)}")
    for name in ("longest_arc", "at_least"):
        if not isinstance(getattr(options, name), numbers.Real):
            raise ValueError(f"{name} {getattr(options, name)!r} is no number")
    for name in ("tables", "ignore_turn_restrictions", "keep_islands"):
        if getattr(options, name) not in (True, False):
            raise ValueError(f"{name} {getattr(options, name)!r} is neither True nor False")
    if not 1 <= options.longest_arc <= MAX_METRES:
        raise ValueError(f"longest_arc {options.longest_arc} isn't from 1 to {MAX_METRES}")
    if not 0 <= options.at_least <= 1:
        raise ValueError(f"at_least {options.at_least} isn't from 0 to 1")
    return options


# The map: its roads, and then the places of their nodes


class Map(NamedTuple):
    """The roads that the vehicle may take, in the map's order, the seconds of each that is a ferry's with a duration, else NaN, their
    counts of nodes, these nodes, and the turn restrictions. `rows_of` gives the rows of texts of roads by their numbers."""

    roads: RoadTable
    seconds: Floats
    counts: NDArray[np.uint32]
    places: NodeArrays
    restrictions: list[Restriction]
    rows_of: RowsOf


def read_map(path: StrPath, profile: Profile, folder: Folder, report: Report) -> Map:
    """The roads of the map, and the nodes that they name: which are junctions, where they lie, which are barriers; and the
    turn restrictions for the vehicle."""
    ways = read_ways(folder, path, way_keys(profile), conditional_keys(profile), other_ways(profile))
    ways = ways._replace(tags=[*map(road_tags, ways.tags)])
    is_taken, speeds, unknown = judge_tags(ways, profile, report)
    restrictions = []
    for tags, members in ways.relations:
        found, reason = turn_restrictions.restrictions_of(tags, members, profile.access, profile.restrictions)
        restrictions += found
        if reason is not None:
            report[reason] += 1
    for what, values in unknown.items():
        if values:
            shown = [f"{value} {count}" for value, count in values.most_common(MAX_VALUES)]
            shown += ["..."] * (len(values) > MAX_VALUES)
            report[f"{what} that weren't understood ({', '.join(shown)})"] = values.total()
    taken = is_taken[ways.labels[:, 0]][ways.label]
    label = ways.label[taken]
    forward, backward = speeds[:, ways.labels[:, 0][label]]
    roads = RoadTable(ways.osm[taken], forward, backward, label)
    places = read_places(folder, path, taken, ["barrier", *profile.access], lambda tags: blocks_way(tags, profile))
    report["nodes that the map lacks"] = len(places.osm) - int(places.is_there.sum())
    report["barriers that part roads"] = int(places.is_barrier.sum())
    seconds = np.array([*map(seconds_of, ways.tags)])[ways.labels[:, 0][label]]
    return Map(roads, seconds, ways.nodes[taken], places, restrictions, text_rows(ways))


def judge_tags(ways: WayArrays, profile: Profile, report: Report) -> tuple[Bools, Floats, dict[str, Report]]:
    """For each combination of tags whether such ways are taken, and their km/h in both directions, NaN for none, of shape
    (2, combinations); and the values that weren't understood, by what they are of. The rules are asked once for each."""
    counts = np.bincount(ways.labels[:, 0][ways.label], minlength=len(ways.tags)).tolist()
    judged = [judge(tags, profile) for tags in ways.tags]
    unknown: dict[str, Report] = {"maxspeeds": collections.Counter(), "limits": collections.Counter()}
    for tags, found, count in zip(ways.tags, judged, counts):
        if found.refusal is not None:
            report[found.refusal] += count
            continue
        for values, value in zip(unknown.values(), (found.unknown_speed, found.unknown_limit)):
            if value is not None:
                values[value] += count
        for what, is_so in unsupported_tags(tags, profile):
            report[what] += is_so * count
    is_taken = np.array([found.refusal is None for found in judged], np.bool_)
    speeds = np.array([(found.forward, found.backward) for found in judged], np.float64).reshape(-1, 2).T
    return is_taken, speeds, unknown


def text_rows(ways: WayArrays) -> RowsOf:
    """A function that gives for each of some labels of ways its texts, by TEXTS of columns.py."""
    texts = [" ".join(text.split()) for text in ways.texts]
    of_tags = [{name: text(tags) for name, text in ROAD_TEXTS.items()} for tags in ways.tags]

    def rows_of(used: NDArray[np.int64]) -> Iterator[tuple[str, ...]]:
        for tags, name, ref, destination in ways.labels[used].tolist():
            named = {"name": texts[name] or texts[ref], "ref": texts[ref], "destination": texts[destination]}
            row = of_tags[tags] | named
            yield tuple([row[column] for column in TEXTS])

    return rows_of


# The network


def convert(
    path: StrPath, profile: Profile, options: Options, folder: Folder, report: Report
) -> tuple[RoadNetwork, RowsOf]:
    """The network of a map, and the rows of texts of its roads."""
    read = read_map(path, profile, folder, report)
    with folder.step("roads"):
        runs = cut_runs(folder, read.counts, read.places, options.longest_arc)
    report["ways left out with fewer than two nodes in the map"] = len(read.counts) - len(np.unique(runs.road))
    read = read._replace(roads=with_durations(read, runs))
    if not len(runs.road):
        raise MapError("has no road that the profile takes", path)
    with folder.step("junctions"):
        network, node_at = build_network(runs, read.roads, read.places)
    with folder.step("turns"):
        rules = {} if options.ignore_turn_restrictions else turn_rules(read, folder, node_at, report)
        network = split_junctions(network, rules, profile.turns, report)
    del node_at
    if not options.keep_islands:
        with folder.step("islands"):
            network = keep_largest(network, report)
        count, least = len(network.node_osm), float(options.at_least)
        if count / (count + report[OUTSIDE]) < least:
            share = f"{count} of {count + report[OUTSIDE]} nodes reach one another"
            raise MapError(f"{share}, less than {100 * least:g}%: is the map cut, or has it lost roads?", path)
    if not len(network.start):
        raise MapError("has no nodes that reach one another: are all roads of one way?", path)
    check_limits(len(network.node_osm), len(network.start), path)
    return network, read.rows_of


def with_durations(read: Map, runs: Runs) -> RoadTable:
    """The roads with the speeds that ferries have by their duration."""
    metres = np.bincount(runs.road, runs.metres * runs.parts, len(read.seconds))
    speed = metres * 3.6 / read.seconds
    is_known = np.isfinite(speed) & (speed > 0)
    forward, backward = (np.where(is_known & ~np.isnan(side), speed, side) for side in (read.roads.forward, read.roads.backward))
    return read.roads._replace(forward=forward, backward=backward)


def check_limits(nodes: int, arcs: int, path: StrPath) -> None:
    """Raises a MapError where a graph can't have as many nodes or arcs."""
    for count, most, what in ((nodes, MAX_NODES, "nodes"), (arcs, MAX_LINES, "arcs")):
        if count > most:
            remedy = "take a part of it, or longer arcs"
            raise MapError(f"makes a network of {count} {what}, and there may be {most}: {remedy}", path)


def turn_rules(read: Map, folder: Folder, node_at: Callable[[int], int], report: Report) -> Rules:
    """What is forbidden at nodes of the network."""
    named = {way for restriction in read.restrictions for way in (restriction.start, restriction.end)}
    nodes, begin = folder.array("road_node", "u4"), offsets(read.counts)
    chosen = np.flatnonzero(np.isin(read.roads.osm, list(named)) & (read.counts > 1))
    firsts, lasts = (read.places.osm[nodes[place]].tolist() for place in (begin[chosen], begin[chosen + 1] - 1))
    ends = dict(zip(read.roads.osm[chosen].tolist(), zip(firsts, lasts)))
    by_osm = turn_restrictions.applicable_rules(read.restrictions, ends.get, report)
    places = np.searchsorted(read.places.osm, list(by_osm)).tolist()
    return {node: rules for place, rules in zip(places, by_osm.values()) if (node := node_at(place)) >= 0}


def write_network(map_path: StrPath, out: str, profile: Profile, options: Options = Options(), on_progress: OnProgress | None = None) -> list[str]:
    """Writes the files of the network of a map, all or none: OUT.gr, OUT.net, and with `options.tables` the tables. Returns lines
    that say what was left out, and last the size. Tables of an earlier run are removed. Raises MapError for the map,
    NetworkError for tables that aren't the tools', OSError, and MemoryError."""
    report: Report = collections.Counter()
    names = Files(out)
    old_tables = tables_there(names, options.tables)
    with raised_as(MapError, map_path), open(map_path, "rb"):
        if not os.path.isfile(map_path):
            raise MapError("is no regular file; a map is read twice", map_path)
    with atomic_write_all(*outputs_of(out, options)) as (graph, binary, *tables):
        with folder_beside(out, on_progress or (lambda what, done, total: None)) as folder:
            network, rows_of = convert(map_path, profile, options, folder, report)
            attribution = " ".join(options.attribution.split())
            with folder.step("arcs"):
                arrays = to_arrays(network, options.weight, rows_of, attribution, report)
                arrays.about |= {name: known.index(getattr(profile, name)) for name, known in KEPT.items()}
                kilometres = metres_of_roads(network) / 1000
            del network, rows_of
            with folder.step("files"):
                write_graph_of(bytes_of(graph), arrays, attribution)
                if tables:
                    arrays.about |= write_tables(tables, arrays)
                net_file.write(bytes_of(binary), arrays)
    said = [f"{what}: {count}" for what, count in report.items() if count]
    if not options.tables and old_tables:
        for path in old_tables:
            os.unlink(path)
        said.insert(0, f"removed {', '.join(old_tables)}, which were of the network before")
    return [*said, f"{out}: {len(arrays.node_osm)} nodes, {len(arrays.arc_from)} arcs, {kilometres:.1f} km of road"]


def outputs_of(out: str, options: Options) -> list[str]:
    """The paths of the files that are written."""
    names = Files(out)
    return [names.graph, names.binary, *([names.nodes, names.arcs, *names.forms] if options.tables else [])]
