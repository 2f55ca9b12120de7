"""The dataset that workers serve: a hierarchy and its network. Its files are opened and compared with one another before the
workers are forked, so they share its memory."""
import ctypes
import signal
import tempfile
from collections.abc import Mapping
from typing import NamedTuple

from domethyme import belonging
from domethyme.batch import Summer
from domethyme.graphs import run_check
from domethyme.hierarchy_file import FileStamp, file_stamp, open_hierarchy_file, pread_all, read_header
from domethyme.links import Links
from domethyme.network.grid import columns_per_band
from domethyme.network.snapping import RoadIndex
from domethyme.network.without import without, write_graph_of_view
from domethyme.router import Router

from .errors import StartupError

PR_SET_PDEATHSIG = 1  # (sys/prctl.h)
# Network files up to this many bytes are verified completely at startup, in a quarter of a second; the blocks of larger ones
# when they are first read.
EAGER_VERIFY_BYTES = 1 << 28


class DatasetPaths(NamedTuple):
    """The hierarchy's file, the prefix of its network's, the graph it is checked against and the program that does it,
    whether all links are compared with the network, however many there are, whether what leads to places is answered, and the files of
    hierarchies without some classes of roads, by these."""

    hierarchy: str
    network: str | None
    graph: str | None = None
    program: str | None = None
    compare_all: bool = False
    towards: bool = False
    excluded: Mapping[frozenset[str], str] = {}


class Dataset(NamedTuple):
    """The open files, the number of the hierarchy's links, the state of its file, the router of the hierarchy with each link turned
    round, if what leads to places is answered, and what is served without some classes of roads, by these. `summers` sum up what isn't the
    weight along paths, in thousandths of a second or a metre, by the names `duration` and `distance`."""

    router: Router
    links: int
    roads: RoadIndex | None
    stamp: FileStamp
    turned: Router | None = None
    excluded: "Mapping[frozenset[str], Dataset]" = {}
    summers: Mapping[str, Summer] = {}


def open_dataset(paths: DatasetPaths) -> Dataset:
    """Opens and compares the files; starts no thread. Raises StartupError, or a DomethymeError that names the file."""
    roads = None if paths.network is None else RoadIndex(paths.network)
    if roads is not None:
        roads.arrays.file.verify(EAGER_VERIFY_BYTES)
        for grid in (roads.arrays.edge_grid, roads.arrays.node_grid):
            columns_per_band(grid.height)
    found, excluded = open_hierarchy(paths, paths.hierarchy, paths.graph, roads), dict[frozenset[str], Dataset]()
    for classes, hierarchy in paths.excluded.items():
        if roads is None:
            raise StartupError("--exclude needs --network")
        view = without(roads.arrays, classes)
        with tempfile.NamedTemporaryFile(suffix=".gr") as graph:
            if paths.graph is not None:
                write_graph_of_view(graph, view)
                graph.flush()
            excluded[classes] = open_hierarchy(paths, hierarchy, None if paths.graph is None else graph.name, RoadIndex(view))
    return found._replace(excluded=excluded)


def open_hierarchy(paths: DatasetPaths, hierarchy: str, graph: str | None, roads: RoadIndex | None) -> Dataset:
    """Opens the file of a hierarchy, and compares it with its roads, and with its graph if one is given."""
    with open_hierarchy_file(hierarchy) as file:
        number = file.fileno()
        stamp = file_stamp(number)
        _, links = read_header(number, hierarchy)
        if graph is not None and paths.program is not None:
            opened = f"/proc/self/fd/{number}"
            run_check(paths.program, graph, opened, {opened: hierarchy}, [number], end_with_parent)
        data = pread_all(number, 0, stamp.size)
        router = Router(data, hierarchy)
        turned, summers = Router(data, hierarchy, is_turned=True) if paths.towards else None, dict[str, Summer]()
        del data
        if roads is not None:
            # (what is computed here, before the fork, is in memory once for all workers)
            roads.roundabout_rows, roads.ferry_rows, roads.one_way
            belonging.compare(number, hierarchy, roads.arrays, paths.compare_all)
            summers = open_summers(number, hierarchy, roads, router)
        if file_stamp(number) != stamp:
            raise StartupError(f"{hierarchy}: has changed while it was read")
    return Dataset(router, links, roads, stamp, turned, summers=summers)


def open_summers(file: int, hierarchy: str, roads: RoadIndex, router: Router) -> dict[str, Summer]:
    """What sums up along paths, by the name of the annotation: for traces metres, and for tables seconds where these aren't the weight."""
    columns = {"duration": roads.arrays.arc_seconds} if roads.has_seconds and roads.unit != "duration" else {}
    columns["distance"] = roads.arrays.arc_metres
    numbers = Links.of(file, hierarchy).thousandths(roads.arrays, [*columns.values()])
    return {name: Summer(router, some) for name, some in zip(columns, numbers)}


def end_with_parent(number: int = signal.SIGKILL) -> None:
    """Has the kernel send a signal to this process when its parent ends."""
    ctypes.CDLL(None).prctl(PR_SET_PDEATHSIG, int(number))
