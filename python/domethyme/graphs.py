"""Graphs: written from arrays, tables of one's own keys, prepared by `routecli`, and checked against a hierarchy."""
import contextlib
import math
import os
import pathlib
import subprocess
import tempfile
import warnings
from collections.abc import Callable, Hashable, Iterable, Iterator, Mapping, Sequence
from numbers import Real
from typing import TYPE_CHECKING, Any, Literal

from . import dimacs, library
from .atomic_files import atomic_write
from .errors import GraphError, NotProved, ReadWriteError, WrongHierarchy, error_from_exit, os_reason
from .extras import need
from .hierarchy import Hierarchy, is_whole
from .keys import Keys, as_list, is_missing, to_python_scalar
from .limits import MAX_LINES, MAX_NODES, MAX_WEIGHT
from .program import StrPath, find_program, run_explaining, run_watched
from .progress import OnProgress, Progress, reporting

if TYPE_CHECKING:
    import numpy as np
    from numpy.typing import ArrayLike, NDArray

Order = Literal["edges", "neighbours", "depth", "balanced"]
# What files that are no graphs, by their endings, are taken in place of.
INSTEAD = {".net": "is a network: its graph ends in .gr", ".osm.pbf": "is a map: from_osm makes a graph of it", ".rch": "is a hierarchy"}
# What `routecli check` ends with where a hierarchy isn't right, or neither is shown.
WRONG, NOT_SHOWN = 9, 10


class Graph:
    """A graph in arrays: arc i leads from from_nodes[i] to to_nodes[i] and weighs weights[i].

    from_nodes, to_nodes, weights   arrays of int64 of shape (arcs,), nodes from 0
    nodes                           the number of nodes
    keys                            the Keys of the nodes, or None
    """

    def __init__(
        self, from_nodes: "ArrayLike", to_nodes: "ArrayLike", weights: "ArrayLike", nodes: int | None = None,
        keys: "Keys | Mapping[Any, int] | Iterable[Hashable] | None" = None
    ) -> None:
        """Nodes are integers from 0, weights from 0 to 4294967295. Without `nodes` there are those up to the greatest
        of an arc. Raises ValueError for arrays that can't be meant so."""
        need("numpy")
        from .arrays import whole_numbers

        self.from_nodes: "NDArray[np.int64]" = whole_numbers("from_nodes", from_nodes, 0, MAX_NODES - 1)
        self.to_nodes: "NDArray[np.int64]" = whole_numbers("to_nodes", to_nodes, 0, MAX_NODES - 1)
        self.weights: "NDArray[np.int64]" = whole_numbers("weights", weights, 0, MAX_WEIGHT)
        if self.weights.ndim != 1 or not self.from_nodes.shape == self.to_nodes.shape == self.weights.shape:
            raise ValueError("from_nodes, to_nodes and weights have to be of one dimension and as long as one another")
        if len(self.weights) > MAX_LINES:
            raise ValueError(f"a graph has at most {MAX_LINES} arcs")
        least = int(max(self.from_nodes.max(initial=-1), self.to_nodes.max(initial=-1))) + 1
        if nodes is not None and not (is_whole(nodes) and least <= nodes <= MAX_NODES):
            raise ValueError(f"the number of nodes has to be an integer from {least}, by the arcs, to {MAX_NODES}")
        self.nodes = least if nodes is None else int(nodes)
        self.keys = keys if keys is None or isinstance(keys, Keys) else Keys(keys, self.nodes)
        if nodes is None and len(self.weights) and min(self.from_nodes.min(), self.to_nodes.min()) > 0:
            warnings.warn("node 0 has no arc: nodes count from 0", stacklevel=2)

    @classmethod
    def from_keys(cls, sources: Any, targets: Any, weights: "ArrayLike", scale: float | None = None) -> "Graph":
        """The graph of arcs between keys of any hashable kind: arc i leads from sources[i] to targets[i]. Nodes are
        numbered in the order in which the keys come first, sources before targets.

        scale   weights are numbers of any kind, which are multiplied by it and rounded: 1000 makes milliseconds of seconds.
                Without it they have to be integers. Lengths are in the scaled unit; `unscaled` divides them. A warning
                (UserWarning) says how many positive weights become 0.

        Raises ValueError where an end has no key, or one that can't be hashed, the three aren't as long as one another, `scale`
        isn't above 0, or a weight isn't from 0 to 4294967295.
        """
        need("numpy")
        import numpy as np

        try:
            starts, ends = ([to_python_scalar(key) for key in as_list(side)] for side in (sources, targets))
            numbers = {key: node for node, key in enumerate(dict.fromkeys([*starts, *ends]))}
        except TypeError as error:
            raise ValueError(f"keys have to be lists of hashable ones: {error}") from None
        if any(map(is_missing, numbers)):
            raise ValueError("an arc has no key at an end")
        from_nodes, to_nodes = (np.array([numbers[key] for key in side], dtype=np.int64) for side in (starts, ends))
        return cls(from_nodes, to_nodes, whole_or_scaled(weights, scale), len(numbers), Keys(numbers))

    @classmethod
    def from_networkx(cls, graph: Any, weight: str | None = "weight", scale: float | None = None) -> "Graph":
        """The graph of networkx's Graph, DiGraph, MultiGraph or MultiDiGraph, as osmnx makes them too. Its nodes are the keys, in its order;
        an edge of an undirected graph is an arc in both directions, and of parallel ones the lightest counts.

        weight   the attribute of edges that has their weight; None for 1 each
        scale    as for `from_keys`

        Raises ValueError where an edge lacks it, and what `from_keys` does.
        """
        need("numpy")
        import numpy as np

        numbers = {node: number for number, node in enumerate(graph)}
        edges = [(numbers[start], numbers[end], 1 if weight is None else value) for start, end, value in graph.edges(data=weight)]
        if not graph.is_directed():
            edges += [(end, start, value) for start, end, value in edges if start != end]
        if any(value is None for _, _, value in edges):
            start, end = next((start, end) for start, end, value in graph.edges(data=weight) if value is None)
            raise ValueError(f"the edge from {start!r} to {end!r} has no {weight}")
        starts, ends, weights = zip(*edges) if edges else ((), (), ())
        from_nodes, to_nodes = (np.array(side, np.int64) for side in (starts, ends))
        return cls(from_nodes, to_nodes, whole_or_scaled(list(weights), scale), len(numbers), Keys(numbers))

    @classmethod
    def from_frame(
        cls, frame: Any, source: str = "from", target: str = "to", weight: str = "weight", scale: float | None = None
    ) -> "Graph":
        """The graph of a frame of pandas with a row for each arc, by the names of its columns or of the levels of its index, such as u and
        v of the edges of osmnx.graph_to_gdfs; as `from_keys`. Raises KeyError for a name that isn't there, and ValueError."""
        if levels := [name for name in (source, target, weight) if name not in frame.columns and name in frame.index.names]:
            frame = frame.reset_index(levels)
        if missing := [name for name in (source, target, weight) if name not in frame.columns]:
            raise KeyError(f"the frame has no column {missing[0]}; it has {', '.join(map(str, frame.columns))}")
        if several := [name for name in (source, target, weight) if frame[name].ndim > 1]:
            raise ValueError(f"the frame has several columns {several[0]}")
        return cls.from_keys(frame[source], frame[target], frame[weight].to_numpy(), scale)

    def __repr__(self) -> str:
        return f"<Graph of {self.nodes} nodes and {len(self.weights)} arcs>"

    def write(self, path: StrPath) -> None:
        """Writes the text of the graph. The file is whole; at an exception it is as it was before. Raises OSError."""
        with atomic_write(path, "wb") as file:
            dimacs.write_graph(file, self.nodes, [self.from_nodes, self.to_nodes, self.weights])

    def prepare(self, hierarchy: StrPath, **options: Any) -> Hierarchy:
        """Prepares the graph as `prepare` does, and returns the Hierarchy with the graph's keys. Keys that are all str or int are
        saved beside its file, as FILE.keys, where Keys.load finds them."""
        return prepare(self, hierarchy, **options)

    def renew(self, old: "Hierarchy | StrPath", hierarchy: StrPath, **options: Any) -> Hierarchy:
        """Makes the hierarchy of the graph as `renew` does, and returns it with the graph's keys, which are saved as by `prepare`."""
        return renew(self, old, hierarchy, **options)


def whole_or_scaled(weights: "ArrayLike", scale: float | None) -> "ArrayLike":
    """The weights as integers: times the scale, if there is one. Raises ValueError for others."""
    import numpy as np

    if scale is not None:
        return scaled(weights, scale)
    if np.size(weights) and np.asarray(weights).dtype.kind == "f":
        raise ValueError("weights have to be integers, and are floats: scale=1000 makes thousandths of them")
    return weights


def scaled(weights: "ArrayLike", scale: float) -> "NDArray[np.int64]":
    import numpy as np

    need_scale(scale)
    try:
        products = np.asarray(weights, float) * scale
    except TypeError:
        raise ValueError("weights have to be numbers, and one is missing") from None
    if products.size and not (np.isfinite(products).all() and products.min() >= 0 and products.max() <= MAX_WEIGHT):
        raise ValueError(f"weights times {scale:g} have to be from 0 to {MAX_WEIGHT}")
    rounded: "NDArray[np.int64]" = np.rint(products).astype(np.int64)
    if lost := int(np.count_nonzero((products > 0) & (rounded == 0))):
        says = f"{lost} of {rounded.size} weights are above 0, and 0 once they are scaled by {scale:g}"
        warnings.warn(says, stacklevel=4)
    return rounded


def need_scale(scale: float) -> None:
    if not isinstance(scale, Real) or not 0 < scale < math.inf:
        raise ValueError(f"the scale has to be above 0, and is {scale!r}")


def unscaled(lengths: Any, scale: float = 1) -> Any:
    """Lengths as floats in the unit that weights had before `scale`: lengths / scale, and inf if there is no path.

    `lengths` are what a Hierarchy returned: an int or None (pandas.NA), an array, or a Series or DataFrame of pandas. The result is a
    float, or is like the argument, of the same shape. Floats are exact up to 2^53. Raises ValueError for a scale that isn't above 0.
    """
    need_scale(scale)
    floats: Any = None if lengths is None else lengths / scale
    if isinstance(floats, float):
        return floats if lengths >= 0 else math.inf
    if not hasattr(floats, "astype"):  # (None, or pandas.NA)
        return math.inf
    floats = floats.astype(float)
    floats[~(floats >= 0)] = math.inf
    return floats


def write_graph(
    path: StrPath, from_nodes: "ArrayLike", to_nodes: "ArrayLike", weights: "ArrayLike", nodes: int | None = None
) -> None:
    """Writes the graph whose arc i leads from from_nodes[i] to to_nodes[i] and weighs weights[i], and which has `nodes`
    nodes, or else those up to the greatest of an arc. The file is whole; at an exception it is as it was before.

    The arrays are of integers and of shape (arcs,): nodes from 0 to 33554431, weights from 0 to 4294967295 in any one
    unit. For keys or weights that aren't whole use Graph.from_keys. Raises ValueError, and OSError for the file.
    """
    Graph(from_nodes, to_nodes, weights, nodes).write(path)


def prepare(
    graph: "Graph | StrPath", hierarchy: StrPath, order: Order | None = None, workers: int | None = None,
    seed: int | None = None, program: StrPath | None = None, switch_order_after: int | None = None, *,
    progress: Progress = False, sequential: bool = False
) -> Hierarchy:
    """Makes the file of the hierarchy of a Graph, or of a graph's file, by `routecli prepare`. Returns the Hierarchy. At an
    exception its file is as it was before.

    order               edges, neighbours, depth or balanced: which nodes go first; without it balanced, and with
                        `switch_order_after`, which takes the first three, depth
    workers             threads, 0 to 64; without it 4
    sequential          one thread in place of workers, which makes the file of one worker in less time and half of its memory; not
                        beside `workers`
    seed                of the draws of nodes, 0 to 18446744073709551615; without it 1
    switch_order_after  after how many nodes a worker takes the next order, from 1; without it none does
    program             the path of `routecli`, else it is looked for (find_program)
    progress            True shows a bar of tqdm; a callable receives ("prepare", nodes done, nodes) five times a second

    Time and memory: some 11 s and 1 GB for a million nodes, by four workers; 0.44 GB with `sequential`. Raises GraphError, OutOfMemory,
    ReadWriteError, ProgramNotFound, ProgramError, LibraryNotFound.
    """
    if order is None:
        order = "balanced" if switch_order_after is None else "depth"
    found = find_program(program)
    library.load_library()  # (the result is a Hierarchy: what it needs is looked for before the work)
    options = {"--order": order, "--workers": workers, "--seed": seed, "--stint": switch_order_after}
    arguments = [str(word) for name, value in options.items() if value is not None for word in (name, value)]
    arguments += ["--sequential"] * sequential
    with graph_file(graph) as text, reporting(progress) as on_progress:
        ended = run_making(found, ["prepare", *arguments], [text, os.fspath(hierarchy)], on_progress if progress else None)
    if ended.returncode != 0:
        raise error_from_exit(ended.returncode, ended.stderr)
    return made_of(graph, hierarchy)


def renew(
    graph: "Graph | StrPath", old: "Hierarchy | StrPath", hierarchy: StrPath, program: StrPath | None = None, *, progress: Progress = False
) -> Hierarchy:
    """Makes the file of the hierarchy of a Graph, or of a graph's file, in the order of an old hierarchy of the same nodes, such as
    the one for other weights, by `routecli renew`. Returns the Hierarchy. At an exception its file is as it was before.

    old       a Hierarchy, or a file of one, which may be that of `hierarchy` too. Only the order of its nodes is used, so whatever it
              is, the lengths by the new one are right
    program   the path of `routecli`, else it is looked for (find_program)
    progress  as for `prepare`; a callable receives ("renew", nodes done, nodes)

    Raises WrongHierarchy if the old one has another number of nodes, and GraphError, HierarchyError, OutOfMemory, ReadWriteError,
    ProgramNotFound, ProgramError, LibraryNotFound.
    """
    found, name = find_program(program), os.fspath(old.path if isinstance(old, Hierarchy) else old)
    library.load_library()
    with graph_file(graph) as text, reporting(progress) as on_progress:
        ended = run_making(found, ["renew"], [name, text, os.fspath(hierarchy)], on_progress if progress else None)
    if ended.returncode == WRONG:
        raise WrongHierarchy(f"{name}: wrong: nodes", WRONG)
    if ended.returncode != 0:
        raise error_from_exit(ended.returncode, ended.stderr, name)
    return made_of(graph, hierarchy)


def run_making(
    program: str, arguments: list[str], files: list[str], on_progress: OnProgress | None
) -> "subprocess.CompletedProcess[bytes]":
    """Runs a command that makes the file of a hierarchy, and reports how far it is if that is asked for."""
    if on_progress is not None:
        return run_watched(program, arguments, files, on_progress)
    return run_explaining(program, arguments, files, stdout=subprocess.DEVNULL)


def made_of(graph: "Graph | StrPath", hierarchy: StrPath) -> Hierarchy:
    """The Hierarchy whose file was made of a graph, with the graph's keys, which are saved beside it if they can be."""
    keys = graph.keys if isinstance(graph, Graph) else None
    if keys is not None:
        keys.save(hierarchy) if keys.can_be_saved() else keys.belong_to(hierarchy)
    return Hierarchy(hierarchy, keys=keys)


@contextlib.contextmanager
def graph_file(graph: "Graph | StrPath") -> Iterator[str]:
    """The path of the text of a graph, which is written for the block where there is only a Graph. Raises ReadWriteError where a
    file can't be opened."""
    if not isinstance(graph, Graph):
        if instead := INSTEAD.get("".join(pathlib.Path(graph).suffixes[-2:]), INSTEAD.get(pathlib.Path(graph).suffix)):
            raise GraphError(f"{os.fspath(graph)}: {instead}", 3)
        try:
            open(graph, "rb").close()
        except OSError as error:
            raise ReadWriteError(f"{os.fspath(graph)}: {os_reason(error)}", 7) from error
        yield os.fspath(graph)
        return
    with tempfile.TemporaryDirectory(prefix="domethyme-") as folder:
        text = os.path.join(folder, "graph.gr")
        graph.write(text)
        yield text


def check(graph: Graph | StrPath, hierarchy: StrPath, program: StrPath | None = None) -> None:
    """Returns if the file of a hierarchy is right for a Graph, or for a graph's file, whoever made it. Then each length that it
    answers is the least one in that graph.

    program   the path of `routecli`, else it is looked for (find_program)

    Raises WrongHierarchy if it isn't right, NotProved if neither is shown, and GraphError, HierarchyError, OutOfMemory,
    ReadWriteError, ProgramNotFound, ProgramError.
    """
    with graph_file(graph) as text:
        run_check(find_program(program), text, os.fspath(hierarchy), {text: "the graph"} if isinstance(graph, Graph) else {})


def run_check(
    program: str, graph: str, hierarchy: str, names: Mapping[str, str], files: Sequence[int] = (),
    before: Callable[[], None] | None = None
) -> None:
    """Checks a hierarchy's file against a graph's, as `check` does; messages call the files by their `names`. The program has the open
    `files`, too. `before` is called in its process before it begins, for a caller without threads."""
    options = {"stdout": subprocess.PIPE, "pass_fds": files, "preexec_fn": before}
    completed = run_explaining(program, ["check"], [graph, hierarchy], **options)
    status, told, name = completed.returncode, completed.stderr, names.get(hierarchy, hierarchy)
    if status == 0:
        return
    for path, shown in names.items():
        told = told.replace(os.fsencode(path), os.fsencode(shown))
    if status not in (WRONG, NOT_SHOWN):
        raise error_from_exit(status, told, name)
    line = completed.stdout.decode("ascii", "replace").strip()
    explanation = [" ".join(each.split()) for each in told.decode("utf-8", "replace").splitlines()]
    if status == NOT_SHOWN:
        raise NotProved(f"{name}: {line}", NOT_SHOWN, explanation)
    fault = WrongHierarchy(f"{name}: {line}", WRONG, explanation)
    words = line.split()
    if words[1:2] == ["pair"]:
        fault.pair = int(words[2]) - 1, int(words[3]) - 1
    raise fault
