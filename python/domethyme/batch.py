"""Lengths and routes of many pairs, tables, by as many threads as there are processors, and what is reached. Needs numpy."""
import concurrent.futures
from collections.abc import Callable, Iterable, Iterator, Sequence
from typing import TypeVar

import numpy as np
from numpy.typing import NDArray

from .errors import OutOfMemory
from .limits import MAX_CELLS
from .network.parallel import cpu_count
from .progress import Progress, reporting
from .protocol import NO_PATH
from .router import Router, Searcher, seed_array

# Questions that a thread asks in one call; and of a table rows and cells, which take some ten milliseconds. An interrupt waits
# for the calls that are under way.
CHUNK_SIZE = 512
MAX_ROWS, MAX_CHUNK_CELLS = 256, 1 << 16
# The same of a table with sums, which take a second: what is made of the targets is made in each call.
MAX_SUMMED_CELLS = 1 << 20
T = TypeVar("T")
RouteArrays = tuple[NDArray[np.int64], NDArray[np.int64], NDArray[np.int32]]


def lengths(router: Router, pairs: NDArray[np.int64]) -> NDArray[np.int64]:
    """The least lengths of pairs of nodes, of shape (n, 2), NO_PATH where there is no path."""
    pairs_u32, found = np.ascontiguousarray(pairs, dtype=np.uint32), np.empty(len(pairs), np.int64)
    map_chunks(router, lambda part, searcher: searcher.lengths(pairs_u32[part], found[part]), len(pairs))
    return found


def table(
    router: Router, sources: NDArray[np.int64], targets: NDArray[np.int64], progress: Progress = False
) -> NDArray[np.int64]:
    """The least lengths from each source to each target, NO_PATH where there is no path. A thread asks for whole rows, since its
    searcher keeps what the library has selected for the targets. Raises OutOfMemory for more than MAX_CELLS, before memory is taken."""
    if len(sources) * len(targets) > MAX_CELLS:
        size = f"a table of {len(sources)} x {len(targets)} lengths has more than {MAX_CELLS}"
        raise OutOfMemory(f"{router.name}: {size}: ask for fewer sources at a time", 6)
    rows, columns = (np.ascontiguousarray(nodes, dtype=np.uint32) for nodes in (sources, targets))
    found = np.empty((len(rows), len(columns)), np.int64)
    router.need_open()
    if found.size:
        with reporting(progress) as on_progress:
            map_chunks(
                router, lambda part, searcher: searcher.table(rows[part], columns, found[part]), len(rows), rows_at_a_time(*found.shape),
                lambda done: on_progress("matrix", done, len(rows))
            )
    return found


class Summer:
    """What numbers, one for each link without a middle in the order of the file, sum to along shortest paths, or where the hierarchy is
    turned round along paths to a node. It takes 8 bytes a link, which never change, so threads and processes that are forked share
    them; and a second for some four million links. All raise OutOfMemory."""

    def __init__(self, router: Router, numbers: NDArray[np.uint32], turned: Router | None = None) -> None:
        with router.searcher() as searcher:
            if turned is not None:
                ends = np.empty((len(numbers), 2), np.uint32)
                searcher.arcs(ends)
                numbers = numbers[np.lexsort(ends.T)]  # (by the second node, and then by the first)
        self._router = turned or router
        with self._router.searcher() as searcher:
            self._set = np.empty(searcher.links() + 1, np.uint64)
            searcher.numbers(np.ascontiguousarray(numbers, np.uint32), self._set)

    def table(self, sources: NDArray[np.int64], targets: NDArray[np.int64]) -> NDArray[np.int64]:
        """The least length from each source to each target, and the sum along a path of that length, of shape (2, sources, targets);
        NO_PATH where there is none. More than MAX_CELLS are refused before memory is taken."""
        if len(sources) * len(targets) > MAX_CELLS:
            size = f"a table of {len(sources)} x {len(targets)} sums has more than {MAX_CELLS}"
            raise OutOfMemory(f"{self._router.name}: {size}: ask for fewer sources at a time", 6)
        rows, columns = (np.ascontiguousarray(nodes, dtype=np.uint32) for nodes in (sources, targets))
        cells, at_a_time = np.empty((len(rows), len(columns), 2), np.int64), max(1, MAX_SUMMED_CELLS // max(1, len(columns)))
        with self._router.searcher() as searcher:
            for begin in range(0, len(rows), at_a_time):
                part = slice(begin, begin + at_a_time)
                searcher.table_sums(self._set, rows[part], columns, cells[part])
        return np.moveaxis(cells, 2, 0)

    def reach(self, starts: Sequence[tuple[int, int]], limit: int | None) -> NDArray[np.int64]:
        """The least length of each node from the nearest of several starts (node, added length), and the sum along a path of that length,
        of shape (2, nodes); NO_PATH above the limit."""
        cells, added = np.empty((self._router.nodes, 2), np.int64), np.zeros(len(starts), np.uint32)
        with self._router.searcher() as searcher:
            searcher.reach_sums(self._set, seed_array(starts), added, limit, cells)
        return cells.T


def rows_at_a_time(rows: int, columns: int) -> int:
    """How many rows of a table a thread asks for in one call: its share, as far as that takes neither long nor no time."""
    share = -(-rows // cpu_count())
    return max(1, CHUNK_SIZE // columns, min(share, MAX_ROWS, MAX_CHUNK_CELLS // columns))


def reach(router: Router, starts: Sequence[tuple[int, int]], limit: int | None) -> NDArray[np.int64]:
    """The least length of each node from the nearest of several starts (node, added length); NO_PATH above the limit."""
    found = np.empty(router.nodes, np.int64)
    with router.searcher() as searcher:
        searcher.reach(seed_array(starts), limit, found)
    return found


def routes(router: Router, pairs: NDArray[np.int64]) -> RouteArrays:
    """The routes of pairs of shape (n, 2): the length of each or NO_PATH, how many nodes it has, and all nodes."""

    def query_chunk(part: slice, searcher: Searcher) -> RouteArrays:
        lengths, nodes = zip(*(route_arrays(searcher, source, target) for source, target in pairs[part].tolist()))
        return np.array(lengths, np.int64), np.array([*map(len, nodes)], np.int64), np.concatenate(nodes)

    none = np.empty(0, np.int64), np.empty(0, np.int64), np.empty(0, np.int32)
    lengths, counts, nodes = zip(none, *map_chunks(router, query_chunk, len(pairs)))
    return np.concatenate(lengths), np.concatenate(counts), np.concatenate(nodes)


def route_arrays(searcher: Searcher, source: int, target: int) -> tuple[int, NDArray[np.int32]]:
    if not searcher.route(source, target):
        return NO_PATH, np.empty(0, np.int32)
    info = searcher.route_info
    return info.length, np.frombuffer(memoryview(searcher.nodes), np.int32, info.nodes).copy()


def map_chunks(
    router: Router, query_chunk: Callable[[slice, Searcher], T], count: int, at_a_time: int | None = None,
    on_done: Callable[[int], object] = lambda done: None
) -> list[T]:
    """What `query_chunk` returns for each part of so many questions, in order. Each part has a searcher of its own while it is asked.
    `on_done` receives how many questions are answered, in this thread."""
    router.need_open()
    size = at_a_time or CHUNK_SIZE
    parts = [slice(begin, begin + size) for begin in range(0, count, size)]

    def run_chunk(part: slice) -> T:
        with router.searcher() as searcher:
            return query_chunk(part, searcher)

    def each_of(answers: Iterable[T]) -> Iterator[T]:
        for part, answer in zip(parts, answers):
            on_done(min(part.stop, count))
            yield answer

    if len(parts) < 2:
        return [*each_of(map(run_chunk, parts))]
    with concurrent.futures.ThreadPoolExecutor(min(len(parts), cpu_count())) as threads:
        try:
            return [*each_of(threads.map(run_chunk, parts))]
        except BaseException:
            threads.shutdown(wait=True, cancel_futures=True)
            raise
