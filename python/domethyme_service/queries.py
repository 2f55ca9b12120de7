"""Queries to a hierarchy in this process's memory (domethyme.router), which the library proves."""
import functools
import json
from collections.abc import Mapping, Sequence
from typing import TYPE_CHECKING

import numpy as np

from domethyme import batch
from domethyme.batch import Summer
from domethyme.csv_tables import excerpt
from domethyme.network.alternatives import MAX_ALTERNATIVES
from domethyme.network.groups import Ints
from domethyme.network.legs import SnapEnds
from domethyme.network.net_file import MappedNetwork
from domethyme.protocol import RouterResult
from domethyme.router import Router

from .costs import Meter, Work, selected_links
from .errors import invalid_value, not_implemented

if TYPE_CHECKING:
    from .metrics import SharedMetrics

Pair = tuple[int, int]
# Nodes up to which other routes are searched for: each search goes twice over all of them.
MAX_NODES_OF_ALTERNATIVES = 5_000_000
# Keys whose JSON is kept.
JSON_CACHE_SIZE = 1 << 14


class NodeKeys:
    """The keys of a network's nodes, which are read in its file; none if it has none, or there is no network."""

    def __init__(self, network: MappedNetwork | None = None) -> None:
        self._network = network if network is not None and network.has_keys else None
        self._json_key = functools.lru_cache(JSON_CACHE_SIZE)(self._as_json)

    def node(self, key: object, name: str) -> int:
        """The node of a key. Raises RequestError, which names the parameter, if there is none."""
        if self._network is None:
            raise invalid_value(f"there is no {name}: the nodes have no keys")
        found = self._network.node(key) if isinstance(key, str) else None
        if found is None:
            raise invalid_value(f"{name} {excerpt(str(key))} is the key of no node")
        return found

    def add_keys(self, answer: bytes, pair: Pair) -> bytes:
        """The JSON object of a pair's answer, with the keys of both nodes added if nodes have keys."""
        if self._network is None:
            return answer
        keys = [self._json_key(node, self._network.file.changes) for node in pair]
        return b'%b,"from_key":%b,"to_key":%b}' % (answer[:-1], *keys)

    def _as_json(self, node: int, _changes: int) -> bytes:
        key = None if self._network is None else self._network.key(node)
        return json.dumps(key, ensure_ascii=False).encode("utf-8", "replace")


class Queries:
    """A router whose queries are counted, and what they cost. All methods raise OutOfMemory, HierarchyError if the file is of no
    graph, and what the meter raises."""

    def __init__(
        self, router: Router, links: int, metrics: "SharedMetrics", meter: Meter, keys: NodeKeys = NodeKeys(),
        turned: Router | None = None, summers: Mapping[str, Summer] = {}
    ) -> None:
        """`turned` is the router of the hierarchy with each link turned round, if what leads to places is answered. `alternatives` is how
        many other routes are searched for at most. `summers` are by names of annotations."""
        self.summers = summers
        self.router, self.nodes, self.links, self._metrics, self.keys = router, router.nodes, links, metrics, keys
        self.meter, self.turned = meter, turned
        self.alternatives = MAX_ALTERNATIVES if turned is not None and self.nodes <= MAX_NODES_OF_ALTERNATIVES else 0

    def _count(self, queries: int, work: Work, count: float) -> None:
        """Counts queries, and what they are about to cost."""
        self._metrics.own.queries_total += queries
        self.meter.spend(work, count)

    def length(self, source: int, target: int) -> int | None:
        """The length of a shortest path, None if there is no path."""
        self._count(1, Work.PAIR, 1)
        return self.router.length(source, target)

    def route(self, source: int, target: int) -> RouterResult | None:
        """A shortest path, None if there is none."""
        return self.between({source: (0, 0)}, {target: (0, 0)})

    def between(self, exits: SnapEnds, entries: SnapEnds) -> RouterResult | None:
        """A shortest path from one of several nodes to one of several, with the weights of both ends added; or None."""
        self._count(1, Work.PAIR, 1)
        sides = [[(node, side[node][0]) for node in sorted(side)] for side in (exits, entries)]
        found = self.router.between(sides[0], sides[1])
        if found is not None:
            self.meter.spend(Work.NODE, len(found.nodes))
        return found

    def reach(self, starts: Sequence[tuple[int, int]], limit: int, towards: bool = False) -> Ints:
        """The least length of each node from the nearest of several, each with what is added there; or NO_PATH. With
        `towards` it is that to the nearest."""
        router = self.turned if towards else self.router
        if router is None:
            raise not_implemented("reverse=true isn't supported: the service was started without --towards")
        self._count(1, Work.REACH, self.nodes)
        return batch.reach(router, starts, limit)

    def lengths(self, pairs: Sequence[Pair]) -> list[int]:
        """The length of a shortest path of each pair, NO_PATH if there is none."""
        self._count(len(pairs), Work.PAIR, len(pairs))
        found: list[int] = batch.lengths(self.router, np.array(pairs, np.int64).reshape(-1, 2)).tolist()
        return found

    def table(self, sources: Ints, targets: Ints) -> Ints:
        """The length of a shortest path from each source to each target, NO_PATH if there is none: a new array with a row
        for each source. More rows to the same targets take less time. A row is a query."""
        self._count(len(sources), Work.ROW, len(sources) * (1 + selected_links(self.nodes, self.links, len(targets)) / 10_000))
        rows, columns = (np.ascontiguousarray(nodes, np.uint32) for nodes in (sources, targets))
        out = np.empty((len(rows), len(columns)), np.int64)
        with self.router.searcher() as searcher:
            searcher.table(rows, columns, out)
        return out

    def table_sums(self, sources: Ints, targets: Ints, names: Sequence[str]) -> list[Ints]:
        """The same, and what each of these sums to along a path of that length, in thousandths: "duration" or "distance"."""
        found = list[Ints]()
        for name in names:
            self._count(len(sources), Work.SUM, len(sources) * len(targets))
            lengths, sums = self.summers[name].table(sources, targets)
            found += [sums] if found else [lengths, sums]
        return found
