"""The links of a hierarchy's file, in arrays, and how they differ from a network's arcs. Needs numpy."""
import os
from collections.abc import Iterator, Sequence
from typing import TYPE_CHECKING, Any, NamedTuple

import numpy as np
from numpy.typing import NDArray

from .errors import HierarchyError, NetworkError
from .hierarchy_file import HEAD_BYTES, pread_all, read_header
from .network.parallel import differs_from_previous

if TYPE_CHECKING:
    from .network.column_file import Column
    from .network.net_file import MappedNetwork

FIELDS = [("start", ">u4"), ("end", ">u4"), ("weight", ">i8"), ("arcs", ">u4"), ("middle", ">u4")]
KINDS = {b"RCH1": np.dtype(FIELDS[:3] + FIELDS[4:]), b"RCH2": np.dtype(FIELDS)}
# The middle of a link that is an arc of the graph.
NO_MIDDLE = (1 << 32) - 1
NO_ARC = -1
# The greatest number of thousandths of an arc.
MOST_THOUSANDTHS = (1 << 32) - 1
# Links that are read at a time, and that are drawn at a time.
AT_A_TIME, DRAWN = 1 << 20, 5_000
# How often links are drawn, where many have a middle.
ROUNDS = 20


class Links(NamedTuple):
    """The links of an open file whose head fits its size: `size` of them, sorted by their ends, between `nodes` nodes from 0. A part
    is an array with the fields start, end, weight and middle."""

    file: int
    name: str
    kind: "np.dtype[Any]"
    nodes: int
    size: int

    @classmethod
    def of(cls, file: int, name: str) -> "Links":
        """Those of a file, version 1 or 2, that messages call `name`."""
        return cls(file, name, KINDS[os.pread(file, 4, 0)], *read_header(file, name))

    def parts(self) -> Iterator[NDArray[Any]]:
        """All links, AT_A_TIME in a part. Raises HierarchyError for a link that can't be."""
        for begin in range(0, self.size, AT_A_TIME):
            count = min(AT_A_TIME, self.size - begin)
            yield self._checked(pread_all(self.file, self._place(begin), count * self.kind.itemsize))

    def arcs(self, network: "MappedNetwork") -> NDArray[np.int64]:
        """The network's lightest arc of each link without a middle, in order."""
        ends = (part[part["middle"] == NO_MIDDLE] for part in self.parts())
        arcs = [network.lightest(part["start"].astype(np.int64), part["end"].astype(np.int64)) for part in ends]
        return np.concatenate([np.empty(0, np.int64), *arcs])

    def thousandths(self, network: "MappedNetwork", columns: Sequence["Column"]) -> list[NDArray[np.uint32]]:
        """Of columns of the network's arcs, seconds or metres, the whole thousandths of its lightest arc for each link without a middle,
        in order. Raises NetworkError for an arc of more than 4,294,967, which can't be summed."""
        arcs, found = self.arcs(network), list[NDArray[np.uint32]]()
        for column in columns:
            some = np.rint(1000 * column[arcs])
            if some.max(initial=0) > MOST_THOUSANDTHS:
                raise NetworkError(f"has an arc of more than {MOST_THOUSANDTHS // 1000} seconds or metres, which can't be summed", network.path)
            found.append(some.astype(np.uint32))
        return found

    def rows(self, numbers: NDArray[np.int64]) -> NDArray[Any]:
        """The links of these numbers. Raises HierarchyError for one that can't be."""
        return self._checked(b"".join(os.pread(self.file, self.kind.itemsize, self._place(row)) for row in numbers.tolist()))

    def difference(self, network: "MappedNetwork") -> str | None:
        """The first difference between all links and the network's arcs; None where there is none."""
        behind = -1
        for part in self.parts():
            keys = part["start"].astype(np.int64) << 32 | part["end"]
            arcs, weights = least_arcs(network, behind, int(keys[-1]))
            place = np.minimum(np.searchsorted(keys, arcs), len(keys) - 1)
            is_there = keys[place] == arcs
            if not is_there.all():
                return without_link(int(arcs[~is_there][0]))
            of_links = np.full(len(part), NO_ARC, np.int64)
            of_links[place] = weights
            if (found := wrong_link(part, of_links)) is not None:
                return found
            behind = int(keys[-1])
        more, _ = least_arcs(network, behind, self.nodes << 32)
        return without_link(int(more[0])) if len(more) else None

    def drawn_difference(self, network: "MappedNetwork") -> str | None:
        """The same of drawn links, always the same ones of a file."""
        draw, compared = np.random.default_rng(self.size), 0
        for _ in range(ROUNDS):
            part = self.rows(np.sort(draw.integers(0, self.size, DRAWN)))
            arcs = network.lightest(part["start"].astype(np.int64), part["end"].astype(np.int64))
            weights = np.where(arcs == NO_ARC, NO_ARC, network.arc_weight[np.maximum(arcs, 0)])
            if (found := wrong_link(part, weights)) is not None:
                return found
            compared += int(np.count_nonzero(part["middle"] == NO_MIDDLE))
            if compared >= DRAWN:
                break
        return None

    def _place(self, row: int) -> int:
        return HEAD_BYTES + 4 * self.nodes + row * self.kind.itemsize

    def _checked(self, data: bytes | bytearray) -> NDArray[Any]:
        table = np.frombuffer(data, self.kind)
        most = max(table["start"].max(initial=0), table["end"].max(initial=0))
        if most >= self.nodes or (table["start"] == table["end"]).any() or table["weight"].min(initial=0) < 0:
            raise HierarchyError(f"{self.name}: a link of it has an end or a weight that can't be", 4)
        return table


def least_arcs(network: "MappedNetwork", behind: int, last: int) -> tuple[NDArray[np.int64], NDArray[np.int64]]:
    """The least arcs between different nodes whose keys lie behind one key, up to another: their keys, which rise, and
    weights. A key is the number of the first node and 32 bits with that of the second."""
    first, end = max(behind, 0) >> 32, min((last >> 32) + 1, len(network.out_begin) - 1)
    arcs = network.out_arcs[int(network.out_begin[first]) : int(network.out_begin[end])]
    starts, ends = network.arc_from[arcs].astype(np.int64), network.arc_to[arcs].astype(np.int64)
    keys = starts << 32 | ends
    is_wanted = differs_from_previous(keys) & (starts != ends) & (keys > behind) & (keys <= last)
    return keys[is_wanted], network.arc_weight[arcs[is_wanted]]


def wrong_link(part: NDArray[Any], weights: NDArray[np.int64]) -> str | None:
    """The first of the links that can't be, by the weights of the least arcs between their ends, NO_ARC for none."""
    is_arc = part["middle"] == NO_MIDDLE
    is_wrong = np.where(is_arc, weights != part["weight"], (weights != NO_ARC) & (weights < part["weight"]))
    if not is_wrong.any():
        return None
    row = int(is_wrong.argmax())
    start, end, length = (int(part[name][row]) for name in ("start", "end", "weight"))
    beside = "there is no arc" if weights[row] == NO_ARC else f"the least arc weighs {weights[row]}"
    return f"from node {start + 1} to node {end + 1} it has {length}, where {beside}"


def without_link(key: int) -> str:
    return f"from node {(key >> 32) + 1} to node {(key & 0xFFFFFFFF) + 1} it lacks an arc"
