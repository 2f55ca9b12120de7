"""A hierarchy file in columns, of which hierarchy.js makes the same bytes: some two fifths of them once packed.

Of a link with a middle the weight and the arcs are left out, since they are the sums of its halves'. Columns are numbers of 32 bits byte
by byte, all lowest first, then all second, and so on; those that may be below 0 have their sign in the lowest bit.
"""
import os

import numpy as np
from numpy.typing import NDArray

from domethyme.errors import HierarchyError
from domethyme.network.groups import Ints
from domethyme.program import StrPath

# By docs/FORMATS.md, "Hierarchy file".
MAGIC, NO_MIDDLE = b"RCH2", 0xFFFF_FFFF
LINK = np.dtype([("start", ">u4"), ("end", ">u4"), ("weight", ">u8"), ("arcs", ">u4"), ("middle", ">u4")])


def columns_of(data: bytes, path: StrPath) -> bytes:
    """The columns of a hierarchy file's bytes. Raises HierarchyError for one that isn't well made, or of version 1."""
    nodes, count = int.from_bytes(data[4:8], "big"), int.from_bytes(data[8:16], "big")
    if data[:4] != MAGIC or len(data) != 24 + 4 * nodes + LINK.itemsize * count:
        raise HierarchyError(f"{os.fspath(path)}: is no whole hierarchy file of version 2: prepare the graph again", 4)
    ranks, links = np.frombuffer(data, ">u4", nodes, 24), np.frombuffer(data, LINK, count, 24 + 4 * nodes)
    start, end, weight, arcs, middle = (links[name].astype(np.int64) for name in LINK.names or ())
    has_middle = middle != NO_MIDDLE
    if max(start.max(initial=-1), end.max(initial=-1), middle[has_middle].max(initial=-1)) >= nodes or not are_sums(links, nodes):
        raise HierarchyError(f"{os.fspath(path)}: has links that aren't well made: prepare the graph again", 4)
    own = weight[~has_middle]
    columns = [
        ranks.astype(np.int64), np.bincount(start, minlength=nodes), signed(end - start), signed(np.where(has_middle, middle - start, 0)),
        own & 0xFFFF_FFFF,
    ]
    if (own >> 32).any() or (arcs[~has_middle] != 1).any():
        raise HierarchyError(f"{os.fspath(path)}: has arcs that no graph has: prepare the graph again", 4)
    return data[:24] + b"".join(map(planes, columns))


def are_sums(links: NDArray[np.void], nodes: int) -> bool:
    """Whether links rise, and those with a middle are the sums of two others, of which hierarchy.js makes them."""
    keys = links["start"].astype(np.int64) * nodes + links["end"]
    chosen = links[links["middle"] != NO_MIDDLE]
    middle, found = chosen["middle"].astype(np.int64), []
    for half in (chosen["start"].astype(np.int64) * nodes + middle, middle * nodes + chosen["end"]):
        places = np.minimum(np.searchsorted(keys, half), len(keys) - 1)
        if not (keys[places] == half).all():
            return False
        found.append(links[places])
    sums = ((found[0][name] + found[1][name] == chosen[name]).all() for name in ("weight", "arcs"))
    return bool((np.diff(keys) > 0).all() and all(sums))


def signed(values: Ints) -> Ints:
    return np.where(values < 0, -2 * values - 1, 2 * values)


def planes(values: Ints) -> bytes:
    return np.ascontiguousarray(values.astype("<u4").view(np.uint8).reshape(-1, 4).T).tobytes()
