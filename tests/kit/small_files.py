"""Small hierarchy files by hand."""
import itertools

from .hierarchy_file import NONE, spelled

HEAVY = 4_294_967_295

# Start, end, weight, arcs and middle.
Link = tuple[int, int, int, int, int]
ONE_ARC_LINKS: list[Link] = [(0, 1, 7, 1, NONE)]
# A row of three nodes, with a shortcut by way of the first.
ROW_LINKS: list[Link] = [(0, 2, 3, 1, NONE), (1, 0, 2, 1, NONE), (1, 2, 5, 2, 0)]
# Nodes 1 to 3, each joined to the next by way of node 0: the walk from 1 to 3 goes over it twice.
TWICE_LINKS: list[Link] = [(0, 2, 1, 1, NONE), (0, 3, 1, 1, NONE), (1, 0, 1, 1, NONE), (1, 2, 2, 2, 0), (2, 0, 1, 1, NONE), (2, 3, 2, 2, 0)]
HEAVIEST_LINKS: list[Link] = [
    (0, 1, HEAVY, 1, NONE), (0, 3, HEAVY, 1, NONE), (1, 0, HEAVY, 1, NONE), (1, 3, 2 * HEAVY, 2, 0), (2, 0, HEAVY, 1, NONE),
    (2, 1, 2 * HEAVY, 2, 0), (2, 3, 2 * HEAVY, 2, 0),
]
# Ways of three and of two arcs from node 4 to 5. Nodes 2 and 3 rank lowest, so the link is a shortcut by way of them.
TIED_LINKS: list[Link] = [
    (0, 4, 1, 1, NONE), (1, 2, 1, 1, NONE), (2, 4, 1, 1, NONE), (3, 0, 2, 1, NONE), (3, 1, 1, 1, NONE), (3, 2, 2, 2, 1), (3, 4, 3, 3, 2),
]
NO_NODE = spelled([], [], 0)
ONE_ARC, ONE_ARC_1 = (spelled([0, 1], ONE_ARC_LINKS, 7, version) for version in (2, 1))
ROW, ROW_1 = (spelled([0, 1, 2], ROW_LINKS, 6, version) for version in (2, 1))
TWICE, TWICE_1 = (spelled([0, 1, 2, 3], TWICE_LINKS, 4, version) for version in (2, 1))
HEAVIEST, HEAVIEST_1 = (spelled([0, 1, 2, 3], HEAVIEST_LINKS, 3 * HEAVY, version) for version in (2, 1))
TIED_1 = spelled([2, 0, 1, 3, 4], TIED_LINKS, 8, 1)


def cascade(version: int) -> bytes:
    """38 nodes, each two linked by way of the node below the lower one: a link represents up to 2^36 arcs."""
    links = []
    for start, to in itertools.permutations(range(38), 2):
        lower = min(start, to)
        links.append((start, to, 1 << lower, min(1 << lower, NONE), lower - 1 if lower else NONE))
    return spelled(range(38), links, 158_913_789_915, version)


def changed(file: bytes, changes: dict[int, int]) -> bytes:
    """The file with these bytes at these places."""
    data = bytearray(file)
    for place, value in changes.items():
        data[place] = value
    return bytes(data)
