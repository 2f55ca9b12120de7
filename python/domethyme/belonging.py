"""What belongs together, and how that is told. What differs is refused by an error that names both sides and what to do.

A hierarchy is compared by the number of nodes, and by its links beside the least arcs between their ends. A link without a middle
weighs as much as such an arc; another one is lighter; and there is a link wherever there is an arc. That finds another map,
another vehicle, one weight that differs, and damage of a weight that no shortcut rests on. The proof is `routecli check`.
"""
import hashlib
import logging
import os
from typing import TYPE_CHECKING

from .errors import FileError, WrongHierarchy, raised_as
from .program import StrPath

if TYPE_CHECKING:
    from .network.net_file import MappedNetwork

# Links up to which all are compared; of more drawn ones, unless all are asked for.
MAX_COMPARED = 10_000_000


def compare(file: int, name: str, network: "MappedNetwork", whole: bool = False) -> None:
    """Raises WrongHierarchy where an open file of a hierarchy, whose head fits its size, isn't that of a network.

    Above MAX_COMPARED links 5,000 drawn ones or more are compared, unless `whole`, and a warning is logged. All of a million nodes
    take a second.
    """
    from .links import Links

    links = Links.of(file, name)
    need_nodes(name, links.nodes, network.path, len(network.node_osm))
    is_whole = whole or links.size <= MAX_COMPARED
    if (found := (links.difference if is_whole else links.drawn_difference)(network)) is not None:
        raise of_another(name, network.path, found)
    if not is_whole:
        some = f"5,000 of its {links.size:,} links were compared with {network.path}"
        logging.getLogger(__name__).warning("%s: %s: --compare-all, or compare_all=True, compares all", name, some)


def need_nodes(name: str, nodes: int, network: str, of_network: int) -> None:
    """Raises WrongHierarchy where a hierarchy and a network have different numbers of nodes."""
    if nodes != of_network:
        raise of_another(name, network, f"it has {nodes} nodes, and the network {of_network}")


def of_another(name: str, network: str, how: str) -> WrongHierarchy:
    remedy = "run `routecli prepare` again for this network's graph"
    return WrongHierarchy(f"{name}: is the hierarchy of another network than {network}: {how}; {remedy}")


def digest_of(path: StrPath) -> str:
    """The SHA-256 of a file. Raises FileError."""
    with raised_as(FileError, path), open(path, "rb") as file:
        return hashlib.file_digest(file, "sha256").hexdigest()


def older_hierarchy(prefix: str) -> str | None:
    """What to say where PREFIX.rch is older than PREFIX.gr; None where it isn't, or isn't there."""
    hierarchy, graph = f"{prefix}.rch", f"{prefix}.gr"
    if not os.path.exists(hierarchy) or os.stat(hierarchy).st_mtime_ns >= os.stat(graph).st_mtime_ns:
        return None
    return f"{hierarchy} is older than {graph}: run `routecli prepare --order balanced {graph} {hierarchy}` again"
