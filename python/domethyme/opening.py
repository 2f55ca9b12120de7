"""The files of one network with one beginning of their names, made of a map and opened together."""
import contextlib
import os
import re
from typing import Any

from .extras import need
from .graphs import Order, prepare
from .hierarchy import Hierarchy
from .keys import Keys, keys_path
from .program import StrPath
from .progress import Progress, reporting

# What the names of a network's files end with.
ENDING = re.compile(r"\.(rch|net|gr|co|((nodes|arcs)\.)?csv)$")


def prefix_fault(out: str) -> str:
    """Why the names of a network's files can't begin with this, or the empty text."""
    if not os.path.basename(out) or os.path.isdir(out):
        return f"is a prefix of files, as {os.path.join(out, 'map')}, and {out!r} is a folder, or empty"
    prefix = ENDING.sub("", out)
    return f"is a prefix of files, as {prefix}, and {out!r} the name of one" if prefix != out else ""


def from_osm(
    path: StrPath, out: StrPath, profile: StrPath = "car", *, progress: Progress = False, order: Order | None = None, **options: Any
) -> Hierarchy:
    """Makes the network of a map of OpenStreetMap and its hierarchy, as `osm_to_gr` and `routecli prepare` do, and opens them: OUT.gr,
    OUT.net and OUT.rch, without the OUT.rch.keys of another one. At an exception the files are as they were before, or the network
    alone is new.

    path      a .osm, .osm.bz2 or .osm.pbf file, which is read twice
    out       the prefix of the output files
    profile   the vehicle: car, lorry, bicycle, foot, or the path of a profile of your own, NAME.json
    progress  True shows bars of tqdm; a callable receives what is being done, how much of it is done, and how much there is
    order     as for `prepare`
    options   those of `osm_to_gr` by their names: weight ("time", milliseconds, or "length", centimetres), longest_arc,
              ignore_turn_restrictions, keep_islands, at_least, tables, attribution

    Time: a country of 70 million points of roads takes minutes for the network, and some for the hierarchy (docs/MAPS.md). Needs scipy.
    Raises MapError for the map or the profile, ValueError for options and a folder, and what `prepare` raises.
    """
    for name in ("numpy", "scipy"):
        need(name)
    from .maps import conversion, vehicle_profile
    from .network.network import Network

    names = os.fspath(out)
    if fault := prefix_fault(names):
        raise ValueError(f"out {fault}")
    chosen, rules = conversion.options_of(options), vehicle_profile.read_profile(os.fspath(profile))
    with reporting(progress) as on_progress:
        conversion.write_network(path, names, rules, chosen, on_progress)
        prepare(f"{names}.gr", f"{names}.rch", order, progress=on_progress if progress else False).close()
    with contextlib.suppress(FileNotFoundError):
        os.unlink(keys_path(f"{names}.rch"))  # (keys of another hierarchy before)
    return Hierarchy(f"{names}.rch", network=Network(names))


def open(path: StrPath) -> Hierarchy:
    """The Hierarchy of PATH.rch, with its network, PATH.net, and its keys: those that Graph.prepare saved, or else the names that the table
    of nodes of `to_network` has; a map's nodes are numbered from 0. A hierarchy without a network is opened without one. PATH may be the
    name of one of the files.

    Raises HierarchyNotFound, and what Hierarchy raises for files that don't belong together.
    """
    prefix = ENDING.sub("", os.fspath(path))
    hierarchy = f"{prefix}.rch"
    keys = Keys.load(hierarchy) if os.path.exists(hierarchy) and os.path.exists(f"{hierarchy}.keys") else None
    if not os.path.exists(f"{prefix}.net"):
        return Hierarchy(hierarchy, keys=keys)
    need("numpy")
    from .network.network import Network

    network = Network(prefix)
    if keys is None and network.has_names:
        keys = network.keys()
    return Hierarchy(hierarchy, keys=keys, network=network)
