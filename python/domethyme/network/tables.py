"""The tables of a network, NETWORK.nodes.csv and NETWORK.arcs.csv, and the names of its files.

A network is files with one beginning of their names, NETWORK: the graph NETWORK.gr, both tables, which `osm_to_gr --help`
describes, and NETWORK.net, which has them and what is derived from them, to be mapped: it is read in their place where it
is no older. Columns that tables of earlier versions lack may be missing, and are empty then.

Beside each table lie NAME.csvt and NAME.prj, by which GDAL and QGIS know the kinds of its columns and that it has degrees of
WGS 84; no tool here reads them.
"""
import errno
import itertools
import os
from collections.abc import Sequence
from typing import Literal

from ..csv_tables import Row, excerpt, open_input
from ..errors import NetworkError
from ..program import StrPath
from .columns import ENDS, OF_ARCS, OF_NODES, TEXTS

OSM_ATTRIBUTION = "© OpenStreetMap contributors (ODbL 1.0)"
ATTRIBUTION_COMMENT = "attribution: "
# The columns of tables, those that each has and all that are written; tables of earlier versions lack some.
NODE_COLUMNS = ("node", "osm", "lon", "lat")
ARC_COLUMNS = ("from", "to", "weight", "seconds", "metres", "osm", "highway", "name", "WKT")
ALL_NODE_COLUMNS = ("node", *OF_NODES)
# The column of nodes that have keys, where NETWORK.nodes.csv numbers them.
KEY = "key"
ALL_ARC_COLUMNS = (*OF_ARCS, *TEXTS, "WKT")
# For GDAL: the kinds of the columns, and the system of coordinates.
KINDS = {"<i4": "Integer", "<i8": "Integer64", "<f8": "Real", "|u1": "String"}
NODE_KINDS = ("Integer", *({"lon": "CoordX", "lat": "CoordY"}.get(name, KINDS[column.kind]) for name, column in OF_NODES.items()))
ARC_KINDS = (*(KINDS[column.kind] for column in OF_ARCS.values()), *["String"] * len(TEXTS), "WKT")
WGS_84 = (
    'GEOGCS["WGS 84",DATUM["WGS_1984",SPHEROID["WGS 84",6378137,298.257223563]],PRIMEM["Greenwich",0],'
    'UNIT["degree",0.0174532925199433],AUTHORITY["EPSG","4326"]]'
)
NAME_IT = "name the network by the prefix of its files"
WRONG_SUFFIXES = {
    ".gr": f"is a graph: {NAME_IT}, {{0}}, or a file of coordinates, {{0}}.co",
    ".rch": f"is a hierarchy: {NAME_IT}",
    **dict.fromkeys((".nodes.csv", ".arcs.csv", ".net"), f"{NAME_IT}, {{0}}"),
    ".csv": f"is a table: NETWORK comes first, and {NAME_IT}",
}
Side = Literal["from", "to"]


class Files:
    """The paths of a network's files."""

    def __init__(self, prefix: StrPath) -> None:
        self.path = name = os.fspath(prefix)
        self.graph, self.nodes, self.arcs = f"{name}.gr", f"{name}.nodes.csv", f"{name}.arcs.csv"
        self.binary, self.old = f"{name}.net", f"{name}.npz"
        self.forms = self.forms_of()

    def forms_of(self, has_keys: bool = False) -> dict[str, str]:
        """The paths of the files for GDAL and their texts, of tables whose nodes have keys or not."""
        of_nodes = (*NODE_KINDS, "String") if has_keys else NODE_KINDS
        return {
            f"{self.path}.{table}.{ending}": text
            for table, kinds in (("nodes", of_nodes), ("arcs", ARC_KINDS))
            for ending, text in (("csvt", ",".join(f'"{kind}"' for kind in kinds)), ("prj", WGS_84))
        }


def is_coordinates(word: StrPath) -> bool:
    """Whether a tool's word NETWORK, or NODES, is a file of coordinates of the DIMACS challenge, compressed or not."""
    return os.fspath(word).endswith((".co", ".co.gz"))


def graph_of(word: StrPath) -> str:
    """The path of the graph of a tool's word NETWORK: NETWORK.gr, and of a file X.co X.gr, or X.gr.gz where that alone is there."""
    if not is_coordinates(word):
        return Files(word).graph
    graph = Files(os.fspath(word).removesuffix(".gz").removesuffix(".co")).graph
    return f"{graph}.gz" if not os.path.exists(graph) and os.path.exists(f"{graph}.gz") else graph


def paths_of(word: StrPath) -> list[str]:
    """The paths of all files that a tool's word NETWORK may stand for."""
    files = Files(word)
    return [os.fspath(word), graph_of(word), files.nodes, files.arcs, files.binary]


def has_columns(path: StrPath, columns: Sequence[str]) -> bool:
    """Whether a table has these columns, as those have that the tools read in place of NETWORK.net."""
    return set(columns) <= set(first_line(path, "utf-8-sig").split(","))


def is_written_by_tools(path: StrPath, columns: Sequence[str]) -> bool:
    """Whether a table begins with the columns that the tools write, and maybe the keys of nodes, so it isn't a user's own."""
    return first_line(path, "utf-8") in (",".join(columns), ",".join([*columns, KEY]))


def first_line(path: StrPath, encoding: str) -> str:
    """The names of a table's columns, "" where it can't be read."""
    try:
        with open(path, "rb") as file:
            return file.readline(1 << 16).decode(encoding, "replace").strip()
    except OSError:
        return ""


def reject_wrong_suffix(word: StrPath) -> None:
    """Raises NetworkError where a tool's word NETWORK is one of the files of a network, or another file."""
    for ending, says in WRONG_SUFFIXES.items():
        if os.fspath(word).endswith(ending):
            raise NetworkError(says.format(os.fspath(word).removesuffix(ending)), word)


def nodes_file(word: StrPath) -> str:
    """The path of the nodes that a tool's word NETWORK names: a DIMACS .co file, or else the network's .nodes.csv."""
    reject_wrong_suffix(word)
    return os.fspath(word) if is_coordinates(word) else Files(word).nodes


def need_nodes(word: StrPath) -> str:
    """The path of the nodes that `nodes_file` names. Raises NetworkError where neither it nor NETWORK.net is there, which it names."""
    path = nodes_file(word)
    if not is_coordinates(word) and not any(map(os.path.exists, (path, Files(word).binary, Files(word).old))):
        raise NetworkError(os.strerror(errno.ENOENT), Files(word).binary)
    return path


def read_ends(fields: Row) -> str:
    """Which ends of routes the node of a row has."""
    if (ends := fields.get("ends", "")) not in ENDS:
        raise fields.error(f"ends {excerpt(ends)} is none of from, to, no")
    return ends


def arcs_file(word: StrPath) -> str:
    """The file that the arcs of a tool's word NETWORK are read from."""
    reject_wrong_suffix(word)
    return graph_of(word) if is_coordinates(word) else Files(word).arcs


def read_attribution(network: StrPath) -> str:
    """The attribution that the comment at the beginning of the network's graph asks for; "" where it asks for none."""
    graph = graph_of(network)
    if not os.path.exists(graph):
        return ""
    with open_input(graph) as file:
        for line in itertools.takewhile(lambda line: line.startswith(b"c"), file):
            comment = line.decode("utf-8", "replace").removeprefix("c ")
            if comment.startswith(ATTRIBUTION_COMMENT):
                return comment.removeprefix(ATTRIBUTION_COMMENT).strip()
    return ""
