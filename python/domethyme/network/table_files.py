"""The graph of a network, and its tables in CSV with the files for GDAL beside them, as the tools write them."""
import contextlib
import csv
import io
import itertools
import os
import pathlib
from collections.abc import Sequence
from typing import IO, Any, cast

import numpy as np
from numpy.typing import NDArray

from ..csv_tables import escape_formula
from ..dimacs import write_graph
from ..errors import NetworkError
from . import net_file
from .columns import ENDS, NO_OSM, OF_ARCS, OF_NODES, TEXTS, UNITS, ColumnSpec
from .geo import format_linestring
from .groups import Ints
from .tables import ALL_ARC_COLUMNS, ALL_NODE_COLUMNS, ATTRIBUTION_COMMENT, KEY, Files, is_written_by_tools

ROWS_AT_ONCE = 1 << 16


def tables_there(names: Files, are_written: bool) -> list[str]:
    """The tables of a network that the tools have written, and the files for GDAL beside them.

    Raises a NetworkError where these are to be written in the place of a user's own, and where one of the tools was edited
    since, as far as its size shows: it would be read in place of the new network, and may not be lost."""
    kinds = {names.nodes: ALL_NODE_COLUMNS, names.arcs: ALL_ARC_COLUMNS}
    found = [path for path, columns in kinds.items() if is_written_by_tools(path, columns)]
    texts = {path: (f"{text}\n", f"{names.forms_of(has_keys=True)[path]}\n") for path, text in names.forms.items()}
    forms = [path for path in filter(os.path.isfile, texts) if pathlib.Path(path).read_text("utf-8", "replace") in texts[path]]
    for path in (*kinds, *texts) if are_written else ():
        if os.path.isfile(path) and path not in (*found, *forms):
            raise NetworkError("is there, and no tool has written it: move it, or choose another OUT", path)
    # (a file of the network that is damaged doesn't say that they have changed)
    is_current = True
    with contextlib.suppress(NetworkError):
        is_current = not found or not os.path.exists(names.binary) or net_file.is_current(names.path)
    if not is_current:
        raise NetworkError(f"has changed since {names.binary} was made of it: move it, or choose another OUT", found[0])
    return [*found, *forms] if found else []


def write_graph_of(file: IO[bytes], arrays: net_file.Arrays, attribution: str) -> None:
    """Writes the graph, with the attribution as a comment."""
    comments = [f"{ATTRIBUTION_COMMENT}{attribution}"] if attribution else []
    write_graph(file, len(arrays.node_osm), [arrays.arc_from, arrays.arc_to, arrays.arc_weight], comments)


def write_tables(files: Sequence[IO[str]], arrays: net_file.Arrays) -> dict[str, int]:
    """Writes both tables, and the files for GDAL, into files in the order of Files; returns what both tables are known by."""
    write_nodes(files[0], arrays)
    write_arcs(files[1], arrays)
    for file, text in zip(files[2:], Files("").forms_of(len(arrays.node_texts) > 0).values(), strict=True):
        print(text, file=file)
    for file in files[:2]:
        file.flush()
    return net_file.marks_of(*(file.name for file in files[:2]))


def write_nodes(file: IO[str], network: net_file.NetworkColumns) -> None:
    """Writes a .nodes.csv file: degrees to the seventh place, as OpenStreetMap has them."""
    rows, keys = csv.writer(file, lineterminator="\n"), [escape_formula(key) for key in network.keys()]
    rows.writerow((*ALL_NODE_COLUMNS, KEY) if keys else ALL_NODE_COLUMNS)
    for low in range(0, len(network.node_osm), ROWS_AT_ONCE):
        part = slice(low, low + ROWS_AT_ONCE)
        columns = [texts_of(column, getattr(network, f"node_{name}")[part]) for name, column in OF_NODES.items()]
        rows.writerows(zip(itertools.count(low + 1), *columns, *([keys[part]] if keys else [])))


def write_arcs(file: IO[str], network: net_file.NetworkColumns) -> None:
    """Writes a .arcs.csv file: seconds to the thousandth, metres to the hundredth."""
    rows, arcs = csv.writer(file, lineterminator="\n"), np.flatnonzero(network.are_open())
    rows.writerow(ALL_ARC_COLUMNS)
    for low in range(0, len(arcs), ROWS_AT_ONCE):
        part = arcs[low : low + ROWS_AT_ONCE]
        numbers = [texts_of(column, getattr(network, f"arc_{name}")[part]) for name, column in OF_ARCS.items()]
        texts = [[*map(escape_formula, column)] for column in texts_of_arcs(network, part).values()]
        rows.writerows(zip(*numbers, *texts, lines_of_arcs(network, part)))


def texts_of(column: ColumnSpec, values: NDArray[Any]) -> list[str]:
    """Values of a column as tables have them."""
    if column.text == "word":
        return [ENDS[each] for each in values.tolist()]
    if column.text == "d":
        return ["" if each == NO_OSM else str(each + column.base) for each in values.tolist()]
    return [format(each, column.text) for each in (values / UNITS if column.kind == "<i4" else values).tolist()]


def texts_of_arcs(network: net_file.NetworkColumns, arcs: Ints) -> dict[str, list[str]]:
    """The texts of some arcs, by the names in TEXTS."""
    numbers = network.arc_texts(arcs).T.tolist()
    return {name: [network.texts[number] if number else "" for number in column] for name, column in zip(TEXTS, numbers)}


def lines_of_arcs(network: net_file.NetworkColumns, arcs: Ints) -> list[str]:
    """The lines of some arcs as WKT."""
    begins, points = network.arc_lines(arcs)
    places = (points / UNITS).tolist()
    return [format_linestring(places[low:high]) for low, high in itertools.pairwise(begins.tolist())]


def bytes_of(file: IO[str]) -> IO[bytes]:
    """The bytes of a file that was opened as text."""
    return cast(io.TextIOWrapper, file).buffer
