"""Graphs as texts, in the format of docs/FORMATS.md, where nodes are numbered from 1, and from 0 in what is read and written here. The
path `-` is standard input. What is wrong is a NetworkError with file and row. Needs nothing but Python's own library."""
from collections.abc import Iterable, Iterator, Sequence
from typing import IO, TYPE_CHECKING, Any, NamedTuple

from .csv_tables import open_input, parse_int
from .errors import NetworkError
from .limits import MAX_LINES, MAX_NODES
from .program import StrPath

if TYPE_CHECKING:
    from numpy.typing import NDArray

# Arcs whose text is in memory at once.
ROWS_AT_ONCE = 1 << 14


class GraphLists(NamedTuple):
    """A graph: the number of its nodes, and its arcs in the file's order."""

    nodes: int
    starts: list[int]
    ends: list[int]
    weights: list[int]


def dimacs_lines(path: StrPath) -> Iterator[tuple[int, list[bytes]]]:
    """The row and the fields of each line that is neither a comment nor blank."""
    with open_input(path) as stream:
        for row, line in enumerate(stream, 1):
            fields = line.split()
            if fields and not fields[0].startswith(b"c"):
                yield row, fields


def read_graph(path: StrPath) -> GraphLists:
    """The graph of a .gr file (`-` is standard input)."""
    graph: GraphLists | None = None
    announced = 0
    for row, fields in dimacs_lines(path):
        if fields[0] == b"a" and graph is not None and len(fields) == 4:
            graph.starts.append(parse_int(fields[1], "node", path, row, 1, graph.nodes) - 1)
            graph.ends.append(parse_int(fields[2], "node", path, row, 1, graph.nodes) - 1)
            graph.weights.append(parse_int(fields[3], "weight", path, row))
        elif fields[:2] == [b"p", b"sp"] and graph is None and len(fields) == 4:
            graph = GraphLists(parse_int(fields[2], "the number of nodes", path, row, 0, MAX_NODES), [], [], [])
            announced = parse_int(fields[3], "the number of arcs", path, row, 0, MAX_LINES)
        else:
            raise NetworkError("is no line of a graph", path, row)
    if graph is None:
        raise NetworkError("has no line `p sp NODES ARCS`", path)
    if len(graph.starts) != announced:
        raise NetworkError(f"has {len(graph.starts)} arcs and announces {announced}", path)
    return graph


def write_graph(
    file: IO[bytes], nodes: int, arcs: "Sequence[Sequence[int] | NDArray[Any]]", comments: Iterable[str] = ()
) -> None:
    """Writes a .gr file: the comments, a line each, the problem line, and a line for each arc. `arcs` are three lists or arrays, of
    which parts are in memory as text: the nodes from and to, from 0, and the weights."""
    file.writelines(f"c {comment}\n".encode("utf-8", "replace") for comment in comments)
    file.write(b"p sp %d %d\n" % (nodes, len(arcs[0])))
    for low in range(0, len(arcs[0]), ROWS_AT_ONCE):
        parts = [column[low : low + ROWS_AT_ONCE] for column in arcs]
        are_arrays = not any(isinstance(part, Sequence) for part in parts)
        if are_arrays:
            file.write(lines_of([parts[0] + 1, parts[1] + 1, parts[2]]))  # type: ignore[operator]
        else:
            file.writelines(b"a %d %d %d\n" % (start + 1, end + 1, weight) for start, end, weight in zip(*parts))


def lines_of(columns: "Sequence[Any]") -> bytes:
    """The lines of arcs that are arrays of numbers from 0: all numbers' digits are found at once, which takes a third of the time."""
    import numpy as np

    widths = [len(str(int(column.max()))) for column in columns]
    text = np.full((len(columns[0]), 2 + len(widths) + sum(widths)), ord(" "), np.uint8)
    is_text = np.ones(text.shape, np.bool_)
    text[:, 0], text[:, -1] = ord("a"), ord("\n")
    last = 0
    for column, width in zip(columns, widths):
        rest, last = column.astype(np.int64), last + 1 + width
        for place in range(last, last - width, -1):
            tens = rest // 10
            is_text[:, place] = (rest > 0) | (place == last)
            text[:, place], rest = ord("0") + rest - 10 * tens, tens
    return text[is_text].tobytes()
