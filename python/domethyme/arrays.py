"""Arguments as arrays, and pandas' objects in and out, where pandas is there. Needs numpy."""
from collections.abc import Hashable, Iterable, Sequence
from typing import Any

import numpy as np
from numpy.typing import ArrayLike, NDArray

from .errors import NoSuchNode
from .extras import load
from .keys import Keys, as_list, to_python_scalar
from .limits import MAX_NODES

Numbers = NDArray[np.int64]
# What takes places, where they were given for nodes.
OF_TABLE = "table(sources, targets) takes places"
OF_PLACES = {"sources": OF_TABLE, "targets": OF_TABLE, "pairs": "directions(places) takes places, and nearest(lon, lat) finds nodes"}
COLUMNS = (("from_node", "to_node"), ("from", "to"), ("source", "target"))
# Those of keys, where there are some: the tools write them beside numbers of nodes from 1.
COLUMNS_OF_KEYS = (("from_key", "to_key"), *COLUMNS)


def whole_numbers(name: str, values: "ArrayLike | list[Hashable]", low: int, high: int) -> Numbers:
    """The values as an array of int64 of the same shape, all from low to high; else a ValueError."""
    array: NDArray[Any] = np.asarray(values)
    if array.size == 0:
        return array.astype(np.int64)
    are_whole = array.dtype.kind in "iu"
    if not are_whole or not hasattr(values, "dtype"):
        # (of unsigned integers beside others numpy makes floats, and integers of truth values beside these)
        objects = np.asarray(values, object)
        if are_whole and {bool, np.bool_} & {*map(type, objects.flat)}:
            raise ValueError(f"{name} have to be integers, and some are bool")
        # (times are numbers of numpy, in whatever unit they have)
        if not are_whole and (array.dtype.kind in "mM" or not all(type(to_python_scalar(value)) is int for value in objects.flat)):
            places = f": {OF_PLACES[name]}" if array.dtype.kind == "f" and name in OF_PLACES else ""
            raise ValueError(f"{name} have to be integers, and are {array.dtype}{places}")
        array = array if are_whole else objects
    least, most = int(array.min()), int(array.max())  # (numpy compares unsigned integers with others as floats)
    if least < low or most > high:
        raise ValueError(f"{name} have to be from {low} to {high}, and are from {least} to {most}")
    return array.astype(np.int64)


def pairs_of(pairs: Any, keys: Keys | None, nodes: int) -> Numbers:
    """Rows (from, to), an array, a list or a frame with columns of COLUMNS, or with keys of COLUMNS_OF_KEYS, as an array of shape
    (n, 2) of nodes from 0.
    Raises NoSuchNode, with the row or the key, and ValueError."""
    columns = columns_of(pairs, COLUMNS if keys is None else COLUMNS_OF_KEYS)
    if keys is not None:
        firsts, seconds = columns if columns is not None else split(pairs)
        starts = keys.nodes(firsts)
        found = np.column_stack([starts, np.fromiter(map(keys.end, as_list(seconds), starts.tolist()), np.int64)])
    else:
        rows = as_list(pairs) if isinstance(pairs, Iterable) and not hasattr(pairs, "__array__") else pairs
        parts = [rows] if columns is None else columns  # (by themselves: numpy makes floats of columns of int64 and uint64)
        found, *others = [whole_numbers("pairs", part, 0, MAX_NODES - 1) for part in parts]
        found = np.column_stack([found, *others]) if others else found
        found = found.reshape(0, 2) if found.size == 0 else found
        if found.ndim != 2 or found.shape[1] != 2:
            raise ValueError("pairs have to be rows of two nodes")
    outside = np.flatnonzero((found >= nodes).any(axis=1))
    if len(outside):
        row = int(outside[0])
        pair = found[row].tolist()
        lacking = next(node for node in pair if node >= nodes)
        raise NoSuchNode(f"row {row} of the pairs, {pair}, has a node that the hierarchy lacks", lacking)
    return found


def columns_of(pairs: Any, known: Sequence[tuple[str, str]]) -> list[Any] | None:
    """The two columns of a frame of pandas, by their known names, None for anything else."""
    if not is_pandas(pairs) or not hasattr(pairs, "columns"):
        return None
    for names in known:
        if all(name in pairs.columns for name in names):
            return [pairs[name].to_numpy() for name in names]
    found = ", ".join(map(repr, pairs.columns))
    array = f"frame[[{found}]].to_numpy()" if len(pairs.columns) == 2 else "two columns of them as an array"
    raise ValueError(f"a frame of pairs has to have the columns from and to, or source and target, and has {found}: rename, or give {array}")


def split(pairs: Iterable[Any]) -> tuple[list[Hashable], list[Hashable]]:
    try:
        # (a text of two letters is no row)
        rows = [(source, target) for row in pairs for source, target in [() if isinstance(row, str) else row]]
    except (TypeError, ValueError):
        raise ValueError("pairs have to be rows of two nodes") from None
    return [row[0] for row in rows], [row[1] for row in rows]


def nodes_of(name: str, values: Any, keys: Keys | None, nodes: int, are_ends: bool = False) -> Numbers:
    """The values, an array or anything that can be iterated, as an array of one dimension of nodes from 0: where routes begin, or
    end."""
    if keys is not None:
        return np.fromiter(map(keys.end, as_list(values)), np.int64) if are_ends else keys.nodes(values)
    array = whole_numbers(name, values if hasattr(values, "__array__") else as_list(values), 0, MAX_NODES - 1)
    if array.ndim != 1:
        raise ValueError(f"{name} have to be of one dimension")
    if array.size and array.max() >= nodes:
        raise NoSuchNode(f"{name} have node {array.max()}, and the hierarchy has {nodes} nodes", int(array.max()))
    return array


def places_of(places: Any) -> NDArray[np.float64]:
    """Places as an array of shape (n, 2), lon and lat in degrees: rows (lon, lat) or points of shapely, or one of these; a frame of pandas
    with the columns lon and lat; or points of geopandas in any system of coordinates. Raises ValueError."""
    points = getattr(places, "geometry", None)
    if points is not None and hasattr(points, "geom_type"):
        if not (points.geom_type == "Point").all():
            raise ValueError("places have to be points, and some geometries aren't: take their centroids, or representative points")
        points = points if points.crs is None else points.to_crs(4326)
        return np.column_stack((points.x, points.y))
    if is_pandas(places) and places.ndim == 2:
        if [*places.columns].count("lon") != 1 or [*places.columns].count("lat") != 1:
            raise ValueError("a frame of places has to have the columns lon and lat, each once")
        try:
            return np.asarray(places[["lon", "lat"]], float)
        except TypeError:
            raise ValueError("lon and lat have to be numbers, and some are missing") from None
    several = [places] if getattr(places, "geom_type", None) == "Point" else places
    try:
        rows = np.array([(each.x, each.y) if getattr(each, "geom_type", None) == "Point" else each for each in several], float)
    except (TypeError, ValueError):
        raise ValueError("places have to be rows (lon, lat), or points") from None
    rows = rows.reshape(-1, 2) if rows.size == 0 or rows.shape == (2,) else rows
    if rows.shape[1:] != (2,):
        raise ValueError("places have to be rows (lon, lat), or points")
    return rows


def is_pandas(value: Any) -> bool:
    """Whether the value is of pandas, which is then loaded, or of a kind of its objects, as geopandas' frames."""
    return any(kind.__module__.partition(".")[0] == "pandas" for kind in type(value).__mro__)


def index_of(pairs: Any) -> Any:
    """The index of a frame or Series of pandas, None for anything else."""
    return pairs.index if hasattr(pairs, "iloc") else None


def series(lengths: Numbers, index: Any) -> Any:
    """The lengths as a Series of Int64 with this index, missing if there is no path."""
    return load("pandas").Series(with_missing(lengths), index=index, name="length")


def stay(table: Numbers, starts: Numbers, ends: Numbers, keys: Keys | None) -> None:
    """Sets cells to 0 where a path begins and ends at one junction with turn restrictions, by its key."""
    begins = {} if keys is None else keys.begins()
    for column in np.flatnonzero(np.isin(ends, list(begins))).tolist():
        table[starts == begins[int(ends[column])], column] = 0


def like_axes(table: NDArray[Any], sources: Any, targets: Any, has_keys: bool, missing: Any) -> Any:
    """The table as a DataFrame if the places came as pandas' objects, or as lists of keys, else as an array. If there is no path
    it has `missing`, and without that a frame of Int64 has missing values and an array NO_PATH."""
    is_frame = any(is_pandas(side) or has_keys and not hasattr(side, "__array__") for side in (sources, targets))
    return filled(table, (axis(sources), axis(targets)) if is_frame else None, missing)


def filled(table: NDArray[Any], axes: tuple[Any, Any] | None, missing: Any) -> Any:
    """The table as a DataFrame with these axes, or without them as an array, with `missing` for no path as `like_axes` has it."""
    values = table if missing is None else np.where(table < 0, missing, table)
    if axes is None:
        return values
    columns = {place: with_missing(column) if missing is None else column for place, column in enumerate(values.T)}
    frame = load("pandas").DataFrame(columns, index=axes[0])
    frame.columns = axes[1]
    return frame


def thousandths(sums: Numbers) -> "NDArray[np.float64]":
    """Sums in thousandths as floats, NO_PATH where they are that."""
    return np.where(sums < 0, sums, sums / 1000)


def metres_of(millimetres: Numbers) -> "NDArray[np.float64]":
    """Sums of millimetres as metres, NaN where they are NO_PATH."""
    return np.where(millimetres < 0, np.nan, millimetres / 1000)


def by_keys(values: NDArray[Any], keys: Keys) -> Any:
    """The length of each node as a Series by the nodes' keys, or its metres as floats."""
    index = labels(keys)
    return series(values, index) if values.dtype.kind == "i" else load("pandas").Series(values, index)


def axis(values: Any) -> Any:
    """The labels of an axis for values that a caller gave: those of a Series or Index are its values."""
    if hasattr(values, "__array__") and not hasattr(values, "levels"):
        return load("pandas").Index(getattr(values, "array", values))
    return labels(as_list(values))


def labels(keys: Iterable[Hashable]) -> Any:
    """An Index of keys. It has objects where these are of several types, as numbers and None, of which pandas makes floats."""
    found = [to_python_scalar(key) for key in keys]
    return load("pandas").Index(found, dtype=object if len({*map(type, found)}) > 1 else None, tupleize_cols=False)


def with_missing(lengths: Numbers) -> Any:
    """The lengths as pandas' Int64, missing if there is no path."""
    return load("pandas").arrays.IntegerArray(lengths.copy(), lengths < 0)
