"""Keys of nodes: the names that a user has for them, of any hashable kind, and the file in which they are saved."""
import hashlib
import json
import numbers
import os
from collections import Counter
from collections.abc import Hashable, Iterable, Iterator, Mapping, Sequence
from typing import TYPE_CHECKING, Any

from .atomic_files import atomic_write
from .belonging import digest_of
from .csv_tables import open_table
from .errors import FileError, NoSuchNode, os_reason
from .limits import MAX_NODES
from .program import StrPath

if TYPE_CHECKING:
    import numpy as np
    from numpy.typing import NDArray

FORMAT = "domethyme keys 1"


class Keys:
    """The key of each node. A node may have none (None), and each key names one node. Keys know the files that they were saved for, or
    whose graph had them, and are refused for others."""

    def __init__(self, keys: "Keys | Mapping[Any, int] | Iterable[Hashable]", nodes: int | None = None) -> None:
        """Of a mapping from keys to nodes, counted from 0, or of a key for each node in order. None, or a missing value of pandas, is no
        key.

        Raises ValueError where two nodes have one key, or where there aren't as many keys as `nodes`; a mapping may have fewer.
        """
        self._names: list[Hashable]
        self._nodes: dict[Any, int]
        self._ambiguous: set[Hashable] = set()
        self._ends: dict[Any, int] = {}  # (where routes end, of keys of junctions with turn restrictions)
        self._digests: frozenset[str] = frozenset()
        self._is_partial = isinstance(keys, Mapping)
        if isinstance(keys, Keys):
            vars(self).update(vars(keys))
        elif not isinstance(keys, Iterable) or isinstance(keys, (set, frozenset)) or getattr(keys, "ndim", 1) != 1:
            raise ValueError(f"keys are one for each node in order, or a mapping, and no {type(keys).__name__}: is it network.keys()?")
        else:
            given = keys_by_node(keys, MAX_NODES if nodes is None else nodes) if isinstance(keys, Mapping) else keys
            self._names = [None if is_hashable(key) and is_missing(key) else key for key in map(to_python_scalar, given)]
            try:
                self._nodes, self._ambiguous = index_keys(self._names)
            except TypeError as error:
                raise ValueError(f"keys have to be hashable: {error}") from None
            if self._ambiguous:
                raise ValueError(f"key {next(iter(self._ambiguous))!r} names two nodes")
        if nodes is not None:
            if len(self._names) > nodes or len(self._names) < nodes and not self._is_partial:
                raise ValueError(f"there are keys of {len(self._names)} nodes, and the hierarchy has {nodes}")
            self._names = self._names + [None] * (nodes - len(self._names))

    @classmethod
    def read(cls, path: StrPath, column: str = "osm") -> "Keys":
        """The keys in a column of a CSV file with a row for each node, in order, as NETWORK.nodes.csv: as int if all are whole
        numbers, else all as str; an empty field is no key. A key of several nodes can't be asked for, but that of a junction with
        turn restrictions, which is the node where routes begin (the column ends is `from`), and where they end (`to`). Raises
        NetworkError."""
        with open_table(path, [column]) as rows:
            listed = [(fields[column], fields.get("ends", "")) for _, fields in rows]
        return cls.of_rows(zip(parse_keys([text for text, _ in listed]), [ends for _, ends in listed]))

    @classmethod
    def of_rows(cls, rows: Iterable[tuple[Hashable, str]]) -> "Keys":
        """The key of each node, or None, and its place at a junction with turn restrictions, as `read` has them."""
        listed = list(rows)
        counts = Counter(row for row in listed if row[1])
        plain = {key for key, end in listed if not end and counts[key, "from"]}
        is_one = {key for key, end in counts if counts[key, "from"] == 1 >= counts[key, "to"]} - plain - {None}
        begins, ends = ({key: node for node, (key, end) in enumerate(listed) if end == side and key in is_one} for side in ("from", "to"))
        return cls._choosing([key for key, _ in listed], begins, ends)

    @classmethod
    def _choosing(cls, names: list[Hashable], chosen: Mapping[Any, int], ends: Mapping[Any, int]) -> "Keys":
        """The key of each node, or None, and the nodes of keys that name several, where routes begin and where they end."""
        keys = cls(())
        keys._names = names
        keys._nodes, keys._ambiguous = index_keys(names)
        keys._nodes |= chosen
        keys._ends = {**ends}
        keys._ambiguous -= chosen.keys()
        return keys

    @classmethod
    def load(cls, hierarchy: StrPath) -> "Keys":
        """The keys that `save` or Graph.prepare has written beside the file of a hierarchy, FILE.keys. Raises FileError where
        there is no such file, or where it is of another hierarchy."""
        keys = load_if_matching(hierarchy, digest_of(hierarchy))
        if keys is None:
            raise FileError(f"has the keys of another file than {os.fspath(hierarchy)}", keys_path(hierarchy))
        return keys

    def save(self, hierarchy: StrPath) -> None:
        """Saves the keys beside the file of their hierarchy, as FILE.keys, with its digest, so that nobody takes them for those of
        another hierarchy. The file is JSON, and whole. Raises ValueError where a key is neither str nor int, and OSError."""
        if not self.can_be_saved():
            raise ValueError("keys that are saved have to be str or int")
        plainly, _ = index_keys(self._names)
        chosen = [[key, node] for key, node in self._nodes.items() if key not in plainly]
        digest = digest_of(hierarchy)
        saved = {"format": FORMAT, "hierarchy": digest, "keys": self._names, "chosen": chosen, "ends": [*self._ends.items()]}
        with atomic_write(keys_path(hierarchy)) as file:
            file.write(as_json({**saved, "sum": hashlib.sha256(as_json(saved).encode()).hexdigest()}))
        self._digests |= {digest}

    def belong_to(self, hierarchy: StrPath) -> None:
        """Notes that these are keys of a hierarchy's file. Raises FileError."""
        self._digests |= {digest_of(hierarchy)}

    def can_be_saved(self) -> bool:
        """Whether all keys are str or int."""
        return all(key is None or type(key) in (str, int) for key in self._names)

    def check_consistent(self, hierarchy: StrPath, data: bytes | bytearray) -> None:
        """Raises ValueError where these are the saved keys of another file than the hierarchy's, whose bytes are given, or where the
        keys saved beside it are its own and have a key at another node."""
        if not self._digests and not os.path.exists(keys_path(hierarchy)):
            return
        digest = hashlib.sha256(data).hexdigest()
        if self._digests and digest not in self._digests:
            again = "if its nodes are numbered as in that file, save them for it: keys.save(path)"
            raise ValueError(f"the keys were saved for another file than {os.fspath(hierarchy)}: {again}")
        try:
            saved = load_if_matching(hierarchy, digest)
        except FileError:
            return
        if saved is not None:
            self.need_same(saved, f"{keys_path(hierarchy)}: take Keys.load, or delete that file")

    def need_same(self, others: "Keys", where: str) -> None:
        """Raises ValueError where a key of these names another node there."""
        for key, node in self._nodes.items():
            if (other := others._nodes.get(key, node)) != node:
                raise ValueError(f"key {key!r} names node {node} here, and node {other} in {where}")

    def __len__(self) -> int:
        """The number of nodes, with and without a key."""
        return len(self._names)

    def __iter__(self) -> Iterator[Hashable]:
        """The key of each node in order, None where it has none."""
        return iter(self._names)

    def __repr__(self) -> str:
        return f"<Keys of {len(self._nodes)} nodes>"

    def __contains__(self, key: Hashable) -> bool:
        return key in self._nodes

    def names_any(self, key: Any) -> bool:
        """Whether a value is the key of a node, or of several."""
        return is_hashable(key) and (key in self._nodes or key in self._ambiguous)

    def node(self, key: Hashable) -> int:
        """The node of a key, from 0, at a junction with turn restrictions that where routes begin. Raises NoSuchNode."""
        if is_hashable(key) and key in self._nodes:
            return self._nodes[key]
        other = next((each for each in (str(key), parse_key(str(key))) if each in self._nodes and each != key), None)
        doubt = "" if other is None else f"; there is {other!r}, {'a number' if type(other) is int else 'a text'}"
        raise NoSuchNode(f"key {key!r} names {'several nodes' if self.names_any(key) else 'no node'}{doubt}", key)

    def end(self, key: Hashable, source: int | None = None) -> int:
        """The node of a key where routes end, those from a node `source` that the key has too there. Raises NoSuchNode."""
        node = self.node(key)
        return node if node == source else self._ends.get(key, node)

    def begins(self) -> dict[int, int]:
        """For each node where routes end alone the one of its key where they begin."""
        return {node: self._nodes[key] for key, node in self._ends.items()}

    def key(self, node: int) -> Hashable:
        """The key of a node, None where it has none."""
        return self._names[node]

    def nodes(self, keys: Iterable[Hashable]) -> "NDArray[np.int64]":
        """The nodes of many keys. Raises NoSuchNode for the first that names none."""
        import numpy as np

        return np.fromiter(map(self.node, as_list(keys)), np.int64)

    def of(self, nodes: "NDArray[np.integer[Any]]") -> "NDArray[Any]":
        """The keys of many nodes, of their shape: an array of int64 where all of them are integers, else of objects."""
        import numpy as np

        found = [self._names[node] for node in nodes.ravel().tolist()]
        are_whole = all(type(key) is int and abs(key) < 1 << 63 for key in found)
        keys: "NDArray[Any]" = np.empty(len(found), "i8" if are_whole else "O")
        keys[:] = found
        return keys.reshape(nodes.shape)


def keys_path(hierarchy: StrPath) -> str:
    return f"{os.fspath(hierarchy)}.keys"


def load_if_matching(hierarchy: StrPath, digest: str) -> Keys | None:
    """The keys saved beside a hierarchy's file if they are of the file with this digest, else None. Raises FileError."""
    path = keys_path(hierarchy)
    try:
        with open(path, encoding="utf-8") as file:
            saved = json.load(file)
        # (earlier files have none)
        if (said := saved.pop("sum", None)) and said != hashlib.sha256(as_json(saved).encode()).hexdigest():
            raise FileError("is damaged: its keys have another digest", path)
        if saved["format"] != FORMAT:
            raise FileError(f"is of another format than {FORMAT!r}", path)
        if saved["hierarchy"] != digest:
            return None
        names, chosen, ends = list(saved["keys"]), dict(saved["chosen"]), dict(saved.get("ends", ()))
        if any(names[node] != key for key, node in (*chosen.items(), *ends.items())):
            raise ValueError("chosen")
        keys = Keys._choosing(names, chosen, ends)
    except OSError as error:
        raise FileError(os_reason(error), path) from error
    except (ValueError, TypeError, LookupError, AttributeError) as error:
        raise FileError("has no keys as Keys.save writes them", path) from error
    keys._digests, keys._is_partial = frozenset({digest}), True
    return keys


def as_json(saved: Mapping[str, Any]) -> str:
    return json.dumps(saved, ensure_ascii=False, separators=(",", ":"))


def keys_by_node(nodes: Mapping[Any, int], count: int) -> list[Hashable]:
    """The key of each node of a mapping from keys to nodes, of which there are `count` at most."""
    for key, node in nodes.items():
        if not isinstance(node, numbers.Real) or not 0 <= node < count or int(node) != node:
            raise ValueError(f"key {key!r} names {node!r}, which is no node")
    names: list[Hashable] = [None] * (max(map(int, nodes.values()), default=-1) + 1)
    for key, node in nodes.items():
        if names[int(node)] is not None:
            raise ValueError(f"keys {names[int(node)]!r} and {key!r} name one node")
        names[int(node)] = key
    return names


def index_keys(names: Sequence[Hashable]) -> tuple[dict[Any, int], set[Hashable]]:
    """The node of each key that names one, and the keys that name several."""
    counts = Counter(key for key in names if key is not None)
    nodes = {key: node for node, key in enumerate(names) if counts[key] == 1}
    return nodes, {key for key, count in counts.items() if count > 1}


def parse_key(text: str) -> Hashable:
    """The key that a field of a table means: an integer as it is written plainly, another text, or none."""
    digits = text.removeprefix("-")
    is_plain = digits.isascii() and digits.isdigit() and (digits[0] != "0" or text == "0")
    return int(text) if is_plain else text or None


def parse_keys(texts: Iterable[str]) -> list[Hashable]:
    """The keys that the fields of a column mean: of one type, integers if all are, else texts; None for an empty field."""
    listed = list(texts)
    keys = [parse_key(text) for text in listed]
    return keys if all(type(key) is not str for key in keys) else [text or None for text in listed]


def to_python_scalar(key: Any) -> Any:
    """A scalar of numpy as the Python object that equals it; anything else as it is."""
    return key.item() if type(key).__module__ == "numpy" else key


def is_hashable(key: Any) -> bool:
    try:
        hash(key)
    except TypeError:
        return False
    return True


def is_missing(key: Any) -> bool:
    """Whether a key is missing: None, NaN, or pandas' NaT or NA. But for None, none of these equals itself."""
    try:
        return key is None or bool(key != key)
    except (TypeError, ValueError):
        return True


def as_list(values: Iterable[Hashable]) -> list[Hashable]:
    """The values as Python objects, of an array or anything else that can be iterated."""
    found: list[Hashable] = values.tolist() if hasattr(values, "tolist") else list(values)
    return found
