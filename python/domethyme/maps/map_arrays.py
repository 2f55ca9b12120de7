"""Reads a map into arrays, by a program in C++ over libosmium (converter/map_arrays.cpp), which knows no vehicle.

In Debian's package the program is there. Elsewhere it is built at the first use, in half a minute, by g++ and Debian's
libosmium2-dev, with the flags of dpkg-buildflags where that is there; tools/build_converter does that alone. It is kept by the
checksum of its source and options, in converter/built, or if that can't be written in the user's cache.
"""
import contextlib
import errno
import fcntl
import hashlib
import itertools
import os
import pathlib
import shutil
import subprocess
import tempfile
from collections.abc import Callable, Iterator, Sequence
from typing import Any, NamedTuple

import numpy as np
from numpy.typing import NDArray

from ..errors import MapError
from ..network.groups import mask
from ..program import StrPath
from ..progress import OnProgress, step
from .turn_restrictions import Bools, Int32s, Member
from .vehicle_profile import Tags

SOURCE = pathlib.Path(__file__).resolve().parent / "converter" / "map_arrays.cpp"
PACKAGES, PACKAGED = "/usr/lib/python3/dist-packages/", "/usr/libexec/domethyme/map_arrays"
# -ffp-contract=off: a product and a sum are rounded one by one, as in Python
OPTIONS = ["-std=c++17", "-O2", "-ffp-contract=off"]
# What dpkg-buildflags is told: to harden a program that reads files of strangers, without the paths that debuggers want.
HARDENING = {"DEB_BUILD_MAINT_OPTIONS": "hardening=+all", "DEB_CXXFLAGS_MAINT_STRIP": "-g"}
LIBRARIES = ["-lz", "-lbz2", "-lexpat", "-lpthread"]
TO_INSTALL = "as root, apt-get install g++ libosmium2-dev"
TEXTS = ("name", "ref", "destination")
ROLES = ("from", "via", "to")
GZIP = b"\x1f\x8b"
DISK_IS_FULL = os.strerror(errno.ENOSPC)
# The place of a node that the map lacks
UNDEFINED = (1 << 31) - 1


def ensure_built(report: OnProgress) -> str:
    """The path of the program. Where it is missing it is built, and a MapError says why that can't be done."""
    if str(SOURCE).startswith(PACKAGES) and os.path.exists(PACKAGED):
        return PACKAGED
    folder = build_folder()
    made_of = SOURCE.read_bytes() + repr((OPTIONS, HARDENING)).encode()
    path = folder / f"map_arrays-{hashlib.sha256(made_of).hexdigest()[:16]}"
    if not path.exists():
        with open(folder / "lock", "w", encoding="utf-8") as lock:
            fcntl.flock(lock, fcntl.LOCK_EX)
            if not path.exists():
                with step(report, "building the converter, once"):
                    build(path)
    return str(path)


def build_folder() -> pathlib.Path:
    """The folder of what is built: beside the source, or in the user's cache."""
    cache = pathlib.Path(os.environ.get("XDG_CACHE_HOME") or pathlib.Path.home() / ".cache") / "domethyme"
    for folder in (SOURCE.parent / "built", cache):
        with contextlib.suppress(OSError):
            folder.mkdir(parents=True, exist_ok=True)
            if os.access(folder, os.W_OK):
                return folder
    raise MapError("can't be written, and the converter has to be built there", cache)


def build(path: pathlib.Path) -> None:
    compiler = shutil.which("g++")
    if compiler is None:
        raise MapError(f"the converter has to be built, and g++ is missing: {TO_INSTALL}")
    with tempfile.TemporaryDirectory(dir=path.parent) as folder:
        command = [compiler, *hardening_flags(), *OPTIONS, "-o", f"{folder}/built", str(SOURCE), *LIBRARIES]
        ended = subprocess.run(command, stdin=subprocess.DEVNULL, capture_output=True)
        if ended.returncode != 0:
            lines = ended.stderr.decode("utf-8", "replace").splitlines()
            wrong = next((line for line in lines if "error" in line), "g++ failed")
            raise MapError(f"the converter can't be built: {wrong}: {TO_INSTALL}")
        os.replace(f"{folder}/built", path)


def hardening_flags() -> list[str]:
    """The flags by which Debian compiles its packages; none where dpkg-dev isn't there."""
    flags = shutil.which("dpkg-buildflags")
    if flags is None:
        return []
    options: dict[str, Any] = {"stdin": subprocess.DEVNULL, "capture_output": True, "text": True, "env": {**os.environ, **HARDENING}}
    said = (subprocess.run([flags, "--get", name], **options) for name in ("CPPFLAGS", "CXXFLAGS", "LDFLAGS"))
    return [word for each in said for word in each.stdout.split()]


class Folder:
    """A folder of arrays, and the program's commands over it. `array` maps one, and `tags` reads combinations of tags. `report`
    receives how far a command is, and `step` reports a block."""

    def __init__(self, path: str, report: OnProgress) -> None:
        self.path, self.report, self.program = path, report, ensure_built(report)

    def step(self, what: str) -> contextlib.AbstractContextManager[None]:
        return step(self.report, what)

    def array(self, name: str, kind: str, width: int = 1) -> NDArray[Any]:
        """An array of a kind, of shape (n,), or (n, width) for a greater width."""
        path = os.path.join(self.path, name)
        found: NDArray[Any] = np.memmap(path, kind, "r") if os.path.getsize(path) else np.empty(0, kind)
        return found if width == 1 else found.reshape(-1, width)

    def write(self, name: str, values: NDArray[Any]) -> None:
        with open(os.path.join(self.path, name), "wb") as file:
            file.write(np.ascontiguousarray(values).data)

    def texts(self, name: str, of: StrPath) -> list[str]:
        """The texts of a file, each with a zero behind it. Raises a MapError of the map `of` where they aren't UTF-8."""
        try:
            return pathlib.Path(self.path, name).read_bytes().decode().split("\0")[:-1]
        except UnicodeDecodeError as error:
            raise MapError(str(error), of) from error

    def tags(self, name: str, of: StrPath) -> list[Tags]:
        """The combinations of tags of a file: of each its keys and values, and then an empty text."""
        found: list[Tags] = []
        texts = iter(self.texts(name, of))
        for key in texts:
            tags = {}
            while key:
                tags[key] = next(texts)
                key = next(texts)
            found.append(tags)
        return found

    def read_map(self, command: str, path: StrPath, words: Sequence[str]) -> None:
        """Runs a command over a map, and reports its bytes. What libosmium finds wrong is a MapError of the map."""
        size = os.path.getsize(path)
        with self.running([command, self.path, os.fspath(path), *words], path, subprocess.PIPE) as process:
            for line in process.stdout or ():
                self.report(command, int(line), size)

    def run(self, *words: Any) -> None:
        """Runs a command."""
        with self.running([words[0], self.path, *map(str, words[1:])], self.path, subprocess.DEVNULL):
            pass

    @contextlib.contextmanager
    def running(self, words: list[str], path: StrPath, out: int) -> "Iterator[subprocess.Popen[bytes]]":
        """A command that runs in the block, and has to end well after it; an exception in the block kills it."""
        command = [self.program, *words]
        with subprocess.Popen(command, stdin=subprocess.DEVNULL, stdout=out, stderr=subprocess.PIPE) as process:
            try:
                yield process
                stderr = process.stderr.read().decode("utf-8", "replace").strip() if process.stderr else ""
                status = process.wait()
            except BaseException:
                process.kill()
                raise
        if status == 1:
            raise MapError(f"{stderr}{gzip_hint(path)}", path)
        if status == 3:
            raise MemoryError
        if stderr.endswith(DISK_IS_FULL):
            raise OSError(errno.ENOSPC, DISK_IS_FULL)
        if status != 0:
            raise MapError(stderr or f"the converter's {words[0]} ended with status {status}")


def gzip_hint(path: StrPath) -> str:
    with contextlib.suppress(IsADirectoryError), open(path, "rb") as file:
        is_packed = file.read(2) == GZIP and not os.fspath(path).endswith(".gz")  # (of which libosmium knows)
        return ": it is compressed by gzip, so gunzip it first" if is_packed else ""
    return ""


@contextlib.contextmanager
def folder_beside(path: str, report: OnProgress) -> Iterator[Folder]:
    """A Folder of arrays beside the files that begin with this path, which is removed after the block."""
    head, name = os.path.split(path)
    with tempfile.TemporaryDirectory(prefix=f"{name}.", suffix=".arrays", dir=head or ".") as folder:
        yield Folder(folder, report)


class WayArrays(NamedTuple):
    """The ways with the first key, in the map's order: their ids, labels, and counts of `nodes`. A label is a row of
    `labels`: the number of its tags, and of each of TEXTS the number of its text, from 1, or 0. And the tags and members of
    the relations of turn restrictions."""

    osm: NDArray[np.int64]
    label: NDArray[np.uint32]
    nodes: NDArray[np.uint32]
    labels: NDArray[np.uint32]
    tags: list[Tags]
    texts: list[str]
    relations: list[tuple[Tags, list[Member]]]


def read_ways(folder: Folder, path: StrPath, keys: Sequence[str], conditional: Sequence[str], others: Sequence[str] = ()) -> WayArrays:
    """The ways of a map that have the first of the keys, or one of the tags `others`, each KEY=VALUE. Tags are those with one of the
    keys, or whose key begins with one of `conditional` and ends with `:conditional`."""
    kinds = (("k", keys), ("p", conditional), ("w", others), ("t", TEXTS))
    words = [f"{letter}:{key}" for letter, some in kinds for key in some]
    folder.read_map("ways", path, ["s::conditional", *words])
    of_relations, rows = folder.tags("relation_tags", path), folder.array("member", "i8", 3).tolist()
    members = (Member(chr(kind), osm, ROLES[role]) for kind, role, osm in rows)
    counts = zip(folder.array("relation_of", "u4").tolist(), folder.array("relation_count", "u4").tolist())
    return WayArrays(
        folder.array("way_osm", "i8"), folder.array("way_label", "u4"), folder.array("way_count", "u4"),
        folder.array("labels", "u4", 1 + len(TEXTS)), folder.tags("way_tags", path), ["", *folder.texts("texts", path)],
        [(of_relations[number], list(itertools.islice(members, count))) for number, count in counts],
    )


class NodeArrays(NamedTuple):
    """The nodes of the roads by their ids, in order: their ids, whether the map has them, whether a road passes once more,
    and whether they are barriers."""

    osm: NDArray[np.int64]
    place: Int32s
    is_there: Bools
    is_junction: Bools
    is_barrier: Bools


def read_places(
    folder: Folder, path: StrPath, taken: Bools, keys: Sequence[str], blocks: Callable[[Tags], bool]
) -> NodeArrays:
    """The nodes of the ways that are taken. Barriers are those that have the first of the keys, and block by their tags."""
    folder.write("way_taken", taken.astype(np.uint8))
    folder.read_map("places", path, [f"k:{key}" for key in keys])
    os.unlink(os.path.join(folder.path, "way_node"))
    osm, place = folder.array("node_osm", "i8"), folder.array("node_place", "i4", 2)
    node, tags = folder.array("barrier", "u4", 2).T
    is_blocking = np.array(list(map(blocks, folder.tags("barrier_tags", path))), np.bool_)
    is_barrier = mask(len(osm), node[is_blocking[tags]])
    return NodeArrays(osm, place, place[:, 0] != UNDEFINED, folder.array("node_uses", "u1") > 1, is_barrier)


class Runs(NamedTuple):
    """Runs of nodes of a road, from stop to stop, in order: their roads, the nodes at their ends, into how many parts they
    are cut, and the metres of a part. Points of the map and of cuts, in units of a degree; the parts of all runs are in
    order the points from `begin` up to `end`, the last of one being the first of the next. `nodes` has the nodes of the map before
    and behind each point, of shape (points, 2): both are its own, unless a step is cut there. `osm` has the ids of these."""

    road: NDArray[np.uint32]
    ends: NDArray[np.uint32]
    parts: NDArray[np.uint32]
    metres: NDArray[np.float64]
    points: Int32s
    nodes: NDArray[np.uint32]
    begin: NDArray[np.int64]
    end: NDArray[np.int64]
    osm: NDArray[np.int64]


def cut_runs(folder: Folder, counts: NDArray[np.uint32], places: NodeArrays, longest: float) -> Runs:
    """The runs of roads, which have these counts of nodes, cut to parts of at most `longest` metres, as few as can be. A
    run that comes back to its node, if that is no barrier, is cut at least once."""
    folder.write("road_count", counts)
    folder.write("node_stop", places.is_junction + places.is_barrier.astype(np.uint8) * np.uint8(2))
    folder.run("pieces", repr(float(longest)))
    return Runs(
        folder.array("run_road", "u4"), folder.array("run_ends", "u4", 2), folder.array("run_parts", "u4"),
        folder.array("run_metres", "f8"), folder.array("points", "i4", 2), folder.array("point_nodes", "u4", 2),
        folder.array("piece_begin", "i8"), folder.array("piece_end", "i8"), places.osm,
    )
