"""Arrays in one file that several processes map: its form, and columns that are verified where they are read. Needs numpy.

    head     64 bytes: MAGIC, the form's version, the number of arrays, the file's size, where the tail begins, and a CRC-32 of the
             head (without this field) and the tail
    arrays   in the order of a form that both sides know, little-endian, each at a multiple of 64 bytes
    tail     the rows of each array, as 64 bits, and the CRC-32 of each block of BLOCK bytes of each array, as 32 bits

Opening looks at the head, the tail and the sizes, whatever the arrays hold: it takes some milliseconds for a gigabyte. A block is
verified when it is first read in a process, against its checksum and the least and greatest value that its array may have. So no
byte of a damaged block comes to a caller, and no size in the file takes memory. CRC-32 finds each change of up to 32 bits in a
row for sure, and others but for one in four billion; it isn't made against forgery. A file is replaced by a rename: one that is
written in place is found by its times, where a block is verified and where `check_unchanged` is called. If it is the same file by its
size and its checksum, as behind `touch` or a backup, all blocks are verified anew as they are read.
"""
import math
import mmap
import os
import weakref
import zlib
from collections.abc import Iterable, Mapping
from typing import IO, Any

import numpy as np
from numpy.typing import NDArray

from ..errors import NetworkError, raised_as
from .columns import ColumnSpec
from .parallel import map_slices

MAGIC = b"\x89DMNET\r\n"
BLOCK = 1 << 14
ALIGNED = 64
HEAD = np.dtype([
    ("magic", "S8"), ("version", "<u4"), ("arrays", "<u4"), ("size", "<u8"), ("tail", "<u8"), ("sum", "<u4"),
    ("rest", "V28")
])


# The columns of a form in their order.
Schema = Mapping[str, ColumnSpec]


def write(file: IO[bytes], form: Schema, version: int, arrays: Iterable[tuple[str, NDArray[Any]]]) -> None:
    """Writes arrays, which come in the form's order, to an empty file that can seek. Each may be dropped when the next is made."""
    file.write(bytes(HEAD.itemsize))
    rows, sums, place = [], [], HEAD.itemsize
    for (expected, spec), (name, array) in zip(form.items(), arrays, strict=True):
        if name != expected:
            raise ValueError(f"array {name} comes where {expected} is next")
        values = np.ascontiguousarray(array + spec.base if spec.base else array, dtype=spec.kind)
        if values.shape[1:] != spec.row_shape:
            raise ValueError(f"array {name} has rows of another length")
        rows.append(len(values))
        whole = values.reshape(-1).view(np.uint8)
        sums += checksums(whole)
        place += file.write(whole.data) + file.write(bytes(-len(whole) % ALIGNED))
    tail = np.array(rows, "<u8").tobytes() + np.array(sums, "<u4").tobytes()
    file.write(tail)
    head = np.zeros(1, HEAD)
    head[0] = MAGIC, version, len(rows), place + len(tail), place, 0, b""
    head["sum"] = zlib.crc32(tail, zlib.crc32(head.tobytes()))
    file.seek(0)
    file.write(head.tobytes())
    file.seek(0, os.SEEK_END)


def checksums(whole: NDArray[np.uint8]) -> list[int]:
    """The CRC-32 of each block of bytes."""
    def sums(part: slice) -> list[int]:
        return [zlib.crc32(whole[begin : begin + BLOCK].data) for begin in range(part.start, part.stop, BLOCK)]

    return [each for found in map_slices(sums, len(whole), BLOCK << 8) for each in found]


class MappedFile:
    """A file of arrays that is mapped. `columns` are by the names of its form, and `sum` changes with what is in them. `changes` counts
    how often it was found to have been written to: what was read before may be wrong. Raises NetworkError for one that can't be
    read, has another form, or is damaged in its head or tail."""

    def __init__(self, file: IO[bytes], path: str, forms: Mapping[int, Schema], remedy: str) -> None:
        """`forms` are those of the versions that are read."""
        self.path, self.remedy, self._forms, self.changes = path, remedy, forms, 0
        # a descriptor of its own, by which `check_unchanged` looks at the file that is mapped, whatever has its name
        self._file = os.dup(file.fileno())
        weakref.finalize(self, os.close, self._file)
        with raised_as(NetworkError, path):
            self._state = self._stat()
            if self._state[0] < HEAD.itemsize:
                raise self.damaged_error("it is too short")
            self._bytes = np.frombuffer(mmap.mmap(self._file, 0, prot=mmap.PROT_READ), np.uint8)
        self.columns = self._read_columns()

    def _stat(self) -> tuple[int, int, int]:
        found = os.fstat(self._file)
        return found.st_size, found.st_mtime_ns, found.st_ino

    def verify(self, most: int) -> None:
        """Verifies all blocks now, where the file has no more than so many bytes. Raises NetworkError."""
        if len(self._bytes) <= most:
            for column in self.columns.values():
                column.verify_rows(slice(None))

    def check_unchanged(self) -> int:
        """Raises NetworkError where the file was written to. Where its times alone differ, blocks are verified anew. Returns `changes`."""
        now = self._stat()
        if now == self._state:
            return self.changes
        if now[0] != self._state[0] or self._sum_now() != self.sum:
            problem = "was written to while it was in use; new files have to take their place by a rename"
            raise NetworkError(problem, self.path)
        for column in self.columns.values():
            column.forget()
        self._state, self.changes = now, self.changes + 1
        return self.changes

    def _sum_now(self) -> int:
        """The checksum of the head and the tail, as they are now."""
        head = self._bytes[: HEAD.itemsize].copy().view(HEAD)
        tail, said = int(head[0]["tail"]), int(head[0]["sum"])
        head["sum"] = 0
        return said if zlib.crc32(self._bytes[tail:].data, zlib.crc32(head.tobytes())) == said else -1

    def damaged_error(self, problem: str) -> NetworkError:
        return NetworkError(f"is damaged: {problem}; {self.remedy}", self.path)

    def _read_columns(self) -> "dict[str, Column]":
        """Looks at the head and the tail's checksum, and at the sizes of the arrays."""
        found, size = self._bytes[: HEAD.itemsize].copy().view(HEAD)[0], len(self._bytes)
        if found["magic"] != MAGIC:
            raise NetworkError(f"isn't a network's file; {self.remedy}", self.path)
        if (form := self._forms.get(int(found["version"]))) is None:
            known = f"{min(self._forms)} to {max(self._forms)}"
            raise NetworkError(f"has version {found['version']} and not one from {known}; {self.remedy}", self.path)
        count, tail = len(form), int(found["tail"])
        if found["size"] != size or found["arrays"] != count or not HEAD.itemsize <= tail <= size - 8 * count:
            raise self.damaged_error("its size isn't the one that it was written with")
        self.sum = int(found["sum"])
        if self._sum_now() != self.sum:
            raise self.damaged_error("its head or tail has another checksum")
        place, begin, columns = HEAD.itemsize, tail + 8 * count, dict[str, Column]()
        rows: list[int] = self._bytes[tail:begin].copy().view("<u8").tolist()
        for (name, spec), length in zip(form.items(), rows):
            size = length * spec.width * np.dtype(spec.kind).itemsize
            end = begin + 4 * -(-size // BLOCK)
            if place + size > tail or end > len(self._bytes):
                raise self.damaged_error(f"{name} is longer than the file")
            values = self._bytes[place : place + size].view(spec.kind).reshape(-1, *spec.row_shape)
            columns[name] = Column(self, name, spec, values, self._bytes[begin:end].view("<u4"))
            place, begin = place + size + -size % ALIGNED, end
        if (place, begin) != (tail, len(self._bytes)):
            raise self.damaged_error("its arrays don't fill it")
        return columns


class Column:
    """An array of the file. What an index takes is verified before: rows by a number, a slice or an array of numbers, and with a
    second index their members. Numbers of rows aren't below 0. Memory is taken for what an array of numbers takes alone, and
    for values that the file has with a base, which is subtracted.
    `spec` says which values there may be; it is set before anything is read.
    """

    def __init__(self, file: MappedFile, name: str, spec: ColumnSpec, values: NDArray[Any], sums: NDArray[np.uint32]) -> None:
        self._file, self._name, self.spec, self._values, self._sums = file, name, spec, values, sums
        self._verified = np.zeros(len(sums), dtype=bool)
        self._shift = (BLOCK // (values.itemsize * math.prod(values.shape[1:]))).bit_length() - 1
        self._all_verified = not len(sums)

    def __len__(self) -> int:
        return len(self._values)

    def __array__(self, dtype: Any = None) -> NDArray[Any]:
        return np.asarray(self[:], dtype)

    @property
    def changes(self) -> int:
        return self._file.changes

    @property
    def checksum(self) -> int:
        """A checksum of all values: that of those of the blocks."""
        return zlib.crc32(self._sums.tobytes())

    def forget(self) -> None:
        """Has all blocks verified anew."""
        self._verified[:], self._all_verified = False, not len(self._sums)

    def __getitem__(self, index: Any) -> Any:
        if not self._all_verified:
            self.verify_rows(index[0] if isinstance(index, tuple) else index)
        # (`take` is up to seven times as fast as an array of numbers as index)
        is_rows = isinstance(index, np.ndarray) and index.dtype.kind == "i"
        found = self._values.take(index, axis=0) if is_rows else self._values[index]
        return found - self.spec.base if self.spec.base else found

    def verify_rows(self, rows: Any) -> None:
        """Verifies the blocks of the rows that an index takes, those that aren't yet."""
        if type(rows) is int and 0 <= rows < len(self._values):
            if not self._verified[rows >> self._shift]:
                self._verify(np.array([rows >> self._shift]))
            return
        if isinstance(rows, slice):
            begin, end, step = rows.indices(len(self))
            low, high = (begin, end) if step > 0 else (end + 1, begin + 1)
            if low < high:
                first, last = low >> self._shift, (high - 1 >> self._shift) + 1
                if not self._verified[first:last].all():
                    self._verify(np.arange(first, last))
            return
        numbers = np.asarray(rows)
        if numbers.dtype == bool:
            self.verify_rows(slice(None))
        elif numbers.size:
            blocks = numbers >> self._shift
            if blocks.min() < 0:
                raise IndexError(f"{self._name} has no rows below 0")
            if not self._verified[blocks].all():
                self._verify(np.unique(blocks))

    def _verify(self, blocks: NDArray[np.int64]) -> None:
        """Verifies those of some blocks that aren't yet, which all of them are where the file's times have changed."""
        self._file.check_unchanged()
        for block in blocks[~self._verified[blocks]].tolist():
            begin, end = block << self._shift, (block + 1) << self._shift
            part, with_next = self._values[begin:end], self._values[begin : end + 1]
            if zlib.crc32(part.data) != self._sums[block]:
                raise self._file.damaged_error(f"{self._name} has another checksum")
            if problem := problem_of(self.spec, part - self.spec.base if self.spec.base else part, with_next):
                raise self._file.damaged_error(f"{self._name} {problem}")
            self._verified[block] = True
        self._all_verified = bool(self._verified.all())


def problem_of(spec: ColumnSpec, values: NDArray[Any], with_next: NDArray[Any]) -> str | None:
    """What is wrong with values of a column, and the one behind them; None where nothing is."""
    if spec.low is not None and spec.high is not None and values.size and not (values.min() >= spec.low and values.max() <= spec.high):
        return f"isn't from {spec.low:g} to {spec.high:g}"
    return "has wrong offsets" if spec.min_step is not None and (np.diff(with_next) < spec.min_step).any() else None
