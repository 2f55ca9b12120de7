"""A hierarchy in the memory of this process, asked through the library libdomethyme.

Several threads may ask at once, each by a searcher: a handle of the library with room for its answers. A question borrows a searcher.
Where all are taken another one of the same hierarchy is made, beside the first, which is never lent. So a searcher that an interrupt
loses on its way is no loss: its memory is freed with it. Other threads of Python go on while the library works. After a fork the
child has its parent's hierarchy, in the same pages of memory. Nodes are numbered from 0. Needs Python alone.
"""
import contextlib
import ctypes
import os
import threading
import time
import weakref
from collections.abc import Iterator, Sequence
from ctypes import addressof, byref
from typing import TYPE_CHECKING, Any

from .errors import HierarchyError, LibraryError, OutOfMemory
from .library import (
    CODE_NO_PATH, FIRST_FAULT, NO_LENGTH, NO_ROOM, OK, OUT_OF_MEMORY, TOO_LONG, BetweenInfo, Handle, RouteInfo, Seed,
    error_message, load_library
)
from .protocol import RouterResult

if TYPE_CHECKING:
    import numpy as np
    from numpy.typing import NDArray

# How many nodes of a route a searcher has room for at first.
INITIAL_NODES = 1 << 10
# Where there is no memory for a searcher, how long one that is lent is waited for, and how often that is looked at, in seconds.
PATIENCE, PAUSE = 60.0, 0.01


class Searcher:
    """A handle of the library, and what its calls write to. One thread has it at a time."""

    def __init__(self, name: str) -> None:
        """It is closed; `name` is the hierarchy's in messages."""
        self.name, self._library, self._handle = name, load_library(), Handle()
        self._at, self._length = byref(self._handle), ctypes.c_uint64()
        self._length_at, self._ask_length = byref(self._length), self._library.domethyme_length
        self.route_info, self.between_info = RouteInfo(), BetweenInfo()
        self._resize_buffer(INITIAL_NODES)

    def open(self, data: bytes | bytearray, is_turned: bool = False) -> int:
        """Opens the bytes of a file, each link turned round or as it is, and returns its nodes. Raises HierarchyError, with its first
        fault, and OutOfMemory."""
        number = ctypes.c_uint32()
        whole = data if isinstance(data, bytes) else (ctypes.c_char * len(data)).from_buffer(data)
        call = self._library.domethyme_open_turned if is_turned else self._library.domethyme_open
        self._check(call(self._at, whole, len(data)))
        self._check(self._library.domethyme_nodes(self._at, byref(number)))
        return number.value

    def clone(self) -> "Searcher | None":
        """Another searcher of the same hierarchy, None where there is no memory for one."""
        other = Searcher(self.name)
        return None if self._library.domethyme_beside(self._at, other._at) else other

    def close(self) -> None:
        self._library.domethyme_close(self._at)

    def __del__(self) -> None:
        if hasattr(self, "_at"):
            self.close()

    def length(self, source: int, target: int) -> int | None:
        """The least length from one node to another, None where there is no path."""
        code = self._ask_length(self._at, source, target, self._length_at)
        return self._length.value if code == OK or self._is_path(code) else None

    def route(self, source: int, target: int) -> bool:
        """Whether there is a path. A shortest one, of the fewest arcs, is in `route_info` and at the beginning of `nodes`."""
        return self._with_room(self._library.domethyme_route, self.route_info, source, target)

    def between(self, starts: "ctypes.Array[Seed]", ends: "ctypes.Array[Seed]") -> bool:
        """The same from one of several starts to one of several ends, of the least whole length; in `between_info`."""
        sides = addressof(starts), len(starts), addressof(ends), len(ends)
        return self._with_room(self._library.domethyme_between, self.between_info, *sides)

    def lengths(self, pairs: "NDArray[np.uint32]", lengths: "NDArray[np.int64]") -> None:
        """Writes the least length of each pair, or -1."""
        arrays = pairs.ctypes.data, len(pairs), lengths.ctypes.data, len(lengths)
        self._check(self._library.domethyme_lengths(self._at, *arrays))

    def table(self, sources: "NDArray[np.uint32]", targets: "NDArray[np.uint32]", lengths: "NDArray[np.int64]") -> None:
        """The same of each source and target, row by row."""
        arrays = sources.ctypes.data, len(sources), targets.ctypes.data, len(targets), lengths.ctypes.data, lengths.size
        self._check(self._library.domethyme_table(self._at, *arrays))

    def links(self) -> int:
        """The number of links."""
        count = ctypes.c_size_t()
        self._check(self._library.domethyme_links(self._at, byref(count)))
        return count.value

    def arcs(self, ends: "NDArray[np.uint32]") -> int:
        """Writes the ends of each link without a middle, in the order in which numbers are given, and returns how many they are."""
        count = ctypes.c_size_t()
        self._check(self._library.domethyme_arcs(self._at, ends.ctypes.data, ends.size // 2, byref(count)))
        return count.value

    def numbers(self, numbers: "NDArray[np.uint32]", number_set: "NDArray[np.uint64]") -> None:
        """Writes the set of numbers of links without a middle: one for each link, and a word before them."""
        arrays = numbers.ctypes.data, len(numbers), number_set.ctypes.data, len(number_set)
        self._check(self._library.domethyme_numbers(self._at, *arrays))

    def table_sums(
        self, number_set: "NDArray[np.uint64]", sources: "NDArray[np.uint32]", targets: "NDArray[np.uint32]",
        cells: "NDArray[np.int64]"
    ) -> None:
        """The same with what the numbers of a set sum to, to cells of two."""
        arrays = number_set.ctypes.data, len(number_set), sources.ctypes.data, len(sources), targets.ctypes.data, len(targets)
        self._check(self._library.domethyme_table_sums(self._at, *arrays, cells.ctypes.data, cells.size // 2))

    def reach(self, starts: "ctypes.Array[Seed]", limit: int | None, lengths: "NDArray[np.int64]") -> None:
        """The same of each node from the nearest start, with what is added there, up to a limit. Raises LibraryNotFound."""
        arrays = addressof(starts), len(starts), NO_LENGTH if limit is None else limit, lengths.ctypes.data, len(lengths)
        self._check(self._library.domethyme_reach(self._at, *arrays))

    def reach_sums(
        self, number_set: "NDArray[np.uint64]", starts: "ctypes.Array[Seed]", added: "NDArray[np.uint32]", limit: int | None,
        cells: "NDArray[np.int64]"
    ) -> None:
        """The same with what the numbers of a set sum to, from a start whose own number is added, to cells of two."""
        arrays = [number_set.ctypes.data, len(number_set), addressof(starts), len(starts), added.ctypes.data, len(added)]
        most = NO_LENGTH if limit is None else limit
        self._check(self._library.domethyme_reach_sums(self._at, *arrays, most, cells.ctypes.data, cells.size // 2))

    def _with_room(self, call: Any, info: RouteInfo | BetweenInfo, *question: int) -> bool:
        """Whether a call finds a path, of which it writes to the info and to `nodes`, with as much room as it needs."""
        while (code := call(self._at, *question, byref(info), self._nodes_at, self._capacity)) == NO_ROOM:
            self._resize_buffer(2 * info.nodes)
        return self._is_path(code)

    def _resize_buffer(self, room: int) -> None:
        self.nodes, self._capacity = (ctypes.c_uint32 * room)(), room
        self._nodes_at = addressof(self.nodes)

    def _is_path(self, code: int) -> bool:
        """Whether a code says that there is a path. Raises the error of one that says neither."""
        if code != CODE_NO_PATH:
            self._check(code)
        return code == OK

    def _check(self, code: int) -> None:
        if code == OK:
            return
        message = f"{self.name}: {error_message(code)}"
        if code == OUT_OF_MEMORY:
            raise OutOfMemory(message, 6)
        if code == TOO_LONG or code >= FIRST_FAULT:
            raise HierarchyError(message, 4)
        raise LibraryError(message)


class Router:
    """A hierarchy of so many `nodes`, and its searchers."""

    def __init__(self, data: bytes | bytearray, name: str, is_turned: bool = False) -> None:
        """Opens the bytes of a file that messages call `name`. With each link turned round it answers as of the graph whose arcs are
        turned: what is reached from a node is what leads there. Raises HierarchyError, OutOfMemory and LibraryNotFound."""
        self.name, self._first = name, Searcher(name)
        self.nodes = self._first.open(data, is_turned)
        self._idle: list[Searcher] = []
        self._made: "weakref.WeakSet[Searcher]" = weakref.WeakSet()
        self._making, self._is_closed = threading.Lock(), False
        _routers.add(self)

    def need_open(self) -> None:
        """Raises ValueError if this is closed."""
        if self._is_closed:
            raise ValueError(f"the hierarchy {self.name} is closed")

    def close(self) -> None:
        """Frees the memory, that of a searcher which is lent once it comes back. Questions then raise ValueError."""
        self._is_closed = True
        with self._making:
            self._first.close()
        self._idle.clear()

    @contextlib.contextmanager
    def searcher(self) -> Iterator[Searcher]:
        """A searcher that nobody else has, for a with-block."""
        searcher = self._acquire()
        try:
            yield searcher
        finally:
            self._release(searcher)

    def length(self, source: int, target: int) -> int | None:
        """The least length from one node to another, None where there is no path."""
        searcher = self._acquire()
        try:
            return searcher.length(source, target)
        finally:
            self._release(searcher)

    def route(self, source: int, target: int) -> RouterResult | None:
        """A shortest path, and of all of them one with the fewest arcs; None where there is none."""
        with self.searcher() as searcher:
            if not searcher.route(source, target):
                return None
            return RouterResult(source, target, searcher.route_info.length, searcher.nodes[: searcher.route_info.nodes])

    def between(self, starts: Sequence[tuple[int, int]], ends: Sequence[tuple[int, int]]) -> RouterResult | None:
        """The same from one of several nodes to one of several, of the least whole length, with what is added at each."""
        start_seeds, end_seeds = seed_array(starts), seed_array(ends)
        with self.searcher() as searcher:
            if not searcher.between(start_seeds, end_seeds):
                return None
            info = searcher.between_info
            (source, before), (target, behind) = starts[info.start], ends[info.end]
            return RouterResult(source, target, info.length, searcher.nodes[: info.nodes], before + behind)

    def clone(self) -> Searcher:
        """Another searcher, which is the caller's. Raises OutOfMemory, and ValueError if this is closed."""
        with self._making:
            self.need_open()
            made = self._first.clone()
        if made is None:
            raise OutOfMemory(f"{self.name}: {error_message(OUT_OF_MEMORY)}", 6)
        return made

    def _acquire(self) -> Searcher:
        """A searcher: one that is idle, or another one; without memory for one it waits for one that is lent. Raises OutOfMemory."""
        end = 0.0
        while True:
            try:
                if not self._is_closed:
                    return self._idle.pop()
            except IndexError:
                pass
            with self._making:
                self.need_open()
                made = self._first.clone()
            if made is not None:
                self._made.add(made)
                return made
            end = end or time.monotonic() + PATIENCE
            if not self._made or time.monotonic() > end:
                raise OutOfMemory(f"{self.name}: {error_message(OUT_OF_MEMORY)}", 6)
            time.sleep(PAUSE)

    def _release(self, searcher: Searcher) -> None:
        self._idle.append(searcher)
        if self._is_closed:
            self._idle.clear()


def seed_array(rows: Sequence[tuple[int, int]]) -> "ctypes.Array[Seed]":
    """Starts or ends: a node and a length that is added there in each row."""
    return (Seed * len(rows))(*[Seed(added, node, 0) for node, added in rows])


_routers: "weakref.WeakSet[Router]" = weakref.WeakSet()


def _after_fork_in_child() -> None:
    """Closes hierarchies of which another thread was making a searcher, which is as it left it."""
    for each in list(_routers):
        each._is_closed, each._making = each._is_closed or each._making.locked(), threading.Lock()


os.register_at_fork(after_in_child=_after_fork_in_child)
