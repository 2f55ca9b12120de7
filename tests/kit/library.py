"""The library's calls by ctypes, for the tests that compare them: written from its header alone."""
import ctypes
import typing
from collections.abc import Sequence

from .counted import need
from .program import built_library

# The faults of a file, by the numbers that the library has for them, the first of which is FIRST_FAULT (packaging/library).
FAULTS = [
    "Read", "BadMagic", "Truncated", "TooBig", "BoundTooBig", "RankRange", "RankTwice", "LinkEnds", "LinkOrder", "LinkWeight",
    "MiddleRange", "MiddleRank", "HalfMissing", "HalfSum", "Trailing",
]
FIRST_FAULT, OK, NO_PATH, NODE_RANGE, NO_ROOM, TOO_LONG, NUMBER_COUNT, NUMBER_GREAT, BAD_SET = 34, 0, 1, 3, 4, 6, 9, 10, 11
TURNED = "domethyme_open_turned"
NO_LENGTH = (1 << 64) - 1
NO_LIMIT = NO_LENGTH
# How long a start may be, and how many arcs it may have.
LONGEST, MOST_ARCS = 1 << 57, 1 << 25

# A start or an end: a node, its length and its arcs.
Seed = tuple[int, int, int]
Cost = tuple[int, int]


class SeedOfC(ctypes.Structure):
    _fields_ = [("length", ctypes.c_uint64), ("node", ctypes.c_uint32), ("arcs", ctypes.c_uint32)]


class BetweenOfC(ctypes.Structure):
    _fields_ = [("length", ctypes.c_uint64), ("start", ctypes.c_size_t), ("end", ctypes.c_size_t), ("nodes", ctypes.c_size_t)]


class SumOfC(ctypes.Structure):
    _fields_ = [("length", ctypes.c_uint64), ("sum", ctypes.c_uint64)]


class Between(typing.NamedTuple):
    """The length of a path with its start and its end, their places, and its nodes."""

    length: int
    start: int
    end: int
    nodes: list[int]


def seeds_of(seeds: Sequence[Seed]) -> ctypes.Array[SeedOfC]:
    return (SeedOfC * len(seeds))(*(SeedOfC(length, node, arcs) for node, length, arcs in seeds))


def lists_of(*lists: Sequence[int]) -> list[object]:
    """Lists of numbers as words of a call: each as an array, and its length."""
    return [word for each in lists for word in ((ctypes.c_uint32 * len(each))(*each), ctypes.c_size_t(len(each)))]


class Handle:
    """A handle of the library, closed at first."""

    def __init__(self, calls: ctypes.CDLL) -> None:
        self.calls, self.handle = calls, ctypes.c_void_p(None)

    def ask(self, name: str, *words: object, answers: tuple[int, ...] = (OK,)) -> int:
        code = int(getattr(self.calls, name)(ctypes.byref(self.handle), *words))
        need(code in answers, f"{name} returned {code}")
        return code

    def fault(self, data: bytes, call: str = "domethyme_open") -> str | None:
        """Opens a file's bytes: their fault, if they have one."""
        code = int(getattr(self.calls, call)(ctypes.byref(self.handle), ctypes.c_char_p(data), ctypes.c_size_t(len(data))))
        return FAULTS[code - FIRST_FAULT] if code else None

    def beside(self) -> "Handle":
        other = Handle(self.calls)
        self.ask("domethyme_beside", ctypes.byref(other.handle))
        return other

    def close(self) -> None:
        self.calls.domethyme_close(ctypes.byref(self.handle))

    def length(self, start: int, to: int) -> int | None:
        found = ctypes.c_uint64()
        code = self.ask("domethyme_length", start, to, ctypes.byref(found), answers=(OK, NO_PATH))
        return None if code else found.value

    def between(self, starts: Sequence[Seed], ends: Sequence[Seed], room: int = 64) -> Between | None | str:
        found, nodes = BetweenOfC(), (ctypes.c_uint32 * room)()
        sides = [word for seeds in (starts, ends) for word in (seeds_of(seeds), ctypes.c_size_t(len(seeds)))]
        code = self.ask("domethyme_between", *sides, ctypes.byref(found), nodes, ctypes.c_size_t(room), answers=(OK, NO_PATH, TOO_LONG))
        if code == OK:
            return Between(found.length, found.start, found.end, nodes[: found.nodes])
        return "too long" if code == TOO_LONG else None

    def table(self, sources: Sequence[int], targets: Sequence[int]) -> list[list[int]]:
        """The rows of a table, with one number more in its room, which isn't written."""
        count, width = len(sources) * len(targets), len(targets)
        lengths = (ctypes.c_uint64 * (count + 1))(*[7] * (count + 1))
        self.ask("domethyme_table", *lists_of(sources, targets), lengths, ctypes.c_size_t(count + 1))
        need(lengths[count] == 7, "a table wrote behind its end")
        return [lengths[row * width : (row + 1) * width] for row in range(len(sources))]

    def arcs(self) -> list[tuple[int, int]]:
        """The ends of each link without a middle."""
        count = ctypes.c_size_t()
        self.ask("domethyme_arcs", None, ctypes.c_size_t(0), ctypes.byref(count), answers=(OK, NO_ROOM))
        ends = (ctypes.c_uint32 * (2 * count.value))()
        self.ask("domethyme_arcs", ends, count, ctypes.byref(count))
        return list(zip(ends[::2], ends[1::2]))

    def numbers(self, numbers: Sequence[int], code: int = OK) -> ctypes.Array[ctypes.c_uint64]:
        """A set of numbers; spare ones in its room aren't written."""
        links = ctypes.c_size_t()
        self.ask("domethyme_links", ctypes.byref(links))
        found = (ctypes.c_uint64 * (links.value + 2))(*[7] * (links.value + 2))
        self.ask("domethyme_numbers", *lists_of(numbers), found, ctypes.c_size_t(links.value + 2), answers=(code,))
        need(found[links.value + 1] == 7, "a set was written behind its end")
        return (ctypes.c_uint64 * (links.value + 1))(*found[: links.value + 1])

    def sums(
        self, made: ctypes.Array[ctypes.c_uint64], sources: Sequence[int], targets: Sequence[int], spare: int = 1, code: int = OK
    ) -> list[tuple[int, int]]:
        """The cells of a table with the sums of a set, or none where it returns another code; spare ones in its room aren't written."""
        count = len(sources) * len(targets)
        cells = (SumOfC * (count + spare))(*[SumOfC(7, 7)] * (count + spare))
        words = made, ctypes.c_size_t(len(made)), *lists_of(sources, targets), cells, ctypes.c_size_t(count + spare)
        self.ask("domethyme_table_sums", *words, answers=(code,))
        return cells_of(cells, count if code == OK else 0)

    def reach_sums(
        self, made: ctypes.Array[ctypes.c_uint64], starts: Sequence[Seed], added: Sequence[int], limit: int, nodes: int, code: int = OK
    ) -> list[tuple[int, int]]:
        """The cell of each node, or none where it returns another code."""
        cells = (SumOfC * (nodes + 1))(*[SumOfC(7, 7)] * (nodes + 1))
        given = seeds_of(starts), ctypes.c_size_t(len(starts)), *lists_of(added)
        words = made, ctypes.c_size_t(len(made)), *given, ctypes.c_uint64(limit), cells, ctypes.c_size_t(nodes + 1)
        self.ask("domethyme_reach_sums", *words, answers=(code,))
        return cells_of(cells, nodes if code == OK else 0)

    def reach(self, starts: Sequence[Seed], limit: int, nodes: int) -> list[int]:
        lengths = (ctypes.c_uint64 * nodes)()
        words = seeds_of(starts), ctypes.c_size_t(len(starts)), ctypes.c_uint64(limit), lengths, ctypes.c_size_t(nodes)
        self.ask("domethyme_reach", *words)
        return list(lengths)


def cells_of(cells: ctypes.Array[SumOfC], written: int) -> list[tuple[int, int]]:
    """The first cells, as many as were written."""
    need(all((cell.length, cell.sum) == (7, 7) for cell in cells[written:]), "a call with sums wrote what it doesn't answer")
    return [(cell.length, cell.sum) for cell in cells[:written]]


def handle() -> Handle:
    return Handle(ctypes.CDLL(str(built_library())))
