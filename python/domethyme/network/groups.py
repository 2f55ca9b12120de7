"""Arrays whose rows are in groups, one group after the other, and equal rows. Needs numpy."""
from typing import Any

import numpy as np
from numpy.typing import NDArray

Ints = NDArray[np.int64]


def offsets(counts: NDArray[Any]) -> Ints:
    """Where each group begins, by how many rows each has, and last where they end: [2, 0, 3] -> [0, 2, 2, 5]."""
    found = np.zeros(len(counts) + 1, np.int64)
    np.add.accumulate(counts, out=found[1:])
    return found


def expand(counts: NDArray[Any]) -> tuple[Ints, Ints]:
    """The group of each row, and its position in that, by the counts: [2, 0, 3] -> [0, 0, 2, 2, 2] and [0, 1, 0, 1, 2]."""
    group = np.arange(len(counts)).repeat(counts)
    return group, np.arange(len(group)) - (counts.cumsum(dtype=np.int64) - counts).repeat(counts)


def rows_of_groups(begins: Any, groups: Ints, is_back: Any = False) -> tuple[Ints, Ints]:
    """Where each of chosen groups begins, one after the other, and their rows: those of a group from the last to the first where it is
    turned back."""
    first, behind = begins[groups], begins[groups + 1]
    counts = behind - first
    bounds, step = offsets(counts), np.broadcast_to(1 - 2 * np.asarray(is_back, np.int64), counts.shape)
    start = np.where(is_back, behind - 1, first)
    return bounds, (start - step * bounds[:-1]).repeat(counts) + step.repeat(counts) * np.arange(bounds[-1])


def mask(count: int, *rows: Any) -> NDArray[np.bool_]:
    """Which of so many rows are among these."""
    found = np.zeros(count, np.bool_)
    for some in rows:
        found[some] = True
    return found


def first_of_equal(*columns: NDArray[Any]) -> Ints:
    """For each row of columns of one length the first row that has the same value in each."""
    order = np.lexsort(columns)  # (stable: equal rows stay in order)
    is_first = np.ones(len(order), np.bool_)
    is_first[1:] = np.any([column[order[1:]] != column[order[:-1]] for column in columns], axis=0)
    found = np.empty(len(order), np.int64)
    found[order] = order[is_first][np.cumsum(is_first) - 1]
    return found
