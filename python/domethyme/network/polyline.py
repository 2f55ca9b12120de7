"""Encodes and decodes polylines (Google's encoded polyline algorithm format)."""
import itertools

import numpy as np
from numpy.typing import ArrayLike, NDArray

from .geo import Point
from .grid import concat_ranges
from .groups import Ints
from .parallel import differs_from_previous

# Numbers are written by two groups of five bits at a time, in words of two bytes. Bytes that are 0 are left out at last.
PAIR_BITS = 10
NOTHING, END_OF_LINE = b"\0", "\n"


def pairs_of(are_last: bool) -> NDArray[np.uint16]:
    """The word of each number of PAIR_BITS bits: of the last ones of a number, or of others. Of the last ones the second may be left out."""
    low, high = np.arange(1 << PAIR_BITS) & 31, np.arange(1 << PAIR_BITS) >> 5
    second = np.where(high > 0, high + 63, 0) if are_last else high + 63 + 32
    first = low + 63 + 32 * (not are_last or high > 0)
    return np.asarray(first | second << 8, np.uint16)


# Those before others, and then the last ones. A number of six digits or fewer has up to three pairs.
PAIRS = np.concatenate((pairs_of(False), pairs_of(True)))
MAX_PAIRS, MAX_DIGITS = 3, 6


def encode_polylines(points: ArrayLike, digits: int, firsts: Ints, behind: Ints) -> list[str]:
    """The polylines of the lines points[firsts[k]:behind[k]], with up to MAX_DIGITS decimal digits, of points (lon, lat) in degrees. Many
    short lines take little longer than one of all points."""
    whole = np.rint(np.asarray(points, np.float64) * 10**digits).astype(np.int32)
    line, rows = concat_ranges(firsts, behind - firsts)
    begins = differs_from_previous(line).nonzero()[0]
    steps = whole.take(rows, axis=0)
    places = steps[begins]
    steps[1:] -= whole.take(rows[:-1], axis=0)
    steps[begins] = places
    # a latitude and a longitude, each with room for the end of a line behind it
    words = np.zeros((2 * len(rows), MAX_PAIRS + 1), np.uint16)
    words[2 * begins[1:] - 1, -1] = ord(END_OF_LINE)
    numbers = (steps[:, ::-1] << 1).ravel()
    write_pairs(np.bitwise_xor(numbers, numbers >> 31, out=numbers), words[:, :MAX_PAIRS])
    return words.tobytes().translate(None, NOTHING).decode("ascii").split(END_OF_LINE)


def write_pairs(numbers: NDArray[np.int32], words: NDArray[np.uint16]) -> None:
    """Writes the words of numbers from 0, the lowest pairs first."""
    left: Ints | slice = slice(None)
    for column in words.T:
        higher = numbers >> PAIR_BITS
        is_last = higher == 0
        column[left] = PAIRS.take(numbers - (higher << PAIR_BITS) + (is_last << np.int32(PAIR_BITS)))
        more = np.flatnonzero(~is_last)
        if not len(more):
            break
        numbers, left = higher[more], more if isinstance(left, slice) else left[more]


def decode_polyline(text: str, digits: int) -> list[Point]:
    """The points of a polyline. Raises ValueError for an invalid one."""
    numbers: list[int] = []
    value = shift = 0
    for sign in text:
        bits = ord(sign) - 63
        if not 0 <= bits < 64 or shift > 40:
            raise ValueError("no polyline")
        value |= (bits & 0x1F) << shift
        shift += 5
        if bits < 0x20:
            numbers.append(~(value >> 1) if value & 1 else value >> 1)
            value = shift = 0
    if shift or len(numbers) % 2:
        raise ValueError("no polyline")
    lats, lons = itertools.accumulate(numbers[::2]), itertools.accumulate(numbers[1::2])
    return [(lon / 10**digits, lat / 10**digits) for lat, lon in zip(lats, lons)]
