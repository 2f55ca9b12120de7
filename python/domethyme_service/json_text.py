"""JSON in parts: objects and arrays are joined from texts, and long columns of numbers are written by numpy, each rounded to so
many decimals before. Such a number is the same, once it is parsed, as the one of Python that is nearest to it."""
import itertools
import json
from collections.abc import Callable, Iterable, Mapping
from typing import Any, NamedTuple

import numpy as np
from numpy.typing import NDArray

from domethyme.network.groups import Ints, offsets
from domethyme.network.sphere import Floats

# What `to_json` returns of a text, sooner.
string_json: Callable[[str], str] = vars(json.encoder)["encode_basestring"]
Json = dict[str, Any]
# (no value contains itself)
ENCODER = json.JSONEncoder(separators=(",", ":"), allow_nan=False, ensure_ascii=False, check_circular=False)
# Rows of numbers that are written together.
CHUNK = 1 << 14
# All integers up to this one are exact as numbers of Python.
MOST_EXACT = 1 << 53
# Numbers are written by three digits at a time, in words of four bytes: a sign or a point, and the digits. Bytes that are 0 are left out
# at last.
GROUP, GROUPS = 3, 1000
NOTHING = b"\0"


def words_of(texts: Iterable[str]) -> NDArray[np.uint32]:
    """Texts of up to four characters as words; a blank is left out."""
    return np.array([text.replace(" ", "\0").encode() for text in texts], "S4").view(np.uint32)


# The words of the numbers below GROUPS: of three digits; without zeros before, or behind, of which 0 has one; and the same where 0 has none.
ALL, BEFORE, BEHIND, BEFORE_OR_NONE, BEHIND_OR_NONE = (np.int32(kind * GROUPS) for kind in range(5))
NUMBERS = [f"{number:03}" for number in range(GROUPS)]
WITH_ONE_ZERO = [words_of(f" {strip(text, '0') or '0'}" for text in NUMBERS) for strip in (str.lstrip, str.rstrip)]
WORDS = np.concatenate((words_of(f" {text}" for text in NUMBERS), *WITH_ONE_ZERO, *WITH_ONE_ZERO))
WORDS[[BEFORE_OR_NONE, BEHIND_OR_NONE]] = 0
MINUS, POINT, COMMA, NEXT, NULL = words_of(["-", ".", ",", "],[", "null"])
BEHIND_POINT = WORDS | POINT


def to_json(value: object) -> str:
    return ENCODER.encode(value)


def figure_json(value: float | None) -> str:
    """What `to_json` returns, sooner, of a number that is finite, or none."""
    return "null" if value is None else repr(value)


def join_object(members: Mapping[str, str]) -> str:
    """An object, from the texts of its members."""
    return "{" + ",".join(f"{string_json(name)}:{text}" for name, text in members.items()) + "}"


def join_array(items: Iterable[str]) -> str:
    """An array, from the texts of its items."""
    return f"[{','.join(items)}]"


class Texts(NamedTuple):
    """Texts of rows, with a comma behind each: row k is text[begins[k]:begins[k + 1] - 1]."""

    text: str
    begins: Ints

    def array(self, first: int, behind: int) -> str:
        """The array of some rows."""
        return self.arrays(np.array([first]), np.array([behind]))[0]

    def arrays(self, firsts: Ints, behind: Ints) -> list[str]:
        """The array of the rows firsts[k]:behind[k], for each k."""
        text, bounds = self.text, zip(self.begins[firsts].tolist(), self.begins[behind].tolist())
        return [f"[{text[begin : end - 1]}]" if begin < end else "[]" for begin, end in bounds]

    def rows(self, numbers: Ints) -> list[str]:
        """Some rows."""
        text, bounds = self.text, zip(self.begins[numbers].tolist(), self.begins[numbers + 1].tolist())
        return [text[begin : end - 1] for begin, end in bounds]

    def all_rows(self) -> list[str]:
        text = self.text
        return [text[begin : end - 1] for begin, end in itertools.pairwise(self.begins.tolist())]


def number_texts(values: Ints, digits: int, is_null: NDArray[np.bool_] | None = None) -> Texts:
    """Integers of 10**-digits: with at least one decimal unless there are no digits, and null where they are none."""
    return joined_texts(values[:, None], digits, is_null)


def decimal_texts(values: Floats, digits: int) -> Texts:
    """Numbers, rounded to so many digits, at least one; NaN is null."""
    is_null, scaled = np.isnan(values), np.rint(values * 10**digits)
    scaled[is_null] = 0
    if np.abs(scaled).max(initial=0) < MOST_EXACT:
        return number_texts(scaled.astype(np.int64), digits, is_null if is_null.any() else None)
    texts = [f"{'null' if is_none else to_json(value)}," for value, is_none in zip(values.round(digits).tolist(), is_null)]
    return Texts("".join(texts), offsets(np.array([*map(len, texts)])))


def point_texts(points: Ints, digits: int) -> Texts:
    """Points of shape (points, 2), as arrays of two numbers of 10**-digits."""
    return joined_texts(points, digits, None)


def joined_texts(rows: Ints, digits: int, is_null: NDArray[np.bool_] | None) -> Texts:
    """Rows of one number, or arrays of several."""
    width, is_array = len(str(max(int(rows.max(initial=0)), -int(rows.min(initial=0))))), rows.shape[1] > 1
    parts = (slice(begin, begin + CHUNK) for begin in range(0, len(rows), CHUNK))
    words = (words_of_rows(rows[part], width, digits, None if is_null is None else is_null[part]) for part in parts)
    text = b"".join(some.tobytes().translate(None, NOTHING) for some in words)
    ends = (np.frombuffer(text, np.uint8) == ord("[" if is_array else ",")).nonzero()[0]
    begins = np.zeros(len(ends) + 1, np.int64)
    np.add(ends, 1, out=begins[1:])
    # (the bracket of each array but the first one comes with the comma before it)
    return Texts(("[" * is_array + text.decode("ascii"))[: len(text)], begins)


def words_of_rows(rows: Ints, width: int, digits: int, is_null: NDArray[np.bool_] | None) -> NDArray[np.uint32]:
    """The words of numbers with up to `width` digits, and of what is behind them; of shape (rows, numbers in a row, words)."""
    before, behind = -(-max(width - digits, 1) // GROUP), -(-digits // GROUP)
    words = np.empty((*rows.shape, before + behind + 1), np.uint32)
    left = np.abs(rows).astype(np.int32 if width < 10 else np.int64)
    whole = left // 10**digits if digits else left
    rest = left - whole * 10**digits
    for place in range(before - 1, 0, -1):
        higher = whole // GROUPS
        zero = BEFORE if place == before - 1 else BEFORE_OR_NONE
        words[..., place] = WORDS.take(whole - higher * GROUPS + zero * (higher == 0))
        whole = higher
    words[..., 0] = WORDS.take(whole + (BEFORE if before == 1 else BEFORE_OR_NONE))
    if (is_negative := rows < 0).any():
        words[..., 0] |= MINUS * is_negative
    unit, table, zero = 10**digits, BEHIND_POINT, BEHIND
    for place in range(before, before + behind - 1):
        unit //= GROUPS
        group = rest // unit
        rest = rest - group * unit
        words[..., place] = table.take(group + zero * (rest == 0))
        table, zero = WORDS, BEHIND_OR_NONE
    if behind:
        words[..., -2] = table.take(rest * (GROUPS // unit) + zero)
    words[..., -1] = COMMA
    if is_null is not None:
        words[is_null, 0, 0], words[is_null, 0, 1:-1] = NULL, 0
    if rows.shape[1] > 1:
        words[:, -1, -1] = NEXT
    return words
