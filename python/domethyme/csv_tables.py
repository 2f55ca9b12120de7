"""Tables in CSV, read row by row, and the numbers in texts.
The path `-` is standard input. What is wrong is a NetworkError with file and row. Needs nothing but Python's own library.
"""
import contextlib
import csv
import difflib
import gzip
import io
import math
import re
import sys
import zlib
from collections.abc import Iterable, Iterator
from typing import IO, NamedTuple, cast

from .errors import NetworkError, raised_as
from .limits import MAX_WEIGHT
from .program import StrPath

MAX_COLUMNS = 12
GZIP, XLSX = b"\x1f\x8b", b"PK\x03\x04"
# How alike two names of columns are, from 0 to 1, for one to be suggested in place of the other.
ALIKE = 0.7
# How a formula begins for programs that show tables, and what is a number to them.
FORMULA, NUMBER = re.compile("'*[-=+@\t\r]"), re.compile(r"[-+]?[0-9]*\.?[0-9]+(?:[eE][-+]?[0-9]+)?")
DIGITS = re.compile("[-+]?[0-9]{1,4000}")
# What may be between fields, and how a command has it.
MARKS, SHELL = {",": "commas", ";": "semicolons", "\t": "tabs"}, {";": "';'", "\t": "tab"}
# (characters of a field: the line of a road of three million points; csv has 131,072 by default)
csv.field_size_limit(max(csv.field_size_limit(), 1 << 26))


@contextlib.contextmanager
def open_input(path: StrPath) -> Iterator[IO[bytes]]:
    """A stream of the file's bytes, unpacked if they are those of gzip; `-` is standard input."""
    with contextlib.ExitStack() as opened:
        stream = cast(io.BufferedReader, sys.stdin.buffer)
        if str(path) != "-":
            with raised_as(NetworkError, path):
                stream = opened.enter_context(open(path, "rb"))
        if stream.peek(4)[:4] == XLSX:
            raise NetworkError("is a spreadsheet, or another archive of zip: save it as CSV", path)
        if stream.peek(2)[:2] != GZIP:
            yield stream
            return
        try:
            yield cast(IO[bytes], opened.enter_context(gzip.open(stream)))
        except (gzip.BadGzipFile, EOFError, zlib.error) as error:
            raise NetworkError(f"isn't a whole file of gzip: {error}", path) from error


# Tables


class Form(NamedTuple):
    """How a table is written: what is between its fields, and before the decimals of a number; and whether that is for its user to say, by
    --delimiter and --decimal."""

    delimiter: str = ","
    decimal: str = "."
    is_chosen: bool = False

    def doubt(self, columns: list[str]) -> str:
        """What is said of a table whose first row is one field, which has another mark in it; nothing of others."""
        other = next((mark for mark in MARKS if mark != self.delimiter and mark in columns[0]), None) if len(columns) == 1 else None
        if other is None:
            return ""
        remedy = f", or give --delimiter {SHELL.get(other, other)}" if self.is_chosen else ""
        return f": fields have to be separated by {MARKS.get(self.delimiter, self.delimiter)}{remedy}"


class Row(dict[str, str]):
    """The texts of a row by their columns, the file and row that they are of, and the form of the table."""

    __slots__ = ("path", "row", "form")
    path: StrPath
    row: int
    form: Form

    def error(self, message: str) -> NetworkError:
        return NetworkError(message, self.path, self.row)

    def read_int(self, column: str, low: int = 0, high: int = MAX_WEIGHT) -> int:
        return parse_int(self[column], column, self.path, self.row, low, high)

    def read_float(self, column: str, low: float = -math.inf, high: float = math.inf) -> float:
        return parse_float(self[column], column, self.path, self.row, low, high, self.form)


class Table:
    """The rows of a CSV file, by the names of its first row, `columns`: iterate for (row, Row)."""

    def __init__(self, path: StrPath, stream: IO[bytes], required: Iterable[str], form: Form = Form()) -> None:
        self.path, self.form = path, form
        self.reader = csv.reader(decode_lines(path, stream), strict=True, delimiter=form.delimiter)
        if (columns := self.next_record()) is None:
            raise NetworkError("is empty", path)
        self.columns = columns
        need_columns(path, self.columns, required, form)

    def __iter__(self) -> Iterator[tuple[int, Row]]:
        while (record := self.next_record()) is not None:
            if not record:
                continue
            fields = Row(zip(self.columns, record))
            fields.path, fields.row, fields.form = self.path, self.reader.line_num, self.form
            if len(record) != len(self.columns):
                raise fields.error(f"has {len(record)} fields in place of {len(self.columns)}")
            yield fields.row, fields

    def next_record(self) -> list[str] | None:
        """The fields of the next record, or None at the end."""
        try:
            record = next(self.reader, None)
        except csv.Error as error:
            raise NetworkError(f"isn't CSV: {error}", self.path, self.reader.line_num) from error
        return record and [unescape_formula(field) for field in record]


def need_columns(path: StrPath, columns: list[str], needed: Iterable[str], form: Form = Form()) -> None:
    """Raises NetworkError that names all columns that are missing, or one that is there twice."""
    names = list(needed)
    if twice := [name for name in names if columns.count(name) > 1]:
        raise NetworkError(f"has two columns {twice[0]}", path, 1)
    if not (missing := [name for name in names if name not in columns]):
        return
    found = ", ".join(columns[:MAX_COLUMNS]) + ", ..." * (len(columns) > MAX_COLUMNS)
    if doubt := form.doubt(columns):
        pass
    elif blank := next((name for name in missing if name in map(str.strip, columns)), None):
        doubt = f": there is a blank beside {blank}"
    elif near := [f"{other} for {name}" for name in missing if (other := alike(name, columns)) is not None]:
        doubt = f": is it {', '.join(near)}?"
    what = "no column" if len(missing) == 1 else "no columns"
    raise NetworkError(f"has {what} {', '.join(missing)}; its columns are {found}{doubt}", path, 1)


def alike(name: str, others: Iterable[str]) -> str | None:
    """The one of other names that is most like a name, whatever its case; None where none is."""
    by_small_letters = {other.lower(): other for other in others}
    found = difflib.get_close_matches(name.lower(), by_small_letters, 1, ALIKE)
    return by_small_letters[found[0]] if found else None


@contextlib.contextmanager
def open_table(path: StrPath, required: Iterable[str], form: Form = Form()) -> Iterator[Table]:
    """The Table of a file (`-` is standard input) that has each of the columns `required` once."""
    with open_input(path) as stream:
        yield Table(path, stream, required, form)


def decode_lines(path: StrPath, stream: IO[bytes]) -> Iterator[str]:
    """The lines of a UTF-8 text; a mark of the byte order at its beginning is dropped."""
    for row, line in enumerate(stream, 1):
        try:
            yield line.decode("utf-8-sig" if row == 1 else "utf-8")
        except UnicodeDecodeError as error:
            raise NetworkError("isn't UTF-8: save it as CSV UTF-8", path, row) from error


def parse_int(text: str | bytes, what: str, path: StrPath, row: int | None, low: int = 0, high: int = MAX_WEIGHT) -> int:
    """The value of a text (or bytes) of decimal digits, maybe with a sign, from low to high."""
    if not DIGITS.fullmatch(text if isinstance(text, str) else text.decode("ascii", "replace")):
        raise NetworkError(f"{what} {excerpt(text)} isn't an integer", path, row)
    value = int(text)
    if not low <= value <= high:
        raise NetworkError(f"{what} {value} isn't from {low} to {high}", path, row)
    return value


def parse_float(
    text: str, what: str, path: StrPath, row: int | None, low: float = -math.inf, high: float = math.inf, form: Form = Form()
) -> float:
    """The value of a decimal number, from low to high."""
    try:
        value = plain_float(text if form.decimal == "." else text.replace(".", " ").replace(form.decimal, "."))
    except ValueError as error:
        doubt = ""
        if form.decimal == "," and "." in text:
            doubt = ": write a comma for the point"
        elif re.fullmatch("[-+]?[0-9]+,[0-9]+", text):
            doubt = ": write a point for the comma" + ", or give --decimal ," * form.is_chosen
        raise NetworkError(f"{what} {excerpt(text)} is not a number{doubt}", path, row) from error
    if not math.isfinite(value):
        raise NetworkError(f"{what} {excerpt(text)} is no finite number", path, row)
    if not low <= value <= high:
        raise NetworkError(f"{what} {excerpt(text)} isn't from {low:g} to {high:g}", path, row)
    return value


def plain_float(text: str) -> float:
    """The value of a number, without the digits of other alphabets and the lines below that Python takes. Raises ValueError."""
    return float(text if text.isascii() and "_" not in text else "")


def escape_formula(text: str) -> str:
    """A text for a field of CSV that a program for sheets takes for no formula: with a quote before it where it begins as one and is no
    number, or has one already. `unescape_formula` undoes it."""
    return f"'{text}" if FORMULA.match(text) and not NUMBER.fullmatch(text) else text


def unescape_formula(text: str) -> str:
    """The text of which `escape_formula` made this one."""
    return text[1:] if text[:1] == "'" and FORMULA.match(text[1:]) and not NUMBER.fullmatch(text[1:]) else text


def excerpt(text: str | bytes) -> str:
    """A text of an input as messages show it: quoted, and not longer than a message should be."""
    text = text.decode("utf-8", "replace") if isinstance(text, bytes) else text
    return repr(text if len(text) <= 40 else text[:40] + "..")
