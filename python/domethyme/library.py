"""Finds the library libdomethyme and declares its calls, those of docs/LIBRARY.md, for ctypes."""
import ctypes
import errno
import functools
import os
import pathlib

from .errors import LibraryNotFound
from .program import StrPath

HERE = pathlib.Path(__file__).resolve().parent
NAME = "libdomethyme.so.1"
INSIDE = HERE / NAME
BUILT = HERE.parents[1] / "out/library" / NAME
# The length of a pair without a path, and the limit of what is reached that is none.
NO_LENGTH = (1 << 64) - 1
# What calls return; from FIRST_FAULT on the faults of a file.
OK, CODE_NO_PATH, NO_ROOM, OUT_OF_MEMORY, TOO_LONG, FIRST_FAULT = 0, 1, 4, 5, 6, 34
# Bytes that the text of a code has at most.
TEXT = 80


class Handle(ctypes.Structure):
    """A router of one hierarchy, or none. It has one owner, which calls it in one thread at a time and closes it."""

    _fields_ = [("router", ctypes.c_void_p)]


class Seed(ctypes.Structure):
    """A start or an end: its node, and the length and arcs that are added there."""

    _fields_ = [("length", ctypes.c_uint64), ("node", ctypes.c_uint32), ("arcs", ctypes.c_uint32)]


class RouteInfo(ctypes.Structure):
    """How long a route is, and how many nodes it has."""

    _fields_ = [("length", ctypes.c_uint64), ("nodes", ctypes.c_size_t)]


class BetweenInfo(ctypes.Structure):
    """The same of a route from one of several starts to one of several ends, and their places in the lists."""

    _fields_ = [("length", ctypes.c_uint64), ("start", ctypes.c_size_t), ("end", ctypes.c_size_t), ("nodes", ctypes.c_size_t)]


A_HANDLE = ctypes.POINTER(Handle)
A_NUMBER, A_LENGTH = ctypes.POINTER(ctypes.c_uint32), ctypes.POINTER(ctypes.c_uint64)
# Arrays are passed by their addresses.
ARRAY, NODE, COUNT = ctypes.c_void_p, ctypes.c_uint32, ctypes.c_size_t
ARGUMENTS: dict[str, list[type]] = {
    "open": [A_HANDLE, ARRAY, COUNT],
    "close": [A_HANDLE],
    "beside": [A_HANDLE, A_HANDLE],
    "nodes": [A_HANDLE, A_NUMBER],
    "version": [A_HANDLE, A_NUMBER],
    "length": [A_HANDLE, NODE, NODE, A_LENGTH],
    "route": [A_HANDLE, NODE, NODE, ctypes.POINTER(RouteInfo), ARRAY, COUNT],
    "between": [A_HANDLE, ARRAY, COUNT, ARRAY, COUNT, ctypes.POINTER(BetweenInfo), ARRAY, COUNT],
    "lengths": [A_HANDLE, ARRAY, COUNT, ARRAY, COUNT],
    "table": [A_HANDLE, ARRAY, COUNT, ARRAY, COUNT, ARRAY, COUNT],
    "open_turned": [A_HANDLE, ARRAY, COUNT],
    "reach": [A_HANDLE, ARRAY, COUNT, ctypes.c_uint64, ARRAY, COUNT],
    "links": [A_HANDLE, ctypes.POINTER(ctypes.c_size_t)],
    "arcs": [A_HANDLE, ARRAY, COUNT, ctypes.POINTER(ctypes.c_size_t)],
    "numbers": [A_HANDLE, ARRAY, COUNT, ARRAY, COUNT],
    "table_sums": [A_HANDLE, ARRAY, COUNT, ARRAY, COUNT, ARRAY, COUNT, ARRAY, COUNT],
    "reach_sums": [A_HANDLE, ARRAY, COUNT, ARRAY, COUNT, ARRAY, COUNT, ctypes.c_uint64, ARRAY, COUNT],
    "text": [ctypes.c_uint32, ctypes.c_char_p, COUNT],
}
RETURNS: dict[str, type | None] = {"close": None, "text": COUNT}
GET_IT = "install libdomethyme1, build it by packaging/build-library, or set DOMETHYME_LIBRARY"


def find_library(named: StrPath | None = None) -> str:
    """The path of libdomethyme: what is named, or DOMETHYME_LIBRARY, else the one inside this package (of a wheel), else
    the one that was built in this repository, else the system's. Raises LibraryNotFound for one that is named and isn't
    there."""
    if choice := named or os.environ.get("DOMETHYME_LIBRARY"):
        if not os.path.isfile(choice):
            why = "is no file of a library" if os.path.exists(choice) else os.strerror(errno.ENOENT)
            raise LibraryNotFound(f"{os.fspath(choice)}: {why}")
        return os.path.abspath(choice)
    return next((str(place) for place in (INSIDE, BUILT) if place.is_file()), NAME)


@functools.cache
def load_library() -> ctypes.CDLL:
    """The library, which releases the interpreter's lock while it works. Raises LibraryNotFound."""
    path = find_library()
    try:
        found = ctypes.CDLL(path)
        for name, arguments in ARGUMENTS.items():
            call = getattr(found, f"domethyme_{name}")
            call.argtypes, call.restype = arguments, RETURNS.get(name, ctypes.c_uint32)
    except (OSError, AttributeError) as error:
        why = str(error).removeprefix(f"{path}: ")
        raise LibraryNotFound(f"{path}: {why}; {GET_IT}") from None
    return found


def error_message(code: int) -> str:
    text = ctypes.create_string_buffer(TEXT)
    load_library().domethyme_text(code, text, TEXT)
    return text.value.decode("ascii", "replace")
